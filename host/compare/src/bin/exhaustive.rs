//! `cargo run --release --bin exhaustive`: all 2^32 floats through the final rounding and both stored scales.

use std::sync::atomic::{AtomicU32, Ordering};

use safeteal::ffi;
use words::{line, note, Command};

const COMMAND: Command = Command {
    name: "exhaustive",
    does: "all 2^32 floats through the final rounding and both stored scales, beside the Rust's expressions",
    plain: &[],
    needed: 0,
    options: &[],
    more: "It takes every processor. The status is 1 where a float differs.",
};

/// One function of one float, on both sides.
struct Helper {
    name: &'static str,
    ours: fn(f32) -> u64,
    rust: fn(f32) -> u64,
}

/// The Rust's expressions: `pixel` and `fixed` of layer.rs.
const HELPERS: [Helper; 3] = [
    Helper {
        name: "pixel",
        ours: ffi::pixel,
        rust: |value| u64::from(value.round().clamp(0.0, 255.0) as u8),
    },
    Helper {
        name: "stored gain",
        ours: |value| bits(ffi::stored(value, 4096.0)),
        rust: |value| stored(value, 4096.0),
    },
    Helper {
        name: "stored offset",
        ours: |value| bits(ffi::stored(value, 64.0)),
        rust: |value| stored(value, 64.0),
    },
];

fn stored(value: f32, scale: f32) -> u64 {
    bits((value * scale).round().clamp(-32767.0, 32767.0) as i16)
}

fn bits(number: i16) -> u64 {
    u64::from(number as u16)
}

/// Runs of 2^24 floats, and how many of them are done between two lines of progress.
const PARTS: u32 = 256;
const SHOWN: u32 = 32;

/// A float of that part on which the two sides differ.
fn difference(helper: &Helper, part: u32) -> Option<f32> {
    let mut floats = (part << 24..=part << 24 | 0x00ff_ffff).map(f32::from_bits);
    floats.find(|&value| (helper.ours)(value) != (helper.rust)(value))
}

/// Goes through all parts on all processors; the least float in bits on which the two sides differ.
fn searched(helper: &Helper) -> Option<f32> {
    let next = AtomicU32::new(0);
    let work = || {
        let mut found: Option<f32> = None;
        while found.is_none() {
            let part = next.fetch_add(1, Ordering::Relaxed);
            if part >= PARTS {
                break;
            }
            found = difference(helper, part);
            if (part + 1) % SHOWN == 0 {
                note(&format!("  {}: {} of {PARTS} parts", helper.name, part + 1));
            }
        }
        found
    };
    std::thread::scope(|scope| {
        let workers = std::thread::available_parallelism().map_or(1, usize::from);
        let workers: Vec<_> = (0..workers).map(|_| scope.spawn(work)).collect();
        let found = workers
            .into_iter()
            .filter_map(|worker| worker.join().expect("no panic"));
        found.min_by_key(|value| value.to_bits())
    })
}

fn main() {
    // It takes no words, and refuses those that are given before it begins.
    let _ = COMMAND.asked();
    let mut differences = 0;
    for helper in &HELPERS {
        match searched(helper) {
            None => line(&format!("{}: equal on all 4294967296 floats", helper.name)),
            Some(value) => {
                differences += 1;
                let (ours, rust) = ((helper.ours)(value), (helper.rust)(value));
                let bits = value.to_bits();
                line(&format!(
                    "{}: {value:?} ({bits:#010x}) gives {ours}, the Rust {rust}",
                    helper.name
                ));
            }
        }
    }
    std::process::exit(i32::from(differences > 0));
}
