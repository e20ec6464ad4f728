//! `./demo` in the project's root, or `cargo run --release --bin demo`: the library's main job on a made-up clip.
//!
//! The clip is made up by code, its lettering found, lifted and laid back with the library, with pictures of each step.
#![deny(unsafe_code)]

// Where nobody reads its lines any more (`./demo | head -1`), the demo ends quietly.
#[macro_use(print, println, eprintln)]
extern crate words;

use std::process::ExitCode;

// The clip.
mod clip;
mod font;
mod lettering;
mod town;

// What is done with it.
mod between;
mod dots;
mod finding;
mod planes;
mod story;

// What is seen of it.
mod deflate;
mod gallery;
mod options;
mod picture;
mod png;
#[cfg(test)]
mod reader;
mod report;
mod sheet;
mod summary;

use options::{read, Asked, HELP};

fn main() -> ExitCode {
    let run = match read(std::env::args().skip(1)) {
        Ok(Asked::Help) => {
            print!("{HELP}");
            return ExitCode::SUCCESS;
        }
        Ok(Asked::Run(options)) => story::run(&options),
        Err(words) => Err(words.into()),
    };
    match run {
        Ok(()) => ExitCode::SUCCESS,
        Err(words) => {
            eprintln!("demo: {words}");
            ExitCode::from(2)
        }
    }
}
