//! A planner's loop over a whole clip: pair by pair, with a layer for each chunk of twelve pairs, sent on as a parcel.
//!
//! `cargo run --release --example walk`

use std::io::Write;
use std::process::ExitCode;

use safeteal::{
    Channel, Frame, LayerBuf, MotionBuf, Pair, Ratio, Result, Settings, Size, Sums, Walk,
};

const SIZE: Size = Size::new(160, 96);
const PAIRS: usize = 100;
/// The camera goes so many pixels to the right from frame to frame.
const STEP: usize = 6;

/// A made-up frame: blocks that go by, and a bar of 4 by 16 dots that stands still, from frame 60 on at another place.
fn frame(number: usize) -> Result<Frame> {
    let mut frame = Frame::new(SIZE, Ratio::Two, [0, 128, 128])?;
    let bar = if number < 60 { 40..44 } else { 90..94 };
    for y in 0..SIZE.height {
        for (x, byte) in frame[Channel::Luma].row_mut(y).iter_mut().enumerate() {
            let (across, down) = ((x + number * STEP) / 7, y / 7);
            let scene = 20 + (across * 67 + down * 41 + across * down * 13) % 120;
            let barred = bar.contains(&x) && (20..36).contains(&y);
            *byte = if barred { scene / 2 + 100 } else { scene } as u8;
        }
    }
    Ok(frame)
}

/// What is asked of a chunk's layer: a pair gives two comparisons, and the bar stood apart in nine of ten, in the chunk
/// and in one beside it.
fn settings(walk: &Walk, chunk: usize) -> Settings {
    let comparisons = 2 * (walk.chunk(chunk).len() + Sums::MOST);
    Settings {
        evidence: 0.9 * comparisons as f32,
        ..Settings::default()
    }
}

/// Walks over the clip, and hands each layer on as soon as it is due.
fn walk(mut send: impl FnMut(usize, &LayerBuf)) -> Result<Walk> {
    let motion = MotionBuf::pan(SIZE, (STEP as i32, 0))?;
    let mut walk = Walk::new(SIZE, Ratio::Two, PAIRS)?;
    let mut first = frame(0)?;
    for number in 0..PAIRS {
        let second = frame(number + 1)?;
        walk.push(&Pair::of(&first, &second, &motion)?)?;
        while walk.is_due() {
            let chunk = walk.taken();
            let layer = walk.layer(settings(&walk, chunk))?;
            send(chunk, &layer);
        }
        first = second;
    }
    Ok(walk)
}

/// What the example says.
fn report() -> Result<String> {
    let (mut lines, mut sent) = (Vec::new(), 0);
    let walk = walk(|chunk, layer| {
        let mut dots = layer.texels(Channel::Luma).layered();
        let (first, rest) = (dots.next(), dots.count());
        let place = first.map_or_else(
            || "nothing found".to_owned(),
            |(x, y)| format!("{} dots, the first at ({x}, {y})", rest + 1),
        );
        lines.push((chunk, place));
        sent += layer.to_parcel().len();
    })?;
    let bytes = Walk::bytes(SIZE, Ratio::Two);
    let mut said = format!("a walk over {PAIRS} pairs of {SIZE} takes {bytes} bytes\n");
    for (chunk, place) in lines {
        let pairs = walk.chunk(chunk);
        let (begins, last) = (pairs.start, pairs.end - 1);
        said += &format!("layer {chunk}, pairs {begins} to {last}: {place}\n");
    }
    let layers = walk.taken();
    Ok(said + &format!("{layers} layers sent on as parcels, {sent} bytes in all\n"))
}

fn main() -> ExitCode {
    let said = match std::env::args().nth(1).as_deref() {
        None => report(),
        Some("--help" | "-h") => {
            Ok("walk: walks over a made-up clip of a hundred pairs; there are no options\n".into())
        }
        Some(word) => {
            eprintln!("walk: there is no option {word:?}; there are none");
            return ExitCode::from(2);
        }
    };
    match said {
        Ok(text) => {
            // Whoever closes the pipe has read enough.
            let _ = std::io::stdout().write_all(text.as_bytes());
            ExitCode::SUCCESS
        }
        Err(error) => {
            // The words name the call, what was wrong, and what to do.
            eprintln!("walk: {error}");
            ExitCode::FAILURE
        }
    }
}

#[test]
fn every_layer_has_the_bar_and_nothing_else() -> Result<()> {
    let mut layers = Vec::new();
    let walk = walk(|chunk, layer| layers.push((chunk, layer.clone())))?;
    assert!(walk.is_done());
    assert!(layers.iter().map(|(chunk, _)| *chunk).eq(0..9));
    for (chunk, layer) in layers {
        let left = if chunk < 5 { 40 } else { 90 };
        let bar = (20..36).flat_map(|y| (left..left + 4).map(move |x| (x, y)));
        let dots = layer.texels(Channel::Luma);
        assert!(dots.layered().eq(bar), "chunk {chunk}");
    }
    Ok(())
}
