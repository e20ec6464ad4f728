//! Choosing the evidence figure: how many dots pass at each, what is new when it is turned down, and the layer kept as
//! bytes.
//!
//! `cargo run --release --example figure`

use std::io::Write;
use std::process::ExitCode;

use safeteal::{
    Census, Channel, Fate, Frame, LayerBuf, MotionBuf, Pair, Ratio, Result, Settings, Size, Sums,
};

const SIZE: Size = Size::new(160, 96);
/// The camera goes so many pixels to the right from frame to frame.
const STEP: usize = 6;

/// A made-up frame as packed 4:2:0 bytes: blocks that go by, and two bars that stand still. The lower one covers less.
fn packed(number: usize) -> Vec<u8> {
    let scene = |x: usize, y: usize| {
        let (across, down) = ((x + number * STEP) / 7, y / 7);
        40 + (across * 67 + down * 41 + across * down * 13) % 120
    };
    let byte = |at: usize| {
        let (x, y) = (at % SIZE.width, at / SIZE.width);
        let cover = match (x, y) {
            (40..44, 20..36) => 60,
            (90..94, 60..76) => 35,
            _ => 0,
        };
        (scene(x, y) * (100 - cover) / 100 + 2 * cover) as u8
    };
    let luma = SIZE.width * SIZE.height;
    let chroma = vec![128; luma / 2];
    (0..luma).map(byte).chain(chroma).collect()
}

fn summed() -> Result<Sums> {
    let motion = MotionBuf::pan(SIZE, (STEP as i32, 0))?;
    let mut sums = Sums::new(SIZE, Ratio::Two)?;
    let mut first = Frame::from_i420(SIZE, &packed(0))?;
    for number in 1..=Sums::MOST {
        let second = Frame::from_i420(SIZE, &packed(number))?;
        sums.add(&Pair::of(&first, &second, &motion)?)?;
        first = second;
    }
    Ok(sums)
}

/// What the example says.
fn report() -> Result<String> {
    let sums = summed()?;
    let census = Census::of(None, &sums, None, Settings::default())?;
    let high = census.highest(1).unwrap_or(0.0);
    // Both bars have 64 dots each. Below that figure dots pass that are no bar.
    let low = census.highest(128).unwrap_or(0.0);
    let fit = |evidence| {
        let settings = Settings {
            evidence,
            ..Settings::default()
        };
        LayerBuf::fit(None, &sums, None, settings)
    };
    let (first, second) = (fit(high)?, fit(low)?);
    let (_, counts) = second.peeled(&Frame::from_i420(SIZE, &packed(5))?)?;
    let (luma, all) = (counts.luma, counts.total());
    Ok(format!(
        "dots that pass at each figure:\n{census}from figure {high} to {low}:\n{}{}\
         lifted off a frame: {luma} pixels of luma, {all} in all\n",
        compared(&first, &second)?,
        kept(&second)?,
    ))
}

/// What the lower figure adds, and that it takes nothing away.
fn compared(first: &LayerBuf, second: &LayerBuf) -> Result<String> {
    let difference = first.compare(second)?;
    let keeps = difference.keeps_all();
    let mut dots = difference.dots(Channel::Luma);
    let new = dots.find(|dot| dot.fate == Fate::New);
    let new = new.map_or_else(String::new, |dot| {
        let (x, y) = (dot.x, dot.y);
        let gain = second.gain(x, y);
        format!("the first new dot is at ({x}, {y}), gain {gain}\n")
    });
    Ok(format!(
        "{difference}\nall that passed is still there, unchanged: {keeps}\n{new}"
    ))
}

/// The layer as bytes for a file, and back.
fn kept(layer: &LayerBuf) -> Result<String> {
    let bytes = layer.to_le_bytes();
    let slices = bytes.each_ref().map(Vec::as_slice);
    let same = LayerBuf::from_le_bytes(slices, layer.size(), layer.ratio())? == *layer;
    let length = slices.concat().len();
    Ok(format!("kept as {length} bytes and read again: {same}\n"))
}

fn main() -> ExitCode {
    let said = match std::env::args().nth(1).as_deref() {
        None => report(),
        Some("--help" | "-h") => Ok(
            "figure: chooses the evidence figure for a made-up clip; there are no options\n".into(),
        ),
        Some(word) => {
            eprintln!("figure: there is no option {word:?}; there are none");
            return ExitCode::from(2);
        }
    };
    match said {
        Ok(text) => {
            // Whoever closes the pipe has read enough.
            let _ = std::io::stdout().write_all(text.as_bytes());
            ExitCode::SUCCESS
        }
        Err(error) => {
            eprintln!("figure: {error}");
            ExitCode::FAILURE
        }
    }
}

#[cfg(test)]
mod tests {
    use super::*;

    #[test]
    fn both_bars_pass_and_the_first_stays() -> Result<()> {
        let report = report()?;
        for line in [
            "24: 64 dots, 64 peeled",
            "16: 128 dots, 128 peeled",
            "from figure 24 to 16:",
            "all that passed is still there, unchanged: true",
            "kept as 92160 bytes and read again: true",
            "lifted off a frame: 128 pixels of luma, 192 in all",
        ] {
            assert!(report.lines().any(|said| said == line), "{line}:\n{report}");
        }
        Ok(())
    }
}
