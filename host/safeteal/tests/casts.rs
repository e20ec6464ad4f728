//! Heavy colour casts are fitted: a chroma offset's total is summed whole and then held to what 16 bits allow, and with
//! such a layer the lettering is lifted and laid back.

use safeteal::{
    fit, Channel, Frame, LayerBuf, MotionBuf, Pair, Part, Parts, Ratio, Result, Settings, Size,
    Sums, Work,
};

/// The sums of a luma pixel by one pair: the scene is dark, then of 200, and the lettering shows 0, then 100.
const HALF: [f32; 6] = [200.0, 100.0, 40_000.0, 20_000.0, 10_000.0, 1.0];
/// The lettering shows 100, then 0: the gain is as large and below 0.
const TURNED: [f32; 6] = [200.0, 100.0, 40_000.0, 0.0, 10_000.0, 1.0];
/// Nothing is found.
const NONE: [f32; 6] = [0.0; 6];

/// The offsets that fit stores in both planes at the one chroma pixel of 4 by 4 luma pixels with these sums. `chroma`
/// are its sums in plane 1; in plane 2 they have the other sign.
fn fitted(luma: [[f32; 6]; 16], chroma: [f32; 2]) -> [i16; 2] {
    let (size, ratio) = (Size::new(4, 4), Ratio::Four);
    let own = Part {
        luma: luma.as_flattened(),
        chroma: [&chroma, &chroma.map(|sum| -sum)],
        pairs: 1,
    };
    let settings = Settings {
        evidence: 1.0,
        ..Settings::default()
    };
    let work = Work {
        models: &mut [0.0; 64],
        kept: &mut [0; 16],
        cover: &mut [0],
    };
    let mut layer = LayerBuf::new(size, ratio).expect("a small layer");
    let answer = fit(
        Parts::alone(own),
        size,
        ratio,
        settings,
        work,
        layer.layer_mut(),
    );
    answer.expect("any colour cast");
    layer.layer().chroma.map(|numbers| numbers[0])
}

/// Luma pixels: so many of the one kind, then so many of the other, and nothing found at the rest.
fn pixels(half: usize, turned: usize) -> [[f32; 6]; 16] {
    let mut luma = [NONE; 16];
    luma[..half].fill(HALF);
    luma[half..half + turned].fill(TURNED);
    luma
}

#[test]
fn a_fitted_total_is_held() {
    // Each pixel that is found adds twice the second sum, whatever its gain is where the first is 0.
    for (found, second, [high, low]) in [
        (6, 2730.5, [32766, -32766]),
        (7, 2340.5, [32767, -32767]),
        (8, 2048.0, [32767, -32768]),
        (3, 5461.5, [32767, -32768]),
        (16, 1e9, [32767, -32768]),
    ] {
        let luma = pixels(found, 0);
        assert_eq!(
            fitted(luma, [0.0, second]),
            [high, low],
            "{found} of {second}"
        );
        assert_eq!(
            fitted(luma, [0.0, -second]),
            [low, high],
            "{found} of -{second}"
        );
    }
}

#[test]
fn a_fitted_total_is_summed_whole() {
    // A pixel adds minus twice its gain times the first sum; with a gain below 0 as much the other way.
    let [one, other] = fitted(pixels(1, 0), [8192.0, 0.0]);
    assert_eq!([one, other], [-8189, 8189]);
    // After eight it is -65512.
    assert_eq!(fitted(pixels(8, 8), [8192.0, 0.0]), [0, 0]);
    assert_eq!(fitted(pixels(8, 6), [8192.0, 0.0]), [2 * one, 2 * other]);
    assert_eq!(fitted(pixels(8, 4), [8192.0, 0.0]), [4 * one, 4 * other]);
    assert_eq!(fitted(pixels(8, 3), [8192.0, 0.0]), [-32768, 32767]);
}

const SIZE: Size = Size::new(96, 64);
/// The camera goes so many pixels to the right from frame to frame.
const STEP: usize = 6;
/// The red of the stage, in plane 2.
const RED: u8 = 245;

/// Whether the lettering, a bar of 4 by 16 dots, stands there.
fn is_bar(x: usize, y: usize) -> bool {
    (40..44).contains(&x) && (24..40).contains(&y)
}

/// The dark stage that goes by.
fn stage(number: usize, x: usize, y: usize) -> u8 {
    let (across, down) = ((x + number * STEP) / 5, y / 5);
    10 + ((across * 67 + down * 41 + across * down * 13) % 46) as u8
}

/// A frame in red light. The bar is four times as bright as the stage, and as red.
fn frame(number: usize) -> Result<Frame> {
    let mut frame = Frame::new(SIZE, Ratio::Two, [0, 110, RED])?;
    for y in 0..SIZE.height {
        for (x, byte) in frame[Channel::Luma].row_mut(y).iter_mut().enumerate() {
            let light = if is_bar(x, y) { 4 } else { 1 };
            *byte = light * stage(number, x, y);
        }
    }
    Ok(frame)
}

/// The layer of twelve pairs.
fn layer() -> Result<LayerBuf> {
    let motion = MotionBuf::pan(SIZE, (STEP as i32, 0))?;
    let mut sums = Sums::new(SIZE, Ratio::Two)?;
    for number in 0..Sums::MOST {
        let (first, second) = (frame(number)?, frame(number + 1)?);
        sums.add(&Pair::of(&first, &second, &motion)?)?;
    }
    let settings = Settings {
        evidence: 24.0,
        ..Settings::default()
    };
    LayerBuf::fit(None, &sums, None, settings)
}

/// With a gain of almost 4 the red needs an offset of some 245 - 4 * 245, and -512 is the lowest that can be stored.
#[test]
fn a_red_stage_is_fitted() -> Result<()> {
    let layer = layer()?;
    let [blue, red] = [Channel::Chroma1, Channel::Chroma2].map(|channel| layer.texels(channel));
    let bar: Vec<(usize, usize)> = red.layered().collect();
    assert_eq!(bar.len(), 2 * 8);
    for (x, y) in bar {
        assert!(is_bar(2 * x, 2 * y), "({x}, {y})");
        let gain = red.gain(x, y);
        let needed = |byte: u8| f32::from(byte) * (1.0 - gain);
        assert!(needed(RED) < -600.0, "{gain}");
        assert_eq!(red.offset(x, y), -512.0);
        let apart = blue.offset(x, y) - needed(110);
        assert!(apart.abs() < 0.5, "{apart}");
    }
    Ok(())
}

#[test]
fn the_bar_is_lifted_off_the_stage_and_laid_back() -> Result<()> {
    let (layer, first, second) = (layer()?, frame(5)?, frame(6)?);
    let (mut output, counts) = layer.peeled(&first)?;
    assert_eq!((counts.luma, counts.chroma1, counts.chroma2), (64, 16, 16));
    for (x, y) in layer.texels(Channel::Luma).layered() {
        let apart = output[Channel::Luma].row(y)[x].abs_diff(stage(5, x, y));
        assert!(apart <= 1, "({x}, {y}) is {apart} off the stage");
    }
    let red = layer.texels(Channel::Chroma2);
    for (x, y) in red.layered() {
        let near = (f32::from(RED) + 512.0) / red.gain(x, y);
        assert_eq!(output[Channel::Chroma2].row(y)[x], near.round() as u8);
    }
    assert_eq!(layer.unpeel(&mut output, &first, &second, 0.0)?, counts);
    for (x, y) in layer.texels(Channel::Luma).layered() {
        let [laid, was] = [&output, &first].map(|frame| frame[Channel::Luma].row(y)[x]);
        // A lifted byte is rounded, and the bar shows it four times as bright.
        assert!(
            laid.abs_diff(was) <= 2,
            "({x}, {y}) is {laid} and was {was}"
        );
    }
    for channel in [Channel::Chroma1, Channel::Chroma2] {
        assert_eq!(output[channel], first[channel]);
    }
    Ok(())
}
