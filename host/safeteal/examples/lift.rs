//! `cargo run --release --example lift`: the lettering is lifted off a clip whose frames come as raw planes.
//!
//! The planes stay where they are and are lent with their size and pitch. Pairs of neighbouring frames are added up,
//! twelve to a part; each part is fitted with its neighbours; and the lettering is lifted off all frames on several
//! threads. The clip is made up here: a camera goes over a scene, and a mark stands still on every frame. In place of
//! `decode` and of the known pan stand a decoder and a search for motion.

use std::num::NonZero;
use std::process::ExitCode;
use std::thread;

use safeteal::{
    Channel, Counts, Error, LayerBuf, MotionBuf, Pair, Plane, PlaneMut, Ratio, Refusal, Settings,
    Size, Sums,
};

const SIZE: Size = Size::new(192, 108);
const RATIO: Ratio = Ratio::Two;
const FRAMES: usize = 30;

/// Bytes from one row's start to the next, as decoders leave them: more than a row has pixels.
const PITCHES: [usize; 3] = [256, 128, 128];

/// A frame as it is handed over: luma and the two planes of chroma, rows padded.
#[derive(Clone)]
struct Raw([Vec<u8>; 3]);

impl Raw {
    /// One plane to read; nothing is copied.
    fn plane(&self, channel: Channel) -> Plane<'_> {
        let at = channel.number();
        Plane::pitched(&self.0[at], SIZE.plane(channel, RATIO), PITCHES[at])
    }

    fn planes(&self) -> [Plane<'_>; 3] {
        [Channel::Luma, Channel::Chroma1, Channel::Chroma2].map(|channel| self.plane(channel))
    }

    /// One plane to write.
    fn plane_mut(&mut self, channel: Channel) -> PlaneMut<'_> {
        let at = channel.number();
        PlaneMut::pitched(&mut self.0[at], SIZE.plane(channel, RATIO), PITCHES[at])
    }
}

/// How far to the right the camera is at a frame. It never goes as far twice, so that only the mark stands still.
fn camera(frame: usize) -> usize {
    4 * frame + frame * frame / 3
}

/// Whether the mark, four strokes of 3 by 20 dots, stands at a pixel of luma. The camera goes farther than a stroke is
/// wide from one frame to the next, and less far than they stand apart.
fn is_marked(x: usize, y: usize) -> bool {
    let stroke = |from: usize| (from..from + 3).contains(&x);
    [40, 70, 104, 142].into_iter().any(stroke) && (30..50).contains(&y)
}

/// The scene without the mark.
fn scene(frame: usize, x: usize, y: usize) -> u8 {
    let x = x + camera(frame);
    ((x * 37 + x / 5 * 53 + y * 11 + x * y / 7) % 120) as u8
}

fn decode(frame: usize) -> Raw {
    let mut raw = Raw(PITCHES.map(|pitch| vec![128; pitch * SIZE.height]));
    for y in 0..SIZE.height {
        for x in 0..SIZE.width {
            let under = scene(frame, x, y);
            let byte = if is_marked(x, y) {
                under / 3 + 150
            } else {
                under
            };
            raw.0[0][y * PITCHES[0] + x] = byte;
        }
    }
    raw
}

/// The sums of all pairs of the clip, in parts of as many pairs as fit in.
fn add_up(clip: &[Raw]) -> Result<Vec<Sums>, Error> {
    let (mut parts, mut own) = (Vec::new(), Sums::new(SIZE, RATIO)?);
    for (number, frames) in clip.windows(2).enumerate() {
        let pan = (camera(number + 1) - camera(number)) as i32;
        let motion = MotionBuf::pan(SIZE, (pan, 0))?;
        let pair = Pair::new(frames[0].planes(), frames[1].planes(), motion.motion())?;
        match own.add(&pair) {
            // Twelve pairs are in: the next part begins.
            Err(error) if error.refusal() == Refusal::Pairs => {
                parts.push(std::mem::replace(&mut own, Sums::new(SIZE, RATIO)?));
                own.add(&pair)?;
            }
            answer => answer?,
        }
    }
    parts.push(own);
    Ok(parts)
}

/// A layer for each part, fitted to its sums and those of its neighbours.
fn fit(parts: &[Sums]) -> Result<Vec<LayerBuf>, Error> {
    let fitted = |at: usize| {
        let previous = at.checked_sub(1).map(|at| &parts[at]);
        let (own, next) = (&parts[at], parts.get(at + 1));
        // A pair gives two comparisons. What stood apart in all of them is the mark.
        let around = [previous, Some(own), next].into_iter().flatten();
        let comparisons = 2 * around.map(Sums::pairs).sum::<usize>();
        let settings = Settings {
            evidence: comparisons as f32,
            ..Settings::default()
        };
        LayerBuf::fit(previous, own, next, settings)
    };
    (0..parts.len()).map(fitted).collect()
}

/// Lifts the mark off one frame: what peel does not write is as it came.
fn lift(layer: &LayerBuf, raw: &Raw) -> Result<(Raw, Counts), Error> {
    let mut output = raw.clone();
    let mut peel = |channel| {
        let plane = output.plane_mut(channel);
        layer.layer().peel(channel, plane, raw.plane(channel))
    };
    let counts = Counts {
        luma: peel(Channel::Luma)?,
        chroma1: peel(Channel::Chroma1)?,
        chroma2: peel(Channel::Chroma2)?,
    };
    Ok((output, counts))
}

/// Lifts the mark off all frames, on as many threads as there are processors. The layers are only read: the threads
/// share them.
fn lift_all(layers: &[LayerBuf], clip: &[Raw]) -> Result<Vec<(Raw, Counts)>, Error> {
    // Frame n begins pair n, and the last frame ends the last pair.
    let layer = |frame: usize| &layers[(frame / Sums::MOST).min(layers.len() - 1)];
    let workers = thread::available_parallelism().map_or(1, NonZero::get);
    let share = clip.len().div_ceil(workers);
    thread::scope(|scope| {
        let mut workers = Vec::new();
        for (number, frames) in clip.chunks(share).enumerate() {
            let numbered = (number * share..).zip(frames);
            let lifted = numbered.map(move |(frame, raw)| lift(layer(frame), raw));
            workers.push(scope.spawn(|| lifted.collect::<Result<Vec<_>, Error>>()));
        }
        let mut all = Vec::new();
        for worker in workers {
            all.extend(worker.join().expect("no thread panics")?);
        }
        Ok(all)
    })
}

/// The pixels of luma that the mark stands on.
fn marked() -> impl Iterator<Item = (usize, usize)> {
    let pixels = (0..SIZE.width * SIZE.height).map(|at| (at % SIZE.width, at / SIZE.width));
    pixels.filter(|&(x, y)| is_marked(x, y))
}

/// The dots of luma lifted off all frames, and how far they are from the scene in the mean, in steps of a byte.
fn run() -> Result<(u64, f64), Error> {
    let clip: Vec<Raw> = (0..FRAMES).map(decode).collect();
    let parts = add_up(&clip)?;
    let Size { width, height } = SIZE;
    let pairs: Vec<usize> = parts.iter().map(Sums::pairs).collect();
    println!("{FRAMES} frames of {width} by {height}, parts of {pairs:?} pairs");
    let lifted = lift_all(&fit(&parts)?, &clip)?;
    let (mut dots, mut apart) = (0, 0.0);
    for (frame, (output, counts)) in lifted.iter().enumerate() {
        dots += counts.luma;
        for (x, y) in marked() {
            let made = output.0[0][y * PITCHES[0] + x];
            apart += f64::from(made.abs_diff(scene(frame, x, y)));
        }
    }
    let mean = apart / dots as f64;
    println!("{dots} dots lifted, {mean:.2} steps from the scene in the mean");
    Ok((dots, mean))
}

fn main() -> ExitCode {
    match std::env::args().nth(1).as_deref() {
        None => {}
        Some("--help" | "-h") => {
            println!("lift: lifts a mark off a made-up clip of raw planes; there are no options");
            return ExitCode::SUCCESS;
        }
        Some(word) => {
            eprintln!("lift: there is no option {word:?}; there are none");
            return ExitCode::from(2);
        }
    }
    match run() {
        Ok(_) => ExitCode::SUCCESS,
        Err(error) => {
            // The words name the call, the argument, and what it must be.
            eprintln!("lift: {error}");
            ExitCode::FAILURE
        }
    }
}

#[test]
fn the_whole_mark_is_lifted() {
    let (dots, mean) = run().expect("planes of one size");
    assert_eq!(dots, (marked().count() * FRAMES) as u64);
    assert!(mean < 1.0, "{mean} steps from the scene");
}
