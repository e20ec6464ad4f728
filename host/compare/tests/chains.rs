//! The evidence guarantee, run: the same sums are fitted twice, strict off, the second evidence figure no higher than
//! the first; then peel and unpeel of luma and render of every plane are made on each layer as fit left it, over equal
//! other inputs and starting bytes. What was passed with the first layer is there, unchanged, with the second.
//!
//! On an example, and on random clips with sums of any floats; `SAFETEAL_SEED` sets the seed.

use std::io::Write;

use safeteal::groups::{Form, LentLayer};
use safeteal::{
    fit, Channel, Error, Fates, Frames, Layer, LayerBuf, LayerBytes, LayerOf, Motion, Part, Parts,
    Plane, PlaneMut, Ratio, Settings, Size, Work,
};

/// What both chains are given. They differ in the evidence figure alone.
struct Clip<'a> {
    parts: Parts<'a>,
    size: Size,
    ratio: Ratio,
    limit: f32,
    /// For each plane what the later calls are lent beside the layer.
    later: [Later<'a>; 3],
}

/// The output's starting bytes, and all that a call reads.
struct Later<'a> {
    start: Plane<'a>,
    frames: Frames<'a>,
    motion: Motion<'a>,
    algo: i32,
}

/// One chain, from the sums to the last call.
struct Chain {
    layer: LayerBuf,
    peel: Left,
    unpeel: Left,
    render: [Left; 3],
}

/// What a call left in a plane, pixel after pixel.
#[derive(PartialEq, Debug)]
struct Left {
    count: u64,
    bytes: Vec<u8>,
    written: Vec<bool>,
}

impl Clip<'_> {
    /// The chain at that evidence figure; an error where fit refuses.
    fn chain(&self, evidence: f32) -> Result<Chain, Error> {
        let layer = self.fitted(evidence)?;
        let numbers = layer.layer();
        let bytes = |slice: &[i16]| -> Vec<u8> {
            let bytes = slice.iter().flat_map(|number| number.to_le_bytes());
            // a byte left over at the end is passed over
            bytes.chain([99]).collect()
        };
        let (luma, chroma) = (bytes(numbers.luma), numbers.chroma.map(bytes));
        let bytes = LayerBytes::new(&luma, [&chroma[0], &chroma[1]], self.size, self.ratio);
        let (peel, unpeel) = self.lifted(numbers);
        let by_bytes = self.lifted(bytes);
        assert!(
            (&peel, &unpeel) == (&by_bytes.0, &by_bytes.1),
            "a layer lent as numbers and as bytes"
        );
        let render = [Channel::Luma, Channel::Chroma1, Channel::Chroma2].map(|channel| {
            let later = &self.later[channel.number()];
            let (frames, motion) = (later.frames, &later.motion);
            let (lent, plane) = (lent(numbers), channel.number());
            // As C does it, which takes motions that do not cover the frames as well.
            self.written(channel, |mut output| {
                let word = lent.render(plane, &mut output, frames, motion, later.algo);
                assert_eq!(word % 256, 0, "numbers inside the limits");
                Ok(word / 256)
            })
        });
        Ok(Chain {
            layer,
            peel,
            unpeel,
            render,
        })
    }

    fn fitted(&self, evidence: f32) -> Result<LayerBuf, Error> {
        let mut layer = LayerBuf::new(self.size, self.ratio).expect("a size inside the limits");
        let pixels = self.size.width * self.size.height;
        let work = Work {
            models: &mut vec![0.0; 4 * pixels],
            kept: &mut vec![0; pixels],
            cover: &mut vec![0; self.size.cells()],
        };
        let settings = Settings {
            limit: self.limit,
            evidence,
            strict: false,
        };
        let (size, ratio) = (self.size, self.ratio);
        fit(self.parts, size, ratio, settings, work, layer.layer_mut()).map(|()| layer)
    }

    /// Peel and unpeel of luma, with a layer lent in either form.
    fn lifted<T: Form>(&self, layer: LayerOf<'_, T>) -> (Left, Left) {
        let (luma, frames) = (Channel::Luma, self.later[0].frames);
        let peel = self.written(luma, |output| layer.peel(luma, output, frames.first));
        let unpeel = |output: PlaneMut<'_>| layer.unpeel(luma, output, frames);
        // It writes the same pixels as peel, some with a byte that depends on the one before; all others stay.
        let (start, written) = (self.pixels(luma, self.later[0].start.data), &peel.written);
        let (count, bytes) = self.over(luma, self.later[0].start.data.to_vec(), unpeel);
        let stays = |at: usize| written[at] || bytes[at] == start[at];
        assert!((0..start.len()).all(stays), "unpeel: peel's pixels");
        assert_eq!(count, peel.count, "unpeel: peel's count");
        let unpeel = Left {
            count,
            bytes,
            written: written.clone(),
        };
        (peel, unpeel)
    }

    /// A call whose bytes do not depend on those before: what is equal over these starting bytes and over their
    /// opposites was written, and nothing else.
    fn written(&self, channel: Channel, call: impl Fn(PlaneMut<'_>) -> Result<u64, Error>) -> Left {
        let start = self.later[channel.number()].start.data;
        let (count, bytes) = self.over(channel, start.to_vec(), &call);
        let opposite = start.iter().map(|byte| !byte).collect();
        let (again, others) = self.over(channel, opposite, &call);
        let written: Vec<bool> = bytes.iter().zip(&others).map(|(a, b)| a == b).collect();
        let right = written.iter().filter(|&&written| written).count() as u64;
        assert_eq!(
            (count, again),
            (right, right),
            "the count of written pixels"
        );
        Left {
            count,
            bytes,
            written,
        }
    }

    /// The count of an accepted call over these starting bytes, and the pixels that it left.
    fn over(
        &self,
        channel: Channel,
        mut output: Vec<u8>,
        call: impl Fn(PlaneMut<'_>) -> Result<u64, Error>,
    ) -> (u64, Vec<u8>) {
        let Plane { size, pitch, .. } = self.later[channel.number()].start;
        let plane = PlaneMut::pitched(&mut output, size, pitch);
        let count = call(plane).expect("numbers inside the limits");
        (count, self.pixels(channel, &output))
    }

    /// The pixels of an output without what lies between its rows.
    fn pixels(&self, channel: Channel, output: &[u8]) -> Vec<u8> {
        let size = self.size.plane(channel, self.ratio);
        let rows = output.chunks(self.later[channel.number()].start.pitch);
        let rows = rows.take(size.height).map(|row| &row[..size.width]);
        rows.flatten().copied().collect()
    }
}

/// A layer as it is lent to C.
fn lent(layer: Layer<'_>) -> LentLayer<'_, i16> {
    LentLayer {
        luma: layer.luma,
        chroma: layer.chroma,
        pitch: layer.pitch,
        size: layer.size,
        ratio: layer.ratio.number(),
    }
}

/// What was compared: the test is not empty.
#[derive(Default, PartialEq, Debug)]
struct Seen {
    chains: usize,
    stayed: usize,
    new: usize,
    lost: usize,
    /// Cells whose distance is smaller in the second layer.
    nearer: usize,
    /// Chroma entries of the second layer at either end of what is stored.
    ends: [usize; 2],
    /// Counts with the first layer and with the second: of peel, unpeel and the three renders.
    counts: [[u64; 2]; 5],
    /// Bytes that must be the same, and are.
    peeled: usize,
    unpeeled: usize,
}

/// What becomes of a luma pixel: `#` stayed, `+` is new, `x` was lost or changed, a full stop is no dot in either.
fn fates(first: &LayerBuf, second: &LayerBuf) -> String {
    let (first, second) = (first.layer().luma, second.layer().luma);
    let pixels = first.len() / 2;
    let fate = |at: usize| {
        let [first, second] = [first, second].map(|luma| (luma[at], luma[pixels + at]));
        match (first != (4096, 0), second != (4096, 0)) {
            (true, _) if first == second => '#',
            (true, _) => 'x',
            (false, true) => '+',
            (false, false) => '.',
        }
    };
    (0..pixels).map(fate).collect()
}

/// The library's comparison of two layers says the same: so many dots that stayed, are new, were lost or changed.
fn compared(first: &LayerBuf, second: &LayerBuf, right: [usize; 3]) {
    let difference = first.compare(second).expect("layers of one size");
    let Fates {
        stayed,
        new,
        lost,
        changed,
    } = difference.counts(Channel::Luma);
    assert_eq!([stayed, new, lost + changed], right, "{difference}");
    let mut cells = first.cells().iter().zip(second.cells().iter());
    let nearer = cells.all(|(first, second)| second <= first);
    let keeps = right[2] == 0 && nearer;
    assert_eq!(difference.keeps_all(), keeps, "{difference}");
}

/// The guarantee, sentence by sentence; what was seen is added to the rest.
fn held(first: &Chain, second: &Chain, seen: &mut Seen) -> Result<(), String> {
    let fates = fates(&first.layer, &second.layer);
    let of = |which: char| fates.chars().filter(|&fate| fate == which).count();
    compared(&first.layer, &second.layer, ['#', '+', 'x'].map(of));
    seen.chains += 1;
    seen.stayed += of('#');
    seen.new += of('+');
    seen.lost += of('x');
    if of('x') > 0 {
        return Err(format!("{} dots were lost or changed", of('x')));
    }
    let cells = first.layer.cells().iter().zip(second.layer.cells().iter());
    for (cell, (first, second)) in cells.enumerate() {
        if second > first {
            return Err(format!("cell {cell}: distance {first}, then {second}"));
        }
        seen.nearer += usize::from(second < first);
    }
    for (which, (first, second)) in first.calls().zip(second.calls()).enumerate() {
        let call = ["peel", "unpeel", "render 0", "render 1", "render 2"][which];
        let mut pixels = first.written.iter().zip(&second.written);
        if let Some(at) = pixels.position(|(&first, &second)| first && !second) {
            return Err(format!("{call}: pixel {at} is no longer written"));
        }
        if second.count < first.count {
            return Err(format!(
                "{call}: count {}, then {}",
                first.count, second.count
            ));
        }
        seen.counts[which][0] += first.count;
        seen.counts[which][1] += second.count;
    }
    let gains = first.layer.layer().luma;
    seen.unpeeled += same("unpeel", &first.unpeel, &second.unpeel, |_| true)?;
    seen.peeled += same("peel", &first.peel, &second.peel, |at| {
        gains[at] >= 820 || gains[at] <= -820
    })?;
    Ok(())
}

/// How many pixels written with the first are asked for; each must have the same byte with the second.
fn same(
    call: &str,
    first: &Left,
    second: &Left,
    asked: impl Fn(usize) -> bool,
) -> Result<usize, String> {
    let pixels = (0..first.bytes.len()).filter(|&at| first.written[at] && asked(at));
    let mut count = 0;
    for at in pixels {
        let (first, second) = (first.bytes[at], second.bytes[at]);
        if first != second {
            return Err(format!("{call}: pixel {at} has {first}, then {second}"));
        }
        count += 1;
    }
    Ok(count)
}

impl Chain {
    fn calls(&self) -> impl Iterator<Item = &Left> {
        [&self.peel, &self.unpeel].into_iter().chain(&self.render)
    }
}

/// Writes a line past the capture of the test harness.
fn say(what: &str, seen: &Seen) {
    let Seen {
        chains,
        stayed,
        new,
        lost,
        nearer,
        ends,
        counts: [peel, unpeel, render @ ..],
        peeled,
        unpeeled,
    } = seen;
    let [render, again] = [0, 1].map(|at| render.iter().map(|counts| counts[at]).sum::<u64>());
    let _ = writeln!(
        std::io::stderr(),
        "chains, {what}: {chains} twice; dots: {stayed} stayed, {new} new, {lost} lost; {nearer} cells nearer; \
         chroma entries at the ends: {ends:?}; \
         pixels: peel {} then {}, unpeel {} then {}, render {render} then {again}; \
         bytes held: peel {peeled}, unpeel {unpeeled}",
        peel[0],
        peel[1],
        unpeel[0],
        unpeel[1],
    );
}

/// A date stamp and a logo: `#` is seen clearly (evidence 8), `+` barely (3), anything else not at all.
const LETTERING: [&str; 16] = [
    "................................................................",
    "..##......####....#####...####..................................",
    "..##.....##..##..##......##..##.................................",
    "..##.....##..##..##.###..##..##.................................",
    "..##.....##..##..##..##..##..##.................................",
    "..#####...####....####....####..................................",
    "................................................................",
    "................................................................",
    "................................................................",
    "...................................................+++....+++...",
    "..................................................++.++..++.....",
    "....................................................++...++++...",
    "...................................................++....++.++..",
    "..................................................+++++...+++...",
    "................................................................",
    "................................................................",
];

/// What becomes of it between the figures 4 and 2. Four ends have two neighbours only, and are no dots in either layer.
const FATES: [&str; 16] = [
    "................................................................",
    "..##......####....####....####..................................",
    "..##.....##..##..##......##..##.................................",
    "..##.....##..##..##.###..##..##.................................",
    "..##.....##..##..##..##..##..##.................................",
    "..####....####....####....####..................................",
    "................................................................",
    "................................................................",
    "................................................................",
    "...................................................+++....++....",
    "..................................................++.++..++.....",
    "....................................................++...++++...",
    "...................................................++....++.++..",
    "..................................................++++....+++...",
    "................................................................",
    "................................................................",
];

/// The chains of the example at the figures 4 and 2.
fn example() -> [Chain; 2] {
    // Under lettering the line through the six sums has gain 2 and offset 0.
    let pixel = |mark: u8| match mark {
        b'#' => [0.0, 0.0, 8184.0, 16384.0, 32802.0, 8.0],
        b'+' => [0.0, 0.0, 8184.0, 16384.0, 32802.0, 3.0],
        _ => [0.0; 6],
    };
    let luma: Vec<[f32; 6]> = LETTERING.concat().bytes().map(pixel).collect();
    let size = Size::new(64, 16);
    let own = Part {
        luma: luma.as_flattened(),
        chroma: [&[0.0; 512]; 2],
        pairs: 1,
    };
    // Frames that grow lighter to the right.
    let frame = |dark: u8| -> Vec<u8> { (0..64 * 16).map(|at| dark + at as u8 % 64).collect() };
    let (start, first, second) = (frame(40), frame(60), frame(90));
    let half = size.plane(Channel::Chroma1, Ratio::Two);
    let later = [size, half, half].map(|plane| Later {
        start: Plane::new(&start, plane),
        frames: Frames {
            first: Plane::new(&first, plane),
            second: Plane::new(&second, plane),
            time: 0.5,
        },
        motion: Motion {
            forward: (&[1024], &[1024]),
            backward: (&[1024], &[1024]),
            grid: (1, 1),
            block: (64, 64),
            origin: (0, 0),
            pel: 1,
            size,
        },
        algo: 0,
    });
    let clip = Clip {
        parts: Parts::alone(own),
        size,
        ratio: Ratio::Two,
        limit: 1.0,
        later,
    };
    [4.0, 2.0].map(|figure| clip.chain(figure).expect("an accepted fit"))
}

#[test]
fn the_dots_of_the_example_stay() {
    let [first, second] = example();
    let mut seen = Seen::default();
    assert_eq!(held(&first, &second, &mut seen), Ok(()));
    say("the example", &seen);
    assert_eq!(fates(&first.layer, &second.layer), FATES.concat());
    assert_eq!((seen.stayed, seen.new, seen.lost), (71, 30, 0));
    assert_eq!(seen.counts[..3], [[71, 101], [71, 101], [896, 1024]]);
    assert_eq!((seen.peeled, seen.unpeeled), (71, 71));
}

/// The test finds what it looks for: a figure turned up loses dots, and each kind of damage is named.
#[test]
fn what_does_not_hold_is_found() {
    let said = |first: &Chain, second: &Chain| {
        held(first, second, &mut Seen::default()).expect_err("something that does not hold")
    };
    let [first, second] = example();
    assert_eq!(said(&second, &first), "30 dots were lost or changed");

    let damaged = |damage: fn(&mut Chain)| {
        let [first, mut second] = example();
        damage(&mut second);
        said(&first, &second)
    };
    let at = FATES.concat().find('#').expect("a dot");
    let far = damaged(|second| second.layer.layer_mut().chroma[1][256] = 99);
    assert_eq!(far, "cell 0: distance 0, then 99");
    let offset = damaged(|second| {
        let luma = second.layer.layer_mut().luma;
        luma[1024..].fill(1);
    });
    assert_eq!(offset, "71 dots were lost or changed");
    let unwritten = damaged(|second| second.render[2].written[7] = false);
    assert_eq!(unwritten, "render 2: pixel 7 is no longer written");
    let fewer = damaged(|second| second.peel.count = 70);
    assert_eq!(fewer, "peel: count 71, then 70");
    let byte = damaged(|second| second.unpeel.bytes.fill(1));
    assert!(
        byte.starts_with(&format!("unpeel: pixel {at} has ")),
        "{byte}"
    );
    let byte = damaged(|second| second.peel.bytes.fill(1));
    assert!(
        byte.starts_with(&format!("peel: pixel {at} has ")),
        "{byte}"
    );
}

#[cfg(not(oracle_absent))]
mod random {
    use compare::check::fit::{Fit, Part, KINDS};
    use compare::check::inputs::sizes;
    use compare::check::motion::Motion;
    use compare::check::rng::Rng;
    use compare::check::run::seeds;
    use compare::check::unpeel::Unpeel;
    use safeteal::{Frames, Layer, Motion as Lent, Parts, Plane, Ratio, Size};

    use super::{held, say, Clip, Later, Seen};

    /// For each seed.
    const CLIPS: u64 = 2000;

    #[test]
    fn the_dots_of_random_clips_stay() {
        for seed in seeds() {
            let mut seen = Seen::default();
            for index in 0..CLIPS {
                let outcome = clip(&mut Rng::of(seed, "chains", index), &mut seen);
                assert_eq!(outcome, Ok(()), "seed {seed}, clip {index}");
            }
            say(&format!("{CLIPS} random clips, seed {seed}"), &seen);
            assert_eq!(seen.chains as u64, CLIPS, "every fit is accepted");
            assert!(!seen.ends.contains(&0), "casts beyond both ends are held");
            let [first, second] = [0, 1].map(|at| seen.counts.iter().all(|n| n[at] > 0));
            let bytes = seen.peeled.min(seen.unpeeled);
            assert!(first && second && bytes > 0, "every call writes");
            assert!(seen.stayed > 0 && seen.new > 0 && seen.nearer > 0);
            assert_eq!(seen.lost, 0);
        }
    }

    /// Both chains of a random clip.
    fn clip(rng: &mut Rng, seen: &mut Seen) -> Result<(), String> {
        let (width, height, ratio) = sizes(rng, 40);
        let kind = rng.below(KINDS);
        let sums = Fit::of_kind(rng, (width, height, ratio), kind);
        let half = (width / ratio, height / ratio);
        let planes = [(width, height), half, half];
        // What unpeel is lent for a plane of that size; its layer is not used.
        let lent = planes.map(|(width, height)| Unpeel::<i16>::sized(rng, (width, height, 1)));
        let motions = [(); 3].map(|()| Motion::random(rng));
        let algos = [(); 3].map(|()| rng.pick(&[0, 1, 2, 3, -1, i32::MIN, i32::MAX]));
        let size = Size::new(width, height);
        let later = [0, 1, 2].map(|plane| {
            let (width, height) = planes[plane];
            let motion = motions[plane].lent(size);
            later(&lent[plane], Size::new(width, height), motion, algos[plane])
        });
        let clip = Clip {
            parts: Parts {
                previous: neighbour(&sums.previous),
                own: sums.own.lent(),
                next: neighbour(&sums.next),
            },
            size,
            ratio: Ratio::of_number(ratio).expect("1, 2 or 4"),
            limit: sums.limit,
            later,
        };
        let figures = [figure(rng), figure(rng)];
        let (high, low) = (figures[0].max(figures[1]), figures[0].min(figures[1]));
        let [first, second] = [high, low].map(|figure| clip.chain(figure).expect("a good input"));
        let [low, high] = ends(second.layer.layer());
        seen.ends = [seen.ends[0] + low, seen.ends[1] + high];
        held(&first, &second, seen)
    }

    /// How many chroma entries are at the lower end of what is stored, and how many at the upper.
    fn ends(layer: Layer<'_>) -> [usize; 2] {
        let totals = layer.chroma.map(|slice| &slice[..slice.len() / 2]).concat();
        [i16::MIN, i16::MAX].map(|end| totals.iter().filter(|&&total| total == end).count())
    }

    fn later<'a>(lent: &'a Unpeel<i16>, size: Size, motion: Lent<'a>, algo: i32) -> Later<'a> {
        Later {
            start: Plane::pitched(&lent.output, size, lent.output_pitch),
            frames: Frames {
                first: Plane::pitched(&lent.first, size, lent.first_pitch),
                second: Plane::pitched(&lent.second, size, lent.second_pitch),
                time: lent.time,
            },
            motion,
            algo,
        }
    }

    /// A neighbour, where it is not absent.
    fn neighbour(part: &Part) -> Option<safeteal::Part<'_>> {
        Some(part.lent()).filter(|part| part.pairs > 0)
    }

    /// An evidence figure.
    fn figure(rng: &mut Rng) -> f32 {
        match rng.below(3) {
            0 => rng.pick(&[0.0, -0.0, 1e-45, 0.5, 24.0, 72.0, 65_536.0]),
            1 => rng.unit() * 30.0,
            _ => rng.below(12) as f32,
        }
    }
}
