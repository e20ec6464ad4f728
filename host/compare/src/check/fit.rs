use super::case::Case;
use super::casts;
use super::expected::{
    cover_bytes, exactly, over, sums_numbers, wrong_ratio, wrong_setting, wrong_size, Length,
};
use super::inputs::{bytes, sizes, Sizes};
use super::motion::Motion;
use super::rng::Rng;
use super::totals::{settle, Entries, Summed};
use crate::oracle::layer as rust;
use safeteal::{groups, LayerMut, Settings, Size, Work};

lent! {
    /// The sums of some pairs; with 0 pairs they are not looked at.
    pub struct Part {
        luma: Vec<f32>,
        chroma1: Vec<f32>,
        chroma2: Vec<f32>,
        pairs: usize,
    }
}

lent! {
    pub struct Fit {
        previous: Part,
        own: Part,
        next: Part,
        width: usize,
        height: usize,
        limit: f32,
        evidence: f32,
        strict: bool,
        ratio: usize,
        models: Vec<f32>,
        kept: Vec<u8>,
        cover: Vec<u8>,
        luma: Vec<i16>,
        chroma1: Vec<i16>,
        chroma2: Vec<i16>,
    }
}

impl Part {
    /// No slices, which nobody may look at.
    pub fn none() -> Self {
        Self {
            luma: Vec::new(),
            chroma1: Vec::new(),
            chroma2: Vec::new(),
            pairs: 0,
        }
    }

    /// Slices of any length that nobody may look at.
    fn absent(rng: &mut Rng) -> Self {
        let mut any = || {
            let length = rng.pick(&[0, 0, 1, 5, 12, 600]);
            (0..length).map(|_| rng.any_float()).collect()
        };
        Self {
            luma: any(),
            chroma1: any(),
            chroma2: any(),
            pairs: 0,
        }
    }

    pub fn lent(&self) -> safeteal::Part<'_> {
        safeteal::Part {
            luma: &self.luma,
            chroma: [&self.chroma1, &self.chroma2],
            pairs: self.pairs,
        }
    }

    /// A part with these sums of the Rust.
    pub fn summed(sums: &rust::Stats, pairs: usize) -> Self {
        let [chroma1, chroma2] = sums.chroma();
        Self {
            luma: sums.luma().as_flattened().to_vec(),
            chroma1: chroma1.as_flattened().to_vec(),
            chroma2: chroma2.as_flattened().to_vec(),
            pairs,
        }
    }

    /// The Rust's sums of this part; none where the part is absent.
    fn rust(&self) -> Option<rust::Stats> {
        let chroma = |sums: &[f32]| sums.chunks_exact(2).map(|s| [s[0], s[1]]).collect();
        let luma = self.luma.chunks_exact(6);
        (self.pairs > 0).then(|| {
            rust::Stats::from_raw(
                luma.map(|s| [s[0], s[1], s[2], s[3], s[4], s[5]]).collect(),
                [chroma(&self.chroma1), chroma(&self.chroma2)],
                (self.pairs * 2) as f32,
            )
        })
    }
}

impl Fit {
    /// A good input of a width, a height and a ratio, with sums of one of the kinds.
    pub fn of_kind(rng: &mut Rng, size: Sizes, kind: usize) -> Self {
        let parts = parts(rng, size, kind);
        Self::of_parts(rng, size, kind, parts)
    }

    /// The same with parts of so many pairs each; of none, where a neighbour is absent.
    pub fn of_pairs(rng: &mut Rng, size: Sizes, kind: usize, pairs: [usize; 3]) -> Self {
        let scene = Scene::random(rng, size);
        let parts = pairs.map(|pairs| match pairs {
            0 => Part::none(),
            _ => Part {
                pairs,
                ..scene.of_kind(rng, size, kind, pairs)
            },
        });
        Self::of_parts(rng, size, kind, parts)
    }

    /// The same with these parts.
    fn of_parts(rng: &mut Rng, size: Sizes, kind: usize, parts: [Part; 3]) -> Self {
        let ((width, height, ratio), [previous, own, next]) = (size, parts);
        let half = 2 * (width / ratio) * (height / ratio);
        let garbage = rng.bits() as i16;
        let settings = settings(rng);
        let mut made = Self {
            previous,
            own,
            next,
            width,
            height,
            limit: settings.limit,
            evidence: settings.evidence,
            strict: settings.strict,
            ratio,
            models: (0..4 * width * height).map(|_| rng.any_float()).collect(),
            kept: rng.bytes(width * height),
            cover: rng.bytes(width.div_ceil(8) * height.div_ceil(8)),
            luma: vec![garbage; 2 * width * height],
            chroma1: vec![garbage; half],
            chroma2: vec![garbage; half],
        };
        if CASTS.contains(&kind) {
            made.cast(rng);
        }
        made
    }

    /// Gives strong casts to the sums, and mostly asks for little evidence, so that many pixels are kept.
    fn cast(&mut self, rng: &mut Rng) {
        if !rng.once_in(3) {
            self.evidence = rng.pick(&[0.0, 1.0]);
        }
        let kept = self.kept(all(&self.sums())).into_iter();
        let gains: Vec<Option<f32>> = kept.map(|found| found.map(|((gain, _), _)| gain)).collect();
        let parts = [&mut self.previous, &mut self.own, &mut self.next];
        casts::sums(rng, parts, &gains, self.width, self.ratio);
    }

    /// The parts, the settings, and the slices that are written.
    pub fn lent(&mut self) -> ([safeteal::Part<'_>; 3], Settings, Work<'_>, LayerMut<'_>) {
        let parts = [&self.previous, &self.own, &self.next].map(Part::lent);
        let settings = Settings {
            limit: self.limit,
            evidence: self.evidence,
            strict: self.strict,
        };
        let work = Work {
            models: &mut self.models,
            kept: &mut self.kept,
            cover: &mut self.cover,
        };
        let layer = LayerMut {
            luma: &mut self.luma,
            chroma: [&mut self.chroma1, &mut self.chroma2],
        };
        (parts, settings, work, layer)
    }

    /// The Rust's sums of the three parts.
    fn sums(&self) -> [Option<rust::Stats>; 3] {
        [&self.previous, &self.own, &self.next].map(Part::rust)
    }

    /// For each pixel its model and its trial, where it is kept: the steps of `fit` up to there, with the Rust's own
    /// search.
    fn kept(&self, parts: [Option<&rust::Stats>; 3]) -> Vec<rust::Found> {
        let (width, height) = (self.width, self.height);
        let limit = self.limit * self.limit;
        let found = |at| rust::window_at(parts, at, limit, self.evidence, self.strict);
        let found: Vec<rust::Found> = (0..width * height).map(found).collect();
        let model = |at: usize| found[at].as_ref().map_or((1.0, 0.0), |(model, _)| *model);
        let set = |x: usize, y: usize| rust::is_set(model(y * width + x));
        let kept = |x: usize, y: usize| {
            let held = |at: usize, step: usize, size: usize| (at + step).max(1).min(size) - 1;
            let near =
                (0..9).filter(|side| set(held(x, side % 3, width), held(y, side / 3, height)));
            !set(x, y) || near.count() >= 3
        };
        let pixel = |(at, found): (usize, &rust::Found)| {
            found.clone().filter(|_| kept(at % width, at / width))
        };
        found.iter().enumerate().map(pixel).collect()
    }
}

impl Case for Fit {
    type Answer = u64;

    const NAME: &'static str = "fit";
    const NUMBERS: &'static [usize] = &[0, 1, 2, 4, 6, 7];
    const WRITTEN: &'static [&'static str] =
        &["models", "kept", "cover", "luma", "chroma1", "chroma2"];

    fn random(rng: &mut Rng) -> Self {
        let (size, kind) = (sizes(rng, 12), rng.below(KINDS));
        Self::of_kind(rng, size, kind)
    }

    fn lengths(&self) -> Vec<Length> {
        let (width, height) = (self.width, self.height);
        let sums = sums_numbers((width, height, self.ratio));
        let neighbour = |part: &Part| {
            if part.pairs == 0 {
                [Length::Any; 3]
            } else {
                sums
            }
        };
        let (previous, next) = (neighbour(&self.previous), neighbour(&self.next));
        let made = made_numbers((width, height, self.ratio));
        [&previous[..], &sums, &next, &made].concat()
    }

    fn ours(&mut self) -> u64 {
        let (size, ratio) = (Size::new(self.width, self.height), self.ratio);
        let (parts, settings, mut work, mut layer) = self.lent();
        groups::fit(parts, size, settings, ratio, &mut work, &mut layer)
    }

    fn refusal(&self) -> u64 {
        let pairs = [self.previous.pairs, self.own.pairs, self.next.pairs];
        if wrong_size(self.width, self.height) {
            1
        } else if wrong_ratio(self.ratio, self.width, self.height) {
            2
        } else if self.misfits() {
            4
        } else if wrong_settings(self.limit, self.evidence) {
            6
        } else if pairs.into_iter().any(|pairs| pairs > 12) || self.own.pairs == 0 {
            7
        } else {
            0
        }
    }

    fn theirs(&mut self) -> u64 {
        self.tallied().0
    }

    fn tallied(&mut self) -> (u64, Entries) {
        settle(self)
    }

    fn free(answer: u64) -> &'static [&'static str] {
        match answer % 256 {
            0 => &["models", "kept", "cover"],
            _ => &[],
        }
    }
}

impl Summed for Fit {
    fn rust(&self) -> rust::Fit {
        let (sums, size) = (self.sums(), (self.width, self.height));
        let (limit, proof, strict) = (self.limit, self.evidence, self.strict);
        let made = rust::fit(all(&sums), size, limit, proof, strict, self.ratio);
        made.expect("an own part of 1 pair or more")
    }

    /// 0 of a pixel that is not kept.
    fn offsets(&self) -> [Vec<f32>; 2] {
        let (sums, width, ratio) = (self.sums(), self.width, self.ratio);
        let parts = all(&sums);
        let mut offsets = [(); 2].map(|()| vec![0.0; width * self.height]);
        for (at, found) in self.kept(parts).into_iter().enumerate() {
            let Some(((gain, _), trial)) = found else {
                continue;
            };
            let at_chroma = (at / width / ratio) * (width / ratio) + at % width / ratio;
            for (plane, offsets) in offsets.iter_mut().enumerate() {
                let (mut total, mut n) = ([0.0, 0.0], 0.0);
                for part in parts[trial.clone()].iter().flatten() {
                    let sums = part.chroma()[plane][at_chroma];
                    total = [total[0] + sums[0], total[1] + sums[1]];
                    n += part.count();
                }
                offsets[at] = (total[1] - gain * total[0]) / n;
            }
        }
        offsets
    }

    fn across(&self) -> (usize, usize) {
        (self.width, self.ratio)
    }

    fn layer(&mut self) -> [&mut Vec<i16>; 3] {
        [&mut self.luma, &mut self.chroma1, &mut self.chroma2]
    }
}

/// Three parts as the Rust is lent them.
fn all(sums: &[Option<rust::Stats>; 3]) -> [Option<&rust::Stats>; 3] {
    sums.each_ref().map(Option::as_ref)
}

/// Row 4: work slices and outputs.
pub fn made_numbers((width, height, ratio): Sizes) -> [Length; 6] {
    let chroma = exactly(2, over(width, ratio), over(height, ratio));
    [
        exactly(4, width, height),
        exactly(1, width, height),
        cover_bytes(width, height),
        exactly(2, width, height),
        chroma,
        chroma,
    ]
}

/// Row 6: "fit's limit 0.5 to 255", and the evidence figure "0 to 65,536".
pub fn wrong_settings(limit: f32, evidence: f32) -> bool {
    wrong_setting(limit, 0.5, 255.0) || wrong_setting(evidence, 0.0, 65_536.0)
}

/// Settings inside their ranges, at the ends as well.
pub fn settings(rng: &mut Rng) -> Settings {
    Settings {
        limit: match rng.below(4) {
            0 => rng.pick(&[0.5, 0.5, 0.75, 255.0, 0.50000006, 1.0, 12.0, 100.0]),
            1 => 0.5 + rng.unit() * 30.0,
            _ => 6.0,
        },
        evidence: match rng.below(3) {
            0 => rng.pick(&[0.0, -0.0, 1e-45, 24.0, 72.0, 65_536.0, 0.5]),
            _ => rng.below(8) as f32,
        },
        strict: rng.once_in(3),
    }
}

/// Sums are of any floats (0), gathered by the Rust (1), of a scene with a few sums spoilt (2) or with strong casts (3
/// and 4), or of a scene.
pub const KINDS: usize = 8;
const CASTS: [usize; 2] = [3, 4];

/// Three parts of one kind; a neighbour is absent once in three times.
fn parts(rng: &mut Rng, size: Sizes, kind: usize) -> [Part; 3] {
    let scene = Scene::random(rng, size);
    [0, 1, 2].map(|which| {
        if which != 1 && rng.once_in(3) {
            return Part::absent(rng);
        }
        let pairs = rng.pick(&[1, 1, 2, 3, 5, 12]);
        scene.of_kind(rng, size, kind, pairs)
    })
}

/// What a pixel of the clip is under: the scene as it is, or lettering of a gain and an offset.
struct Scene {
    lettering: Vec<(f32, f32)>,
    noise: f32,
    cast: f32,
    /// Far above 1 the sums round at every step, so that the order of steps shows in the answer.
    scale: f32,
}

impl Scene {
    fn random(rng: &mut Rng, size: Sizes) -> Self {
        Self {
            lettering: lettering(rng, size),
            noise: rng.pick(&[0.0, 0.5, 2.0, 8.0]),
            cast: rng.pick(&[0.0, 0.0, 5.0, 300.0, 2000.0]),
            scale: rng.pick(&[1.0, 1.0, 1.0, 37.0, 1000.0]),
        }
    }

    /// A part of one of the kinds.
    fn of_kind(&self, rng: &mut Rng, size: Sizes, kind: usize, pairs: usize) -> Part {
        let mut part = match kind {
            0 => any_part(rng, size, pairs),
            1 => gathered(rng, size, pairs.min(2)),
            _ => self.part(rng, size, pairs),
        };
        if kind == 2 {
            spoil(rng, &mut part);
        }
        part
    }

    /// Sums as pairs would make them: of what the scene shows (p) and what the frame has there (i).
    fn part(&self, rng: &mut Rng, (width, height, ratio): Sizes, pairs: usize) -> Part {
        // A clip's lettering may come and go between parts.
        let lacking = rng.once_in(4);
        let mut luma = Vec::with_capacity(6 * width * height);
        for &model in &self.lettering {
            let (gain, offset) = if lacking { (1.0, 0.0) } else { model };
            let mut sums = [0.0f32; 6];
            for _ in 0..2 * pairs {
                let p = rng.below(256) as f32;
                let noise = (rng.unit() - 0.5) * self.noise;
                let whole = (gain * p + offset + noise).round().clamp(0.0, 255.0);
                let i = if offset.fract() == 0.0 {
                    whole
                } else {
                    gain * p + offset + noise
                };
                let apart = f32::from(u8::from((p - i).abs() > 24.0));
                let (p, i) = (p * self.scale, i * self.scale);
                let terms = [p, i, p * p, p * i, i * i, apart];
                for (sum, term) in sums.iter_mut().zip(terms) {
                    *sum += term;
                }
            }
            luma.extend(sums);
        }
        let chroma = |rng: &mut Rng| {
            let sums = (0..(width / ratio) * (height / ratio)).flat_map(|_| {
                let p = rng.unit() * 255.0 * 2.0 * pairs as f32;
                [p, p + (rng.unit() - 0.5) * self.cast * 2.0 * pairs as f32]
            });
            sums.collect()
        };
        Part {
            luma,
            chroma1: chroma(rng),
            chroma2: chroma(rng),
            pairs,
        }
    }
}

/// Patches, lines and single dots, of one kind of lettering or of another at each pixel.
pub fn lettering(rng: &mut Rng, (width, height, _): Sizes) -> Vec<(f32, f32)> {
    let mut lettering = vec![(1.0, 0.0); width * height];
    for _ in 0..1 + rng.below(3 + width * height / 1024) {
        let (model, mixed) = (letter(rng), rng.once_in(4));
        let (left, top) = (rng.below(width), rng.below(height));
        let (wide, high) = (1 + rng.below(6), 1 + rng.below(6));
        for y in top..(top + high).min(height) {
            let right = (left + wide).min(width);
            for pixel in &mut lettering[y * width + left..y * width + right] {
                *pixel = if mixed { letter(rng) } else { model };
            }
        }
    }
    lettering
}

/// Lettering of one kind: a gain and an offset.
fn letter(rng: &mut Rng) -> (f32, f32) {
    if rng.once_in(4) {
        // An offset of 2 is an error of 4 where a part lacks the lettering: the end of what is found.
        return (1.0, 1.9 + rng.unit() * 0.3);
    }
    let gain = rng.pick(&[0.0, 0.1, 0.5, 0.55, 0.6, 0.9, 0.98, 1.0, 1.02, 1.3, -0.5]);
    let offset = rng.pick(&[0.0, 0.5, 1.5, 10.0, 40.0, 100.0, -30.0]);
    (gain, offset)
}

/// Sums of any floats.
pub fn any_part(rng: &mut Rng, (width, height, ratio): Sizes, pairs: usize) -> Part {
    let chroma = 2 * (width / ratio) * (height / ratio);
    let mut any = |length| (0..length).map(|_| rng.any_float()).collect();
    Part {
        luma: any(6 * width * height),
        chroma1: any(chroma),
        chroma2: any(chroma),
        pairs,
    }
}

/// A few sums replaced by any floats.
fn spoil(rng: &mut Rng, part: &mut Part) {
    for _ in 0..1 + rng.below(6 + part.luma.len() / 1024) {
        let sums = match rng.below(4) {
            0 => &mut part.chroma1,
            1 => &mut part.chroma2,
            _ => &mut part.luma,
        };
        let at = rng.below(sums.len());
        sums[at] = rng.any_float();
    }
}

/// Sums that the Rust itself gathers from frames.
fn gathered(rng: &mut Rng, (width, height, ratio): Sizes, pairs: usize) -> Part {
    let half = (width / ratio, height / ratio);
    let planes: Vec<Vec<u8>> = [(width, height), half, half, (width, height), half, half]
        .into_iter()
        .map(|(row, rows)| bytes(rng, row * rows))
        .collect();
    let plane = |at: usize| rust::Plane {
        data: &planes[at],
        pitch: if at % 3 == 0 { width } else { half.0 },
    };
    let motions: Vec<Motion> = (0..pairs).map(|_| Motion::random(rng)).collect();
    let list: Vec<rust::Pair> = motions
        .iter()
        .map(|motion| rust::Pair {
            first: [plane(0), plane(1), plane(2)],
            second: [plane(3), plane(4), plane(5)],
            motion: motion.lent(Size::new(width, height)).into(),
        })
        .collect();
    Part::summed(&rust::stats(&list, (width, height), ratio), pairs)
}
