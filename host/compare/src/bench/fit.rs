use std::hint::black_box;

use super::scene::{Lettering, RATIO};
use super::slices::Fitting;
use super::{Sides, Workload};
use crate::check::rng::Rng;
use crate::oracle::layer as rust;
use safeteal::groups::ABSENT;
use safeteal::{groups, Part, Settings, Size};

pub const WORKLOADS: &[Workload] = &[
    Workload::new("fit", "three parts of twelve pairs", |width, height| {
        made(true, 2.0, false, width, height)
    }),
    Workload::new("fit", "own part alone", |width, height| {
        made(false, 2.0, false, width, height)
    }),
    Workload::new("fit", "three parts, strict", |width, height| {
        made(true, 2.0, true, width, height)
    }),
    // No pixel is passed over for want of evidence.
    Workload::new("fit", "three parts, evidence figure 0", |width, height| {
        made(true, 0.0, false, width, height)
    }),
    Workload::new(
        "fit",
        "three parts, strict, evidence figure 0",
        |width, height| made(true, 0.0, true, width, height),
    ),
];

const PAIRS: usize = 12;
const LIMIT: f32 = 6.0;

struct Fit {
    parts: [Option<rust::Stats>; 3],
    settings: Settings,
    size: Size,
    made: Fitting,
    rust: Option<rust::Fit>,
}

fn made(
    neighbours: bool,
    evidence: f32,
    strict: bool,
    width: usize,
    height: usize,
) -> Box<dyn Sides> {
    let part = |seed: u64, there: bool| there.then(|| sums(seed, width, height));
    let size = Size::new(width, height);
    Box::new(Fit {
        parts: [part(1, neighbours), part(2, true), part(3, neighbours)],
        settings: Settings {
            limit: LIMIT,
            evidence,
            strict,
        },
        size,
        made: Fitting::new(size),
        rust: None,
    })
}

/// Sums of a clip with a logo. Pixels repeat after 4096, so that large sizes are made quickly.
pub fn sums(seed: u64, width: usize, height: usize) -> rust::Stats {
    let mut rng = Rng::of(seed, "sums", 0);
    let mut pixels = |gain: f32, offset: f32| -> Vec<[f32; 6]> {
        (0..4096).map(|_| pixel(&mut rng, gain, offset)).collect()
    };
    let (scene, logo) = (pixels(1.0, 0.0), pixels(0.6, 94.0));
    let luma = (0..width * height).map(|at| {
        let marked = Lettering::Logo.model(at, width, height).0 != 1.0;
        let from = if marked { &logo } else { &scene };
        from[(at ^ (at >> 12)) % 4096]
    });
    let plane: Vec<[f32; 2]> = (0..(width / RATIO) * (height / RATIO))
        .map(|at| [3000.0 + (at % 50) as f32, 3010.0 + (at % 31) as f32])
        .collect();
    rust::Stats::from_raw(luma.collect(), [plane.clone(), plane], (2 * PAIRS) as f32)
}

/// The six sums of a pixel whose scene changes.
fn pixel(rng: &mut Rng, gain: f32, offset: f32) -> [f32; 6] {
    let mut sums = [0.0; 6];
    for _ in 0..2 * PAIRS {
        let p = rng.below(256) as f32;
        let i = (gain * p + offset + rng.unit() * 3.0)
            .clamp(0.0, 255.0)
            .round();
        let apart = f32::from(u8::from((p - i).abs() > 24.0));
        for (sum, term) in sums.iter_mut().zip([p, i, p * p, p * i, i * i, apart]) {
            *sum += term;
        }
    }
    sums
}

/// A part of twelve pairs with these sums.
pub fn part(sums: &rust::Stats) -> Part<'_> {
    let [chroma1, chroma2] = sums.chroma();
    Part {
        luma: sums.luma().as_flattened(),
        chroma: [chroma1.as_flattened(), chroma2.as_flattened()],
        pairs: PAIRS,
    }
}

impl Sides for Fit {
    fn pixels(&self) -> usize {
        self.size.width * self.size.height
    }

    fn ours(&mut self) {
        let parts = self.parts.each_ref();
        let parts = parts.map(|sums| sums.as_ref().map_or(ABSENT, part));
        let (mut work, mut layer) = self.made.lent();
        black_box(groups::fit(
            black_box(parts),
            self.size,
            self.settings,
            RATIO,
            black_box(&mut work),
            black_box(&mut layer),
        ));
    }

    fn theirs(&mut self) {
        let parts = black_box(self.parts.each_ref().map(Option::as_ref));
        let (size, settings) = ((self.size.width, self.size.height), self.settings);
        let (limit, proof, strict) = (settings.limit, settings.evidence, settings.strict);
        self.rust = black_box(rust::fit(parts, size, limit, proof, strict, RATIO));
    }

    fn same(&mut self) -> bool {
        let rust = self.rust.as_ref().expect("the Rust had its turn");
        self.made.is(rust)
    }
}
