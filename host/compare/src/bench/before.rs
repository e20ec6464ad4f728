//! Each call on two libraries by turns: the one that `SAFETEAL_BEFORE` named when this package was built, and the one
//! that it stands on.

use std::time::Duration;

use super::{timed, Workload};
use crate::check::walks::CALLS;
use crate::copies::{choose, ABSENT, COPIES};
use crate::names::WALKS;
use crate::report::csv::Fields;
use crate::report::rows::{four, sized};

/// The sizes of luma, and how many rounds each gets unless another number is asked for; whole walks get fewer.
pub const SIZES: [(usize, usize, usize); 4] = [
    (64, 64, 1000),
    (512, 512, 250),
    (1920, 1080, 80),
    (4096, 4096, 20),
];

/// Those that are measured where none is asked for.
pub const USUAL: [(usize, usize); 2] = [(64, 64), (1920, 1080)];

/// A turn lasts at least so long: that many calls are made in it.
const TURN: Duration = Duration::from_micros(200);

/// The turns of the Rust, or of what else stands beside, which is there to be seen and decides nothing.
const BESIDE: usize = 3;

/// A share of the other library's time that a change may cost.
const MOST: f64 = 1.02;

#[derive(Clone, Copy)]
enum Library {
    Now,
    Before,
}

impl Library {
    /// The calls that follow go to this one, or rather to one of its copies.
    fn choose(self, copy: usize) {
        choose(self as usize * COPIES + copy);
    }
}

/// One workload of one call at one size on both libraries. Nanoseconds per pixel: the shortest turn of each side; and
/// the ratios of the rounds, in order of size.
pub struct Compared {
    pub workload: &'static Workload,
    pub size: (usize, usize),
    pub before: f64,
    pub now: f64,
    pub other: f64,
    ratios: Vec<f64>,
}

/// A row: by the shortest turns, and by the rounds, with the middle half of those; with what stands beside.
impl Fields for Compared {
    const HEAD: &'static [&'static str] = &[
        "call",
        "workload",
        "size",
        "before_ns",
        "now_ns",
        "shortest_ratio",
        "median_ratio",
        "middle_from",
        "middle_to",
        "now_to_other",
        "beside",
        "rounds",
    ];

    fn fields(&self) -> Vec<String> {
        let names = [self.workload.call, self.workload.name].map(str::to_owned);
        let ratios = [50, 25, 75].map(|hundredths| self.ratio(hundredths));
        let times = [self.before, self.now, self.of_shortest()];
        let numbers = times.into_iter().chain(ratios);
        let numbers = numbers.chain([self.now / self.other]).map(four);
        let beside = self.workload.beside.name().to_owned();
        let names = names.into_iter().chain([sized(self.size)]);
        let rest = [beside, self.rounds().to_string()];
        names.chain(numbers).chain(rest).collect()
    }
}

impl Compared {
    pub fn rounds(&self) -> usize {
        self.ratios.len()
    }

    /// The shortest turn now, as a share of the shortest before.
    pub fn of_shortest(&self) -> f64 {
        self.now / self.before
    }

    /// The ratio that so many hundredths of the rounds are below.
    pub fn ratio(&self, hundredths: usize) -> f64 {
        self.ratios[(self.ratios.len() - 1) * hundredths / 100]
    }
}

/// Whether both libraries have its call, or the calls of a walk: an older one lacks those that were added since.
pub fn in_both(workload: &Workload) -> bool {
    let makes = |call: &&str| match workload.call {
        WALKS => CALLS.contains(call),
        name => name == *call,
    };
    !ABSENT.iter().any(makes)
}

/// Measures a workload on both libraries, which have its call. A round is four turns, before, now, now, before: what
/// grows slower or faster in the course of it weighs on both alike. The next round takes the next copies, whose
/// functions stand elsewhere.
pub fn compare(workload: &'static Workload, size: (usize, usize), rounds: usize) -> Compared {
    let (width, height) = size;
    for library in [Library::Before, Library::Now] {
        library.choose(0);
        let mut sides = (workload.make)(width, height);
        sides.ours();
        sides.theirs();
        workload.assert_right(sides.as_mut());
    }
    let mut sides = (workload.make)(width, height);
    let (mut before, mut now, mut ratios) = (Duration::MAX, Duration::MAX, Vec::new());
    let calls = calls_in_a_turn(|| sides.ours());
    for round in 0..rounds {
        let mut turn = |library: Library| {
            library.choose(round % COPIES);
            timed(|| (0..calls).for_each(|_| sides.ours()))
        };
        let turns = [Library::Before, Library::Now, Library::Now, Library::Before].map(&mut turn);
        before = before.min(turns[0]).min(turns[3]);
        now = now.min(turns[1]).min(turns[2]);
        ratios.push((turns[1] + turns[2]).as_secs_f64() / (turns[0] + turns[3]).as_secs_f64());
    }
    ratios.sort_by(f64::total_cmp);
    let other_calls = calls_in_a_turn(|| sides.theirs());
    let other = (0..BESIDE).map(|_| timed(|| (0..other_calls).for_each(|_| sides.theirs())));
    let other = other.min().unwrap_or_default();
    let pixels = sides.pixels();
    let per_pixel = |time: Duration, calls: usize| time.as_nanos() as f64 / (pixels * calls) as f64;
    Compared {
        workload,
        size,
        before: per_pixel(before, calls),
        now: per_pixel(now, calls),
        other: per_pixel(other, other_calls),
        ratios,
    }
}

/// So many that a turn is not short; the first call, which does not count, touches pages.
fn calls_in_a_turn(mut call: impl FnMut()) -> usize {
    call();
    let once = timed(call);
    TURN.as_nanos().div_ceil(once.as_nanos().max(1)) as usize
}

/// For the shortest turns and for the median rounds a line with the worst ratio of these rows.
pub fn worst(rows: &[Compared]) -> Vec<String> {
    type Ratio = fn(&Compared) -> f64;
    let kinds: [(&str, Ratio); 2] = [
        ("shortest turns", Compared::of_shortest),
        ("median rounds", |row| row.ratio(50)),
    ];
    let line = |(kind, ratio): (&str, Ratio)| {
        let worst = rows.iter().max_by(|a, b| ratio(a).total_cmp(&ratio(b)))?;
        let above = rows.iter().filter(|row| ratio(row) > MOST).count();
        let (call, name, all) = (worst.workload.call, worst.workload.name, rows.len());
        let (size, ratio) = (sized(worst.size), ratio(worst));
        Some(format!(
            "worst by {kind}: {ratio:.3} ({call}, {name}, {size}); {above} of {all} rows above {MOST}"
        ))
    };
    kinds.into_iter().filter_map(line).collect()
}
