//! Each call beside the Rust on one thread: the same inputs, in one run, by turns. A call that the Rust does not have
//! stands beside a plain copy, or beside our own calls that do the same by hand.

#[cfg(before)]
pub mod before;
pub mod copied;
pub mod scene;
pub mod slices;

/// A call's workloads at mask steps of a pixel: for each, a mask with nothing, half or everything marked.
macro_rules! at_steps {
    ($call:literal, $make:ident) => {
        at_steps!($call, $make, (2, 1), (1, 2), (3, 1), (4, 4), (8, 8))
    };
    ($call:literal, $make:ident, $($step:tt),*) => {
        &[$(
            at_steps!(one $call, $make, $step, ", nothing marked", None),
            at_steps!(one $call, $make, $step, ", half marked", Half),
            at_steps!(one $call, $make, $step, ", all marked", All),
        )*]
    };
    (one $call:literal, $make:ident, ($across:literal, $down:literal), $marked:literal, $part:ident) => {
        Workload::new($call, concat!("step ", $across, "×", $down, $marked), |width, height| {
            $make((width / $across, height / $down), ($across, $down), Marked::$part)
        })
    };
}

/// A call's workloads with a mask of the plane's size, and of twice that.
macro_rules! by_step {
    ($call:literal, $name:literal, $make:ident) => {
        &[
            Workload::new($call, concat!($name, ", step 1"), |width, height| {
                $make(width, height, 1)
            }),
            Workload::new($call, concat!($name, ", step 2"), |width, height| {
                $make(width / 2, height / 2, 2)
            }),
        ]
    };
}

/// Our side's call over a layer in the form that it is lent in.
macro_rules! by_form {
    ($fitted:expr, $layer:ident, $call:expr) => {
        match $fitted.bytes() {
            Some($layer) => black_box($call),
            None => {
                let $layer = $fitted.numbers();
                black_box($call)
            }
        }
    };
}

/// A call's workloads over a layer: for each, its lettering and the plane of the frames.
macro_rules! over_layers {
    ($call:literal, $make:ident) => {
        over_layers!($call, $make,
            (Logo, luma), (Logo, chroma), (All, luma), (All, chroma), (Opaque, luma), (Opaque, chroma))
    };
    ($call:literal, $make:ident, $(($lettering:ident, $plane:ident)),*) => {
        &[$(
            Workload::new($call, concat!(over_layers!($lettering), ", ", stringify!($plane)), |width, height| {
                $make(Lettering::$lettering.fitted(width, height), over_layers!($plane))
            })
        ),*]
    };
    (Logo) => { "a fitted logo" };
    (All) => { "every pixel layered" };
    (Opaque) => { "every ring failing" };
    (luma) => { 0 };
    (chroma) => { 1 };
}

pub mod apply;
pub mod assemble;
pub mod distances;
pub mod empty;
pub mod fit;
pub mod hold;
pub mod mask;
pub mod masked;
pub mod parcel_read;
pub mod parcel_sizes;
pub mod parcel_write;
pub mod peel;
pub mod render;
pub mod stats;
pub mod unpeel;
pub mod walk_due;
pub mod walk_layer;
pub mod walk_pair;
pub mod walk_start;
pub mod walks;

use std::time::{Duration, Instant};

use crate::names::WALKS;
use crate::report::rows::{Beside, Growth, Row};
use crate::report::spread;

/// The workloads of every call.
pub const CALLS: &[&[Workload]] = &[
    distances::WORKLOADS,
    mask::WORKLOADS,
    apply::WORKLOADS,
    apply::STEPS,
    hold::WORKLOADS,
    hold::STEPS,
    peel::BYTES,
    unpeel::BYTES,
    peel::NUMBERS,
    unpeel::NUMBERS,
    empty::WORKLOADS,
    stats::WORKLOADS,
    assemble::WORKLOADS,
    fit::WORKLOADS,
    render::WORKLOADS,
    parcel_write::WORKLOADS,
    parcel_read::WORKLOADS,
    parcel_sizes::WORKLOADS,
    walk_start::WORKLOADS,
    walk_pair::WORKLOADS,
    walk_layer::WORKLOADS,
    walk_due::WORKLOADS,
    walks::WORKLOADS,
];

/// The sizes of luma, and how many rounds each gets at most.
pub const SIZES: [(usize, usize, usize); 4] = [
    (64, 64, 1024),
    (512, 512, 128),
    (1920, 1080, 15),
    (4096, 4096, 5),
];

/// No more rounds are begun after this time, save that there are three of them, or one where a round is long; unless so
/// many are asked for.
pub const ENOUGH: Duration = Duration::from_secs(2);
const LONG: Duration = Duration::from_secs(10);

/// A round lasts at least so long, if a thousand calls do.
const SHORT: Duration = Duration::from_micros(20);

/// Growth is from the side of a small square to that of a large one: the small one is taken so many times that
/// both have the same pixels, and wait for the memory alike.
pub const GROWTH: (usize, usize) = (512, 4096);
pub const GROWTH_ROUNDS: usize = 5;

/// Something a call is measured on.
pub struct Workload {
    pub call: &'static str,
    pub name: &'static str,
    pub beside: Beside,
    /// Makes the inputs for a size of luma.
    pub make: Make,
    /// It is measured at so many of the sizes, from the smallest on.
    sizes: usize,
}

type Make = fn(usize, usize) -> Box<dyn Sides>;

impl Workload {
    const fn new(call: &'static str, name: &'static str, make: Make) -> Self {
        Self {
            call,
            name,
            beside: Beside::Rust,
            make,
            sizes: SIZES.len(),
        }
    }

    /// Of a call that the Rust does not have.
    const fn beside_a_copy(call: &'static str, name: &'static str, make: Make) -> Self {
        Self {
            beside: Beside::Copy,
            ..Self::new(call, name, make)
        }
    }

    /// Of a call that does what other calls do by hand.
    const fn by_hand(call: &'static str, name: &'static str, make: Make) -> Self {
        Self {
            beside: Beside::Hand,
            ..Self::new(call, name, make)
        }
    }

    /// The same, but not at the largest size.
    const fn but_the_largest(self) -> Self {
        Self {
            sizes: SIZES.len() - 1,
            ..self
        }
    }

    /// The sizes that it is measured at, and how many rounds each gets at most.
    pub fn sizes(&self) -> &'static [(usize, usize, usize)] {
        &SIZES[..self.sizes]
    }

    /// How many of so many rounds it gets: one in ten, where it is a whole walk, which is some forty calls.
    pub fn rounds(&self, of: usize) -> usize {
        match self.call {
            WALKS => of.div_ceil(10),
            _ => of,
        }
    }

    /// Whether its growth is measured, which is up to the largest size.
    pub fn grows(&self) -> bool {
        self.sizes == SIZES.len()
    }

    /// Our side has left what is right, where each side has had a turn.
    fn assert_right(&self, sides: &mut dyn Sides) {
        let (call, name) = (self.call, self.name);
        let right = match self.beside {
            Beside::Rust => "the Rust",
            Beside::Copy => "the second implementation",
            Beside::Hand => "our other calls",
        };
        assert!(sides.same(), "{call}, {name}: not what {right} leaves");
    }
}

/// One input, and both sides on it. Outputs are not cleared between rounds.
pub trait Sides {
    /// What the time is divided by: the pixels of the plane, the cells or the records; 1 where a call is the measure.
    fn pixels(&self) -> usize;
    fn ours(&mut self);
    /// The Rust's turn, or that of the copy, or of the calls by hand.
    fn theirs(&mut self);
    /// Whether our side has left what the Rust or the calls by hand have left; beside a copy, what the second
    /// implementation leaves.
    fn same(&mut self) -> bool;
}

/// Whether both sides leave the same in slices that they share, each in a turn that finds them spoilt.
fn leave_alike<S: Sides, T: PartialEq>(
    sides: &mut S,
    spoil: impl Fn(&mut S),
    left: impl Fn(&S) -> T,
) -> bool {
    spoil(sides);
    sides.ours();
    let ours = left(sides);
    spoil(sides);
    sides.theirs();
    ours == left(sides)
}

/// Measures a workload at a size, in at most so many rounds, and no longer than `enough` if that will do.
pub fn measured(workload: &Workload, size: (usize, usize), most: usize, enough: Duration) -> Row {
    let mut sides = (workload.make)(size.0, size.1);
    let (calls, [ours, other]) = turns(sides.as_mut(), most, enough);
    workload.assert_right(sides.as_mut());
    let both = ours.iter().zip(&other);
    let ratios: Vec<f64> = both
        .map(|(ours, other)| ours.as_secs_f64() / other.as_secs_f64())
        .collect();
    let (rounds, pixels) = (ours.len(), sides.pixels());
    let of_turns = match workload.beside {
        Beside::Hand => shortest,
        Beside::Rust | Beside::Copy => median,
    };
    let [ours, other] = [ours, other].map(|times| per_pixel(of_turns(times), pixels * calls));
    Row {
        call: workload.call.to_owned(),
        workload: workload.name.to_owned(),
        size,
        beside: workload.beside,
        ours,
        other,
        ratio: ours / other,
        spread: spread(&ratios),
        rounds,
        pixels,
    }
}

/// Runs both sides by turns. A call that is short is made several times in a round, so that the clock costs little. How
/// many times, and how long the rounds of each side were.
fn turns(sides: &mut dyn Sides, most: usize, enough: Duration) -> (usize, [Vec<Duration>; 2]) {
    let (mut ours, mut other) = (Vec::new(), Vec::new());
    let start = Instant::now();
    // A round that does not count: pages are touched and the caches are warm.
    let once = [timed(|| sides.ours()), timed(|| sides.theirs())];
    let calls = calls_in_a_round(once[0].min(once[1]));
    let long = once[0] + once[1] > LONG;
    for done in 0..most {
        if start.elapsed() > enough && (done >= 3 || (long && done >= 1)) {
            break;
        }
        ours.push(timed(|| (0..calls).for_each(|_| sides.ours())));
        other.push(timed(|| (0..calls).for_each(|_| sides.theirs())));
    }
    (calls, [ours, other])
}

/// Measures our side on as many small squares as make the large one, and on the large one.
pub fn grown(workload: &Workload) -> Growth {
    let (small, large) = GROWTH;
    let times = (large / small) * (large / small);
    let of = |side: usize, times: usize| -> f64 {
        let mut inputs: Vec<_> = (0..times).map(|_| (workload.make)(side, side)).collect();
        in_turn(&mut inputs)
    };
    let (small, large) = (of(small, times), of(large, 1));
    Growth {
        call: workload.call.to_owned(),
        workload: workload.name.to_owned(),
        small,
        large,
        growth: large / small,
    }
}

/// Our side's nanoseconds per pixel over several inputs, one after another, the median of the rounds.
fn in_turn(inputs: &mut [Box<dyn Sides>]) -> f64 {
    let mut round = || timed(|| inputs.iter_mut().for_each(|sides| sides.ours()));
    round();
    let times = (0..GROWTH_ROUNDS).map(|_| round()).collect();
    let pixels = inputs.iter().map(|sides| sides.pixels()).sum();
    per_pixel(median(times), pixels)
}

fn timed(work: impl FnOnce()) -> Duration {
    let start = Instant::now();
    work();
    start.elapsed()
}

fn calls_in_a_round(once: Duration) -> usize {
    let calls = SHORT.as_nanos() / once.as_nanos().max(1);
    calls.clamp(1, 1000) as usize
}

fn median(mut times: Vec<Duration>) -> Duration {
    times.sort_unstable();
    times[times.len() / 2]
}

/// Where both sides do the same work, this is what can be compared: what they differ by is less than rounds do.
fn shortest(times: Vec<Duration>) -> Duration {
    times.into_iter().min().unwrap_or_default()
}

/// In nanoseconds per pixel.
fn per_pixel(time: Duration, pixels: usize) -> f64 {
    time.as_nanos() as f64 / pixels as f64
}
