//! A walk as it is lent to its calls, and the sums in its three slots.

use super::expected::{sums_numbers, wrong_ratio, wrong_size, Length};
use super::fit::Part;
use super::inputs::{sizes, Sizes};
use super::rng::Rng;
use crate::second::walk::{State, CHUNK};
use safeteal::ffi::{self, Walked};

lent! {
    /// `Walk`, number by number.
    pub struct Walk {
        width: usize,
        height: usize,
        ratio: usize,
        pairs: usize,
        added: usize,
        taken: usize,
    }
}

lent! {
    /// The sums of a chunk.
    pub struct Slot {
        luma: Vec<f32>,
        chroma1: Vec<f32>,
        chroma2: Vec<f32>,
    }
}

lent! {
    pub struct Slots {
        slot0: Slot,
        slot1: Slot,
        slot2: Slot,
    }
}

/// The nine slices by their full names.
pub const SLICES: &[&str] = &[
    "slot0_luma",
    "slot0_chroma1",
    "slot0_chroma2",
    "slot1_luma",
    "slot1_chroma1",
    "slot1_chroma2",
    "slot2_luma",
    "slot2_chroma1",
    "slot2_chroma2",
];

impl Walk {
    pub fn new((width, height, ratio): Sizes, state: State) -> Self {
        Self {
            width,
            height,
            ratio,
            pairs: state.pairs,
            added: state.added,
            taken: state.taken,
        }
    }

    pub fn sizes(&self) -> Sizes {
        (self.width, self.height, self.ratio)
    }

    pub fn state(&self) -> State {
        State {
            pairs: self.pairs,
            added: self.added,
            taken: self.taken,
        }
    }

    /// The same walk elsewhere.
    pub fn at(&self, state: State) -> Self {
        Self::new(self.sizes(), state)
    }

    pub fn lent(&self) -> ffi::Walk {
        ffi::Walk {
            width: self.width,
            height: self.height,
            ratio: self.ratio,
            pairs: self.pairs,
            added: self.added,
            taken: self.taken,
        }
    }

    /// The answer of a call that leaves this walk: with the number of a refusal, the walk that it was given.
    pub fn answered(&self, number: u64) -> Walked {
        Walked {
            word: number,
            walk: self.lent(),
        }
    }

    /// Rows 1 and 2.
    pub fn refusal(&self) -> u64 {
        if wrong_size(self.width, self.height) {
            1
        } else if wrong_ratio(self.ratio, self.width, self.height) {
            2
        } else {
            0
        }
    }

    /// Mostly a walk that no calls leave; else one of another clip, or of other sizes.
    pub fn spoil(&mut self, rng: &mut Rng) {
        match rng.below(8) {
            0 => self.added = self.pairs.wrapping_add(1 + rng.below(2 * CHUNK)),
            1 => self.pairs = self.added.wrapping_sub(1 + rng.below(2 * CHUNK)),
            2 => self.taken = self.taken.wrapping_sub(1),
            3 => self.taken = self.taken.wrapping_add(1 + rng.below(3)),
            4 => self.added = self.added.wrapping_add(CHUNK),
            5 => (self.width, self.height, self.ratio) = sizes(rng, 12),
            6 => self.fill(|| usize::MAX),
            _ => self.fill(|| rng.bits() as usize),
        }
    }

    /// Puts numbers where the clip is reckoned, and half of the time into the sizes as well.
    fn fill(&mut self, mut number: impl FnMut() -> usize) {
        (self.pairs, self.added, self.taken) = (number(), number(), number());
        if number() % 2 == 1 {
            (self.width, self.height, self.ratio) = (number(), number(), number());
        }
    }

    /// The same turn in a shorter clip: with fewer chunks behind, or fewer pairs before the end.
    pub fn smaller(&self) -> Vec<Self> {
        let state = self.state();
        let without = |chunks: usize| {
            let pairs = chunks.saturating_mul(CHUNK);
            let fits = pairs <= state.added && chunks <= state.taken;
            fits.then(|| State {
                pairs: state.pairs.saturating_sub(pairs),
                added: state.added - pairs,
                taken: state.taken - chunks,
            })
        };
        let behind = [state.taken / 3 * 3, state.taken / 6 * 3, 3].map(without);
        let before = [0, 1, CHUNK, 2 * CHUNK].map(|more| {
            let pairs = state.added.checked_add(more)?;
            Some(State { pairs, ..state })
        });
        let made = behind.into_iter().chain(before).flatten();
        made.map(|state| self.at(state)).collect()
    }
}

impl From<ffi::Walk> for Walk {
    fn from(walk: ffi::Walk) -> Self {
        Self {
            width: walk.width,
            height: walk.height,
            ratio: walk.ratio,
            pairs: walk.pairs,
            added: walk.added,
            taken: walk.taken,
        }
    }
}

/// Where some calls leave a walk: mostly one of few pairs, else one at the end of all numbers.
pub fn state(rng: &mut Rng) -> State {
    let pairs = match rng.below(8) {
        0 => rng.pick(&[
            usize::MAX,
            usize::MAX - 1,
            usize::MAX / 12 * 12,
            1 << 63,
            1 << 32,
        ]),
        1 => rng.bits() as usize,
        2 => CHUNK * rng.below(5),
        _ => rng.below(60),
    };
    let near = rng.below(3 * CHUNK);
    let added = match rng.below(6) {
        0 => near,
        1 => pairs.saturating_sub(near),
        2 => CHUNK * (1 + rng.below(4)),
        3 => pairs / CHUNK * CHUNK,
        4 => rng.below(pairs.max(1)),
        _ => pairs,
    };
    let state = State {
        added: added.min(pairs),
        ..State::start(pairs)
    };
    let taken = state.least() + rng.below(1 + state.most() - state.least());
    State { taken, ..state }
}

/// Such a one of which that is true.
pub fn state_where(rng: &mut Rng, wanted: impl Fn(State) -> bool) -> State {
    loop {
        let state = state(rng);
        if wanted(state) {
            return state;
        }
    }
}

impl Slot {
    /// As a part of so many pairs.
    pub fn part(&self, pairs: usize) -> Part {
        Part {
            luma: self.luma.clone(),
            chroma1: self.chroma1.clone(),
            chroma2: self.chroma2.clone(),
            pairs,
        }
    }

    /// Adds the sums of another.
    pub fn add(&mut self, other: &Self) {
        let slices = [
            (&mut self.luma, &other.luma),
            (&mut self.chroma1, &other.chroma1),
            (&mut self.chroma2, &other.chroma2),
        ];
        for (sums, others) in slices {
            for (sum, other) in sums.iter_mut().zip(others) {
                *sum += other;
            }
        }
    }

    fn lent(&mut self) -> safeteal::Slot<'_> {
        safeteal::Slot {
            luma: &mut self.luma,
            chroma: [&mut self.chroma1, &mut self.chroma2],
        }
    }
}

impl From<Part> for Slot {
    fn from(part: Part) -> Self {
        Self {
            luma: part.luma,
            chroma1: part.chroma1,
            chroma2: part.chroma2,
        }
    }
}

impl Slots {
    /// Slots of these sizes, each slice filled with numbers.
    pub fn filled(size: Sizes, mut number: impl FnMut() -> f32) -> Self {
        let mut slot = || {
            let lengths = sums_numbers(size).map(|length| length.least().unwrap_or(0));
            let [luma, chroma1, chroma2] =
                lengths.map(|length| (0..length).map(|_| number()).collect());
            Slot {
                luma,
                chroma1,
                chroma2,
            }
        };
        Self {
            slot0: slot(),
            slot1: slot(),
            slot2: slot(),
        }
    }

    /// The slot of a chunk: chunk c lies in slot c modulo 3.
    pub fn of(&mut self, chunk: usize) -> &mut Slot {
        let [slot0, slot1, slot2] = [&mut self.slot0, &mut self.slot1, &mut self.slot2];
        match chunk % 3 {
            0 => slot0,
            1 => slot1,
            _ => slot2,
        }
    }

    /// Row 4: all nine slices, whatever chunks there are.
    pub fn lengths(size: Sizes) -> [Length; 9] {
        let sums = sums_numbers(size);
        std::array::from_fn(|at| sums[at % 3])
    }

    pub fn lent(&mut self) -> [safeteal::Slot<'_>; 3] {
        [&mut self.slot0, &mut self.slot1, &mut self.slot2].map(Slot::lent)
    }

    /// The parts that the next layer is fitted from; the slot of a chunk that there is not is not looked at.
    pub fn window(&mut self, state: State) -> [Part; 3] {
        let own = state.taken;
        let chunks = [own.wrapping_sub(1), own, own.wrapping_add(1)];
        let mut parts = chunks.into_iter().zip(state.window());
        [(); 3].map(|()| match parts.next() {
            Some((chunk, pairs @ 1..)) => self.of(chunk).part(pairs),
            _ => Part::none(),
        })
    }
}
