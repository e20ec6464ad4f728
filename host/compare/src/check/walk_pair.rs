use super::case::Case;
use super::expected::Length;
use super::inputs::sizes;
use super::motion::Motion;
use super::planes::Planes;
use super::rng::Rng;
use super::stats::{sums_of_kind, Stats};
use super::walk::{state, state_where, Slot, Slots, Walk, SLICES};
use crate::second::walk::{State, CHUNK};
use safeteal::ffi::Walked;
use safeteal::groups;

lent! {
    pub struct WalkPair {
        walk: Walk,
        [slots]: Slots,
        number: usize,
        [planes]: Planes,
        [motion]: Motion,
    }
}

impl WalkPair {
    /// Where the walk is after the call, if that accepts the pair.
    pub fn next(&self) -> Option<State> {
        let state = Some(self.walk.state()).filter(|state| state.left());
        state.and_then(|state| state.with_pair(self.number))
    }
}

impl Case for WalkPair {
    type Answer = Walked;

    const NAME: &'static str = "walk_pair";
    const NUMBERS: &'static [usize] = &[0, 1, 2, 3, 4, 5, 12];
    const WRITTEN: &'static [&'static str] = SLICES;
    const ANY_NAN: bool = true;
    const SPOILT: usize = 8;

    fn random(rng: &mut Rng) -> Self {
        let size = sizes(rng, 12);
        let state = if rng.once_in(8) {
            state(rng)
        } else {
            state_where(rng, |state| state.with_pair(state.added).is_some())
        };
        let before = sums_of_kind(rng, state.added % CHUNK);
        Self {
            walk: Walk::new(size, state),
            slots: Slots::filled(size, || before(rng)),
            number: state.added,
            planes: Planes::random(rng, size),
            motion: Motion::random(rng),
        }
    }

    /// A walk that is none, a number out of turn, or a grid that no field can have.
    fn spoil(&mut self, rng: &mut Rng) {
        match rng.below(8) {
            0 => self.motion.stretch(rng),
            1..=3 => self.number = wrong_number(rng, self.walk.state()),
            _ => self.walk.spoil(rng),
        }
    }

    /// The number goes with the pairs before it.
    fn smaller(&self) -> Vec<Self> {
        let apart = self.number.wrapping_sub(self.walk.added);
        let walks = self.walk.smaller().into_iter();
        let made = walks.map(|walk| Self {
            number: walk.added.wrapping_add(apart),
            walk,
            ..self.clone()
        });
        made.collect()
    }

    fn lengths(&self) -> Vec<Length> {
        let size = self.walk.sizes();
        let (slots, planes) = (Slots::lengths(size), self.planes.lengths(size));
        [&slots[..], &planes, &self.motion.lengths()].concat()
    }

    fn ours(&mut self) -> Walked {
        let pair = self.planes.pair(&self.motion, self.walk.sizes());
        groups::walk_pair(self.walk.lent(), &mut self.slots.lent(), self.number, &pair)
    }

    fn refusal(&self) -> u64 {
        match self.walk.refusal() {
            0 if self.planes.wrong_pitches(self.walk.sizes()) => 3,
            0 if self.misfits() => 4,
            0 if self.motion.wrong() => 5,
            0 if self.next().is_none() => 12,
            number => number,
        }
    }

    fn refused(&self, number: u64) -> Walked {
        self.walk.answered(number)
    }

    /// The pair is added to its chunk's sums as stats adds it.
    fn theirs(&mut self) -> Walked {
        let added = self.walk.added;
        let slot = self.slots.of(added / CHUNK);
        let (width, height, ratio) = self.walk.sizes();
        let mut stats = Stats {
            luma: slot.luma.clone(),
            chroma1: slot.chroma1.clone(),
            chroma2: slot.chroma2.clone(),
            pairs: added % CHUNK,
            width,
            height,
            ratio,
            planes: self.planes.clone(),
            motion: self.motion.clone(),
        };
        stats.theirs();
        *slot = Slot {
            luma: stats.luma,
            chroma1: stats.chroma1,
            chroma2: stats.chroma2,
        };
        let next = self.next().expect("a pair that is accepted");
        self.walk.at(next).answered(0)
    }
}

/// The number of another pair: the one before or behind, the first, the clip's last, none of any clip.
pub fn wrong_number(rng: &mut Rng, state: State) -> usize {
    let State { pairs, added, .. } = state;
    rng.pick(&[
        added.wrapping_sub(1),
        added.wrapping_add(1),
        added.wrapping_add(CHUNK),
        added % CHUNK,
        0,
        pairs,
        pairs.wrapping_sub(1),
        usize::MAX,
    ])
}
