use super::case::Case;
use super::expected::Length;
use super::fit::{any_part, made_numbers, wrong_settings, Fit, Part, KINDS};
use super::inputs::{sizes, Sizes};
use super::rng::Rng;
use super::totals::Entries;
use super::walk::{state, state_where, Slots, Walk};
use crate::second::walk::State;
use safeteal::ffi::Walked;
use safeteal::{groups, LayerMut, Settings, Slot, Work};

lent! {
    pub struct WalkLayer {
        walk: Walk,
        [slots]: Slots,
        limit: f32,
        evidence: f32,
        strict: bool,
        models: Vec<f32>,
        kept: Vec<u8>,
        cover: Vec<u8>,
        luma: Vec<i16>,
        chroma1: Vec<i16>,
        chroma2: Vec<i16>,
    }
}

impl WalkLayer {
    /// The layer of a walk in this state: the parts of a fit lie in their slots, and anything in the others.
    fn of(rng: &mut Rng, size: Sizes, state: State, fit: Fit) -> Self {
        let mut slots = Slots::filled(size, || 0.0);
        let parts = [(2, fit.previous), (0, fit.own), (1, fit.next)];
        for (behind, part) in parts {
            let part = if part.pairs == 0 {
                any_part(rng, size, 0)
            } else {
                part
            };
            *slots.of(state.taken % 3 + behind) = part.into();
        }
        Self {
            walk: Walk::new(size, state),
            slots,
            limit: fit.limit,
            evidence: fit.evidence,
            strict: fit.strict,
            models: fit.models,
            kept: fit.kept,
            cover: fit.cover,
            luma: fit.luma,
            chroma1: fit.chroma1,
            chroma2: fit.chroma2,
        }
    }

    /// The slots, the settings, and the slices that are written.
    pub fn lent(&mut self) -> ([Slot<'_>; 3], Settings, Work<'_>, LayerMut<'_>) {
        let settings = Settings {
            limit: self.limit,
            evidence: self.evidence,
            strict: self.strict,
        };
        let work = Work {
            models: &mut self.models,
            kept: &mut self.kept,
            cover: &mut self.cover,
        };
        let layer = LayerMut {
            luma: &mut self.luma,
            chroma: [&mut self.chroma1, &mut self.chroma2],
        };
        (self.slots.lent(), settings, work, layer)
    }

    /// Where the walk is after the call, if a layer is due.
    pub fn next(&self) -> Option<State> {
        let state = Some(self.walk.state()).filter(|state| state.left());
        state.and_then(State::with_layer)
    }

    /// Leaves the layer that is fitted from these parts, with the answer and the chroma entries.
    pub fn fitted(&mut self, [previous, own, next]: [Part; 3]) -> (Walked, Entries) {
        let (width, height, ratio) = self.walk.sizes();
        let mut fit = Fit {
            previous,
            own,
            next,
            width,
            height,
            limit: self.limit,
            evidence: self.evidence,
            strict: self.strict,
            ratio,
            models: self.models.clone(),
            kept: self.kept.clone(),
            cover: self.cover.clone(),
            luma: self.luma.clone(),
            chroma1: self.chroma1.clone(),
            chroma2: self.chroma2.clone(),
        };
        let (_, entries) = fit.tallied();
        (self.luma, self.chroma1, self.chroma2) = (fit.luma, fit.chroma1, fit.chroma2);
        let next = self.next().expect("a layer that is due");
        (self.walk.at(next).answered(0), entries)
    }
}

impl Case for WalkLayer {
    type Answer = Walked;

    const NAME: &'static str = "walk_layer";
    const NUMBERS: &'static [usize] = &[0, 1, 2, 4, 6, 12];
    const WRITTEN: &'static [&'static str] = Fit::WRITTEN;
    const SPOILT: usize = 8;

    fn random(rng: &mut Rng) -> Self {
        let (size, kind) = (sizes(rng, 12), rng.below(KINDS));
        let state = if rng.once_in(8) {
            state(rng)
        } else {
            state_where(rng, State::due)
        };
        let fit = Fit::of_pairs(rng, size, kind, state.window());
        Self::of(rng, size, state, fit)
    }

    fn spoil(&mut self, rng: &mut Rng) {
        self.walk.spoil(rng);
    }

    fn smaller(&self) -> Vec<Self> {
        let walks = self.walk.smaller().into_iter();
        let made = walks.map(|walk| Self {
            walk,
            ..self.clone()
        });
        made.collect()
    }

    fn lengths(&self) -> Vec<Length> {
        let size = self.walk.sizes();
        [&Slots::lengths(size)[..], &made_numbers(size)].concat()
    }

    fn ours(&mut self) -> Walked {
        let walk = self.walk.lent();
        let (slots, settings, mut work, mut layer) = self.lent();
        groups::walk_layer(walk, &slots, settings, &mut work, &mut layer)
    }

    fn refusal(&self) -> u64 {
        match self.walk.refusal() {
            0 if self.misfits() => 4,
            0 if wrong_settings(self.limit, self.evidence) => 6,
            0 if self.next().is_none() => 12,
            number => number,
        }
    }

    fn refused(&self, number: u64) -> Walked {
        self.walk.answered(number)
    }

    fn theirs(&mut self) -> Walked {
        self.tallied().0
    }

    fn tallied(&mut self) -> (Walked, Entries) {
        let parts = self.slots.window(self.walk.state());
        self.fitted(parts)
    }

    fn free(answer: u64) -> &'static [&'static str] {
        Fit::free(answer)
    }
}
