use super::case::Case;
use super::expected::Length;
use super::inputs::sizes;
use super::rng::Rng;
use super::walk::{state, Walk};
use safeteal::ffi;

lent! {
    pub struct WalkDue {
        walk: Walk,
    }
}

impl Case for WalkDue {
    type Answer = u64;

    const NAME: &'static str = "walk_due";
    const NUMBERS: &'static [usize] = &[0];
    const WRITTEN: &'static [&'static str] = &[];
    const SPOILT: usize = 3;

    fn random(rng: &mut Rng) -> Self {
        Self {
            walk: Walk::new(sizes(rng, 4096), state(rng)),
        }
    }

    fn spoil(&mut self, rng: &mut Rng) {
        self.walk.spoil(rng);
    }

    fn smaller(&self) -> Vec<Self> {
        let walks = self.walk.smaller().into_iter();
        walks.map(|walk| Self { walk }).collect()
    }

    fn lengths(&self) -> Vec<Length> {
        Vec::new()
    }

    fn ours(&mut self) -> u64 {
        ffi::walk_due(self.walk.lent())
    }

    /// It says no of what other calls refuse.
    fn refusal(&self) -> u64 {
        0
    }

    fn theirs(&mut self) -> u64 {
        let state = self.walk.state();
        let due = self.walk.refusal() == 0 && state.left() && state.due();
        256 * u64::from(due)
    }
}
