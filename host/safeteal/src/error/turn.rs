//! What came out of turn in a walk over a clip, and whose turn it is.

use std::fmt;

use super::{many, Fault, Search};
use crate::{Progress, Refusal};

/// What a walk was given or asked for out of turn. Chunks, and so layers, and pairs are counted from 0.
#[derive(Clone, Copy, Debug, PartialEq)]
pub(crate) enum Turn {
    /// A pair, while that layer is due; the pair after it is the second number.
    Due(usize, usize),
    /// A pair after the last of so many.
    After(usize),
    /// A pair of that number in place of the next, the second.
    Number(usize, usize),
    /// That layer before it is due, after the second number's pair; the third is the next one.
    Early(usize, usize, usize),
    /// A layer after the last of so many.
    Taken(usize),
    /// Anything of a walk that no call left.
    Astray(Progress),
}

impl fmt::Display for Turn {
    fn fmt(&self, f: &mut fmt::Formatter<'_>) -> fmt::Result {
        match *self {
            Turn::Due(layer, pair) => write!(f, "layer {layer} is due; take it before pair {pair}"),
            Turn::After(pairs) => write!(
                f,
                "the walk is over {}, and all are handed over; start one over more for a longer clip",
                many(pairs, "pair")
            ),
            Turn::Number(number, next) => write!(
                f,
                "the pair's number is {number} and must be {next}: pairs are handed over in turn, from 0 on"
            ),
            Turn::Early(layer, last, next) => write!(
                f,
                "layer {layer} is due after pair {last}, and pair {next} is the next to hand over"
            ),
            Turn::Taken(0) => write!(f, "a clip of no pairs gives no layer"),
            Turn::Taken(layers) => write!(
                f,
                "the clip gives {}, and all are taken; start another walk for another clip",
                many(layers, "layer")
            ),
            Turn::Astray(at) => write!(
                f,
                "no walk over {} comes to {} handed over and {} taken; go on with what the call before left",
                many(at.pairs, "pair"),
                at.added,
                many(at.taken, "layer")
            ),
        }
    }
}

impl Search {
    /// A pair of that number, handed over to a walk.
    pub fn pair(self, progress: &Progress, number: usize) -> Self {
        self.turn(progress, || {
            let Progress { pairs, added, .. } = *progress;
            if added == pairs {
                Turn::After(pairs)
            } else if progress.is_due() {
                Turn::Due(progress.taken, added)
            } else {
                Turn::Number(number, added)
            }
        })
    }

    /// A layer asked of a walk.
    pub fn layer_due(self, progress: &Progress) -> Self {
        self.turn(progress, || match progress.last_for(progress.taken) {
            Some(last) => Turn::Early(progress.taken, last, progress.added),
            None => Turn::Taken(progress.chunks()),
        })
    }

    fn turn(self, progress: &Progress, turn: impl FnOnce() -> Turn) -> Self {
        self.note(Refusal::Turn, || {
            Some(Fault::Turn(if progress.is_left() {
                turn()
            } else {
                Turn::Astray(*progress)
            }))
        })
    }
}
