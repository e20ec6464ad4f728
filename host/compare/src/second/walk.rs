//! The turns of a walk over a clip, from the words of request W-204; which numbers a walk can have, from our reading of
//! it, held to a search of all calls in turn below. In quotation marks stand the paper's own words.

/// "one layer per chunk of 12".
pub const CHUNK: usize = 12;

/// How far a walk has come; any three numbers.
#[derive(Clone, Copy, Debug, PartialEq, Eq, PartialOrd, Ord)]
pub struct State {
    /// "the clip's number of pairs".
    pub pairs: usize,
    /// The pairs handed over, and so the next one's "own number from 0".
    pub added: usize,
    /// The layers taken "in chunk order", and so the chunk of the next one.
    pub taken: usize,
}

impl State {
    /// Of "the clip's number of pairs at the start".
    pub fn start(pairs: usize) -> Self {
        Self {
            pairs,
            added: 0,
            taken: 0,
        }
    }

    /// How many chunks the clip has.
    pub fn chunks(self) -> usize {
        self.pairs.div_ceil(CHUNK)
    }

    /// How many pairs of the clip a chunk has; none where the clip has no such chunk.
    pub fn size(self, chunk: usize) -> usize {
        let before = chunk as u128 * CHUNK as u128;
        let rest = (self.pairs as u128).saturating_sub(before);
        rest.min(CHUNK as u128) as usize
    }

    /// The pairs of what the next layer is fitted from, "from c-1, c and c+1": "The first chunk has no previous part
    /// and the last no next".
    pub fn window(self) -> [usize; 3] {
        let own = self.taken;
        let around = [own.checked_sub(1), Some(own), own.checked_add(1)];
        around.map(|chunk| chunk.map_or(0, |chunk| self.size(chunk)))
    }

    /// Whether all pairs of a chunk that there is have been handed over.
    fn complete(self, chunk: usize) -> bool {
        let size = self.size(chunk);
        let end = chunk as u128 * CHUNK as u128 + size as u128;
        size > 0 && self.added as u128 >= end
    }

    /// "A layer is due once chunk c+1 is complete, or the clip."
    pub fn due(self) -> bool {
        let next = self.taken.checked_add(1);
        let ready = next.is_some_and(|next| self.complete(next)) || self.added == self.pairs;
        self.size(self.taken) > 0 && ready
    }

    /// With the pair of that number; none of "a pair out of turn, after the last or while a layer is due".
    pub fn with_pair(self, number: usize) -> Option<Self> {
        let in_turn = number == self.added && self.added < self.pairs && !self.due();
        in_turn.then(|| Self {
            added: self.added + 1,
            ..self
        })
    }

    /// With one more layer; none of "a layer taken when none is due".
    pub fn with_layer(self) -> Option<Self> {
        self.due().then(|| Self {
            taken: self.taken + 1,
            ..self
        })
    }

    /// The fewest layers that are taken with so many pairs handed over: all that were due "before any further pair".
    pub fn least(self) -> usize {
        self.added.checked_sub(1).map_or(0, whole)
    }

    /// The most: all that are due.
    pub fn most(self) -> usize {
        if self.added == self.pairs {
            self.chunks()
        } else {
            whole(self.added)
        }
    }

    /// Whether a sequence of accepted calls leaves it.
    pub fn left(self) -> bool {
        self.added <= self.pairs && (self.least()..=self.most()).contains(&self.taken)
    }
}

/// How many chunks with a complete one behind them so many pairs make.
fn whole(added: usize) -> usize {
    (added / CHUNK).saturating_sub(1)
}

#[cfg(test)]
mod tests {
    use std::collections::BTreeSet;

    use super::State;

    /// The pairs that a layer is taken behind, in a walk of calls in turn.
    fn taken_behind(pairs: usize) -> Vec<usize> {
        let (mut state, mut behind) = (State::start(pairs), Vec::new());
        loop {
            if let Some(next) = state.with_layer() {
                behind.push(state.added);
                state = next;
            } else if let Some(next) = state.with_pair(state.added) {
                state = next;
            } else {
                return behind;
            }
        }
    }

    #[test]
    fn layers_come_behind_the_next_chunk_or_the_clip() {
        assert_eq!(taken_behind(0), []);
        assert_eq!(taken_behind(1), [1]);
        assert_eq!(taken_behind(12), [12]);
        assert_eq!(taken_behind(13), [13, 13]);
        assert_eq!(taken_behind(24), [24, 24]);
        assert_eq!(taken_behind(25), [24, 25, 25]);
        assert_eq!(taken_behind(30), [24, 30, 30]);
        assert_eq!(taken_behind(36), [24, 36, 36]);
        assert_eq!(taken_behind(37), [24, 36, 37, 37]);
        for pairs in 0..200 {
            let layers = State::start(pairs).chunks();
            assert_eq!(taken_behind(pairs).len(), layers, "{pairs}");
        }
    }

    /// Every state that calls in turn lead to from the start.
    fn reached(pairs: usize) -> BTreeSet<State> {
        let (mut reached, mut next) = (BTreeSet::new(), vec![State::start(pairs)]);
        while let Some(state) = next.pop() {
            if reached.insert(state) {
                next.extend(state.with_layer());
                next.extend(state.with_pair(state.added));
            }
        }
        reached
    }

    /// What is left is what is reached, and there a layer is due where fewer than the most are taken.
    #[test]
    fn what_is_left_is_what_is_reached() {
        for pairs in 0..=60 {
            let reached = reached(pairs);
            for added in 0..=62 {
                for taken in 0..=8 {
                    let state = State {
                        pairs,
                        added,
                        taken,
                    };
                    assert_eq!(state.left(), reached.contains(&state), "{state:?}");
                    assert!(!state.left() || state.due() == (taken < state.most()));
                }
            }
        }
    }

    #[test]
    fn a_layer_is_fitted_from_its_neighbours() {
        let window = |pairs: usize, taken: usize| {
            let added = pairs;
            let state = State {
                pairs,
                added,
                taken,
            };
            state.window()
        };
        assert_eq!(window(30, 0), [0, 12, 12]);
        assert_eq!(window(30, 1), [12, 12, 6]);
        assert_eq!(window(30, 2), [12, 6, 0]);
        assert_eq!(window(5, 0), [0, 5, 0]);
        assert_eq!(window(24, 1), [12, 12, 0]);
    }

    /// The largest clips, and numbers that no clip has.
    #[test]
    fn nothing_wraps() {
        let most = usize::MAX;
        let state = |pairs, added, taken| State {
            pairs,
            added,
            taken,
        };
        let chunks = State::start(most).chunks();
        assert_eq!(chunks, most / 12 + 1);
        assert_eq!(State::start(most).size(chunks - 1), most % 12);
        assert!(state(most, most, chunks).left() && !state(most, most, chunks).due());
        assert!(state(most, most, chunks - 1).due());
        assert_eq!(state(most, most, chunks).with_pair(most), None);
        for (pairs, added, taken) in [
            (most, most, most),
            (most, 0, most),
            (0, most, 0),
            (0, 0, most),
            (5, most, most),
        ] {
            let state = state(pairs, added, taken);
            assert!(!state.left() && !state.due(), "{state:?}");
            assert_eq!(state.with_layer(), None, "{state:?}");
        }
    }
}
