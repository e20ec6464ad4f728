//! Whole walks: over a clip from its start to its last layer, with calls between that are refused. After every call all
//! that was lent to it and all that it answers is compared: with the table of refusals, with the turns of the second
//! implementation, and with the clip held together, whose chunks the Rust sums and fits.
//!
//! After each call it is asked whether a layer is due. A case of the run is any other call of a walk; the run ends with
//! the walk in which it has as many as it should.

pub mod clip;
mod counts;
mod held;
#[cfg(test)]
mod tests;

use std::panic::{catch_unwind, AssertUnwindSafe};
use std::time::Instant;

use super::answer::Answer;
use super::case::{Both, Case};
use super::damage::{fault, input};
use super::lent::{arguments, Argument};
use super::rng::Rng;
use super::run::{each, Tally, Until};
use super::show;
use super::shrink::PATIENCE;
use super::totals::Entries;
use super::walk::{Slots, Walk};
use super::walk_due::WalkDue;
use super::walk_layer::WalkLayer;
use super::walk_pair::WalkPair;
use super::walk_start::WalkStart;
use crate::names::WALKS;
use crate::second::walk::CHUNK;
use clip::{Clip, Handed};
use held::Held;
use safeteal::Settings;
use words::note;

pub use counts::{Walks, CALLS};

/// The numbers that its calls can answer.
pub const NUMBERS: &[usize] = &[0, 1, 2, 3, 4, 5, 6, 12];

/// Compares walks until the end; the words of a failure have a call that can be pasted as a test.
pub fn run(seed: u64, until: Until) -> Result<Tally, String> {
    each(WALKS, seed, until, |rng, tally| {
        tally.add(&judged(&Clip::random(rng))?);
        Ok(())
    })
}

/// Our side alone, each slice in an allocation of exactly its length; at least so many calls.
pub fn alone(seed: u64, cases: u64) -> Tally {
    let start = Instant::now();
    let mut tally = Tally::default();
    for index in 0.. {
        if tally.cases() >= cases {
            break;
        }
        let clip = Clip::random(&mut Rng::of(seed, WALKS, index));
        let walked = walked(&clip, Alone::default());
        tally.add(&walked.expect("nothing is compared"));
    }
    tally.time = start.elapsed();
    tally
}

/// What a walk did where both sides agree, else the words of the difference with a small walk that has it.
fn judged(clip: &Clip) -> Result<Tally, String> {
    let Some(compared) = caught(clip) else {
        let words = clip.words();
        return Err(format!("a panic, and not by the library, on {words}"));
    };
    compared.map_err(|failure| {
        let words = &failure.words;
        note(&format!("  {WALKS}: {words}; looking for a smaller walk"));
        let (small, least) = shrink(clip.clone(), failure.clone());
        let (clip, small, text) = (small.words(), least.words, least.text);
        format!("{words}\nmade smaller: {small}, of {clip}\n{text}")
    })
}

/// Where the two sides differ.
#[derive(Clone, Debug)]
struct Failure {
    /// The call's name and place in the walk, and what is different.
    words: String,
    /// The call as the text of a test.
    text: String,
}

fn compare(clip: &Clip) -> Result<Tally, Failure> {
    let tally = Tally::default();
    let held = Held::of(clip);
    walked(clip, Compared { held, tally })
}

/// The same; nothing of a panic, which is the Rust's or this module's own: the proved library has none.
fn caught(clip: &Clip) -> Option<Result<Tally, Failure>> {
    catch_unwind(AssertUnwindSafe(|| compare(clip))).ok()
}

/// The smallest failing walk that was found, and how it fails.
fn shrink(clip: Clip, failure: Failure) -> (Clip, Failure) {
    let until = Instant::now() + PATIENCE;
    let (mut best, mut least) = (clip, failure);
    'smaller: loop {
        for smaller in best.smaller() {
            if Instant::now() > until {
                return (best, least);
            }
            if let Some(Err(failure)) = caught(&smaller) {
                (best, least) = (smaller, failure);
                continue 'smaller;
            }
        }
        return (best, least);
    }
}

/// Who makes the calls of a walk, and looks at what they leave.
trait Judge {
    /// Makes a call; gives what our side left and the right answer. `accepted` leaves in an accepted input what is
    /// right by the clip held together.
    fn call<C: Case>(
        &mut self,
        case: C,
        accepted: impl FnOnce(&Held, &mut C) -> (C::Answer, Entries),
    ) -> Result<(C, C::Answer), Failure>;

    fn tally(&mut self) -> &mut Tally;

    /// Notes an answer of the call of this name: a case, but where it is only asked whether a layer is due.
    fn note(&mut self, call: &str, word: u64, entries: Entries) {
        let tally = self.tally();
        if call != WalkDue::NAME {
            tally.note(word, entries);
        }
        tally.walks.note(call, word);
    }
}

struct Compared {
    held: Held,
    tally: Tally,
}

impl Judge for Compared {
    fn call<C: Case>(
        &mut self,
        case: C,
        accepted: impl FnOnce(&Held, &mut C) -> (C::Answer, Entries),
    ) -> Result<(C, C::Answer), Failure> {
        let mut both = Both::of(&case, |right| accepted(&self.held, right));
        if let Some(words) = both.difference() {
            let (name, before) = (C::NAME, self.tally.cases());
            return Err(Failure {
                words: format!("{name} after {before} calls: {words}"),
                text: show::asked(&case, both.right, both.answer),
            });
        }
        self.note(C::NAME, both.answer.word(), both.entries);
        Ok((both.ours, both.answer))
    }

    fn tally(&mut self) -> &mut Tally {
        &mut self.tally
    }
}

/// Compares nothing.
#[derive(Default)]
struct Alone {
    tally: Tally,
}

impl Judge for Alone {
    fn call<C: Case>(
        &mut self,
        mut case: C,
        _: impl FnOnce(&Held, &mut C) -> (C::Answer, Entries),
    ) -> Result<(C, C::Answer), Failure> {
        arguments(&mut case).iter_mut().for_each(Argument::tighten);
        let answer = case.ours();
        C::known(answer);
        self.note(C::NAME, answer.word(), Entries::default());
        Ok((case, answer))
    }

    fn tally(&mut self) -> &mut Tally {
        &mut self.tally
    }
}

/// Makes all calls of a walk.
fn walked<J: Judge>(clip: &Clip, judge: J) -> Result<Tally, Failure> {
    let mut walker = Walker::start(clip, judge)?;
    for turn in 0.. {
        for call in clip.beside.iter().filter(|call| call.before == turn) {
            walker.beside(call.seed)?;
        }
        if !walker.turn()? {
            break;
        }
    }
    let tally = walker.judge.tally();
    tally.walks.whole += 1;
    Ok(std::mem::take(tally))
}

/// A walk on its way: each call gets what the one before left.
struct Walker<'a, J> {
    clip: &'a Clip,
    judge: J,
    walk: Walk,
    slots: Slots,
}

impl<'a, J: Judge> Walker<'a, J> {
    fn start(clip: &'a Clip, mut judge: J) -> Result<Self, Failure> {
        let (width, height, ratio) = clip.size;
        let start = WalkStart {
            width,
            height,
            ratio,
            pairs: clip.said,
        };
        let (_, answer) = judge.call(start, |_, case| case.tallied())?;
        let rng = &mut Rng::of(clip.junk, "slots", 0);
        let junk = || match clip.junk {
            0 => 0.0,
            _ => rng.any_float(),
        };
        let mut walker = Self {
            clip,
            judge,
            walk: answer.walk.into(),
            slots: Slots::filled(clip.size, junk),
        };
        walker.ask()?;
        Ok(walker)
    }

    /// The next call in turn; whether there was one.
    fn turn(&mut self) -> Result<bool, Failure> {
        let state = self.walk.state();
        if state.due() {
            self.layer()?;
        } else if state.added < self.clip.pairs.len() {
            self.pair()?;
        } else {
            return Ok(false);
        }
        self.ask()?;
        Ok(true)
    }

    fn pair(&mut self) -> Result<(), Failure> {
        let number = self.walk.added;
        let case = self.handing(self.clip.pairs[number].clone());
        let (left, answer) = self.judge.call(case, |held, right| {
            *right.slots.of(number / CHUNK) = held.grown(number).clone();
            let next = right.next().expect("a pair in turn");
            (right.walk.at(next).answered(0), Entries::default())
        })?;
        (self.slots, self.walk) = (left.slots, answer.walk.into());
        Ok(())
    }

    fn layer(&mut self) -> Result<(), Failure> {
        let (chunk, case) = (self.walk.taken, self.taking());
        let fitted = |held: &Held, right: &mut WalkLayer| right.fitted(held.window(chunk));
        let (left, answer) = self.judge.call(case, fitted)?;
        let (gains, offsets) = left.luma.split_at(left.luma.len() / 2);
        let plain =
            gains.iter().all(|&gain| gain == 4096) && offsets.iter().all(|&offset| offset == 0);
        let walks = &mut self.judge.tally().walks;
        walks.layers += 1;
        walks.lettered += u64::from(!plain);
        (self.slots, self.walk) = (left.slots, answer.walk.into());
        Ok(())
    }

    /// Asks whether a layer is due.
    fn ask(&mut self) -> Result<(), Failure> {
        let walk = self.walk.clone();
        self.judge
            .call(WalkDue { walk }, |_, case| case.tallied())?;
        Ok(())
    }

    /// The call that hands this pair over in turn.
    fn handing(&self, pair: Handed) -> WalkPair {
        WalkPair {
            walk: self.walk.clone(),
            slots: self.slots.clone(),
            number: self.walk.added,
            planes: pair.planes,
            motion: pair.motion,
        }
    }

    /// The call that takes the next layer, with anything in the slices that it writes.
    fn taking(&self) -> WalkLayer {
        let ((width, height, ratio), chunk) = (self.clip.size, self.walk.taken);
        let (pixels, chroma) = (width * height, 2 * (width / ratio) * (height / ratio));
        let Settings {
            limit,
            evidence,
            strict,
        } = self.clip.settings.get(chunk).copied().unwrap_or_default();
        let rng = &mut Rng::of(self.clip.junk, "layer", chunk as u64);
        let (byte, number) = (rng.bits() as u8, rng.bits() as i16);
        WalkLayer {
            walk: self.walk.clone(),
            slots: self.slots.clone(),
            limit,
            evidence,
            strict,
            models: vec![rng.any_float(); 4 * pixels],
            kept: vec![byte; pixels],
            cover: vec![byte; width.div_ceil(8) * height.div_ceil(8)],
            luma: vec![number; 2 * pixels],
            chroma1: vec![number; chroma],
            chroma2: vec![number; chroma],
        }
    }

    /// A call out of turn or with faults, or another start, or a question about another walk; then what is due is asked
    /// again.
    fn beside(&mut self, seed: u64) -> Result<(), Failure> {
        let rng = &mut Rng::of(seed, WALKS, 0);
        match rng.below(12) {
            0 => {
                let start = input::<WalkStart>(rng);
                self.judge.call(start, |_, case| case.tallied())?;
            }
            1 => {
                let mut walk = self.walk.clone();
                walk.spoil(rng);
                self.judge
                    .call(WalkDue { walk }, |_, case| case.tallied())?;
            }
            2..=5 => self.refused(self.taking(), rng)?,
            _ => {
                let pair = self.clip.pairs.get(self.walk.added).cloned();
                let pair = pair.unwrap_or_else(|| Handed::random(rng, self.clip.size));
                self.refused(self.handing(pair), rng)?;
            }
        }
        self.ask()
    }

    /// Puts faults into a call and makes it, if it is refused.
    fn refused<C: Case>(&mut self, mut case: C, rng: &mut Rng) -> Result<(), Failure> {
        for _ in 0..rng.pick(&[0, 1, 1, 1, 2, 3]) {
            if rng.once_in(3) {
                case.spoil(rng);
            } else {
                fault(&mut case, rng);
            }
        }
        if case.refusal() != 0 {
            let refused = "a call that is refused";
            self.judge.call(case, |_, _| unreachable!("{refused}"))?;
        }
        Ok(())
    }
}
