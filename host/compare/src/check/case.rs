//! One input of one call, and the comparison of both sides on it.

use super::answer::{unlike, Answer};
#[cfg(test)]
use super::damage::input;
use super::expected::Length;
use super::lent::{arguments, Lent, Value};
use super::rng::Rng;
use super::totals::Entries;

/// An input of a call.
pub trait Case: Lent + Clone + 'static {
    /// What the call answers.
    type Answer: Answer;

    /// The call's name: the C function is `safeteal_NAME`, the safe one `ffi::NAME`.
    const NAME: &'static str;
    /// The numbers that the call can answer: a long run has to meet each of them.
    const NUMBERS: &'static [usize];
    /// The arguments that the call may write, by their full names.
    const WRITTEN: &'static [&'static str];
    /// Whether a NaN in an accepted call's floats stands for any NaN.
    const ANY_NAN: bool = false;
    /// One input in so many is spoilt.
    const SPOILT: usize = 200;

    /// A good input, at boundaries as well.
    fn random(rng: &mut Rng) -> Self;

    /// Damage that one argument alone cannot do.
    fn spoil(&mut self, _rng: &mut Rng) {}

    /// Brings numbers that depend on the sizes back to them, for a smaller input.
    fn tidy(&mut self) {}

    /// Smaller inputs that no change of one argument by itself leads to.
    fn smaller(&self) -> Vec<Self> {
        Vec::new()
    }

    /// What each slice must have in elements, in order. Asked of damaged inputs too.
    fn lengths(&self) -> Vec<Length>;

    /// Calls the proved library.
    fn ours(&mut self) -> Self::Answer;

    /// The first fitting number of the call's rows of the table, or 0.
    fn refusal(&self) -> u64;

    /// Leaves in an accepted input what the other side leaves, and gives the rules' answer. The other side is the Rust,
    /// or a second implementation of what the Rust does not have.
    fn theirs(&mut self) -> Self::Answer;

    /// The same, with a count of the chroma entries by the side that they are compared with.
    fn tallied(&mut self) -> (Self::Answer, Entries) {
        (self.theirs(), Entries::default())
    }

    /// The answer of a refusal of this input.
    fn refused(&self, number: u64) -> Self::Answer {
        Self::Answer::refused(number)
    }

    /// The arguments that are free after this answer.
    fn free(_answer: u64) -> &'static [&'static str] {
        &[]
    }

    /// Leaves what is right, and gives the right answer, whose number is one of the call's; with the chroma entries.
    fn expected(&mut self) -> (Self::Answer, Entries) {
        self.expected_of(Self::tallied)
    }

    /// The same, where what an accepted input is left with comes from elsewhere.
    fn expected_of(
        &mut self,
        accepted: impl FnOnce(&mut Self) -> (Self::Answer, Entries),
    ) -> (Self::Answer, Entries) {
        let (answer, entries) = match self.refusal() {
            0 => accepted(self),
            number => (self.refused(number), Entries::default()),
        };
        Self::known(answer);
        (answer, entries)
    }

    /// # Panics
    /// Where the answer has a number that the call never gives.
    fn known(answer: Self::Answer) {
        let number = (answer.word() % 256) as usize;
        let (name, numbers) = (Self::NAME, Self::NUMBERS);
        assert!(
            numbers.contains(&number),
            "{name} answers {number}, not one of {numbers:?}"
        );
    }

    /// Row 4: whether a slice has a wrong length.
    fn misfits(&self) -> bool {
        let mut actual = Vec::with_capacity(20);
        self.measure(&mut actual);
        let lengths = self.lengths();
        assert_eq!(
            actual.len(),
            lengths.len(),
            "{}: a length for each slice",
            Self::NAME
        );
        actual
            .iter()
            .zip(lengths)
            .any(|(&actual, length)| !length.holds(actual))
    }
}

/// Where the two sides differ, in words; with the right answer's word and the chroma entries.
pub struct Compared {
    pub answer: u64,
    pub entries: Entries,
    pub difference: Option<String>,
}

/// Runs both sides on copies of the input.
pub fn compare<C: Case>(case: &C) -> Compared {
    let mut both = Both::of(case, C::tallied);
    Compared {
        answer: both.answer.word(),
        entries: both.entries,
        difference: both.difference(),
    }
}

/// Both sides after a call on copies of one input.
pub struct Both<C: Case> {
    pub ours: C,
    our_answer: C::Answer,
    pub right: C,
    /// The right one.
    pub answer: C::Answer,
    pub entries: Entries,
}

impl<C: Case> Both<C> {
    /// `accepted` leaves what is right in an accepted input, and gives the right answer with the chroma entries.
    pub fn of(case: &C, accepted: impl FnOnce(&mut C) -> (C::Answer, Entries)) -> Self {
        let (mut ours, mut right) = (case.clone(), case.clone());
        let our_answer = ours.ours();
        let (answer, entries) = right.expected_of(accepted);
        Self {
            ours,
            our_answer,
            right,
            answer,
            entries,
        }
    }

    /// Where they differ, in words.
    pub fn difference(&mut self) -> Option<String> {
        let slices = || difference(&mut self.ours, &mut self.right, self.answer.word());
        unlike(self.our_answer, self.answer).or_else(slices)
    }
}

/// The first element of an argument that is not as it should be.
pub fn difference<C: Case>(ours: &mut C, right: &mut C, answer: u64) -> Option<String> {
    let free = C::free(answer);
    let any_nan = C::ANY_NAN && answer % 256 == 0;
    let pairs = arguments(ours).into_iter().zip(arguments(right));
    for (ours, right) in pairs {
        if free.iter().any(|name| ours.is(name)) {
            continue;
        }
        if let Some(words) = unequal(&ours.value, &right.value, any_nan) {
            return Some(format!("{}{words}", ours.full_name()));
        }
    }
    None
}

fn unequal(ours: &Value, right: &Value, any_nan: bool) -> Option<String> {
    let same =
        |a: &f32, b: &f32| a.to_bits() == b.to_bits() || (any_nan && a.is_nan() && b.is_nan());
    match (ours, right) {
        (Value::Bytes(a), Value::Bytes(b)) => element(a, b, u8::eq),
        (Value::Shorts(a), Value::Shorts(b)) => element(a, b, i16::eq),
        (Value::Words(a), Value::Words(b)) => element(a, b, u16::eq),
        (Value::Floats(a), Value::Floats(b)) => element(a, b, same),
        _ => None,
    }
}

fn element<T: std::fmt::Debug>(
    ours: &[T],
    right: &[T],
    same: impl Fn(&T, &T) -> bool,
) -> Option<String> {
    let at = ours.iter().zip(right).position(|(a, b)| !same(a, b))?;
    Some(format!("[{at}] is {:?}, not {:?}", ours[at], right[at]))
}

/// The count that `theirs` reckons is that of the bytes the Rust writes: a written byte does not depend on the one
/// before it.
#[cfg(test)]
pub fn assert_count_is_of_written_bytes<C: Case>(output: fn(&mut C) -> &mut Vec<u8>) {
    for index in 0..20_000 {
        let mut case: C = input(&mut Rng::of(7, "count", index));
        if case.refusal() != 0 {
            continue;
        }
        let mut other = case.clone();
        output(&mut other)
            .iter_mut()
            .for_each(|byte| *byte = !*byte);
        let count = case.theirs().word() / 256;
        other.theirs();
        let bytes = output(&mut case).iter().zip(output(&mut other));
        let written = bytes.filter(|(a, b)| **a == **b);
        assert_eq!(written.count() as u64, count, "case {index}");
    }
}
