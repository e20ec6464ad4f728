//! Runs many cases of one call, or many whole walks: with a seed, with progress, with a failing input made small.

use std::panic::{catch_unwind, AssertUnwindSafe};
use std::time::{Duration, Instant, SystemTime, UNIX_EPOCH};

use super::answer::Answer;
use super::case::{compare, Case};
use super::damage::input;
use super::expected::NUMBERS;
use super::lent::{arguments, Argument};
use super::rng::Rng;
use super::show;
use super::shrink::shrink;
use super::stored;
use super::totals::Entries;
use super::walks::{self, Walks};
use super::CALLS;
use crate::names::WALKS;
use words::note;

/// How many cases a call gets at least, unless `SAFETEAL_CASES` says otherwise.
const CASES: u64 = 100_000;
/// The seeds of every run; a fresh one from the clock is added.
const SEEDS: [u64; 3] = [1, 2, 3];
/// How often progress is shown.
const SHOWN: Duration = Duration::from_secs(3);

/// When a run ends.
#[derive(Clone, Copy)]
pub enum Until {
    Cases(u64),
    Time(Duration),
}

impl Until {
    fn over(self, cases: u64, time: Duration) -> bool {
        match self {
            Until::Cases(most) => cases >= most,
            Until::Time(most) => time >= most,
        }
    }
}

/// What a run did: cases by the number of their answer, chroma entries by what they were compared with, the walks whose
/// calls the cases were, and the time it took.
#[derive(Clone, Default)]
pub struct Tally {
    pub by_number: [u64; NUMBERS],
    pub counted: u64,
    pub entries: Entries,
    pub walks: Walks,
    pub time: Duration,
}

impl Tally {
    pub fn cases(&self) -> u64 {
        self.by_number.iter().sum()
    }

    /// Cases a second.
    pub fn rate(&self) -> f64 {
        self.cases() as f64 / self.time.as_secs_f64().max(1e-9)
    }

    pub fn add(&mut self, other: &Tally) {
        for (sum, cases) in self.by_number.iter_mut().zip(other.by_number) {
            *sum += cases;
        }
        self.counted += other.counted;
        self.entries.add(other.entries);
        self.walks.add(&other.walks);
        self.time += other.time;
    }

    pub fn note(&mut self, answer: u64, entries: Entries) {
        self.by_number[(answer % 256) as usize] += 1;
        self.counted += answer / 256;
        self.entries.add(entries);
    }

    /// One line: cases, rate, how many answers had each number, and the chroma entries and walks where there are any.
    pub fn line(&self) -> String {
        let below = self.words().into_iter().map(|words| format!("; {words}"));
        format!(
            "{} cases, {:.0} a second ({}){}",
            self.cases(),
            self.rate(),
            by_number(&self.by_number),
            below.collect::<String>()
        )
    }

    /// What there is to say of chroma entries and of walks.
    pub fn words(&self) -> Vec<String> {
        let words = [self.entries.words(), self.walks.words()];
        words.into_iter().flatten().collect()
    }
}

/// How many answers had each number, in words.
pub fn by_number(answers: &[u64; NUMBERS]) -> String {
    let numbers = answers.iter().enumerate();
    let met = numbers.filter(|(_, &answers)| answers > 0);
    let met = met.map(|(number, answers)| format!("{number}: {answers}"));
    met.collect::<Vec<_>>().join(", ")
}

/// A call that can be compared, whatever the type of its inputs.
pub struct Call {
    pub name: &'static str,
    /// The numbers it can answer.
    pub numbers: &'static [usize],
    run: fn(u64, Until) -> Result<Tally, String>,
    alone: fn(u64, u64) -> Tally,
    /// Its number in the stored list, where it is in there, and what makes its cases.
    stored: Option<(u32, Record)>,
}

type Record = fn(u32, u64, usize) -> stored::Stored;

impl Call {
    pub const fn of<C: Case>() -> Self {
        Self {
            name: C::NAME,
            numbers: C::NUMBERS,
            run: run::<C>,
            alone: alone::<C>,
            stored: None,
        }
    }

    /// Whole walks, whose calls are the cases.
    pub const fn walks() -> Self {
        Self {
            name: WALKS,
            numbers: walks::NUMBERS,
            run: walks::run,
            alone: walks::alone,
            stored: None,
        }
    }

    /// A call of the stored list.
    pub const fn stored<C: Case<Answer = u64>>(id: u32) -> Self {
        Self {
            stored: Some((id, stored::record::<C>)),
            ..Self::of::<C>()
        }
    }

    /// Compares until the end; the words of a failure can be pasted as a test.
    pub fn run(&self, seed: u64, until: Until) -> Result<Tally, String> {
        (self.run)(seed, until)
    }

    /// Our side alone, each slice in an allocation of exactly its length: for a run under a memory checker.
    pub fn alone(&self, seed: u64, cases: u64) -> Tally {
        (self.alone)(seed, cases)
    }

    /// The numbers that the call can answer and that no case of this run had.
    pub fn unmet(&self, tally: &Tally) -> Vec<usize> {
        let met = |number: &usize| tally.by_number[*number] > 0;
        self.numbers
            .iter()
            .copied()
            .filter(|number| !met(number))
            .collect()
    }

    /// Whether its cases are in the stored list.
    pub fn is_stored(&self) -> bool {
        self.stored.is_some()
    }

    /// At most so many bytes of stored cases; none of a call that is not in the list.
    pub fn record(&self, seed: u64, bytes: usize) -> stored::Stored {
        let made = |(id, record): (u32, Record)| record(id, seed, bytes);
        self.stored.map(made).unwrap_or_default()
    }
}

fn run<C: Case>(seed: u64, until: Until) -> Result<Tally, String> {
    each(C::NAME, seed, until, |rng, tally| {
        let (answer, entries) = judged(&input::<C>(rng))?;
        tally.note(answer, entries);
        Ok(())
    })
}

/// Runs one input after another until the end, each made of random numbers of its own; `one` notes its cases.
pub fn each(
    name: &str,
    seed: u64,
    until: Until,
    one: impl Fn(&mut Rng, &mut Tally) -> Result<(), String>,
) -> Result<Tally, String> {
    let trace = std::env::var_os("SAFETEAL_TRACE").is_some();
    let start = Instant::now();
    let (mut tally, mut shown) = (Tally::default(), start);
    for index in 0.. {
        let (now, cases) = (Instant::now(), tally.cases());
        tally.time = now - start;
        if until.over(cases, tally.time) {
            break;
        }
        if now - shown >= SHOWN {
            shown = now;
            note(&format!("  {name}, seed {seed}: {}", tally.line()));
        }
        if trace {
            note(&format!("  {name}, seed {seed}, input {index}"));
        }
        let place = |words: String| {
            let cases = cases + 1;
            let again =
                format!("SAFETEAL_SEED={seed} SAFETEAL_CASES={cases} SAFETEAL_CALLS={name}");
            format!("{name}, seed {seed}, input {index} ({again} runs it again):\n{words}")
        };
        one(&mut Rng::of(seed, name, index), &mut tally).map_err(place)?;
    }
    Ok(tally)
}

fn alone<C: Case>(seed: u64, cases: u64) -> Tally {
    let start = Instant::now();
    let mut tally = Tally::default();
    for index in 0..cases {
        let mut case = input::<C>(&mut Rng::of(seed, C::NAME, index));
        arguments(&mut case).iter_mut().for_each(Argument::tighten);
        let answer = case.ours();
        C::known(answer);
        tally.note(answer.word(), Entries::default());
    }
    tally.time = start.elapsed();
    tally
}

/// The right answer and the chroma entries where both sides agree, else the words of the difference with a small input
/// that has it.
fn judged<C: Case>(case: &C) -> Result<(u64, Entries), String> {
    // A panic is the Rust's or this module's own: the proved library has none.
    let Ok(compared) = catch_unwind(AssertUnwindSafe(|| compare(case))) else {
        return Err(format!(
            "a panic, and not by the library, on\n{}}}",
            show::call(case)
        ));
    };
    let Some(words) = compared.difference else {
        return Ok((compared.answer, compared.entries));
    };
    note(&format!(
        "  {}: {words}; looking for a smaller input",
        C::NAME
    ));
    let small = shrink(case.clone());
    let small_words = compare(&small).difference.unwrap_or_default();
    Err(format!(
        "{words}\nmade smaller: {small_words}\n{}",
        show::test(&small)
    ))
}

/// The seeds of a run: `SAFETEAL_SEED` alone, or the fixed ones and a fresh one.
pub fn seeds() -> Vec<u64> {
    if let Some(seed) = number("SAFETEAL_SEED") {
        return vec![seed];
    }
    SEEDS.into_iter().chain([fresh_seed()]).collect()
}

/// A seed from the clock.
pub fn fresh_seed() -> u64 {
    let since = SystemTime::now()
        .duration_since(UNIX_EPOCH)
        .unwrap_or_default();
    since.as_nanos() as u64 % 1_000_000_007
}

/// The one seed of a shorter run: `SAFETEAL_SEED`, or a fresh one.
pub fn seed() -> u64 {
    number("SAFETEAL_SEED").unwrap_or_else(fresh_seed)
}

/// The cases for each call in one run.
///
/// # Panics
/// Where `SAFETEAL_CASES` asks for none: then nothing would be compared.
pub fn cases() -> u64 {
    let cases = number("SAFETEAL_CASES").unwrap_or(CASES);
    assert!(cases > 0, "SAFETEAL_CASES must be 1 or more");
    cases
}

/// The calls of these names, with commas between them, or words for one that there is not.
pub fn named(list: &str) -> Result<Vec<&'static Call>, String> {
    let call = |name: &str| {
        let found = CALLS.iter().find(|call| call.name == name);
        let names: Vec<&str> = CALLS.iter().map(|call| call.name).collect();
        found.ok_or_else(|| format!("there is no call {name:?}; there are {}", names.join(", ")))
    };
    list.split(',').map(call).collect()
}

/// The calls that `SAFETEAL_CALLS` names, or all of them.
///
/// # Panics
/// Where it names a call that there is not: then less would be compared than was asked for.
pub fn wanted() -> Vec<&'static Call> {
    let Ok(list) = std::env::var("SAFETEAL_CALLS") else {
        return CALLS.iter().collect();
    };
    named(&list).unwrap_or_else(|words| panic!("SAFETEAL_CALLS: {words}"))
}

fn number(variable: &str) -> Option<u64> {
    let text = std::env::var(variable).ok()?;
    let number = text.parse().ok();
    assert!(
        number.is_some(),
        "{variable} must be a whole number, not {text:?}"
    );
    number
}
