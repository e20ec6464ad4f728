//! `cargo run --release --bin scale [-- OPTION..]`: the differential comparison at length; `--help` lists the options.
//!
//! The calls take turns of at most ten seconds (or of `--cases` cases, and then there is one turn each). A fresh seed
//! is taken for each round of turns and printed; `--seed` gives the first one, and the others follow from it.

use compare::names::calls;
use words::{Asked, Command, Takes, Word};

const COMMAND: Command = Command {
    name: "scale",
    does: "compares the calls at length with the Rust, and those that it does not have with the second implementation",
    plain: &[],
    needed: 0,
    options: &[
        Word::new("--minutes", Takes::Above(0.0, 1e6), "how long").or("1"),
        Word::new(
            "--cases",
            Takes::Whole(1, u64::MAX),
            "so many cases for each call instead",
        ),
        Word::new("--seed", Takes::Whole(0, u64::MAX), "the first seed").or("a fresh one"),
        Word::new(
            "--calls",
            Takes::List("CALLS", calls),
            "the calls that are compared",
        )
        .or("all"),
    ],
    more: "The status is 1 where a case differs; its input is made small and printed as a test.",
};

fn main() {
    run(&COMMAND.asked());
}

#[cfg(oracle_absent)]
fn run(_: &Asked) {
    COMMAND.stop("the Rust (layer.rs, still.rs) is not at hand, and nothing was compared");
}

#[cfg(not(oracle_absent))]
fn run(asked: &Asked) {
    use compare::check::run::{fresh_seed, named, Tally};
    use compare::check::table::table;
    use compare::check::CALLS;
    use std::time::{Duration, Instant};
    use words::{line, note, print};

    let all = || Ok(CALLS.iter().collect());
    let calls: Result<Vec<_>, String> = asked.text("--calls").map_or_else(all, named);
    let calls = calls.unwrap_or_else(|words| COMMAND.refuse(&words));
    let minutes: f64 = asked.number("--minutes").unwrap_or(1.0);
    let all = Duration::from_secs_f64(minutes * 60.0);
    let turn = turn(asked, all / calls.len() as u32);
    let mut tallies = vec![Tally::default(); calls.len()];
    let start = Instant::now();
    let mut seed = asked.number("--seed").unwrap_or_else(fresh_seed);
    let mut seeds = Vec::new();
    loop {
        seeds.push(seed);
        note(&format!("seed {seed}"));
        for (call, tally) in calls.iter().zip(&mut tallies) {
            match call.run(seed, turn) {
                Ok(one) => tally.add(&one),
                Err(words) => {
                    line(&words);
                    std::process::exit(1);
                }
            }
        }
        note(&progress(&tallies, start.elapsed()));
        if asked.has("--cases") || start.elapsed() >= all {
            break;
        }
        seed = seed.wrapping_add(1_000_003);
    }
    line(&format!("seeds {seeds:?}, every case equal\n"));
    let names = calls.iter().map(|call| call.name);
    print(&table(names.zip(&tallies)));
}

/// A call's turn: so many cases, or its share of the time; short turns, so that every call has had its share whenever
/// the run is ended.
#[cfg(not(oracle_absent))]
fn turn(asked: &Asked, share: std::time::Duration) -> compare::check::run::Until {
    use compare::check::run::Until;

    match asked.number("--cases") {
        Some(cases) => Until::Cases(cases),
        None => Until::Time(share.min(std::time::Duration::from_secs(10))),
    }
}

#[cfg(not(oracle_absent))]
fn progress(tallies: &[compare::check::run::Tally], elapsed: std::time::Duration) -> String {
    let cases: u64 = tallies.iter().map(|tally| tally.cases()).sum();
    let seconds = elapsed.as_secs_f64();
    let rate = cases as f64 / seconds;
    format!("{cases} cases equal, {rate:.0} a second, after {seconds:.0} s")
}

#[cfg(test)]
mod tests {
    use super::COMMAND;

    #[test]
    fn right_words() {
        let words = "--minutes 0.5 --cases 1 --seed 0 --calls peel,fit";
        let asked = COMMAND.read(words.split(' ').map(str::to_owned));
        assert_eq!(asked.map(|asked| asked.number("--minutes")), Ok(Some(0.5)));
    }

    #[test]
    fn wrong_words_are_named() {
        let wrong = [
            (
                "--cases 0",
                "--cases takes a whole number of 1 or more, not \"0\"",
            ),
            (
                "--minutes 0",
                "--minutes takes a number above 0 and at most 1000000, not \"0\"",
            ),
            ("--minutes NaN", "--minutes takes a number above 0"),
            ("--seed -1", "--seed takes a whole number, not \"-1\""),
            ("--calls pel", "--calls takes stats, fit, "),
            ("--seed", "--seed needs a value"),
            ("--hours", "there is no option \"--hours\""),
            ("peel", "\"peel\": there are no words but options"),
        ];
        for (text, part) in wrong {
            let words = COMMAND.read(text.split(' ').map(str::to_owned));
            let words = words.expect_err(text);
            assert!(words.starts_with(part), "{text}: {words}");
        }
    }
}
