//! `host/memory` runs this under valgrind: cases of every call, accepted and refused, our side alone.
//!
//! Every slice lies in a heap allocation of exactly its length, so that a read or a write outside of it is seen.

use words::{Asked, Command, Takes, Word};

const COMMAND: Command = Command {
    name: "memory",
    does: "cases of every call, our side alone; host/memory runs it under valgrind",
    plain: &[
        Word::new("CASES", Takes::Whole(1, u64::MAX), "how many for each call").or("3000"),
        Word::new("SEED", Takes::Whole(0, u64::MAX), "where they begin").or("a fresh one"),
    ],
    needed: 0,
    options: &[],
    more: "",
};

fn main() {
    run(&COMMAND.asked());
}

#[cfg(oracle_absent)]
fn run(_: &Asked) {
    COMMAND.stop("the Rust (layer.rs, still.rs), whose sums the inputs are made of, is not at hand: nothing was run");
}

#[cfg(not(oracle_absent))]
fn run(asked: &Asked) {
    use compare::check::run::{fresh_seed, Tally};
    use compare::check::table::table;
    use compare::check::CALLS;
    use words::{line, note, print};

    let cases = asked.number("CASES").unwrap_or(3000);
    let seed = asked.number("SEED").unwrap_or_else(fresh_seed);
    line(&format!("memory: {cases} cases for each call, seed {seed}"));
    let tallies: Vec<(&str, Tally)> = CALLS
        .iter()
        .map(|call| {
            let tally = call.alone(seed, cases);
            note(&format!("  {}: {}", call.name, tally.line()));
            (call.name, tally)
        })
        .collect();
    print(&table(tallies.iter().map(|(name, tally)| (*name, tally))));
}
