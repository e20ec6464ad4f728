//! The differential run: every call against the Rust, or against the second implementation of a call that the Rust does
//! not have, at least 100,000 cases each; and whole walks, of as many calls together. Chroma entries with a partial
//! total outside the range are left out of the comparison with the Rust and held against plain arithmetic; the run says
//! how many.
//!
//! `SAFETEAL_CASES` sets the number, `SAFETEAL_SEED` the one seed, `SAFETEAL_CALLS` the calls (names with commas),
//! `SAFETEAL_TRACE` names each input before it runs.

#[cfg(oracle_absent)]
#[test]
fn nothing_was_compared() {
    words::note(
        "differential run: the Rust (layer.rs, still.rs) is not at hand, and nothing was compared",
    );
}

#[cfg(not(oracle_absent))]
#[test]
fn every_call_answers_as_the_other_side() {
    use compare::check::run::{cases, seeds, wanted};
    use words::note;

    let (cases, seeds) = (cases(), seeds());
    note(&format!(
        "differential run: {cases} cases for each call, seeds {seeds:?}"
    ));
    let mut failures = Vec::new();
    for call in wanted() {
        match compared(call, cases, &seeds) {
            Ok(line) => note(&format!("{}: equal in {line}", call.name)),
            Err(words) => {
                note(&format!("{}: DIFFERENT\n{words}", call.name));
                failures.push(words);
            }
        }
    }
    assert!(
        failures.is_empty(),
        "{} calls differ:\n{}",
        failures.len(),
        failures.join("\n")
    );
}

/// Compares one call over all seeds; a long run has to meet every number that the call can answer.
#[cfg(not(oracle_absent))]
fn compared(call: &compare::check::Call, cases: u64, seeds: &[u64]) -> Result<String, String> {
    use compare::check::run::{Tally, Until};

    let share = cases.div_ceil(seeds.len() as u64);
    let mut tally = Tally::default();
    for &seed in seeds {
        tally.add(&call.run(seed, Until::Cases(share))?);
    }
    let unmet = call.unmet(&tally);
    if cases >= 20_000 && !unmet.is_empty() {
        return Err(format!(
            "{}: no case was answered with {unmet:?}",
            call.name
        ));
    }
    Ok(tally.line())
}

/// What crates/replay runs is what would be stored today; and that has totals held to either end, and such as come back
/// into the range.
#[cfg(not(oracle_absent))]
#[test]
fn the_stored_answers_are_the_rusts() {
    let file = concat!(
        env!("CARGO_MANIFEST_DIR"),
        "/../../crates/replay/data/answers"
    );
    let stored = std::fs::read(file).expect("the stored answers");
    let mut right = Vec::new();
    for (call, made) in compare::check::answers() {
        let ways = [made.entries.above, made.entries.below, made.entries.back];
        let sums = ["assemble", "fit"].contains(&call.name);
        assert_eq!(!ways.contains(&0), sums, "{}: {}", call.name, made.line());
        right.extend(made.bytes);
    }
    assert!(
        stored == right,
        "they differ: run `cargo run --release --bin record -- ../crates/replay/data/answers`, and correct crates/replay/stdout"
    );
}
