//! `cargo run --release --bin record -- FILE`: writes the stored list of right answers that crates/replay runs.
//!
//! For each call some cases of every refusal and of every way of a chroma total out of the range, then as many other
//! accepted ones as fit into its share of 300 KB, from one fixed seed; so the file is the same at every run. Its form
//! is described in src/check/stored.rs.

use words::{Command, Takes, Word};

const COMMAND: Command = Command {
    name: "record",
    does: "writes the stored list of right answers that crates/replay runs; the same at every run",
    plain: &[Word::new(
        "FILE",
        Takes::Text("FILE"),
        "the file to write, as ../crates/replay/data/answers",
    )],
    needed: 1,
    options: &[],
    more: "A file that is there already is written anew.",
};

fn main() {
    let asked = COMMAND.asked();
    let file = asked.text("FILE").unwrap_or_default();
    if let Err(error) = std::fs::write(file, answers()) {
        COMMAND.stop(&format!("{file}: {error}"));
    }
}

#[cfg(oracle_absent)]
fn answers() -> Vec<u8> {
    COMMAND.stop("the Rust (layer.rs, still.rs) is not at hand, and nothing was written")
}

#[cfg(not(oracle_absent))]
fn answers() -> Vec<u8> {
    let mut list = Vec::new();
    for (call, stored) in compare::check::answers() {
        words::note(&format!("{}: {}", call.name, stored.line()));
        list.extend(stored.bytes);
    }
    list
}
