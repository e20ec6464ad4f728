//! `cargo run --release --bin bench [-- CALL.. OPTION..]`: each call beside the Rust; `--help` lists the options.

use std::fs;
use std::path::{Path, PathBuf};
use std::time::Instant;

use compare::names::calls;
use compare::report::csv::{read, written};
use compare::report::files::{docs, prepare, write, Reported};
use compare::report::machine;
use compare::report::rows::{Growth, Row};
use words::{line, print, Asked, Command, Takes, Word};

const COMMAND: Command = Command {
    name: "bench",
    does: "each call beside the Rust on one thread (a parcel's calls beside a plain copy, a walk's beside stats and \
           fit by hand): a row for each workload and size, then a line for each call",
    plain: &[Word::new("CALL", Takes::One("CALL", calls), "the calls that are measured").or("all").many()],
    needed: 0,
    options: &[
        Word::new("--only", Takes::Text("PART"), "only workloads with PART in their names, as \"3x1, half\""),
        Word::new("--size", Takes::One("SIZE", sizes), "only this size"),
        Word::new("--quick", Takes::Nothing, "leaves out 4096x4096"),
        Word::new("--rounds", Takes::Whole(1, 1_000_000), "so many rounds of each row").or("by size, for some 2 s"),
        Word::new("--growth", Takes::Nothing, "measures instead how the cost grows with the size"),
        Word::new(
            "--before",
            Takes::Nothing,
            "measures instead two libraries by turns, the one in the folder that SAFETEAL_BEFORE named when bench was \
             built and the present one, in the calls that both have; the last lines name the worst ratios",
        ),
        Word::new("--csv", Takes::Text("FILE"), "writes the rows into FILE as they are made, with commas between"),
        Word::new(
            "--write",
            Takes::Nothing,
            "writes the rows, the chart and the lines for BENCHMARK.md into docs/: benchmark.csv, benchmark.svg \
             (with --growth: growth.csv); for all calls and sizes, since they take the old ones' place",
        ),
        Word::new("--into", Takes::Text("FOLDER"), "writes the same files into FOLDER, and for any calls and sizes"),
        Word::new("--table", Takes::Text("CSV"), "measures nothing: takes the rows of the file CSV"),
    ],
    more: "Times are in nanoseconds per pixel of the plane (per cell, for distances and empty; per record, for \
           parcel_sizes; per call, for walk_start and walk_due). Whole walks are not measured at 4096x4096.",
};

/// The sizes, as `--size` takes them.
fn sizes() -> Vec<String> {
    let sizes = ["64x64", "512x512", "1920x1080", "4096x4096"];
    sizes.map(str::to_owned).to_vec()
}

/// What makes less of the whole table.
const PARTS: [&str; 4] = ["CALL", "--only", "--size", "--quick"];

/// Words for what does not go together.
fn together(asked: &Asked) -> Option<String> {
    let takes_no = |option: &str, others: &[&str], why: &str| {
        let other = asked.first_of(others).filter(|_| asked.has(option))?;
        let word = asked.text(other).filter(|_| other == "CALL");
        Some(format!(
            "{option} takes no {:?} beside it{why}",
            word.unwrap_or(other)
        ))
    };
    let place =
        ": a part of the table would take the whole one's place; --into FOLDER writes it elsewhere";
    let own = ": it has sizes and rounds of its own";
    let rows = ": the rows are those of the file";
    takes_no(
        "--before",
        &["--quick", "--growth", "--write", "--into", "--table"],
        "",
    )
    .or_else(|| takes_no("--growth", &["--size", "--quick", "--rounds"], own))
    .or_else(|| takes_no("--table", &PARTS, rows))
    .or_else(|| takes_no("--table", &["--rounds", "--csv"], rows))
    .or_else(|| takes_no("--write", &PARTS, place))
    .or_else(|| takes_no("--write", &["--into"], ", which writes elsewhere"))
    .or_else(|| takes_no("--size", &["--quick"], ": it is one size"))
}

fn main() {
    let asked = COMMAND.asked();
    if let Some(words) = together(&asked) {
        COMMAND.refuse(&words);
    }
    // What cannot be written is said before anything is measured.
    let into = asked.text("--into").map(PathBuf::from);
    let folder = into.or_else(|| asked.has("--write").then(docs));
    if let Some(folder) = &folder {
        prepare(folder).unwrap_or_else(|words| COMMAND.stop(&words));
    }
    if asked.has("--before") {
        measured::before(&asked);
    } else if asked.has("--growth") {
        report(&asked, folder.as_deref(), measured::growth);
    } else {
        report::<Row>(&asked, folder.as_deref(), measured::beside);
    }
}

/// Measures, or takes the rows of a file; prints the lines of the calls, and writes what is asked for.
fn report<R: Reported>(asked: &Asked, folder: Option<&Path>, measure: fn(&Asked) -> Vec<R>) {
    let start = Instant::now();
    let file = asked.text("--table");
    let csv = match file {
        Some(file) => fs::read_to_string(file)
            .unwrap_or_else(|error| COMMAND.stop(&format!("{file}: {error}"))),
        None => written(&measure(asked)),
    };
    let rows = read::<R>(&csv);
    let rows = rows.unwrap_or_else(|words| {
        COMMAND.stop(&format!("{}: {words}", file.unwrap_or("the rows")));
    });
    print(&format!("\n{}", R::table(&rows)));
    let Some(folder) = folder else {
        return;
    };
    let machine = machine::measured(start.elapsed(), &measured::rounds(asked));
    // Of rows that were measured at another time, what is written stays.
    let machine = file.is_none().then_some(machine);
    let files = write::<R>(folder, &csv, machine.as_deref());
    for file in files.unwrap_or_else(|words| COMMAND.stop(&words)) {
        line(&format!("written: {}", file.display()));
    }
}

#[cfg(oracle_absent)]
mod measured {
    use super::{Asked, Growth, Row, COMMAND};

    fn absent() -> ! {
        COMMAND.stop("the Rust (layer.rs, still.rs) is not at hand, and nothing was measured")
    }

    pub fn rounds(_: &Asked) -> String {
        String::new()
    }

    pub fn beside(_: &Asked) -> Vec<Row> {
        absent()
    }

    pub fn growth(_: &Asked) -> Vec<Growth> {
        absent()
    }

    pub fn before(_: &Asked) {
        absent()
    }
}

#[cfg(not(oracle_absent))]
mod measured {
    use std::fs::File;
    use std::io::{self, Write};
    use std::time::Duration;

    use super::{Asked, Growth, Row, COMMAND};
    use compare::bench::{grown, measured, Workload, CALLS, ENOUGH, GROWTH_ROUNDS, SIZES};
    use compare::report::csv::{self, Fields};
    use compare::report::rows::sized;
    use words::line;

    /// The workloads that are asked for, or all.
    fn workloads(asked: &Asked) -> Vec<&'static Workload> {
        let (calls, part) = (asked.all("CALL"), asked.text("--only").map(plain));
        let named = |workload: &&Workload| {
            let call = calls.is_empty() || calls.contains(&workload.call);
            call && part
                .as_ref()
                .map_or(true, |part| plain(workload.name).contains(part))
        };
        let found: Vec<_> = CALLS.iter().copied().flatten().filter(named).collect();
        if found.is_empty() {
            let part = part.unwrap_or_default();
            COMMAND.refuse(&format!(
                "no workload of these calls has {part:?} in its name"
            ));
        }
        found
    }

    /// A name as it can be typed.
    fn plain(name: &str) -> String {
        name.replace('×', "x")
    }

    /// Prints each row as it is made, and writes it into the file of `--csv`: so a run that is ended leaves its rows.
    fn made<R: Fields>(asked: &Asked, rows: impl Iterator<Item = R>) -> Vec<R> {
        let name = asked.text("--csv").unwrap_or_default();
        let failed = |error: io::Error| -> ! { COMMAND.stop(&format!("{name}: {error}")) };
        let file = (!name.is_empty()).then(|| File::create(name));
        let file = file.transpose().unwrap_or_else(|error| failed(error));
        let keep = |text: String| {
            let written = file.as_ref().map(|mut to| to.write_all(text.as_bytes()));
            if let Some(Err(error)) = written {
                failed(error);
            }
        };
        keep(csv::head::<R>());
        line(&csv::shown_head::<R>());
        let row = |row: &R| {
            let fields = row.fields();
            line(&csv::shown(&fields));
            keep(csv::line(&fields));
        };
        let rows: Vec<R> = rows.inspect(row).collect();
        if rows.is_empty() {
            COMMAND.refuse("whole walks are not measured at 4096x4096, and so not their growth");
        }
        rows
    }

    /// How many rounds there are of a row.
    pub fn rounds(asked: &Asked) -> String {
        if let Some(rounds) = asked.text("--rounds") {
            return format!("{rounds} of each row");
        }
        if asked.has("--growth") {
            return format!("{GROWTH_ROUNDS} of each row");
        }
        let of = SIZES.map(|(width, height, rounds)| format!("{rounds} at {width}×{height}"));
        let seconds = ENOUGH.as_secs();
        format!(
            "at most {}; fewer, but 3, where a row takes {seconds} s",
            of.join(", ")
        )
    }

    pub fn beside(asked: &Asked) -> Vec<Row> {
        let wanted = |&(width, height, _): &(usize, usize, usize)| {
            let one = asked.text("--size");
            let small = !asked.has("--quick") || width < 4096;
            small && one.map_or(true, |size| size == sized((width, height)))
        };
        let row =
            |workload: &'static Workload, (width, height, most): (usize, usize, usize)| match asked
                .number("--rounds")
            {
                Some(rounds) => measured(workload, (width, height), rounds, Duration::MAX),
                None => measured(workload, (width, height), most, ENOUGH),
            };
        let rows = workloads(asked).into_iter().flat_map(|workload| {
            let sizes = workload.sizes().iter().filter(|size| wanted(size));
            sizes.map(move |&size| row(workload, size))
        });
        made(asked, rows)
    }

    pub fn growth(asked: &Asked) -> Vec<Growth> {
        let workloads = workloads(asked).into_iter();
        made(asked, workloads.filter(|it| it.grows()).map(grown))
    }

    #[cfg(not(before))]
    pub fn before(_: &Asked) {
        COMMAND.stop(
            "no other library was linked: SAFETEAL_BEFORE=FOLDER must name the folder of a libhost.a when bench is \
             built",
        );
    }

    /// The workloads of calls that both libraries have; the others are named.
    #[cfg(before)]
    fn in_both(asked: &Asked) -> Vec<&'static Workload> {
        use compare::bench::before::in_both;

        let (both, absent): (Vec<_>, Vec<_>) =
            workloads(asked).into_iter().partition(|it| in_both(it));
        let mut calls: Vec<&str> = absent.iter().map(|workload| workload.call).collect();
        calls.dedup();
        let calls = calls.join(", ");
        if both.is_empty() {
            COMMAND.stop(&format!(
                "the other library does not have {calls}: nothing was measured"
            ));
        }
        if !absent.is_empty() {
            line(&format!(
                "left out, since the other library does not have them: {calls}\n"
            ));
        }
        both
    }

    /// Prints the rows of two libraries as they are made, and the worst ratio of each kind.
    #[cfg(before)]
    pub fn before(asked: &Asked) {
        use compare::bench::before::{compare, worst, Compared, SIZES, USUAL};

        let wanted = |&(width, height, _): &(usize, usize, usize)| match asked.text("--size") {
            Some(size) => size == sized((width, height)),
            None => USUAL.contains(&(width, height)),
        };
        let sizes: Vec<_> = SIZES.into_iter().filter(wanted).collect();
        let row = |workload: &'static Workload, (width, height, rounds)| {
            let rounds = workload.rounds(rounds);
            let rounds = asked.number("--rounds").unwrap_or(rounds);
            compare(workload, (width, height), rounds)
        };
        let rows = in_both(asked).into_iter().flat_map(|workload| {
            let largest = workload.sizes().iter().map(|(width, _, _)| *width).max();
            let sizes = sizes
                .iter()
                .filter(move |(width, _, _)| Some(*width) <= largest);
            sizes.map(move |&size| row(workload, size))
        });
        let rows: Vec<Compared> = made(asked, rows);
        line("");
        worst(&rows).iter().for_each(|words| line(words));
    }
}

#[cfg(test)]
mod tests {
    use super::{together, COMMAND};

    fn said(text: &str) -> Option<String> {
        let words = text.split_whitespace().map(str::to_owned);
        match COMMAND.read(words) {
            Ok(asked) => together(&asked),
            Err(words) => Some(words),
        }
    }

    #[test]
    fn right_words() {
        let right = [
            "",
            "--write",
            "--growth --write",
            "peel fit --quick",
            "--before",
            "fit --before --rounds 9",
            "--before hold --only 3x1 --size 64x64 --csv rows.csv",
            "--rounds 2 distances --into folder",
            "--table docs/benchmark.csv --write",
            "--growth --table docs/growth.csv --into folder",
        ];
        for text in right {
            assert_eq!(said(text), None, "{text}");
        }
    }

    /// Words that are wrong, and how they are refused.
    const WRONG: &[(&str, &str)] = &[
        ("--fast", "there is no option \"--fast\""),
        ("peel pel", "CALL takes one of stats, fit, "),
        (
            "--size 5x5",
            "--size takes one of 64x64, 512x512, 1920x1080, 4096x4096, not \"5x5\"",
        ),
        ("--write peel", "--write takes no \"peel\" beside it"),
        ("--quick --write", "--write takes no \"--quick\" beside it"),
        (
            "--write --only 3x1",
            "--write takes no \"--only\" beside it",
        ),
        (
            "--write --into folder",
            "--write takes no \"--into\" beside it",
        ),
        (
            "--before --write",
            "--before takes no \"--write\" beside it",
        ),
        (
            "--growth --before",
            "--before takes no \"--growth\" beside it",
        ),
        (
            "--growth --rounds 3",
            "--growth takes no \"--rounds\" beside it",
        ),
        (
            "--table rows.csv peel",
            "--table takes no \"peel\" beside it",
        ),
        (
            "--table rows.csv --csv other.csv",
            "--table takes no \"--csv\" beside it",
        ),
        (
            "--quick --size 64x64",
            "--size takes no \"--quick\" beside it",
        ),
        ("--rounds", "--rounds needs a value"),
        (
            "--rounds 0",
            "--rounds takes a whole number from 1 to 1000000, not \"0\"",
        ),
        ("--rounds 2.5", "--rounds takes a whole number"),
    ];

    #[test]
    fn wrong_words_are_named() {
        for (text, part) in WRONG {
            let words = said(text).expect(text);
            assert!(words.starts_with(part), "{text}: {words}");
        }
    }

    #[cfg(not(oracle_absent))]
    #[test]
    fn the_sizes_are_those_that_are_measured() {
        use compare::bench::SIZES;
        use compare::report::rows::sized;

        let measured = SIZES.map(|(width, height, _)| sized((width, height)));
        assert_eq!(super::sizes(), measured);
    }
}
