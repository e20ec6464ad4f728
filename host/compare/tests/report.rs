//! docs/BENCHMARK.md, its chart and its rows say the same, and name every call.

use std::collections::BTreeSet;
use std::fs;
use std::path::Path;
use std::process::Command;

use compare::names::{calls, WALKS};
use compare::report::csv::read;
use compare::report::files::{docs, page, Reported, CHART, GROWTH, PAGE, ROWS};
use compare::report::rows::{Growth, Row};

fn file(name: &str) -> String {
    let file = docs().join(name);
    fs::read_to_string(&file).unwrap_or_else(|error| panic!("{}: {error}", file.display()))
}

/// The rows of a file, whose table stands in the page.
fn told<R: Reported>(name: &str) -> Vec<R> {
    let rows: Vec<R> = read(&file(name)).unwrap_or_else(|words| panic!("{name}: {words}"));
    let page = page(&docs()).expect("the page with its places");
    let there = R::PLACES[1].lines(&page).expect("the table's place");
    assert_eq!(
        there,
        R::table(&rows).trim_end(),
        "bench --table docs/{name} --write"
    );
    rows
}

#[test]
fn the_table_and_the_chart_are_those_of_the_rows() {
    let rows: Vec<Row> = told(ROWS);
    assert_eq!(Row::chart(&rows).as_deref(), Some(file(CHART).as_str()));
    let named: BTreeSet<String> = rows.iter().map(|row| row.call.clone()).collect();
    assert_eq!(named, calls().into_iter().collect());
}

/// All but whole walks grow up to the largest size.
#[test]
fn the_table_of_growth_is_that_of_its_rows() {
    let rows: Vec<Growth> = told(GROWTH);
    let named: BTreeSet<String> = rows.iter().map(|row| row.call.clone()).collect();
    let grown = calls().into_iter().filter(|call| call != WALKS);
    assert_eq!(named, grown.collect());
}

/// Each workload has its rows, at each of its sizes, and none has others.
#[cfg(not(oracle_absent))]
#[test]
fn the_rows_are_those_of_the_workloads() {
    use compare::bench::CALLS;

    let workloads = CALLS.iter().copied().flatten();
    let name = |call: &str, workload: &str| format!("{call}, {workload}");
    let mut sized = BTreeSet::new();
    for workload in workloads.clone() {
        for &(width, height, _) in workload.sizes() {
            sized.insert((name(workload.call, workload.name), (width, height)));
        }
    }
    let rows: Vec<Row> = told(ROWS);
    let of = |row: &Row| (name(&row.call, &row.workload), row.size);
    assert_eq!(rows.iter().map(of).collect::<BTreeSet<_>>(), sized);
    assert_eq!(rows.len(), sized.len());
    let grown: Vec<Growth> = told(GROWTH);
    let grown = grown.iter().map(|row| name(&row.call, &row.workload));
    let names = workloads.filter(|workload| workload.grows());
    let names = names.map(|workload| name(workload.call, workload.name));
    assert_eq!(grown.collect::<BTreeSet<_>>(), names.collect());
}

/// Each call has workloads that make a frame, and each workload of a frame is one that is measured.
#[cfg(not(oracle_absent))]
#[test]
fn every_call_has_a_frame() {
    use compare::bench::CALLS;
    use compare::report::table::FRAMES;

    let workloads: Vec<_> = CALLS.iter().copied().flatten().collect();
    let has = |call: &str, name: &str| {
        let mut workloads = workloads.iter();
        workloads.any(|workload| workload.call == call && workload.name == name)
    };
    for call in calls() {
        let mut groups = FRAMES.iter();
        let whole = groups.any(|group| group.iter().all(|(name, _)| has(&call, name)));
        assert!(whole, "{call}");
    }
    for (name, _) in FRAMES.iter().copied().flatten() {
        assert!(
            workloads.iter().any(|workload| workload.name == *name),
            "{name}"
        );
    }
}

fn bench(words: &[&str], folder: &Path) -> (Option<i32>, String) {
    let mut command = Command::new(env!("CARGO_BIN_EXE_bench"));
    let run = command.args(words).current_dir(folder).output();
    let run = run.expect("bench");
    let noted = String::from_utf8_lossy(&run.stderr).into_owned();
    (run.status.code(), noted)
}

fn scratch(name: &str) -> std::path::PathBuf {
    let folder = Path::new(env!("CARGO_TARGET_TMPDIR")).join(name);
    let _ = fs::remove_dir_all(&folder);
    fs::create_dir_all(&folder).expect("a folder for the test");
    folder
}

/// A few rows are measured into a folder; made again from its CSV, the files are the same.
#[cfg(not(oracle_absent))]
#[test]
fn a_short_run_leaves_its_files() {
    let folder = scratch("short");
    let words = [
        "distances",
        "hold",
        "--only",
        "3x1",
        "--size",
        "64x64",
        "--rounds",
        "2",
    ];
    let into = ["--into", "made", "--csv", "rows.csv"];
    let words: Vec<&str> = words.into_iter().chain(into).collect();
    assert_eq!(bench(&words, &folder), (Some(0), String::new()));
    let names = [ROWS, CHART, PAGE];
    let all = |folder: &Path| names.map(|name| fs::read_to_string(folder.join(name)).expect(name));
    let made = all(&folder.join("made"));
    let rows: Vec<Row> = read(&made[0]).expect("rows");
    assert_eq!(rows.len(), 3);
    assert!(rows
        .iter()
        .all(|row| row.call == "hold" && row.rounds == 2 && row.spread.is_some()));
    assert_eq!(
        fs::read_to_string(folder.join("rows.csv")).expect("rows"),
        made[0]
    );
    assert!(made[2].contains("| Rounds | 2 of each row |") && made[2].contains("\n| hold | "));
    let words = ["--table", "rows.csv", "--into", "made"];
    assert_eq!(bench(&words, &folder), (Some(0), String::new()));
    assert_eq!(all(&folder.join("made")), made);
}

/// What cannot be read or written is said, with the file and the line, and nothing is written.
#[test]
fn wrong_files_are_named() {
    let folder = scratch("wrong");
    fs::write(folder.join("rows.csv"), "call,workload\npeel,a logo\n").expect("a file");
    fs::create_dir(folder.join("full")).expect("a folder");
    fs::write(folder.join("full").join(PAGE), "# Benchmark\n").expect("a page");
    let wrong: [(&[&str], &str); 4] = [
        (&["--table", "none.csv"], "bench: none.csv: "),
        (
            &["--table", "rows.csv", "--into", "made"],
            "bench: rows.csv: line 1: the columns must be call,workload,size",
        ),
        (
            &["--into", "full"],
            "bench: full/BENCHMARK.md: there is no line \"<!-- measured: made by bench -->\"",
        ),
        (&["--into", "rows.csv"], "bench: rows.csv: "),
    ];
    for (words, part) in wrong {
        let (status, noted) = bench(words, &folder);
        assert_eq!(status, Some(1), "{words:?}: {noted}");
        assert!(noted.starts_with(part), "{words:?}: {noted}");
    }
    let made = fs::read_dir(folder.join("made")).expect("the folder");
    assert_eq!(made.count(), 0);
}

/// A file that cannot be written is said before the first row.
#[cfg(not(oracle_absent))]
#[test]
fn a_file_that_cannot_be_written_is_said_first() {
    let (status, noted) = bench(&["distances", "--csv", "none/rows.csv"], &scratch("csv"));
    assert_eq!(status, Some(1));
    assert!(noted.starts_with("bench: none/rows.csv: "), "{noted}");
}

#[cfg(not(oracle_absent))]
#[test]
fn a_part_of_no_name_is_refused() {
    let (status, noted) = bench(&["hold", "--only", "5x5"], &scratch("part"));
    assert_eq!(status, Some(2));
    assert!(
        noted.starts_with("bench: no workload of these calls has \"5x5\" in its name"),
        "{noted}"
    );
}
