//! The tables of docs/BENCHMARK.md: a line for each call, in the order of the rows.

use super::quantile;
use super::rows::{Beside, Growth, Row};

/// The size whose time is given, and what a call does for one frame of it: each group is of workloads and how often
/// each is done. A call's frame is the first group that it has all workloads of; chroma has two planes.
pub const FRAME: (usize, usize) = (1920, 1080);
pub const FRAMES: &[&[(&str, usize)]] = &[
    &[("a sparse cover, per cell", 1)],
    &[("a moving scene", 1)],
    &[("a moving scene, step 1", 1), ("a moving scene, step 2", 2)],
    &[("a soft mask, step 1", 1), ("a soft mask, step 2", 2)],
    &[("a fitted logo, luma", 1), ("a fitted logo, chroma", 2)],
    &[("no lettering, per cell", 1)],
    &[("one pair, all planes, smooth motion", 1)],
    &[("a logo", 1)],
    &[("three parts of twelve pairs", 1)],
    &[("a whole layer", 1)],
    &[("six records, per record", 1)],
    &[("six numbers, per call", 1)],
    &[("36 pairs, three layers", 1)],
    &[("36 pairs, three layers, by hand", 1)],
];

/// The rows of one call, together.
pub struct Summary<'a> {
    pub call: &'a str,
    rows: Vec<&'a Row>,
}

impl<'a> Summary<'a> {
    /// The ratio that so many hundredths of the rows are below.
    pub fn ratio(&self, hundredths: usize) -> f64 {
        let ratios: Vec<f64> = self.rows.iter().map(|row| row.ratio).collect();
        quantile(&ratios, hundredths)
    }

    /// The row with the largest ratio.
    pub fn worst(&self) -> &'a Row {
        let worst = self.rows.iter().max_by(|a, b| a.ratio.total_cmp(&b.ratio));
        worst.expect("a call that is named has a row")
    }

    /// Milliseconds for a frame, ours and the other's, where its workloads were measured at that size.
    pub fn frame(&self) -> Option<(f64, f64)> {
        let of = |&(workload, times): &(&str, usize)| {
            let mut rows = self.rows.iter();
            let row = rows.find(|row| row.workload == workload && row.size == FRAME)?;
            let pixels = (row.pixels * times) as f64 / 1e6;
            Some((row.ours * pixels, row.other * pixels))
        };
        let whole = |group: &&[(&str, usize)]| {
            let parts: Option<Vec<(f64, f64)>> = group.iter().map(of).collect();
            let add = |sum: (f64, f64), part: (f64, f64)| (sum.0 + part.0, sum.1 + part.1);
            Some(parts?.into_iter().fold((0.0, 0.0), add))
        };
        FRAMES.iter().find_map(whole)
    }

    /// The spread of the middle row, and the widest; a dash where no row has one.
    fn spread(&self) -> String {
        let spreads: Vec<f64> = self.rows.iter().filter_map(|row| row.spread).collect();
        if spreads.is_empty() {
            return "-".to_owned();
        }
        let [middle, widest] = [50, 100].map(|hundredths| 100.0 * quantile(&spreads, hundredths));
        format!("{middle:.1} % ({widest:.1} %)")
    }

    fn line(&self) -> String {
        let (ours, other) = match self.frame() {
            Some((ours, other)) => (milliseconds(ours), milliseconds(other)),
            None => ("-".to_owned(), "-".to_owned()),
        };
        let (call, median, worst) = (self.call, self.ratio(50), self.worst());
        let spread = self.spread();
        let (name, ratio) = (named(&worst.workload, worst.size), worst.ratio);
        format!("| {call} | {median:.2} | {ratio:.2} | {name} | {ours} | {other} | {spread} |\n")
    }
}

/// With three digits; of less than a microsecond the nanoseconds are the last.
pub fn milliseconds(time: f64) -> String {
    let decimals = match time {
        _ if time >= 100.0 => 0,
        _ if time >= 10.0 => 1,
        _ if time >= 1.0 => 2,
        _ if time >= 0.001 => 3,
        _ => 6,
    };
    format!("{time:.decimals$}")
}

fn named(workload: &str, (width, height): (usize, usize)) -> String {
    format!("{workload}, {width}×{height}")
}

/// The calls in the order in which the rows name them, each with its rows.
fn grouped<'a, R>(
    rows: impl IntoIterator<Item = &'a R>,
    call: impl Fn(&'a R) -> &'a str,
) -> Vec<(&'a str, Vec<&'a R>)> {
    let mut calls: Vec<(&str, Vec<&R>)> = Vec::new();
    for row in rows {
        match calls.iter_mut().find(|(name, _)| *name == call(row)) {
            Some((_, of)) => of.push(row),
            None => calls.push((call(row), vec![row])),
        }
    }
    calls
}

/// The calls beside the Rust, or beside something else, in the order in which the rows name them.
pub fn by_call(rows: &[Row], beside: Beside) -> Vec<Summary<'_>> {
    let rows = rows.iter().filter(|row| row.beside == beside);
    let calls = grouped(rows, |row| &row.call).into_iter();
    calls.map(|(call, rows)| Summary { call, rows }).collect()
}

/// The first two lines of a table.
fn head(beside: Beside) -> String {
    let (other, column) = match beside {
        Beside::Rust => ("Rust", "The Rust"),
        Beside::Copy => ("copy", "The copy"),
        Beside::Hand => ("by hand", "By hand"),
    };
    format!(
        "| Call | Ours / {other}, median | Worst | The worst workload | Frame of 1920×1080, ours, ms | {column}, ms \
         | Spread, middle row (widest) |\n|---|---|---|---|---|---|---|\n"
    )
}

const COPIES: &str = "\
The Rust has no parcels and no walks. What stands beside these calls is no other way to do the same, but a plain copy of
as many bytes (`copy_from_slice`), by turns and in the same run: of the whole parcel; for parcel_sizes of 42 bytes, the
lengths and kinds of six records and the head; for walk_start and walk_due of 48 bytes, the six numbers of a walk.
";

const HANDS: &str = "\
What a walk does, stats and fit do by hand: beside walk_pair stands a call of stats on the same pair, beside walk_layer
a call of fit on the same sums, beside whole walks 36 calls of stats and three of fit, by turns and in the same run.
Both sides work in the same slices, so that they wait for the memory alike, and the shortest round of each is taken,
since they do the same work and differ by less than rounds do.
";

/// A table of the calls beside the Rust, with a line for each call and one for all; then one of those beside a copy,
/// and one of those beside our own by hand, which say so.
pub fn calls(rows: &[Row]) -> String {
    let table = |beside: Beside| {
        let calls = by_call(rows, beside);
        let lines = calls.iter().map(Summary::line).collect::<String>();
        let table = head(beside) + &lines;
        let table = match beside {
            _ if calls.is_empty() => return None,
            Beside::Rust => table + &line_for_all(&calls),
            Beside::Copy => format!("{COPIES}\n{table}"),
            Beside::Hand => format!("{HANDS}\n{table}"),
        };
        Some(table)
    };
    let tables: Vec<String> = Beside::ALL.into_iter().filter_map(table).collect();
    tables.join("\n")
}

fn line_for_all(calls: &[Summary<'_>]) -> String {
    let all = Summary {
        call: "all",
        rows: calls.iter().flat_map(|call| call.rows.clone()).collect(),
    };
    let (median, worst) = (all.ratio(50), all.worst());
    let name = format!("{}, {}", worst.call, named(&worst.workload, worst.size));
    let (ratio, spread) = (worst.ratio, all.spread());
    format!("| all | {median:.2} | {ratio:.2} | {name} | | | {spread} |\n")
}

const GROWTH_HEAD: &str = "\
| Call | Growth, median | Most | The workload that grows most |
|---|---|---|---|
";

/// A line for each call.
pub fn growths(rows: &[Growth]) -> String {
    let line = |(call, rows): (&str, Vec<&Growth>)| {
        let of: Vec<f64> = rows.iter().map(|row| row.growth).collect();
        let most = rows.iter().max_by(|a, b| a.growth.total_cmp(&b.growth));
        let most = most.expect("a call that is named has a row");
        let (median, name) = (quantile(&of, 50), &most.workload);
        format!("| {call} | {median:.2} | {:.2} | {name} |\n", most.growth)
    };
    let lines = grouped(rows, |row| &row.call).into_iter().map(line);
    GROWTH_HEAD.to_owned() + &lines.collect::<String>()
}

#[cfg(test)]
mod tests {
    use super::{by_call, calls, growths, milliseconds, COPIES, HANDS};
    use crate::report::rows::tests::row;
    use crate::report::rows::{Beside, Growth, Row};

    fn rows() -> Vec<Row> {
        let mut rows = vec![
            row("peel", "a fitted logo, luma", (64, 64), 1.0, 2.0),
            row("peel", "a fitted logo, luma", (1920, 1080), 1.0, 4.0),
            row("peel", "a fitted logo, chroma", (1920, 1080), 2.0, 2.5),
            row("mask", "a moving scene", (64, 64), 1.0, 10.0),
        ];
        rows[2].pixels /= 4;
        rows[2].spread = Some(0.1);
        rows[3].spread = None;
        rows
    }

    #[test]
    fn a_line_for_each_call_and_one_for_all() {
        let table = calls(&rows());
        let lines: Vec<&str> = table.lines().skip(2).collect();
        // 1 ns for each of 2,073,600 pixels, and 2 ns for each of twice 518,400.
        let peel = "| peel | 0.50 | 0.80 | a fitted logo, chroma, 1920×1080 | 4.15 | 10.9 | 2.0 % (10.0 %) |";
        let mask = "| mask | 0.10 | 0.10 | a moving scene, 64×64 | - | - | - |";
        let all =
            "| all | 0.38 | 0.80 | peel, a fitted logo, chroma, 1920×1080 | | | 2.0 % (10.0 %) |";
        assert_eq!(lines, [peel, mask, all]);
    }

    /// What stands beside a copy has a table of its own, which says so, and is not in the line for all.
    #[test]
    fn copies_have_a_table_of_their_own() {
        let mut copy = row("parcel_read", "a whole layer", (1920, 1080), 3.0, 1.0);
        copy.beside = Beside::Copy;
        let both = calls(&[rows(), vec![copy.clone()]].concat());
        let alone = calls(&[copy]);
        assert_eq!(both, format!("{}\n{alone}", calls(&rows())));
        let lines: Vec<&str> = alone.trim_start_matches(COPIES).lines().collect();
        assert!(lines[1].starts_with("| Call | Ours / copy, median |"));
        assert!(lines[1].contains("| The copy, ms |"));
        let read = "| parcel_read | 3.00 | 3.00 | a whole layer, 1920×1080 | 6.22 | 2.07 | 2.0 % (2.0 %) |";
        assert_eq!(lines[3..], [read]);
    }

    /// So has what stands beside our own calls by hand.
    #[test]
    fn calls_by_hand_have_a_table_of_their_own() {
        let mut hand = row("walk_layer", "a", (64, 64), 2.0, 2.0);
        hand.beside = Beside::Hand;
        let both = calls(&[rows(), vec![hand.clone()]].concat());
        let alone = calls(&[hand]);
        assert_eq!(both, format!("{}\n{alone}", calls(&rows())));
        let lines: Vec<&str> = alone.trim_start_matches(HANDS).lines().collect();
        assert!(lines[1].starts_with("| Call | Ours / by hand, median |"));
        assert!(lines[1].contains("| By hand, ms |"));
        assert!(lines[3].starts_with("| walk_layer | 1.00 | 1.00 | a, 64×64 | - | - |"));
    }

    #[test]
    fn a_frame_needs_all_its_workloads() {
        let rows = rows();
        let frame = |rows: &[Row]| by_call(rows, Beside::Rust)[0].frame();
        assert!(frame(&rows).is_some());
        assert_eq!(frame(&rows[..2]), None);
    }

    #[test]
    fn three_digits() {
        let shown = [0.000_035_4, 0.00123, 0.5, 1.234, 12.34, 1234.5].map(milliseconds);
        assert_eq!(
            shown,
            ["0.000035", "0.001", "0.500", "1.23", "12.3", "1234"]
        );
    }

    #[test]
    fn growth_has_a_line_for_each_call() {
        let growth = |call: &str, workload: &str, growth| Growth {
            call: call.to_owned(),
            workload: workload.to_owned(),
            small: 1.0,
            large: growth,
            growth,
        };
        let table = growths(&[
            growth("a", "x", 1.0),
            growth("b", "y", 0.5),
            growth("a", "z", 1.2),
        ]);
        let lines: Vec<&str> = table.lines().skip(2).collect();
        assert_eq!(
            lines,
            ["| a | 1.10 | 1.20 | z |", "| b | 0.50 | 0.50 | y |"]
        );
    }
}
