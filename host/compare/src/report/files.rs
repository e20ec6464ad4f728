//! The files that the benchmark leaves in a folder, docs/ or another.

use std::fs;
use std::path::{Path, PathBuf};

use super::chart::chart;
use super::csv::{read, Record};
use super::page::{bare, Place, PLACES};
use super::rows::{Growth, Row};
use super::table;

/// The names of the files.
pub const PAGE: &str = "BENCHMARK.md";
pub const ROWS: &str = "benchmark.csv";
pub const CHART: &str = "benchmark.svg";
pub const GROWTH: &str = "growth.csv";

/// The project's folder of documents.
pub fn docs() -> PathBuf {
    let docs = Path::new(env!("CARGO_MANIFEST_DIR")).join("../../docs");
    docs.canonicalize().unwrap_or(docs)
}

/// Rows of a kind that has its files.
pub trait Reported: Record {
    /// The name of the CSV.
    const FILE: &'static str;
    /// The places in the page: of how they were measured, and of their table.
    const PLACES: [Place; 2];
    fn table(rows: &[Self]) -> String;
    /// The chart, where there is one.
    fn chart(rows: &[Self]) -> Option<String>;
}

impl Reported for Row {
    const FILE: &'static str = ROWS;
    const PLACES: [Place; 2] = [Place::Measured, Place::Calls];

    fn table(rows: &[Self]) -> String {
        table::calls(rows)
    }

    fn chart(rows: &[Self]) -> Option<String> {
        chart(rows)
    }
}

impl Reported for Growth {
    const FILE: &'static str = GROWTH;
    const PLACES: [Place; 2] = [Place::GrowthMeasured, Place::Growth];

    fn table(rows: &[Self]) -> String {
        table::growths(rows)
    }

    fn chart(_: &[Self]) -> Option<String> {
        None
    }
}

/// The page of a folder, a bare one where there is none; or words where a mark is missing in it.
pub fn page(folder: &Path) -> Result<String, String> {
    let file = folder.join(PAGE);
    let text = if file.exists() {
        fs::read_to_string(&file).map_err(|error| said(&file, &error.to_string()))?
    } else {
        bare()
    };
    for place in PLACES {
        place.lines(&text).map_err(|words| said(&file, &words))?;
    }
    Ok(text)
}

/// Makes the folder where it is missing; or words for why nothing could be written there.
pub fn prepare(folder: &Path) -> Result<(), String> {
    page(folder)?;
    fs::create_dir_all(folder).map_err(|error| said(folder, &error.to_string()))
}

/// Writes the CSV as it stands, and what is made of it: the table, the chart, and how it was measured, where that is
/// given. Everything is made before the first file is written; the names of the files are given back.
pub fn write<R: Reported>(
    folder: &Path,
    csv: &str,
    measured: Option<&str>,
) -> Result<Vec<PathBuf>, String> {
    let rows: Vec<R> = read(csv)?;
    let [of_run, of_table] = R::PLACES;
    let mut text = of_table.put(&page(folder)?, &R::table(&rows))?;
    if let Some(measured) = measured {
        text = of_run.put(&text, measured)?;
    }
    let chart = R::chart(&rows).map(|chart| (CHART, chart));
    let files = [(R::FILE, csv.to_owned()), (PAGE, text)];
    prepare(folder)?;
    let write = |(name, text): (&str, String)| {
        let file = folder.join(name);
        fs::write(&file, text).map_err(|error| said(&file, &error.to_string()))?;
        Ok(file)
    };
    files.into_iter().chain(chart).map(write).collect()
}

fn said(file: &Path, words: &str) -> String {
    format!("{}: {words}", file.display())
}
