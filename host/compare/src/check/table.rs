//! What a long run did, as a Markdown table: a row for each call and one for all, and below it the chroma entries and
//! the walks.

use super::run::Tally;

const HEAD: &str = "\
| Call | Cases | Cases a second | Accepted | Refused | Numbers answered | Counted |
|---|---|---|---|---|---|---|
";

/// The table of these calls by name.
pub fn table<'a>(rows: impl Iterator<Item = (&'a str, &'a Tally)>) -> String {
    let mut all = Tally::default();
    let (mut made, mut below) = (HEAD.to_owned(), String::new());
    for (call, tally) in rows {
        all.add(tally);
        made += &row(call, tally);
        let words = tally.words().into_iter();
        below.extend(words.map(|words| format!("\n{call}: {words}\n")));
    }
    made + &row("all", &all) + &below
}

fn row(call: &str, tally: &Tally) -> String {
    let (cases, accepted) = (tally.cases(), tally.by_number[0]);
    let numbers: Vec<String> = (0..tally.by_number.len())
        .filter(|&number| tally.by_number[number] > 0)
        .map(|number| number.to_string())
        .collect();
    format!(
        "| {call} | {cases} | {:.0} | {accepted} | {} | {} | {} |\n",
        tally.rate(),
        cases - accepted,
        numbers.join(" "),
        tally.counted
    )
}
