//! The places of docs/BENCHMARK.md between two marks, whose lines are made.

/// A place of the page, by its name.
#[derive(Clone, Copy, Debug, PartialEq, Eq)]
pub enum Place {
    /// How the calls were measured: what differs from run to run.
    Measured,
    /// A line for each call.
    Calls,
    /// How the growth was measured.
    GrowthMeasured,
    /// How the cost grows with the size.
    Growth,
}

/// All places of the page, in their order.
pub const PLACES: [Place; 4] = [
    Place::Measured,
    Place::Calls,
    Place::GrowthMeasured,
    Place::Growth,
];

impl Place {
    fn marks(self) -> [String; 2] {
        let name = match self {
            Place::Measured => "measured",
            Place::Calls => "calls",
            Place::GrowthMeasured => "growth measured",
            Place::Growth => "growth",
        };
        [
            format!("<!-- {name}: made by bench -->\n"),
            format!("<!-- end of {name} -->\n"),
        ]
    }

    /// Where its lines begin and end in the page; or words for the mark that is not there.
    fn found(self, page: &str) -> Result<(usize, usize), String> {
        let [open, shut] = self.marks();
        let absent = |mark: &str| format!("there is no line {:?} in it", mark.trim_end());
        let from = page.find(&open).ok_or_else(|| absent(&open))? + open.len();
        let long = page[from..].find(&shut).ok_or_else(|| absent(&shut))?;
        Ok((from, from + long))
    }

    /// The lines that stand there.
    pub fn lines(self, page: &str) -> Result<&str, String> {
        let (from, to) = self.found(page)?;
        Ok(page[from..to].trim_matches('\n'))
    }

    /// The page with these lines there.
    pub fn put(self, page: &str, lines: &str) -> Result<String, String> {
        let (from, to) = self.found(page)?;
        let lines = lines.trim_matches('\n');
        Ok(format!("{}\n{lines}\n\n{}", &page[..from], &page[to..]))
    }
}

/// A page with these places, and nothing in them.
pub fn bare() -> String {
    let places = PLACES.map(|place| place.marks().concat());
    format!("# Benchmark\n\n{}", places.join("\n"))
}

#[cfg(test)]
mod tests {
    use super::{bare, Place};

    #[test]
    fn lines_take_the_place_of_those_between_the_marks() {
        let page = Place::Calls.put(&bare(), "| a |\n").expect("a place");
        assert_eq!(Place::Calls.lines(&page), Ok("| a |"));
        let page = Place::Growth.put(&page, "| b |\n").expect("a place");
        let again = Place::Calls.put(&page, "| c |\n| d |\n").expect("a place");
        assert_eq!(again, page.replace("| a |", "| c |\n| d |"));
        assert_eq!(Place::Growth.lines(&again), Ok("| b |"));
        assert_eq!(Place::Calls.put(&again, "| c |\n| d |"), Ok(again));
    }

    #[test]
    fn a_mark_that_is_not_there_is_named() {
        let words = Place::Calls
            .put("# Benchmark\n", "| a |\n")
            .expect_err("no mark");
        assert_eq!(
            words,
            "there is no line \"<!-- calls: made by bench -->\" in it"
        );
        let half = bare().replace("<!-- end of calls -->\n", "");
        let words = Place::Calls.lines(&half).expect_err("no second mark");
        assert_eq!(words, "there is no line \"<!-- end of calls -->\" in it");
    }
}
