//! The rows that are measured.

use super::csv::{Fields, Record};

/// What stands beside a call.
#[derive(Clone, Copy, Debug, PartialEq, Eq)]
pub enum Beside {
    /// The Rust's own function.
    Rust,
    /// A plain copy of as many bytes: the Rust has no such call.
    Copy,
    /// Our own calls that do the same, made by hand.
    Hand,
}

impl Beside {
    pub const ALL: [Self; 3] = [Self::Rust, Self::Copy, Self::Hand];

    /// As it stands in a row.
    pub fn name(self) -> &'static str {
        match self {
            Self::Rust => "the Rust",
            Self::Copy => "a copy",
            Self::Hand => "by hand",
        }
    }

    fn of(text: &str) -> Result<Self, String> {
        let found = Self::ALL.into_iter().find(|beside| beside.name() == text);
        let names = Self::ALL.map(Self::name).join("\" or \"");
        found.ok_or_else(|| format!("{text:?} stands where \"{names}\" must"))
    }
}

/// One workload of one call at one size, and what stands beside it.
#[derive(Clone, Debug, PartialEq)]
pub struct Row {
    pub call: String,
    pub workload: String,
    pub size: (usize, usize),
    pub beside: Beside,
    /// Nanoseconds per pixel, the median of the rounds; and the first as a share of the second.
    pub ours: f64,
    pub other: f64,
    pub ratio: f64,
    /// How wide the middle half of the rounds' ratios is, as a share of their median.
    pub spread: Option<f64>,
    pub rounds: usize,
    /// What the times are divided by: the pixels of the plane, the cells or the records; 1 where a call is the measure.
    pub pixels: usize,
}

impl Fields for Row {
    const HEAD: &'static [&'static str] = &[
        "call", "workload", "size", "beside", "ours_ns", "other_ns", "ratio", "spread", "rounds",
        "pixels",
    ];

    fn fields(&self) -> Vec<String> {
        vec![
            self.call.clone(),
            self.workload.clone(),
            sized(self.size),
            self.beside.name().to_owned(),
            four(self.ours),
            four(self.other),
            four(self.ratio),
            self.spread.map_or(String::new(), four),
            self.rounds.to_string(),
            self.pixels.to_string(),
        ]
    }
}

impl Record for Row {
    fn of(fields: &[String]) -> Result<Self, String> {
        let spread = Some(&fields[7]).filter(|field| !field.is_empty());
        Ok(Self {
            call: fields[0].clone(),
            workload: fields[1].clone(),
            size: size(&fields[2])?,
            beside: Beside::of(&fields[3])?,
            ours: number(&fields[4])?,
            other: number(&fields[5])?,
            ratio: share(&fields[6], &fields[4], &fields[5])?,
            spread: spread.map(|field| number(field)).transpose()?,
            rounds: whole(&fields[8])?,
            pixels: whole(&fields[9])?,
        })
    }
}

/// One workload of one call, on many small planes and on one large one.
#[derive(Clone, Debug, PartialEq)]
pub struct Growth {
    pub call: String,
    pub workload: String,
    /// Nanoseconds per pixel; and the second as a share of the first.
    pub small: f64,
    pub large: f64,
    pub growth: f64,
}

impl Fields for Growth {
    const HEAD: &'static [&'static str] = &["call", "workload", "small_ns", "large_ns", "growth"];

    fn fields(&self) -> Vec<String> {
        let numbers = [self.small, self.large, self.growth].map(four);
        let names = [self.call.clone(), self.workload.clone()];
        names.into_iter().chain(numbers).collect()
    }
}

impl Record for Growth {
    fn of(fields: &[String]) -> Result<Self, String> {
        Ok(Self {
            call: fields[0].clone(),
            workload: fields[1].clone(),
            small: number(&fields[2])?,
            large: number(&fields[3])?,
            growth: share(&fields[4], &fields[3], &fields[2])?,
        })
    }
}

/// A number with four decimals.
pub fn four(number: f64) -> String {
    format!("{number:.4}")
}

/// A size as it stands in a row.
pub fn sized((width, height): (usize, usize)) -> String {
    format!("{width}x{height}")
}

fn size(text: &str) -> Result<(usize, usize), String> {
    let sides = text.split_once('x');
    let sides = sides.and_then(|(wide, high)| Some((wide.parse().ok()?, high.parse().ok()?)));
    sides.ok_or_else(|| format!("{text:?} is no size, as 1920x1080"))
}

fn whole(text: &str) -> Result<usize, String> {
    let number = text.parse().ok().filter(|&number| number > 0);
    number.ok_or_else(|| format!("{text:?} is no whole number of 1 or more"))
}

fn number(text: &str) -> Result<f64, String> {
    let number = text
        .parse()
        .ok()
        .filter(|number: &f64| number.is_finite() && *number >= 0.0);
    number.ok_or_else(|| format!("{text:?} is no number of 0 or more"))
}

/// Half of the last decimal's worth: so far off a number can be that was rounded to this text.
fn rounded(text: &str) -> f64 {
    let decimals = text
        .split_once('.')
        .map_or(0, |(_, decimals)| decimals.len());
    0.5 / 10f64.powi(decimals as i32)
}

/// The ratio in the first text, which must be that of the other two as far as their decimals go.
fn share(text: &str, over: &str, under: &str) -> Result<f64, String> {
    let (ratio, above, below) = (number(text)?, number(over)?, number(under)?);
    let ([far, over_far, under_far], tiny) = ([text, over, under].map(rounded), 1e-9);
    let least = (above - over_far).max(0.0) / (below + under_far) - far - tiny;
    let most = (above + over_far) / (below - under_far).max(tiny) + far + tiny;
    if ratio < least || ratio > most {
        return Err(format!("{text} is not {over} / {under}"));
    }
    Ok(ratio)
}

#[cfg(test)]
pub mod tests {
    use super::{Beside, Growth, Row};
    use crate::report::csv::{read, written};

    /// A made-up row.
    pub fn row(call: &str, workload: &str, size: (usize, usize), ours: f64, other: f64) -> Row {
        Row {
            call: call.to_owned(),
            workload: workload.to_owned(),
            size,
            beside: Beside::Rust,
            ours,
            other,
            ratio: ours / other,
            spread: Some(0.02),
            rounds: 9,
            pixels: size.0 * size.1,
        }
    }

    #[test]
    fn rows_are_read_as_they_were_written() {
        let mut rows = vec![
            row("hold", "step 3×1, all marked", (64, 64), 0.25, 1.0),
            row("peel", "a fitted logo, luma", (1920, 1080), 3.5, 7.0),
        ];
        rows[0].beside = Beside::Copy;
        rows[1].spread = None;
        let text = written(&rows);
        assert_eq!(read::<Row>(&text).expect("its own text"), rows);
        let line =
            "peel,\"a fitted logo, luma\",1920x1080,the Rust,3.5000,7.0000,0.5000,,9,2073600\n";
        assert!(text.ends_with(line), "{text}");
        let growth = Growth {
            call: "mask".to_owned(),
            workload: "a moving scene".to_owned(),
            small: 2.0,
            large: 3.0,
            growth: 1.5,
        };
        assert_eq!(
            read::<Growth>(&written(std::slice::from_ref(&growth))).expect("its own text"),
            [growth]
        );
    }

    #[test]
    fn a_wrong_number_is_named() {
        let text = |line: &str| format!("{}{line}\n", written::<Row>(&[]));
        let wrong = [
            (
                "a,b,64x64,the Rust,1.00,2.00,0.60,,1,1",
                "line 2: 0.60 is not 1.00 / 2.00",
            ),
            (
                "a,b,64x64,the Rust,1.00,2.00,0.49,,1,1",
                "line 2: 0.49 is not 1.00 / 2.00",
            ),
            (
                "a,b,64,the Rust,1.00,2.00,0.50,,1,1",
                "line 2: \"64\" is no size",
            ),
            (
                "a,b,64x64,it,1.00,2.00,0.50,,1,1",
                "line 2: \"it\" stands where \"the Rust\" or \"a copy\" or \"by hand\" must",
            ),
            (
                "a,b,64x64,the Rust,-1,2.00,0.50,,1,1",
                "line 2: \"-1\" is no number of 0 or more",
            ),
            (
                "a,b,64x64,a copy,1.00,NaN,0.50,,1,1",
                "line 2: \"NaN\" is no number",
            ),
            (
                "a,b,64x64,a copy,1.00,2.00,0.50,,0,1",
                "line 2: \"0\" is no whole number",
            ),
        ];
        for (line, part) in wrong {
            let words = read::<Row>(&text(line)).expect_err(line);
            assert!(words.starts_with(part), "{line}: {words}");
        }
        // Few decimals leave room: 0.0545 / 0.325 is 0.17.
        assert!(read::<Row>(&text("a,b,64x64,a copy,0.05,0.33,0.17,,1,1")).is_ok());
    }
}
