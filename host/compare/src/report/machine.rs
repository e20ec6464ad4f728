//! How a run was made: what differs from machine to machine and from day to day.

use std::fs;
use std::path::Path;
use std::time::{Duration, SystemTime, UNIX_EPOCH};

/// A table of the day, the machine, the versions, and these rounds.
pub fn measured(took: Duration, rounds: &str) -> String {
    let cores = std::thread::available_parallelism().map_or(1, usize::from);
    let (system, kind) = (std::env::consts::OS, std::env::consts::ARCH);
    let rows = [
        ("Day", format!("{}, in {}", today(), time(took))),
        (
            "Processor",
            format!("{}, one of {cores} cores", processor()),
        ),
        ("System", format!("{system}, {kind}")),
        ("Rust", env!("SAFETEAL_RUSTC").to_owned()),
        ("Library", library()),
        ("Rounds", rounds.to_owned()),
    ];
    let row = |(name, words): (&str, String)| format!("| {name} | {words} |\n");
    let rows: String = rows.into_iter().map(row).collect();
    format!("| Measured | |\n|---|---|\n{rows}")
}

/// In minutes, or in seconds where these are few.
fn time(took: Duration) -> String {
    match took.as_secs() {
        seconds @ ..120 => format!("{} s", seconds.max(1)),
        seconds => format!("{} min", (seconds + 30) / 60),
    }
}

/// The library that was linked: its length, and the mark that the kit leaves in it.
fn library() -> String {
    let file = Path::new(env!("SAFETEAL_LINKED")).join("libhost.a");
    let Ok(bytes) = fs::read(file) else {
        return "libhost.a, which is not there any more".to_owned();
    };
    let mark = marked(&bytes).map_or(String::new(), |mark| format!(", Rattle logic {mark}"));
    format!("libhost.a of {} bytes{mark}", bytes.len())
}

/// The first digits of the kit's mark.
fn marked(bytes: &[u8]) -> Option<String> {
    const BEFORE: &[u8] = b"rattle logic=";
    let at = bytes
        .windows(BEFORE.len())
        .position(|part| part == BEFORE)?;
    let digits = bytes[at + BEFORE.len()..].iter();
    let digits = digits.take_while(|byte| byte.is_ascii_hexdigit()).take(12);
    Some(digits.map(|&byte| char::from(byte)).collect())
}

fn today() -> String {
    let since = SystemTime::now().duration_since(UNIX_EPOCH);
    let (year, month, day) = date(since.map_or(0, |time| time.as_secs() / 86_400));
    format!("{year}-{month:02}-{day:02}")
}

/// The civil date of a day counted from 1970-01-01.
fn date(mut days: u64) -> (u64, usize, u64) {
    let leap = |year: u64| year % 4 == 0 && (year % 100 != 0 || year % 400 == 0);
    let mut year = 1970;
    while days >= 365 + u64::from(leap(year)) {
        days -= 365 + u64::from(leap(year));
        year += 1;
    }
    let february = 28 + u64::from(leap(year));
    let months = [31, february, 31, 30, 31, 30, 31, 31, 30, 31, 30, 31];
    let mut month = 0;
    while days >= months[month] {
        days -= months[month];
        month += 1;
    }
    (year, month + 1, days + 1)
}

fn processor() -> String {
    let text = fs::read_to_string("/proc/cpuinfo").unwrap_or_default();
    let model = text
        .lines()
        .find_map(|line| line.strip_prefix("model name"));
    model.map_or("an unknown processor".to_owned(), |rest| {
        rest.trim_start_matches([' ', '\t', ':']).trim().to_owned()
    })
}

#[cfg(test)]
mod tests {
    use std::time::Duration;

    use super::{date, marked, time};

    #[test]
    fn times() {
        let shown = [0, 119, 120, 1529, 1530].map(|seconds| time(Duration::from_secs(seconds)));
        assert_eq!(shown, ["1 s", "119 s", "2 min", "25 min", "26 min"]);
    }

    #[test]
    fn dates() {
        assert_eq!(date(0), (1970, 1, 1));
        assert_eq!(date(11_016), (2000, 2, 29));
        assert_eq!(date(20_454), (2026, 1, 1));
    }

    #[test]
    fn the_kits_mark() {
        let mark = marked(b"\x7fELF\0rattle logic=0123456789abcdef\0");
        assert_eq!(mark.as_deref(), Some("0123456789ab"));
        assert_eq!(marked(b"\x7fELF rattle"), None);
    }
}
