//! Lines to standard output and standard error. Where nobody reads them any more (`scale | head -1`), the command ends
//! without a word, with the status that a shell gives to a command ended by SIGPIPE.

use std::io::{self, ErrorKind, Write};
use std::process::{Command, Stdio};

/// What a shell says of a command that SIGPIPE ended.
const CLOSED: i32 = 128 + 13;

/// Prints a text as it stands.
pub fn print(text: &str) {
    if let Err(error) = written(&mut io::stdout(), text) {
        note(&format!("nothing more can be printed: {error}"));
        std::process::exit(1);
    }
}

/// Prints a line.
pub fn line(text: &str) {
    print(&format!("{text}\n"));
}

/// Writes a line to standard error: of progress, or of what went wrong. In a test it goes past the harness's capture,
/// so that a long run is seen to move.
pub fn note(text: &str) {
    // Where it cannot be written there is nowhere to say so.
    let _ = written(&mut io::stderr(), &format!("{text}\n"));
}

/// For tests of commands: a pipe whose reader has gone.
///
/// # Panics
/// Where the command `true` cannot be run.
#[doc(hidden)]
#[must_use]
pub fn unread() -> Stdio {
    let mut gone = Command::new("true");
    let mut gone = gone.stdin(Stdio::piped()).spawn().expect("`true`");
    let mut pipe = gone.stdin.take().expect("its pipe");
    gone.wait().expect("its end");
    // A process that another test forks holds the reading end as well, until its program runs.
    while pipe.write(&[0]).is_ok() {}
    pipe.into()
}

/// The standard macro's like, by [`print()`].
#[macro_export]
macro_rules! print {
    ($($words:tt)*) => { $crate::print(&::std::format!($($words)*)) };
}

/// The standard macro's like, by [`line()`].
#[macro_export]
macro_rules! println {
    () => { $crate::line("") };
    ($($words:tt)*) => { $crate::line(&::std::format!($($words)*)) };
}

/// The standard macro's like, by [`note()`].
#[macro_export]
macro_rules! eprintln {
    () => { $crate::note("") };
    ($($words:tt)*) => { $crate::note(&::std::format!($($words)*)) };
}

/// Writes it at once; the command ends here where the pipe is closed.
fn written(to: &mut impl Write, text: &str) -> io::Result<()> {
    let done = to.write_all(text.as_bytes()).and_then(|()| to.flush());
    match done {
        Err(error) if error.kind() == ErrorKind::BrokenPipe => std::process::exit(CLOSED),
        done => done,
    }
}
