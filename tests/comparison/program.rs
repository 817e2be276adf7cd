//! The program, one process for each call.
use crate::watchdog::Watchdog;
use std::ffi::OsStr;
use std::io::{ErrorKind, Write};
use std::process::{Child, Command, Output, Stdio};
use std::{io, thread, time::Duration};

/// Long enough for the program to read what it has been given so far.
const PAUSE: Duration = Duration::from_millis(20);

pub struct Program {
    pub path: String,
}

impl Program {
    /// With these words, and the pieces one after another on its standard input.
    pub fn call<Word: AsRef<OsStr>>(&self, words: &[Word], pieces: &[Vec<u8>], watchdog: &Watchdog) -> Output {
        let done = self.try_call(words, pieces, watchdog);
        done.unwrap_or_else(|e| panic!("{}: {e}", self.path))
    }

    fn try_call<Word: AsRef<OsStr>>(
        &self,
        words: &[Word],
        pieces: &[Vec<u8>],
        watchdog: &Watchdog,
    ) -> io::Result<Output> {
        let mut command = Command::new(&self.path);
        command.args(words).stdin(Stdio::piped()).stdout(Stdio::piped()).stderr(Stdio::piped());
        let mut child = command.spawn()?;
        let _watched = watchdog.process(child.id());
        feed(&mut child, pieces)?;
        child.wait_with_output()
    }
}

fn feed(child: &mut Child, pieces: &[Vec<u8>]) -> io::Result<()> {
    let mut input = child.stdin.take().expect("a pipe");
    for (k, piece) in pieces.iter().enumerate() {
        if k > 0 {
            thread::sleep(PAUSE);
        }
        match input.write_all(piece) {
            // The program need not read what is past the bound, or anything if its words say enough.
            Err(e) if e.kind() == ErrorKind::BrokenPipe => break,
            written => written?,
        }
    }
    Ok(())
}

/// What there is beside an answer, if there is anything.
pub fn beside(done: &Output) -> String {
    let errors = String::from_utf8_lossy(&done.stderr);
    let errors = if errors.is_empty() { String::new() } else { format!(", on standard error {errors:?}") };
    if done.status.success() {
        errors
    } else {
        format!("{errors}, {}", done.status)
    }
}
