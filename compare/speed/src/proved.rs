//! The proved programs, run and timed.

use crate::work::Done;
use std::io;
use std::path::{Path, PathBuf};
use std::process::{Command, Stdio};
use std::time::{Duration, Instant};

/// The proved program `speed`.
pub struct Speed(pub PathBuf);

impl Speed {
    /// A work of it. It tells its own time.
    pub fn work(&self, words: &[&str], numbers: &[u64]) -> io::Result<Done> {
        let output = Command::new(&self.0)
            .args(words)
            .args(numbers.iter().map(u64::to_string))
            .output()?;
        let sum = String::from_utf8_lossy(&output.stdout);
        let nanoseconds = String::from_utf8_lossy(&output.stderr);
        match (sum.trim().parse(), nanoseconds.trim().parse()) {
            (Ok(sum), Ok(taken)) => Ok((sum, Duration::from_nanos(taken))),
            _ => Err(io::Error::other(format!(
                "speed {words:?} {numbers:?}: {nanoseconds}"
            ))),
        }
    }
}

/// How long a program takes from its start to its end on a script.
pub fn whole_run(program: &Path, words: &[&str], script: &Path) -> io::Result<Duration> {
    let input = std::fs::File::open(script)?;
    let start = Instant::now();
    let status = Command::new(program)
        .args(words)
        .stdin(input)
        .stdout(Stdio::null())
        .status()?;
    let taken = start.elapsed();
    if status.success() {
        Ok(taken)
    } else {
        Err(io::Error::other(format!("{} failed", program.display())))
    }
}
