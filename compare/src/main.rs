//! `compare`: answers scripts, writes random ones, and counts what they reach.

use std::fs;
use std::io::{self, BufRead, BufWriter, Write};
use std::process::ExitCode;

use compare::coverage::Coverage;
use compare::difference::first_difference;
use compare::samples::{self, Part, Set};
use compare::script::Replay;

const USAGE: &str = "\
compare answers < SCRIPT
    the answers to a script
compare samples SEED PART LINES ..
    a random script with so many lines about each part;
    a part is pricing, table, journal or both
compare set prices|everything
    the random script that the program `desksamples` is held against
compare coverage < SCRIPT
    what a script reaches, and how often
compare difference SCRIPT EXPECTED ANSWERED
    the first line that two programs answer differently; all three are files
";

fn main() -> ExitCode {
    let words: Vec<String> = std::env::args().skip(1).collect();
    let words: Vec<&str> = words.iter().map(String::as_str).collect();
    match run(&words) {
        Ok(Some(status)) => status,
        Ok(None) => {
            eprint!("{USAGE}");
            ExitCode::from(2)
        }
        Err(error) if error.kind() == io::ErrorKind::BrokenPipe => ExitCode::SUCCESS,
        Err(error) => {
            eprintln!("compare: {error}");
            ExitCode::from(2)
        }
    }
}

/// None where the words are no command.
fn run(words: &[&str]) -> io::Result<Option<ExitCode>> {
    match words {
        ["answers"] => answers()?,
        ["samples", seed, parts @ ..] => match (seed.parse(), parts_of(parts)) {
            (Ok(seed), Some(parts)) => put(&samples::script(seed, &parts))?,
            _ => return Ok(None),
        },
        ["set", name] => match name.parse::<Set>() {
            Ok(set) => put(&set.script())?,
            Err(()) => return Ok(None),
        },
        ["coverage"] => coverage()?,
        ["difference", script, expected, actual] => {
            return difference(script, expected, actual).map(Some);
        }
        _ => return Ok(None),
    }
    Ok(Some(ExitCode::SUCCESS))
}

/// Each part with its lines; at least one.
fn parts_of(words: &[&str]) -> Option<Vec<(Part, usize)>> {
    let pair = |pair: &[&str]| match pair {
        [part, lines] => Some((part.parse().ok()?, lines.parse().ok()?)),
        _ => None,
    };
    let parts: Vec<(Part, usize)> = words.chunks(2).map(pair).collect::<Option<_>>()?;
    (!parts.is_empty()).then_some(parts)
}

fn put(text: &[u8]) -> io::Result<()> {
    let mut out = io::stdout().lock();
    out.write_all(text)?;
    out.flush()
}

fn answers() -> io::Result<()> {
    let mut out = BufWriter::new(io::stdout().lock());
    let mut replay = Replay::default();
    for line in io::stdin().lock().split(b'\n') {
        if let Some(answer) = replay.line(&line?) {
            writeln!(out, "{answer}")?;
        }
    }
    out.flush()
}

fn coverage() -> io::Result<()> {
    let mut coverage = Coverage::of_everything();
    for line in io::stdin().lock().split(b'\n') {
        coverage.line(&line?);
    }
    put(coverage.to_string().as_bytes())
}

/// 1 where there is a difference.
fn difference(script: &str, expected: &str, actual: &str) -> io::Result<ExitCode> {
    let (script, expected, actual) = (fs::read(script)?, fs::read(expected)?, fs::read(actual)?);
    match first_difference(&script, &expected, &actual) {
        None => Ok(ExitCode::SUCCESS),
        Some(difference) => {
            put(difference.to_string().as_bytes())?;
            Ok(ExitCode::FAILURE)
        }
    }
}
