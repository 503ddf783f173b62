//! Times the proved programs beside plain Rust, and prints a table of ratios.
//! `speed SPEED [REPLAY COMPARE SCRIPT]`: the proved program `speed`, and the proved `deskreplay` and the program `compare` with a script that both replay.

mod cabinet;
mod decree;
mod library;
mod lmdb;
mod proved;
mod sqlite;
mod work;

use proved::{Speed, whole_run};
use std::io;
use std::path::{Path, PathBuf};
use std::time::Duration;
use work::Done;

const ROUNDS: usize = 7;
const ROWS: u64 = 1_000_000;

/// The shortest of several rounds, and its check sum.
fn best(mut work: impl FnMut() -> io::Result<Done>) -> io::Result<Done> {
    let mut best = work()?;
    for _ in 1..ROUNDS {
        let (sum, taken) = work()?;
        best = (sum, taken.min(best.1));
    }
    Ok(best)
}

fn each(taken: Duration, count: u64) -> f64 {
    taken.as_nanos() as f64 / count as f64
}

/// A line of the table: the proved program's time for one, the other's, and the ratio.
fn line(name: &str, proved: Done, other: Done, count: u64) {
    let (ours, theirs) = (each(proved.1, count), each(other.1, count));
    let same = if proved.0 == other.0 {
        ""
    } else {
        "   check sums differ"
    };
    println!(
        "{name:<44} {ours:>10.1} {theirs:>10.1} {:>7.2}{same}",
        ours / theirs
    );
}

/// A line of what a work costs at several sizes.
fn growth(speed: &Speed, name: &str, words: &[&str], sizes: &[[u64; 4]]) -> io::Result<()> {
    print!("{name:<44}");
    for numbers in sizes {
        let (_, taken) = best(|| speed.work(words, numbers))?;
        print!(" {:>10.1}", each(taken, numbers[3]));
    }
    println!();
    Ok(())
}

fn beside_rust(speed: &Speed) -> io::Result<()> {
    println!(
        "{:<44} {:>10} {:>10} {:>7}",
        "nanoseconds for one", "proved", "Rust", "ratio"
    );
    let ours = best(|| speed.work(&["choose", "table"], &[1, 2, 1, 1_000]))?;
    line(
        "a plan chosen on the decree sheet",
        ours,
        best(|| Ok(work::choose(1_000)))?,
        1_000,
    );
    let ours = best(|| speed.work(&["settle", "table"], &[8, 2, 1_200, 9_600]))?;
    line(
        "a reading and its settling",
        ours,
        best(|| Ok(work::settle(8, 1_200, 9_600)))?,
        9_600,
    );
    let ours = best(|| speed.work(&["pay", "table"], &[4_096, 2, 1, ROWS]))?;
    line(
        "a payment, 4,096 accounts",
        ours,
        best(|| Ok(work::pay(4_096, 1, ROWS)))?,
        ROWS,
    );
    let ours = best(|| speed.work(&["read", "table"], &[4_096, 2, 1, ROWS]))?;
    line(
        "a reading, 4,096 accounts",
        ours,
        best(|| Ok(work::read(4_096, 1, ROWS)))?,
        ROWS,
    );
    let ours = best(|| speed.work(&["post", "table"], &[1, 2, 0, 1_200]))?;
    line("a posting", ours, best(|| Ok(work::post(0, 1_200)))?, 1_200);
    Ok(())
}

fn rows(speed: &Speed) -> io::Result<()> {
    println!(
        "\n{:<44} {:>10} {:>10} {:>7}",
        "a row of 4,096, nanoseconds", "proved", "array", "ratio"
    );
    let (load, store) = (
        best(|| Ok(work::load(4_096, ROWS)))?,
        best(|| Ok(work::store(4_096, ROWS)))?,
    );
    let table = [4_096, 2, 1, ROWS];
    line(
        "read from a table board",
        best(|| speed.work(&["load", "table"], &table))?,
        load,
        ROWS,
    );
    let table_store = best(|| speed.work(&["store", "table"], &table))?;
    line("stored on a table board", table_store, store, ROWS);
    for (name, entries) in [
        ("E = 2 L", 8_192),
        ("E = 4 L", 16_384),
        ("E = 15 L", 61_440),
    ] {
        let numbers = [4_096, entries, 1, ROWS];
        let read = best(|| speed.work(&["load", "journal"], &numbers))?;
        line(
            &format!("read from a journal board, {name}"),
            read,
            load,
            ROWS,
        );
        let stored = best(|| speed.work(&["store", "journal"], &numbers))?;
        line(
            &format!("stored on a journal board, {name}"),
            stored,
            store,
            ROWS,
        );
        println!(
            "{:<44} {:>29.2}",
            "  the same beside the table board",
            each(stored.1, 1) / each(table_store.1, 1)
        );
    }
    databases()
}

fn databases() -> io::Result<()> {
    const COUNT: u64 = 200_000;
    println!("\n{:<44} {:>10}", "a row of 4,096, nanoseconds", "for one");
    let found = [
        ("SQLite in memory, read", sqlite::load(4_096, COUNT)),
        ("SQLite in memory, stored", sqlite::store(4_096, COUNT)),
        ("LMDB, read", lmdb::load(4_096, COUNT)),
        ("LMDB, stored", lmdb::store(4_096, COUNT)),
    ];
    for (name, done) in found {
        match done {
            Some((_, taken)) => println!("{name:<44} {:>10.1}", each(taken, COUNT)),
            None => println!("{name:<44} {:>10}", "not there"),
        }
    }
    Ok(())
}

fn growths(speed: &Speed) -> io::Result<()> {
    println!(
        "\n{:<44} {:>10} {:>10} {:>10}",
        "by accounts, nanoseconds", 1, 64, 4_096
    );
    let by_accounts = |count| {
        [
            [1, 2, 12, count],
            [64, 65, 12, count],
            [4_096, 4_097, 12, count],
        ]
    };
    for work in ["pay", "read"] {
        growth(
            speed,
            &format!("{work}, table board"),
            &[work, "table"],
            &by_accounts(90_000),
        )?;
    }
    let journals = [
        [1, 2, 12, 90_000],
        [64, 128, 12, 90_000],
        [4_096, 8_192, 12, 90_000],
    ];
    growth(
        speed,
        "pay, journal board, E = 2 L",
        &["pay", "journal"],
        &journals,
    )?;
    println!(
        "\n{:<44} {:>10} {:>10} {:>10}",
        "by months posted, nanoseconds", 1, 100, 1_100
    );
    let by_months = [[1, 2, 1, 100], [1, 2, 100, 100], [1, 2, 1_100, 100]];
    for work in ["post", "pay", "read"] {
        growth(
            speed,
            &format!("{work}, table board"),
            &[work, "table"],
            &by_months,
        )?;
    }
    println!(
        "\n{:<44} {:>10} {:>10} {:>10}",
        "by entries of a journal, nanoseconds", "L + 1", "2 L", "16 L"
    );
    let by_entries = [
        [1_024, 1_025, 1, 20_000],
        [1_024, 2_048, 1, 200_000],
        [1_024, 16_384, 1, 200_000],
    ];
    growth(
        speed,
        "a row stored, L = 1,024",
        &["store", "journal"],
        &by_entries,
    )?;
    growth(
        speed,
        "a row read, L = 1,024",
        &["load", "journal"],
        &by_entries,
    )?;
    growth(speed, "pay, L = 1,024", &["pay", "journal"], &by_entries)
}

fn replays(replay: &Path, compare: &Path, script: &Path) -> io::Result<()> {
    let lines = std::fs::read(script)?
        .iter()
        .filter(|&&byte| byte == b'\n')
        .count() as u64;
    let ours = best(|| Ok((0, whole_run(replay, &[], script)?)))?;
    let theirs = best(|| Ok((0, whole_run(compare, &["answers"], script)?)))?;
    println!(
        "\n{:<44} {:>10} {:>10} {:>7}",
        "a script of calls, nanoseconds a line", "proved", "Rust", "ratio"
    );
    line(&format!("{lines} lines replayed"), ours, theirs, lines);
    Ok(())
}

fn main() -> io::Result<()> {
    let words: Vec<PathBuf> = std::env::args_os().skip(1).map(PathBuf::from).collect();
    let [speed, rest @ ..] = words.as_slice() else {
        eprintln!("usage: speed SPEED [REPLAY COMPARE SCRIPT]");
        return Ok(());
    };
    let speed = Speed(speed.clone());
    beside_rust(&speed)?;
    rows(&speed)?;
    growths(&speed)?;
    match rest {
        [replay, compare, script] => replays(replay, compare, script),
        _ => Ok(()),
    }
}
