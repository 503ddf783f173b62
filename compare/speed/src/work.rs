//! The same work as the proved program `speed` does, in plain Rust. Each gives its check sum and the time it took.

use crate::cabinet::{Cabinet, ROW};
use crate::decree::Facts;
use std::hint::black_box;
use std::time::{Duration, Instant};

/// A check sum and the time that the work took.
pub type Done = (u64, Duration);

fn timed(work: impl FnOnce() -> u64) -> Done {
    let start = Instant::now();
    let sum = work();
    (sum, start.elapsed())
}

fn usage(i: u64) -> Facts {
    let turn = i % 1_000;
    Facts {
        marks: 3,
        power: 100 + turn % 300,
        exempt: 0,
        kinds: [1, 2, 3, 2, 3, 1],
        day: [2_000 + turn, 0, 300, 0, 400, 50],
        night: [1_500, 800 + turn, 200, 900, 100, 60],
        months: 12,
        se: 120_000,
        sc: 118_000,
    }
}

pub fn choose(count: u64) -> Done {
    timed(|| {
        (0..count)
            .filter_map(|i| black_box(usage(i)).choose())
            .map(|choice| choice.code + choice.cents)
            .sum()
    })
}

/// The next number of a sequence that jumps about.
pub fn jump(number: u64) -> u64 {
    number
        .wrapping_mul(6_364_136_223_846_793_005)
        .wrapping_add(1_442_695_040_888_963_407)
}

pub fn below(number: u64, count: u64) -> u64 {
    (number >> 33) % count
}

/// A row with another first byte for each number.
pub fn row_of(number: u64) -> [u8; ROW] {
    let mut row = [9; ROW];
    row[0] = number as u8;
    row
}

/// Rows copied out of a bare array.
pub fn load(accounts: u64, count: u64) -> Done {
    let rows: Vec<[u8; ROW]> = black_box((0..accounts).map(row_of).collect());
    timed(|| {
        let mut place = [0; ROW];
        let mut at = 1;
        let mut sum = 0;
        for _ in 0..count {
            at = jump(at);
            place.copy_from_slice(&rows[below(at, accounts) as usize]);
            sum += u64::from(black_box(&place)[(at & 127) as usize]);
        }
        sum
    })
}

/// Rows copied into a bare array.
pub fn store(accounts: u64, count: u64) -> Done {
    let mut rows: Vec<[u8; ROW]> = (0..accounts).map(row_of).collect();
    let done = timed(|| {
        let mut row = [7; ROW];
        let mut at = 1;
        for i in 0..count {
            at = jump(at);
            row[0] = i as u8;
            rows[below(at, accounts) as usize].copy_from_slice(black_box(&row));
        }
        count
    });
    black_box(&rows);
    done
}

/// The accounts go round, and each round is counted.
fn turns(accounts: u64, count: u64) -> impl Iterator<Item = (usize, u64)> {
    (0..count).map(move |i| ((i % accounts) as usize, i / accounts))
}

fn indices(reading: u64) -> [u64; 12] {
    let i = reading % 1_000_000;
    [i, i, 0, i, i, i, 0, i, 0, 0, i, 0]
}

fn post_all(cabinet: &mut Cabinet, count: u64) -> u64 {
    (0..count)
        .filter_map(|i| cabinet.post(888_131 + i % 1_000, 141_151, 10_000).ok())
        .map(|(_, ne)| ne)
        .sum()
}

/// A cabinet with so many accounts open and so many months posted.
pub fn cabinet(accounts: u64, months: u64) -> Cabinet {
    let mut cabinet = Cabinet::new(accounts as usize);
    post_all(&mut cabinet, months);
    for number in 0..accounts {
        cabinet.open(number as usize);
    }
    black_box(cabinet)
}

pub fn post(months: u64, count: u64) -> Done {
    let mut cabinet = cabinet(1, months);
    timed(|| post_all(&mut cabinet, count))
}

pub fn read(accounts: u64, months: u64, count: u64) -> Done {
    let mut cabinet = cabinet(accounts, months);
    timed(|| {
        turns(accounts, count)
            .filter(|&(number, round)| cabinet.read(number, &indices(round)).is_ok())
            .count() as u64
    })
}

pub fn settle(accounts: u64, months: u64, count: u64) -> Done {
    let mut cabinet = cabinet(accounts, months);
    timed(|| {
        turns(accounts, count)
            .filter_map(|(number, round)| {
                cabinet.read(number, &indices(round * 100)).ok()?;
                cabinet.settle(number, round).ok()
            })
            .sum()
    })
}

pub fn pay(accounts: u64, months: u64, count: u64) -> Done {
    let mut cabinet = cabinet(accounts, months);
    timed(|| {
        turns(accounts, count)
            .filter(|&(number, _)| cabinet.pay(number, 1).is_ok())
            .count() as u64
    })
}
