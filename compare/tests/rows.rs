//! Rows: worked out by hand from their layout, and the ways to break one.

mod common;

use common::{expect, play};
use compare::board::Row;
use compare::cabinet::row::{RowFlaw, decode, encode};
use compare::rules::ProfileFlaw;
use compare::script::Replay;

/// Class 0, marks 3, 12 kVA of which 2 exempt, kinds 1 2 0 3 0 0.
const PROFILE: &str = "00 03 0078 0014 010200030000";
const NO_REGISTERS: &str = "00000000 00000000 00000000 00000000 00000000 00000000 \
                            00000000 00000000 00000000 00000000 00000000 00000000";
const ZEROS: &str = "000000000000000000";

/// The answer to a `row` line from the parts of a row.
fn row(parts: &[&str]) -> String {
    let digits = parts.concat().replace(' ', "");
    assert_eq!(digits.len(), 256);
    format!("row {digits}")
}

/// Indices after a reading, and the kWh that it left waiting: ten up to the
/// turn of a register and fifteen beyond it, 300, and 100.
const INDICES: &str = "0000000f 00000005 00000000 0000012c 00000000 00000000 \
                       0000000c 00000071 00000000 00000000 00000000 00000000";
const WAITING: &str = "00000019 00000000 00000000 0000012c 00000000 00000000 \
                       00000000 00000064 00000000 00000000 00000000 00000000";

/// An account opened and read.
fn read_account() -> Replay {
    let mut replay = Replay::default();
    let opening = "open 2 0 3 120 20 1 2 0 3 0 0 7 999990 5 0 0 0 0 12 13 0 0 0 0";
    let indices = "000f4236 00000005 00000000 00000000 00000000 00000000 \
                   0000000c 0000000d 00000000 00000000 00000000 00000000";
    let no_balance = "0000000000000000";
    let opened = row(&[
        "01",
        PROFILE,
        "0007",
        indices,
        NO_REGISTERS,
        no_balance,
        ZEROS,
    ]);
    let read = row(&["02", PROFILE, "0007", INDICES, WAITING, no_balance, ZEROS]);
    expect(
        &mut replay,
        &[
            ("board table 3", "made 3 3"),
            (opening, "done"),
            ("row 2", &opened),
            ("row 1", "vacant"),
            ("read 2 15 5 0 300 0 0 12 113 0 0 0 0", "done"),
            ("row 2", &read),
        ],
    );
    replay
}

#[test]
fn rows_with_a_balance_below_0() {
    let mut replay = read_account();
    let paid = |balance| row(&["02", PROFILE, "0007", INDICES, WAITING, balance, ZEROS]);
    let shown = "account ready 0 3 120 20 1 2 0 3 0 0 7 15 5 0 300 0 0 12 113 0 0 0 0 \
                 25 0 0 300 0 0 0 100 0 0 0 0 -1000000001";
    expect(
        &mut replay,
        &[
            ("pay 2 1", "done"),
            ("row 2", &paid("ffffffffffffffff")),
            ("pay 2 1000000000", "done"),
            ("row 2", &paid("ffffffffc46535ff")),
            ("show 2", shown),
        ],
    );
}

#[test]
fn the_row_after_a_bill() {
    let mut replay = read_account();
    for _ in 0..8 {
        play(&mut replay, "post 888131 141151 10000");
    }
    // A month at 10,000: two-rate with an exclusive night meter, of which the
    // yearly charge is 48,110 mills; 25 kWh by day at 9.912 cents, 100 by night
    // at 4.977 and 300 by exclusive night at 3.973: 400.9 + 1,937.4 cents.
    let bill = "bill 732 1 25 400 48110000000 232488000000 2338";
    let cents = "0000000000000922";
    let settled = row(&["01", PROFILE, "0008", INDICES, NO_REGISTERS, cents, ZEROS]);
    expect(
        &mut replay,
        &[("settle 2 7 decree", bill), ("row 2", &settled)],
    );
}

fn bytes(parts: &[&str]) -> Row {
    let digits = parts.concat().replace(' ', "");
    let byte = |pair: usize| u8::from_str_radix(&digits[2 * pair..2 * pair + 2], 16);
    std::array::from_fn(|pair| byte(pair).expect("two digits"))
}

/// A ready row of the largest numbers, on six used circuits.
fn largest() -> Row {
    bytes(&[
        "02 00 07 09c4 09c4 010203010203 04b0",
        &"000f423f".repeat(12),
        &"000186a0".repeat(12),
        "000000e8d4a51000",
        ZEROS,
    ])
}

/// A running row of the least numbers, on six unused circuits.
fn least() -> Row {
    bytes(&[
        "01 00 00 0001 0000 000000000000 0000",
        NO_REGISTERS,
        NO_REGISTERS,
        "ffffff172b5af000",
        ZEROS,
    ])
}

#[test]
fn rows_at_the_limits() {
    for row in [largest(), least()] {
        let account = decode(&row).expect("within the limits");
        assert_eq!(encode(&account), row);
    }
    assert_eq!(decode(&largest()).unwrap().balance, 1_000_000_000_000);
    assert_eq!(decode(&least()).unwrap().balance, -1_000_000_000_000);
}

/// A row with other bytes from a place on.
fn changed(mut row: Row, place: usize, bytes: &[u8]) -> Row {
    row[place..place + bytes.len()].copy_from_slice(bytes);
    row
}

#[test]
fn broken_rows() {
    use ProfileFlaw::{Class, Exempt, Kind, Marks, Power, ProtectedClass};
    let flaw = |row: Row| decode(&row).err();
    let profile = |flaw| Some(RowFlaw::Profile(flaw));
    for state in [0, 3, 255] {
        assert_eq!(flaw(changed(largest(), 0, &[state])), Some(RowFlaw::State));
    }
    assert_eq!(flaw(changed(least(), 1, &[2])), profile(Class));
    assert_eq!(flaw(changed(largest(), 1, &[1])), profile(ProtectedClass));
    assert_eq!(flaw(changed(largest(), 2, &[8])), profile(Marks));
    assert_eq!(flaw(changed(least(), 3, &[0, 0])), profile(Power));
    assert_eq!(flaw(changed(largest(), 3, &[9, 197])), profile(Power));
    assert_eq!(flaw(changed(least(), 5, &[0, 2])), profile(Exempt));
    for circuit in 0..6 {
        assert_eq!(flaw(changed(least(), 7 + circuit, &[4])), profile(Kind));
    }
    assert_eq!(
        flaw(changed(least(), 13, &[4, 177])),
        Some(RowFlaw::NextMonth)
    );
    for zero in 119..128 {
        assert_eq!(flaw(changed(least(), zero, &[1])), Some(RowFlaw::Zeros));
    }
    // 10^12 + 1 and its opposite, and the ends of 64 bits.
    let above = 1_000_000_000_001i64;
    for balance in [above, -above, i64::MAX, i64::MIN] {
        let row = changed(least(), 111, &balance.to_be_bytes());
        assert_eq!(flaw(row), Some(RowFlaw::Balance));
    }
    assert!(flaw([0; 128]).is_some());
    assert!(flaw([255; 128]).is_some());
}

#[test]
fn broken_registers() {
    use compare::cabinet::account::IndexFlaw;
    let flaw = |row: Row| decode(&row).err();
    for register in 0..12 {
        let index = |row: Row, bytes: [u8; 4]| changed(row, 15 + 4 * register, &bytes);
        let waiting = |row: Row, bytes: [u8; 4]| changed(row, 63 + 4 * register, &bytes);
        let too_high = index(largest(), [0, 15, 66, 64]);
        assert_eq!(flaw(too_high), Some(RowFlaw::Index(IndexFlaw::TooHigh)));
        let on_unused = index(least(), [0, 0, 0, 1]);
        assert_eq!(flaw(on_unused), Some(RowFlaw::Index(IndexFlaw::OnUnused)));
        let too_many = waiting(largest(), [0, 1, 134, 161]);
        assert_eq!(flaw(too_many), Some(RowFlaw::Waiting));
        let ready = changed(least(), 0, &[2]);
        assert_eq!(
            decode(&ready).map(|account| account.balance),
            Ok(-1_000_000_000_000)
        );
        let unused = waiting(ready, [0, 0, 0, 1]);
        assert_eq!(flaw(unused), Some(RowFlaw::WaitingOnUnused));
        let mut running = changed(largest(), 0, &[1]);
        running[63..111].fill(0);
        assert_eq!(flaw(running), None);
        let running = waiting(running, [0, 0, 0, 1]);
        assert_eq!(flaw(running), Some(RowFlaw::WaitingWhileRunning));
    }
}
