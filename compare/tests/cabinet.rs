//! The seven calls: known bills, the order of refusals, and when lines are taken.

mod common;

use common::{expect, play};
use compare::script::Replay;

/// General circuits 0 and 1, the others unused, first month 0.
const PROFILE: &str = "0 1 100 0 1 1 0 0 0 0 0";
const AT_0: &str = "0 0 0 0 0 0 0 0 0 0 0 0";

/// A table of four numbers and an account at 0, with so many months at 10,000.
fn cabinet(months: usize) -> Replay {
    let mut replay = Replay::default();
    let opening = format!("open 0 {PROFILE} {AT_0}");
    expect(
        &mut replay,
        &[("board table 4", "made 4 4"), (&opening, "done")],
    );
    for month in 0..months {
        let posted = format!("posted {month} 10000");
        expect(&mut replay, &[("post 888131 141151 10000", &posted)]);
    }
    replay
}

#[test]
fn a_year_of_bills() {
    let mut replay = cabinet(24);
    expect(
        &mut replay,
        &[
            ("settle 0 11 decree", "refused 10 ledger 0"),
            ("read 0 2000 1500 0 0 0 0 0 0 0 0 0 0", "done"),
            (
                "settle 0 11 decree",
                "bill 729 12 2000 1500 5143680000000 39296880000000 30861",
            ),
            ("settle 0 12 decree", "refused 10 ledger 0"),
            ("read 0 4000 2026 0 0 0 0 0 0 0 0 0 0", "done"),
            (
                "settle 0 23 decree",
                "bill 0 12 2000 526 1399680000000 36054305280000 26010",
            ),
            ("pay 0 30000", "done"),
            ("close 0", "refused 16 ledger 0"),
            (
                "show 0",
                "account running 0 1 100 0 1 1 0 0 0 0 24 4000 2026 0 0 0 0 0 0 0 0 0 0 \
                 0 0 0 0 0 0 0 0 0 0 0 0 26871",
            ),
            ("pay 0 26871", "done"),
            ("close 0", "done"),
            ("show 0", "vacant"),
            ("row 0", "vacant"),
        ],
    );
    assert!(replay.bench.cabinet().unwrap().books_agree());
}

/// A reading of register 0 alone.
fn reading(number: u64, index: u64) -> String {
    format!("read {number} {index} 0 0 0 0 0 0 0 0 0 0 0")
}

/// A line of 10,000 mills a year and 100 for each tenth, from 101 tenths on,
/// with kWh at 6 cents by day and 3 by night.
fn house() -> String {
    let fields = "010012 00002710 0064 0000 0065 1388 03e8 07d0 03e8 7f0000";
    format!("house {}", fields.replace(' ', ""))
}

#[test]
fn a_sheet_that_permits_no_plan() {
    expect(
        &mut cabinet(4),
        &[
            (&reading(0, 100), "done"),
            // No line; then none for a power of 100.
            ("settle 0 0 house", "refused 13 cabinet 0"),
            ("settle 0 0 protected-house", "refused 13 cabinet 0"),
            (&house(), "lines 1"),
            ("settle 0 0 house", "refused 13 cabinet 0"),
            // 81 cents and 100 kWh at 9.912.
            (
                "settle 0 0 protected-decree",
                "bill 0 1 100 0 9720000000 118944000000 1072",
            ),
        ],
    );
}

#[test]
fn all_sheets_settle() {
    let mut replay = cabinet(4);
    let opening = format!("open 1 0 4 101 0 1 0 0 0 0 0 0 {AT_0}");
    expect(
        &mut replay,
        &[
            (&opening, "done"),
            (&house(), "lines 1"),
            (&reading(1, 100), "done"),
            // (10,000 + 100 × 101) mills a year, and 100 kWh at 6 cents.
            (
                "settle 1 0 house",
                "bill 0 1 100 0 20100000000 72000000000 767",
            ),
            (&reading(1, 601), "done"),
            // 350 mills × 1 tenth a year, and one kWh at 9.912: 2.9 + 9.9 cents.
            (
                "settle 1 1 protected-house",
                "bill 1 1 501 0 350000000 1189440000 13",
            ),
            (&reading(1, 1_101), "done"),
            ("settle 1 2 protected-decree", "bill 4374 1 500 0 0 0 0"),
            (&reading(1, 1_101), "done"),
            ("settle 1 3 decree", "bill 0 1 0 0 10070000000 0 84"),
        ],
    );
    assert!(replay.bench.cabinet().unwrap().books_agree());
}

#[test]
fn registers_turn_over() {
    let mut replay = Replay::default();
    let shown = |indices: &str, waiting: &str| {
        format!("account ready 0 1 100 0 1 1 0 0 0 0 0 {indices} {waiting} 0")
    };
    let opening = format!("open 3 {PROFILE} 999990 999999 0 0 0 0 0 0 0 0 0 0");
    expect(
        &mut replay,
        &[
            ("board journal 9 1 262", "made 9 1"),
            (&opening, "done"),
            ("read 3 15 999999 0 0 0 0 0 0 0 0 0 0", "done"),
            (
                "show 3",
                &shown("15 999999 0 0 0 0 0 0 0 0 0 0", "25 0 0 0 0 0 0 0 0 0 0 0"),
            ),
            // One lower is a whole round less one.
            ("read 3 14 999999 0 0 0 0 0 0 0 0 0 0", "refused 9 ledger 3"),
            // 99,975 more on register 0, 100,000 on register 1.
            ("read 3 99990 99999 0 0 0 0 0 0 0 0 0 0", "done"),
            (
                "show 3",
                &shown(
                    "99990 99999 0 0 0 0 0 0 0 0 0 0",
                    "100000 100000 0 0 0 0 0 0 0 0 0 0",
                ),
            ),
            (
                "read 3 99991 99999 0 0 0 0 0 0 0 0 0 0",
                "refused 9 ledger 3",
            ),
            (
                "read 3 99990 99999 100001 0 0 0 0 0 0 0 0 0",
                "refused 9 ledger 3",
            ),
            ("read 3 99990 99999 100000 0 0 0 0 0 0 0 0 0", "done"),
        ],
    );
    assert!(replay.bench.cabinet().unwrap().books_agree());
}

#[test]
fn checks_of_an_opening() {
    let mut replay = Replay::default();
    let open =
        |number: &str, profile: &str, indices: &str| format!("open {number} {profile} {indices}");
    let bad = "2 8 0 1 9 0 0 0 0 0 1200";
    let high = "1000000 0 0 0 0 0 0 0 0 0 0 0";
    let unused = "0 0 0 0 0 0 0 1 0 0 0 0";
    let broken = format!("store 3 {}", "00".repeat(128));
    expect(
        &mut replay,
        &[
            ("board journal 5 2 393", "made 5 2"),
            (&broken, "done"),
            (&open("5", bad, high), "refused 3 board 5"),
            (&open("3", PROFILE, AT_0), "refused 17 ledger 3"),
            (&open("3", bad, high), "refused 17 ledger 3"),
            (&open("1", bad, high), "refused 5 ledger 1"),
            (&open("1", PROFILE, high), "refused 5 ledger 1"),
            (&open("1", PROFILE, unused), "refused 5 ledger 1"),
            (
                &open("1", "0 1 100 0 1 1 0 0 0 0 1200", AT_0),
                "refused 5 ledger 1",
            ),
            (&open("1", "0 1 100 0 1 1 0 0 0 0 1199", AT_0), "done"),
            (&open("1", bad, high), "refused 4 ledger 1"),
            (&open("0", bad, high), "refused 5 ledger 0"),
            (&open("0", PROFILE, AT_0), "refused 6 board 0"),
            ("row 0", "vacant"),
            ("close 1", "done"),
            (&open("0", PROFILE, AT_0), "done"),
        ],
    );
}

#[test]
fn checks_of_a_reading() {
    let mut replay = cabinet(0);
    // Register 11 cannot show it; register 0 counted too many.
    let both = "200000 0 0 0 0 0 0 0 0 0 0 1";
    expect(
        &mut replay,
        &[
            (&format!("read 4 {both}"), "refused 3 board 4"),
            (&format!("read 1 {both}"), "refused 7 ledger 1"),
            (&format!("read 0 {both}"), "refused 8 ledger 0"),
            ("read 0 200000 0 0 0 0 0 0 0 0 0 0 0", "refused 9 ledger 0"),
            ("read 0 0 1000000 0 0 0 0 0 0 0 0 0 0", "refused 8 ledger 0"),
            (
                "read 18446744073709551615 0 0 0 0 0 0 0 0 0 0 0 0",
                "refused 3 board 18446744073709551615",
            ),
        ],
    );
}

#[test]
fn checks_of_a_settlement() {
    let mut replay = cabinet(14);
    expect(
        &mut replay,
        &[
            ("settle 4 99 house", "refused 3 board 4"),
            ("settle 1 99 house", "refused 7 ledger 1"),
            ("settle 0 99 house", "refused 10 ledger 0"),
            (&format!("read 0 {AT_0}"), "done"),
            ("settle 0 99 house", "refused 11 ledger 0"),
            ("settle 0 12 decree", "refused 11 ledger 0"),
            (
                "settle 0 18446744073709551615 decree",
                "refused 11 ledger 0",
            ),
            ("settle 0 4 house", "refused 13 cabinet 0"),
            // No kWh: 9,720 mills a year for five months.
            ("settle 0 4 decree", "bill 0 5 0 0 243000000000 0 405"),
            (&format!("read 0 {AT_0}"), "done"),
            ("settle 0 4 decree", "refused 11 ledger 0"),
            ("settle 0 14 house", "refused 12 cabinet 0"),
            ("settle 0 16 decree", "refused 12 cabinet 0"),
            ("settle 0 17 decree", "refused 11 ledger 0"),
            ("settle 0 13 decree", "bill 0 9 0 0 787320000000 0 729"),
        ],
    );
}

#[test]
fn checks_of_payments_and_closings() {
    let mut replay = cabinet(0);
    expect(
        &mut replay,
        &[
            ("pay 9 0", "refused 3 board 9"),
            ("pay 1 0", "refused 7 ledger 1"),
            ("pay 0 0", "refused 14 ledger 0"),
            ("pay 0 1000000001", "refused 14 ledger 0"),
            ("pay 0 18446744073709551615", "refused 14 ledger 0"),
            ("close 0", "done"),
            ("close 0", "refused 7 ledger 0"),
            ("close 4", "refused 3 board 4"),
            ("show 4", "refused 3 board 4"),
            (&format!("open 0 {PROFILE} {AT_0}"), "done"),
            (&format!("read 0 {AT_0}"), "done"),
            ("close 0", "refused 16 ledger 0"),
        ],
    );
}

/// A `store` line of an account without circuits, with this balance.
fn store(number: u64, state: u8, next_month: u16, balance: i64) -> String {
    let head = format!(
        "{state:02x}0000{:04x}{:04x}{}{next_month:04x}",
        1,
        0,
        "00".repeat(6)
    );
    let row = format!("{head}{}{balance:016x}{}", "00".repeat(96), "00".repeat(9));
    format!("store {number} {row}")
}

#[test]
fn balances_at_their_limits() {
    let mut replay = Replay::default();
    let most = 1_000_000_000_000;
    expect(
        &mut replay,
        &[
            ("board table 4", "made 4 4"),
            (&store(0, 1, 0, 5 - most), "done"),
            (&store(1, 2, 0, most - 81), "done"),
            (&store(2, 2, 0, most - 80), "done"),
            (&store(3, 2, 1_200, 0), "done"),
            ("pay 0 1000000001", "refused 14 ledger 0"),
            ("pay 0 6", "refused 15 ledger 0"),
            ("pay 0 5", "done"),
            ("pay 0 1", "refused 15 ledger 0"),
            ("post 888131 141151 0", "posted 0 10000"),
            ("settle 2 0 decree", "refused 15 ledger 2"),
            ("settle 1 0 decree", "bill 0 1 0 0 9720000000 0 81"),
            ("pay 2 1", "done"),
            ("settle 2 0 decree", "bill 0 1 0 0 9720000000 0 81"),
            ("pay 2 1000000000", "done"),
            // The last month is 1,199: this one can be read and never settled.
            (&format!("read 3 {AT_0}"), "done"),
            ("settle 3 1199 decree", "refused 11 ledger 3"),
            ("settle 3 1200 decree", "refused 12 cabinet 3"),
            ("settle 3 1211 decree", "refused 12 cabinet 3"),
            ("settle 3 1212 decree", "refused 11 ledger 3"),
        ],
    );
    let balance = |number: u64, replay: &mut Replay| {
        let shown = play(replay, &format!("show {number}"));
        shown.rsplit(' ').next().map(str::to_string)
    };
    assert_eq!(balance(0, &mut replay).as_deref(), Some("-1000000000000"));
    assert_eq!(balance(1, &mut replay).as_deref(), Some("1000000000000"));
    assert_eq!(balance(2, &mut replay).as_deref(), Some("999000000000"));
    assert!(replay.bench.cabinet().unwrap().books_agree());
}

#[test]
fn a_credit_closes_when_bills_use_it_up() {
    let mut replay = cabinet(2);
    expect(
        &mut replay,
        &[
            ("pay 0 81", "done"),
            ("close 0", "refused 16 ledger 0"),
            (&format!("read 0 {AT_0}"), "done"),
            ("settle 0 0 decree", "bill 0 1 0 0 9720000000 0 81"),
            ("close 0", "done"),
        ],
    );
}

#[test]
fn twelve_hundred_months() {
    let mut replay = cabinet(1_200);
    expect(
        &mut replay,
        &[
            ("post 888131 141151 10000", "refused 1 cabinet 1200"),
            ("post 0 0 100000", "refused 1 cabinet 1200"),
        ],
    );
    let mut replay = cabinet(3);
    for line in [
        "post 0 1 0",
        "post 1 0 0",
        "post 10000000 1 0",
        "post 1 10000000 0",
    ] {
        assert_eq!(play(&mut replay, line), "refused 2 cabinet 3");
    }
    expect(
        &mut replay,
        &[
            ("post 1 1 100000", "refused 2 cabinet 3"),
            ("post 1 9999999 0", "refused 2 cabinet 3"),
            ("post 1 1 99999", "posted 3 4250"),
            ("post 892572 141151 0", "posted 4 10019"),
        ],
    );
}

#[test]
fn a_broken_row_stays() {
    let mut replay = Replay::default();
    let digits = "ab".repeat(128);
    let broken = |call: &str| format!("{call} 1 {digits}").replace("row 1", "row");
    expect(
        &mut replay,
        &[
            ("board table 2", "made 2 2"),
            (&broken("store"), "done"),
            ("row 1", &broken("row")),
            ("show 1", "refused 17 ledger 1"),
            ("pay 1 0", "refused 17 ledger 1"),
            ("close 1", "refused 17 ledger 1"),
            ("settle 1 99 house", "refused 17 ledger 1"),
            (
                "read 1 1000000 0 0 0 0 0 0 0 0 0 0 0",
                "refused 17 ledger 1",
            ),
            ("row 1", &broken("row")),
        ],
    );
}

#[test]
fn when_lines_are_taken() {
    let mut replay = Replay::default();
    let row = store(0, 1, 0, 0);
    for line in [
        &row[..],
        "clear 0",
        "row 0",
        "post 1 1 0",
        "show 0",
        "close 0",
        "pay 0 1",
    ] {
        assert_eq!(play(&mut replay, line), "unreadable");
    }
    let stored = row.replace("store 0", "row");
    expect(
        &mut replay,
        &[
            ("board table 2", "made 2 2"),
            (&row, "done"),
            ("clear 2", "refused 3 board 2"),
            ("row 2", "refused 3 board 2"),
            (&row.replace("store 0", "store 2"), "refused 3 board 2"),
            ("row 0", &stored),
            ("clear 1", "done"),
            // A line of no form makes no cabinet, and a refused board leaves all.
            ("post 1 1", "unreadable"),
            ("board table 0", "refused 22 board 0"),
            (&row.replace("store 0", "store 1"), "done"),
            ("clear 1", "done"),
            ("pay 1 0", "refused 7 ledger 1"),
            (&row, "unreadable"),
            ("clear 0", "unreadable"),
            ("post 1 1 0", "posted 0 4250"),
            ("board journal 1 1 1", "refused 22 board 1"),
            ("post 1 1 0", "posted 1 4250"),
            ("row 0", &stored),
            ("board journal 2 1 262", "made 2 1"),
            ("row 0", "vacant"),
            (&row, "done"),
            (&row.replace("store 0", "store 1"), "refused 6 board 1"),
            ("post 1 1 0", "posted 0 4250"),
        ],
    );
}

#[test]
fn forms_of_cabinet_lines() {
    let mut replay = cabinet(1);
    let digits = "00".repeat(128);
    for line in [
        "board".to_string(),
        "board table".to_string(),
        "board Table 1".to_string(),
        "board table 1 129 1".to_string(),
        "board journal 1 1".to_string(),
        "board journal 1 1 262 1".to_string(),
        "board table -1".to_string(),
        "post 1 1".to_string(),
        "post 1 1 1 1".to_string(),
        "post 1 1 000000000000000000001".to_string(),
        "settle 0 0".to_string(),
        "settle 0 0 Decree".to_string(),
        "settle 0 decree".to_string(),
        "pay 0 18446744073709551616".to_string(),
        "pay 0 -1".to_string(),
        "close".to_string(),
        "show 0 0".to_string(),
        "row".to_string(),
        format!("read 0 {AT_0} 0"),
        "read 0 0 0 0 0 0 0 0 0 0 0 0".to_string(),
        format!("open 0 {PROFILE} 0 0 0 0 0 0 0 0 0 0 0"),
    ] {
        assert_eq!(play(&mut replay, &line), "unreadable", "{line}");
    }
    expect(&mut replay, &[("board table 1", "made 1 1")]);
    for row in [
        &digits[2..],
        &digits[1..],
        &format!("{digits}00"),
        "-",
        &digits.replacen('0', "g", 1),
    ] {
        assert_eq!(play(&mut replay, &format!("store 0 {row}")), "unreadable");
    }
    assert_eq!(play(&mut replay, &format!("store 0 {digits}")), "done");
}
