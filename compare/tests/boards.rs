//! Boards: the memory of both kinds byte by byte, and a journal's droppings.

mod common;

use common::expect;
use compare::board::{Board, Device, Figures, Journal, ROW, Row, Twin};
use compare::refusal::Cause;
use compare::script::Replay;

fn made(figures: Figures) -> Twin {
    assert_eq!(figures.check(), Ok(()));
    Twin::make(figures).expect("there is memory")
}

fn journal(capacity: u64, limit: u64, length: u64) -> Twin {
    made(Figures::Journal {
        capacity,
        limit,
        length,
    })
}

fn entries(board: &Twin) -> &Journal {
    match board.device() {
        Device::Journal(journal) => journal,
        Device::Table(_) => panic!("a journal was made"),
    }
}

/// The numbers of the entries in use, oldest first, with the first byte of
/// their rows, and none for a clearing.
fn written(board: &Twin) -> Vec<(usize, Option<u8>)> {
    let journal = entries(board);
    (0..journal.used())
        .map(|place| journal.entry_at(place))
        .map(|(number, row)| (number, row.map(|row| row[0])))
        .collect()
}

#[test]
fn slots_of_a_table() {
    let mut board = made(Figures::table(3));
    assert_eq!((board.capacity(), board.limit()), (3, 3));
    board.store(1, &[7; ROW]).unwrap();
    board.store(2, &[9; ROW]).unwrap();
    board.clear(2).unwrap();
    board.clear(0).unwrap();
    let Device::Table(table) = board.device() else {
        panic!("a table was made");
    };
    let mut memory = vec![0; 3 * 129];
    memory[129] = 1;
    memory[130..258].fill(7);
    assert_eq!(table.memory(), memory);
}

#[test]
fn entries_of_a_journal() {
    let mut board = journal(258, 2, 3 * 131 + 130);
    assert_eq!((board.capacity(), board.limit()), (258, 2));
    board.store(257, &[7; ROW]).unwrap();
    board.clear(257).unwrap();
    let mut memory = vec![0; 3 * 131 + 130];
    memory[..3].copy_from_slice(&[1, 1, 1]);
    memory[3..131].fill(7);
    memory[131..134].copy_from_slice(&[0, 1, 1]);
    assert_eq!(entries(&board).memory(), memory);
    assert_eq!(entries(&board).entries(), 3);
}

#[test]
fn a_journal_with_one_entry_to_spare() {
    let mut board = journal(5, 2, 3 * 131);
    board.store(4, &[1; ROW]).unwrap();
    board.store(0, &[2; ROW]).unwrap();
    board.store(4, &[3; ROW]).unwrap();
    assert_eq!(written(&board), [(4, Some(1)), (0, Some(2)), (4, Some(3))]);
    // Full by its rows, and this changes nothing in the memory.
    assert_eq!(board.store(1, &[9; ROW]), Err(Cause::Full.at(1)));
    assert_eq!(board.store(5, &[9; ROW]), Err(Cause::Outside.at(5)));
    assert_eq!(entries(&board).droppings(), 0);
    // The entry of 4's first row is dropped; the order of the others stays.
    board.store(0, &[4; ROW]).unwrap();
    assert_eq!(written(&board), [(0, Some(2)), (4, Some(3)), (0, Some(4))]);
    // A clearing finds room as well, and is dropped with the stale ones.
    board.clear(4).unwrap();
    assert_eq!(written(&board), [(4, Some(3)), (0, Some(4)), (4, None)]);
    board.store(1, &[5; ROW]).unwrap();
    assert_eq!(written(&board), [(0, Some(4)), (1, Some(5))]);
    assert_eq!(entries(&board).droppings(), 3);
    // Where no row stands a clearing writes nothing.
    board.clear(4).unwrap();
    assert_eq!(written(&board).len(), 2);
    assert_eq!(board.store(3, &[9; ROW]), Err(Cause::Full.at(3)));
    assert_eq!(board.read(1), Ok(Some([5; ROW])));
    assert_eq!(board.read(4), Ok(None));
}

/// The rows that a journal's memory says, entry by entry.
fn replayed(board: &Twin) -> Vec<Option<Row>> {
    let journal = entries(board);
    let mut rows = vec![None; board.capacity() as usize];
    for place in 0..journal.used() {
        let (number, row) = journal.entry_at(place);
        rows[number] = row;
    }
    rows
}

#[test]
fn a_journal_rewritten_thousands_of_times() {
    for (capacity, limit, spare) in [(1, 1, 1), (7, 1, 1), (7, 7, 1), (40, 25, 1), (40, 25, 90)] {
        let mut board = journal(capacity, limit, (limit + spare) * 131);
        let mut state = 12_345u64;
        for step in 0..4_000u64 {
            state = state
                .wrapping_mul(6_364_136_223_846_793_005)
                .wrapping_add(1);
            let number = (state >> 33) % (capacity + 1);
            let mut row = [0; ROW];
            row[..8].copy_from_slice(&step.to_be_bytes());
            // The meaning beside it is held against every answer.
            let _ = match state >> 60 {
                0..=3 => board.clear(number),
                _ => board.store(number, &row),
            };
            let rows = replayed(&board);
            let read: Vec<_> = (0..capacity).map(|n| board.read(n).unwrap()).collect();
            assert_eq!(rows, read);
            assert!(board.meaning().count() <= limit);
        }
        assert!(entries(&board).droppings() > 10);
    }
}

#[test]
fn figures_of_no_board() {
    let mut replay = Replay::default();
    // Without a length it is 129 × C, or 2^64 - 1 where that does not fit 64 bits.
    let tables = [
        ("0", "0"),
        ("4097", "528513"),
        ("142998016075267841", "18446744073709551489"),
        ("142998016075267842", "18446744073709551615"),
        ("18446744073709551615", "18446744073709551615"),
        ("2 257", "257"),
        ("0 1000", "1000"),
        ("4096 528383", "528383"),
    ];
    for (figures, length) in tables {
        let line = format!("board table {figures}");
        let answer = format!("refused 22 board {length}");
        expect(&mut replay, &[(&line, &answer)]);
    }
    let journals = [
        ("0 0", "1000"),
        ("4097 1", "1000"),
        ("2 0", "1000"),
        ("2 3", "1000"),
        ("2 2", "392"),
        ("2 2", "8585216"),
        ("2 2", "18446744073709551615"),
    ];
    for (figures, length) in journals {
        let line = format!("board journal {figures} {length}");
        let answer = format!("refused 22 board {length}");
        expect(&mut replay, &[(&line, &answer)]);
    }
    expect(&mut replay, &[("row 0", "unreadable")]);
}

#[test]
fn a_table_of_more_than_256_mib() {
    let row = format!("row {}", "07".repeat(128));
    let store = row.replace("row", "store 0");
    expect(
        &mut Replay::default(),
        &[
            ("board table 1 268435457", "no-memory"),
            ("row 0", "unreadable"),
            ("board table 1", "made 1 1"),
            (&store, "done"),
            ("board table 4096 18446744073709551615", "no-memory"),
            (
                "board table 4097 18446744073709551615",
                "refused 22 board 18446744073709551615",
            ),
            ("row 0", &row),
        ],
    );
}

#[test]
fn figures_at_their_limits() {
    expect(
        &mut Replay::default(),
        &[
            ("board table 2 258", "made 2 2"),
            ("board table 4096", "made 4096 4096"),
            ("board table 1 100000", "made 1 1"),
            ("board journal 2 2 393", "made 2 2"),
            ("board journal 4096 4096 536707", "made 4096 4096"),
            ("board journal 4096 1 8585215", "made 4096 1"),
        ],
    );
}
