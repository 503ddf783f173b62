//! What holds after every line of a random script.

use compare::board::{Board, Meaning};
use compare::cabinet::row::{decode, encode};
use compare::samples::{Part, script};
use compare::script::{Answer, Replay};

/// The rows and the month due.
fn standing(replay: &Replay) -> (Option<Meaning>, Option<u64>) {
    let rows = replay.bench.board().map(|board| board.meaning().clone());
    let cabinet = replay.bench.cabinet();
    (rows, cabinet.map(|cabinet| cabinet.months().due()))
}

fn played(part: Part, mut after: impl FnMut(&mut Replay, &[u8])) {
    let text = script(11, &[(part, 6_000)]);
    let mut replay = Replay::default();
    for line in text.split(|byte| *byte == b'\n') {
        after(&mut replay, line);
    }
}

#[test]
fn the_books_agree_with_the_rows() {
    for part in [Part::Table, Part::Journal] {
        let mut bills = 0;
        played(part, |replay, line| {
            let answer = replay.line(line);
            bills += u64::from(matches!(answer, Some(Answer::Bill(_))));
            if let Some(cabinet) = replay.bench.cabinet() {
                assert!(cabinet.books_agree(), "{}", line.escape_ascii());
            }
        });
        assert!(bills > 200);
    }
}

#[test]
fn a_refusal_moves_nothing() {
    for part in [Part::Table, Part::Journal] {
        played(part, |replay, line| {
            let (rows, due) = standing(replay);
            let house = replay.house.clone();
            let answer = replay.line(line);
            if let None | Some(Answer::Refused(_) | Answer::Unreadable(_)) = answer {
                let (rows_after, due_after) = standing(replay);
                // A refused call may still have made the cabinet.
                assert_eq!(rows, rows_after, "{}", line.escape_ascii());
                assert_eq!(due.unwrap_or(0), due_after.unwrap_or(0));
                assert_eq!(house, replay.house);
            }
        });
    }
}

#[test]
fn each_row_is_one_accounts() {
    for part in [Part::Table, Part::Journal] {
        let mut broken = 0;
        played(part, |replay, line| {
            replay.line(line);
            let Some(board) = replay.bench.board() else {
                return;
            };
            for number in board.meaning().numbers() {
                let row = board.read(number).ok().flatten();
                let row = row.expect("a row stands at its number");
                match decode(&row) {
                    Ok(account) => assert_eq!(encode(&account), row),
                    Err(_) => broken += 1,
                }
            }
        });
        assert!(broken > 0);
    }
}
