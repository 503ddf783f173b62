//! A script played line by line.

use compare::script::Replay;

/// The answer to each line, empty for a blank or a comment.
pub fn play(replay: &mut Replay, line: &str) -> String {
    replay
        .line(line.as_bytes())
        .map(|answer| answer.to_string())
        .unwrap_or_default()
}

/// Plays lines and holds their answers against the expected ones.
pub fn expect(replay: &mut Replay, lines: &[(&str, &str)]) {
    for (line, answer) in lines {
        assert_eq!(play(replay, line), *answer, "{line}");
    }
}
