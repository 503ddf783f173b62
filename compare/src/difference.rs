//! Two programs' answers to one script, held against each other.

use std::fmt;

use crate::script::read;

/// The first line that is answered differently.
#[derive(Clone, Debug, PartialEq, Eq)]
pub struct Difference<'a> {
    /// The line's number, counted from 1, and the line; none where one program
    /// says more than the script asks for.
    pub line: Option<(usize, &'a [u8])>,
    pub expected: Option<&'a [u8]>,
    pub actual: Option<&'a [u8]>,
}

/// The lines of a text; what stands behind the last line feed is one too.
fn lines(text: &[u8]) -> impl Iterator<Item = &[u8]> {
    text.split_inclusive(|byte| *byte == b'\n')
        .map(|line| line.strip_suffix(b"\n").unwrap_or(line))
}

/// Goes through a script and both programs' answers, line by line.
pub fn first_difference<'a>(
    script: &'a [u8],
    expected: &'a [u8],
    actual: &'a [u8],
) -> Option<Difference<'a>> {
    let (mut expected, mut actual) = (lines(expected), lines(actual));
    let mut next = |line| {
        let (expected, actual) = (expected.next(), actual.next());
        (expected != actual).then_some(Difference {
            line,
            expected,
            actual,
        })
    };
    let answered = lines(script)
        .enumerate()
        .filter(|(_, line)| read(line) != Ok(None));
    for (place, line) in answered {
        if let Some(difference) = next(Some((place + 1, line))) {
            return Some(difference);
        }
    }
    next(None)
}

/// So much of a long line is shown.
const SHOWN: usize = 2_000;

struct Shown<'a>(Option<&'a [u8]>);

impl fmt::Display for Shown<'_> {
    fn fmt(&self, f: &mut fmt::Formatter<'_>) -> fmt::Result {
        match self.0 {
            None => write!(f, "(no answer)"),
            Some(line) => {
                let shown = &line[..line.len().min(SHOWN)];
                write!(f, "{}", String::from_utf8_lossy(shown))?;
                if line.len() > SHOWN {
                    write!(f, " .. ({} bytes)", line.len())?;
                }
                Ok(())
            }
        }
    }
}

impl fmt::Display for Difference<'_> {
    fn fmt(&self, f: &mut fmt::Formatter<'_>) -> fmt::Result {
        match self.line {
            Some((number, line)) => writeln!(f, "line {number}: {}", Shown(Some(line)))?,
            None => writeln!(f, "behind the last line")?,
        }
        writeln!(f, "  expected: {}", Shown(self.expected))?;
        writeln!(f, "  answered: {}", Shown(self.actual))
    }
}

#[cfg(test)]
mod tests {
    use super::*;

    const SCRIPT: &[u8] = b"# a comment\nrating 1 4\n\nrating 1 5\nrating";

    #[test]
    fn the_line_of_the_first_difference() {
        let expected = b"tenths 9\ntenths 12\nunreadable\n";
        let found = |actual| first_difference(SCRIPT, expected, actual);
        assert_eq!(found(expected), None);
        let second = found(b"tenths 9\ntenths 13\nunreadable\n").unwrap();
        assert_eq!(second.line, Some((4, &b"rating 1 5"[..])));
        assert_eq!(second.actual, Some(&b"tenths 13"[..]));
        let missing = found(b"tenths 9\ntenths 12\n").unwrap();
        assert_eq!(missing.line, Some((5, &b"rating"[..])));
        assert_eq!(missing.actual, None);
        let surplus = found(b"tenths 9\ntenths 12\nunreadable\ndone\n").unwrap();
        assert_eq!((surplus.line, surplus.expected), (None, None));
    }
}
