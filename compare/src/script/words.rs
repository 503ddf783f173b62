//! The words of a line: numbers, bytes and names.

use super::{SheetName, Unreadable};

/// The words of a line, parted by spaces or tabs.
pub fn words(line: &[u8]) -> impl Iterator<Item = &[u8]> {
    line.split(|byte| matches!(byte, b' ' | b'\t'))
        .filter(|word| !word.is_empty())
}

pub(super) fn exactly<'a, const N: usize>(words: &[&'a [u8]]) -> Result<[&'a [u8]; N], Unreadable> {
    words.try_into().map_err(|_| {
        if words.len() < N {
            Unreadable::MissingWord
        } else {
            Unreadable::SurplusWord
        }
    })
}

/// 1 to 20 decimal digits that fit 64 bits.
pub(super) fn number(word: &[u8]) -> Result<u64, Unreadable> {
    if !word.iter().all(u8::is_ascii_digit) {
        return Err(Unreadable::NotDigits);
    }
    if word.len() > 20 {
        return Err(Unreadable::TooManyDigits);
    }
    let value = word
        .iter()
        .fold(0u128, |value, digit| 10 * value + u128::from(digit - b'0'));
    u64::try_from(value).map_err(|_| Unreadable::DoesNotFit)
}

/// Exactly so many numbers.
pub(super) fn numbers<const N: usize>(words: &[&[u8]]) -> Result<[u64; N], Unreadable> {
    let words: [&[u8]; N] = exactly(words)?;
    let mut numbers = [0; N];
    for (value, word) in numbers.iter_mut().zip(words) {
        *value = number(word)?;
    }
    Ok(numbers)
}

pub(super) fn sheet(word: &[u8]) -> Result<SheetName, Unreadable> {
    SheetName::ALL
        .into_iter()
        .find(|name| name.word().as_bytes() == word)
        .ok_or(Unreadable::UnknownSheet)
}

/// Two digits a byte, of either case; `-` for no bytes.
pub(super) fn bytes(word: &[u8]) -> Result<Vec<u8>, Unreadable> {
    if word == b"-" {
        return Ok(Vec::new());
    }
    let digits: Option<Vec<u8>> = word.iter().copied().map(hex_digit).collect();
    let digits = digits.ok_or(Unreadable::NotHex)?;
    if digits.len() % 2 == 1 {
        return Err(Unreadable::OddHex);
    }
    Ok(digits
        .chunks(2)
        .map(|pair| 16 * pair[0] + pair[1])
        .collect())
}

fn hex_digit(byte: u8) -> Option<u8> {
    match byte {
        b'0'..=b'9' => Some(byte - b'0'),
        b'a'..=b'f' => Some(byte - b'a' + 10),
        b'A'..=b'F' => Some(byte - b'A' + 10),
        _ => None,
    }
}

#[cfg(test)]
mod tests {
    use super::*;

    #[test]
    fn numbers_by_their_form() {
        assert_eq!(number(b"0"), Ok(0));
        assert_eq!(number(b"00000000000000000012"), Ok(12));
        assert_eq!(number(b"18446744073709551615"), Ok(u64::MAX));
        assert_eq!(number(b"18446744073709551616"), Err(Unreadable::DoesNotFit));
        assert_eq!(
            number(b"000000000000000000001"),
            Err(Unreadable::TooManyDigits)
        );
        for word in ["-1", "+1", "1.0", "0x1", "1\r", "\u{0663}", "-"] {
            assert_eq!(number(word.as_bytes()), Err(Unreadable::NotDigits));
        }
    }
}
