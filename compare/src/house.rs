//! House sheets: bytes to lines, with the refusals 18, 19 and 20.

use crate::refusal::{Cause, Refusal};
use crate::rules::HouseLine;

pub const LINE_TAG: u8 = 1;
pub const END_TAG: u8 = 127;
pub const HEAD: usize = 3;
pub const LINE_LENGTH: usize = 18;
pub const MOST_LINES: usize = 8;

pub const LARGEST_CHARGE: u32 = 10_000_000;
pub const LARGEST_MILLS: u16 = 10_000;
pub const LARGEST_TENTHS: u16 = 2_500;
pub const LARGEST_PRICE: u16 = 20_000;

/// Why bytes are no house sheet.
#[derive(Clone, Copy, Debug, PartialEq, Eq, PartialOrd, Ord)]
pub enum Flaw {
    MissingEnd,
    NinthLine,
    CutShort,
    UnknownTag,
    WrongLength,
    ValueAboveLimit,
    BytesBehindEnd,
    NoLine,
}

impl Flaw {
    pub const ALL: [Flaw; 8] = [
        Flaw::MissingEnd,
        Flaw::NinthLine,
        Flaw::CutShort,
        Flaw::UnknownTag,
        Flaw::WrongLength,
        Flaw::ValueAboveLimit,
        Flaw::BytesBehindEnd,
        Flaw::NoLine,
    ];

    pub fn cause(self) -> Cause {
        match self {
            Flaw::MissingEnd | Flaw::CutShort | Flaw::UnknownTag => Cause::SheetField,
            Flaw::WrongLength | Flaw::BytesBehindEnd => Cause::SheetField,
            Flaw::ValueAboveLimit => Cause::SheetValue,
            Flaw::NinthLine | Flaw::NoLine => Cause::SheetLines,
        }
    }
}

/// A flaw and where it stands.
pub type Found = (Flaw, usize);

pub fn refusal((flaw, place): Found) -> Refusal {
    flaw.cause().at(place as u64)
}

/// Reads a whole sheet, field by field in the order of checks.
pub fn read(bytes: &[u8]) -> Result<Vec<HouseLine>, Found> {
    let mut lines = Vec::new();
    let mut at = 0;
    loop {
        let Some(&tag) = bytes.get(at) else {
            return Err((Flaw::MissingEnd, bytes.len()));
        };
        if tag == LINE_TAG && lines.len() == MOST_LINES {
            return Err((Flaw::NinthLine, at));
        }
        let content = content(&bytes[at..]).ok_or((Flaw::CutShort, at))?;
        let next = at + HEAD + content.len();
        match tag {
            LINE_TAG => {
                let content = content.try_into().map_err(|_| (Flaw::WrongLength, at))?;
                let line = decode(content);
                if !is_within(&line) {
                    return Err((Flaw::ValueAboveLimit, at));
                }
                lines.push(line);
            }
            END_TAG => {
                if !content.is_empty() {
                    return Err((Flaw::WrongLength, at));
                }
                if next < bytes.len() {
                    return Err((Flaw::BytesBehindEnd, next));
                }
                if lines.is_empty() {
                    return Err((Flaw::NoLine, at));
                }
                return Ok(lines);
            }
            _ => return Err((Flaw::UnknownTag, at)),
        }
        at = next;
    }
}

/// The content of the field that these bytes begin with, if all of it is there.
fn content(field: &[u8]) -> Option<&[u8]> {
    let head = field.get(..HEAD)?;
    let length = usize::from(u16::from_be_bytes([head[1], head[2]]));
    field.get(HEAD..HEAD + length)
}

fn decode(content: &[u8; LINE_LENGTH]) -> HouseLine {
    let short = |at: usize| u16::from_be_bytes([content[at], content[at + 1]]);
    HouseLine {
        charge: u32::from_be_bytes([content[0], content[1], content[2], content[3]]),
        mills: short(4),
        without_charge: short(6),
        least_power: short(8),
        day: (short(10), short(12)),
        night: (short(14), short(16)),
    }
}

fn is_within(line: &HouseLine) -> bool {
    line.charge <= LARGEST_CHARGE
        && line.mills <= LARGEST_MILLS
        && line.without_charge <= LARGEST_TENTHS
        && line.least_power <= LARGEST_TENTHS
        && [line.day.0, line.day.1, line.night.0, line.night.1]
            .iter()
            .all(|&price| price <= LARGEST_PRICE)
}

/// The field of one line, whether its values are within their limits or not.
pub fn line_field(line: &HouseLine) -> Vec<u8> {
    let mut field = vec![LINE_TAG, 0, LINE_LENGTH as u8];
    field.extend(line.charge.to_be_bytes());
    for value in [
        line.mills,
        line.without_charge,
        line.least_power,
        line.day.0,
        line.day.1,
        line.night.0,
        line.night.1,
    ] {
        field.extend(value.to_be_bytes());
    }
    field
}

/// The bytes of a sheet with these lines.
pub fn write(lines: &[HouseLine]) -> Vec<u8> {
    let mut bytes: Vec<u8> = lines.iter().flat_map(line_field).collect();
    bytes.extend([END_TAG, 0, 0]);
    bytes
}

#[cfg(test)]
mod tests {
    use super::*;

    fn line() -> HouseLine {
        HouseLine {
            charge: LARGEST_CHARGE,
            mills: LARGEST_MILLS,
            without_charge: LARGEST_TENTHS,
            least_power: LARGEST_TENTHS,
            day: (LARGEST_PRICE, LARGEST_PRICE),
            night: (LARGEST_PRICE, LARGEST_PRICE),
        }
    }

    #[test]
    fn whole_sheets() {
        for count in 1..=MOST_LINES {
            let lines = vec![line(); count];
            let bytes = write(&lines);
            assert_eq!(bytes.len(), 21 * count + 3);
            assert_eq!(read(&bytes), Ok(lines));
        }
    }

    #[test]
    fn nine_lines() {
        let eight: Vec<u8> = [line(); 8].iter().flat_map(line_field).collect();
        for behind in [&[1][..], &[1, 0, 17], &line_field(&line())] {
            let bytes = [&eight[..], behind].concat();
            assert_eq!(read(&bytes), Err((Flaw::NinthLine, 168)));
        }
        assert_eq!(
            read(&[&eight[..], &[2]].concat()),
            Err((Flaw::CutShort, 168))
        );
    }

    #[test]
    fn cut_everywhere() {
        let bytes = write(&[line(), line()]);
        for cut in 0..bytes.len() {
            let expected = match cut {
                0 | 21 | 42 => (Flaw::MissingEnd, cut),
                _ => (Flaw::CutShort, cut / 21 * 21),
            };
            assert_eq!(read(&bytes[..cut]), Err(expected));
        }
    }

    #[test]
    fn values_one_above() {
        let raised = [
            HouseLine {
                charge: LARGEST_CHARGE + 1,
                ..line()
            },
            HouseLine {
                mills: LARGEST_MILLS + 1,
                ..line()
            },
            HouseLine {
                without_charge: LARGEST_TENTHS + 1,
                ..line()
            },
            HouseLine {
                least_power: LARGEST_TENTHS + 1,
                ..line()
            },
            HouseLine {
                day: (LARGEST_PRICE + 1, 0),
                ..line()
            },
            HouseLine {
                day: (0, LARGEST_PRICE + 1),
                ..line()
            },
            HouseLine {
                night: (LARGEST_PRICE + 1, 0),
                ..line()
            },
            HouseLine {
                night: (0, LARGEST_PRICE + 1),
                ..line()
            },
        ];
        for high in raised {
            let bytes = write(&[line(), high, line()]);
            assert_eq!(read(&bytes), Err((Flaw::ValueAboveLimit, 21)));
        }
    }

    #[test]
    fn ends() {
        assert_eq!(read(&[]), Err((Flaw::MissingEnd, 0)));
        assert_eq!(read(&[127]), Err((Flaw::CutShort, 0)));
        assert_eq!(read(&[127, 0, 0]), Err((Flaw::NoLine, 0)));
        assert_eq!(read(&[127, 0, 0, 127]), Err((Flaw::BytesBehindEnd, 3)));
        assert_eq!(read(&[127, 0, 1, 0]), Err((Flaw::WrongLength, 0)));
        assert_eq!(read(&[0, 0, 0]), Err((Flaw::UnknownTag, 0)));
    }
}
