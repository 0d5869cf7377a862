//! A case of the JSON layer and its answer as bytes between two programs.

use std::convert::Infallible;
use std::io::{self, Read, Write};

use super::answer::answer;
use super::run::{hex, Question};
use super::wire::{read_first_word, read_longs, read_slice, read_word, write_longs, write_words};

pub use super::wire::LONGEST;

pub const SPACES: u32 = 1;
pub const LITERAL: u32 = 2;
pub const TEXT: u32 = 3;
pub const CHARACTER: u32 = 4;
pub const EQUAL: u32 = 5;
pub const EQUAL_FOLDED: u32 = 6;
pub const EQUAL_FIXED: u32 = 7;
pub const EQUAL_FIXED_FOLDED: u32 = 8;
pub const DATE: u32 = 9;
pub const NUMBER: u32 = 10;
pub const INTEGER: u32 = 11;
pub const SIGN: u32 = 12;
pub const EQUAL_NUMBERS: u32 = 13;
pub const OPS: u32 = 13;

const LONGEST_SHOWN: usize = 200;

/// Two byte slices, a place in the first, and a place in the second or a number.
#[derive(Clone, Debug, PartialEq, Eq)]
pub struct Case {
    pub op: u32,
    pub at: u32,
    pub other: u32,
    pub a: Vec<u8>,
    pub b: Vec<u8>,
}

pub type Answer = [u64; 4];

impl Question for Case {
    type Answer = Answer;
    type Sight = Infallible;

    /// Five little-endian 32-bit numbers, then the bytes of both slices.
    fn write(&self, out: &mut impl Write) -> io::Result<()> {
        let lengths = [self.a.len() as u32, self.b.len() as u32];
        write_words(out, &[self.op, self.at, self.other])?;
        write_words(out, &lengths)?;
        out.write_all(&self.a)?;
        out.write_all(&self.b)
    }

    fn read(input: &mut impl Read) -> io::Result<Option<Case>> {
        let Some(op) = read_first_word(input)? else {
            return Ok(None);
        };
        let at = read_word(input)?;
        let other = read_word(input)?;
        let length_a = read_word(input)?;
        let length_b = read_word(input)?;
        let a = read_slice(input, length_a)?;
        let b = read_slice(input, length_b)?;
        Ok(Some(Case { op, at, other, a, b }))
    }

    fn answer(&self) -> Answer {
        answer(self)
    }

    fn write_answer(answer: &Answer, out: &mut impl Write) -> io::Result<()> {
        write_longs(out, answer)
    }

    fn read_answer(&self, input: &mut impl Read) -> Option<Answer> {
        read_longs(input)
    }

    fn describe(&self, expected: &Answer, answered: &Answer) -> String {
        let Case { op, at, other, a, b } = self;
        let lines = [
            format!("op {op} at {at} other {other}"),
            format!("  A {}", hex(a, LONGEST_SHOWN)),
            format!("  B {}", hex(b, LONGEST_SHOWN)),
            format!("  expected {expected:?}"),
            format!("  answered {answered:?}"),
        ];
        lines.join("\n")
    }
}

#[cfg(test)]
mod tests {
    use super::*;

    #[test]
    fn a_case_comes_back_from_its_bytes() {
        let case = Case { op: 5, at: 1, other: 2, a: b"abc".to_vec(), b: b"de".to_vec() };
        let mut bytes = Vec::new();
        case.write(&mut bytes).unwrap();
        assert_eq!(bytes.len(), 25);
        assert_eq!(bytes[..8], [5, 0, 0, 0, 1, 0, 0, 0]);
        let mut input = &bytes[..];
        assert_eq!(Case::read(&mut input).unwrap(), Some(case));
        assert_eq!(Case::read(&mut input).unwrap(), None);
        assert!(Case::read(&mut &bytes[..24]).is_err());
        assert!(Case::read(&mut &bytes[..3]).is_err());
    }

    #[test]
    fn a_case_is_described_with_its_bytes() {
        let case = Case { op: 5, at: 1, other: 2, a: b" x ".to_vec(), b: Vec::new() };
        let shown = case.describe(&[0; 4], &[1, 2, 3, 4]);
        assert!(shown.starts_with("op 5 at 1 other 2\n  A (3) 207820\n  B (0) \n"));
        assert!(shown.ends_with("expected [0, 0, 0, 0]\n  answered [1, 2, 3, 4]"));
    }
}
