//! A bundle whose text is asked for, as bytes between two programs, and what
//! this program answers.

use std::io::{self, Read, Write};

use super::sights::{self, Sight};
use crate::compare::gate::case::{Bytes, LONGEST};
use crate::compare::run::{hex, Question};
use crate::compare::wire::{read_first_word, read_slice_within, read_word, unsound, write_words};
use crate::print::reasons;

/// No answer is read that is longer: it would be no text of 81 marks.
pub(super) const LONGEST_TEXT: usize = 1 << 20;
pub(super) const LONGEST_SHOWN: usize = 600;

#[derive(Clone, Debug, PartialEq, Eq)]
pub struct TextCase {
    pub bundle: Bytes,
    /// As `reasons_folder` has it, with one line for all the marks that a file
    /// keeps from being judged.
    pub grouped: bool,
}

impl Question for TextCase {
    /// Bytes, since those of another program need not be UTF-8.
    type Answer = Vec<u8>;
    type Sight = Sight;

    /// The bundle's length and 1 if it is grouped, both little-endian numbers of
    /// 32 bits, and the bundle.
    fn write(&self, out: &mut impl Write) -> io::Result<()> {
        write_words(out, &[self.bundle.len() as u32, u32::from(self.grouped)])?;
        out.write_all(&self.bundle)
    }

    fn read(input: &mut impl Read) -> io::Result<Option<TextCase>> {
        let length = match read_first_word(input)? {
            Some(length) => length,
            None => return Ok(None),
        };
        let grouped = match read_word(input)? {
            0 => false,
            1 => true,
            _ => return Err(unsound("there is no such form")),
        };
        let bundle = read_slice_within(input, length, LONGEST)?.into();
        Ok(Some(TextCase { bundle, grouped }))
    }

    fn answer(&self) -> Vec<u8> {
        reasons(&self.bundle, self.grouped).into_bytes()
    }

    /// The text's length and the text.
    fn write_answer(answer: &Vec<u8>, out: &mut impl Write) -> io::Result<()> {
        write_words(out, &[answer.len() as u32])?;
        out.write_all(answer)
    }

    fn read_answer(&self, input: &mut impl Read) -> Option<Vec<u8>> {
        let length = read_word(input).ok()?;
        read_slice_within(input, length, LONGEST_TEXT).ok()
    }

    fn describe(&self, expected: &Vec<u8>, answered: &Vec<u8>) -> String {
        let form = if self.grouped { "grouped" } else { "plain" };
        let mut lines = vec![format!("text, {form}")];
        lines.push(format!("  bundle {}", hex(&self.bundle, LONGEST_SHOWN)));
        lines.extend(first_difference(expected, answered));
        lines.join("\n")
    }

    fn wanted() -> Vec<Sight> {
        sights::wanted()
    }

    fn sights(&self, expected: &Vec<u8>) -> Vec<Sight> {
        sights::sights_of(self, expected)
    }
}

/// The first line in which two texts differ, of either of them; nothing for one
/// that has ended there.
pub(crate) fn first_difference(expected: &[u8], answered: &[u8]) -> Vec<String> {
    let mut right = expected.split_inclusive(|byte| *byte == b'\n');
    let mut wrong = answered.split_inclusive(|byte| *byte == b'\n');
    let mut number = 1;
    loop {
        let pair = (right.next(), wrong.next());
        if pair == (None, None) {
            return Vec::new();
        }
        if pair.0 != pair.1 {
            let shown = |line: Option<&[u8]>| format!("{:?}", line.map(String::from_utf8_lossy));
            return vec![
                format!("  line {number} expected {}", shown(pair.0)),
                format!("  line {number} answered {}", shown(pair.1)),
            ];
        }
        number += 1;
    }
}

#[cfg(test)]
mod tests {
    use super::*;
    use crate::compare::gate::sample::Set;

    fn case(grouped: bool) -> TextCase {
        TextCase { bundle: Set::empty().with(5, "[]").bundle().into(), grouped }
    }

    fn sent(case: &TextCase) -> Vec<u8> {
        let mut bytes = Vec::new();
        case.write(&mut bytes).unwrap();
        bytes
    }

    #[test]
    fn a_case_comes_back_from_its_bytes() {
        for grouped in [false, true] {
            let bytes = sent(&case(grouped));
            assert_eq!(bytes[..8], [166, 0, 0, 0, u8::from(grouped), 0, 0, 0]);
            assert_eq!(bytes[8..], case(grouped).bundle[..]);
            let mut input = &bytes[..];
            assert_eq!(TextCase::read(&mut input).unwrap(), Some(case(grouped)));
            assert_eq!(TextCase::read(&mut input).unwrap(), None);
            assert!(TextCase::read(&mut &bytes[..bytes.len() - 1]).is_err());
            assert!(TextCase::read(&mut &bytes[..7]).is_err());
        }
    }

    #[test]
    fn unsound_cases_are_not_answered() {
        let longer = LONGEST as u32 + 1;
        for header in [[longer, 0], [0, 2], [0, u32::MAX], [u32::MAX, 1]] {
            let mut bytes: Vec<u8> = header.iter().flat_map(|word| word.to_le_bytes()).collect();
            bytes.resize(2_000_000, 0);
            assert!(TextCase::read(&mut &bytes[..]).is_err(), "{header:?}");
        }
    }

    #[test]
    fn an_answer_is_its_length_and_its_text() {
        let answer = case(false).answer();
        let mut bytes = Vec::new();
        TextCase::write_answer(&answer, &mut bytes).unwrap();
        assert_eq!(bytes[..4], (answer.len() as u32).to_le_bytes());
        assert_eq!(bytes[4..], answer);
        assert_eq!(case(false).read_answer(&mut &bytes[..]), Some(answer));
        assert_eq!(case(false).read_answer(&mut &bytes[..bytes.len() - 1]), None);
        assert_eq!(case(false).read_answer(&mut &[255; 9][..]), None);
    }

    #[test]
    fn the_first_wrong_line_is_shown() {
        let shown = case(true).describe(&b"a\nb\nc\n".to_vec(), &b"a\nx\nc\n".to_vec());
        assert!(shown.starts_with("text, grouped\n  bundle (166) 14000000"));
        let lines = "\n  line 2 expected Some(\"b\\n\")\n  line 2 answered Some(\"x\\n\")";
        assert!(shown.ends_with(lines), "{shown}");
        let shown = case(false).describe(&b"a\nb\n".to_vec(), &b"a\n".to_vec());
        assert!(shown.ends_with("  line 2 expected Some(\"b\\n\")\n  line 2 answered None"));
        let shown = case(false).describe(&b"a\n".to_vec(), &b"a".to_vec());
        assert!(shown.ends_with("  line 1 expected Some(\"a\\n\")\n  line 1 answered Some(\"a\")"));
    }
}
