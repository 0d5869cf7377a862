//! A bundle of one of three gates whose text is asked for, as bytes between two
//! programs, and what this program answers.

use std::io::{self, Read, Write};

use super::super::case::{first_difference, TextCase, LONGEST_SHOWN};
use super::sights::{self, Sight};
use crate::compare::gate::case::LONGEST;
use crate::compare::gates::Which;
use crate::compare::run::{hex, Question};
use crate::compare::wire::{read_first_word, read_slice_within, read_word, unsound, write_words};
use crate::gates::print::reasons;

/// Without a gate it is the schedule gate's.
#[derive(Clone, Debug, PartialEq, Eq)]
pub struct GateTextCase {
    pub which: Option<Which>,
    pub text: TextCase,
}

impl Question for GateTextCase {
    type Answer = Vec<u8>;
    type Sight = Sight;

    /// The bundle's length, twice the gate's number with 1 more if it is grouped,
    /// and the bundle.
    fn write(&self, out: &mut impl Write) -> io::Result<()> {
        let gate = self.which.map_or(0, Which::number);
        let TextCase { bundle, grouped } = &self.text;
        write_words(out, &[bundle.len() as u32, 2 * gate + u32::from(*grouped)])?;
        out.write_all(bundle)
    }

    fn read(input: &mut impl Read) -> io::Result<Option<GateTextCase>> {
        let length = match read_first_word(input)? {
            Some(length) => length,
            None => return Ok(None),
        };
        let form = read_word(input)?;
        let (grouped, gate) = (form % 2, form / 2);
        let which = match (gate, Which::numbered(gate)) {
            (0, _) => None,
            (_, Some(which)) => Some(which),
            _ => return Err(unsound("there is no such gate")),
        };
        let bundle = read_slice_within(input, length, LONGEST)?.into();
        Ok(Some(GateTextCase { which, text: TextCase { bundle, grouped: grouped == 1 } }))
    }

    fn answer(&self) -> Vec<u8> {
        let TextCase { bundle, grouped } = &self.text;
        match self.which {
            None => self.text.answer(),
            Some(which) => reasons(which.gate(), bundle, *grouped).into_bytes(),
        }
    }

    fn write_answer(answer: &Vec<u8>, out: &mut impl Write) -> io::Result<()> {
        TextCase::write_answer(answer, out)
    }

    fn read_answer(&self, input: &mut impl Read) -> Option<Vec<u8>> {
        self.text.read_answer(input)
    }

    fn describe(&self, expected: &Vec<u8>, answered: &Vec<u8>) -> String {
        let form = if self.text.grouped { "grouped" } else { "plain" };
        let gate = match self.which {
            None => "Schedule".to_string(),
            Some(which) => format!("{which:?}"),
        };
        let mut lines = vec![format!("{gate} gate, text, {form}")];
        lines.push(format!("  bundle {}", hex(&self.text.bundle, LONGEST_SHOWN)));
        lines.extend(first_difference(expected, answered));
        lines.join("\n")
    }

    fn wanted() -> Vec<Sight> {
        sights::wanted()
    }

    fn sights(&self, expected: &Vec<u8>) -> Vec<Sight> {
        sights::sights_of(self, expected)
    }
}
