//! A case of the quarter as bytes between two programs, and what this program
//! answers.

use std::io::{self, Read, Write};
use std::sync::Arc;

use super::sights::{self, Sight};
use crate::compare::gate::case::{Bytes, LONGEST};
use crate::compare::reply::{Form, Reply};
use crate::compare::run::{hex, Question};
use crate::compare::wire::{read_first_word, read_slice_within, read_word, unsound, write_words};
use crate::quarter::{take, Quarter, SETS, TOTALS};

const LONGEST_SHOWN: usize = 600;

/// One more set for a quarter.
#[derive(Clone, Debug, PartialEq, Eq)]
pub struct QuarterCase {
    pub quarter: Box<Quarter>,
    pub bundle: Bytes,
}

pub const TOTAL_NAMES: [&str; TOTALS] = [
    "labor, budget dollars",
    "labor, budget hours",
    "labor, estimate dollars",
    "labor, estimate hours",
    "labor, actual dollars",
    "labor, actual hours",
    "material, budget dollars",
    "material, budget hours",
    "material, estimate dollars",
    "material, estimate hours",
    "material, actual dollars",
    "material, actual hours",
    "other costs, budget dollars",
    "other costs, budget hours",
    "other costs, estimate dollars",
    "other costs, estimate hours",
    "other costs, actual dollars",
    "other costs, actual hours",
    "subcontract, budget dollars",
    "subcontract, budget hours",
    "subcontract, estimate dollars",
    "subcontract, estimate hours",
    "subcontract, actual dollars",
    "subcontract, actual hours",
];

const GRAND_NAMES: [&str; 6] = [
    "all, budget dollars",
    "all, budget hours",
    "all, estimate dollars",
    "all, estimate hours",
    "all, actual dollars",
    "all, actual hours",
];

impl Question for QuarterCase {
    type Answer = Reply;
    type Sight = Sight;

    /// 24 totals of 64 bits, the sets so far, 256 flags, the bundle's length
    /// and the bundle.
    fn write(&self, out: &mut impl Write) -> io::Result<()> {
        for total in &self.quarter.totals {
            out.write_all(&total.to_le_bytes())?;
        }
        write_words(out, &[self.quarter.sets as u32])?;
        out.write_all(&flags(&self.quarter))?;
        write_words(out, &[self.bundle.len() as u32])?;
        out.write_all(&self.bundle)
    }

    fn read(input: &mut impl Read) -> io::Result<Option<QuarterCase>> {
        let mut low = match read_first_word(input)? {
            Some(low) => low,
            None => return Ok(None),
        };
        let mut quarter = Box::new(Quarter::start());
        for (at, total) in quarter.totals.iter_mut().enumerate() {
            if at > 0 {
                low = read_word(input)?;
            }
            let high = read_word(input)?;
            *total = (u64::from(low) | u64::from(high) << 32) as i64;
        }
        quarter.sets = read_word(input)? as usize;
        for (left, flag) in quarter.left.iter_mut().zip(read_slice_within(input, 256, SETS)?) {
            *left = match flag {
                0 | 1 => flag == 1,
                _ => return Err(unsound("a flag is 0 or 1")),
            };
        }
        let length = read_word(input)?;
        let bundle = Arc::new(read_slice_within(input, length, LONGEST)?);
        Ok(Some(QuarterCase { quarter, bundle }))
    }

    fn answer(&self) -> Reply {
        let taken = take(&self.quarter, &self.bundle);
        let mut reply = Reply::default().number("refusal", taken.refusal);
        for (name, total) in TOTAL_NAMES.iter().zip(taken.quarter.totals) {
            reply = reply.long(name, total);
        }
        reply = reply.number("sets", taken.quarter.sets as u32);
        reply = reply.bytes("places left out", flags(&taken.quarter));
        for (name, total) in GRAND_NAMES.iter().zip(taken.grand) {
            reply = reply.long(name, total);
        }
        reply.number("left out", taken.quarter.left_out() as u32)
    }

    fn write_answer(answer: &Reply, out: &mut impl Write) -> io::Result<()> {
        answer.write(out)
    }

    fn read_answer(&self, input: &mut impl Read) -> Option<Reply> {
        let mut forms = vec![("refusal", Form::Number)];
        forms.extend(TOTAL_NAMES.map(|name| (name, Form::Long)));
        forms.extend([("sets", Form::Number), ("places left out", Form::Bytes(SETS as u32))]);
        forms.extend(GRAND_NAMES.map(|name| (name, Form::Long)));
        forms.push(("left out", Form::Number));
        Reply::read(&forms, input).ok()
    }

    fn describe(&self, expected: &Reply, answered: &Reply) -> String {
        let sets = self.quarter.sets;
        let mut lines = vec![format!("set {} of a quarter", sets + 1)];
        lines.push(format!("  handed {:?}", self.quarter.totals));
        lines.push(format!("  places left out {}", hex(&flags(&self.quarter), SETS)));
        lines.push(format!("  bundle {}", hex(&self.bundle, LONGEST_SHOWN)));
        lines.extend(expected.differences(answered));
        lines.join("\n")
    }

    fn wanted() -> Vec<Sight> {
        sights::wanted()
    }

    fn sights(&self, _: &Reply) -> Vec<Sight> {
        sights::sights_of(self)
    }
}

/// 1 where the set at that place was left out.
fn flags(quarter: &Quarter) -> Vec<u8> {
    quarter.left.iter().map(|left| u8::from(*left)).collect()
}

#[cfg(test)]
mod tests {
    use super::*;

    #[test]
    fn a_case_and_its_answer_come_back_from_their_bytes() {
        let mut quarter = Box::new(Quarter::start());
        quarter.totals[0] = i64::MIN;
        quarter.totals[23] = -2;
        quarter.sets = 255;
        quarter.left[254] = true;
        for bundle in [b"".to_vec(), vec![20; 300]] {
            let case = QuarterCase { quarter: quarter.clone(), bundle: Arc::new(bundle) };
            let mut sent = Vec::new();
            case.write(&mut sent).unwrap();
            assert_eq!(sent.len(), 24 * 8 + 4 + 256 + 4 + case.bundle.len());
            assert_eq!(QuarterCase::read(&mut &sent[..]).unwrap(), Some(case.clone()));
            assert!(QuarterCase::read(&mut &sent[..sent.len() - 1]).is_err());
            let mut answered = Vec::new();
            case.answer().write(&mut answered).unwrap();
            assert_eq!(answered.len(), 4 + 24 * 8 + 4 + 256 + 48 + 4);
            assert_eq!(case.read_answer(&mut &answered[..]), Some(case.answer()));
        }
        assert!(QuarterCase::read(&mut &[][..]).unwrap().is_none());
    }
}
