//! A case of the two desks as bytes between two programs, and what this program
//! answers.

use std::io::{self, Read, Write};
use std::sync::Arc;

use super::sights::{self, Sight};
use crate::board::Board;
use crate::compare::gate::answer::{read_board, write_board};
use crate::compare::gate::case::{Bytes, Output, LONGEST};
use crate::compare::reply::{Form, Reply};
use crate::compare::run::{hex, Question};
use crate::compare::wire::{read_first_word, read_slice_within, read_word, unsound, write_words};
use crate::desks::{change_desks, judge_joined, try_desks, Answers, Lent, Whose};

pub const JUDGE: u32 = 0;
pub const TRY: u32 = 1;
pub const MAKE: u32 = 2;

pub const REFUSALS: [&str; 2] = ["refusal of A", "refusal of B"];
pub const BOARDS: [&str; 2] = ["board of A", "board of B"];

const LONGEST_SHOWN: usize = 400;

/// The bundles of both desks and the shared one.
#[derive(Clone, Debug, PartialEq, Eq)]
pub struct Three {
    pub desks: [Bytes; 2],
    pub shared: Bytes,
}

/// One call over the three bundles.
#[derive(Clone, Debug, PartialEq, Eq)]
pub struct DesksCase {
    pub three: Three,
    pub call: Call,
}

#[derive(Clone, Debug, PartialEq, Eq)]
pub enum Call {
    /// Of desk A with the shared bundle; B isn't looked at and has length 0.
    Judge,
    Try(Change),
    Make(Change, Output),
}

/// A change of a desk or of the calendars, against both boards.
#[derive(Clone, Debug, PartialEq, Eq)]
pub struct Change {
    pub boards: Box<[Board; 2]>,
    pub whose: Whose,
    pub number: u32,
    pub new: Option<Bytes>,
}

impl Change {
    pub fn bytes(&self) -> Option<&[u8]> {
        self.new.as_deref().map(Vec::as_slice)
    }
}

impl Three {
    fn lent<'a>(&'a self, boards: &'a [Board; 2]) -> Lent<'a> {
        let [a, b] = &self.desks;
        Lent { desks: [a, b], shared: &self.shared, boards }
    }

    pub fn tried(&self, change: &Change) -> Answers {
        let lent = self.lent(&change.boards);
        try_desks(lent, change.whose, change.number as usize, change.bytes())
    }

    pub fn made(&self, change: &Change, output: &mut [u8]) -> Answers {
        let lent = self.lent(&change.boards);
        change_desks(lent, change.whose, change.number as usize, change.bytes(), output)
    }
}

impl DesksCase {
    pub fn op(&self) -> u32 {
        match self.call {
            Call::Judge => JUDGE,
            Call::Try(_) => TRY,
            Call::Make(..) => MAKE,
        }
    }

    pub fn change(&self) -> Option<&Change> {
        match &self.call {
            Call::Judge => None,
            Call::Try(change) | Call::Make(change, _) => Some(change),
        }
    }

    fn header(&self) -> [u32; 10] {
        let lengths = [&self.three.desks[0], &self.three.desks[1], &self.three.shared];
        let [a, b, shared] = lengths.map(|bundle| bundle.len() as u32);
        let change = self.change();
        let new = change.and_then(|change| change.new.as_ref());
        let output = match self.call {
            Call::Make(_, output) => output,
            _ => Output { length: 0, seed: 0 },
        };
        [
            self.op(),
            a,
            b,
            shared,
            change.map_or(0, |change| change.whose as u32),
            change.map_or(0, |change| change.number),
            u32::from(new.is_some()),
            new.map_or(0, |new| new.len() as u32),
            output.length,
            output.seed,
        ]
    }

    fn describe_call(&self) -> String {
        let change = match self.change() {
            None => return "judge A on the join".to_string(),
            Some(change) => change,
        };
        let whose = change.whose;
        let new = match &change.new {
            Some(new) => format!("replaced by {} bytes", new.len()),
            None => "withdrawn".to_string(),
        };
        let output = match self.call {
            Call::Make(_, Output { length, seed }) => {
                format!(", output of {length} bytes, seed {seed}")
            }
            _ => ", tried".to_string(),
        };
        format!("{whose:?}: file {} {new}{output}", change.number)
    }
}

impl Question for DesksCase {
    type Answer = Reply;
    type Sight = Sight;

    /// Ten numbers, the three bundles, and for a change both boards and the new
    /// bytes.
    fn write(&self, out: &mut impl Write) -> io::Result<()> {
        write_words(out, &self.header())?;
        for bundle in [&self.three.desks[0], &self.three.desks[1], &self.three.shared] {
            out.write_all(bundle)?;
        }
        if let Some(change) = self.change() {
            for board in change.boards.iter() {
                write_board(out, board)?;
            }
            out.write_all(change.bytes().unwrap_or(&[]))?;
        }
        Ok(())
    }

    fn read(input: &mut impl Read) -> io::Result<Option<DesksCase>> {
        let op = match read_first_word(input)? {
            Some(op) => op,
            None => return Ok(None),
        };
        let mut words = [0; 9];
        for word in &mut words {
            *word = read_word(input)?;
        }
        let [a, b, shared, whose, number, present, new, length, seed] = words;
        if op > MAKE || length as usize > LONGEST {
            return Err(unsound("there is no such op, or the output is too long"));
        }
        if present > 1 || (present == 0 && new > 0) {
            return Err(unsound("there are new bytes without a file for them"));
        }
        let whose = match whose {
            0 => Whose::DeskA,
            1 => Whose::DeskB,
            2 => Whose::Calendars,
            _ => return Err(unsound("there are two desks and the calendars")),
        };
        let mut bundle = |length| read_slice_within(input, length, LONGEST).map(Arc::new);
        let three = Three { desks: [bundle(a)?, bundle(b)?], shared: bundle(shared)? };
        if op == JUDGE {
            return Ok(Some(DesksCase { three, call: Call::Judge }));
        }
        let boards = Box::new([read_board(input)?, read_board(input)?]);
        let bytes = Arc::new(read_slice_within(input, new, LONGEST)?);
        let new = Some(bytes).filter(|_| present == 1);
        let change = Change { boards, whose, number, new };
        let call = match op {
            TRY => Call::Try(change),
            _ => Call::Make(change, Output { length, seed }),
        };
        Ok(Some(DesksCase { three, call }))
    }

    fn answer(&self) -> Reply {
        match &self.call {
            Call::Judge => {
                let verdict = judge_joined(&self.three.desks[0], &self.three.shared);
                let reply = Reply::default().number(REFUSALS[0], verdict.refusal);
                reply.board(BOARDS[0], verdict.board)
            }
            Call::Try(change) => reply(self.three.tried(change)),
            Call::Make(change, output) => {
                let mut output = output.filled();
                reply(self.three.made(change, &mut output)).bytes("output", output)
            }
        }
    }

    fn write_answer(answer: &Reply, out: &mut impl Write) -> io::Result<()> {
        answer.write(out)
    }

    fn read_answer(&self, input: &mut impl Read) -> Option<Reply> {
        let mut forms = vec![(REFUSALS[0], Form::Number), (BOARDS[0], Form::Board)];
        if self.change().is_some() {
            forms.extend([(REFUSALS[1], Form::Number), (BOARDS[1], Form::Board)]);
            forms.push(("size", Form::Number));
        }
        if let Call::Make(_, output) = self.call {
            forms.push(("output", Form::Bytes(output.length)));
        }
        Reply::read(&forms, input).ok()
    }

    fn describe(&self, expected: &Reply, answered: &Reply) -> String {
        let mut lines = vec![self.describe_call()];
        for (name, bundle) in ["A", "B"].iter().zip(&self.three.desks) {
            lines.push(format!("  {name} {}", hex(bundle, LONGEST_SHOWN)));
        }
        lines.push(format!("  shared {}", hex(&self.three.shared, LONGEST_SHOWN)));
        if let Some(new) = self.change().and_then(Change::bytes) {
            lines.push(format!("  new {}", hex(new, LONGEST_SHOWN)));
        }
        lines.extend(expected.differences(answered));
        lines.join("\n")
    }

    fn wanted() -> Vec<Sight> {
        sights::wanted()
    }

    fn sights(&self, expected: &Reply) -> Vec<Sight> {
        sights::sights_of(self, expected)
    }
}

fn reply(answers: Answers) -> Reply {
    let mut reply = Reply::default();
    for (at, verdict) in answers.desks.into_iter().enumerate() {
        reply = reply.number(REFUSALS[at], verdict.refusal).board(BOARDS[at], verdict.board);
    }
    reply.number("size", answers.size as u32)
}

#[cfg(test)]
mod tests {
    use super::*;
    use crate::compare::gate::sample::Set;

    #[test]
    fn a_case_and_its_answer_come_back_from_their_bytes() {
        let desk = Arc::new(Set::empty().with(5, "[]").bundle());
        let shared = Arc::new(Set::empty().with(6, "[]").bundle());
        let three = Three { desks: [desk.clone(), desk], shared };
        let boards = Box::new([Board::fresh(), Board::fresh()]);
        let change = Change { boards, whose: Whose::Calendars, number: 7, new: None };
        let filled = Change { new: Some(Arc::new(b"[{}]".to_vec())), ..change.clone() };
        let output = Output { length: 200, seed: 77 };
        for call in [Call::Judge, Call::Try(change), Call::Make(filled, output)] {
            let case = DesksCase { three: three.clone(), call };
            let mut sent = Vec::new();
            case.write(&mut sent).unwrap();
            assert_eq!(DesksCase::read(&mut &sent[..]).unwrap(), Some(case.clone()));
            assert!(DesksCase::read(&mut &sent[..sent.len() - 1]).is_err());
            let mut answered = Vec::new();
            case.answer().write(&mut answered).unwrap();
            assert_eq!(case.read_answer(&mut &answered[..]), Some(case.answer()));
            assert_eq!(case.read_answer(&mut &answered[..answered.len() - 1]), None);
        }
    }

    #[test]
    fn unsound_cases_are_not_answered() {
        let longer = LONGEST as u32 + 1;
        let headers: [[u32; 10]; 6] = [
            [3, 0, 0, 0, 0, 0, 0, 0, 0, 0],
            [0, longer, 0, 0, 0, 0, 0, 0, 0, 0],
            [1, 0, 0, 0, 3, 0, 0, 0, 0, 0],
            [1, 0, 0, 0, 0, 0, 2, 0, 0, 0],
            [1, 0, 0, 0, 0, 0, 0, 1, 0, 0],
            [2, 0, 0, 0, 0, 0, 0, 0, longer, 0],
        ];
        for header in headers {
            let mut sent = Vec::new();
            write_words(&mut sent, &header).unwrap();
            sent.resize(3000, 0);
            assert!(DesksCase::read(&mut &sent[..]).is_err(), "{header:?}");
        }
    }
}
