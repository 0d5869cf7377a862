//! A case of the drawer as bytes between two programs, and what this program
//! answers.

use std::io::{self, Read, Write};
use std::sync::Arc;

use super::sights::{self, Sight};
use crate::bundle::FileState;
use crate::compare::gate::answer::{read_board, write_board};
use crate::compare::gate::case::{Bytes, Change, Output, LONGEST};
use crate::compare::reply::{Form, Reply};
use crate::compare::run::{hex, Question};
use crate::compare::wire::{read_first_word, read_slice_within, read_word, unsound, write_words};
use crate::drawer::{
    change_drawer, drawer_part, drawer_state, judge_drawer, list, put_bundle, take_bundle,
    try_drawer,
};
use crate::gate::Verdict;

pub const JUDGE: u32 = 0;
pub const TRY: u32 = 1;
pub const MAKE: u32 = 2;
pub const LOOK_UP: u32 = 3;
pub const PUT: u32 = 4;
pub const TAKE: u32 = 5;
pub const LIST: u32 = 6;

const LONGEST_SHOWN: usize = 600;

/// One call over a drawer.
#[derive(Clone, Debug, PartialEq, Eq)]
pub struct DrawerCase {
    pub drawer: Bytes,
    pub call: Call,
}

#[derive(Clone, Debug, PartialEq, Eq)]
pub enum Call {
    Judge,
    Try(Change),
    Make(Change),
    LookUp(u32),
    /// A bundle is put in.
    Put(Bytes),
    /// The bundle of its files is taken out.
    Take(Output),
    /// Its files, gaps and free bytes as a text.
    List,
}

impl DrawerCase {
    pub fn op(&self) -> u32 {
        match self.call {
            Call::Judge => JUDGE,
            Call::Try(_) => TRY,
            Call::Make(_) => MAKE,
            Call::LookUp(_) => LOOK_UP,
            Call::Put(_) => PUT,
            Call::Take(_) => TAKE,
            Call::List => LIST,
        }
    }

    pub fn change(&self) -> Option<&Change> {
        match &self.call {
            Call::Try(change) | Call::Make(change) => Some(change),
            _ => None,
        }
    }

    /// The new bytes of a file, or the bundle that is put in.
    fn new_bytes(&self) -> Option<&Bytes> {
        match &self.call {
            Call::Put(bundle) => Some(bundle),
            _ => self.change().and_then(|change| change.new.as_ref()),
        }
    }

    /// Numbers that a call has no use for are 0.
    fn header(&self) -> [u32; 7] {
        let number = match &self.call {
            Call::Try(change) | Call::Make(change) => change.number,
            Call::LookUp(number) => *number,
            Call::Judge | Call::Put(_) | Call::Take(_) | Call::List => 0,
        };
        let output = match self.call {
            Call::Take(output) => output,
            _ => Output { length: 0, seed: 0 },
        };
        let new = self.new_bytes();
        [
            self.op(),
            self.drawer.len() as u32,
            number,
            u32::from(new.is_some()),
            new.map_or(0, |new| new.len() as u32),
            output.length,
            output.seed,
        ]
    }

    fn forms(&self) -> Vec<(&'static str, Form)> {
        let drawer = Form::Bytes(self.drawer.len() as u32);
        match self.call {
            Call::Judge | Call::Try(_) => vec![("refusal", Form::Number), ("board", Form::Board)],
            Call::Make(_) => {
                vec![("refusal", Form::Number), ("board", Form::Board), ("drawer", drawer)]
            }
            Call::LookUp(_) => vec![
                ("state", Form::Number),
                ("refusal", Form::Number),
                ("length", Form::Number),
                ("part", Form::Counted),
            ],
            Call::Put(_) => vec![("refusal", Form::Number), ("drawer", drawer)],
            Call::Take(output) => vec![
                ("refusal", Form::Number),
                ("length", Form::Number),
                ("output", Form::Bytes(output.length)),
            ],
            Call::List => vec![("length", Form::Number), ("text", Form::Counted)],
        }
    }

    fn describe_call(&self) -> String {
        match &self.call {
            Call::Judge => "judge".to_string(),
            Call::Try(change) => format!("try, {}", change.describe()),
            Call::Make(change) => format!("make, {}", change.describe()),
            Call::LookUp(number) => format!("look up file {number}"),
            Call::Put(bundle) => format!("put a bundle of {} bytes in", bundle.len()),
            Call::Take(Output { length, seed }) => {
                format!("take the bundle out, output of {length} bytes, seed {seed}")
            }
            Call::List => "list".to_string(),
        }
    }
}

impl Question for DrawerCase {
    type Answer = Reply;
    type Sight = Sight;

    /// Seven numbers, the drawer, for a change the board, and the new bytes or
    /// the bundle.
    fn write(&self, out: &mut impl Write) -> io::Result<()> {
        write_words(out, &self.header())?;
        out.write_all(&self.drawer)?;
        if let Some(change) = self.change() {
            write_board(out, &change.board)?;
        }
        out.write_all(self.new_bytes().map_or(&[], |new| new.as_slice()))
    }

    fn read(input: &mut impl Read) -> io::Result<Option<DrawerCase>> {
        let op = match read_first_word(input)? {
            Some(op) => op,
            None => return Ok(None),
        };
        let mut words = [0; 6];
        for word in &mut words {
            *word = read_word(input)?;
        }
        let [drawer, number, present, new, length, seed] = words;
        if op > LIST || length as usize > LONGEST {
            return Err(unsound("there is no such op, or the output is too long"));
        }
        if present > 1 || (present == 0 && new > 0) {
            return Err(unsound("there are new bytes without a file for them"));
        }
        let drawer = Arc::new(read_slice_within(input, drawer, LONGEST)?);
        let call = match op {
            JUDGE => Call::Judge,
            TRY => Call::Try(read_change(number, present, new, input)?),
            MAKE => Call::Make(read_change(number, present, new, input)?),
            LOOK_UP => Call::LookUp(number),
            PUT => Call::Put(Arc::new(read_slice_within(input, new, LONGEST)?)),
            TAKE => Call::Take(Output { length, seed }),
            _ => Call::List,
        };
        Ok(Some(DrawerCase { drawer, call }))
    }

    fn answer(&self) -> Reply {
        match &self.call {
            Call::Judge => judged(judge_drawer(&self.drawer)),
            Call::Try(change) => {
                let number = change.number as usize;
                judged(try_drawer(&self.drawer, &change.board, number, change.bytes()))
            }
            Call::Make(change) => {
                let mut drawer = self.drawer.to_vec();
                let number = change.number as usize;
                let verdict = change_drawer(&mut drawer, &change.board, number, change.bytes());
                judged(verdict).bytes("drawer", drawer)
            }
            Call::LookUp(number) => found(&self.drawer, *number as usize),
            Call::Put(bundle) => {
                let mut drawer = self.drawer.to_vec();
                let refusal = put_bundle(&mut drawer, bundle);
                Reply::default().number("refusal", refusal).bytes("drawer", drawer)
            }
            Call::Take(output) => taken(&self.drawer, *output),
            Call::List => {
                let text = list(&self.drawer).into_bytes();
                Reply::default().number("length", text.len() as u32).bytes("text", text)
            }
        }
    }

    fn write_answer(answer: &Reply, out: &mut impl Write) -> io::Result<()> {
        answer.write(out)
    }

    fn read_answer(&self, input: &mut impl Read) -> Option<Reply> {
        Reply::read(&self.forms(), input).ok()
    }

    fn describe(&self, expected: &Reply, answered: &Reply) -> String {
        let mut lines = vec![self.describe_call()];
        lines.push(format!("  drawer {}", hex(&self.drawer, LONGEST_SHOWN)));
        if let Some(new) = self.new_bytes() {
            lines.push(format!("  new {}", hex(new, LONGEST_SHOWN)));
        }
        lines.extend(expected.differences(answered));
        lines.join("\n")
    }

    fn wanted() -> Vec<Sight> {
        sights::wanted()
    }

    fn sights(&self, expected: &Reply) -> Vec<Sight> {
        sights::sights_of(self, expected)
    }
}

fn judged(verdict: Verdict) -> Reply {
    Reply::default().number("refusal", verdict.refusal).board("board", verdict.board)
}

fn found(drawer: &[u8], number: usize) -> Reply {
    let (state, refusal) = match drawer_state(drawer, number) {
        FileState::Present => (0, 0),
        FileState::Omitted => (1, 0),
        FileState::Refused(refusal) => (2, refusal),
    };
    let part = drawer_part(drawer, number).to_vec();
    let front = Reply::default().number("state", state).number("refusal", refusal);
    front.number("length", part.len() as u32).bytes("part", part)
}

/// A refused one has length 0.
fn taken(drawer: &[u8], output: Output) -> Reply {
    let mut output = output.filled();
    let (refusal, length) = match take_bundle(drawer, &mut output) {
        Ok(length) => (0, length as u32),
        Err(refusal) => (refusal, 0),
    };
    let front = Reply::default().number("refusal", refusal).number("length", length);
    front.bytes("output", output)
}

fn read_change(number: u32, present: u32, new: u32, input: &mut impl Read) -> io::Result<Change> {
    let board = read_board(input)?;
    let bytes = Arc::new(read_slice_within(input, new, LONGEST)?);
    Ok(Change { board, number, new: Some(bytes).filter(|_| present == 1) })
}

#[cfg(test)]
mod tests {
    use super::*;
    use crate::board::Board;
    use crate::compare::gate::sample::Set;

    fn change(new: Option<&[u8]>) -> Change {
        Change { board: Board::fresh(), number: 7, new: new.map(|new| Arc::new(new.to_vec())) }
    }

    #[test]
    fn a_case_and_its_answer_come_back_from_their_bytes() {
        let drawer = Arc::new(Set::empty().with(5, "[]").bundle());
        let calls = [
            Call::Judge,
            Call::Try(change(Some(b""))),
            Call::Make(change(None)),
            Call::Make(change(Some(b"x"))),
            Call::LookUp(5),
            Call::Put(Arc::new(Vec::new())),
            Call::Put(drawer.clone()),
            Call::Take(Output { length: 170, seed: u32::MAX }),
            Call::List,
        ];
        for call in calls {
            let case = DrawerCase { drawer: drawer.clone(), call };
            let mut sent = Vec::new();
            case.write(&mut sent).unwrap();
            let mut input = &sent[..];
            assert_eq!(DrawerCase::read(&mut input).unwrap(), Some(case.clone()));
            assert!(DrawerCase::read(&mut &sent[..sent.len() - 1]).is_err());
            let mut answered = Vec::new();
            case.answer().write(&mut answered).unwrap();
            assert_eq!(case.read_answer(&mut &answered[..]), Some(case.answer()));
            assert_eq!(case.read_answer(&mut &answered[..answered.len() - 1]), None);
        }
    }

    #[test]
    fn unsound_cases_are_not_answered() {
        let longer = LONGEST as u32 + 1;
        let headers: [[u32; 7]; 6] = [
            [7, 0, 0, 0, 0, 0, 0],
            [0, longer, 0, 0, 0, 0, 0],
            [5, 0, 0, 0, 0, longer, 0],
            [4, 0, 0, 1, longer, 0, 0],
            [2, 0, 0, 0, 1, 0, 0],
            [2, 0, 0, 2, 0, 0, 0],
        ];
        for header in headers {
            let mut sent = Vec::new();
            write_words(&mut sent, &header).unwrap();
            sent.resize(2000, 0);
            assert!(DrawerCase::read(&mut &sent[..]).is_err(), "{header:?}");
        }
    }
}
