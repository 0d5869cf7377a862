//! A case of one of the two gates as bytes between two programs, and what this
//! program answers.

use std::io::{self, Read, Write};
use std::sync::Arc;

use super::answer::{self, differences, Answer};
use super::sights::{self, Sight};
use super::Which;
use crate::board::Mark;
use crate::bundle::FileState;
use crate::compare::gate::answer::{nine, Part};
use crate::compare::gate::case::{Bytes, Output, LONGEST};
use crate::compare::gate::case::{JUDGE, LOOK_UP, MAKE, REASON, TRY};
use crate::compare::run::{hex, Question};
use crate::compare::wire::{read_first_word, read_slice_within, read_word, unsound, write_words};
use crate::gates::calls::{judge, make_change, try_change, Changed};
use crate::gates::layout::look_up;
use crate::gates::reason::reason;

const LONGEST_SHOWN: usize = 600;

/// One call of a gate over a bundle.
#[derive(Clone, Debug, PartialEq, Eq)]
pub struct GatesCase {
    pub which: Which,
    pub bundle: Bytes,
    pub call: Call,
}

#[derive(Clone, Debug, PartialEq, Eq)]
pub enum Call {
    Judge,
    Try(Change),
    Make(Change, Output),
    LookUp(u32),
    /// Why the mark of that number is what it is.
    Reason(u32),
}

/// A change of one file against a board: its new bytes, or nothing if it is
/// withdrawn.
#[derive(Clone, Debug, PartialEq, Eq)]
pub struct Change {
    pub board: Vec<Mark>,
    pub file: u32,
    pub new: Option<Bytes>,
}

impl Change {
    pub fn bytes(&self) -> Option<&[u8]> {
        self.new.as_deref().map(Vec::as_slice)
    }

    fn describe(&self) -> String {
        match &self.new {
            Some(new) => format!("file {} replaced by {} bytes", self.file, new.len()),
            None => format!("file {} withdrawn", self.file),
        }
    }
}

impl GatesCase {
    pub fn op(&self) -> u32 {
        match self.call {
            Call::Judge => JUDGE,
            Call::Try(_) => TRY,
            Call::Make(..) => MAKE,
            Call::LookUp(_) => LOOK_UP,
            Call::Reason(_) => REASON,
        }
    }

    pub fn change(&self) -> Option<&Change> {
        match &self.call {
            Call::Try(change) | Call::Make(change, _) => Some(change),
            Call::Judge | Call::LookUp(_) | Call::Reason(_) => None,
        }
    }

    /// Numbers that a call has no use for are 0.
    fn header(&self) -> [u32; 8] {
        let number = match &self.call {
            Call::Judge => 0,
            Call::Try(change) | Call::Make(change, _) => change.file,
            Call::LookUp(number) | Call::Reason(number) => *number,
        };
        let new = self.change().and_then(Change::bytes);
        let output = match self.call {
            Call::Make(_, output) => output,
            _ => Output { length: 0, seed: 0 },
        };
        [
            self.which.number(),
            self.op(),
            self.bundle.len() as u32,
            number,
            u32::from(new.is_some()),
            new.map_or(0, |new| new.len() as u32),
            output.length,
            output.seed,
        ]
    }

    /// As many bytes as the case is sent in.
    pub fn sent_length(&self) -> usize {
        let board = self.change().map_or(0, |change| 12 * change.board.len());
        let new = self.change().and_then(Change::bytes).map_or(0, <[u8]>::len);
        32 + self.bundle.len() + board + new
    }

    fn describe_call(&self) -> String {
        match &self.call {
            Call::Judge => "judge".to_string(),
            Call::Try(change) => format!("try, {}", change.describe()),
            Call::Make(change, Output { length, seed }) => {
                format!("make, {}, output of {length} bytes, seed {seed}", change.describe())
            }
            Call::LookUp(number) => format!("look up file {number}"),
            Call::Reason(mark) => format!("reason of mark {mark}"),
        }
    }
}

impl Question for GatesCase {
    type Answer = Answer;
    type Sight = Sight;

    /// Eight little-endian 32-bit numbers, the bundle, and for a change the
    /// board and the new bytes.
    fn write(&self, out: &mut impl Write) -> io::Result<()> {
        write_words(out, &self.header())?;
        out.write_all(&self.bundle)?;
        match self.change() {
            None => Ok(()),
            Some(change) => {
                answer::write_marks(out, &change.board)?;
                out.write_all(change.bytes().unwrap_or(&[]))
            }
        }
    }

    fn read(input: &mut impl Read) -> io::Result<Option<GatesCase>> {
        let first = match read_first_word(input)? {
            Some(first) => first,
            None => return Ok(None),
        };
        let which = Which::numbered(first).ok_or_else(|| unsound("there is no such gate"))?;
        let mut words = [0; 7];
        for word in &mut words {
            *word = read_word(input)?;
        }
        let [op, length, number, present, new, output, seed] = words;
        let is_change = [TRY, MAKE].contains(&op);
        if present > 1 || (new > 0 && !(is_change && present == 1)) {
            return Err(unsound("there are new bytes without a file for them"));
        }
        if output as usize > LONGEST {
            return Err(unsound("an output is too long"));
        }
        let bundle = Arc::new(read_slice_within(input, length, LONGEST)?);
        let mut change = || -> io::Result<Change> {
            let board = answer::read_marks(input, which.gate().marks)?;
            let bytes = read_slice_within(input, new, LONGEST)?;
            Ok(Change { board, file: number, new: (present == 1).then(|| Arc::new(bytes)) })
        };
        let call = match op {
            JUDGE => Call::Judge,
            TRY => Call::Try(change()?),
            MAKE => Call::Make(change()?, Output { length: output, seed }),
            LOOK_UP => Call::LookUp(number),
            REASON => Call::Reason(number),
            _ => return Err(unsound("there is no such op")),
        };
        Ok(Some(GatesCase { which, bundle, call }))
    }

    fn answer(&self) -> Answer {
        let gate = self.which.gate();
        match &self.call {
            Call::Judge => {
                let judged = judge(gate, &self.bundle);
                Answer::Judged { refusal: judged.refusal, board: judged.marks }
            }
            Call::Try(change) => {
                let file = change.file as usize;
                let tried = try_change(gate, &self.bundle, &change.board, file, change.bytes());
                let Changed { refusal, length, marks } = tried;
                Answer::Tried { refusal, length: length as u32, board: marks }
            }
            Call::Make(change, output) => {
                let (file, mut output) = (change.file as usize, output.filled());
                let (board, new) = (&change.board, change.bytes());
                let made = make_change(gate, &self.bundle, board, file, new, &mut output);
                let Changed { refusal, length, marks } = made;
                Answer::Made { refusal, length: length as u32, board: marks, output }
            }
            Call::LookUp(file) => {
                let (state, bytes) = look_up(gate, &self.bundle, *file as usize);
                let (state, refusal) = match state {
                    FileState::Present => (0, 0),
                    FileState::Omitted => (1, 0),
                    FileState::Refused(refusal) => (2, refusal),
                };
                let length = bytes.len() as u32;
                Answer::Found(Part { state, refusal, length, bytes: bytes.to_vec() })
            }
            Call::Reason(mark) => Answer::Told(nine(reason(gate, &self.bundle, *mark as usize))),
        }
    }

    fn write_answer(answer: &Answer, out: &mut impl Write) -> io::Result<()> {
        answer.write(out)
    }

    fn read_answer(&self, input: &mut impl Read) -> Option<Answer> {
        let marks = self.which.gate().marks;
        let answer = match self.call {
            Call::Judge => Answer::read_judged(input, marks),
            Call::Try(_) => Answer::read_tried(input, marks),
            Call::Make(_, output) => Answer::read_made(input, marks, output.length),
            Call::LookUp(_) => Answer::read_found(input),
            Call::Reason(_) => Answer::read_told(input),
        };
        answer.ok()
    }

    fn describe(&self, expected: &Answer, answered: &Answer) -> String {
        let mut lines = vec![format!("{:?} gate, {}", self.which, self.describe_call())];
        lines.push(format!("  bundle {}", hex(&self.bundle, LONGEST_SHOWN)));
        if let Some(new) = self.change().and_then(Change::bytes) {
            lines.push(format!("  new {}", hex(new, LONGEST_SHOWN)));
        }
        lines.extend(differences(expected, answered));
        lines.join("\n")
    }

    fn wanted() -> Vec<Sight> {
        sights::wanted()
    }

    fn ruled_out() -> Vec<Sight> {
        sights::ruled_out()
    }

    fn sights(&self, expected: &Answer) -> Vec<Sight> {
        sights::sights_of(self, expected)
    }
}
