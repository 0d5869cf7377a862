//! A case of the calls with a lent list as bytes between two programs, and what
//! this program answers.

use std::io::{self, Read, Write};
use std::sync::Arc;

use super::sights::{self, Sight};
use crate::board::{Board, Mark, MARKS};
use crate::compare::gate::answer::{byte_difference, mark_differences};
use crate::compare::gate::case::{Bytes, Change, LONGEST};
use crate::compare::gates::answer::{read_marks, write_marks};
use crate::compare::run::{hex, Question};
use crate::compare::wire::{read_first_word, read_slice_within, read_word, unsound, write_words};
use crate::gate::judge;
use crate::listed::{judge_listed, make_listed, try_listed, Entry, Listed};

pub const JUDGE: u32 = 0;
pub const TRY: u32 = 1;
pub const MAKE: u32 = 2;
pub const PLAIN: u32 = 3;

/// No list of a case is longer.
pub const LONGEST_LIST: u32 = 8_192;

/// No bundle of a case is longer, and no output.
pub const LONGEST_BUNDLE: usize = 240_000;
pub const LONGEST_OUTPUT: u32 = 20_000;

/// Every byte of what is lent, before the call.
const LENT: u8 = 0xA5;

/// The marks that a call gets which hands in no board.
const NO_BOARD: Mark = Mark { kind: 9, place: 9, companion: 9 };

const LONGEST_SHOWN: usize = 600;

#[derive(Clone, Debug, PartialEq, Eq)]
pub struct ListedCase {
    pub bundle: Bytes,
    pub call: Call,
    /// How many entries the list has.
    pub list: u32,
}

#[derive(Clone, Debug, PartialEq, Eq)]
pub enum Call {
    Judge,
    Try(Change),
    /// Into an output of that length.
    Make(Change, u32),
    /// The plain engine's judgement, which takes no list.
    Plain,
}

/// What a call leaves. Of all but a made change the output is empty.
#[derive(Clone, Debug, PartialEq, Eq)]
pub struct Answer {
    pub refusal: u32,
    /// Of the bundle that was judged; 0 if refused.
    pub length: u32,
    /// How many entries the list starts with; 0 if refused, and of the plain engine.
    pub entries: u32,
    pub board: Vec<Mark>,
    pub output: Vec<u8>,
    pub list: Vec<Entry>,
}

/// A list before the call.
pub fn list_before(length: u32) -> Vec<Entry> {
    let word = u32::from_le_bytes([LENT; 4]);
    vec![Entry { start: word, length: word, sum: word, record: word }; length as usize]
}

impl ListedCase {
    pub fn op(&self) -> u32 {
        match self.call {
            Call::Judge => JUDGE,
            Call::Try(_) => TRY,
            Call::Make(..) => MAKE,
            Call::Plain => PLAIN,
        }
    }

    pub fn change(&self) -> Option<&Change> {
        match &self.call {
            Call::Try(change) | Call::Make(change, _) => Some(change),
            Call::Judge | Call::Plain => None,
        }
    }

    fn output(&self) -> u32 {
        match self.call {
            Call::Make(_, length) => length,
            _ => 0,
        }
    }

    fn read_whole_answer(&self, input: &mut impl Read) -> io::Result<Answer> {
        let (refusal, length) = (read_word(input)?, read_word(input)?);
        let entries = read_word(input)?;
        let board = read_marks(input, MARKS)?;
        let output = read_slice_within(input, self.output(), LONGEST_OUTPUT as usize)?;
        let mut list = Vec::new();
        for _ in 0..self.list {
            let (start, length) = (read_word(input)?, read_word(input)?);
            list.push(Entry { start, length, sum: read_word(input)?, record: read_word(input)? });
        }
        Ok(Answer { refusal, length, entries, board, output, list })
    }

    /// As many bytes as the case is sent in.
    pub fn sent_length(&self) -> usize {
        let new = self.change().and_then(|change| change.new.as_deref()).map_or(0, Vec::len);
        28 + self.bundle.len() + new + 12 * MARKS
    }
}

impl Question for ListedCase {
    type Answer = Answer;
    type Sight = Sight;

    /// Seven little-endian 32-bit numbers, the bundle, the marks that the call gets,
    /// and the new bytes.
    fn write(&self, out: &mut impl Write) -> io::Result<()> {
        let change = self.change();
        let new = change.and_then(|change| change.new.as_deref());
        let header = [
            self.op(),
            self.bundle.len() as u32,
            change.map_or(0, |change| change.number),
            u32::from(new.is_some()),
            new.map_or(0, |new| new.len() as u32),
            self.output(),
            self.list,
        ];
        write_words(out, &header)?;
        out.write_all(&self.bundle)?;
        write_marks(out, &change.map_or([NO_BOARD; MARKS], |change| change.board.marks))?;
        out.write_all(new.map_or(&[], Vec::as_slice))
    }

    fn read(input: &mut impl Read) -> io::Result<Option<ListedCase>> {
        let op = match read_first_word(input)? {
            Some(op) => op,
            None => return Ok(None),
        };
        let mut words = [0; 6];
        for word in &mut words {
            *word = read_word(input)?;
        }
        let [length, number, present, new, output, list] = words;
        let is_change = [TRY, MAKE].contains(&op);
        if present > 1 || (new > 0 && !(is_change && present == 1)) {
            return Err(unsound("there are new bytes without a file for them"));
        }
        if output > LONGEST_OUTPUT || list > LONGEST_LIST {
            return Err(unsound("an output or a list is too long"));
        }
        let bundle = Arc::new(read_slice_within(input, length, LONGEST_BUNDLE)?);
        let mut board = Board::fresh();
        board.marks.copy_from_slice(&read_marks(input, MARKS)?);
        let bytes = read_slice_within(input, new, LONGEST)?;
        let change = Change { board, number, new: (present == 1).then(|| Arc::new(bytes)) };
        let call = match op {
            JUDGE => Call::Judge,
            TRY => Call::Try(change),
            MAKE => Call::Make(change, output),
            PLAIN => Call::Plain,
            _ => return Err(unsound("there is no such op")),
        };
        Ok(Some(ListedCase { bundle, call, list }))
    }

    fn answer(&self) -> Answer {
        let mut list = list_before(self.list);
        let mut output = vec![LENT; self.output() as usize];
        let new = self.change().and_then(|change| change.new.as_deref()).map(Vec::as_slice);
        let bundle = &self.bundle;
        let listed = match &self.call {
            Call::Judge => judge_listed(bundle, &mut list),
            Call::Try(change) => {
                try_listed(bundle, &change.board, change.number as usize, new, &mut list)
            }
            Call::Make(change, _) => {
                let file = change.number as usize;
                make_listed(bundle, &change.board, file, new, &mut output, &mut list)
            }
            Call::Plain => {
                let verdict = judge(bundle);
                let length = if verdict.refusal == 0 { bundle.len() } else { 0 };
                Listed { refusal: verdict.refusal, length, entries: 0, board: verdict.board }
            }
        };
        let Listed { refusal, length, entries, board } = listed;
        let (length, entries) = (length as u32, entries as u32);
        Answer { refusal, length, entries, board: board.marks.to_vec(), output, list }
    }

    fn write_answer(answer: &Answer, out: &mut impl Write) -> io::Result<()> {
        write_words(out, &[answer.refusal, answer.length, answer.entries])?;
        write_marks(out, &answer.board)?;
        out.write_all(&answer.output)?;
        for Entry { start, length, sum, record } in &answer.list {
            write_words(out, &[*start, *length, *sum, *record])?;
        }
        Ok(())
    }

    fn read_answer(&self, input: &mut impl Read) -> Option<Answer> {
        self.read_whole_answer(input).ok()
    }

    fn describe(&self, expected: &Answer, answered: &Answer) -> String {
        let call = match &self.call {
            Call::Judge => "judge".to_string(),
            Call::Plain => "judge plainly".to_string(),
            Call::Try(change) => format!("try, file {}", change.number),
            Call::Make(change, length) => format!("make, file {}, into {length}", change.number),
        };
        let mut lines = vec![format!("{call}, list of {}", self.list)];
        lines.push(format!("  bundle {}", hex(&self.bundle, LONGEST_SHOWN)));
        if let Some(new) = self.change().and_then(|change| change.new.as_deref()) {
            lines.push(format!("  new {}", hex(new, LONGEST_SHOWN)));
        }
        let head = |answer: &Answer| {
            format!(
                "refusal {} length {} entries {}",
                answer.refusal, answer.length, answer.entries
            )
        };
        if head(expected) != head(answered) {
            lines.push(format!("  expected {}", head(expected)));
            lines.push(format!("  answered {}", head(answered)));
        }
        lines.extend(mark_differences(&expected.board, &answered.board));
        lines.extend(byte_difference(&expected.output, &answered.output));
        let mut pairs = expected.list.iter().zip(&answered.list).enumerate();
        if let Some((at, (right, wrong))) = pairs.find(|(_, (right, wrong))| right != wrong) {
            lines.push(format!("  entry {at}: expected {right:?}, answered {wrong:?}"));
        }
        lines.join("\n")
    }

    fn wanted() -> Vec<Sight> {
        sights::wanted()
    }

    fn ruled_out() -> Vec<Sight> {
        sights::ruled_out()
    }

    fn sights(&self, expected: &Answer) -> Vec<Sight> {
        sights::sights_of(self, expected)
    }
}
