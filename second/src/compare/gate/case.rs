//! A case of the whole gate as bytes between two programs, and what this
//! program answers.

use std::io::{self, Read, Write};
use std::sync::Arc;

use super::answer::{self, Answer, Part};
use super::sights::{self, Sight};
use crate::board::Board;
use crate::bundle::{file_part, file_state, FileState, LARGEST_BUNDLE};
use crate::compare::run::{hex, Question};
use crate::compare::wire::{read_first_word, read_slice_within, read_word, unsound, write_words};
use crate::gate::{judge, make_change, try_change};
use crate::reason::reason;

pub const JUDGE: u32 = 0;
pub const TRY: u32 = 1;
pub const MAKE: u32 = 2;
pub const LOOK_UP: u32 = 3;

/// Added to an op whose call judges in a workspace that it is lent: the answer
/// is the same.
pub const LENT: u32 = 4;

/// The reason of a mark has an op of its own for either memory.
pub const REASON: u32 = 7;
pub const REASON_LENT: u32 = 8;

/// No bundle, file or output of a case is longer: one byte over the limit.
pub const LONGEST: usize = LARGEST_BUNDLE + 1;

const LONGEST_SHOWN: usize = 600;

/// Bytes that many cases have in common.
pub type Bytes = Arc<Vec<u8>>;

/// One call of the gate over a bundle.
#[derive(Clone, Debug, PartialEq, Eq)]
pub struct GateCase {
    pub bundle: Bytes,
    pub call: Call,
    pub lent: bool,
}

#[derive(Clone, Debug, PartialEq, Eq)]
pub enum Call {
    Judge,
    Try(Change),
    Make(Change, Output),
    LookUp(u32),
    /// Why the mark of that number is what it is.
    Reason(u32),
}

/// A change of one file against a board: its new bytes, or nothing if it is
/// withdrawn.
#[derive(Clone, Debug, PartialEq, Eq)]
pub struct Change {
    pub board: Board,
    pub number: u32,
    pub new: Option<Bytes>,
}

/// An output of that length, filled with a pattern before the call.
#[derive(Clone, Copy, Debug, PartialEq, Eq)]
pub struct Output {
    pub length: u32,
    pub seed: u32,
}

impl Output {
    /// Byte i is (seed + 7 i) mod 256.
    pub fn filled(self) -> Vec<u8> {
        (0..self.length).map(|i| self.seed.wrapping_add(i.wrapping_mul(7)) as u8).collect()
    }
}

/// The seven numbers that a case begins with.
struct Header {
    op: u32,
    bundle: u32,
    number: u32,
    present: u32,
    new: u32,
    output: u32,
    seed: u32,
}

impl Header {
    fn read(op: u32, input: &mut impl Read) -> io::Result<Header> {
        let header = Header {
            op,
            bundle: read_word(input)?,
            number: read_word(input)?,
            present: read_word(input)?,
            new: read_word(input)?,
            output: read_word(input)?,
            seed: read_word(input)?,
        };
        header.check().map(|()| header)
    }

    fn check(&self) -> io::Result<()> {
        if self.op > REASON_LENT {
            return Err(unsound("there is no such op"));
        }
        if self.output as usize > LONGEST {
            return Err(unsound("an output is too long"));
        }
        let has_new = self.is_change() && self.present == 1;
        if self.present > 1 || (self.new > 0 && !has_new) {
            return Err(unsound("there are new bytes without a file for them"));
        }
        Ok(())
    }

    fn is_change(&self) -> bool {
        [TRY, MAKE].contains(&parts_of(self.op).0)
    }
}

/// The op of the same call with memory of its own, and whether it is lent some.
fn parts_of(op: u32) -> (u32, bool) {
    match op {
        REASON => (REASON, false),
        REASON_LENT => (REASON, true),
        _ => (op % LENT, op >= LENT),
    }
}

impl GateCase {
    /// With memory of its own for the call.
    pub fn new(bundle: Bytes, call: Call) -> GateCase {
        GateCase { bundle, call, lent: false }
    }

    /// In a lent workspace, which a lookup has no use for.
    pub fn lent(bundle: Bytes, call: Call) -> GateCase {
        let lent = !matches!(call, Call::LookUp(_));
        GateCase { bundle, call, lent }
    }

    pub fn op(&self) -> u32 {
        let (op, lent) = match self.call {
            Call::Judge => (JUDGE, JUDGE + LENT),
            Call::Try(_) => (TRY, TRY + LENT),
            Call::Make(..) => (MAKE, MAKE + LENT),
            Call::LookUp(_) => (LOOK_UP, LOOK_UP),
            Call::Reason(_) => (REASON, REASON_LENT),
        };
        if self.lent {
            lent
        } else {
            op
        }
    }

    pub fn change(&self) -> Option<&Change> {
        match &self.call {
            Call::Try(change) | Call::Make(change, _) => Some(change),
            Call::Judge | Call::LookUp(_) | Call::Reason(_) => None,
        }
    }

    /// Numbers that a call has no use for are 0.
    fn header(&self) -> [u32; 7] {
        let number = match &self.call {
            Call::Judge => 0,
            Call::Try(change) | Call::Make(change, _) => change.number,
            Call::LookUp(number) | Call::Reason(number) => *number,
        };
        let new = self.change().and_then(|change| change.new.as_deref());
        let output = match self.call {
            Call::Make(_, output) => output,
            _ => Output { length: 0, seed: 0 },
        };
        [
            self.op(),
            self.bundle.len() as u32,
            number,
            u32::from(new.is_some()),
            new.map_or(0, |new| new.len() as u32),
            output.length,
            output.seed,
        ]
    }

    /// As many bytes as the case is sent in.
    pub fn sent_length(&self) -> usize {
        let board = if self.change().is_some() { answer::BOARD_BYTES } else { 0 };
        let new = self.change().and_then(|change| change.new.as_deref()).map_or(0, Vec::len);
        28 + self.bundle.len() + board + new
    }
}

impl Question for GateCase {
    type Answer = Answer;
    type Sight = Sight;

    /// Seven little-endian 32-bit numbers, the bundle, and for a change the
    /// board and the new bytes.
    fn write(&self, out: &mut impl Write) -> io::Result<()> {
        write_words(out, &self.header())?;
        out.write_all(&self.bundle)?;
        let change = match self.change() {
            Some(change) => change,
            None => return Ok(()),
        };
        answer::write_board(out, &change.board)?;
        out.write_all(change.new.as_deref().map_or(&[], Vec::as_slice))
    }

    fn read(input: &mut impl Read) -> io::Result<Option<GateCase>> {
        let op = match read_first_word(input)? {
            Some(op) => op,
            None => return Ok(None),
        };
        let header = Header::read(op, input)?;
        let bundle = Arc::new(read_slice_within(input, header.bundle, LONGEST)?);
        let (owned, lent) = parts_of(op);
        let call = match owned {
            JUDGE => Call::Judge,
            TRY => Call::Try(read_change(&header, input)?),
            MAKE => {
                let output = Output { length: header.output, seed: header.seed };
                Call::Make(read_change(&header, input)?, output)
            }
            REASON => Call::Reason(header.number),
            _ => Call::LookUp(header.number),
        };
        Ok(Some(GateCase { bundle, call, lent }))
    }

    fn answer(&self) -> Answer {
        match &self.call {
            Call::Judge => Answer::judged(judge(&self.bundle)),
            Call::Try(change) => {
                let number = change.number as usize;
                Answer::judged(try_change(&self.bundle, &change.board, number, change.bytes()))
            }
            Call::Make(change, output) => answer_made(&self.bundle, change, *output),
            Call::LookUp(number) => Answer::Found(answer_part(&self.bundle, *number)),
            Call::Reason(mark) => Answer::told(reason(&self.bundle, *mark as usize)),
        }
    }

    fn write_answer(answer: &Answer, out: &mut impl Write) -> io::Result<()> {
        answer.write(out)
    }

    fn read_answer(&self, input: &mut impl Read) -> Option<Answer> {
        let answer = match self.call {
            Call::Judge | Call::Try(_) => Answer::read_judged(input),
            Call::Make(_, output) => Answer::read_made(input, output.length),
            Call::LookUp(_) => Answer::read_found(input),
            Call::Reason(_) => Answer::read_told(input),
        };
        answer.ok()
    }

    fn describe(&self, expected: &Answer, answered: &Answer) -> String {
        let memory = if self.lent { ", in a lent workspace" } else { "" };
        let mut lines = vec![format!("{}{memory}", self.describe_call())];
        lines.push(format!("  bundle {}", hex(&self.bundle, LONGEST_SHOWN)));
        if let Some(new) = self.change().and_then(|change| change.new.as_deref()) {
            lines.push(format!("  new {}", hex(new, LONGEST_SHOWN)));
        }
        lines.extend(answer::differences(expected, answered));
        lines.join("\n")
    }

    fn wanted() -> Vec<Sight> {
        sights::wanted()
    }

    fn ruled_out() -> Vec<Sight> {
        sights::ruled_out()
    }

    fn sights(&self, expected: &Answer) -> Vec<Sight> {
        sights::sights_of(self, expected)
    }
}

impl Change {
    pub(in crate::compare) fn bytes(&self) -> Option<&[u8]> {
        self.new.as_deref().map(Vec::as_slice)
    }

    pub(in crate::compare) fn describe(&self) -> String {
        match &self.new {
            Some(new) => format!("file {} replaced by {} bytes", self.number, new.len()),
            None => format!("file {} withdrawn", self.number),
        }
    }
}

impl GateCase {
    fn describe_call(&self) -> String {
        match &self.call {
            Call::Judge => "judge".to_string(),
            Call::Try(change) => format!("try, {}", change.describe()),
            Call::Make(change, output) => {
                let Output { length, seed } = output;
                format!("make, {}, output of {length} bytes, seed {seed}", change.describe())
            }
            Call::LookUp(number) => format!("look up file {number}"),
            Call::Reason(mark) => format!("reason of mark {mark}"),
        }
    }
}

fn read_change(header: &Header, input: &mut impl Read) -> io::Result<Change> {
    let board = answer::read_board(input)?;
    let new = match header.present {
        0 => None,
        _ => Some(Arc::new(read_slice_within(input, header.new, LONGEST)?)),
    };
    Ok(Change { board, number: header.number, new })
}

fn answer_made(bundle: &[u8], change: &Change, output: Output) -> Answer {
    let mut output = output.filled();
    let number = change.number as usize;
    let verdict = make_change(bundle, &change.board, number, change.bytes(), &mut output);
    let length = match verdict.refusal {
        0 => new_length(bundle, change) as u32,
        _ => 0,
    };
    Answer::Made { refusal: verdict.refusal, length, board: verdict.board, output }
}

/// The length of the bundle after an accepted change.
pub(in crate::compare) fn new_length(bundle: &[u8], change: &Change) -> usize {
    let old = file_part(bundle, change.number as usize);
    bundle.len() - old.len() + change.bytes().map_or(0, <[u8]>::len)
}

fn answer_part(bundle: &[u8], number: u32) -> Part {
    let (state, refusal) = match file_state(bundle, number as usize) {
        FileState::Present => (0, 0),
        FileState::Omitted => (1, 0),
        FileState::Refused(refusal) => (2, refusal),
    };
    let bytes = file_part(bundle, number as usize).to_vec();
    Part { state, refusal, length: bytes.len() as u32, bytes }
}

#[cfg(test)]
mod tests {
    use super::*;
    use crate::board::{Mark, HOLDS, MARKS};
    use crate::compare::gate::sample::Set;

    fn bytes(bytes: &[u8]) -> Bytes {
        Arc::new(bytes.to_vec())
    }

    fn small() -> Bytes {
        Arc::new(Set::empty().with(5, "[]").bundle())
    }

    fn numbered_board() -> Board {
        let mut board = Board::fresh();
        for (place, mark) in board.marks.iter_mut().enumerate() {
            *mark = Mark { kind: 7, place: place as u32, companion: 300 + place as u32 };
        }
        board
    }

    fn change(number: u32, new: Option<&[u8]>) -> Change {
        Change { board: numbered_board(), number, new: new.map(bytes) }
    }

    fn make(number: u32, new: Option<&[u8]>, length: u32) -> GateCase {
        let output = Output { length, seed: 250 };
        GateCase::new(small(), Call::Make(change(number, new), output))
    }

    fn sent(case: &GateCase) -> Vec<u8> {
        let mut bytes = Vec::new();
        case.write(&mut bytes).unwrap();
        bytes
    }

    #[test]
    fn a_case_comes_back_from_its_bytes() {
        let calls = [
            Call::Judge,
            Call::Try(change(5, Some(b""))),
            Call::Try(change(5, None)),
            Call::Make(change(u32::MAX, Some(b"abc")), Output { length: 9, seed: u32::MAX }),
            Call::LookUp(1 << 31),
            Call::Reason(0),
            Call::Reason(u32::MAX),
        ];
        let owned = calls.iter().map(|call| GateCase::new(small(), call.clone()));
        let lent = calls.iter().map(|call| GateCase::lent(small(), call.clone()));
        for case in owned.chain(lent) {
            let bytes = sent(&case);
            assert_eq!(bytes.len(), case.sent_length());
            let mut input = &bytes[..];
            assert_eq!(GateCase::read(&mut input).unwrap(), Some(case));
            assert_eq!(GateCase::read(&mut input).unwrap(), None);
            assert!(GateCase::read(&mut &bytes[..bytes.len() - 1]).is_err());
            assert!(GateCase::read(&mut &bytes[..27]).is_err());
        }
    }

    #[test]
    fn a_case_begins_with_seven_numbers() {
        let bytes = sent(&make(5, Some(b"abc"), 9));
        let words: Vec<u32> = bytes[..28]
            .chunks_exact(4)
            .map(|word| u32::from_le_bytes(word.try_into().unwrap()))
            .collect();
        assert_eq!(words, [2, 166, 5, 1, 3, 9, 250]);
        assert_eq!(bytes[28..28 + 166], small()[..]);
        let board = &bytes[28 + 166..];
        assert_eq!(board[..12], [7, 0, 0, 0, 0, 0, 0, 0, 44, 1, 0, 0]);
        assert_eq!(board[12..24], [7, 0, 0, 0, 1, 0, 0, 0, 45, 1, 0, 0]);
        assert_eq!(bytes.len(), 28 + 166 + 12 * MARKS + 3);
        assert_eq!(&bytes[bytes.len() - 3..], b"abc");
    }

    #[test]
    fn unsound_cases_are_not_answered() {
        let longer = LONGEST as u32 + 1;
        let headers: [[u32; 7]; 11] = [
            [9, 0, 0, 0, 0, 0, 0],
            [7, longer, 0, 0, 0, 0, 0],
            [7, 0, 0, 1, 1, 0, 0],
            [8, 0, 0, 1, 1, 0, 0],
            [0, longer, 0, 0, 0, 0, 0],
            [1, 0, 0, 1, longer, 0, 0],
            [2, 0, 0, 0, 0, longer, 0],
            [2, 0, 0, 0, 1, 0, 0],
            [2, 0, 0, 2, 0, 0, 0],
            [0, 0, 0, 1, 1, 0, 0],
            [3, 0, 0, 1, 1, 0, 0],
        ];
        for header in headers {
            let mut bytes: Vec<u8> = header.iter().flat_map(|word| word.to_le_bytes()).collect();
            bytes.resize(3_000_000, 0);
            assert!(GateCase::read(&mut &bytes[..]).is_err(), "{header:?}");
        }
    }

    #[test]
    fn the_longest_slices_are_taken() {
        let long = bytes(&vec![b' '; LONGEST]);
        let change = Change { board: Board::fresh(), number: 4, new: Some(long.clone()) };
        let output = Output { length: LONGEST as u32, seed: 1 };
        let case = GateCase::new(long, Call::Make(change, output));
        assert_eq!(GateCase::read(&mut &sent(&case)[..]).unwrap(), Some(case));
    }

    #[test]
    fn the_output_is_filled_with_its_pattern() {
        assert_eq!(Output { length: 4, seed: 250 }.filled(), [250, 1, 8, 15]);
        assert_eq!(Output { length: 2, seed: u32::MAX }.filled(), [255, 6]);
        let filled = Output { length: LONGEST as u32, seed: 0 }.filled();
        assert_eq!(filled[LARGEST_BUNDLE], (7 * LARGEST_BUNDLE % 256) as u8);
    }

    #[test]
    fn a_made_change_starts_the_output() {
        let Answer::Made { refusal, length, board, output } = make(4, Some(b" []"), 171).answer()
        else {
            panic!("the answer of a made change");
        };
        assert_eq!((refusal, length), (0, 169));
        assert_eq!(output[..169], Set::empty().with(4, " []").with(5, "[]").bundle());
        let pattern = Output { length: 171, seed: 250 }.filled();
        assert_eq!(output[169..], pattern[169..]);
        assert_eq!(board.marks[4], HOLDS);
        assert_eq!(board.marks[5], numbered_board().marks[5]);
    }

    #[test]
    fn a_refused_change_hands_all_back() {
        let expected = |refusal| Answer::Made {
            refusal,
            length: 0,
            board: numbered_board(),
            output: Output { length: 168, seed: 250 }.filled(),
        };
        assert_eq!(make(4, Some(b" []"), 168).answer(), expected(5));
        assert_eq!(make(20, None, 168).answer(), expected(4));
    }

    #[test]
    fn a_file_is_looked_up() {
        let look_up = |number| GateCase::new(small(), Call::LookUp(number)).answer();
        let found = |state, refusal, bytes: &[u8]| {
            let length = bytes.len() as u32;
            Answer::Found(Part { state, refusal, length, bytes: bytes.to_vec() })
        };
        assert_eq!(look_up(5), found(0, 0, b"[]"));
        assert_eq!(look_up(6), found(1, 0, b""));
        assert_eq!(look_up(20), found(2, 4, b""));
    }

    #[test]
    fn a_reason_is_asked_in_an_op_of_its_own() {
        let ask = |mark| Call::Reason(mark);
        let (owned, lent) =
            (GateCase::new(small(), ask(5)), GateCase::lent(small(), ask(u32::MAX)));
        assert_eq!(sent(&owned)[..12], [7, 0, 0, 0, 166, 0, 0, 0, 5, 0, 0, 0]);
        assert_eq!(sent(&lent)[..12], [8, 0, 0, 0, 166, 0, 0, 0, 255, 255, 255, 255]);
        assert_eq!(sent(&lent)[12..28], [0; 16]);
        assert_eq!((sent(&owned).len(), sent(&lent).len()), (28 + 166, 28 + 166));
        assert_eq!(owned.answer(), Answer::Told([1, 0, 0, 0, 0, 0, 0, 0, 0]));
        assert_eq!(lent.answer(), Answer::Told([0, 7, 0, 0, 0, 0, 0, 0, 0]));
        let shown = lent.describe(&lent.answer(), &lent.answer());
        assert!(shown.starts_with("reason of mark 4294967295, in a lent workspace\n"));
    }

    #[test]
    fn a_case_is_described_with_its_bytes() {
        let case = make(5, Some(b"abc"), 9);
        let shown = case.describe(&case.answer(), &case.answer());
        let call = "make, file 5 replaced by 3 bytes, output of 9 bytes, seed 250";
        assert!(shown.starts_with(&format!("{call}\n  bundle (166) 14000000")));
        assert!(shown.ends_with("5b5d\n  new (3) 616263"));
    }
}
