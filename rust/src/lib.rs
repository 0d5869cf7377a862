//! The gates: judge a bundle in full, try a change, make it, ask why a mark doesn't hold, ask for a file, print a report.
//! `Gate` says by which: document 01's, its baseline profile, or that of the contract side.
//!
//! It stands on the static library that `c/build gate_c` writes, for x86-64 Linux. Set `KNOTSADDLE_LIB_DIR` to the
//! folder that holds `libgate_c.a`; without it `../target/staticlib` is searched. `docs/BUNDLE.md` has the layout of a bundle,
//! `c/knotsaddle.h` what the numbers of a board mean.
//!
//! `judge`, `try_change`, `make_change` and `reason` get a workspace of 3,178,808 bytes from the heap and give it back.
//! `judge_in`, `try_in`, `make_in` and `reason_in` do the same in a workspace that the caller lends. A reason uses some 142 KB of
//! stack, the others some 139 KB. Nothing is kept between calls, so any number of threads may call at once.

use std::fmt;

pub mod desks;
pub mod drawer;
pub mod listed;
pub mod loops;
pub mod quarter;

/// How many files a set has.
pub const FILES: usize = 20;
/// How many marks a board of document 01's gate has.
pub const MARKS: usize = 81;
/// How many a board of the baseline profile has.
pub const BASELINE_MARKS: usize = 85;
/// How many files a set of the contract side has.
pub const CONTRACT_FILES: usize = 4;
/// How many marks its board has.
pub const CONTRACT_MARKS: usize = 19;
/// How many numbers a lent workspace must have; for the contract side 188,416 are enough.
pub const WORKSPACE: usize = 794_702;
/// The length of the bundle with no files; that of the contract side has 36 bytes.
pub const EMPTY_BUNDLE: usize = 164;
/// The room that a report needs.
pub const REPORT_ROOM: usize = 6400;
/// The length of the longest name of a file; no field has a longer one.
const NAME_ROOM: usize = 35;

/// The gates, by the numbers under which the calls know them.
#[derive(Clone, Copy, Debug, PartialEq, Eq)]
pub enum Gate {
    /// Document 01's.
    Schedule = 0,
    /// Its profile for a delivery at contract start.
    Baseline = 1,
    /// That of the contract side: Subcontractors, WBS, OBS and ControlAccounts.
    Contract = 2,
}

impl Gate {
    /// How many marks a board has.
    pub fn marks(self) -> usize {
        match self {
            Gate::Schedule => MARKS,
            Gate::Baseline => BASELINE_MARKS,
            Gate::Contract => CONTRACT_MARKS,
        }
    }

    fn number(self) -> u32 {
        self as u32
    }
}

/// The board of a gate: a kind, a place and a companion for each of its marks. Kind 0: the mark holds.
#[derive(Clone, Debug, PartialEq, Eq)]
pub struct Board {
    pub gate: Gate,
    pub kinds: Vec<u32>,
    pub places: Vec<usize>,
    pub companions: Vec<usize>,
}

/// Why a call is refused, by its number: document 01's 1 to 6, 7 for a mark number that is too high, 8 to 13 by the modules beside this
/// one, 14 where a lent workspace is too short, 100 for a board of another length than its gate's, 102 where there is no memory for a
/// workspace. In words by `Display`.
#[derive(Clone, Copy, Debug, PartialEq, Eq)]
pub struct Refusal(pub u32);

/// What a change gives: the board after it, and the length of the new bundle.
#[derive(Clone, Debug, PartialEq, Eq)]
pub struct Changed {
    pub board: Board,
    pub length: usize,
}

/// What is shown of a rule that is broken.
#[derive(Clone, Copy, Debug, PartialEq, Eq)]
pub struct Shown<'a> {
    /// The file whose record breaks the rule.
    pub file: usize,
    /// The first record that does, from 1.
    pub record: usize,
    /// The record that goes with it, from 1: the earliest with the same key, or the parent; 0 for none.
    pub companion: usize,
    /// The field that decides, counted from 0 within its table; `field_name` has its name.
    pub field: usize,
    /// Its value as the part of the bundle itself, quotes included; empty for null.
    pub value: &'a [u8],
}

/// What is told of a mark.
#[derive(Clone, Copy, Debug, PartialEq, Eq)]
pub enum Reason<'a> {
    /// The mark holds.
    Holds,
    /// A rule that is not judged, with the lowest-numbered unreadable file among those that it reads.
    NotJudged { file: usize },
    /// A file's own mark that doesn't hold: its numbers, as on a board.
    OwnMark { kind: u32, place: usize, companion: usize },
    /// A rule that is broken.
    Broken(Shown<'a>),
    /// A rule that is broken because no record of the file searched has the value.
    Missing { shown: Shown<'a>, searched: usize },
}

const NO_MEMORY: Refusal = Refusal(102);

/// How many numbers tell a reason.
const TOLD_NUMBERS: usize = 9;

// A slice is passed as its pointer and then its length. `usize` is C's `size_t`.
extern "C" {
    fn knotsaddle_judge(
        gate: u32,
        bundle: *const u8,
        bundle_length: usize,
        kinds: *mut u32,
        kinds_length: usize,
        places: *mut usize,
        places_length: usize,
        companions: *mut usize,
        companions_length: usize,
        work: *mut u32,
        work_length: usize,
    ) -> u32;
    fn knotsaddle_try(
        gate: u32,
        bundle: *const u8,
        bundle_length: usize,
        kinds: *mut u32,
        kinds_length: usize,
        places: *mut usize,
        places_length: usize,
        companions: *mut usize,
        companions_length: usize,
        file: usize,
        present: u32,
        new_bytes: *const u8,
        new_bytes_length: usize,
        size: *mut usize,
        size_length: usize,
        work: *mut u32,
        work_length: usize,
    ) -> u32;
    fn knotsaddle_make(
        gate: u32,
        bundle: *const u8,
        bundle_length: usize,
        kinds: *mut u32,
        kinds_length: usize,
        places: *mut usize,
        places_length: usize,
        companions: *mut usize,
        companions_length: usize,
        file: usize,
        present: u32,
        new_bytes: *const u8,
        new_bytes_length: usize,
        out: *mut u8,
        out_length: usize,
        size: *mut usize,
        size_length: usize,
        work: *mut u32,
        work_length: usize,
    ) -> u32;
    fn knotsaddle_reason(
        gate: u32,
        bundle: *const u8,
        bundle_length: usize,
        mark: usize,
        told: *mut usize,
        told_length: usize,
        work: *mut u32,
        work_length: usize,
    ) -> u32;
    fn knotsaddle_report(
        gate: u32,
        refusal: u32,
        kinds: *const u32,
        kinds_length: usize,
        places: *const usize,
        places_length: usize,
        companions: *const usize,
        companions_length: usize,
        out: *mut u8,
        out_length: usize,
    ) -> usize;
    fn knotsaddle_file(
        gate: u32,
        bundle: *const u8,
        bundle_length: usize,
        file: usize,
        present: *mut u32,
        present_length: usize,
        place: *mut usize,
        place_length: usize,
    ) -> u32;
    fn knotsaddle_empty(gate: u32, out: *mut u8, out_length: usize) -> usize;
    fn knotsaddle_fresh(
        gate: u32,
        kinds: *mut u32,
        kinds_length: usize,
        places: *mut usize,
        places_length: usize,
        companions: *mut usize,
        companions_length: usize,
    ) -> u32;
    fn knotsaddle_faults(kinds: *const u32, kinds_length: usize) -> usize;
    fn knotsaddle_file_name(gate: u32, file: usize, out: *mut u8, out_length: usize) -> usize;
    fn knotsaddle_field_name(gate: u32, file: usize, field: usize, out: *mut u8, out_length: usize) -> usize;
}

// In each call below every pointer comes from a slice or an array of the length beside it, and what is written is lent
// alone. A gate's number is one of those that there are, the list of a reason has the right length by its type, and `present` is
// 1 or 0, so no call answers 103 or 101, and 100 only for a board whose lists a caller made longer or shorter.

impl Board {
    /// Every mark 'not judged'.
    pub fn fresh(gate: Gate) -> Board {
        let marks = gate.marks();
        let mut board = Board {
            gate,
            kinds: vec![0; marks],
            places: vec![0; marks],
            companions: vec![0; marks],
        };
        unsafe {
            knotsaddle_fresh(
                gate.number(),
                board.kinds.as_mut_ptr(),
                marks,
                board.places.as_mut_ptr(),
                marks,
                board.companions.as_mut_ptr(),
                marks,
            );
        }
        board
    }

    /// How many marks don't hold.
    pub fn faults(&self) -> usize {
        unsafe { knotsaddle_faults(self.kinds.as_ptr(), self.kinds.len()) }
    }

    /// Whether all marks of its gate hold.
    pub fn is_accepted(&self) -> bool {
        self.kinds.len() == self.gate.marks() && self.faults() == 0
    }
}

fn answer<T>(refusal: u32, value: T) -> Result<T, Refusal> {
    if refusal == 0 {
        Ok(value)
    } else {
        Err(Refusal(refusal))
    }
}

/// Judges a bundle in full in a lent workspace of at least `WORKSPACE` numbers, whatever they are. After a refusal it is as
/// it was, else it holds what was read; it may be lent again as it is.
pub fn judge_in(gate: Gate, bundle: &[u8], work: &mut [u32]) -> Result<Board, Refusal> {
    let mut board = Board::fresh(gate);
    let refusal = unsafe {
        knotsaddle_judge(
            gate.number(),
            bundle.as_ptr(),
            bundle.len(),
            board.kinds.as_mut_ptr(),
            board.kinds.len(),
            board.places.as_mut_ptr(),
            board.places.len(),
            board.companions.as_mut_ptr(),
            board.companions.len(),
            work.as_mut_ptr(),
            work.len(),
        )
    };
    answer(refusal, board)
}

/// Tries a change of a file, 0 to 19, in a lent workspace, to new bytes or, with `None`, to no file: the board after it, and
/// the length that the new bundle would have. No bundle is made.
pub fn try_in(
    bundle: &[u8],
    board: &Board,
    file: usize,
    new: Option<&[u8]>,
    work: &mut [u32],
) -> Result<Changed, Refusal> {
    let mut board = board.clone();
    let bytes = new.unwrap_or(&[]);
    let mut size = [0usize; 1];
    let refusal = unsafe {
        knotsaddle_try(
            board.gate.number(),
            bundle.as_ptr(),
            bundle.len(),
            board.kinds.as_mut_ptr(),
            board.kinds.len(),
            board.places.as_mut_ptr(),
            board.places.len(),
            board.companions.as_mut_ptr(),
            board.companions.len(),
            file,
            new.is_some() as u32,
            bytes.as_ptr(),
            bytes.len(),
            size.as_mut_ptr(),
            1,
            work.as_mut_ptr(),
            work.len(),
        )
    };
    let length = size[0];
    answer(refusal, Changed { board, length })
}

/// Makes a change in a lent workspace, handed over as to `try_in`: the new bundle goes to the front of `out`. After a refusal
/// `out` is as it was.
pub fn make_in(
    bundle: &[u8],
    board: &Board,
    file: usize,
    new: Option<&[u8]>,
    out: &mut [u8],
    work: &mut [u32],
) -> Result<Changed, Refusal> {
    let mut board = board.clone();
    let bytes = new.unwrap_or(&[]);
    let mut size = [0usize; 1];
    let refusal = unsafe {
        knotsaddle_make(
            board.gate.number(),
            bundle.as_ptr(),
            bundle.len(),
            board.kinds.as_mut_ptr(),
            board.kinds.len(),
            board.places.as_mut_ptr(),
            board.places.len(),
            board.companions.as_mut_ptr(),
            board.companions.len(),
            file,
            new.is_some() as u32,
            bytes.as_ptr(),
            bytes.len(),
            out.as_mut_ptr(),
            out.len(),
            size.as_mut_ptr(),
            1,
            work.as_mut_ptr(),
            work.len(),
        )
    };
    let length = size[0];
    answer(refusal, Changed { board, length })
}

/// What is told of a mark of a bundle, in a lent workspace.
pub fn reason_in<'a>(
    gate: Gate,
    bundle: &'a [u8],
    mark: usize,
    work: &mut [u32],
) -> Result<Reason<'a>, Refusal> {
    let mut told = [0usize; TOLD_NUMBERS];
    let refusal = unsafe {
        knotsaddle_reason(
            gate.number(),
            bundle.as_ptr(),
            bundle.len(),
            mark,
            told.as_mut_ptr(),
            TOLD_NUMBERS,
            work.as_mut_ptr(),
            work.len(),
        )
    };
    answer(refusal, ())?;
    Ok(reason_told(bundle, told))
}

/// The reason by its nine numbers; `c/knotsaddle.h` says what each means.
fn reason_told(bundle: &[u8], told: [usize; TOLD_NUMBERS]) -> Reason<'_> {
    let [answer, kind, place, companion, file, field, start, length, searched] = told;
    let value = &bundle[start..start + length];
    let shown = Shown { file, record: place, companion, field, value };
    match answer {
        0 => Reason::Holds,
        1 => Reason::NotJudged { file },
        2 => Reason::OwnMark { kind: kind as u32, place, companion },
        3 => Reason::Broken(shown),
        _ => Reason::Missing { shown, searched },
    }
}

/// So many numbers from the heap.
fn numbers(count: usize) -> Result<Vec<u32>, Refusal> {
    let mut list = Vec::new();
    list.try_reserve_exact(count).map_err(|_| NO_MEMORY)?;
    list.resize(count, 0);
    Ok(list)
}

fn workspace() -> Result<Vec<u32>, Refusal> {
    numbers(WORKSPACE)
}

/// Judges a bundle in full.
pub fn judge(gate: Gate, bundle: &[u8]) -> Result<Board, Refusal> {
    judge_in(gate, bundle, &mut workspace()?)
}

/// Tries a change, as `try_in` has it.
pub fn try_change(
    bundle: &[u8],
    board: &Board,
    file: usize,
    new: Option<&[u8]>,
) -> Result<Changed, Refusal> {
    try_in(bundle, board, file, new, &mut workspace()?)
}

/// Makes a change, as `make_in` has it.
pub fn make_change(
    bundle: &[u8],
    board: &Board,
    file: usize,
    new: Option<&[u8]>,
    out: &mut [u8],
) -> Result<Changed, Refusal> {
    make_in(bundle, board, file, new, out, &mut workspace()?)
}

/// What is told of a mark, as `reason_in` has it.
pub fn reason(gate: Gate, bundle: &[u8], mark: usize) -> Result<Reason<'_>, Refusal> {
    reason_in(gate, bundle, mark, &mut workspace()?)
}

/// A file of a bundle, 0 to 19, as the part of the bundle itself; `None` for an omitted one.
pub fn file(gate: Gate, bundle: &[u8], file: usize) -> Result<Option<&[u8]>, Refusal> {
    let mut present = [0u32; 1];
    let mut place = [0usize; 2];
    let refusal = unsafe {
        knotsaddle_file(
            gate.number(),
            bundle.as_ptr(),
            bundle.len(),
            file,
            present.as_mut_ptr(),
            1,
            place.as_mut_ptr(),
            2,
        )
    };
    let part = (refusal == 0 && present[0] == 1).then(|| &bundle[place[0]..place[0] + place[1]]);
    answer(refusal, part)
}

/// The bundle with no files.
pub fn empty_bundle(gate: Gate) -> Vec<u8> {
    let mut bundle = vec![0u8; EMPTY_BUNDLE];
    let length = unsafe { knotsaddle_empty(gate.number(), bundle.as_mut_ptr(), EMPTY_BUNDLE) };
    bundle.truncate(length);
    bundle
}

/// The name of a file, 0 to 19.
pub fn file_name(gate: Gate, file: usize) -> Option<String> {
    let mut name = [0u8; NAME_ROOM];
    let length = unsafe { knotsaddle_file_name(gate.number(), file, name.as_mut_ptr(), NAME_ROOM) };
    (length != 0).then(|| String::from_utf8_lossy(&name[..length]).into_owned())
}

/// The name of a field of a file, counted from 0; `None` where the file has no such field.
pub fn field_name(gate: Gate, file: usize, field: usize) -> Option<String> {
    let mut name = [0u8; NAME_ROOM];
    let length = unsafe { knotsaddle_field_name(gate.number(), file, field, name.as_mut_ptr(), NAME_ROOM) };
    (length != 0).then(|| String::from_utf8_lossy(&name[..length]).into_owned())
}

/// The judging program's text of a judgement; empty for a board of another length than its gate's.
pub fn report(judged: &Result<Board, Refusal>) -> String {
    let fresh = Board::fresh(Gate::Schedule);
    let (refusal, board) = match judged {
        Ok(board) => (0, board),
        Err(Refusal(number)) => (*number, &fresh),
    };
    let mut text = [0u8; REPORT_ROOM];
    let length = unsafe {
        knotsaddle_report(
            board.gate.number(),
            refusal,
            board.kinds.as_ptr(),
            board.kinds.len(),
            board.places.as_ptr(),
            board.places.len(),
            board.companions.as_ptr(),
            board.companions.len(),
            text.as_mut_ptr(),
            REPORT_ROOM,
        )
    };
    String::from_utf8_lossy(&text[..length]).into_owned()
}

// The texts stand once, in the lines that the header includes too: `"text",` and `{number, "text"},`.

/// What a mark of a gate is about.
pub fn about_mark(gate: Gate, mark: usize) -> Option<&'static str> {
    let texts = match gate {
        Gate::Contract => include_str!("../../c/contract_marks.inc"),
        _ => include_str!("../../c/marks.inc"),
    };
    let lines = texts.lines();
    let mut texts = lines.filter_map(|line| line.strip_prefix('"')?.strip_suffix("\","));
    (mark < gate.marks()).then(|| texts.nth(mark)).flatten()
}

impl Refusal {
    /// The refusal in words; an empty text for a number that no call answers.
    pub fn in_words(&self) -> &'static str {
        let start = format!("{{{}, \"", self.0);
        let lines = include_str!("../../c/refusals.inc").lines();
        let mut texts = lines.filter_map(|line| line.strip_prefix(&start[..])?.strip_suffix("\"},"));
        texts.next().unwrap_or("")
    }
}

impl fmt::Display for Refusal {
    fn fmt(&self, out: &mut fmt::Formatter) -> fmt::Result {
        write!(out, "refused as {}: {}", self.0, self.in_words())
    }
}

impl std::error::Error for Refusal {}
