//! The calls with a list of entries: judge a bundle, try a change, make it, and have beside the marks a lookup of the records that were
//! read; and the plain engine, to compare with.
//!
//! It stands on the static library that `c/build listed_c` writes. `c/knotsaddle_listed.h` says what an entry is, which entries
//! the list gets, and in which order a call is refused. A call gets a workspace of 4,227,384 bytes from the heap, or takes one that is
//! lent. The plain engine takes none, and some 4,350,000 bytes of stack: a thread with the 2 MB that Rust gives it has too little.

use crate::{answer, numbers, Board, Gate, Refusal};

/// How many numbers a lent workspace must have.
pub const LISTED_WORKSPACE: usize = 1_056_846;
/// So many places are enough for every set.
pub const MOST_ENTRIES: usize = 65_536;

/// What is kept of a record.
#[repr(C)]
#[derive(Clone, Copy, Debug, Default, PartialEq, Eq)]
pub struct Entry {
    /// Where the text of its key starts in its file, behind the quote.
    pub start: u32,
    /// How long that is as written, without the quotes.
    pub length: u32,
    /// The sum of the decoded text.
    pub sum: u32,
    /// The record, from 1.
    pub record: u32,
}

/// What a call gives: the board, how many entries the list starts with, and the length of the bundle that was judged.
#[derive(Clone, Debug, PartialEq, Eq)]
pub struct Listed {
    pub board: Board,
    pub entries: usize,
    pub length: usize,
}

// A slice is passed as its pointer and then its length, an array or a number as its pointer.
extern "C" {
    fn knotsaddle_listed_judge(
        bundle: *const u8,
        bundle_length: usize,
        kinds: *mut u32,
        kinds_length: usize,
        places: *mut usize,
        places_length: usize,
        companions: *mut usize,
        companions_length: usize,
        list: *mut u32,
        list_length: usize,
        entries: *mut usize,
        work: *mut u32,
        work_length: usize,
    ) -> u32;
    fn knotsaddle_listed_try(
        bundle: *const u8,
        bundle_length: usize,
        kinds: *mut u32,
        kinds_length: usize,
        places: *mut usize,
        places_length: usize,
        companions: *mut usize,
        companions_length: usize,
        file: usize,
        present: u32,
        new_bytes: *const u8,
        new_bytes_length: usize,
        list: *mut u32,
        list_length: usize,
        entries: *mut usize,
        size: *mut usize,
        work: *mut u32,
        work_length: usize,
    ) -> u32;
    fn knotsaddle_listed_make(
        bundle: *const u8,
        bundle_length: usize,
        kinds: *mut u32,
        kinds_length: usize,
        places: *mut usize,
        places_length: usize,
        companions: *mut usize,
        companions_length: usize,
        file: usize,
        present: u32,
        new_bytes: *const u8,
        new_bytes_length: usize,
        out: *mut u8,
        out_length: usize,
        list: *mut u32,
        list_length: usize,
        entries: *mut usize,
        size: *mut usize,
        work: *mut u32,
        work_length: usize,
    ) -> u32;
    fn knotsaddle_plain_judge(
        bundle: *const u8,
        bundle_length: usize,
        kinds: *mut u32,
        places: *mut usize,
        companions: *mut usize,
    ) -> u32;
}

// In each call below every pointer comes from a slice, a vector or a variable of the length beside it, and what is written is lent
// alone. An entry is four numbers without a gap. `present` is 1 or 0, so no call answers 101. A fresh board of this gate has 81 marks.

/// Judges a bundle in full in a lent workspace of at least `LISTED_WORKSPACE` numbers, whatever they are. After a refusal the list is as
/// it was.
pub fn judge_in(bundle: &[u8], list: &mut [Entry], work: &mut [u32]) -> Result<Listed, Refusal> {
    let mut board = Board::fresh(Gate::Schedule);
    let mut entries = 0;
    let refusal = unsafe {
        knotsaddle_listed_judge(
            bundle.as_ptr(),
            bundle.len(),
            board.kinds.as_mut_ptr(),
            board.kinds.len(),
            board.places.as_mut_ptr(),
            board.places.len(),
            board.companions.as_mut_ptr(),
            board.companions.len(),
            list.as_mut_ptr().cast(),
            4 * list.len(),
            &mut entries,
            work.as_mut_ptr(),
            work.len(),
        )
    };
    answer(refusal, Listed { board, entries, length: bundle.len() })
}

/// Tries a change of a file, to new bytes or, with `None`, to no file, in a lent workspace: the length is the one that the new bundle
/// would have. No bundle is made.
pub fn try_in(
    bundle: &[u8],
    board: &Board,
    file: usize,
    new: Option<&[u8]>,
    list: &mut [Entry],
    work: &mut [u32],
) -> Result<Listed, Refusal> {
    let mut board = board.clone();
    let bytes = new.unwrap_or(&[]);
    let (mut entries, mut length) = (0, 0);
    let refusal = unsafe {
        knotsaddle_listed_try(
            bundle.as_ptr(),
            bundle.len(),
            board.kinds.as_mut_ptr(),
            board.kinds.len(),
            board.places.as_mut_ptr(),
            board.places.len(),
            board.companions.as_mut_ptr(),
            board.companions.len(),
            file,
            new.is_some() as u32,
            bytes.as_ptr(),
            bytes.len(),
            list.as_mut_ptr().cast(),
            4 * list.len(),
            &mut entries,
            &mut length,
            work.as_mut_ptr(),
            work.len(),
        )
    };
    answer(refusal, Listed { board, entries, length })
}

/// Makes a change, handed over as to `try_in`: the new bundle goes to the front of `out`. After a refusal `out` and the list are as they
/// were.
pub fn make_in(
    bundle: &[u8],
    board: &Board,
    file: usize,
    new: Option<&[u8]>,
    out: &mut [u8],
    list: &mut [Entry],
    work: &mut [u32],
) -> Result<Listed, Refusal> {
    let mut board = board.clone();
    let bytes = new.unwrap_or(&[]);
    let (mut entries, mut length) = (0, 0);
    let refusal = unsafe {
        knotsaddle_listed_make(
            bundle.as_ptr(),
            bundle.len(),
            board.kinds.as_mut_ptr(),
            board.kinds.len(),
            board.places.as_mut_ptr(),
            board.places.len(),
            board.companions.as_mut_ptr(),
            board.companions.len(),
            file,
            new.is_some() as u32,
            bytes.as_ptr(),
            bytes.len(),
            out.as_mut_ptr(),
            out.len(),
            list.as_mut_ptr().cast(),
            4 * list.len(),
            &mut entries,
            &mut length,
            work.as_mut_ptr(),
            work.len(),
        )
    };
    answer(refusal, Listed { board, entries, length })
}

/// Judges a bundle in full.
pub fn judge(bundle: &[u8], list: &mut [Entry]) -> Result<Listed, Refusal> {
    judge_in(bundle, list, &mut numbers(LISTED_WORKSPACE)?)
}

/// Tries a change, as `try_in` has it.
pub fn try_change(
    bundle: &[u8],
    board: &Board,
    file: usize,
    new: Option<&[u8]>,
    list: &mut [Entry],
) -> Result<Listed, Refusal> {
    try_in(bundle, board, file, new, list, &mut numbers(LISTED_WORKSPACE)?)
}

/// Makes a change, as `make_in` has it.
pub fn make_change(
    bundle: &[u8],
    board: &Board,
    file: usize,
    new: Option<&[u8]>,
    out: &mut [u8],
    list: &mut [Entry],
) -> Result<Listed, Refusal> {
    make_in(bundle, board, file, new, out, list, &mut numbers(LISTED_WORKSPACE)?)
}

/// Judges a bundle in full by the plain engine.
pub fn judge_plain(bundle: &[u8]) -> Result<Board, Refusal> {
    let mut board = Board::fresh(Gate::Schedule);
    let refusal = unsafe {
        knotsaddle_plain_judge(
            bundle.as_ptr(),
            bundle.len(),
            board.kinds.as_mut_ptr(),
            board.places.as_mut_ptr(),
            board.companions.as_mut_ptr(),
        )
    };
    answer(refusal, board)
}
