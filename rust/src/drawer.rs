//! The drawer: a set that stays in one place and is changed there.
//!
//! It stands on the static library that `c/build drawer_c` writes. `c/knotsaddle_drawer.h` says what a drawer is, where a change
//! puts its bytes, and in which order a call is refused. As beside it, a call gets a workspace from the heap, or takes one that is
//! lent. A board is one of document 01's gate. A refused call leaves the drawer as it was.

use crate::{answer, workspace, Board, Gate, Refusal, NO_MEMORY};

// A slice is passed as its pointer and then its length.
extern "C" {
    fn knotsaddle_drawer_judge(
        drawer: *const u8,
        drawer_length: usize,
        kinds: *mut u32,
        kinds_length: usize,
        places: *mut usize,
        places_length: usize,
        companions: *mut usize,
        companions_length: usize,
        work: *mut u32,
        work_length: usize,
    ) -> u32;
    fn knotsaddle_drawer_file(
        drawer: *const u8,
        drawer_length: usize,
        file: usize,
        present: *mut u32,
        start: *mut usize,
        size: *mut usize,
    ) -> u32;
    fn knotsaddle_drawer_try(
        drawer: *const u8,
        drawer_length: usize,
        kinds: *mut u32,
        kinds_length: usize,
        places: *mut usize,
        places_length: usize,
        companions: *mut usize,
        companions_length: usize,
        file: usize,
        present: u32,
        new_bytes: *const u8,
        new_bytes_length: usize,
        work: *mut u32,
        work_length: usize,
    ) -> u32;
    fn knotsaddle_drawer_make(
        drawer: *mut u8,
        drawer_length: usize,
        kinds: *mut u32,
        kinds_length: usize,
        places: *mut usize,
        places_length: usize,
        companions: *mut usize,
        companions_length: usize,
        file: usize,
        present: u32,
        new_bytes: *const u8,
        new_bytes_length: usize,
        work: *mut u32,
        work_length: usize,
    ) -> u32;
    fn knotsaddle_drawer_put(drawer: *mut u8, drawer_length: usize, bundle: *const u8, bundle_length: usize) -> u32;
    fn knotsaddle_drawer_take(
        drawer: *const u8,
        drawer_length: usize,
        out: *mut u8,
        out_length: usize,
        size: *mut usize,
    ) -> u32;
}

// In each call below every pointer comes from a slice, a vector or a number of the length beside it, and what is written is lent alone.
// `present` is 1 or 0, so no call answers 101, and 100 only for a board whose lists a caller made longer or shorter.

/// Judges a drawer in full in a lent workspace of at least `WORKSPACE` numbers, whatever they are. After a refusal it is as it was, else
/// it holds what was read; it may be lent again as it is.
pub fn judge_in(drawer: &[u8], work: &mut [u32]) -> Result<Board, Refusal> {
    let mut board = Board::fresh(Gate::Schedule);
    let refusal = unsafe {
        knotsaddle_drawer_judge(
            drawer.as_ptr(),
            drawer.len(),
            board.kinds.as_mut_ptr(),
            board.kinds.len(),
            board.places.as_mut_ptr(),
            board.places.len(),
            board.companions.as_mut_ptr(),
            board.companions.len(),
            work.as_mut_ptr(),
            work.len(),
        )
    };
    answer(refusal, board)
}

/// A file of a drawer, 0 to 19, as the part of the drawer itself; `None` for an omitted one.
pub fn file(drawer: &[u8], file: usize) -> Result<Option<&[u8]>, Refusal> {
    let (mut present, mut start, mut size) = (0, 0, 0);
    let refusal =
        unsafe { knotsaddle_drawer_file(drawer.as_ptr(), drawer.len(), file, &mut present, &mut start, &mut size) };
    let part = (refusal == 0 && present == 1).then(|| &drawer[start..start + size]);
    answer(refusal, part)
}

/// Tries a change of a file, 0 to 19, in a lent workspace, to new bytes or, with `None`, to no file: the board after it. The drawer is
/// not changed.
pub fn try_in(
    drawer: &[u8],
    board: &Board,
    file: usize,
    new: Option<&[u8]>,
    work: &mut [u32],
) -> Result<Board, Refusal> {
    let mut board = board.clone();
    let bytes = new.unwrap_or(&[]);
    let refusal = unsafe {
        knotsaddle_drawer_try(
            drawer.as_ptr(),
            drawer.len(),
            board.kinds.as_mut_ptr(),
            board.kinds.len(),
            board.places.as_mut_ptr(),
            board.places.len(),
            board.companions.as_mut_ptr(),
            board.companions.len(),
            file,
            new.is_some() as u32,
            bytes.as_ptr(),
            bytes.len(),
            work.as_mut_ptr(),
            work.len(),
        )
    };
    answer(refusal, board)
}

/// Makes a change in the drawer, handed over as to `try_in`: the board after it.
pub fn make_in(
    drawer: &mut [u8],
    board: &Board,
    file: usize,
    new: Option<&[u8]>,
    work: &mut [u32],
) -> Result<Board, Refusal> {
    let mut board = board.clone();
    let bytes = new.unwrap_or(&[]);
    let refusal = unsafe {
        knotsaddle_drawer_make(
            drawer.as_mut_ptr(),
            drawer.len(),
            board.kinds.as_mut_ptr(),
            board.kinds.len(),
            board.places.as_mut_ptr(),
            board.places.len(),
            board.companions.as_mut_ptr(),
            board.companions.len(),
            file,
            new.is_some() as u32,
            bytes.as_ptr(),
            bytes.len(),
            work.as_mut_ptr(),
            work.len(),
        )
    };
    answer(refusal, board)
}

/// Puts a bundle into a drawer, whatever that held. The bytes behind it are as before.
pub fn put(drawer: &mut [u8], bundle: &[u8]) -> Result<(), Refusal> {
    let refusal =
        unsafe { knotsaddle_drawer_put(drawer.as_mut_ptr(), drawer.len(), bundle.as_ptr(), bundle.len()) };
    answer(refusal, ())
}

/// Writes the bundle of a drawer's files to the front of `out`: its length. The rest of `out` is as before, and all of it after a
/// refusal.
pub fn take_in(drawer: &[u8], out: &mut [u8]) -> Result<usize, Refusal> {
    let mut size = 0;
    let refusal =
        unsafe { knotsaddle_drawer_take(drawer.as_ptr(), drawer.len(), out.as_mut_ptr(), out.len(), &mut size) };
    answer(refusal, size)
}

/// Judges a drawer in full.
pub fn judge(drawer: &[u8]) -> Result<Board, Refusal> {
    judge_in(drawer, &mut workspace()?)
}

/// Tries a change, as `try_in` has it.
pub fn try_change(drawer: &[u8], board: &Board, file: usize, new: Option<&[u8]>) -> Result<Board, Refusal> {
    try_in(drawer, board, file, new, &mut workspace()?)
}

/// Makes a change, as `make_in` has it.
pub fn make_change(drawer: &mut [u8], board: &Board, file: usize, new: Option<&[u8]>) -> Result<Board, Refusal> {
    make_in(drawer, board, file, new, &mut workspace()?)
}

/// The bundle of a drawer's files, which is never longer than the drawer.
pub fn take(drawer: &[u8]) -> Result<Vec<u8>, Refusal> {
    let mut bundle = Vec::new();
    bundle.try_reserve_exact(drawer.len()).map_err(|_| NO_MEMORY)?;
    bundle.resize(drawer.len(), 0);
    let length = take_in(drawer, &mut bundle)?;
    bundle.truncate(length);
    Ok(bundle)
}
