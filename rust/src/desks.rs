//! Two desks that share one set of calendars: judge a desk on its joined set, try a change, make it.
//!
//! It stands on the static library that `c/build desks_c` writes. `c/knotsaddle_desks.h` says which files each bundle
//! holds, and in which order a desk is refused. As beside it, a call gets a workspace from the heap, or takes one that is lent.

use crate::{answer, workspace, Board, Gate, Refusal};

/// The three bundles: each desk's, and that of the calendars, which holds files 6, 7 and 8.
#[derive(Clone, Copy, Debug)]
pub struct Bundles<'a> {
    pub a: &'a [u8],
    pub b: &'a [u8],
    pub shared: &'a [u8],
}

/// Whose bundle a change is to.
#[derive(Clone, Copy, Debug, PartialEq, Eq)]
pub enum Whose {
    DeskA = 0,
    DeskB = 1,
    Calendars = 2,
}

/// What a desk is answered: its refusal, if it is refused, and its board, which is then as it was handed in.
#[derive(Clone, Debug, PartialEq, Eq)]
pub struct Desk {
    pub refusal: Option<Refusal>,
    pub board: Board,
}

/// What both are, and the length of the new bundle, `None` where none is written. Where the calendars were written while a desk was
/// refused, that desk starts again from `judge_joined`.
#[derive(Clone, Debug, PartialEq, Eq)]
pub struct Desks {
    pub a: Desk,
    pub b: Desk,
    pub length: Option<usize>,
}

// A slice is passed as its pointer and then its length.
extern "C" {
    fn knotsaddle_desk_judge(
        desk: *const u8,
        desk_length: usize,
        shared: *const u8,
        shared_length: usize,
        kinds: *mut u32,
        kinds_length: usize,
        places: *mut usize,
        places_length: usize,
        companions: *mut usize,
        companions_length: usize,
        work: *mut u32,
        work_length: usize,
    ) -> u32;
    fn knotsaddle_desks_try(
        a: *const u8,
        a_length: usize,
        b: *const u8,
        b_length: usize,
        shared: *const u8,
        shared_length: usize,
        kinds_a: *mut u32,
        kinds_a_length: usize,
        places_a: *mut usize,
        places_a_length: usize,
        companions_a: *mut usize,
        companions_a_length: usize,
        kinds_b: *mut u32,
        kinds_b_length: usize,
        places_b: *mut usize,
        places_b_length: usize,
        companions_b: *mut usize,
        companions_b_length: usize,
        whose: u32,
        file: usize,
        present: u32,
        new_bytes: *const u8,
        new_bytes_length: usize,
        refusals: *mut u32,
        refusals_length: usize,
        size: *mut usize,
        size_length: usize,
        work: *mut u32,
        work_length: usize,
    ) -> u32;
    fn knotsaddle_desks_make(
        a: *const u8,
        a_length: usize,
        b: *const u8,
        b_length: usize,
        shared: *const u8,
        shared_length: usize,
        kinds_a: *mut u32,
        kinds_a_length: usize,
        places_a: *mut usize,
        places_a_length: usize,
        companions_a: *mut usize,
        companions_a_length: usize,
        kinds_b: *mut u32,
        kinds_b_length: usize,
        places_b: *mut usize,
        places_b_length: usize,
        companions_b: *mut usize,
        companions_b_length: usize,
        whose: u32,
        file: usize,
        present: u32,
        new_bytes: *const u8,
        new_bytes_length: usize,
        out: *mut u8,
        out_length: usize,
        refusals: *mut u32,
        refusals_length: usize,
        size: *mut usize,
        size_length: usize,
        work: *mut u32,
        work_length: usize,
    ) -> u32;
}

// In each call below every pointer comes from a slice, a vector or an array of the length beside it, and what is written is lent alone.
// The lists for the refusals and the length have the right lengths by their types, `whose` is 0 to 2 and `present` 1 or 0, so that no
// call has a fault of its own.

/// Judges a desk on its joined set in full, in a lent workspace of at least `WORKSPACE` numbers.
pub fn judge_joined_in(desk: &[u8], shared: &[u8], work: &mut [u32]) -> Result<Board, Refusal> {
    let mut board = Board::fresh(Gate::Schedule);
    let refusal = unsafe {
        knotsaddle_desk_judge(
            desk.as_ptr(),
            desk.len(),
            shared.as_ptr(),
            shared.len(),
            board.kinds.as_mut_ptr(),
            board.kinds.len(),
            board.places.as_mut_ptr(),
            board.places.len(),
            board.companions.as_mut_ptr(),
            board.companions.len(),
            work.as_mut_ptr(),
            work.len(),
        )
    };
    answer(refusal, board)
}

/// What both desks were answered, from what a call left.
fn desks(a: Board, b: Board, refusals: [u32; 2], size: usize) -> Desks {
    let desk = |refusal, board| Desk { refusal: answer(refusal, ()).err(), board };
    Desks {
        a: desk(refusals[0], a),
        b: desk(refusals[1], b),
        length: (size != 0).then_some(size),
    }
}

/// Tries a change of a file of one of the bundles, to new bytes or, with `None`, to no file, in a lent workspace. No bundle is made.
pub fn try_in(
    held: Bundles,
    boards: (&Board, &Board),
    whose: Whose,
    file: usize,
    new: Option<&[u8]>,
    work: &mut [u32],
) -> Desks {
    let (mut a, mut b) = (boards.0.clone(), boards.1.clone());
    let bytes = new.unwrap_or(&[]);
    let (mut refusals, mut size) = ([0u32; 2], [0usize; 1]);
    unsafe {
        knotsaddle_desks_try(
            held.a.as_ptr(),
            held.a.len(),
            held.b.as_ptr(),
            held.b.len(),
            held.shared.as_ptr(),
            held.shared.len(),
            a.kinds.as_mut_ptr(),
            a.kinds.len(),
            a.places.as_mut_ptr(),
            a.places.len(),
            a.companions.as_mut_ptr(),
            a.companions.len(),
            b.kinds.as_mut_ptr(),
            b.kinds.len(),
            b.places.as_mut_ptr(),
            b.places.len(),
            b.companions.as_mut_ptr(),
            b.companions.len(),
            whose as u32,
            file,
            new.is_some() as u32,
            bytes.as_ptr(),
            bytes.len(),
            refusals.as_mut_ptr(),
            2,
            size.as_mut_ptr(),
            1,
            work.as_mut_ptr(),
            work.len(),
        );
    }
    desks(a, b, refusals, size[0])
}

/// Makes a change, handed over as to `try_in`: the new bundle goes to the front of `out`, unless each desk that it concerns is refused.
pub fn make_in(
    held: Bundles,
    boards: (&Board, &Board),
    whose: Whose,
    file: usize,
    new: Option<&[u8]>,
    out: &mut [u8],
    work: &mut [u32],
) -> Desks {
    let (mut a, mut b) = (boards.0.clone(), boards.1.clone());
    let bytes = new.unwrap_or(&[]);
    let (mut refusals, mut size) = ([0u32; 2], [0usize; 1]);
    unsafe {
        knotsaddle_desks_make(
            held.a.as_ptr(),
            held.a.len(),
            held.b.as_ptr(),
            held.b.len(),
            held.shared.as_ptr(),
            held.shared.len(),
            a.kinds.as_mut_ptr(),
            a.kinds.len(),
            a.places.as_mut_ptr(),
            a.places.len(),
            a.companions.as_mut_ptr(),
            a.companions.len(),
            b.kinds.as_mut_ptr(),
            b.kinds.len(),
            b.places.as_mut_ptr(),
            b.places.len(),
            b.companions.as_mut_ptr(),
            b.companions.len(),
            whose as u32,
            file,
            new.is_some() as u32,
            bytes.as_ptr(),
            bytes.len(),
            out.as_mut_ptr(),
            out.len(),
            refusals.as_mut_ptr(),
            2,
            size.as_mut_ptr(),
            1,
            work.as_mut_ptr(),
            work.len(),
        );
    }
    desks(a, b, refusals, size[0])
}

/// Judges a desk on its joined set in full.
pub fn judge_joined(desk: &[u8], shared: &[u8]) -> Result<Board, Refusal> {
    judge_joined_in(desk, shared, &mut workspace()?)
}

/// Tries a change, as `try_in` has it; refused as a whole only where there is no memory for a workspace.
pub fn try_change(
    held: Bundles,
    boards: (&Board, &Board),
    whose: Whose,
    file: usize,
    new: Option<&[u8]>,
) -> Result<Desks, Refusal> {
    Ok(try_in(held, boards, whose, file, new, &mut workspace()?))
}

/// Makes a change, as `make_in` has it; refused as a whole only where there is no memory for a workspace.
pub fn make_change(
    held: Bundles,
    boards: (&Board, &Board),
    whose: Whose,
    file: usize,
    new: Option<&[u8]>,
    out: &mut [u8],
) -> Result<Desks, Refusal> {
    Ok(make_in(held, boards, whose, file, new, out, &mut workspace()?))
}
