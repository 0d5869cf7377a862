//! A loop of links: tasks that wait for themselves, as record numbers of file 14.
//!
//! It stands on the static library that `c/build loops_c` writes. `c/knotsaddle_loops.h` says what a loop is, and in which order
//! a call is refused. `show` gets its list and its workspace from the heap, `show_in` takes what is lent.

use crate::{answer, numbers, Refusal};

/// How many numbers a list has that is long enough for any file 14.
pub const LIST: usize = 4096;
/// How many numbers a lent workspace must have.
pub const WORKSPACE: usize = 40_960;

// A slice is passed as its pointer and then its length.
extern "C" {
    fn knotsaddle_loops_show(
        bundle: *const u8,
        bundle_length: usize,
        list: *mut u32,
        list_length: usize,
        records: *mut usize,
        work: *mut u32,
        work_length: usize,
    ) -> u32;
}

/// Shows a loop in a lent list and a lent workspace: the front of the list with its record numbers, from 1, or `None`, exactly if
/// there is no loop. The list is as it was behind the loop, and all of it where none is shown.
pub fn show_in<'a>(bundle: &[u8], list: &'a mut [u32], work: &mut [u32]) -> Result<Option<&'a [u32]>, Refusal> {
    let mut records = 0;
    let refusal = unsafe {
        knotsaddle_loops_show(
            bundle.as_ptr(),
            bundle.len(),
            list.as_mut_ptr(),
            list.len(),
            &mut records,
            work.as_mut_ptr(),
            work.len(),
        )
    };
    answer(refusal, (records != 0).then(|| &list[..records]))
}

/// Shows a loop, as `show_in` has it.
pub fn show(bundle: &[u8]) -> Result<Option<Vec<u32>>, Refusal> {
    let mut list = numbers(LIST)?;
    let shown = show_in(bundle, &mut list, &mut numbers(WORKSPACE)?)?;
    Ok(shown.map(<[u32]>::to_vec))
}
