//! The quarter: exact totals of assigned dollars and hours by element of cost over up to 256 sets.
//!
//! It stands on the static library that `c/build quarter_c` writes. `c/knotsaddle_quarter.h` says what each number means. As
//! beside it, a call gets a workspace from the heap, or takes one that is lent.

use crate::{answer, workspace, Refusal};

/// The most sets that a quarter takes.
pub const SETS: usize = 256;
/// LABOR, MATERIAL, OTHER_DIRECT_COSTS and SUBCONTRACT.
pub const ELEMENTS: usize = 4;
/// The budget at completion, the estimate to complete and the actuals to date, dollars and then hours of each.
pub const COLUMNS: usize = 6;
pub const TOTALS: usize = ELEMENTS * COLUMNS;

/// The state of a quarter.
#[derive(Clone, Debug, PartialEq, Eq)]
pub struct Quarter {
    /// Ten-thousandths, six for each element.
    pub totals: [i64; TOTALS],
    /// How many sets came.
    pub sets: usize,
    /// Whether the set at that place of the run is left out.
    pub left: [bool; SETS],
}

// A slice is passed as its pointer and then its length, an array as its pointer.
extern "C" {
    fn knotsaddle_quarter_take(
        bundle: *const u8,
        bundle_length: usize,
        totals: *mut i64,
        sets: *mut usize,
        left: *mut bool,
        grand: *mut i64,
        work: *mut u32,
        work_length: usize,
    ) -> u32;
    fn knotsaddle_quarter_left_out(sets: usize, left: *const bool) -> usize;
}

impl Quarter {
    /// The state before any set.
    pub fn start() -> Quarter {
        Quarter { totals: [0; TOTALS], sets: 0, left: [false; SETS] }
    }

    /// How many of the sets that came are left out.
    pub fn left_out(&self) -> usize {
        unsafe { knotsaddle_quarter_left_out(self.sets, self.left.as_ptr()) }
    }

    /// Takes a set in a lent workspace of at least `WORKSPACE` numbers, whatever they are: the grand totals of the columns after it.
    /// A set that is left out is taken too. After a refusal, by 14 or 10, the state is as it was.
    pub fn take_in(&mut self, bundle: &[u8], work: &mut [u32]) -> Result<[i64; COLUMNS], Refusal> {
        let mut grand = [0; COLUMNS];
        let refusal = unsafe {
            knotsaddle_quarter_take(
                bundle.as_ptr(),
                bundle.len(),
                self.totals.as_mut_ptr(),
                &mut self.sets,
                self.left.as_mut_ptr(),
                grand.as_mut_ptr(),
                work.as_mut_ptr(),
                work.len(),
            )
        };
        answer(refusal, grand)
    }

    /// Takes a set.
    pub fn take(&mut self, bundle: &[u8]) -> Result<[i64; COLUMNS], Refusal> {
        self.take_in(bundle, &mut workspace()?)
    }
}
