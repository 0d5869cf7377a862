//! The board: 81 marks, 0 to 19 for the files, 20 to 80 for the rules.

pub const MARKS: usize = 81;

/// Kind 0 place 0: holds. The companion (order 5) is a record's number: of the
/// earliest copy of a broken key, of the parent (79 and 80), or of the record
/// that a fault of a file stands in; where none is named, 0.
#[derive(Clone, Copy, Debug, PartialEq, Eq)]
pub struct Mark {
    pub kind: u32,
    pub place: u32,
    pub companion: u32,
}

pub const HOLDS: Mark = Mark { kind: 0, place: 0, companion: 0 };
pub const NOT_JUDGED: Mark = Mark { kind: 2, place: 0, companion: 0 };

/// A rule broken at a record and the record named with it, both by their
/// numbers from 1; companion 0 is none.
pub fn broken_at(record: usize, companion: usize) -> Mark {
    Mark { kind: 1, place: record_number(record), companion: record_number(companion) }
}

pub fn record_number(record: usize) -> u32 {
    u32::try_from(record).expect("a table has at most 4,096 records")
}

#[derive(Clone, Copy, Debug, PartialEq, Eq)]
pub struct Board {
    pub marks: [Mark; MARKS],
}

impl Board {
    /// 81 marks "not judged".
    pub fn fresh() -> Board {
        Board { marks: [NOT_JUDGED; MARKS] }
    }

    /// The numbers of the marks that don't hold, and those marks.
    pub fn faults(&self) -> impl Iterator<Item = (usize, Mark)> + '_ {
        let numbered = self.marks.iter().copied().enumerate();
        numbered.filter(|(_, mark)| mark.kind != 0)
    }

    pub fn is_accepted(&self) -> bool {
        self.faults().next().is_none()
    }
}
