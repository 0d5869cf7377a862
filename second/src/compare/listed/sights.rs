//! What the cases with a lent list have to show, all together.

use std::collections::BTreeMap;
use std::fmt::{self, Display};

use super::case::{list_before, Answer, ListedCase, JUDGE, MAKE, PLAIN, TRY};
use crate::bundle::{file_part, files, FILES};
use crate::compare::gate::case::Change;
use crate::json::{decoded_codes, fold_code};
use crate::listed::Entry;
use crate::table::read_file;

#[derive(Clone, Copy, Debug, PartialEq, Eq, PartialOrd, Ord)]
pub enum Sight {
    Refusal {
        op: u32,
        refusal: u32,
    },
    /// Refused though the list is too short as well: it has no entry.
    WithoutList {
        op: u32,
        refusal: u32,
    },
    /// An accepted call, by what the list has over its entries.
    Room {
        op: u32,
        room: Room,
    },
    /// The entries of this file stand in the list.
    Listed {
        op: u32,
        file: usize,
    },
    /// Entries of this file behind those of another.
    Behind {
        file: usize,
    },
    Unreadable {
        file: usize,
    },
    Omitted {
        file: usize,
    },
    /// The entries of this file, in this state, after a change of that file.
    After {
        changed: usize,
        file: usize,
    },
    /// Something about the entries of one file.
    Odd {
        file: usize,
        odd: Odd,
    },
    Broken {
        op: u32,
        mark: usize,
    },
    /// An entry that doesn't describe the first key field of its record, or that
    /// stands in the wrong order; or a list changed where it should not be.
    Wrong,
}

/// How much longer the list is than its entries.
#[derive(Clone, Copy, Debug, PartialEq, Eq, PartialOrd, Ord)]
pub enum Room {
    None,
    One,
    More,
    Thousands,
    NoEntries,
}

#[derive(Clone, Copy, Debug, PartialEq, Eq, PartialOrd, Ord)]
pub enum Odd {
    /// Not in the order of the records.
    Moved,
    /// Two keys of one sum.
    OneSum,
    /// One key twice.
    OneKey,
    Escaped,
    Capital,
    /// The sum without wrapping would be another.
    Wrapped,
}

impl Display for Sight {
    fn fmt(&self, out: &mut fmt::Formatter) -> fmt::Result {
        write!(out, "{self:?}")
    }
}

pub(super) fn wanted() -> Vec<Sight> {
    let mut wanted = Vec::new();
    let refusals: [(u32, &[u32]); 4] = [
        (JUDGE, &[0, 1, 2, 3, 8]),
        (TRY, &[0, 1, 2, 3, 4, 6, 8]),
        (MAKE, &[0, 1, 2, 3, 4, 5, 6, 8]),
        (PLAIN, &[0, 1, 2, 3]),
    ];
    for (op, refusals) in refusals {
        for refusal in refusals {
            wanted.push(Sight::Refusal { op, refusal: *refusal });
            if op != PLAIN && *refusal > 0 {
                wanted.push(Sight::WithoutList { op, refusal: *refusal });
            }
        }
    }
    for op in [JUDGE, TRY, MAKE] {
        let rooms = [Room::None, Room::One, Room::More, Room::Thousands, Room::NoEntries];
        wanted.extend(rooms.map(|room| Sight::Room { op, room }));
        wanted.extend((4..FILES).map(|file| Sight::Listed { op, file }));
        wanted.extend((20..=35).chain(48..=64).map(|mark| Sight::Broken { op, mark }));
    }
    for file in 4..FILES {
        wanted.extend([Sight::Unreadable { file }, Sight::Omitted { file }]);
        if file > 4 {
            wanted.push(Sight::Behind { file });
        }
        let odd = [Odd::Moved, Odd::OneSum, Odd::OneKey, Odd::Escaped, Odd::Capital, Odd::Wrapped];
        wanted.extend(odd.map(|odd| Sight::Odd { file, odd }));
        wanted.push(Sight::After { changed: file, file });
    }
    // Both files of every target rule, changed on either side.
    for (file, other) in [(5, 4), (7, 6), (8, 6), (10, 9), (10, 6), (12, 11), (13, 9)] {
        wanted.push(Sight::After { changed: file, file: other });
        wanted.push(Sight::After { changed: other, file });
    }
    for (file, other) in [(14, 9), (14, 6), (15, 9), (18, 16), (18, 17), (19, 16), (19, 9)] {
        wanted.push(Sight::After { changed: file, file: other });
        wanted.push(Sight::After { changed: other, file });
    }
    wanted
}

pub(super) fn ruled_out() -> Vec<Sight> {
    vec![Sight::Wrong]
}

// ------------------------------------------------------------------- seen

pub(super) fn sights_of(case: &ListedCase, expected: &Answer) -> Vec<Sight> {
    let (op, refusal) = (case.op(), expected.refusal);
    let mut sights = vec![Sight::Refusal { op, refusal }];
    if op == PLAIN {
        return sights;
    }
    let before = list_before(case.list);
    if refusal != 0 {
        if case.list == 0 {
            sights.push(Sight::WithoutList { op, refusal });
        }
        if expected.list != before {
            sights.push(Sight::Wrong);
        }
        return sights;
    }
    for mark in (20..=35).chain(48..=64) {
        if expected.board[mark].kind == 1 {
            sights.push(Sight::Broken { op, mark });
        }
    }
    sights.extend(of_list(case, &expected.list, &before));
    sights
}

/// The file as it stands after the case's change.
fn contents<'a>(case: &'a ListedCase, file: usize) -> Option<&'a [u8]> {
    match case.change() {
        Some(Change { number, new, .. }) if *number as usize == file => {
            new.as_deref().map(Vec::as_slice)
        }
        _ => files(&case.bundle).ok()?[file].map(|_| file_part(&case.bundle, file)),
    }
}

/// The files whose entries the list has to start with, written out by hand: those
/// that share a rule with the changed one.
fn listed_files(case: &ListedCase) -> Vec<usize> {
    let changed = match case.change() {
        None => return (4..FILES).collect(),
        Some(change) => change.number,
    };
    match changed {
        4 | 5 => vec![4, 5],
        6 => vec![6, 7, 8, 10, 14],
        7 => vec![6, 7],
        8 => vec![6, 8],
        9 => vec![9, 10, 12, 13, 14, 15, 19],
        10 => vec![6, 9, 10],
        11 => vec![11, 12],
        12 => vec![9, 11, 12],
        13 => vec![9, 13],
        14 => vec![6, 9, 14],
        15 => vec![9, 15],
        16 => vec![16, 18, 19],
        17 => vec![17, 18],
        18 => vec![16, 17, 18],
        19 => vec![9, 16, 19],
        _ => Vec::new(),
    }
}

fn of_list(case: &ListedCase, list: &[Entry], before: &[Entry]) -> Vec<Sight> {
    let mut sights = Vec::new();
    let mut at = 0;
    for file in listed_files(case) {
        let contents = contents(case, file);
        let count = match read_file(file, contents) {
            Ok(records) => records.len(),
            Err(_) => {
                sights.push(Sight::Unreadable { file });
                continue;
            }
        };
        match contents {
            None => sights.push(Sight::Omitted { file }),
            Some(contents) if count > 0 => {
                let entries = match list.get(at..at + count) {
                    Some(entries) => entries,
                    None => return vec![Sight::Wrong],
                };
                if at > 0 {
                    sights.push(Sight::Behind { file });
                }
                sights.push(Sight::Listed { op: case.op(), file });
                if let Some(change) = case.change() {
                    sights.push(Sight::After { changed: change.number as usize, file });
                }
                if count <= 50 {
                    sights.extend(of_entries(file, contents, entries));
                }
                at += count;
            }
            Some(_) => {}
        }
    }
    if list.len() < at || list[at..] != before[at..] {
        sights.push(Sight::Wrong);
    }
    let room = match (at, list.len().saturating_sub(at)) {
        (0, 0) => Room::NoEntries,
        (_, 0) => Room::None,
        (_, 1) => Room::One,
        (_, more) if more < 1000 => Room::More,
        _ => Room::Thousands,
    };
    sights.push(Sight::Room { op: case.op(), room });
    sights
}

/// The keys are read where the entries say that they stand.
fn of_entries(file: usize, contents: &[u8], entries: &[Entry]) -> Vec<Sight> {
    let mut odd = Vec::new();
    let mut sums: BTreeMap<u32, Vec<Vec<u32>>> = BTreeMap::new();
    for entry in entries {
        let (start, end) = (entry.start as usize, (entry.start + entry.length) as usize);
        if start == 0 || contents[start - 1] != b'"' || contents.get(end) != Some(&b'"') {
            return vec![Sight::Wrong];
        }
        let written = decoded_codes(contents, start - 1);
        let folded: Vec<u32> = written.iter().copied().map(fold_code).collect();
        let mut sum: u128 = 0;
        let mut wrapped: u32 = 0;
        for code in &folded {
            sum = (31 * sum + u128::from(*code)).min(1 << 100);
            wrapped = wrapped.wrapping_mul(31).wrapping_add(*code);
        }
        if wrapped != entry.sum {
            return vec![Sight::Wrong];
        }
        if sum > u128::from(u32::MAX) {
            odd.push(Odd::Wrapped);
        }
        if contents[start..end].contains(&b'\\') {
            odd.push(Odd::Escaped);
        }
        if written != folded {
            odd.push(Odd::Capital);
        }
        let keys = sums.entry(entry.sum).or_default();
        if let Some(other) = keys.last() {
            odd.push(if *other == folded { Odd::OneKey } else { Odd::OneSum });
        }
        keys.push(folded);
    }
    let pairs =
        entries.windows(2).map(|two| [(two[0].sum, two[0].record), (two[1].sum, two[1].record)]);
    if pairs.clone().any(|[a, b]| a >= b) {
        return vec![Sight::Wrong];
    }
    if entries.windows(2).any(|two| two[0].record > two[1].record) {
        odd.push(Odd::Moved);
    }
    odd.sort_unstable();
    odd.dedup();
    odd.into_iter().map(|odd| Sight::Odd { file, odd }).collect()
}
