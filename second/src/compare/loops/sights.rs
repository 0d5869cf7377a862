//! What the cases of the loops have to show, all together.

use std::collections::HashSet;
use std::fmt::{self, Display};

use super::case::{Answer, Form, LoopsCase, NOTHING, REFUSED};
use crate::bundle::files;
use crate::compare::tables::possible_kinds;
use crate::loops::{find_loop, links_of, Link, Shown};
use crate::table::read_file;

const RELATIONSHIPS: usize = 14;

#[derive(Clone, Copy, Debug, PartialEq, Eq, PartialOrd, Ord)]
pub enum Sight {
    Refusal {
        refusal: u32,
    },
    /// File 14 has this kind, whatever the list's length.
    Unreadable {
        kind: u32,
        list: bool,
    },
    /// A list that is too short by one, with a loop and without.
    ShortByOne {
        looped: bool,
    },
    /// A list of just as many entries as records, and a longer one.
    Exact {
        looped: bool,
    },
    Longer {
        looped: bool,
    },
    Omitted,
    NoRecords,
    /// So many links, none a loop.
    Nothing {
        links: Many,
    },
    /// The loop that is found has so many links; there are no others, or some.
    Ring {
        links: Many,
        others: bool,
    },
    /// A link twice, and no loop.
    Twice,
    /// Loops only because IDs are folded, or decoded.
    OnlyFolded,
    OnlyDecoded,
    /// Loops that share a task.
    TaskTwice,
    /// Other files that are unreadable.
    OthersUnreadable {
        looped: bool,
    },
    /// The text of a refusal, of none and of a loop.
    ToldRefusal {
        explained: bool,
    },
    ToldNothing {
        explained: bool,
    },
    ToldRing {
        links: Many,
        explained: bool,
    },
    /// An ID of more than 80 bytes, and one of 80, with its quotes.
    ToldCut,
    ToldLong,
}

#[derive(Clone, Copy, Debug, PartialEq, Eq, PartialOrd, Ord)]
pub enum Many {
    One,
    Two,
    Three,
    Some,
    Hundreds,
    All,
}

const MANY: [Many; 6] = [Many::One, Many::Two, Many::Three, Many::Some, Many::Hundreds, Many::All];

fn many(count: usize) -> Many {
    match count {
        0 | 1 => Many::One,
        2 => Many::Two,
        3 => Many::Three,
        4096 => Many::All,
        100..=4095 => Many::Hundreds,
        _ => Many::Some,
    }
}

impl Display for Sight {
    fn fmt(&self, out: &mut fmt::Formatter) -> fmt::Result {
        write!(out, "{self:?}")
    }
}

const BOTH: [bool; 2] = [false, true];

pub fn wanted() -> Vec<Sight> {
    let mut wanted: Vec<Sight> =
        [1, 2, 3, 12, 13].map(|refusal| Sight::Refusal { refusal }).to_vec();
    for kind in possible_kinds(RELATIONSHIPS).into_iter().filter(|kind| *kind != 0) {
        wanted.extend(BOTH.map(|list| Sight::Unreadable { kind, list }));
    }
    for looped in BOTH {
        wanted.extend([Sight::ShortByOne { looped }, Sight::Exact { looped }]);
        wanted.extend([Sight::Longer { looped }, Sight::OthersUnreadable { looped }]);
    }
    for links in MANY {
        wanted.push(Sight::Nothing { links });
        wanted.push(Sight::Ring { links, others: false });
        if links != Many::All {
            wanted.push(Sight::Ring { links, others: true });
        }
    }
    wanted.extend([Sight::Omitted, Sight::NoRecords, Sight::Twice]);
    wanted.extend([Sight::OnlyFolded, Sight::OnlyDecoded, Sight::TaskTwice]);
    for explained in BOTH {
        wanted.extend([Sight::ToldRefusal { explained }, Sight::ToldNothing { explained }]);
        wanted.extend(MANY.map(|links| Sight::ToldRing { links, explained }));
    }
    wanted.extend([Sight::ToldCut, Sight::ToldLong]);
    wanted
}

pub fn sights_of(case: &LoopsCase, expected: &Answer) -> Vec<Sight> {
    match (case.form, expected) {
        (Form::List, Answer::List { tag, number, .. }) => list_sights(case, *tag, *number),
        (Form::Text { explained }, Answer::Text(text)) => text_sights(case, explained, text),
        _ => Vec::new(),
    }
}

fn text_sights(case: &LoopsCase, explained: bool, text: &[u8]) -> Vec<Sight> {
    let mut seen = match case.shown().0 {
        Shown::Refused(_) => vec![Sight::ToldRefusal { explained }],
        Shown::Nothing => vec![Sight::ToldNothing { explained }],
        Shown::Ring(length) => vec![Sight::ToldRing { links: many(length), explained }],
    };
    let ids = text.split(|byte| *byte == b'"').skip(1).step_by(2).map(<[u8]>::len);
    if ids.clone().any(|length| length == 78) {
        seen.push(Sight::ToldLong);
    }
    if text.windows(4).any(|bytes| bytes == b"... " || bytes == b"...\n") {
        seen.push(Sight::ToldCut);
    }
    seen
}

fn list_sights(case: &LoopsCase, tag: u32, number: u32) -> Vec<Sight> {
    let mut seen = Vec::new();
    if tag == REFUSED {
        seen.push(Sight::Refusal { refusal: number });
    }
    let parts = match files(&case.bundle) {
        Ok(parts) => parts,
        Err(_) => return seen,
    };
    let contents = parts[RELATIONSHIPS];
    if let Err(mark) = read_file(RELATIONSHIPS, contents) {
        seen.push(Sight::Unreadable { kind: mark.kind, list: case.list > 0 });
        return seen;
    }
    let links = links_of(&case.bundle).expect("file 14 is readable");
    let looped = find_loop(&links).is_some();
    let list = case.list as usize;
    match list {
        _ if list + 1 == links.len() => seen.push(Sight::ShortByOne { looped }),
        _ if list == links.len() => seen.push(Sight::Exact { looped }),
        _ if list > links.len() => seen.push(Sight::Longer { looped }),
        _ => {}
    }
    if contents.is_none() {
        seen.push(Sight::Omitted);
    }
    if parts[9].map_or(false, |bytes| read_file(9, Some(bytes)).is_err()) {
        seen.push(Sight::OthersUnreadable { looped });
    }
    match tag {
        REFUSED => {}
        NOTHING if links.is_empty() => seen.push(Sight::NoRecords),
        NOTHING => {
            seen.push(Sight::Nothing { links: many(links.len()) });
            if has_link_twice(&links) {
                seen.push(Sight::Twice);
            }
        }
        _ => {
            let ring = many(number as usize);
            let others = links.len() > number as usize;
            seen.push(Sight::Ring { links: ring, others });
            seen.extend(ring_sights(case, &links));
        }
    }
    seen
}

fn has_link_twice(links: &[Link]) -> bool {
    let pairs: HashSet<(usize, usize)> = links.iter().map(|link| (link.from, link.to)).collect();
    pairs.len() < links.len()
}

/// Whether the IDs compared in another way would still have a loop.
fn ring_sights(case: &LoopsCase, links: &[Link]) -> Vec<Sight> {
    let mut seen = Vec::new();
    if links.len() > 50 {
        return seen;
    }
    let parts = files(&case.bundle).expect("the bundle isn't refused");
    let bytes = parts[RELATIONSHIPS].unwrap_or(&[]);
    let records = read_file(RELATIONSHIPS, Some(bytes)).expect("file 14 is readable");
    let ids = ["PredecessorTaskID", "SuccessorTaskID"];
    let as_written = |fold: bool| {
        let mut names: Vec<Vec<u8>> = Vec::new();
        let mut number = |name: Vec<u8>| {
            names.iter().position(|other| *other == name).unwrap_or_else(|| {
                names.push(name);
                names.len() - 1
            })
        };
        let written = records.iter().map(|record| {
            let [from, to] = ids.map(|id| {
                let place = record.place(id);
                let id = &bytes[place.start as usize..place.end as usize];
                number(if fold { id.to_ascii_lowercase() } else { id.to_vec() })
            });
            Link { from, to }
        });
        find_loop(&written.collect::<Vec<Link>>()).is_some()
    };
    match (as_written(true), as_written(false)) {
        (false, _) => seen.push(Sight::OnlyDecoded),
        (true, false) => seen.push(Sight::OnlyFolded),
        (true, true) => {}
    }
    let leaving = |task: usize| links.iter().filter(|link| link.from == task).count();
    if links.iter().all(|link| link.to != link.from) && links.iter().any(|l| leaving(l.from) > 1) {
        seen.push(Sight::TaskTwice);
    }
    seen
}
