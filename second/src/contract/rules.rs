//! Marks 4 to 18: what each rule reads, where it is broken, and by which field.

use std::collections::{HashMap, HashSet};

use super::outline::{levels, parents};
use super::{ACCOUNTS, OBS, SUBCONTRACTORS, WBS};
use crate::gates::Broken;
use crate::table::Record;

/// A rule by its shape.
#[derive(Clone, Copy)]
pub(super) enum Rule {
    Key {
        file: usize,
    },
    /// The field is null or the ID of some record of the other table.
    Link {
        file: usize,
        field: &'static str,
        other: usize,
    },
    Levels {
        file: usize,
    },
    Parents {
        file: usize,
    },
    /// No account's element has a child.
    Leaf {
        field: &'static str,
        elements: usize,
    },
}

pub(super) fn rule(mark: usize) -> Rule {
    match mark {
        4..=7 => Rule::Key { file: mark - 4 },
        8 => Rule::Link { file: OBS, field: "SubcontractorID", other: SUBCONTRACTORS },
        9 => Rule::Link { file: WBS, field: "ParentID", other: WBS },
        10 => Rule::Link { file: OBS, field: "ParentID", other: OBS },
        11 => Rule::Link { file: ACCOUNTS, field: "WBSElementID", other: WBS },
        12 => Rule::Link { file: ACCOUNTS, field: "OBSElementID", other: OBS },
        13 => Rule::Levels { file: WBS },
        14 => Rule::Levels { file: OBS },
        15 => Rule::Parents { file: WBS },
        16 => Rule::Parents { file: OBS },
        17 => Rule::Leaf { field: "WBSElementID", elements: WBS },
        18 => Rule::Leaf { field: "OBSElementID", elements: OBS },
        _ => panic!("rules are numbered 4 to 18"),
    }
}

impl Rule {
    pub fn reads(self) -> Vec<usize> {
        match self {
            Rule::Key { file } | Rule::Levels { file } | Rule::Parents { file } => vec![file],
            Rule::Link { file, other, .. } if file == other => vec![file],
            Rule::Link { file, other, .. } => vec![file, other],
            Rule::Leaf { elements, .. } => vec![ACCOUNTS, elements],
        }
    }

    pub fn deciding(self) -> &'static str {
        match self {
            Rule::Key { .. } => "ID",
            Rule::Link { field, .. } | Rule::Leaf { field, .. } => field,
            Rule::Levels { .. } => "Level",
            Rule::Parents { .. } => "ParentID",
        }
    }

    pub fn searched(self) -> Option<usize> {
        match self {
            Rule::Link { other, .. } => Some(other),
            _ => None,
        }
    }

    /// `tables` holds the records of the files read, in the order of `reads`.
    pub fn breaks(self, tables: &[&[Record]]) -> Option<Broken> {
        let records = tables[0];
        match self {
            Rule::Key { .. } => first_copy(records),
            Rule::Link { field, .. } => {
                let other = tables[tables.len() - 1];
                let known: HashSet<String> = other.iter().filter_map(|row| row.id("ID")).collect();
                Broken::first(records, |record| is_outside(record.id(field), &known))
            }
            Rule::Levels { .. } => first_wrong_level(&levels(records)),
            Rule::Parents { .. } => first_wrong_parent(records),
            Rule::Leaf { field, .. } => {
                let with_children = ids_with_children(tables[1]);
                Broken::first(records, |record| {
                    record.id(field).map_or(false, |id| with_children.contains(&id))
                })
            }
        }
    }
}

fn is_outside(id: Option<String>, known: &HashSet<String>) -> bool {
    id.map_or(false, |id| !known.contains(&id))
}

/// With the earliest record of the same ID.
fn first_copy(records: &[Record]) -> Option<Broken> {
    let mut first_with: HashMap<String, usize> = HashMap::new();
    for (number, record) in (1..).zip(records) {
        let id = record.id("ID").expect("a readable table gives it");
        if let Some(companion) = first_with.get(&id) {
            return Some(Broken { record: number, companion: *companion });
        }
        first_with.insert(id, number);
    }
    None
}

/// The first has Level 1; any other is greater than 1 and at most one more than
/// the one before.
fn first_wrong_level(levels: &[i64]) -> Option<Broken> {
    let is_wrong = |at: &usize| match at {
        0 => levels[0] != 1,
        _ => levels[*at] <= 1 || levels[*at] - levels[*at - 1] > 1,
    };
    let at = (0..levels.len()).find(is_wrong)?;
    Some(Broken { record: at + 1, companion: 0 })
}

/// Only the first element has no parent; any other has its parent's ID, and is
/// wrong where there is no parent.
fn first_wrong_parent(elements: &[Record]) -> Option<Broken> {
    let parents = parents(&levels(elements));
    for (at, element) in elements.iter().enumerate() {
        let given = element.id("ParentID");
        let is_right = match (at, parents[at]) {
            (0, _) => given.is_none(),
            (_, None) => false,
            (_, Some(parent)) => given == elements[parent].id("ID"),
        };
        if !is_right {
            return Some(Broken { record: at + 1, companion: parents[at].map_or(0, |p| p + 1) });
        }
    }
    None
}

/// The IDs of the elements that are some element's parent by level and sequence,
/// whatever ParentID says.
fn ids_with_children(elements: &[Record]) -> HashSet<String> {
    let parents = parents(&levels(elements));
    parents.into_iter().flatten().filter_map(|parent| elements[parent].id("ID")).collect()
}
