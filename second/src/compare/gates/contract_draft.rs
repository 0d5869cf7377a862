//! The contract side's four tables in the making: an accepted set, small enough
//! to read, with three records or more in each table.

use super::files::Files;
use super::Which;
use crate::compare::draft::{file_tokens, quoted, random_gap, spaced, text, Draft};
use crate::compare::gate::styles::{escaped, recased, renumbered, shuffle};
use crate::compare::random::Random;

/// A table that is written as an array, as all four are.
const ARRAY: usize = 4;

#[derive(Clone)]
pub(in crate::compare) struct ContractDraft {
    pub tables: [Vec<Draft>; 4],
}

/// Values as they are written.
pub(in crate::compare) fn record(members: &[(&str, &str)]) -> Draft {
    let mut draft = Draft::default();
    for (name, value) in members {
        draft.push(&quoted(name), value.as_bytes());
    }
    draft
}

pub(in crate::compare) fn subcontractor(id: &str) -> Draft {
    record(&[("ID", &format!("\"{id}\"")), ("Name", "\"Yard\"")])
}

/// An element of WBS or OBS; without a parent the field is left out.
pub(in crate::compare) fn element(level: i64, id: &str, parent: Option<&str>) -> Draft {
    let draft =
        record(&[("Level", &level.to_string()), ("ID", &format!("\"{id}\"")), ("Name", "\"n\"")]);
    match parent {
        Some(parent) => draft.with_value("ParentID", &quoted(parent)),
        None => draft,
    }
}

pub(in crate::compare) fn account(id: &str, wbs: &str, obs: &str) -> Draft {
    record(&[
        ("ID", &format!("\"{id}\"")),
        ("Name", "\"n\""),
        ("WBSElementID", &format!("\"{wbs}\"")),
        ("OBSElementID", &format!("\"{obs}\"")),
    ])
}

pub(in crate::compare) fn table_text(records: &[Draft]) -> Vec<u8> {
    text(ARRAY, records)
}

impl ContractDraft {
    pub fn accepted() -> ContractDraft {
        let subcontractors = vec![
            subcontractor("S1"),
            subcontractor("s2"),
            subcontractor("S\\/3 \\\"x\\\""),
            subcontractor("S4"),
        ];
        let wbs = vec![
            element(1, "W", None),
            element(2, "W.a", Some("w")),
            element(3, "W.a.1", Some("W.A")),
            element(3, "w.a.2", Some("w.\\u0061")),
            element(2, "W.b", Some("W")).with_value("Name", "\"Döck 7\"".as_bytes()),
            element(2, "W.c", Some("W")).with_value("Level", b"2.0"),
        ];
        let obs = vec![
            element(1, "O", None).with_value("ParentID", b"null"),
            element(2, "O.a", Some("O")).with_value("SubcontractorID", b"\"s1\""),
            element(3, "O.a.1", Some("O.a")).with_value("SubcontractorID", b"\"\""),
            element(2, "O.b", Some("o")).with_value("SubcontractorID", b"null"),
            element(2, "O.c", Some("O")).with_value("SubcontractorID", br#""s/3 \u0022X\"""#),
        ];
        let dated = account("A2", "w.A.2", "O.b")
            .with_value("IsSummaryLevelPlanningPackage", b"false")
            .with_value("BaselineStartDate", b"\"2020-02-29\"")
            .with_value("BaselineEndDate", b"\"2019-01-01\"")
            .with_value("ManagerName", b"\"A. Smith\"");
        let accounts = vec![
            account("A1", "W.a.1", "o.a.1"),
            dated,
            account("A 3", "W.b", "O.c").with_value("ActualEndDate", b"null"),
            account("a4", "W.a.1", "O.a.1"),
        ];
        ContractDraft { tables: [subcontractors, wbs, obs, accounts] }
    }

    /// The field of the record at `at` has this value, or is absent.
    pub fn with_value(
        &self,
        file: usize,
        at: usize,
        name: &str,
        value: Option<&[u8]>,
    ) -> ContractDraft {
        let mut draft = self.clone();
        draft.tables[file][at] = draft.tables[file][at].with_choice(name, value);
        draft
    }

    pub fn files(&self) -> Files {
        let files = self.tables.iter().map(|table| Some(table_text(table))).collect();
        Files { which: Which::Contract, files }
    }

    /// Each table written in another way, by which no mark changes.
    pub fn restyled(&self, random: &mut Random) -> Files {
        let files = self.tables.iter().map(|table| Some(restyled(table, random))).collect();
        Files { which: Which::Contract, files }
    }
}

/// The table of these records, written in another way.
pub(in crate::compare) fn restyled(records: &[Draft], random: &mut Random) -> Vec<u8> {
    let mut records = records.to_vec();
    for record in &mut records {
        if random.below(3) == 0 {
            shuffle(&mut record.members, random);
        }
        for member in &mut record.members {
            if member.name.ends_with(b"ID\"") {
                member.value = recased(&member.value, random);
            }
            if member.value.starts_with(b"\"") && random.below(4) == 0 {
                member.value = escaped(&member.value, random);
            }
            if random.below(3) == 0 {
                member.value = renumbered(&member.value, random);
            }
            if random.below(12) == 0 {
                member.name = escaped(&member.name, random);
            }
        }
    }
    let often = random.pick(&[3, 8, 1000]);
    spaced(&file_tokens(ARRAY, &records), |_| random_gap(random, often))
}

#[cfg(test)]
mod tests {
    use super::*;
    use crate::board::HOLDS;

    #[test]
    fn the_sample_is_accepted_in_every_style() {
        let draft = ContractDraft::accepted();
        let mut random = Random::new(4);
        assert!(draft.files().board().iter().all(|mark| *mark == HOLDS));
        for _ in 0..50 {
            assert!(draft.restyled(&mut random).board().iter().all(|mark| *mark == HOLDS));
        }
        assert!(draft.tables.iter().all(|table| table.len() >= 3));
    }
}
