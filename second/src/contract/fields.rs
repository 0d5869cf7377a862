//! The 23 fields of the four tables, from sections 2.2.9 to 2.2.12 of document
//! 000. "Conditional" counts as nullable.

use super::{ACCOUNTS, OBS, SUBCONTRACTORS, WBS};
use crate::fields::Type::{Boolean, Date, Integer, String, StringID};
use crate::fields::{given, nullable, Field};

/// The fields of one table, in the order of the format.
pub fn of_table(file: usize) -> Vec<&'static Field> {
    FIELDS.iter().filter(|field| field.table == file).collect()
}

#[rustfmt::skip]
static FIELDS: [Field; 23] = [
    given(SUBCONTRACTORS, "ID", StringID),
    given(SUBCONTRACTORS, "Name", String),

    given(WBS, "Level", Integer),
    given(WBS, "ID", StringID),
    given(WBS, "Name", String),
    nullable(WBS, "ParentID", StringID),

    given(OBS, "Level", Integer),
    given(OBS, "ID", StringID),
    given(OBS, "Name", String),
    nullable(OBS, "SubcontractorID", StringID),
    nullable(OBS, "ParentID", StringID),

    nullable(ACCOUNTS, "IsSummaryLevelPlanningPackage", Boolean),
    given(ACCOUNTS, "ID", StringID),
    given(ACCOUNTS, "Name", String),
    nullable(ACCOUNTS, "BaselineStartDate", Date),
    nullable(ACCOUNTS, "BaselineEndDate", Date),
    nullable(ACCOUNTS, "ForecastStartDate", Date),
    nullable(ACCOUNTS, "ForecastEndDate", Date),
    nullable(ACCOUNTS, "ActualStartDate", Date),
    nullable(ACCOUNTS, "ActualEndDate", Date),
    nullable(ACCOUNTS, "ManagerName", String),
    given(ACCOUNTS, "WBSElementID", StringID),
    given(ACCOUNTS, "OBSElementID", StringID),
];

#[cfg(test)]
mod tests {
    use super::*;

    #[test]
    fn each_table_has_its_number_of_fields() {
        let counts: Vec<usize> = (0..=4).map(|file| of_table(file).len()).collect();
        assert_eq!(counts, [2, 4, 5, 12, 0]);
    }
}
