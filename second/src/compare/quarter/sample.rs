//! Small accepted sets with assignments of given amounts.

use crate::compare::gate::sample::{array, schedule, Set};
use crate::quarter::{COLUMNS, ELEMENTS};

/// An assignment of a resource to a task: amounts as written, by column; an
/// empty one is absent.
#[derive(Clone, Debug, Default, PartialEq, Eq)]
pub struct Assigned {
    pub resource: usize,
    pub task: usize,
    pub amounts: [String; 6],
    /// More members, behind a comma.
    pub more: String,
}

impl Assigned {
    /// Of the resource whose element has that number, to its own task.
    pub fn one(resource: usize, column: usize, amount: &str) -> Assigned {
        let mut assigned = Assigned { resource, ..Assigned::default() };
        assigned.amounts[column] = amount.to_string();
        assigned
    }

    fn text(&self) -> String {
        let mut text = format!(r#"{{"ResourceID":"r{}","TaskID":"T{}""#, self.resource, self.task);
        for (name, amount) in COLUMNS.iter().zip(&self.amounts) {
            if !amount.is_empty() {
                text += &format!(r#","{name}":{amount}"#);
            }
        }
        text + &self.more + "}"
    }
}

/// A set of so many resources and tasks with these assignments. Resource n has
/// the element n mod 4. It is accepted, unless an amount is none.
pub fn set_of(resources: usize, tasks: usize, assignments: &[Assigned]) -> Set {
    let numbered = |count: usize, record: &dyn Fn(usize) -> String| {
        array(&(0..count).map(record).collect::<Vec<String>>())
    };
    let resource = |number: usize| {
        let element = ELEMENTS[number % 4].to_uppercase();
        format!(r#"{{"ID":"R{number}","Name":"n","ElementOfCostID":"{element}"}}"#)
    };
    let task =
        |number: usize| format!(r#"{{"ID":"t{number}","Name":"n","TaskTypeID":"MILESTONE"}}"#);
    let assigned: Vec<String> = assignments.iter().map(Assigned::text).collect();
    Set::empty()
        .with(0, "IPMDAR_SCHEDULE_PERFORMANCE_DATASET/1.0")
        .with(1, r#"{"SecurityMarking":"U","ReportingPeriodEndDate":"2020-01-31"}"#)
        .with(
            3,
            r#"{"StatusDate":"2020-01-31","CurrentStartDate":"2020-01-01",
            "CurrentFinishDate":"2020-12-31","DurationUnitsID":"Days"}"#,
        )
        .with(6, r#"[{"ID":"C","Name":"n"}]"#)
        .with(7, r#"[{"CalendarID":"c","MondayWorkHours":8}]"#)
        .with(9, &numbered(tasks, &task))
        .with(10, &numbered(tasks, &|number| schedule(&format!("T{number}"), "C", "")))
        .with(16, &numbered(resources, &resource))
        .with(19, &array(&assigned))
}

/// Four resources, one of each element, and one task.
pub fn small_set(assignments: &[Assigned]) -> Set {
    set_of(4, 1, assignments)
}

#[cfg(test)]
mod tests {
    use super::*;

    #[test]
    fn small_sets_are_accepted() {
        assert_eq!(small_set(&[]).faults(), []);
        let assigned = [Assigned::one(0, 0, "1"), Assigned::one(3, 5, "-0.5")];
        assert_eq!(small_set(&assigned).faults(), []);
    }
}
