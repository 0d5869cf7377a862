//! Which string rule is broken and where (order 4): in each field that has one,
//! and each example in the name, the comment and the ID of a task. Judged, and
//! put in and taken out again by a change.

use super::white_space::add_as_change;
use super::Cases;
use crate::compare::gate::set_draft::places;
use crate::compare::wrong_characters::{has_string_rule, Example, EXAMPLES};
use crate::fields::{Field, FIELDS};

const TASKS: usize = 9;

pub(super) fn add(cases: &mut Cases) {
    for field in FIELDS.iter().filter(|field| has_string_rule(field.kind)) {
        for at in places(cases.base.records(field.table).len()) {
            add_at(cases, field, at);
        }
    }
    add_tasks(cases);
}

/// An example that is wrong in the field, and one that isn't, in one record.
fn add_at(cases: &mut Cases, field: &Field, at: usize) {
    let is_wrong = |example: &&Example| example.wrong(field.kind).is_some();
    let (wrong, right): (Vec<&Example>, Vec<&Example>) = EXAMPLES.iter().partition(is_wrong);
    for examples in [wrong, right] {
        let value = cases.random.pick(&examples).quoted();
        let set = cases.base.with_value(field.table, at, field.name, Some(&value));
        cases.judge_set(&set.only(&[field.table]));
        add_as_change(cases, field.table, &set);
    }
}

fn add_tasks(cases: &mut Cases) {
    let tasks = cases.base.only(&[TASKS]);
    for example in &EXAMPLES {
        for name in ["Name", "Comments", "ID"] {
            let at = cases.random.below(tasks.records(TASKS).len());
            cases.judge_set(&tasks.with_value(TASKS, at, name, Some(&example.quoted())));
        }
    }
}
