//! The tasks of an invented schedule: an outline of summaries over leaves, each
//! with its days, its calendar and what leads to it.

use crate::compare::random::Random;

/// A phase is a summary under the whole, a package one under a phase.
const PHASE: usize = 48;
const PACKAGE: usize = 12;

#[derive(Clone, Copy, PartialEq, Eq)]
pub(super) enum Kind {
    Summary,
    Activity,
    Milestone,
}

pub(super) struct Task {
    pub id: String,
    pub name: String,
    pub kind: Kind,
    pub level: usize,
    /// The index of the summary that it stands under.
    pub parent: Option<usize>,
    /// Counted from the first day of the schedule.
    pub start: usize,
    pub days: usize,
    pub calendar: usize,
}

pub(super) struct Plan {
    pub tasks: Vec<Task>,
    pub calendars: usize,
    pub resources: usize,
    /// For the files made of this plan: one seed, one set.
    pub random: Random,
}

impl Plan {
    /// A plan of so many tasks; calendars and resources grow with them.
    pub fn new(count: usize, seed: u64) -> Plan {
        let calendars = 2 + count / 60;
        let resources = 4 + count / 8;
        let mut random = Random::new(seed);
        let mut tasks: Vec<Task> = Vec::with_capacity(count);
        for index in 0..count {
            let task = task(index, &tasks, calendars, &mut random);
            tasks.push(task);
        }
        Plan { tasks, calendars, resources, random }
    }

    /// The indexes of the tasks that are no summaries.
    pub fn leaves(&self) -> Vec<usize> {
        (0..self.tasks.len()).filter(|index| self.tasks[*index].kind != Kind::Summary).collect()
    }
}

fn task(index: usize, earlier: &[Task], calendars: usize, random: &mut Random) -> Task {
    let parent = parent(index, earlier);
    let kind = kind(index, random);
    let days = match kind {
        Kind::Summary => 20 * PACKAGE,
        Kind::Activity => 2 + random.below(28),
        Kind::Milestone => 0,
    };
    Task {
        // Planners number in tens, to have room for what is forgotten.
        id: format!("HB-{:05}", 10 * index),
        name: name(kind, index, random),
        kind,
        level: parent.map_or(1, |parent| earlier[parent].level + 1),
        parent,
        start: 2 * index + random.below(10),
        days,
        calendar: random.below(calendars),
    }
}

fn is_phase(index: usize) -> bool {
    index % PHASE == 1
}

fn is_summary(index: usize) -> bool {
    index == 0 || index % PACKAGE == 1
}

fn kind(index: usize, random: &mut Random) -> Kind {
    match random.below(10) {
        _ if is_summary(index) => Kind::Summary,
        0 => Kind::Milestone,
        _ => Kind::Activity,
    }
}

/// The whole has none, a phase the whole, a package its phase, and a leaf the
/// last summary before it.
fn parent(index: usize, earlier: &[Task]) -> Option<usize> {
    let last = |wanted: fn(usize) -> bool| (0..earlier.len()).rev().find(|at| wanted(*at));
    if is_phase(index) {
        last(|at| at == 0)
    } else if is_summary(index) {
        last(is_phase)
    } else {
        last(is_summary)
    }
}

fn name(kind: Kind, index: usize, random: &mut Random) -> String {
    let thing = random.pick(&["sluice", "gate", "quay wall", "pump house", "crane", "culvert"]);
    let work = match kind {
        Kind::Summary => "Works at the",
        Kind::Milestone => "Handover of the",
        Kind::Activity => random.pick(&["Design the", "Dig for the", "Pour the", "Test the"]),
    };
    format!("{work} {thing}, section {index}")
}
