//! Chains of links as long as a table can be: each link leads to the next one.

use crate::compare::gate::sample::Set;
use crate::compare::gate::styles::shuffle;
use crate::compare::random::Random;
use crate::table::MOST_RECORDS;

const RELATIONSHIPS: usize = 14;

/// The chains by name: listed forwards, backwards and in no order, each without
/// a loop, with one of its last two links, and with one of all of them.
pub fn chains(seed: u64) -> Vec<(String, Set)> {
    let last = MOST_RECORDS - 1;
    let ends = [("no loop", MOST_RECORDS), ("a loop at its end", last - 1), ("all one loop", 0)];
    let mut sets = Vec::new();
    for order in ["forwards", "backwards", "shuffled"] {
        for (end, to) in ends {
            let mut links: Vec<(usize, usize)> = (0..last).map(|task| (task, task + 1)).collect();
            links.push((last, to));
            match order {
                "forwards" => {}
                "backwards" => links.reverse(),
                _ => shuffle(&mut links, &mut Random::new(seed)),
            }
            sets.push((format!("{order}, {end}"), Set::empty().with(RELATIONSHIPS, &file(&links))));
        }
    }
    sets
}

fn file(links: &[(usize, usize)]) -> String {
    let record = |(from, to): &(usize, usize)| {
        format!(
            r#"{{"PredecessorTaskID":"T{from:04}","SuccessorTaskID":"T{to:04}","RelationshipTypeID":"FINISH_TO_START"}}"#
        )
    };
    format!("[{}]", links.iter().map(record).collect::<Vec<_>>().join(",\n"))
}
