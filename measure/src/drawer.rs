//! A change made in a drawer, beside the same change of the bundle.

use knotsaddle::drawer::make_in;
use knotsaddle::{judge_in, Gate};
use second::bundle::HEADER;
use second::compare::gate::sample::Set;
use second::drawer::change_drawer;

use crate::time::best_of;
use crate::{changed, compare, shown, Bench, STEPS};

const TASKS: usize = 9;

impl Bench {
    /// Tasks with one letter changed finds the room that it had; three spaces longer, all files have to be moved.
    pub fn drawers(&mut self, title: &str, set: &Set) {
        let bundle = set.bundle();
        let new = changed(set, &STEPS[0]);
        let longer = [b"   ", &new[..]].concat();
        self.drawer("a gap is found", title, set, &new, HEADER + new.len());
        self.drawer("all files are moved", title, set, &longer, bundle.len() + 3);
        let times = self.time_make(&STEPS[0], &bundle, set);
        row("of the bundle", title, bundle.len(), times.gate, times.second);
    }

    fn drawer(&mut self, name: &str, title: &str, set: &Set, new: &[u8], written: usize) {
        let bundle = set.bundle();
        let before = spaced(set, bundle.len() + 100);
        let (span, work) = (self.span, &mut self.work);
        let board = judge_in(Gate::Schedule, &bundle, work).expect("not refused");
        let own = second::gate::judge(&bundle).board;
        let (mut ours, mut theirs) = (before.clone(), before.clone());
        let answer = make_in(&mut ours, &board, TASKS, Some(new), work).expect("not refused");
        compare(&answer, &change_drawer(&mut theirs, &own, TASKS, Some(new)).board);
        assert!(ours == theirs, "the drawer is not the second program's");
        let ready = |drawer: &mut Vec<u8>| drawer.copy_from_slice(&before);
        let gate = best_of(span, &mut ours, ready, |drawer| {
            make_in(drawer, &board, TASKS, Some(new), work)
        });
        let second = best_of(span, &mut theirs, ready, |drawer| {
            change_drawer(drawer, &own, TASKS, Some(new))
        });
        row(name, title, written, gate, Some(second));
    }
}

fn row(name: &str, title: &str, written: usize, gate: f64, second: Option<f64>) {
    let ratio = second.map(|ms| gate / ms);
    println!(
        "| {name} | {title} | {written} | {gate:.3} | {} | {} |",
        shown(second, 3),
        shown(ratio, 2)
    );
}

/// A drawer with the files in the order of their numbers, and a free byte behind each.
fn spaced(set: &Set, length: usize) -> Vec<u8> {
    let mut drawer = vec![0; length];
    drawer[0] = 20;
    let mut at = HEADER;
    for (number, file) in set.files.iter().enumerate() {
        if let Some(file) = file {
            let pair = 4 + 8 * number;
            drawer[pair..pair + 4].copy_from_slice(&(at as u32).to_le_bytes());
            drawer[pair + 4..pair + 8].copy_from_slice(&(file.len() as u32).to_le_bytes());
            drawer[at..at + file.len()].copy_from_slice(file);
            at += file.len() + 1;
        }
    }
    drawer
}
