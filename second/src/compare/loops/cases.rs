//! The cases of the loops.

use std::sync::Arc;

use super::case::{LoopsCase, FORMS, LONGEST_LIST};
use crate::bundle::FILES;
use crate::compare::draft::{quoted, Draft};
use crate::compare::faulty::faulty_files;
use crate::compare::gate::case::{Bytes, LONGEST};
use crate::compare::gate::cases::refused_bundles;
use crate::compare::gate::sample::Set;
use crate::compare::gate::set_draft::SetDraft;
use crate::compare::gate::styles::{recased, restyled, shuffle};
use crate::compare::random::Random;
use crate::table::MOST_RECORDS;

const LINKS: usize = 14;

/// The same seed always gives the same cases in the same order.
pub fn all_cases(seed: u64) -> Vec<LoopsCase> {
    let mut cases = Cases { list: Vec::new(), random: Random::new(seed) };
    add_all_graphs(&mut cases, 3, 4);
    add_all_graphs(&mut cases, 4, 3);
    add_lists(&mut cases);
    add_random_graphs(&mut cases);
    add_rings(&mut cases);
    add_ids(&mut cases);
    add_refused(&mut cases);
    add_chains(&mut cases);
    add_dense(&mut cases);
    cases.list
}

struct Cases {
    list: Vec<LoopsCase>,
    random: Random,
}

impl Cases {
    /// Asked for in each form.
    fn push(&mut self, bundle: &Bytes, list: usize) {
        let seed = self.random.next_number() as u32;
        let list = (list as u32).min(LONGEST_LIST);
        for form in FORMS {
            self.list.push(LoopsCase { bundle: bundle.clone(), list, seed, form });
        }
    }

    /// With a list that is long enough.
    fn add(&mut self, links: &[(String, String)]) {
        let bundle = Arc::new(bundle_of(&borrowed(links)));
        let more = self.random.pick(&[0, 0, 1, 5]);
        self.push(&bundle, links.len() + more);
    }
}

fn borrowed(links: &[(String, String)]) -> Vec<(&str, &str)> {
    links.iter().map(|(from, to)| (from.as_str(), to.as_str())).collect()
}

fn link(from: &str, to: &str) -> String {
    format!(r#"{{"PredecessorTaskID":"{from}","SuccessorTaskID":"{to}","RelationshipTypeID":"x"}}"#)
}

/// File 14 of these links, IDs as written between the quotes.
pub fn links_file(links: &[(&str, &str)]) -> String {
    let records: Vec<String> = links.iter().map(|(from, to)| link(from, to)).collect();
    format!("[{}]", records.join(","))
}

/// A bundle of file 14 alone.
pub fn bundle_of(links: &[(&str, &str)]) -> Vec<u8> {
    Set::empty().with(LINKS, &links_file(links)).bundle()
}

/// One task in several writings.
const WRITINGS: [[&str; 4]; 4] = [
    ["a", "A", r"\u0061", r"\u0041"],
    ["b", "B", r"\u0062", "b"],
    ["a/", r"A\/", r"\u0061\u002F", "A/"],
    ["c", "C", "c", r"\u0043"],
];

/// Every list of up to so many links between so many tasks.
fn add_all_graphs(cases: &mut Cases, tasks: usize, most: usize) {
    let pairs = tasks * tasks;
    for count in 0..=most {
        for graph in 0..pairs.pow(count as u32) {
            let mut links = Vec::new();
            let mut rest = graph;
            for _ in 0..count {
                let ends = [rest % pairs / tasks, rest % tasks];
                rest /= pairs;
                links.push(ends.map(|task| cases.random.pick(&WRITINGS[task]).to_string()).into());
            }
            cases.add(&links);
        }
    }
}

/// Lists of each length, with a loop and without.
fn add_lists(cases: &mut Cases) {
    let sets: [&[(&str, &str)]; 6] = [
        &[("A", "B"), ("X", "A"), ("b", "a"), ("B", "C")],
        &[("A", "B"), ("B", "A"), ("A", "C"), ("C", "A")],
        &[("A", "B"), ("A", "B")],
        &[("A", "A")],
        &[("A", "B")],
        &[],
    ];
    for links in sets {
        let bundle = Arc::new(bundle_of(links));
        for length in 0..=links.len() + 3 {
            cases.push(&bundle, length);
        }
        cases.push(&bundle, LONGEST_LIST as usize);
    }
}

fn name(task: usize) -> String {
    format!("t{task}")
}

/// Links at random: with few or many tasks; all upwards; upwards but for one.
fn add_random_graphs(cases: &mut Cases) {
    for round in 0..1_500 {
        let most = cases.random.pick(&[6, 20, 60, 300]);
        let count = 1 + cases.random.below(most);
        let tasks = 2 + cases.random.below(count + count / 2 + 2);
        let mut order: Vec<usize> = (0..tasks).collect();
        shuffle(&mut order, &mut cases.random);
        let mut links: Vec<(usize, usize)> =
            (0..count).map(|_| (cases.random.below(tasks), cases.random.below(tasks))).collect();
        if round % 3 > 0 {
            links.retain(|(from, to)| from != to);
            for link in &mut links {
                *link = (link.0.min(link.1), link.0.max(link.1));
            }
        }
        if round % 3 == 2 && !links.is_empty() {
            let at = cases.random.below(links.len());
            links[at] = (links[at].1, links[at].0);
        }
        let named: Vec<(String, String)> =
            links.iter().map(|(from, to)| (name(order[*from]), name(order[*to]))).collect();
        add_styled(cases, &named);
    }
}

/// In one of many writings, members in any order.
fn add_styled(cases: &mut Cases, links: &[(String, String)]) {
    if links.len() > 80 || cases.random.below(2) == 0 {
        return cases.add(links);
    }
    let records: Vec<Draft> = links
        .iter()
        .map(|(from, to)| {
            let mut draft = Draft::default();
            for (field, id) in [("PredecessorTaskID", from), ("SuccessorTaskID", to)] {
                draft.push(&quoted(field), &recased(&quoted(id), &mut cases.random));
            }
            draft.push(&quoted("RelationshipTypeID"), b"\"FINISH_TO_START\"");
            draft
        })
        .collect();
    let set = restyled(&SetDraft::empty().with_records(LINKS, &records), &mut cases.random);
    cases.push(&Arc::new(set.bundle()), links.len());
}

/// IDs that are nearly one: a longer one, another case of no letter, spaces.
fn add_ids(cases: &mut Cases) {
    let long = "x".repeat(3000);
    // With its quotes just as long as is printed whole, and an escape where it is cut.
    let whole = "y".repeat(78);
    let escaped = "z".repeat(77) + r"\u007A";
    let pairs = [
        ("a", "aa"),
        ("a", "a-"),
        ("a b", "ab"),
        ("[", "{"),
        ("@", "`"),
        ("^", "~"),
        ("k", "\\u004B"),
        ("\\\\", "\\u005c"),
        ("\\\"", "\\u0022"),
        ("\\/", "/"),
        ("Z", "z"),
        ("a\\u0020b", "A b"),
        ("00", "0"),
        (&long, &long[1..]),
        (&long, &long),
        (&whole, &whole),
        (&escaped, &escaped),
    ];
    for (first, second) in pairs {
        for links in [
            vec![(first, "m"), ("m", second)],
            vec![("m", first), (second, "M")],
            vec![(first, second)],
            vec![("q", first), (second, "r"), ("R", "s"), ("s", second)],
        ] {
            let bundle = Arc::new(bundle_of(&links));
            cases.push(&bundle, links.len());
        }
    }
}

fn add_refused(cases: &mut Cases) {
    let small = Set::empty().with(LINKS, &links_file(&[("A", "B"), ("B", "A")]));
    let mut bundles = refused_bundles(&small.bundle());
    bundles.push(vec![0; LONGEST]);
    for bundle in bundles {
        let bundle = Arc::new(bundle);
        for length in [0, 1, 2, 9] {
            cases.push(&bundle, length);
        }
    }
    for faulty in faulty_files(LINKS, 3) {
        add_file(cases, &faulty.contents);
    }
    for contents in ["", "[", "{}", "[1]", "[{}]", "nul", "\"\u{7f}", "[]]", "[{\"A\":\"\u{e9}"] {
        add_file(cases, contents.as_bytes());
    }
    add_file(cases, b"[{\"PredecessorTaskID\":\"\xC3");
    let many = vec![("a", "a"); MOST_RECORDS + 1];
    add_file(cases, links_file(&many).as_bytes());
    // File 14 omitted, without records, and beside files in no order.
    for set in [Set::empty(), Set::empty().with(LINKS, "[]"), Set::empty().with(LINKS, " [ ]\n")] {
        add_set(cases, &set);
    }
    for links in [&[("A", "B"), ("B", "A")][..], &[("A", "B")]] {
        let mut set = Set::empty().with(LINKS, &links_file(links));
        for number in (0..FILES).filter(|number| *number != LINKS) {
            set = set.with(number, "[{");
            add_set(cases, &set);
        }
    }
}

fn add_file(cases: &mut Cases, contents: &[u8]) {
    add_set(cases, &Set::empty().with_bytes(LINKS, contents));
}

fn add_set(cases: &mut Cases, set: &Set) {
    let bundle = Arc::new(set.bundle());
    for length in [0, 7] {
        cases.push(&bundle, length);
    }
}

/// Rings of some lengths, listed in any order, by themselves and with links that
/// are on no loop.
fn add_rings(cases: &mut Cases) {
    for count in [1, 2, 3, 5, 8, 40, 99, 100, 500] {
        for round in 0..4 {
            let mut links: Vec<(String, String)> =
                (0..count).map(|task| (name(task), name((task + 1) % count))).collect();
            if round % 2 == 1 {
                // Links that lead in and out, and belong to no loop.
                links.push(("in".to_string(), name(0)));
                links.push((name(count / 2), "out".to_string()));
            }
            shuffle(&mut links, &mut cases.random);
            add_styled(cases, &links);
        }
    }
}

/// Chains as long as a table can be, listed forwards, backwards and in no
/// order: without a loop, closed at the end, and with a small loop there.
fn add_chains(cases: &mut Cases) {
    for order in 0..3 {
        for end in [None, Some(0), Some(MOST_RECORDS - 2)] {
            let mut links: Vec<(String, String)> =
                (0..MOST_RECORDS - 1).map(|task| (name(task), name(task + 1))).collect();
            let last = name(MOST_RECORDS - 1);
            links.push(match end {
                None => (last, "other".to_string()),
                Some(task) => (last, name(task)),
            });
            match order {
                0 => {}
                1 => links.reverse(),
                _ => shuffle(&mut links, &mut cases.random),
            }
            cases.add(&links);
        }
    }
}

/// As many links as can be between few tasks, all upwards; then one that isn't.
fn add_dense(cases: &mut Cases) {
    let all = (0..91).flat_map(|to| (0..to).map(move |from| (from, to)));
    let mut links: Vec<(usize, usize)> = all.take(MOST_RECORDS).collect();
    for round in 0..2 {
        shuffle(&mut links, &mut cases.random);
        let mut some = links.clone();
        if round % 2 == 1 {
            some[round * 900] = (90, 0);
        }
        let named: Vec<(String, String)> =
            some.iter().map(|(from, to)| (name(*from), name(*to))).collect();
        cases.add(&named);
    }
}
