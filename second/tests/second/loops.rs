//! The readings of order 14, each with its case, and loops sought in another
//! way.

use crate::sample::Set;
use second::compare::loops::case::{Answer, Form, LoopsCase, NOTHING, RING};
use second::compare::loops::cases::{all_cases, bundle_of, links_file};
use second::compare::run::Question;
use second::loops::{find_loop, is_loop, links_of, loop_text, show_loop, Link, Shown};

fn shown(links: &[(&str, &str)], length: usize) -> (Shown, Vec<u32>) {
    let mut list = vec![9; length];
    let shown = show_loop(&bundle_of(links), &mut list);
    (shown, list)
}

#[test]
fn reading_1_records_come_once_and_tasks_may_come_twice() {
    let links = links_of(&bundle_of(&[("A", "B"), ("B", "A"), ("A", "C"), ("C", "A")])).unwrap();
    for ring in [&[1, 2, 3, 4][..], &[1, 2], &[4, 3]] {
        assert!(is_loop(&links, ring), "{ring:?}");
    }
    for ring in [&[][..], &[1], &[1, 2, 1, 2], &[1, 4], &[5], &[0]] {
        assert!(!is_loop(&links, ring), "{ring:?}");
    }
}

#[test]
fn reading_2_only_file_14_is_read() {
    let links = links_file(&[("x", "y"), ("Y", "x")]);
    let other_types = links.replacen("\"x\"}", "\"START_TO_START\"}", 1);
    let set = Set::empty().with(14, &other_types).with(9, "[");
    assert_eq!(show_loop(&set.bundle(), &mut [0; 2]), Shown::Ring(2));
    assert_eq!(show_loop(&Set::empty().bundle(), &mut []), Shown::Nothing);
    assert_eq!(show_loop(&Set::empty().with(14, "[]").bundle(), &mut []), Shown::Nothing);
}

#[test]
fn reading_3_twelve_comes_before_thirteen() {
    assert_eq!(shown(&[("A", "B")], 0).0, Shown::Refused(13));
    assert_eq!(shown(&[("A", "A")], 0).0, Shown::Refused(13));
    let unreadable = Set::empty().with(14, "[").bundle();
    assert_eq!(show_loop(&unreadable, &mut []), Shown::Refused(12));
    assert_eq!(show_loop(&unreadable, &mut [0; 9]), Shown::Refused(12));
    assert_eq!(show_loop(&unreadable[..163], &mut []), Shown::Refused(1));
    assert_eq!(show_loop(&unreadable[..164], &mut []), Shown::Refused(3));
}

#[test]
fn reading_4_the_list_is_untouched_but_for_the_loop() {
    let (ring, list) = shown(&[("A", "B"), ("X", "A"), ("b", "a"), ("B", "C")], 5);
    assert_eq!(ring, Shown::Ring(2));
    assert!(list == [3, 1, 9, 9, 9] || list == [1, 3, 9, 9, 9]);
    assert_eq!(shown(&[("A", "B"), ("A", "B")], 3), (Shown::Nothing, vec![9; 3]));
    assert_eq!(shown(&[("A", "B"), ("A", "B")], 1), (Shown::Refused(13), vec![9]));
    assert_eq!(shown(&[("A", "A")], 1), (Shown::Ring(1), vec![1]));
}

#[test]
fn reading_5_the_program_prints_a_line() {
    let printed = |bundle: &[u8]| loop_text(bundle, false);
    assert_eq!(printed(&bundle_of(&[("A", "B"), ("x", "X")])), "2\n");
    assert_eq!(printed(&bundle_of(&[("A", "B")])), "none\n");
    assert_eq!(printed(b""), "bundle 1\n");
    assert_eq!(printed(&Set::empty().with(14, "{").bundle()), "bundle 12\n");
    let long = Set::empty().with(14, &format!("[{}]", " ".repeat(65_536 - 164 - 2)));
    assert_eq!(printed(&long.bundle()), "none\n");
    let longer = Set::empty().with(14, &format!("[{}]", " ".repeat(65_536 - 164 - 1)));
    assert_eq!(printed(&longer.bundle()), "bundle 1\n");
    let ring = printed(&bundle_of(&[("A", "B"), ("B", "C"), ("C", "A")]));
    assert!(["1 2 3\n", "2 3 1\n", "3 1 2\n"].contains(&&ring[..]));
    let explained = loop_text(&bundle_of(&[("b", "c"), ("a\\/", "A/")]), true);
    let line =
        r#"TaskRelationships record 2: SuccessorTaskID "A/" waits for PredecessorTaskID "a\/""#;
    let end = " and leads back to record 2. Take a link of the loop out.\n";
    assert_eq!(explained, format!("2\n{line}{end}"));
    assert_eq!(loop_text(&bundle_of(&[("A", "B")]), true), "none\n");
    assert_eq!(loop_text(b"", true), "bundle 1\n");
}

/// There is a loop exactly if links stay once those are taken away, again and
/// again, that no other leads to.
fn has_loop(links: &[Link]) -> bool {
    let mut left = links.to_vec();
    loop {
        let before = left.len();
        let mut reached = vec![false; 2 * links.len() + 1];
        for link in &left {
            reached[link.to] = true;
        }
        left.retain(|link| reached[link.from]);
        if left.len() == before {
            return before > 0;
        }
    }
}

/// Those that ask for a list, or those that ask for a text.
fn cases_of(seed: u64, texts: bool) -> Vec<LoopsCase> {
    all_cases(seed).into_iter().filter(|case| (case.form != Form::List) == texts).collect()
}

#[test]
fn loops_are_found_exactly_where_they_are() {
    let mut rings = 0;
    for case in cases_of(6, false).iter().filter(|case| case.bundle.len() < 50_000) {
        let (shown, list) = case.shown();
        let Ok(links) = links_of(&case.bundle) else {
            assert!(matches!(shown, Shown::Refused(_)));
            continue;
        };
        let looped = has_loop(&links);
        match shown {
            Shown::Refused(refusal) => {
                assert_eq!((refusal, case.list < links.len() as u32), (13, true))
            }
            Shown::Nothing => assert!(!looped),
            Shown::Ring(length) => {
                rings += 1;
                assert!(looped && is_loop(&links, &list[..length]));
                continue;
            }
        }
        assert_eq!(list, case.filled());
    }
    assert!(rings > 3_000);
}

#[test]
fn wrong_loops_are_caught() {
    let cases = cases_of(2, false);
    let small = || cases.iter().filter(|case| case.bundle.len() < 2_000);
    let ring = |case: &LoopsCase| match case.shown() {
        (Shown::Ring(length), list) => Some((length, list)),
        _ => None,
    };
    let agrees = |case: &LoopsCase, tag: u32, number: usize, list: Vec<u32>| {
        case.agrees(&case.answer(), &Answer::List { tag, number: number as u32, list })
    };
    let reversed = |case: &&LoopsCase| match ring(case) {
        Some((length, mut list)) => {
            list[..length].reverse();
            length > 2 && !agrees(case, RING, length, list)
        }
        None => false,
    };
    assert!(small().filter(reversed).count() > 300);
    let none = |case: &&LoopsCase| match ring(case) {
        Some((_, list)) => !agrees(case, NOTHING, 0, list),
        None => false,
    };
    assert!(small().filter(none).count() > 3_000);
    let touched = |case: &&LoopsCase| {
        let mut wrong = case.answer();
        match &mut wrong {
            Answer::List { list, .. } => {
                for entry in list.iter_mut().rev().take(1) {
                    *entry ^= 1;
                }
            }
            Answer::Text(text) => {
                let middle = text.len() / 2;
                text[middle] ^= 1;
            }
        }
        !case.agrees(&case.answer(), &wrong)
    };
    assert!(small().filter(touched).count() > 5_000);
    let texts = cases_of(2, true);
    let few = || texts.iter().filter(|case| case.bundle.len() < 2_000);
    assert!(few().filter(touched).count() > 20_000);
    assert_eq!(find_loop(&[]), None);
}
