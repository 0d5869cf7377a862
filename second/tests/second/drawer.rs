//! The readings of order 12, each with its case, and laws of every change.

use crate::sample::{accepted, Set};
use second::board::{Board, Mark};
use second::bundle::{FileState, LARGEST_BUNDLE};
use second::compare::drawer::case::{Call, DrawerCase};
use second::compare::drawer::cases::all_cases;
use second::compare::run::Question;
use second::drawer::{
    change_drawer, drawer_files, drawer_part, drawer_state, judge_drawer, put_bundle, spans,
    take_bundle, try_drawer, Span, Spans,
};
use second::gate::{judge, try_change, Verdict};

const HANDED: Mark = Mark { kind: 9, place: 9, companion: 9 };

fn handed() -> Board {
    Board { marks: [HANDED; 81] }
}

/// A drawer of these bytes behind the header, and files by number, offset
/// behind the header, and length.
fn drawer(bytes: &str, files: &[(usize, usize, usize)]) -> Vec<u8> {
    let mut drawer = Set::empty().bundle();
    drawer.extend_from_slice(bytes.as_bytes());
    for (number, offset, length) in files {
        set_pair(&mut drawer, *number, 164 + *offset as u32, *length as u32);
    }
    drawer
}

fn set_pair(drawer: &mut [u8], number: usize, offset: u32, length: u32) {
    let at = 4 + 8 * number;
    drawer[at..at + 4].copy_from_slice(&offset.to_le_bytes());
    drawer[at + 4..at + 8].copy_from_slice(&length.to_le_bytes());
}

fn body(drawer: &[u8]) -> &str {
    std::str::from_utf8(&drawer[164..]).unwrap()
}

fn offset(drawer: &[u8], number: usize) -> Option<usize> {
    spans(drawer).unwrap()[number].map(|span: Span| span.offset)
}

fn changed(drawer: &[u8], number: usize, new: Option<&str>) -> (Verdict, Vec<u8>) {
    let mut after = drawer.to_vec();
    let new = new.map(str::as_bytes);
    let verdict = change_drawer(&mut after, &handed(), number, new);
    assert_eq!(try_drawer(drawer, &handed(), number, new), verdict);
    (verdict, after)
}

#[test]
fn reading_1_the_limits_are_the_drawers() {
    let mut long = drawer("", &[]);
    long.resize(LARGEST_BUNDLE, 0);
    assert_eq!(judge_drawer(&long).refusal, 0);
    long.push(0);
    assert_eq!(judge_drawer(&long).refusal, 1);
    assert_eq!(judge_drawer(&long[..163]).refusal, 1);
    long[0] = 21;
    assert_eq!(judge_drawer(&long[..164]).refusal, 2);
}

#[test]
fn reading_2_a_file_ends_within_the_drawer() {
    assert_eq!(judge_drawer(&drawer("......", &[(5, 6, 0)])).refusal, 0);
    assert_eq!(judge_drawer(&drawer("......", &[(5, 7, 0)])).refusal, 3);
    assert_eq!(judge_drawer(&drawer("", &[(5, 0, 0)])).refusal, 0);
    // Inside another.
    assert_eq!(judge_drawer(&drawer("......", &[(5, 1, 0), (6, 0, 4)])).refusal, 0);
    assert_eq!(judge_drawer(&drawer("......", &[(5, 1, 1), (6, 0, 4)])).refusal, 3);
    for (offset, length) in [(0, 1), (163, 0), (163, 1), (1, 0), (164, u32::MAX), (u32::MAX, 1)] {
        let mut wrong = drawer("......", &[]);
        set_pair(&mut wrong, 5, offset, length);
        assert_eq!(judge_drawer(&wrong).refusal, 3, "{offset} {length}");
        assert_eq!(judge_drawer(&wrong).board, Board::fresh());
    }
}

#[test]
fn reading_3_old_bytes_stay() {
    let start = drawer("..AB..", &[(0, 2, 2)]);
    let (_, replaced) = changed(&start, 0, Some("CD"));
    assert_eq!((body(&replaced), offset(&replaced, 0)), ("CDAB..", Some(164)));
    let (_, withdrawn) = changed(&start, 0, None);
    assert_eq!((body(&withdrawn), offset(&withdrawn, 0)), ("..AB..", None));
}

#[test]
fn reading_4_all_files_are_moved_down() {
    let start = drawer("..AB..", &[(0, 2, 2)]);
    let (verdict, moved) = changed(&start, 1, Some("xyz"));
    assert_eq!(verdict.refusal, 0);
    assert_eq!(body(&moved), "ABxyz.");
    assert_eq!((offset(&moved, 0), offset(&moved, 1)), (Some(164), Some(166)));
    let start = drawer("..AB..", &[(0, 2, 2), (3, 3, 0)]);
    let (_, moved) = changed(&start, 1, Some("xyz"));
    assert_eq!(offset(&moved, 3), Some(164));
    // Without a move an empty file stays.
    let (_, stayed) = changed(&start, 1, Some("xy"));
    assert_eq!((body(&stayed), offset(&stayed, 3)), ("xyAB..", Some(167)));
    let (_, stayed) = changed(&start, 0, None);
    assert_eq!(offset(&stayed, 3), Some(167));
}

#[test]
fn reading_5_a_new_file_without_bytes_moves_nothing() {
    for start in [drawer("..AB..", &[(0, 2, 2), (3, 3, 0)]), drawer("AB", &[(0, 0, 2)])] {
        for number in [0, 3, 9] {
            let (verdict, after) = changed(&start, number, Some(""));
            assert_eq!(verdict.refusal, 0);
            assert_eq!(offset(&after, number), Some(164));
            assert_eq!(body(&after), body(&start));
            for other in (0..20).filter(|other| *other != number) {
                assert_eq!(offset(&after, other), offset(&start, other));
            }
        }
    }
}

#[test]
fn reading_6_a_try_knows_the_room() {
    let start = drawer("..AB..", &[(0, 2, 2)]);
    for (length, refusal) in [(4, 0), (5, 11), (7, 11)] {
        let (verdict, after) = changed(&start, 1, Some(&"x".repeat(length)));
        assert_eq!(verdict.refusal, refusal, "{length}");
        if refusal == 11 {
            assert_eq!((verdict.board, after), (handed(), start.clone()));
        }
    }
    // 4 comes before 11, and its own room is free for the new bytes.
    assert_eq!(changed(&start, 20, Some("1234567")).0.refusal, 4);
    assert_eq!(changed(&start, 0, Some("123456")).0.refusal, 0);
    assert_eq!(changed(&start, 0, Some("1234567")).0.refusal, 11);
}

#[test]
fn files_of_one_offset_go_by_number() {
    // Two empty files and one with bytes at one place; the order of numbers
    // changes nothing but is the order.
    let start = drawer(".AB.CD", &[(7, 1, 2), (3, 1, 0), (9, 1, 0), (2, 4, 2)]);
    let (_, moved) = changed(&start, 5, Some("xy"));
    assert_eq!(body(&moved), "ABCDxy");
    assert_eq!([3, 9, 7, 2, 5].map(|n| offset(&moved, n).unwrap() - 164), [0, 0, 0, 2, 4]);
}

#[test]
fn bundles_are_put_in_and_taken_out() {
    let bundle = Set::empty().with(3, "{}").with(9, "").bundle();
    let mut after = vec![b'.'; 170];
    assert_eq!(put_bundle(&mut after, &bundle), 0);
    assert_eq!((&after[..166], &after[166..]), (&bundle[..], &b"...."[..]));
    assert_eq!(put_bundle(&mut [0; 165], &bundle), 11);
    assert_eq!(put_bundle(&mut [0; 163], &bundle), 1);
    assert_eq!(put_bundle(&mut vec![0; LARGEST_BUNDLE + 1], &bundle), 1);
    assert_eq!(put_bundle(&mut [0; 3], &bundle[..165]), 3);
    let mut output = vec![b'-'; 168];
    assert_eq!(take_bundle(&after, &mut output), Ok(166));
    assert_eq!((&output[..166], &output[166..]), (&bundle[..], &b"--"[..]));
    assert_eq!(take_bundle(&after, &mut [0; 165]), Err(5));
    assert_eq!(take_bundle(&after[..163], &mut [0; 165]), Err(1));
    assert_eq!(drawer_state(&after, 9), FileState::Present);
    assert_eq!(drawer_state(&after, 8), FileState::Omitted);
    assert_eq!(drawer_state(&after, 20), FileState::Refused(4));
    assert_eq!(drawer_part(&after, 3), b"{}");
}

#[test]
fn an_accepted_set_is_accepted_in_a_drawer() {
    let mut after = vec![0; 20_000];
    assert_eq!(put_bundle(&mut after, &accepted().bundle()), 0);
    assert!(judge_drawer(&after).board.is_accepted());
}

/// Of each change that is made: every other file keeps its bytes, bytes outside
/// are as before, the layout stays one, the new file stands as low as it can,
/// nothing moves if a gap is long enough, and the board is the bundle's.
#[test]
fn laws_of_every_change() {
    let mut made = 0;
    for case in all_cases(4).iter().filter(|case| case.drawer.len() < 2000) {
        let (drawer, change) = match &case.call {
            Call::Make(change) => (&case.drawer, change),
            _ => continue,
        };
        let answer = case.answer();
        let after = answer.bytes_of("drawer");
        if answer.number_of("refusal") != 0 {
            assert_eq!((after, answer.board_of("board").unwrap()), (&drawer[..], &change.board));
            continue;
        }
        made += 1;
        check_laws(case, after);
        let bundle = second::drawer::bundle_of(drawer).unwrap();
        let new = change.new.as_deref().map(Vec::as_slice);
        let verdict = try_change(&bundle, &change.board, change.number as usize, new);
        assert_eq!(answer.board_of("board"), Some(&verdict.board));
    }
    assert!(made > 10_000);
}

fn check_laws(case: &DrawerCase, after: &[u8]) {
    let change = case.change().unwrap();
    let number = change.number as usize;
    let new = change.new.as_deref().map(Vec::as_slice);
    let mut files = drawer_files(&case.drawer).unwrap();
    files[number] = new;
    assert_eq!(drawer_files(after).unwrap(), files);
    let (old_spans, new_spans) = (spans(&case.drawer).unwrap(), spans(after).unwrap());
    let is_in = |spans: &[Option<Span>], at: usize| {
        spans.iter().flatten().any(|span| (span.offset..span.end()).contains(&at))
    };
    for at in (164..after.len()).filter(|at| !is_in(&new_spans, *at)) {
        assert_eq!(after[at], case.drawer[at]);
    }
    let mut others = old_spans;
    others[number] = None;
    let is_free = |from: usize, length: usize| {
        from + length <= after.len() && (from..from + length).all(|at| !is_in(&others, at))
    };
    let length = new.map_or(0, <[u8]>::len);
    let lowest = match length {
        0 => Some(164),
        _ => (164..after.len()).find(|from| is_free(*from, length)),
    };
    match (new, lowest) {
        (None, _) => assert_eq!(new_spans, others),
        (Some(_), Some(lowest)) => {
            others[number] = Some(Span { offset: lowest, length });
            assert_eq!(new_spans, others);
        }
        (Some(_), None) => {
            // All other bytes stand together from the header on, then the new.
            let present: usize = others.iter().flatten().map(|span| span.length).sum();
            assert_eq!(new_spans[number].unwrap().offset, 164 + present);
            assert!((164..164 + present + length).all(|at| is_in(&new_spans, at)));
        }
    }
}

#[test]
fn judging_a_drawer_is_judging_its_bundle() {
    let judges = all_cases(5).into_iter().filter(|case| case.call == Call::Judge);
    for case in judges.filter(|case| case.drawer.len() < 30_000) {
        if let Ok(bundle) = second::drawer::bundle_of(&case.drawer) {
            assert_eq!(judge_drawer(&case.drawer), judge(&bundle));
        }
    }
}

// ------------------------------------------------------------ lazy builds

/// A change that was made: the file, and the drawer and its places around it.
struct Made {
    number: usize,
    before: Vec<u8>,
    after: Vec<u8>,
    old: Spans,
    new: Spans,
}

fn made_changes() -> Vec<Made> {
    let of = |case: &DrawerCase| match &case.call {
        Call::Make(change) if case.drawer.len() < 2_000 => {
            let answer = case.answer();
            let after = answer.bytes_of("drawer").to_vec();
            let made = Made {
                number: change.number as usize,
                before: case.drawer.to_vec(),
                old: spans(&case.drawer).ok()?,
                new: spans(&after).ok()?,
                after,
            };
            Some(made).filter(|_| answer.number_of("refusal") == 0)
        }
        _ => None,
    };
    all_cases(3).iter().filter_map(of).collect()
}

/// How many changes a program gets wrong that spoils the right drawer so.
fn caught(changes: &[Made], spoil: impl Fn(&Made, &mut [u8])) -> usize {
    let is_wrong = |made: &&Made| {
        let mut spoilt = made.after.clone();
        spoil(made, &mut spoilt);
        spoilt != made.after
    };
    changes.iter().filter(is_wrong).count()
}

fn is_in(spans: &Spans, at: usize) -> bool {
    spans.iter().flatten().any(|file| (file.offset..file.end()).contains(&at))
}

/// Cleans up behind a file that goes.
fn cleaned(made: &Made, drawer: &mut [u8]) {
    for (at, byte) in drawer.iter_mut().enumerate() {
        if is_in(&made.old, at) && !is_in(&made.new, at) {
            *byte = 0;
        }
    }
}

/// Leaves empty files where they are, also where others are moved.
fn empty_files_stay(made: &Made, drawer: &mut [u8]) {
    for other in (0..20).filter(|other| *other != made.number) {
        if let Some(Span { offset, length: 0 }) = made.old[other] {
            set_pair(drawer, other, offset as u32, 0);
        }
    }
}

/// Puts new bytes behind all files where these have room.
fn behind_all(made: &Made, drawer: &mut [u8]) {
    let others = (0..20).filter(|other| *other != made.number).filter_map(|other| made.old[other]);
    let end = others.map(Span::end).max().unwrap_or(164);
    if let Some(Span { length, .. }) = made.new[made.number] {
        if end + length <= drawer.len() && length > 0 {
            set_pair(drawer, made.number, end as u32, length as u32);
        }
    }
}

/// Keeps a replaced file at its place where the new bytes fit there.
fn in_place(made: &Made, drawer: &mut [u8]) {
    if let (Some(old), Some(new)) = (made.old[made.number], made.new[made.number]) {
        if new.length <= old.length {
            set_pair(drawer, made.number, old.offset as u32, new.length as u32);
        }
    }
}

#[test]
fn lazy_drawers_are_caught() {
    let changes = made_changes();
    assert_eq!(caught(&changes, |_, _| {}), 0);
    let counts = [
        caught(&changes, cleaned),
        caught(&changes, empty_files_stay),
        caught(&changes, behind_all),
        caught(&changes, in_place),
        caught(&changes, |made, drawer| drawer.copy_from_slice(&made.before)),
    ];
    assert!(counts.iter().all(|count| *count > 100), "{counts:?}");
}
