//! Calls each function of the wrapper and checks its answer; ends in how many were right.

use knotsaddle::{
    about_mark, empty_bundle, field_name, file, file_name, judge, judge_in, make_change, make_in, reason, reason_in, report,
    try_change, try_in, Board, Gate, Reason, Refusal, Shown, BASELINE_MARKS, CONTRACT_FILES,
    CONTRACT_MARKS, EMPTY_BUNDLE, FILES, MARKS, WORKSPACE,
};

/// Document 01's gate, by which most is asked; the profile has a part of its own.
const GATE: Gate = Gate::Schedule;

struct Count {
    passed: u32,
    failed: u32,
}

impl Count {
    fn expect(&mut self, what: &str, holds: bool) {
        if holds {
            self.passed += 1;
        } else {
            self.failed += 1;
            println!("{what}: not as expected");
        }
    }
}

const ALL_OMITTED: &str =
    "marks 81\n0 21 0 0\n1 21 0 0\n3 21 0 0\n36 2 0 0\n37 2 0 0\n65 2 0 0\n66 2 0 0\nrefused 7\n";

/// Two resources with one ID: the second record breaks the key, and its companion is the first.
const TWICE: &[u8] = br#"[{"ID":"R1","Name":"Fitter","ElementOfCostID":"LABOR"},{"ID":"r1","Name":"Rigger","ElementOfCostID":"LABOR"}]"#;

/// What comes of a change without a workspace to lend: judged, tried, made, and asked for.
fn owning(count: &mut Count) {
    let bundle = empty_bundle(GATE);
    count.expect("the bundle with no files", bundle[0] == 20 && bundle[1..].iter().all(|&byte| byte == 0));
    let judged = judge(GATE, &bundle);
    count.expect("its report", report(&judged) == ALL_OMITTED);
    let board = judged.unwrap_or_else(|_| Board::fresh(GATE));
    count.expect("its board", !board.is_accepted() && board.faults() == 7 && board.kinds[3] == 21);
    count.expect("no bundle", judge(GATE, &[]) == Err(Refusal(1)));
    count.expect("its text", report(&judge(GATE, &[])) == "bundle 1\n");

    let mut out = vec![9; 300];
    let made = make_change(&bundle, &board, 19, Some(b"[]"), &mut out);
    count.expect("a change", made.as_ref().map(|made| made.length) == Ok(EMPTY_BUNDLE + 2));
    count.expect("what it writes", &out[164..167] == b"[]\x09");
    count.expect("a try", try_change(&bundle, &board, 19, Some(b"[]")) == made);
    let short = make_change(&bundle, &board, 19, Some(b"[]"), &mut out[..165]);
    count.expect("an output too short", short == Err(Refusal(5)));
    let withdrawn = try_change(&bundle, &board, 2, None);
    count.expect("a withdrawal", withdrawn.map(|tried| (tried.board, tried.length)) == Ok((board.clone(), EMPTY_BUNDLE)));
    count.expect("file 20", try_change(&bundle, &board, 20, None) == Err(Refusal(4)));
    count.expect("a file asked for", file(GATE, &out[..166], 19) == Ok(Some(&b"[]"[..])));
    count.expect("an omitted file asked for", file(GATE, &bundle, 19) == Ok(None));
    count.expect("file 20 asked for", file(GATE, &bundle, 20) == Err(Refusal(4)));

    let twice = try_change(&bundle, &board, 16, Some(TWICE)).map(|tried| tried.board);
    let mark = twice.map(|board| (board.kinds[32], board.places[32], board.companions[32]));
    count.expect("a broken key names both records", mark == Ok((1, 2, 1)));
}

/// In a workspace that is lent: filled, as the call before left it, and too short.
fn lent(count: &mut Count) {
    let bundle = empty_bundle(GATE);
    let board = judge(GATE, &bundle).unwrap_or_else(|_| Board::fresh(GATE));
    let mut work = vec![u32::MAX; WORKSPACE];
    count.expect("judged in a workspace", judge_in(GATE, &bundle, &mut work).as_ref() == Ok(&board));
    let (mut out, mut out_in) = (vec![9; 300], vec![9; 300]);
    let made = make_change(&bundle, &board, 19, Some(b"[]"), &mut out);
    let made_in = make_in(&bundle, &board, 19, Some(b"[]"), &mut out_in, &mut work);
    count.expect("a change in a workspace", made.is_ok() && made_in == made);
    count.expect("what it writes", out_in == out);
    let tried_in = try_in(&bundle, &board, 19, Some(b"[]"), &mut work);
    count.expect("a try in a workspace", tried_in == made);

    let mut short = vec![7; WORKSPACE - 1];
    count.expect("judged in too short a one", judge_in(GATE, &bundle, &mut short) == Err(Refusal(14)));
    count.expect("its text", report(&judge_in(GATE, &bundle, &mut short)) == "bundle 14\n");
    let tried_in = try_in(&bundle, &board, 19, None, &mut short);
    count.expect("a try in too short a one", tried_in == Err(Refusal(14)));
    let made_in = make_in(&bundle, &board, 18, Some(b"[]"), &mut out_in, &mut short);
    count.expect("a change in too short a one", made_in == Err(Refusal(14)));
    count.expect("what it writes", out_in == out && short.iter().all(|&number| number == 7));
}

/// A bundle with these files and no others.
fn bundle_of(files: &[(usize, &[u8])]) -> Vec<u8> {
    let mut bundle = empty_bundle(GATE).to_vec();
    for &(file, bytes) in files {
        let mut out = vec![0; bundle.len() + bytes.len()];
        let made = make_change(&bundle, &Board::fresh(GATE), file, Some(bytes), &mut out);
        out.truncate(made.map_or(0, |made| made.length));
        bundle = out;
    }
    bundle
}

/// Each answer that a mark's reason can be, and each refusal.
fn reasons(count: &mut Count) {
    let workshifts = br#"[{"CalendarID":"C1"}]"#;
    let bundle = bundle_of(&[(7, workshifts), (8, br#"[{"id":1}]"#), (16, TWICE)]);
    count.expect("a mark that holds", reason(GATE, &bundle, 20) == Ok(Reason::Holds));
    count.expect("a mark not judged", reason(GATE, &bundle, 36) == Ok(Reason::NotJudged { file: 1 }));
    let unknown = Reason::OwnMark { kind: 13, place: 2, companion: 1 };
    count.expect("a file's own mark", reason(GATE, &bundle, 8) == Ok(unknown));
    let twice = Shown { file: 16, record: 2, companion: 1, field: 0, value: &b"\"r1\""[..] };
    count.expect("a key twice", reason(GATE, &bundle, 32) == Ok(Reason::Broken(twice)));
    let no_hours = Shown { file: 7, record: 1, companion: 0, field: 2, value: &[][..] };
    count.expect("no hours, the first null", reason(GATE, &bundle, 69) == Ok(Reason::Broken(no_hours)));
    let shown = Shown { field: 0, value: &b"\"C1\""[..], ..no_hours };
    let missing = Reason::Missing { shown, searched: 6 };
    count.expect("a missing target", reason(GATE, &bundle, 49) == Ok(missing));
    let mut work = vec![u32::MAX; WORKSPACE];
    count.expect("it in a workspace", reason_in(GATE, &bundle, 49, &mut work) == Ok(missing));
    count.expect("mark 81", reason_in(GATE, &bundle, MARKS, &mut work) == Err(Refusal(7)));
    count.expect("no bundle", reason(GATE, &[], MARKS) == Err(Refusal(1)));
    count.expect("too short a workspace", reason_in(GATE, &[], MARKS, &mut work[1..]) == Err(Refusal(14)));
    count.expect("the name of a field", field_name(GATE, 7, 2).as_deref() == Some("SundayWorkHours"));
    count.expect("a field that is none", field_name(GATE, 7, 9).is_none() && field_name(GATE, FILES, 0).is_none());
}

/// Boards, names and words.
fn texts(count: &mut Count) {
    let fresh = Board::fresh(GATE);
    count.expect("a fresh board", fresh.kinds == [2; MARKS] && fresh.places == [0; MARKS] && fresh.companions == [0; MARKS]);
    let held = Board { kinds: vec![0; MARKS], ..fresh };
    count.expect("a board that holds", held.is_accepted() && report(&Ok(held)) == "marks 81\naccepted\n");
    count.expect("the name of file 9", file_name(GATE, 9).as_deref() == Some("Tasks.json"));
    count.expect("each file has a name", (0..FILES).all(|file| file_name(GATE, file).is_some()) && file_name(GATE, FILES).is_none());
    let first = about_mark(GATE, 0);
    count.expect("what mark 0 is about", first == Some("FileType.txt: the file itself"));
    let last = about_mark(GATE, MARKS - 1);
    count.expect("what mark 80 is about", last == Some("TaskOutlineStructure: the parent is a SUMMARY task in Tasks"));
    count.expect("no text for mark 81", about_mark(GATE, MARKS).is_none());
    count.expect("a refusal in words", Refusal(4).to_string() == "refused as 4: the file number is over 19, on the contract side over 3");
    count.expect("each has words", [1, 2, 3, 4, 5, 6, 7, 9, 14, 100, 102, 103].iter().all(|&number| !Refusal(number).in_words().is_empty()));
    count.expect("no words for another number", Refusal(99).in_words().is_empty());
}

/// The baseline profile: 0 hours booked break its mark 84, and no mark of document 01's gate.
fn baseline(count: &mut Count) {
    let profile = Gate::Baseline;
    let booked = br#"[{"ResourceID":"R","TaskID":"T","Actual_ToDate_Hours":0}]"#;
    let bundle = empty_bundle(profile);
    let fresh = Board::fresh(profile);
    count.expect("a fresh board of 85 marks", fresh.kinds == [2; BASELINE_MARKS] && fresh.faults() == 85);
    let held = Board { kinds: vec![0; BASELINE_MARKS], ..fresh.clone() };
    count.expect("one that holds", held.is_accepted() && report(&Ok(held)) == "marks 85\naccepted\n");
    let board = judge(profile, &bundle).unwrap_or(fresh);
    let mut out = vec![0; 300];
    let made = make_change(&bundle, &board, 19, Some(booked), &mut out);
    out.truncate(made.as_ref().map_or(0, |made| made.length));
    let after = made.map(|made| made.board);
    count.expect("its board is the judgement's marks 81 to 84", after.as_ref().map(|board| board.kinds[81..].to_vec()) == Ok(vec![0, 0, 0, 1]));
    let plain = judge(GATE, &out);
    count.expect("marks 0 to 80 are document 01's", plain.map(|board| board.kinds) == after.map(|board| board.kinds[..MARKS].to_vec()));
    let hours = Shown { file: 19, record: 1, companion: 0, field: 6, value: &b"0"[..] };
    let told = reason(profile, &out, 84);
    count.expect("the reason of mark 84", told.map(|told| match told {
        Reason::Broken(shown) => Shown { field: 6, ..shown } == hours && field_name(profile, 19, shown.field).as_deref() == Some("Actual_ToDate_Hours"),
        _ => false,
    }) == Ok(true));
    count.expect("mark 85", reason(profile, &out, 85) == Err(Refusal(7)));
    count.expect("mark 84 without the profile", reason(GATE, &out, 84) == Err(Refusal(7)));
    count.expect("what mark 84 is about", about_mark(profile, 84).is_some() && about_mark(profile, 85).is_none());
    let short = Board { kinds: vec![0; MARKS], ..Board::fresh(profile) };
    count.expect("a board too short", try_change(&bundle, &short, 19, None) == Err(Refusal(100)) && !short.is_accepted());
}

/// The contract side: an account of elements that are not there breaks its links; its leaf rules hold.
fn contract_side(count: &mut Count) {
    let side = Gate::Contract;
    let account = br#"[{"ID":"C","Name":"n","WBSElementID":"W","OBSElementID":"O"}]"#;
    let bundle = empty_bundle(side);
    count.expect("the bundle of 36 bytes", bundle.len() == 36 && bundle[0] as usize == CONTRACT_FILES);
    let board = judge(side, &bundle).unwrap_or(Board::fresh(side));
    count.expect("no files are accepted", board.kinds.len() == CONTRACT_MARKS && board.is_accepted());
    count.expect("a bundle of 20 files", judge(side, &empty_bundle(GATE)) == Err(Refusal(2)));
    let mut out = vec![0; 300];
    let made = make_change(&bundle, &board, 3, Some(account), &mut out);
    out.truncate(made.as_ref().map_or(0, |made| made.length));
    let after = made.map(|made| made.board);
    count.expect("its text", report(&after) == "marks 19\n11 1 1 0\n12 1 1 0\nrefused 2\n");
    count.expect("judged anew", judge(side, &out) == after);
    let shown = Shown { file: 3, record: 1, companion: 0, field: 10, value: &br#""W""#[..] };
    count.expect("the reason of mark 11", reason(side, &out, 11) == Ok(Reason::Missing { shown, searched: 1 }));
    count.expect("mark 19", reason(side, &out, 19) == Err(Refusal(7)));
    count.expect("file 3", file(side, &out, 3) == Ok(Some(&account[..])));
    count.expect("file 4", file(side, &out, 4) == Err(Refusal(4)) && file_name(side, 4).is_none());
    count.expect("names", file_name(side, 1).as_deref() == Some("WBS.json") && field_name(side, 3, 10).as_deref() == Some("WBSElementID"));
    count.expect("what mark 18 is about", about_mark(side, 18).is_some() && about_mark(side, 19).is_none());
}

/// Four threads at once, each with 256 KB of stack.
fn threads(count: &mut Count) {
    let bundle = empty_bundle(GATE);
    let alone = judge(GATE, &bundle);
    let judged: Vec<_> = std::thread::scope(|scope| {
        let start = || std::thread::Builder::new().stack_size(262144).spawn_scoped(scope, || judge(GATE, &bundle));
        let started: Vec<_> = (0..4).map(|_| start()).collect();
        started.into_iter().map(|thread| thread.ok().and_then(|judging| judging.join().ok())).collect()
    });
    count.expect("judged on small stacks at once", judged.iter().all(|one| one.as_ref() == Some(&alone)));
}

pub fn main() {
    let mut count = Count { passed: 0, failed: 0 };
    owning(&mut count);
    lent(&mut count);
    reasons(&mut count);
    texts(&mut count);
    baseline(&mut count);
    contract_side(&mut count);
    threads(&mut count);
    println!("{} passed, {} failed", count.passed, count.failed);
}
