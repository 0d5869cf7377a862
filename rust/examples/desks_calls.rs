//! Calls each function of the wrapper for two desks and checks its answer; ends in how many were right.

use knotsaddle::desks::{judge_joined, judge_joined_in, make_change, make_in, try_change, try_in, Bundles, Desks, Whose};
use knotsaddle::{Board, Gate, Refusal, EMPTY_BUNDLE, MARKS, WORKSPACE};

struct Count {
    passed: u32,
    failed: u32,
}

impl Count {
    fn expect(&mut self, what: &str, holds: bool) {
        if holds {
            self.passed += 1;
        } else {
            self.failed += 1;
            println!("{what}: not as expected");
        }
    }
}

/// A bundle with `[]` as one file, or with none.
fn bundle_with(file: Option<usize>) -> Vec<u8> {
    let mut bundle = vec![0; EMPTY_BUNDLE];
    bundle[0] = 20;
    if let Some(file) = file {
        bundle[4 + 8 * file] = EMPTY_BUNDLE as u8;
        bundle[8 + 8 * file] = 2;
        bundle.extend(b"[]");
    }
    bundle
}

/// A board that no judgement gives, and how many of its marks were judged since.
fn handed() -> Board {
    let (kinds, places) = (vec![9; MARKS], vec![9; MARKS]);
    Board { gate: Gate::Schedule, kinds, companions: places.clone(), places }
}

fn judged(board: &Board) -> usize {
    (0..MARKS).filter(|&m| (board.kinds[m], board.places[m], board.companions[m]) != (9, 9, 9)).count()
}

/// Both refusals, 0 for none, and the length.
fn numbers(desks: &Desks) -> (u32, u32, Option<usize>) {
    let number = |refusal: Option<Refusal>| refusal.map_or(0, |refusal| refusal.0);
    (number(desks.a.refusal), number(desks.b.refusal), desks.length)
}

fn judging(count: &mut Count) {
    let (none, eight) = (bundle_with(None), bundle_with(Some(8)));
    let board = judge_joined(&none, &eight);
    count.expect("a desk judged", board.as_ref().map(|board| board.faults()) == Ok(7));
    count.expect("a file of the calendars holds", board.as_ref().map(|board| board.kinds[8]) == Ok(0));
    let mut work = vec![u32::MAX; WORKSPACE];
    count.expect("it in a workspace", judge_joined_in(&none, &eight, &mut work) == board);
    count.expect("too short a one", judge_joined_in(&none, &eight, &mut work[1..]) == Err(Refusal(14)));
    count.expect("a desk that holds file 8", judge_joined(&eight, &none) == Err(Refusal(9)));
    count.expect("no calendars", judge_joined(&none, &[]) == Err(Refusal(1)));
    count.expect("9 in words", !Refusal(9).in_words().is_empty());
}

fn changing(count: &mut Count) {
    let (none, board) = (bundle_with(None), handed());
    let held = Bundles { a: &none, b: &none, shared: &none };
    let boards = (&board, &board);
    let mut out = vec![9; 300];
    let made = make_change(held, boards, Whose::DeskA, 9, Some(b"[]"), &mut out).expect("memory");
    count.expect("A puts file 9", numbers(&made) == (0, 0, Some(EMPTY_BUNDLE + 2)));
    count.expect("A's marks are judged again", judged(&made.a.board) > 0);
    count.expect("B's board comes back", made.b.board == board);
    count.expect("what is written", out[..166] == bundle_with(Some(9)) && out[166..].iter().all(|&byte| byte == 9));
    let made = make_change(held, boards, Whose::DeskB, 9, None, &mut out).expect("memory");
    count.expect("B withdraws file 9", numbers(&made) == (0, 0, Some(EMPTY_BUNDLE)) && made.a.board == board);

    let tried = try_change(held, boards, Whose::Calendars, 8, Some(b"[]")).expect("memory");
    count.expect("the calendars try file 8", numbers(&tried) == (0, 0, Some(EMPTY_BUNDLE + 2)));
    count.expect("four marks read it", judged(&tried.a.board) == 4 && judged(&tried.b.board) == 4);
    let mut work = vec![u32::MAX; WORKSPACE];
    count.expect("in a workspace", try_in(held, boards, Whose::Calendars, 8, Some(b"[]"), &mut work) == tried);
    let made = make_in(held, boards, Whose::Calendars, 8, Some(b"[]"), &mut out, &mut work);
    count.expect("a change is as its try", made == tried && out[..166] == bundle_with(Some(8)));
    let short = make_in(held, boards, Whose::Calendars, 8, None, &mut out, &mut work[1..]);
    count.expect("too short a workspace", numbers(&short) == (14, 14, None) && short.a.board == board);
}

fn refusing(count: &mut Count) {
    let (none, six, mut wrong) = (bundle_with(None), bundle_with(Some(6)), bundle_with(None));
    wrong[0] = 1;
    let board = handed();
    let boards = (&board, &board);
    let held = Bundles { a: &none, b: &none, shared: &none };
    let mut out = vec![9; 300];
    let mut make = |held, whose, file, new, room: usize| numbers(&make_change(held, boards, whose, file, new, &mut out[..room]).expect("memory"));
    let new = Some(&b"[]"[..]);
    count.expect("A's own refusal", make(Bundles { a: &six, ..held }, Whose::DeskA, 9, new, 300) == (9, 0, None));
    count.expect("the calendars' for both", make(Bundles { shared: &wrong, ..held }, Whose::DeskA, 9, new, 300) == (2, 2, None));
    count.expect("A withdraws 8", make(held, Whose::DeskA, 8, None, 300) == (9, 0, None));
    count.expect("the calendars put 9", make(held, Whose::Calendars, 9, new, 300) == (9, 9, None));
    count.expect("the calendars put 20", make(held, Whose::Calendars, 20, new, 300) == (4, 4, None));
    count.expect("an output too short", make(held, Whose::Calendars, 8, new, 165) == (5, 5, None));
    count.expect("too short for A", make(held, Whose::DeskA, 9, new, 165) == (5, 0, None));
    let one = make(Bundles { a: &wrong, ..held }, Whose::Calendars, 8, new, 300);
    count.expect("written while A is refused", one == (2, 0, Some(EMPTY_BUNDLE + 2)));
    let both = make(Bundles { a: &wrong, b: &six, ..held }, Whose::Calendars, 8, new, 300);
    count.expect("not while both are", both == (2, 9, None));
}

pub fn main() {
    let mut count = Count { passed: 0, failed: 0 };
    judging(&mut count);
    changing(&mut count);
    refusing(&mut count);
    println!("{} passed, {} failed", count.passed, count.failed);
}
