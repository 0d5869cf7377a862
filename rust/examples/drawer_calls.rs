//! Calls each function of the wrapper for the drawer and checks its answer; ends in how many were right.

use knotsaddle::drawer::{file, judge, judge_in, make_change, make_in, put, take, take_in, try_change, try_in};
use knotsaddle::{Board, Gate, Refusal, EMPTY_BUNDLE, FILES, MARKS, WORKSPACE};

struct Count {
    passed: u32,
    failed: u32,
}

impl Count {
    fn expect(&mut self, what: &str, holds: bool) {
        if holds {
            self.passed += 1;
        } else {
            self.failed += 1;
            println!("{what}: not as expected");
        }
    }
}

/// How long the drawers are.
const SIZE: usize = EMPTY_BUNDLE + 16;

/// Puts a file down where it is to stand, and says so in the header.
fn lay(bytes: &mut [u8], file: usize, offset: usize, text: &str) {
    bytes[4 + 8 * file] = offset as u8;
    bytes[8 + 8 * file] = text.len() as u8;
    bytes[offset..offset + text.len()].copy_from_slice(text.as_bytes());
}

/// A drawer of 180 bytes with these files, every byte of its room a 7 before.
fn drawer_with(files: &[(usize, usize, &str)]) -> Vec<u8> {
    let mut drawer = vec![7; SIZE];
    drawer[..EMPTY_BUNDLE].fill(0);
    drawer[0] = FILES as u8;
    for &(file, offset, text) in files {
        lay(&mut drawer, file, offset, text);
    }
    drawer
}

/// Files 8 and 9 with four free bytes before, between and behind them.
fn two() -> Vec<u8> {
    drawer_with(&[(8, EMPTY_BUNDLE + 4, "[]"), (9, EMPTY_BUNDLE + 10, "[]")])
}

/// The bundle of `[  ]` as file 8 and `[]` as file 9.
fn bundle_of_two() -> Vec<u8> {
    let mut bundle = drawer_with(&[(8, EMPTY_BUNDLE, "[  ]"), (9, EMPTY_BUNDLE + 4, "[]")]);
    bundle.truncate(EMPTY_BUNDLE + 6);
    bundle
}

/// A board that no judgement gives, and how many of its marks were judged since.
fn handed() -> Board {
    let (kinds, places) = (vec![9; MARKS], vec![9; MARKS]);
    Board { gate: Gate::Schedule, kinds, companions: places.clone(), places }
}

fn judged(board: &Board) -> usize {
    (0..MARKS).filter(|&m| (board.kinds[m], board.places[m], board.companions[m]) != (9, 9, 9)).count()
}

fn judging(count: &mut Count) {
    let drawer = two();
    let board = judge(&drawer);
    count.expect("a drawer judged", board.as_ref().map(|board| (board.faults(), board.kinds[8])) == Ok((7, 0)));
    let mut work = vec![u32::MAX; WORKSPACE];
    count.expect("it in a workspace", judge_in(&drawer, &mut work) == board);
    count.expect("too short a one", judge_in(&drawer, &mut work[1..]) == Err(Refusal(14)));
    count.expect("a file", file(&drawer, 9).map(|part| part.map(<[u8]>::as_ptr)) == Ok(Some(drawer[SIZE - 6..].as_ptr())));
    count.expect("its bytes", file(&drawer, 9) == Ok(Some(b"[]")));
    count.expect("an omitted file", file(&drawer, 10) == Ok(None));
    count.expect("a file of length 0", file(&drawer_with(&[(19, SIZE, "")]), 19) == Ok(Some(b"")));
    count.expect("file 20", file(&drawer, 20) == Err(Refusal(4)));
}

fn changing(count: &mut Count) {
    let mut drawer = two();
    let board = judge(&drawer).expect("judged");
    let tried = try_change(&drawer, &board, 16, Some(b"[   ]"));
    count.expect("a try leaves the drawer", drawer == two());
    let made = make_change(&mut drawer, &board, 16, Some(b"[   ]"));
    let mut moved = two();
    lay(&mut moved, 8, EMPTY_BUNDLE, "[]");
    lay(&mut moved, 9, EMPTY_BUNDLE + 2, "[]");
    lay(&mut moved, 16, EMPTY_BUNDLE + 4, "[   ]");
    count.expect("a change that moves the files", drawer == moved);
    count.expect("its board is that of the drawer", made == judge(&drawer) && made == tried);

    let mut work = vec![u32::MAX; WORKSPACE];
    let mut again = two();
    let tried = try_in(&again, &handed(), 8, None, &mut work);
    count.expect("a withdrawal tried in a workspace", tried.as_ref().map(judged) == Ok(4) && again == two());
    count.expect("and made", make_in(&mut again, &handed(), 8, None, &mut work) == tried);
    count.expect("the drawer after it", again == {
        let mut expected = two();
        (expected[4 + 8 * 8], expected[8 + 8 * 8]) = (0, 0);
        expected
    });
}

fn refusing(count: &mut Count) {
    let (mut drawer, board, mut work) = (two(), handed(), vec![u32::MAX; WORKSPACE]);
    let long = Some(&b"[           ]"[..]);
    count.expect("no room for a try", try_change(&drawer, &board, 16, long) == Err(Refusal(11)));
    count.expect("no room", make_change(&mut drawer, &board, 16, long) == Err(Refusal(11)));
    count.expect("file 20", make_change(&mut drawer, &board, 20, long) == Err(Refusal(4)));
    count.expect("a try of file 20", try_change(&drawer, &board, 20, None) == Err(Refusal(4)));
    count.expect("too short a workspace", make_in(&mut drawer, &board, 20, None, &mut work[1..]) == Err(Refusal(14)));
    count.expect("for a try too", try_in(&drawer, &board, 20, None, &mut work[1..]) == Err(Refusal(14)));
    let short = Board { kinds: vec![9; MARKS - 1], ..handed() };
    count.expect("a board with a kind less", make_change(&mut drawer, &short, 20, None) == Err(Refusal(100)));
    count.expect("and tried", try_change(&drawer, &short, 20, None) == Err(Refusal(100)));
    count.expect("the drawer is as it was", drawer == two());

    let (mut counted, overlap) = (two(), drawer_with(&[(8, EMPTY_BUNDLE, "[]"), (9, EMPTY_BUNDLE + 1, "[]")]));
    counted[0] = 21;
    for (number, wrong) in [(1, &two()[..EMPTY_BUNDLE - 1]), (2, &counted[..]), (3, &overlap[..])] {
        let refused = Refusal(number);
        let (mut drawer, mut out) = (wrong.to_vec(), [9; SIZE]);
        count.expect("judged", judge(wrong) == Err(refused));
        count.expect("asked for a file", file(wrong, 20) == Err(refused));
        count.expect("tried", try_change(wrong, &board, 20, None) == Err(refused));
        count.expect("changed", make_change(&mut drawer, &board, 20, None) == Err(refused) && drawer == wrong);
        count.expect("taken out", take_in(wrong, &mut out) == Err(refused) && take(wrong) == Err(refused) && out == [9; SIZE]);
    }
    count.expect("11 in words", !Refusal(11).in_words().is_empty());
}

fn bundles(count: &mut Count) {
    let bundle = bundle_of_two();
    let mut drawer = vec![7; SIZE];
    count.expect("a bundle put in", put(&mut drawer, &bundle) == Ok(()));
    count.expect("the rest is as it was", drawer[..bundle.len()] == bundle && drawer[bundle.len()..].iter().all(|&byte| byte == 7));
    count.expect("and taken out", take(&drawer).as_ref() == Ok(&bundle));
    let elsewhere = drawer_with(&[(9, EMPTY_BUNDLE, "[]"), (8, EMPTY_BUNDLE + 8, "[  ]")]);
    count.expect("from files in another order", take(&elsewhere).as_ref() == Ok(&bundle));
    let mut out = [9; SIZE];
    count.expect("an output too short", take_in(&elsewhere, &mut out[..bundle.len() - 1]) == Err(Refusal(5)) && out == [9; SIZE]);
    count.expect("an output", take_in(&elsewhere, &mut out) == Ok(bundle.len()) && out[..bundle.len()] == bundle);
    count.expect("whose rest is as it was", out[bundle.len()..].iter().all(|&byte| byte == 9));

    let before = drawer.clone();
    count.expect("a drawer too small for it", put(&mut drawer[..bundle.len() - 1], &bundle) == Err(Refusal(11)));
    count.expect("one too short to be any", put(&mut drawer[..EMPTY_BUNDLE - 1], &bundle) == Err(Refusal(1)));
    count.expect("no bundle", put(&mut drawer, &[]) == Err(Refusal(1)));
    count.expect("one with a byte too few", put(&mut drawer[..0], &bundle[..bundle.len() - 1]) == Err(Refusal(3)));
    let mut counted = bundle.clone();
    counted[0] = 21;
    count.expect("one that counts 21", put(&mut drawer, &counted) == Err(Refusal(2)));
    count.expect("the drawer is as it was", drawer == before);
}

pub fn main() {
    let mut count = Count { passed: 0, failed: 0 };
    judging(&mut count);
    changing(&mut count);
    refusing(&mut count);
    bundles(&mut count);
    println!("{} passed, {} failed", count.passed, count.failed);
}
