//! Calls each function of the wrapper for the list of entries and checks its answer; ends in how many were right.

use knotsaddle::listed::{
    judge, judge_in, judge_plain, make_change, try_change, try_in, Entry, LISTED_WORKSPACE,
};
use knotsaddle::{Refusal, EMPTY_BUNDLE, FILES};

struct Count {
    passed: u32,
    failed: u32,
}

impl Count {
    fn expect(&mut self, what: &str, holds: bool) {
        if holds {
            self.passed += 1;
        } else {
            self.failed += 1;
            println!("{what}: not as expected");
        }
    }
}

const CALENDARS: &str = r#"[{"Name":"n","ID":"b["},{"ID":"\u0041Z","Name":"n"},{"ID":"C","Name":"n"}]"#;
const RESOURCES: &str = r#"[{"ID":"a","Name":"n","ElementOfCostID":"x"}]"#;

const fn entry(start: u32, length: u32, sum: u32, record: u32) -> Entry {
    Entry { start, length, sum, record }
}

const ENTRIES: [Entry; 3] = [entry(59, 1, 99, 3), entry(19, 2, 3129, 1), entry(31, 7, 3129, 2)];
const X: Entry = entry(9, 9, 9, 9);

/// The bundle of the calendars alone.
fn bundle() -> Vec<u8> {
    let mut bundle = vec![0; EMPTY_BUNDLE];
    bundle[0] = FILES as u8;
    bundle[52..56].copy_from_slice(&(EMPTY_BUNDLE as u32).to_le_bytes());
    bundle[56..60].copy_from_slice(&(CALENDARS.len() as u32).to_le_bytes());
    bundle.extend(CALENDARS.as_bytes());
    bundle
}

fn judges(count: &mut Count) {
    let bundle = bundle();
    let mut list = [X; 4];
    let judged = judge(&bundle, &mut list).expect("not refused");
    count.expect("the entries", list[..3] == ENTRIES && list[3] == X && judged.entries == 3);
    count.expect("the length", judged.length == bundle.len());
    count.expect("the plain engine", judge_plain(&bundle).as_ref() == Ok(&judged.board));
    count.expect("no bundle by it", judge_plain(&[]) == Err(Refusal(1)));
    let mut work = vec![7; LISTED_WORKSPACE];
    let mut other = [X; 4];
    count.expect("a workspace that is lent", judge_in(&bundle, &mut other, &mut work) == Ok(judged));
    count.expect("gives the same list", other == list);
    let mut short = [X; 2];
    count.expect("a list too short", judge(&bundle, &mut short) == Err(Refusal(8)) && short == [X; 2]);
    count.expect("8 in words", !Refusal(8).in_words().is_empty());
    count.expect("no bundle", judge(&[], &mut []) == Err(Refusal(1)));
    work.pop();
    count.expect("a short workspace", judge_in(&[], &mut short, &mut work) == Err(Refusal(14)));
}

fn changes(count: &mut Count) {
    let bundle = bundle();
    let new = Some(RESOURCES.as_bytes());
    let board = judge(&bundle, &mut [X; 3]).expect("not refused").board;
    let mut list = [X; 3];
    let tried = try_change(&bundle, &board, 16, new, &mut list).expect("not refused");
    count.expect("what was read", list == [entry(8, 1, 97, 1), X, X] && tried.entries == 1);
    count.expect("the new length", tried.length == bundle.len() + RESOURCES.len());
    let mut out = vec![5; tried.length + 1];
    let mut made_list = [X; 3];
    let made = make_change(&bundle, &board, 16, new, &mut out, &mut made_list);
    count.expect("a change", made.as_ref() == Ok(&tried) && made_list == list);
    let judged = judge(&out[..tried.length], &mut [X; 4]).map(|judged| judged.board);
    count.expect("its bundle", judged.as_ref() == Ok(&tried.board) && out[tried.length] == 5);
    let mut untouched = vec![5; tried.length];
    let refused = make_change(&bundle, &board, 16, new, &mut untouched, &mut []);
    count.expect("no place", refused == Err(Refusal(8)) && untouched.iter().all(|byte| *byte == 5));
    let mut work = vec![7; LISTED_WORKSPACE];
    let gone = try_in(&bundle, &board, 6, None, &mut [], &mut work).map(|gone| (gone.entries, gone.length));
    count.expect("a file withdrawn", gone == Ok((0, EMPTY_BUNDLE)));
}

pub fn main() {
    let mut count = Count { passed: 0, failed: 0 };
    judges(&mut count);
    changes(&mut count);
    println!("{} passed, {} failed", count.passed, count.failed);
}
