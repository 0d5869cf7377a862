//! Calls each function of the wrapper for loops of links and checks its answer; ends in how many were right.

use knotsaddle::loops::{show, show_in, LIST, WORKSPACE};
use knotsaddle::{Refusal, EMPTY_BUNDLE, FILES};

struct Count {
    passed: u32,
    failed: u32,
}

impl Count {
    fn expect(&mut self, what: &str, holds: bool) {
        if holds {
            self.passed += 1;
        } else {
            self.failed += 1;
            println!("{what}: not as expected");
        }
    }
}

/// A bundle with this file 14 alone.
fn bundle_of(file: &str) -> Vec<u8> {
    let mut bundle = vec![0; EMPTY_BUNDLE];
    bundle[0] = FILES as u8;
    bundle[4 + 8 * 14] = EMPTY_BUNDLE as u8;
    bundle[8 + 8 * 14..12 + 8 * 14].copy_from_slice(&(file.len() as u32).to_le_bytes());
    bundle.extend(file.as_bytes());
    bundle
}

/// One with these links, each from a predecessor to a successor.
fn links(links: &[(String, String)]) -> Vec<u8> {
    let record = |(from, to): &(String, String)| {
        format!(r#"{{"PredecessorTaskID":"{from}","SuccessorTaskID":"{to}","RelationshipTypeID":"START_TO_START"}}"#)
    };
    bundle_of(&format!("[{}]", links.iter().map(record).collect::<Vec<_>>().join(",")))
}

fn pairs(texts: &[(&str, &str)]) -> Vec<u8> {
    links(&texts.iter().map(|(from, to)| (from.to_string(), to.to_string())).collect::<Vec<_>>())
}

fn shows(count: &mut Count) {
    let mut omitted = vec![0; EMPTY_BUNDLE];
    omitted[0] = FILES as u8;
    count.expect("file 14 is omitted", show(&omitted) == Ok(None));
    count.expect("no links", show(&bundle_of("[]")) == Ok(None));
    count.expect("a chain", show(&pairs(&[("B", "C"), ("A", "B")])) == Ok(None));
    count.expect("a task after itself", show(&pairs(&[("A", "B"), ("x", "X")])) == Ok(Some(vec![2])));
    let two = pairs(&[("A", "B"), ("X", "A"), ("b", "a"), ("B", "C")]);
    let shown = show(&two);
    count.expect("two tasks, IDs folded", shown == Ok(Some(vec![1, 3])) || shown == Ok(Some(vec![3, 1])));
    let (mut list, mut work) = ([9; 5], vec![u32::MAX; WORKSPACE]);
    let lent = show_in(&two, &mut list, &mut work).map(|shown| shown.map(<[u32]>::to_vec));
    count.expect("the same in what is lent", lent == shown);
    count.expect("behind the loop the list is as it was", list[2..] == [9; 3] && Ok(Some(list[..2].to_vec())) == shown);

    let ring: Vec<_> = (0..LIST).map(|i| (format!("T{i}"), format!("t{}", (i + 1) % LIST))).collect();
    let shown = show(&links(&ring)).ok().flatten().unwrap_or_default();
    let leads = |i: usize| shown[(i + 1) % LIST] == shown[i] % LIST as u32 + 1;
    count.expect("4,096 links in a loop", shown.len() == LIST && (0..LIST).all(leads));
    count.expect("4,096 links in a row", show(&links(&ring[..LIST - 1])) == Ok(None));
}

fn refuses(count: &mut Count) {
    let one = pairs(&[("A", "a")]);
    let mut work = vec![u32::MAX; WORKSPACE];
    let mut lent = |bundle: &[u8], room: usize| {
        let mut list = [9; 2];
        let refused = show_in(bundle, &mut list[..room], &mut work).err();
        (refused, list == [9; 2])
    };
    count.expect("a short list", lent(&one, 0) == (Some(Refusal(13)), true));
    count.expect("file 14 is no JSON", lent(&bundle_of("["), 0) == (Some(Refusal(12)), true));
    let mut long = bundle_of("[]");
    long.push(0);
    count.expect("the layout is broken", lent(&long, 2) == (Some(Refusal(3)), true));
    let mut counted = one.clone();
    counted[0] = 21;
    count.expect("the count is 21", lent(&counted, 2) == (Some(Refusal(2)), true));
    count.expect("no bundle", lent(&[], 2) == (Some(Refusal(1)), true));
    let mut list = [9; 2];
    count.expect("a short workspace", show_in(&[], &mut list, &mut work[1..]) == Err(Refusal(14)) && list == [9; 2]);
    count.expect("refusals of the other form", show(&[]) == Err(Refusal(1)) && show(&bundle_of("[")) == Err(Refusal(12)));
    count.expect("each has words", [12, 13].iter().all(|&number| !Refusal(number).in_words().is_empty()));
}

pub fn main() {
    let mut count = Count { passed: 0, failed: 0 };
    shows(&mut count);
    refuses(&mut count);
    println!("{} passed, {} failed", count.passed, count.failed);
}
