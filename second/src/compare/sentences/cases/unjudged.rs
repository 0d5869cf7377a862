//! Files that keep marks from being judged: each alone, each two, all up to one,
//! all, and any of them.

use super::Cases;
use crate::bundle::FILES;

const RANDOM_SETS: usize = 150;

/// What makes a file one that doesn't hold; the last one omits it, which few
/// files may not be.
const UNREADABLE: [Option<&[u8]>; 6] =
    [Some(b"["), Some(b""), Some(b"[{}]"), Some(b"\n{\"x\":1}"), Some(b"\xFF"), None];

pub(super) fn add(cases: &mut Cases) {
    for number in 0..FILES {
        for spoilt in UNREADABLE {
            let bundle = with_spoilt(cases, &[number], |_| spoilt);
            cases.in_both(bundle);
        }
        for other in 0..number {
            let bundle = with_spoilt(cases, &[other, number], |_| Some(b"["));
            cases.in_either(bundle);
        }
        let up_to: Vec<usize> = (0..=number).collect();
        let bundle = with_spoilt(cases, &up_to, |_| Some(b"\n["));
        cases.in_both(bundle);
        let from: Vec<usize> = (number..FILES).collect();
        let bundle = with_spoilt(cases, &from, |_| Some(b"\n\n["));
        cases.in_both(bundle);
    }
    for _ in 0..RANDOM_SETS {
        let often = cases.random.pick(&[2, 5, 10]);
        let numbers: Vec<usize> = (0..FILES).filter(|_| cases.random.below(often) == 0).collect();
        let choices: Vec<usize> =
            (0..FILES).map(|_| cases.random.below(UNREADABLE.len())).collect();
        let bundle = with_spoilt(cases, &numbers, |number| UNREADABLE[choices[number]]);
        cases.in_either(bundle);
    }
}

/// The bundle of the accepted set with these files spoilt.
fn with_spoilt<'a>(
    cases: &Cases,
    numbers: &[usize],
    spoilt: impl Fn(usize) -> Option<&'a [u8]>,
) -> Vec<u8> {
    let mut set = cases.base.clone();
    for number in numbers {
        set = match spoilt(*number) {
            Some(contents) => set.with_bytes(*number, contents),
            None => set.without(*number),
        };
    }
    set.bundle()
}
