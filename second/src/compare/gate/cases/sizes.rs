//! Bundles and changes at the limit of 1,048,576 bytes and one byte beyond.

use std::sync::Arc;

use super::{change, random_board, Cases};
use crate::bundle::{file_part, HEADER, LARGEST_BUNDLE};
use crate::compare::gate::case::{Bytes, LONGEST};
use crate::compare::gate::sample::Set;

pub(super) fn add(cases: &mut Cases) {
    add_judged(cases);
    add_refused(cases);
    add_long_files(cases);
    add_long_bundles(cases);
}

/// The accepted set with one file prolonged by spaces, by a comment or by zeros
/// behind some hours, until the bundle has that many bytes.
fn of_length(cases: &Cases, number: usize, length: usize) -> Vec<u8> {
    let short = cases.base.present(number);
    let missing = length - cases.base.bundle().len();
    let prolonged = match number {
        0 => [&short[..], &vec![b'0'; missing]].concat(),
        2 => with_long_comment(&short, missing),
        7 => with_padded_hours(cases, missing),
        _ => [&vec![b' '; missing - 1], &short[..], b"\n"].concat(),
    };
    cases.base.with_bytes(number, &prolonged).bundle()
}

/// File 2 with a member that has that many bytes in all.
fn with_long_comment(short: &[u8], length: usize) -> Vec<u8> {
    let name = b",\"Export_SoftwareComments\":\"";
    let comment = vec![b'c'; length - name.len() - 1];
    let open = &short[..short.len() - 1];
    [open, name, &comment, b"\"}"].concat()
}

/// File 7 with so many zeros behind the hours that its first record ends in.
fn with_padded_hours(cases: &Cases, zeros: usize) -> Vec<u8> {
    let name = "FridayWorkHours";
    let hours = cases.base.records(7)[0].value(name).expect("the sample gives these hours");
    let padded = [hours, &vec![b'0'; zeros]].concat();
    cases.base.with_value(7, 0, name, Some(&padded)).present(7)
}

fn add_judged(cases: &mut Cases) {
    for number in [0, 2, 7, 9, 19] {
        let bundle = of_length(cases, number, LARGEST_BUNDLE);
        cases.judge(bundle);
        let bundle = of_length(cases, number, LARGEST_BUNDLE + 1);
        cases.judge(bundle);
    }
    let bundle = of_length(cases, 2, LARGEST_BUNDLE - 1);
    cases.judge(bundle);
    // A table that lacks its end, which would be the last byte but one.
    let mut bundle = of_length(cases, 19, LARGEST_BUNDLE);
    bundle[LARGEST_BUNDLE - 2..].copy_from_slice(b"  ");
    cases.judge(bundle);
}

/// The length comes before the count, the count before the layout.
fn add_refused(cases: &mut Cases) {
    let long = of_length(cases, 2, LARGEST_BUNDLE);
    let mut count_wrong = long.clone();
    count_wrong[0] = 21;
    cases.judge(count_wrong.clone());
    count_wrong.push(0);
    cases.judge(count_wrong);
    let mut prolonged = long.clone();
    prolonged.push(b' ');
    cases.judge(prolonged);
    let mut last_too_long = long;
    last_too_long[HEADER - 4] ^= 1;
    cases.judge(last_too_long);
    cases.judge(vec![0; LARGEST_BUNDLE]);
    cases.judge(vec![20; LONGEST]);
}

// --------------------------------------------------------------- changes

/// A small bundle, and new bytes by which it gets as long as it may, or longer.
fn add_long_files(cases: &mut Cases) {
    let bundle = Arc::new(Set::empty().with(4, "[]").with(7, "").bundle());
    let room = LARGEST_BUNDLE - HEADER;
    // In the place of file 4, and beside it.
    for (number, room) in [(4, room), (5, room - 2)] {
        for length in [room, room + 1] {
            add_filled(cases, &bundle, number, length, LARGEST_BUNDLE);
        }
    }
    add_filled(cases, &bundle, 19, room - 2, LONGEST);
    add_filled(cases, &bundle, 19, room - 2, LARGEST_BUNDLE - 1);
    // New bytes longer than any bundle, and a file number that comes before.
    add_filled(cases, &bundle, 19, LONGEST, 0);
    add_filled(cases, &bundle, 20, LONGEST, 0);
    let refused = Arc::new(bundle[..HEADER].to_vec());
    add_filled(cases, &refused, 19, LONGEST, 0);
}

/// The file is replaced by so many spaces, which is tried and made.
fn add_filled(cases: &mut Cases, bundle: &Bytes, number: usize, length: usize, output: usize) {
    let new = Arc::new(vec![b' '; length]);
    let board = random_board(&mut cases.random);
    let mut change = change(board, number, None);
    change.new = Some(new);
    cases.try_change(bundle, change.clone());
    cases.make_change(bundle, change, output);
}

/// A bundle as long as can be: what makes it longer is refused, what makes it
/// shorter isn't.
fn add_long_bundles(cases: &mut Cases) {
    let bundle = Arc::new(of_length(cases, 2, LARGEST_BUNDLE));
    let same = cases.base.present(6);
    let longer = [&same[..], b" "].concat();
    let shorter = same[..same.len() - 1].to_vec();
    add_made(cases, &bundle, 6, Some(same), LARGEST_BUNDLE);
    add_made(cases, &bundle, 6, Some(longer), LARGEST_BUNDLE);
    add_made(cases, &bundle, 6, Some(shorter), LARGEST_BUNDLE - 1);
    add_made(cases, &bundle, 6, None, 100);
    let left = LARGEST_BUNDLE - file_part(&bundle, 2).len();
    add_made(cases, &bundle, 2, None, left);
    add_made(cases, &bundle, 2, None, left - 1);
    add_long_number(cases);
    let one_over = Arc::new(of_length(cases, 2, LARGEST_BUNDLE + 1));
    add_made(cases, &one_over, 20, Some(b"{}".to_vec()), 10);
}

/// A number that makes the bundle as long as can be comes with a change.
fn add_long_number(cases: &mut Cases) {
    let bundle = Arc::new(cases.base.bundle());
    let new = with_padded_hours(cases, LARGEST_BUNDLE - bundle.len());
    let board = random_board(&mut cases.random);
    cases.try_change(&bundle, change(board, 7, Some(new)));
}

fn add_made(cases: &mut Cases, bundle: &Bytes, number: usize, new: Option<Vec<u8>>, output: usize) {
    let board = random_board(&mut cases.random);
    cases.make_change(bundle, change(board, number, new), output);
}

#[cfg(test)]
mod tests {
    use super::*;
    use crate::compare::gate::set_draft::SetDraft;
    use crate::compare::random::Random;
    use crate::gate::judge;

    #[test]
    fn the_accepted_set_stays_accepted_at_full_length() {
        let base = SetDraft::accepted();
        let cases = Cases { list: Vec::new(), random: Random::new(1), base };
        for number in [2, 7, 9, 19] {
            let bundle = of_length(&cases, number, LARGEST_BUNDLE);
            assert_eq!(bundle.len(), LARGEST_BUNDLE);
            assert!(judge(&bundle).board.is_accepted(), "file {number}");
            assert_eq!(judge(&of_length(&cases, number, LARGEST_BUNDLE + 1)).refusal, 1);
        }
    }
}
