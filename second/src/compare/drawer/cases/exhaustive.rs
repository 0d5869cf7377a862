//! Every layout of few bytes, right and wrong, and every small change of those
//! that are right.

use std::sync::Arc;

use super::{drawer_of, Cases};
use crate::bundle::HEADER;
use crate::compare::drawer::case::Call;
use crate::compare::gate::case::{Bytes, Change};
use crate::compare::gate::cases::random_board;
use crate::drawer::{spans, Span};

pub(super) fn add(cases: &mut Cases) {
    for (room, numbers) in [
        (0, &[9, 4, 19][..]),
        (1, &[6, 0, 8]),
        (2, &[3, 14, 15]),
        (3, &[1, 19]),
        (4, &[10, 9]),
        (5, &[0, 16]),
    ] {
        for layout in layouts(room, numbers) {
            add_layout(cases, room, &layout);
        }
    }
}

/// Each of these files omitted, or at any place within the room and one byte
/// around it, of any length up to one more than there is.
fn layouts(room: usize, numbers: &[usize]) -> Vec<Vec<(usize, Span)>> {
    let mut layouts = vec![Vec::new()];
    for number in numbers {
        let mut longer = layouts.clone();
        for offset in HEADER - 1..=HEADER + room + 1 {
            for length in 0..=room + 1 {
                for layout in &layouts {
                    let one = [(*number, Span { offset, length })];
                    longer.push([&layout[..], &one].concat());
                }
            }
        }
        layouts = longer;
    }
    layouts
}

fn add_layout(cases: &mut Cases, room: usize, layout: &[(usize, Span)]) {
    let mut letter = b'a' + cases.random.below(20) as u8;
    let drawer = drawer_of(layout, HEADER + room, || {
        letter += 1;
        letter
    });
    let is_right = spans(&drawer).is_ok();
    let drawer = Arc::new(drawer);
    cases.push(&drawer, Call::Judge);
    if !is_right {
        return;
    }
    let other = (7, Span { offset: 0, length: 0 });
    for (number, _) in layout.iter().chain([&other]) {
        for length in 0..=room + 1 {
            let letters = (0..length).map(|at| b'A' + at as u8);
            add_change(cases, &drawer, *number, Some(letters.collect()));
        }
        add_change(cases, &drawer, *number, None);
    }
}

/// Made; tried as well now and then, which says less.
fn add_change(cases: &mut Cases, drawer: &Bytes, number: usize, new: Option<Vec<u8>>) {
    let board = random_board(&mut cases.random);
    let change = Change { board, number: number as u32, new: new.map(Arc::new) };
    if cases.random.below(6) == 0 {
        cases.push(drawer, Call::Try(change.clone()));
    }
    cases.push(drawer, Call::Make(change));
}
