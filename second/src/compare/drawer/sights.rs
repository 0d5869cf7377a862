//! What the cases of the drawer have to show, all together.

use std::fmt::{self, Display};

use super::case::{Call, DrawerCase, JUDGE, LIST, LOOK_UP, MAKE, PUT, TAKE, TRY};
use crate::bundle::{word_at, FILES, HEADER, LARGEST_BUNDLE};
use crate::compare::gate::case::Change;
use crate::compare::reply::Reply;
use crate::drawer::{spans, Span, Spans};
use crate::gate::touched_marks;

#[derive(Clone, Copy, Debug, PartialEq, Eq, PartialOrd, Ord)]
pub enum Sight {
    /// A call with this refusal, or with none.
    Refusal {
        op: u32,
        refusal: u32,
    },
    /// A bundle refused because of the drawer, not of itself.
    NoDrawer,
    /// An accepted change of this file, present or not before and after it.
    Changed {
        number: usize,
        before: bool,
        after: bool,
    },
    /// After a change of this file the mark isn't what was handed in.
    Judged {
        mark: usize,
        file: usize,
    },
    /// A mark beyond what any judgement gives comes back.
    Kept {
        mark: usize,
        refused: bool,
    },
    /// A list with so many gaps, or more.
    Gaps(usize),
    Way(Way),
    Wrong(Wrong),
}

/// How a made change went.
#[derive(Clone, Copy, Debug, PartialEq, Eq, PartialOrd, Ord)]
pub enum Way {
    NewWithoutBytes,
    FirstFreeByte,
    BehindATooShortGap,
    ExactGap,
    BehindAllFiles,
    OverAnEmptyFile,
    IntoItsOwnRoom,
    OnlyByItsOwnRoom,
    EmptyFileStays,
    Moved,
    MovedReplaced,
    MovedEmptyFile,
    MovedOneStays,
    MovedOverItself,
    MovedOutOfNumberOrder,
    MovedBesideEmptyFile,
    FullAfter,
    NoRoomByOneByte,
    NoRoomByMuch,
    RubbishStays,
    LargestDrawer,
}

pub const WAYS: [Way; 21] = [
    Way::NewWithoutBytes,
    Way::FirstFreeByte,
    Way::BehindATooShortGap,
    Way::ExactGap,
    Way::BehindAllFiles,
    Way::OverAnEmptyFile,
    Way::IntoItsOwnRoom,
    Way::OnlyByItsOwnRoom,
    Way::EmptyFileStays,
    Way::Moved,
    Way::MovedReplaced,
    Way::MovedEmptyFile,
    Way::MovedOneStays,
    Way::MovedOverItself,
    Way::MovedOutOfNumberOrder,
    Way::MovedBesideEmptyFile,
    Way::FullAfter,
    Way::NoRoomByOneByte,
    Way::NoRoomByMuch,
    Way::RubbishStays,
    Way::LargestDrawer,
];

/// Why a layout is refused, or just isn't.
#[derive(Clone, Copy, Debug, PartialEq, Eq, PartialOrd, Ord)]
pub enum Wrong {
    InTheHeader,
    EmptyInTheHeader,
    BeyondTheEnd,
    EmptyBeyondTheEnd,
    SumWraps,
    OneByteInTwo,
    OneInsideAnother,
    TheSamePlaceTwice,
    EmptyAtTheEnd,
    EmptyInsideAnother,
    TwoEmptyAtOnePlace,
}

pub const WRONGS: [Wrong; 11] = [
    Wrong::InTheHeader,
    Wrong::EmptyInTheHeader,
    Wrong::BeyondTheEnd,
    Wrong::EmptyBeyondTheEnd,
    Wrong::SumWraps,
    Wrong::OneByteInTwo,
    Wrong::OneInsideAnother,
    Wrong::TheSamePlaceTwice,
    Wrong::EmptyAtTheEnd,
    Wrong::EmptyInsideAnother,
    Wrong::TwoEmptyAtOnePlace,
];

impl Display for Sight {
    fn fmt(&self, out: &mut fmt::Formatter) -> fmt::Result {
        match self {
            Sight::Refusal { op, refusal } => write!(out, "op {op} with refusal {refusal}"),
            Sight::NoDrawer => write!(out, "a good bundle, and no drawer"),
            Sight::Changed { number, before, after } => {
                write!(out, "file {number} changed, present before: {before}, after: {after}")
            }
            Sight::Judged { mark, file } => write!(out, "mark {mark} anew by file {file}"),
            Sight::Kept { mark, refused } => write!(out, "mark {mark} kept, refused: {refused}"),
            Sight::Gaps(gaps) => write!(out, "a list with {gaps} gaps"),
            Sight::Way(way) => write!(out, "a change: {way:?}"),
            Sight::Wrong(wrong) => write!(out, "a layout: {wrong:?}"),
        }
    }
}

pub fn wanted() -> Vec<Sight> {
    let refusals: [(u32, &[u32]); 7] = [
        (JUDGE, &[0, 1, 2, 3]),
        (TRY, &[0, 1, 2, 3, 4, 11]),
        (MAKE, &[0, 1, 2, 3, 4, 11]),
        (LOOK_UP, &[0, 1, 2, 3, 4]),
        (PUT, &[0, 1, 2, 3, 11]),
        (TAKE, &[0, 1, 2, 3, 5]),
        (LIST, &[0, 1, 2, 3]),
    ];
    let mut wanted = vec![Sight::NoDrawer];
    for (op, numbers) in refusals {
        wanted.extend(numbers.iter().map(|refusal| Sight::Refusal { op, refusal: *refusal }));
    }
    for number in 0..FILES {
        for (before, after) in [(false, false), (false, true), (true, false), (true, true)] {
            wanted.push(Sight::Changed { number, before, after });
        }
        let judged = touched_marks(number).into_iter();
        wanted.extend(judged.map(|mark| Sight::Judged { mark, file: number }));
    }
    for mark in 0..=80 {
        wanted.extend([false, true].map(|refused| Sight::Kept { mark, refused }));
    }
    wanted.extend((0..=MOST_GAPS).map(Sight::Gaps));
    wanted.extend(WAYS.map(Sight::Way));
    wanted.extend(WRONGS.map(Sight::Wrong));
    wanted
}

/// From so many gaps on a list shows nothing new.
const MOST_GAPS: usize = 4;

pub fn sights_of(case: &DrawerCase, expected: &Reply) -> Vec<Sight> {
    if case.call == Call::List {
        return list_sights(&case.drawer, expected.bytes_of("text"));
    }
    let refusal = expected.number_of("refusal");
    let mut seen = vec![Sight::Refusal { op: case.op(), refusal }];
    match &case.call {
        Call::Judge => seen.extend(layout_sights(&case.drawer).into_iter().map(Sight::Wrong)),
        Call::Put(bundle) if refusal == 1 && crate::bundle::files(bundle).is_ok() => {
            seen.push(Sight::NoDrawer);
        }
        Call::Try(change) => seen.extend(board_sights(change, expected)),
        Call::Make(change) => {
            seen.extend(board_sights(change, expected));
            seen.extend(way_sights(&case.drawer, change, expected).into_iter().map(Sight::Way));
            if refusal == 0 {
                let number = change.number as usize;
                let before = word_at(&case.drawer, 4 + 8 * number) != 0;
                seen.push(Sight::Changed { number, before, after: change.new.is_some() });
            }
        }
        _ => {}
    }
    seen
}

fn list_sights(drawer: &[u8], text: &[u8]) -> Vec<Sight> {
    let refusal = spans(drawer).err().unwrap_or(0);
    let mut seen = vec![Sight::Refusal { op: LIST, refusal }];
    if refusal == 0 {
        let gaps = text.split(|byte| *byte == b'\n').filter(|line| line.starts_with(b"gap "));
        seen.push(Sight::Gaps(gaps.count().min(MOST_GAPS)));
    }
    seen
}

fn board_sights(change: &Change, expected: &Reply) -> Vec<Sight> {
    let refused = expected.number_of("refusal") != 0;
    let board = expected.board_of("board").expect("a change answers with a board");
    let file = change.number as usize;
    let mut seen = Vec::new();
    for (mark, (handed, given)) in change.board.marks.iter().zip(&board.marks).enumerate() {
        if handed != given {
            seen.push(Sight::Judged { mark, file });
        } else if handed.kind > 40 {
            seen.push(Sight::Kept { mark, refused });
        }
    }
    seen
}

// ---------------------------------------------------------------- layout

/// By the numbers of the header alone.
fn layout_sights(drawer: &[u8]) -> Vec<Wrong> {
    if drawer.len() < HEADER || drawer.len() > LARGEST_BUNDLE || word_at(drawer, 0) != 20 {
        return Vec::new();
    }
    let end = drawer.len() as u64;
    let pairs: Vec<(u64, u64)> = (0..FILES)
        .map(|number| (word_at(drawer, 4 + 8 * number), word_at(drawer, 8 + 8 * number)))
        .filter(|pair| *pair != (0, 0))
        .map(|(offset, length)| (u64::from(offset), u64::from(length)))
        .collect();
    let mut seen = Vec::new();
    for (offset, length) in &pairs {
        seen.extend(place_sight(*offset, *length, end));
    }
    if spans(drawer).is_ok() || seen.is_empty() {
        for (at, first) in pairs.iter().enumerate() {
            for second in &pairs[..at] {
                seen.extend(pair_sight(*first, *second));
            }
        }
    }
    seen
}

fn place_sight(offset: u64, length: u64, end: u64) -> Option<Wrong> {
    let wraps = offset + length > u64::from(u32::MAX);
    let wrapped = (offset + length) as u32;
    match (offset, length) {
        (offset, 0) if offset < HEADER as u64 => Some(Wrong::EmptyInTheHeader),
        (offset, 0) if offset == end => Some(Wrong::EmptyAtTheEnd),
        (offset, 0) if offset == end + 1 => Some(Wrong::EmptyBeyondTheEnd),
        (_, 0) => None,
        (163, _) => Some(Wrong::InTheHeader),
        _ if wraps && u64::from(wrapped) <= end => Some(Wrong::SumWraps),
        _ if offset + length == end + 1 => Some(Wrong::BeyondTheEnd),
        _ => None,
    }
}

fn pair_sight(first: (u64, u64), second: (u64, u64)) -> Option<Wrong> {
    let (low, high) = (first.min(second), first.max(second));
    let common = (low.0 + low.1).min(high.0 + high.1).saturating_sub(high.0);
    match (first.1, second.1) {
        (0, 0) if first.0 == second.0 => Some(Wrong::TwoEmptyAtOnePlace),
        (0, 0) => None,
        (0, _) if second.0 < first.0 && first.0 < second.0 + second.1 => {
            Some(Wrong::EmptyInsideAnother)
        }
        (_, 0) if first.0 < second.0 && second.0 < first.0 + first.1 => {
            Some(Wrong::EmptyInsideAnother)
        }
        (0, _) | (_, 0) => None,
        _ if first == second => Some(Wrong::TheSamePlaceTwice),
        _ if low.0 < high.0 && high.0 + high.1 < low.0 + low.1 => Some(Wrong::OneInsideAnother),
        _ if common == 1 => Some(Wrong::OneByteInTwo),
        _ => None,
    }
}

// --------------------------------------------------------------- changes

fn way_sights(drawer: &[u8], change: &Change, expected: &Reply) -> Vec<Way> {
    let before = match spans(drawer) {
        Ok(spans) => spans,
        Err(_) => return Vec::new(),
    };
    let number = change.number as usize;
    if number >= FILES {
        return Vec::new();
    }
    let mut others = before;
    others[number] = None;
    let new = change.bytes().map_or(0, <[u8]>::len);
    let total = HEADER + lengths(&others) + new;
    match expected.number_of("refusal") {
        0 => {}
        _ if total == drawer.len() + 1 => return vec![Way::NoRoomByOneByte],
        _ => return vec![Way::NoRoomByMuch],
    }
    let after = spans(expected.bytes_of("drawer")).expect("a drawer stays one");
    let mut seen = Vec::new();
    if total == drawer.len() {
        seen.push(Way::FullAfter);
    }
    if drawer.len() == LARGEST_BUNDLE {
        seen.push(Way::LargestDrawer);
    }
    if rubbish(&after, expected.bytes_of("drawer")) {
        seen.push(Way::RubbishStays);
    }
    if let (Some(_), Some(span)) = (&change.new, after[number]) {
        let place = Placement { others, old: before[number], span, end: drawer.len() };
        if span.length == 0 {
            seen.push(Way::NewWithoutBytes);
        } else if place.free_for(span.length, &others).is_some() {
            seen.extend(place.gap_sights());
        } else {
            seen.extend(place.move_sights(&after, number));
        }
    }
    seen
}

fn lengths(spans: &Spans) -> usize {
    spans.iter().flatten().map(|span| span.length).sum()
}

/// A byte that is in no file and isn't zero.
fn rubbish(spans: &Spans, drawer: &[u8]) -> bool {
    let is_free = |at: usize| !spans.iter().flatten().any(|span| covers(*span, at));
    let tail = (HEADER..drawer.len()).take(400);
    tail.filter(|at| drawer[*at] != 0).any(is_free)
}

fn covers(span: Span, at: usize) -> bool {
    (span.offset..span.end()).contains(&at)
}

/// Where the new bytes of a file stand, and what stood around them.
struct Placement {
    others: Spans,
    old: Option<Span>,
    span: Span,
    end: usize,
}

impl Placement {
    /// The lowest place among these files, sought by walking from end to end.
    fn free_for(&self, length: usize, spans: &Spans) -> Option<usize> {
        let mut starts: Vec<usize> = spans.iter().flatten().map(|span| span.end()).collect();
        starts.push(HEADER);
        starts.sort_unstable();
        let apart = |start: usize, span: &Span| {
            span.length == 0 || span.end() <= start || start + length <= span.offset
        };
        let fits = |start: &usize| {
            start + length <= self.end && spans.iter().flatten().all(|span| apart(*start, span))
        };
        starts.into_iter().find(fits)
    }

    fn gap_sights(&self) -> Vec<Way> {
        let span = self.span;
        let files = || self.others.iter().flatten().filter(|other| other.length > 0);
        let mut seen = Vec::new();
        match self.free_for(1, &self.others) {
            Some(first) if first == span.offset => seen.push(Way::FirstFreeByte),
            _ => seen.push(Way::BehindATooShortGap),
        }
        let stops = |at: usize| at == self.end || files().any(|other| other.offset == at);
        if stops(span.end()) {
            seen.push(Way::ExactGap);
        }
        if files().count() > 0 && files().all(|other| other.end() <= span.offset) {
            seen.push(Way::BehindAllFiles);
        }
        let empty: Vec<usize> =
            self.others.iter().flatten().filter(|s| s.length == 0).map(|s| s.offset).collect();
        if empty.iter().any(|at| span.offset < *at && *at < span.end()) {
            seen.push(Way::OverAnEmptyFile);
        }
        if empty.iter().any(|at| *at != HEADER) {
            seen.push(Way::EmptyFileStays);
        }
        if let Some(old) = self.old.filter(|old| old.length > 0) {
            if old.offset < span.end() && span.offset < old.end() {
                seen.push(Way::IntoItsOwnRoom);
            }
            let mut all = self.others;
            let spare = all.iter().position(Option::is_none).expect("the file itself isn't there");
            all[spare] = Some(old);
            if self.free_for(span.length, &all).is_none() {
                seen.push(Way::OnlyByItsOwnRoom);
            }
        }
        seen
    }

    fn move_sights(&self, after: &Spans, number: usize) -> Vec<Way> {
        let mut seen = vec![Way::Moved];
        if self.old.map_or(false, |old| old.length > 0) {
            seen.push(Way::MovedReplaced);
        }
        let pairs = || {
            let both = self.others.iter().zip(after).enumerate();
            both.filter(move |(other, _)| *other != number)
                .filter_map(|(_, (old, new))| Some(((*old)?, (*new)?)))
        };
        let files = || pairs().filter(|(old, _)| old.length > 0);
        if pairs().any(|(old, _)| old.length == 0 && old.offset != HEADER) {
            seen.push(Way::MovedEmptyFile);
        }
        if files().any(|(old, new)| old == new) {
            seen.push(Way::MovedOneStays);
        }
        if files().any(|(old, new)| new.offset < old.offset && old.offset < new.end()) {
            seen.push(Way::MovedOverItself);
        }
        let offsets: Vec<usize> = files().map(|(old, _)| old.offset).collect();
        if offsets.windows(2).any(|two| two[1] < two[0]) {
            seen.push(Way::MovedOutOfNumberOrder);
        }
        let empty_at = |at: usize| pairs().any(|(old, _)| old.length == 0 && old.offset == at);
        if offsets.iter().any(|at| empty_at(*at)) {
            seen.push(Way::MovedBesideEmptyFile);
        }
        seen
    }
}
