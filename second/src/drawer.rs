//! The drawer (order 12): a set that stays in one place, with files anywhere
//! behind the header and room between them. Which bytes are taken is kept as
//! one flag for each byte, so that nothing here needs to be sorted or searched
//! cleverly.

use crate::board::Board;
use crate::bundle::{
    build, file_state, files, word_at, FileState, Files, FILES, HEADER, LARGEST_BUNDLE,
    NO_SUCH_FILE, OUTPUT_TOO_SHORT, WRONG_COUNT, WRONG_LAYOUT, WRONG_SIZE,
};
use crate::fields::FILE_NAMES;
use crate::gate::{judge, try_change, Change, Verdict};

pub const NO_ROOM: u32 = 11;

/// Where a present file stands.
#[derive(Clone, Copy, Debug, PartialEq, Eq)]
pub struct Span {
    pub offset: usize,
    pub length: usize,
}

impl Span {
    pub fn end(self) -> usize {
        self.offset + self.length
    }
}

/// Where the files stand; an omitted one stands nowhere.
pub type Spans = [Option<Span>; FILES];

/// Where the files of the drawer stand, or the refusal 1, 2 or 3.
pub fn spans(drawer: &[u8]) -> Result<Spans, u32> {
    check_size(drawer)?;
    if word_at(drawer, 0) as usize != FILES {
        return Err(WRONG_COUNT);
    }
    let mut spans: Spans = [None; FILES];
    for (number, span) in spans.iter_mut().enumerate() {
        let offset = word_at(drawer, 4 + 8 * number) as usize;
        let length = word_at(drawer, 8 + 8 * number) as usize;
        if offset != 0 || length != 0 {
            *span = Some(Span { offset, length });
        }
    }
    let inside = |span: &Span| span.offset >= HEADER && span.end() <= drawer.len();
    if !spans.iter().flatten().all(inside) || taken_bytes(&spans, drawer.len()).is_none() {
        return Err(WRONG_LAYOUT);
    }
    Ok(spans)
}

fn check_size(drawer: &[u8]) -> Result<(), u32> {
    match drawer.len() {
        HEADER..=LARGEST_BUNDLE => Ok(()),
        _ => Err(WRONG_SIZE),
    }
}

/// For each byte of a drawer whether it is taken, by the header or by a file;
/// nothing if a byte is in two files.
fn taken_bytes(spans: &Spans, length: usize) -> Option<Vec<bool>> {
    let mut taken = vec![false; length];
    taken[..HEADER].fill(true);
    for span in spans.iter().flatten() {
        for byte in &mut taken[span.offset..span.end()] {
            if *byte {
                return None;
            }
            *byte = true;
        }
    }
    Some(taken)
}

/// The files as parts of the drawer, or the refusal 1, 2 or 3.
pub fn drawer_files(drawer: &[u8]) -> Result<Files<'_>, u32> {
    let spans = spans(drawer)?;
    let mut files: Files = [None; FILES];
    for (file, span) in files.iter_mut().zip(&spans) {
        *file = span.map(|span| &drawer[span.offset..span.end()]);
    }
    Ok(files)
}

/// The bundle that the drawer's files make.
pub fn bundle_of(drawer: &[u8]) -> Result<Vec<u8>, u32> {
    drawer_files(drawer).map(|files| build(&files))
}

// ----------------------------------------------------------------- calls

pub fn judge_drawer(drawer: &[u8]) -> Verdict {
    match bundle_of(drawer) {
        Ok(bundle) => judge(&bundle),
        Err(refusal) => Verdict { refusal, board: Board::fresh() },
    }
}

/// The file as a part of the drawer; empty if it is omitted or refused.
pub fn drawer_part(drawer: &[u8], number: usize) -> &[u8] {
    let found = drawer_files(drawer).ok().and_then(|files| files.get(number).copied().flatten());
    found.unwrap_or(&[])
}

pub fn drawer_state(drawer: &[u8], number: usize) -> FileState {
    match bundle_of(drawer) {
        Ok(bundle) => file_state(&bundle, number),
        Err(refusal) => FileState::Refused(refusal),
    }
}

/// What making the change would answer. The board is the one that this change
/// to the bundle of the files would give.
pub fn try_drawer(drawer: &[u8], board: &Board, number: usize, change: Change) -> Verdict {
    let bundle = match room_after(drawer, number, change) {
        Err(refusal) => return Verdict { refusal, board: *board },
        Ok(_) => bundle_of(drawer).expect("the drawer isn't refused"),
    };
    let verdict = try_change(&bundle, board, number, change);
    assert_eq!(verdict.refusal, 0, "what fits into a drawer fits into a bundle");
    verdict
}

/// Makes the change in the drawer. A refused one leaves it as it is.
pub fn change_drawer(drawer: &mut [u8], board: &Board, number: usize, change: Change) -> Verdict {
    let verdict = try_drawer(drawer, board, number, change);
    if verdict.refusal == 0 {
        let before = drawer.to_vec();
        let mut files = drawer_files(&before).expect("the drawer isn't refused");
        let spans = spans(&before).expect("the drawer isn't refused");
        files[number] = change;
        let length = change.map(<[u8]>::len);
        paint(drawer, &placed(spans, number, length, before.len()), &files);
    }
    verdict
}

/// The bytes that are free after the change, or the refusal 1, 2, 3, 4 or 11.
fn room_after(drawer: &[u8], number: usize, change: Change) -> Result<usize, u32> {
    let mut files = drawer_files(drawer)?;
    *files.get_mut(number).ok_or(NO_SUCH_FILE)? = change;
    let present: usize = files.iter().flatten().map(|file| file.len()).sum();
    drawer.len().checked_sub(HEADER + present).ok_or(NO_ROOM)
}

/// Puts a bundle into the drawer, whatever this held; gives the refusal.
pub fn put_bundle(drawer: &mut [u8], bundle: &[u8]) -> u32 {
    if let Err(refusal) = files(bundle) {
        return refusal;
    }
    if let Err(refusal) = check_size(drawer) {
        return refusal;
    }
    match drawer.get_mut(..bundle.len()) {
        None => NO_ROOM,
        Some(front) => {
            front.copy_from_slice(bundle);
            0
        }
    }
}

/// Writes the bundle of the drawer's files to the start of the output; gives
/// its length or the refusal.
pub fn take_bundle(drawer: &[u8], output: &mut [u8]) -> Result<usize, u32> {
    let bundle = bundle_of(drawer)?;
    let front = output.get_mut(..bundle.len()).ok_or(OUTPUT_TOO_SHORT)?;
    front.copy_from_slice(&bundle);
    Ok(bundle.len())
}

// ------------------------------------------------------------- the list

/// The files with their places, the gaps and the free bytes as lines of text, or
/// the refusal.
pub fn list(drawer: &[u8]) -> String {
    let spans = match spans(drawer) {
        Ok(spans) => spans,
        Err(refusal) => return format!("bundle {refusal}\n"),
    };
    let mut text = String::new();
    for (number, span) in spans.iter().enumerate() {
        if let Some(span) = span {
            let name = FILE_NAMES[number];
            let ending = if number == 0 { "" } else { ".json" };
            text += &format!("{number} {name}{ending} {} {}\n", span.offset, span.length);
        }
    }
    let taken = taken_bytes(&spans, drawer.len()).expect("no byte is in two files");
    let mut at = HEADER;
    while at < taken.len() {
        let run = taken[at..].iter().take_while(|is_taken| **is_taken == taken[at]).count();
        if !taken[at] {
            text += &format!("gap {at} {run}\n");
        }
        at += run;
    }
    let free = taken.iter().filter(|is_taken| !**is_taken).count();
    text + &format!("free {free} of {}\n", drawer.len())
}

// ------------------------------------------------------------- placement

/// Where the files stand after a change that there is room for.
pub fn placed(mut spans: Spans, number: usize, new: Option<usize>, drawer: usize) -> Spans {
    // A replaced file frees its room first.
    spans[number] = None;
    if let Some(length) = new {
        let offset = match length {
            0 => HEADER,
            _ => lowest_gap(&spans, length, drawer).unwrap_or_else(|| move_down(&mut spans)),
        };
        spans[number] = Some(Span { offset, length });
    }
    spans
}

/// The first byte of the lowest run of free bytes that is long enough.
fn lowest_gap(spans: &Spans, length: usize, drawer: usize) -> Option<usize> {
    let taken = taken_bytes(spans, drawer).expect("no byte is in two files");
    let mut free = 0;
    for (at, is_taken) in taken.iter().enumerate() {
        free = if *is_taken { 0 } else { free + 1 };
        if free == length {
            return Some(at + 1 - length);
        }
    }
    None
}

/// Moves all files down in order of offset, then number, those without bytes to
/// the header's end; gives the first byte behind them.
fn move_down(spans: &mut Spans) -> usize {
    let mut order: Vec<(usize, usize)> = spans
        .iter()
        .enumerate()
        .filter_map(|(number, span)| span.map(|span| (span.offset, number)))
        .collect();
    order.sort_unstable();
    let mut end = HEADER;
    for (_, number) in order {
        if let Some(span) = &mut spans[number] {
            span.offset = if span.length == 0 { HEADER } else { end };
            end += span.length;
        }
    }
    end
}

/// Writes the header and the files; all other bytes stay.
fn paint(drawer: &mut [u8], spans: &Spans, files: &Files) {
    for (number, (span, file)) in spans.iter().zip(files).enumerate() {
        let (offset, length) = span.map_or((0, 0), |span| (span.offset, span.length));
        write_word(drawer, 4 + 8 * number, offset);
        write_word(drawer, 8 + 8 * number, length);
        drawer[offset..offset + length].copy_from_slice(file.unwrap_or(&[]));
    }
}

fn write_word(drawer: &mut [u8], at: usize, word: usize) {
    let word = u32::try_from(word).expect("a drawer's numbers have 32 bits");
    drawer[at..at + 4].copy_from_slice(&word.to_le_bytes());
}
