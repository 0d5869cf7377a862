//! A bundle of any gate: a count of its files, a pair of offset and length for
//! each, and the present files one behind the other.

use super::Gate;
use crate::bundle::{FileState, LARGEST_BUNDLE, NO_SUCH_FILE};
use crate::bundle::{WRONG_COUNT, WRONG_LAYOUT, WRONG_SIZE};

/// A gate's files; an omitted one is nothing.
pub type Parts<'a> = Vec<Option<&'a [u8]>>;

/// The files as parts of the bundle, or the refusal 1, 2 or 3.
pub fn parts<'a>(gate: &Gate, bundle: &'a [u8]) -> Result<Parts<'a>, u32> {
    if !(gate.header()..=LARGEST_BUNDLE).contains(&bundle.len()) {
        return Err(WRONG_SIZE);
    }
    let (header, mut rest) = bundle.split_at(gate.header());
    let words: Vec<usize> = header.chunks_exact(4).map(number).collect();
    if words[0] != gate.files {
        return Err(WRONG_COUNT);
    }
    let mut parts = Vec::new();
    for pair in words[1..].chunks_exact(2) {
        if pair == [0, 0] {
            parts.push(None);
            continue;
        }
        if pair[0] != bundle.len() - rest.len() || pair[1] > rest.len() {
            return Err(WRONG_LAYOUT);
        }
        let (part, behind) = rest.split_at(pair[1]);
        parts.push(Some(part));
        rest = behind;
    }
    match rest {
        [] => Ok(parts),
        _ => Err(WRONG_LAYOUT),
    }
}

/// Little-endian, of 32 bits.
fn number(bytes: &[u8]) -> usize {
    bytes.iter().rev().fold(0, |sum, byte| 256 * sum + usize::from(*byte))
}

/// The length of the bundle made of these files.
pub fn built_length(gate: &Gate, parts: &[Option<&[u8]>]) -> usize {
    parts.iter().flatten().fold(gate.header(), |sum, part| sum + part.len())
}

/// The bundle made of these files, which must fit within 32-bit numbers.
pub fn build(gate: &Gate, parts: &[Option<&[u8]>]) -> Vec<u8> {
    let mut words = vec![gate.files];
    let mut end = gate.header();
    for part in parts {
        words.extend(part.map_or([0, 0], |part| [end, part.len()]));
        end += part.map_or(0, <[u8]>::len);
    }
    let word = |word: usize| u32::try_from(word).expect("a bundle's numbers have 32 bits");
    let mut bundle: Vec<u8> =
        words.into_iter().flat_map(|number| word(number).to_le_bytes()).collect();
    bundle.extend(parts.iter().flatten().copied().flatten());
    bundle
}

/// The file as a part of the bundle, and what that stands for. It is empty if
/// the file is omitted or the lookup is refused by 1, 2, 3 or 4.
pub fn look_up<'a>(gate: &Gate, bundle: &'a [u8], file: usize) -> (FileState, &'a [u8]) {
    match parts(gate, bundle).map(|parts| parts.get(file).copied()) {
        Err(refusal) => (FileState::Refused(refusal), &[]),
        Ok(None) => (FileState::Refused(NO_SUCH_FILE), &[]),
        Ok(Some(None)) => (FileState::Omitted, &[]),
        Ok(Some(Some(part))) => (FileState::Present, part),
    }
}
