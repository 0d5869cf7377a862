//! The bundle: 20 files behind a header of 164 bytes.

pub const FILES: usize = 20;
pub const HEADER: usize = 164;
pub const LARGEST_BUNDLE: usize = 1_048_576;

pub const WRONG_SIZE: u32 = 1;
pub const WRONG_COUNT: u32 = 2;
pub const WRONG_LAYOUT: u32 = 3;
pub const NO_SUCH_FILE: u32 = 4;
pub const OUTPUT_TOO_SHORT: u32 = 5;
pub const NEW_BUNDLE_TOO_LONG: u32 = 6;
pub const NO_SUCH_MARK: u32 = 7;

/// The 20 files of a bundle; an omitted one is nothing.
pub type Files<'a> = [Option<&'a [u8]>; FILES];

/// What stands behind a file number.
#[derive(Clone, Copy, Debug, PartialEq, Eq)]
pub enum FileState {
    Present,
    Omitted,
    Refused(u32),
}

pub fn word_at(bytes: &[u8], at: usize) -> u32 {
    let mut word = [0; 4];
    word.copy_from_slice(&bytes[at..at + 4]);
    u32::from_le_bytes(word)
}

/// The files as parts of the bundle, or the refusal 1, 2 or 3.
pub fn files(bundle: &[u8]) -> Result<Files<'_>, u32> {
    if bundle.len() < HEADER || bundle.len() > LARGEST_BUNDLE {
        return Err(WRONG_SIZE);
    }
    if word_at(bundle, 0) as usize != FILES {
        return Err(WRONG_COUNT);
    }
    let mut files: Files = [None; FILES];
    let mut end = HEADER;
    for (number, file) in files.iter_mut().enumerate() {
        let offset = word_at(bundle, 4 + 8 * number) as usize;
        let length = word_at(bundle, 8 + 8 * number) as usize;
        if offset == 0 && length == 0 {
            continue;
        }
        if offset != end {
            return Err(WRONG_LAYOUT);
        }
        let part = bundle.get(offset..).and_then(|rest| rest.get(..length));
        *file = Some(part.ok_or(WRONG_LAYOUT)?);
        end += length;
    }
    if end != bundle.len() {
        return Err(WRONG_LAYOUT);
    }
    Ok(files)
}

fn look_up(bundle: &[u8], number: usize) -> Result<Option<&[u8]>, u32> {
    let files = files(bundle)?;
    files.get(number).copied().ok_or(NO_SUCH_FILE)
}

/// The file as a part of the bundle; empty if it is omitted or refused.
pub fn file_part(bundle: &[u8], number: usize) -> &[u8] {
    look_up(bundle, number).ok().flatten().unwrap_or(&[])
}

/// Which of the three `file_part` stands for.
pub fn file_state(bundle: &[u8], number: usize) -> FileState {
    match look_up(bundle, number) {
        Ok(Some(_)) => FileState::Present,
        Ok(None) => FileState::Omitted,
        Err(refusal) => FileState::Refused(refusal),
    }
}

/// The length of the bundle made of these files.
pub fn built_length(files: &Files) -> usize {
    HEADER + files.iter().flatten().map(|file| file.len()).sum::<usize>()
}

/// The bundle made of these files, which must fit within 32-bit numbers.
pub fn build(files: &Files) -> Vec<u8> {
    let mut bundle = Vec::with_capacity(built_length(files));
    push_word(&mut bundle, FILES);
    let mut offset = HEADER;
    for file in files {
        match file {
            None => {
                push_word(&mut bundle, 0);
                push_word(&mut bundle, 0);
            }
            Some(part) => {
                push_word(&mut bundle, offset);
                push_word(&mut bundle, part.len());
                offset += part.len();
            }
        }
    }
    for part in files.iter().flatten() {
        bundle.extend_from_slice(part);
    }
    bundle
}

pub fn push_word(bundle: &mut Vec<u8>, word: usize) {
    let word = u32::try_from(word).expect("a bundle's numbers have 32 bits");
    bundle.extend_from_slice(&word.to_le_bytes());
}
