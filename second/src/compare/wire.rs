//! Numbers and slices as bytes between two programs.

use std::io::{self, ErrorKind, Read, Write};

/// No slice of a case is longer.
pub const LONGEST: usize = 1_048_576;

pub fn write_words(out: &mut impl Write, words: &[u32]) -> io::Result<()> {
    for word in words {
        out.write_all(&word.to_le_bytes())?;
    }
    Ok(())
}

pub fn read_word(input: &mut impl Read) -> io::Result<u32> {
    let mut bytes = [0; 4];
    input.read_exact(&mut bytes)?;
    Ok(u32::from_le_bytes(bytes))
}

/// The first word of a case, or nothing at the end of the input.
pub fn read_first_word(input: &mut impl Read) -> io::Result<Option<u32>> {
    let mut bytes = [0; 4];
    let filled = fill_or_end(input, &mut bytes)?;
    Ok(filled.then_some(u32::from_le_bytes(bytes)))
}

/// Fills the buffer, or says that the input ended before its first byte.
fn fill_or_end(input: &mut impl Read, buffer: &mut [u8]) -> io::Result<bool> {
    let mut filled = 0;
    while filled < buffer.len() {
        match input.read(&mut buffer[filled..]) {
            Ok(0) if filled == 0 => return Ok(false),
            Ok(0) => return Err(ErrorKind::UnexpectedEof.into()),
            Ok(count) => filled += count,
            Err(error) if error.kind() == ErrorKind::Interrupted => {}
            Err(error) => return Err(error),
        }
    }
    Ok(true)
}

pub fn read_slice(input: &mut impl Read, length: u32) -> io::Result<Vec<u8>> {
    read_slice_within(input, length, LONGEST)
}

/// A slice of that length, which may be at most `most`.
pub fn read_slice_within(input: &mut impl Read, length: u32, most: usize) -> io::Result<Vec<u8>> {
    let length = length as usize;
    if length > most {
        return Err(unsound("a slice is too long"));
    }
    let mut slice = vec![0; length];
    input.read_exact(&mut slice)?;
    Ok(slice)
}

/// The error for input that no comparison sends.
pub fn unsound(why: &'static str) -> io::Error {
    io::Error::new(ErrorKind::InvalidData, why)
}

/// The four numbers of an answer of the JSON layer.
pub type Four = [u64; 4];

/// Numbers of 64 bits, which answers have or begin with.
pub fn write_longs(out: &mut impl Write, longs: &[u64]) -> io::Result<()> {
    for number in longs {
        out.write_all(&number.to_le_bytes())?;
    }
    Ok(())
}

/// The next numbers, or nothing if they aren't all there.
pub fn read_longs<const COUNT: usize>(input: &mut impl Read) -> Option<[u64; COUNT]> {
    let mut longs = [0; COUNT];
    for number in &mut longs {
        let mut bytes = [0; 8];
        input.read_exact(&mut bytes).ok()?;
        *number = u64::from_le_bytes(bytes);
    }
    Some(longs)
}

#[cfg(test)]
mod tests {
    use super::*;

    #[test]
    fn numbers_come_back_from_their_bytes() {
        let mut bytes = Vec::new();
        write_longs(&mut bytes, &[1, 2, u64::MAX, 4]).unwrap();
        assert_eq!(bytes.len(), 32);
        assert_eq!(read_longs(&mut &bytes[..]), Some([1, 2, u64::MAX, 4]));
        assert_eq!(read_longs::<4>(&mut &bytes[..31]), None);
        assert_eq!(read_longs::<5>(&mut &bytes[..]), None);
    }

    #[test]
    fn a_first_word_may_be_missing_but_not_cut() {
        assert_eq!(read_first_word(&mut &[7, 0, 0, 1][..]).unwrap(), Some(0x0100_0007));
        assert_eq!(read_first_word(&mut &[][..]).unwrap(), None);
        assert!(read_first_word(&mut &[7, 0, 0][..]).is_err());
    }

    #[test]
    fn a_slice_is_whole_and_not_too_long() {
        assert_eq!(read_slice(&mut &b"abc"[..], 2).unwrap(), b"ab");
        assert!(read_slice(&mut &b"abc"[..], 4).is_err());
        assert!(read_slice(&mut io::repeat(0), 1_048_576).is_ok());
        assert!(read_slice(&mut io::repeat(0), 1_048_577).is_err());
    }
}
