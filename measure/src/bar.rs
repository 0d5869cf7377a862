//! The bar that anyone can name: simdjson's parsing of the same files, where it is installed.

use second::compare::gate::sample::Set;

#[cfg(simdjson)]
extern "C" {
    fn measure_parse(files: *const *const u8, lengths: *const usize, count: usize) -> u64;
    fn measure_padding() -> usize;
}

/// The tables of a set as simdjson takes them; file 0 is no JSON.
pub struct Bar {
    #[cfg_attr(not(simdjson), allow(dead_code))]
    files: Vec<Vec<u8>>,
    #[cfg_attr(not(simdjson), allow(dead_code))]
    lengths: Vec<usize>,
}

impl Bar {
    pub fn new(set: &Set) -> Bar {
        let tables: Vec<&Vec<u8>> = set.files[1..].iter().flatten().collect();
        let lengths = tables.iter().map(|file| file.len()).collect();
        let files = tables.iter().map(|file| padded(file)).collect();
        Bar { files, lengths }
    }

    /// Parses each table once; `None` where there is no simdjson.
    #[cfg(simdjson)]
    pub fn parse(&self) -> Option<u64> {
        let starts: Vec<*const u8> = self.files.iter().map(|file| file.as_ptr()).collect();
        Some(unsafe { measure_parse(starts.as_ptr(), self.lengths.as_ptr(), starts.len()) })
    }

    #[cfg(not(simdjson))]
    pub fn parse(&self) -> Option<u64> {
        None
    }
}

#[cfg(simdjson)]
fn padded(file: &[u8]) -> Vec<u8> {
    let mut bytes = file.to_vec();
    bytes.resize(file.len() + unsafe { measure_padding() }, b' ');
    bytes
}

#[cfg(not(simdjson))]
fn padded(file: &[u8]) -> Vec<u8> {
    file.to_vec()
}
