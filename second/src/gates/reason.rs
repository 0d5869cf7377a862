//! The reason beside a mark of a gate, in the form that order 6 gives it.

use super::layout::{parts, Parts};
use super::Gate;
use crate::board::{Mark, HOLDS, NOT_JUDGED};
use crate::bundle::NO_SUCH_MARK;
use crate::reason::{Reason, Shown};
use crate::table::{Place, Reading};

/// Why that mark of the bundle is what it is.
pub fn reason(gate: &Gate, bundle: &[u8], mark: usize) -> Reason {
    let parts = match parts(gate, bundle) {
        Ok(parts) => parts,
        Err(refusal) => return Reason::Refused(refusal),
    };
    if mark >= gate.marks {
        return Reason::Refused(NO_SUCH_MARK);
    }
    let files = gate.files_of_mark(mark);
    let readings: Vec<Reading> =
        files.iter().map(|file| (gate.read)(*file, parts[*file])).collect();
    let reading_of = |file: usize| {
        let at = files.iter().position(|read| *read == file);
        &readings[at.expect("a mark is judged from the files that it reads")]
    };
    match gate.judge_mark(mark, reading_of) {
        HOLDS => Reason::Holds,
        own if mark < gate.files => Reason::OwnMark(own),
        NOT_JUDGED => {
            let unreadable = files.iter().filter(|file| reading_of(**file).is_err());
            Reason::NotJudged { file: *unreadable.min().expect("some file has a fault") }
        }
        broken => {
            let shown = shown(gate, &parts, mark, reading_of(files[0]), broken);
            match (gate.searched)(mark) {
                Some(searched) => Reason::Missing { shown, searched },
                None => Reason::Broken(shown),
            }
        }
    }
}

/// What breaks the rule, in the table named first.
fn shown(gate: &Gate, parts: &Parts, mark: usize, reading: &Reading, broken: Mark) -> Shown {
    let file = gate.files_of_mark(mark)[0];
    let (record, companion) = (broken.place as usize, broken.companion as usize);
    let breaking = &reading.as_ref().expect("a broken rule's files are readable")[record - 1];
    let name = (gate.deciding)(mark, breaking);
    let field = (gate.fields)(file).iter().position(|field| field.name == name);
    let Place { start, end } = breaking.place(name);
    let in_bundle = gate.header() + parts[..file].iter().flatten().map(|p| p.len()).sum::<usize>();
    // An end of 0 is null, absent or written.
    let (start, length) = match end {
        0 => (0, 0),
        _ => (in_bundle + start as usize, (end - start) as usize),
    };
    let field = field.expect("a rule is decided by a field of its table");
    Shown { file, record, companion, field, start, length }
}
