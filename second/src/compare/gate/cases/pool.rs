//! Versions of each file, good and broken, from which changes take new bytes.

use std::sync::Arc;

use super::mutated::{damaged, mutate_records};
use super::random_tables::random_records;
use crate::bundle::FILES;
use crate::compare::draft::{text, Draft};
use crate::compare::gate::case::Bytes;
use crate::compare::gate::set_draft::SetDraft;
use crate::compare::gate::styles::restyled_file;
use crate::compare::random::Random;

/// For each file some contents.
pub(in crate::compare) struct Pool {
    versions: Vec<Vec<Bytes>>,
}

impl Pool {
    pub fn new(base: &SetDraft, random: &mut Random) -> Pool {
        let versions = (0..FILES).map(|number| match number {
            0 => versions_of_file_type(base, random),
            table => versions_of_table(table, base.records(table), random),
        });
        Pool { versions: versions.map(|files| files.into_iter().map(Arc::new).collect()).collect() }
    }

    pub fn versions(&self, number: usize) -> &[Bytes] {
        &self.versions[number]
    }

    /// Half of the time the first version, which is the accepted one, so that
    /// sets come near to being accepted.
    pub fn pick(&self, number: usize, random: &mut Random) -> Bytes {
        let versions = &self.versions[number];
        match random.below(2) {
            0 => versions[0].clone(),
            _ => versions[random.below(versions.len())].clone(),
        }
    }
}

fn versions_of_file_type(base: &SetDraft, random: &mut Random) -> Vec<Vec<u8>> {
    let right = base.present(0);
    vec![right.clone(), Vec::new(), damaged(&right, random), [&right[..], b"\n"].concat()]
}

/// The accepted version; the same in another style; without some records; with
/// a few small changes; random records; damaged; no table at all.
fn versions_of_table(table: usize, records: &[Draft], random: &mut Random) -> Vec<Vec<u8>> {
    let right = text(table, records);
    let mut versions = vec![right.clone(), restyled_file(table, records, random)];
    for _ in 0..5 {
        let mut changed = records.to_vec();
        for _ in 0..1 + random.below(2) {
            mutate_records(table, &mut changed, random);
        }
        versions.push(text(table, &changed));
    }
    versions.push(text(table, &random_records(table, 3, random)));
    versions.push(text(table, &records[..1]));
    versions.push(damaged(&right, random));
    versions.push(damaged(&right, random));
    versions.extend([&b""[..], b"[]", b"{}", b"[{}]"].map(<[u8]>::to_vec));
    versions
}

#[cfg(test)]
mod tests {
    use super::*;
    use crate::compare::gate::sample::Set;

    #[test]
    fn the_first_versions_are_accepted_and_others_are_not() {
        let pool = Pool::new(&SetDraft::accepted(), &mut Random::new(2));
        let set_of = |version: fn(&[Bytes]) -> &Bytes| Set {
            files: (0..FILES).map(|n| Some(version(pool.versions(n)).to_vec())).collect(),
        };
        assert!(set_of(|versions| &versions[0]).board().is_accepted());
        assert!(set_of(|versions| &versions[versions.len() - 1]).board().faults().count() > 60);
        assert!((1..FILES).all(|number| pool.versions(number).len() > 10));
    }
}
