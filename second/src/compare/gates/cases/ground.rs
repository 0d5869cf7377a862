//! An accepted set of a gate, and versions of each of its files, good and
//! broken, from which changes take new bytes.

use std::sync::Arc;

use super::super::contract_draft::{restyled, table_text, ContractDraft};
use super::super::files::Files;
use super::super::Which;
use super::profile::{baseline_set, files_of, profile_files};
use super::random_sets::random_table;
use crate::compare::gate::case::Bytes;
use crate::compare::gate::cases::{damaged, Pool};
use crate::compare::random::Random;

pub(super) struct Ground {
    pub which: Which,
    pub base: Files,
    /// Of each file the accepted version comes first.
    pub versions: Vec<Vec<Bytes>>,
}

impl Ground {
    pub fn new(which: Which, random: &mut Random) -> Ground {
        match which {
            Which::Baseline => of_schedule(random),
            Which::Contract => of_contract(random),
        }
    }

    /// Half of the time the accepted version, so that sets come near to being
    /// accepted.
    pub fn pick(&self, number: usize, random: &mut Random) -> Bytes {
        let versions = &self.versions[number];
        match random.below(2) {
            0 => versions[0].clone(),
            _ => versions[random.below(versions.len())].clone(),
        }
    }
}

fn of_schedule(random: &mut Random) -> Ground {
    let base = baseline_set();
    let pool = Pool::new(&base, random);
    let mut versions: Vec<Vec<Bytes>> =
        (0..20).map(|number| pool.versions(number).to_vec()).collect();
    for number in [10, 19] {
        versions[number].extend(profile_files(number).into_iter().map(Arc::new));
    }
    Ground { which: Which::Baseline, base: files_of(&base), versions }
}

fn of_contract(random: &mut Random) -> Ground {
    let draft = ContractDraft::accepted();
    let base = draft.files();
    let mut versions = Vec::new();
    for (file, records) in draft.tables.iter().enumerate() {
        let right = table_text(records);
        let mut all = vec![right.clone(), restyled(records, random)];
        all.extend((0..6).map(|_| table_text(&random_table(file, records, random))));
        all.extend((0..2).map(|_| restyled(&random_table(file, records, random), random)));
        all.push(table_text(&records[..1]));
        all.extend((0..3).map(|_| damaged(&right, random)));
        all.extend([&b""[..], b"[]", b"{}", b"[{}]"].map(<[u8]>::to_vec));
        versions.push(all.into_iter().map(Arc::new).collect());
    }
    Ground { which: Which::Contract, base, versions }
}
