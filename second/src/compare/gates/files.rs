//! The files of a set of either gate, as owned bytes.

use super::Which;
use crate::board::Mark;
use crate::gates::calls::judge;
use crate::gates::layout::build;

/// An omitted file is nothing.
#[derive(Clone, Debug, PartialEq, Eq)]
pub struct Files {
    pub which: Which,
    pub files: Vec<Option<Vec<u8>>>,
}

impl Files {
    pub fn empty(which: Which) -> Files {
        Files { which, files: vec![None; which.gate().files] }
    }

    pub fn with(&self, number: usize, contents: &[u8]) -> Files {
        let mut set = self.clone();
        set.files[number] = Some(contents.to_vec());
        set
    }

    pub fn without(&self, number: usize) -> Files {
        let mut set = self.clone();
        set.files[number] = None;
        set
    }

    pub fn bundle(&self) -> Vec<u8> {
        let parts: Vec<Option<&[u8]>> = self.files.iter().map(|file| file.as_deref()).collect();
        build(self.which.gate(), &parts)
    }

    pub fn board(&self) -> Vec<Mark> {
        let judged = judge(self.which.gate(), &self.bundle());
        assert_eq!(judged.refusal, 0);
        judged.marks
    }
}
