//! Records in the making, and how they are written.

use super::random::Random;
use crate::table::is_singleton;

/// A name, quotes included, and a value, both as written.
#[derive(Clone)]
pub(super) struct Member {
    pub name: Vec<u8>,
    pub value: Vec<u8>,
}

/// A record by its members, in the order in which they are written.
#[derive(Clone, Default)]
pub(super) struct Draft {
    pub members: Vec<Member>,
}

/// A piece of a file between which spaces may stand.
pub(super) type Token = Vec<u8>;

impl Draft {
    pub fn push(&mut self, name: &[u8], value: &[u8]) {
        self.members.push(Member { name: name.to_vec(), value: value.to_vec() });
    }

    /// The field has this value; if it wasn't there, it is now the last one.
    pub fn with_value(&self, name: &str, value: &[u8]) -> Draft {
        let mut draft = self.clone();
        match self.position(name) {
            Some(index) => draft.members[index].value = value.to_vec(),
            None => draft.push(&quoted(name), value),
        }
        draft
    }

    /// The value as written, or nothing if the field is absent.
    pub fn value(&self, name: &str) -> Option<&[u8]> {
        self.position(name).map(|index| &self.members[index].value[..])
    }

    /// The field has this value, or is absent.
    pub fn with_choice(&self, name: &str, value: Option<&[u8]>) -> Draft {
        match value {
            Some(value) => self.with_value(name, value),
            None => self.without(name),
        }
    }

    pub fn without(&self, name: &str) -> Draft {
        let mut draft = self.clone();
        draft.members.retain(|member| member.name != quoted(name));
        draft
    }

    /// The same fields, all null.
    pub fn all_null(&self) -> Draft {
        let mut draft = self.clone();
        for member in &mut draft.members {
            member.value = b"null".to_vec();
        }
        draft
    }

    /// The name is written in another way.
    pub fn with_name(&self, index: usize, name: &[u8]) -> Draft {
        let mut draft = self.clone();
        draft.members[index].name = name.to_vec();
        draft
    }

    /// One more member, in front of the one at `index` or at the end.
    pub fn with_member(&self, index: usize, name: &[u8], value: &[u8]) -> Draft {
        let mut draft = self.clone();
        draft.members.insert(index, Member { name: name.to_vec(), value: value.to_vec() });
        draft
    }

    pub fn position(&self, name: &str) -> Option<usize> {
        self.members.iter().position(|member| member.name == quoted(name))
    }

    /// The first, a middle and the last member.
    pub fn places(&self) -> Vec<usize> {
        let count = self.members.len();
        let mut places: Vec<usize> =
            [0, count / 2, count.saturating_sub(1)].into_iter().filter(|at| *at < count).collect();
        places.dedup();
        places
    }

    /// Hands the tokens of the record over, one by one.
    fn each_token(&self, put: &mut impl FnMut(&[u8])) {
        put(b"{");
        for (index, member) in self.members.iter().enumerate() {
            if index > 0 {
                put(b",");
            }
            put(&member.name);
            put(b":");
            put(&member.value);
        }
        put(b"}");
    }

    /// The record without spaces.
    pub fn text(&self) -> Vec<u8> {
        let mut text = Vec::new();
        self.each_token(&mut |token| text.extend_from_slice(token));
        text
    }
}

pub(super) fn quoted(inner: &str) -> Vec<u8> {
    format!("\"{inner}\"").into_bytes()
}

/// Hands over the tokens of a file of these records; of a singleton only the
/// first record counts.
fn each_file_token(table: usize, drafts: &[Draft], put: &mut impl FnMut(&[u8])) {
    if is_singleton(table) {
        return drafts[0].each_token(put);
    }
    put(b"[");
    for (index, draft) in drafts.iter().enumerate() {
        if index > 0 {
            put(b",");
        }
        draft.each_token(put);
    }
    put(b"]");
}

/// The tokens of a file of these records.
pub(super) fn file_tokens(table: usize, drafts: &[Draft]) -> Vec<Token> {
    let mut tokens = Vec::new();
    each_file_token(table, drafts, &mut |token| tokens.push(token.to_vec()));
    tokens
}

/// The file without spaces between its tokens.
pub(super) fn text(table: usize, drafts: &[Draft]) -> Vec<u8> {
    let mut text = Vec::new();
    each_file_token(table, drafts, &mut |token| text.extend_from_slice(token));
    text
}

/// A file of this record up to its last member, not closed.
pub(super) fn unclosed(table: usize, draft: &Draft) -> Vec<u8> {
    let mut bytes = text(table, std::slice::from_ref(draft));
    bytes.truncate(bytes.len() - closing(table).len());
    bytes
}

/// What closes a file after the last member of its last record.
pub(super) fn closing(table: usize) -> &'static [u8] {
    if is_singleton(table) {
        b"}"
    } else {
        b"}]"
    }
}

/// The tokens with what `gap` gives before each of them and after the last.
pub(super) fn spaced(tokens: &[Token], mut gap: impl FnMut(usize) -> Vec<u8>) -> Vec<u8> {
    let mut bytes = Vec::new();
    for (index, token) in tokens.iter().enumerate() {
        bytes.extend(gap(index));
        bytes.extend(token);
    }
    bytes.extend(gap(tokens.len()));
    bytes
}

/// The four spaces of JSON.
pub(super) const FOUR_SPACES: [&[u8]; 4] = [b" ", b"\t", b"\n", b"\r"];

/// One to three spaces, once in so many gaps.
pub(super) fn random_gap(random: &mut Random, often: usize) -> Vec<u8> {
    if random.below(often) > 0 {
        return Vec::new();
    }
    (0..1 + random.below(3)).flat_map(|_| random.pick(&FOUR_SPACES)).copied().collect()
}
