//! Names: written in many ways, misspelt, of other tables, and twice.

use super::draft::{closing, quoted, unclosed, Draft};
use super::values::{good_value, may_be_empty};
use super::{joined, tables, Cases};
use crate::compare::gate::styles::shuffle;
use crate::fields::{fields_of, Field, FIELDS};

pub(super) fn add(cases: &mut Cases) {
    for field in &FIELDS {
        add_right_spellings(cases, field);
        add_fronts(cases, field);
        add_misspelt(cases, field);
        add_broken_off(cases, field);
        add_twice(cases, field);
    }
    for table in tables() {
        add_in_order(cases, table);
        add_out_of_order(cases, table);
        add_names_of_other_tables(cases, table);
        add_odd_names(cases, table);
        add_joined_names(cases, table);
    }
}

impl Cases {
    /// A record of few fields with this one's name written so.
    fn named(&mut self, field: &Field, inner: &[u8]) {
        let base = Draft::least(field.table, 0).with_value(field.name, good_value(field.kind, 0));
        let place = base.position(field.name).expect("it has just been given a value");
        self.record(field.table, &base.with_name(place, &joined(&[b"\"", inner, b"\""])));
    }

    /// A record with one more member of that name, and a file that goes on
    /// otherwise after such a name.
    fn with_odd_name(&mut self, table: usize, name: &[u8]) {
        let least = Draft::least(table, 0);
        let at = self.random.below(least.members.len() + 1);
        self.record(table, &least.with_member(at, name, b"1"));
        let comma: &[u8] = if least.members.is_empty() { b"" } else { b"," };
        let more = self.random.pick(&AFTER_A_NAME);
        self.file(table, &joined(&[&unclosed(table, &least), comma, name, more]));
    }
}

/// A colon and a value, or something else.
const AFTER_A_NAME: [&[u8]; 9] = [b"", b" ", b"x", b" 1", b"}", b":", b":x", b",", b"::"];

// ------------------------------------------------------- right spellings

fn escaped(code: u32) -> String {
    format!("\\u{code:04x}")
}

/// Whole as escapes, in either case of their hex digits, and each letter alone.
fn add_right_spellings(cases: &mut Cases, field: &Field) {
    let lower: String = field.name.bytes().map(|letter| escaped(letter.into())).collect();
    let upper: String = field.name.bytes().map(|letter| format!("\\u{letter:04X}")).collect();
    cases.named(field, lower.as_bytes());
    cases.named(field, upper.as_bytes());
    for (at, letter) in field.name.bytes().enumerate() {
        let (front, back) = (&field.name[..at], &field.name[at + 1..]);
        cases.named(field, format!("{front}{}{back}", escaped(letter.into())).as_bytes());
    }
}

// ------------------------------------------------------------- misspelt

/// Every beginning of the name. Some are names of their own.
fn add_fronts(cases: &mut Cases, field: &Field) {
    for length in 0..field.name.len() {
        cases.named(field, &field.name.as_bytes()[..length]);
    }
}

fn add_misspelt(cases: &mut Cases, field: &Field) {
    let name = field.name;
    let (first, rest) = (u32::from(name.as_bytes()[0]), &name[1..]);
    let wide = char::from_u32(first + 0x100).expect("no surrogate");
    let full_width = char::from_u32(first - 0x20 + 0xFF00).expect("no surrogate");
    let pair = format!("\\ud800\\udc{first:02x}");
    let spellings = [
        name.to_ascii_lowercase(),
        name.to_ascii_uppercase(),
        with_case_changed(name, 0),
        with_case_changed(name, name.len() - 1),
        format!("{name}x"),
        format!("{name}{name}"),
        format!("{name} "),
        format!(" {name}"),
        format!("{name}\\u0000"),
        format!("\\u0000{name}"),
        format!("{name}\\n"),
        format!("{name}\u{e9}"),
        format!("{name}\u{200b}"),
        format!("{name}\u{a0}"),
        format!("\\u3000{name}"),
        format!("{wide}{rest}"),
        format!("{}{rest}", escaped(first + 0x100)),
        format!("{}{rest}", escaped(first + 0x8000)),
        format!("{full_width}{rest}"),
        format!("{pair}{rest}"),
        format!("\\\\u{first:04x}{rest}"),
        format!("\\u{first:04x}"),
        rest.to_string(),
        name.replace('_', " "),
        name.chars().rev().collect(),
    ];
    for spelling in &spellings {
        cases.named(field, spelling.as_bytes());
    }
    add_faulty_spellings(cases, field);
}

fn with_case_changed(name: &str, at: usize) -> String {
    let mut bytes = name.as_bytes().to_vec();
    bytes[at] ^= 0x20;
    String::from_utf8(bytes).expect("names are ASCII")
}

/// Names that aren't read whole, right up to their fault.
fn add_faulty_spellings(cases: &mut Cases, field: &Field) {
    let name = field.name.as_bytes();
    let faults: [&[u8]; 8] =
        [b"\xFF", b"\xC3", b"\\", b"\\x", b"\\u00", b"\\uD800", b"\x00", b"\t"];
    for fault in faults {
        cases.named(field, &joined(&[name, fault]));
        let at = cases.random.below(name.len());
        cases.named(field, &joined(&[&name[..at], fault, &name[at..]]));
    }
}

/// At the first places of a name and at the last: a byte from 80 on, a
/// backslash, a quote, another letter; and the file's end.
fn add_broken_off(cases: &mut Cases, field: &Field) {
    let name = field.name.as_bytes();
    for at in [0, 1, name.len() - 1, name.len()] {
        let (front, back) = (&name[..at], &name[at..]);
        for middle in ["\u{80}", "\u{e9}", "\\", "\\u", "\"", "\\\"", "x", "!", "~", "\u{7f}"] {
            cases.named(field, &joined(&[front, middle.as_bytes(), back]));
        }
        if at > 0 {
            let middles: [&[u8]; 4] = [b"\x80", b"\xC3", b"\\", b"\x7F"];
            for middle in middles {
                cases.named(field, &joined(&[&name[..at - 1], middle, back]));
            }
        }
        let least = Draft::least(field.table, 0).without(field.name);
        let comma: &[u8] = if least.members.is_empty() { b"" } else { b"," };
        cases.file(field.table, &joined(&[&unclosed(field.table, &least), comma, b"\"", front]));
    }
}

// ------------------------------------------------------------------ twice

/// A second time with a value or null, after a value or null, right behind or
/// at the end, as written before or with an escape.
fn add_twice(cases: &mut Cases, field: &Field) {
    let plain = quoted(field.name);
    let first = u32::from(field.name.as_bytes()[0]);
    let with_escape = quoted(&format!("{}{}", escaped(first), &field.name[1..]));
    let good = good_value(field.kind, 0);
    let null: &[u8] = b"null";
    let base = Draft::least(field.table, 0).without(field.name);
    let mut values = vec![(good, good), (null, good), (good, null), (null, null)];
    if may_be_empty(field.kind) {
        values.push((b"\"\"", good));
    }
    for (before, after) in values {
        for name in [&plain, &with_escape] {
            let mut draft = base.with_value(field.name, before);
            draft.push(name, after);
            cases.somewhere(field.table, &draft);
        }
        let escaped_first = base.with_member(0, &with_escape, before);
        cases.somewhere(field.table, &escaped_first.with_value(field.name, after));
    }
    add_cut_after_second_name(cases, field.table, &base.with_value(field.name, null), &plain);
}

/// A second name is judged before what follows it, and after its own end.
fn add_cut_after_second_name(cases: &mut Cases, table: usize, draft: &Draft, name: &[u8]) {
    let front = joined(&[&unclosed(table, draft), b",", name]);
    for more in [&b""[..], b" x", b"}"] {
        cases.file(table, &joined(&[&front, more]));
    }
    cases.file(table, &front[..front.len() - 1]);
}

// --------------------------------------------------------------- in order

/// Every field in the table's order, as most files have them, and then one name
/// wrong in one letter, or without its closing quote, or the file's end in it;
/// one field left out; two exchanged; all in reverse.
fn add_in_order(cases: &mut Cases, table: usize) {
    let full = Draft::full(table, 0);
    for (place, member) in full.members.iter().enumerate() {
        for at in 1..member.name.len() - 1 {
            let mut name = member.name.clone();
            name[at] ^= 1;
            cases.somewhere(table, &full.with_name(place, &name));
        }
        let open = &member.name[..member.name.len() - 1];
        for end in [&b"\\\""[..], b"x\"", b"\\", b" \"", b"'", b""] {
            cases.record(table, &full.with_name(place, &joined(&[open, end])));
        }
        let mut front = full.clone();
        front.members.truncate(place);
        let comma: &[u8] = if place == 0 { b"" } else { b"," };
        for length in 1..=member.name.len() {
            let name = &member.name[..length];
            cases.file(table, &joined(&[&unclosed(table, &front), comma, name]));
        }
        let mut shorter = full.clone();
        shorter.members.remove(place);
        cases.somewhere(table, &shorter);
        let mut exchanged = full.clone();
        exchanged.members.swap(place, (place + 1) % full.members.len());
        cases.somewhere(table, &exchanged);
    }
    let mut reversed = full;
    reversed.members.reverse();
    cases.somewhere(table, &reversed);
}

// ----------------------------------------------------------- out of order

/// Every field, in reverse and in random orders.
fn add_out_of_order(cases: &mut Cases, table: usize) {
    let mut reversed = Draft::full(table, 1);
    reversed.members.reverse();
    add_changed_names(cases, table, &reversed);
    for number in 2..4 {
        let mut shuffled = Draft::full(table, number);
        shuffle(&mut shuffled.members, &mut cases.random);
        cases.somewhere(table, &shuffled);
        add_changed_names(cases, table, &shuffled);
    }
}

/// A name out of order may be guessed by its first, fifth and ninth letters. One
/// of these is wrong, or the last one; or only these are right; or the file ends
/// at the name or a little behind it.
fn add_changed_names(cases: &mut Cases, table: usize, draft: &Draft) {
    for (place, member) in draft.members.iter().enumerate() {
        let letters = 1..member.name.len() - 1;
        for at in [1, 5, 9, letters.end - 1].into_iter().filter(|at| letters.contains(at)) {
            let mut name = member.name.clone();
            name[at] ^= 1;
            cases.somewhere(table, &draft.with_name(place, &name));
        }
        for name in guessed_alike(&member.name) {
            cases.somewhere(table, &draft.with_name(place, &name));
        }
        let mut front = draft.clone();
        front.members.truncate(place);
        let comma: &[u8] = if place == 0 { b"" } else { b"," };
        let whole = joined(&[&member.name, b":", &member.value, closing(table)]);
        for length in 1..whole.len().min(member.name.len() + 16) {
            let end = &whole[..length];
            cases.file(table, &joined(&[&unclosed(table, &front), comma, end]));
        }
    }
}

/// Quoted names with the first, fifth and ninth letters of this one and others
/// between them, as long as it, no longer than needed, and longer than it; and
/// one in which these letters are others with the same sum of twice the first,
/// three times the fifth and the ninth.
fn guessed_alike(name: &[u8]) -> Vec<Vec<u8>> {
    if name.len() < 11 {
        return Vec::new();
    }
    let mut other = name.to_vec();
    for at in (1..name.len() - 1).filter(|at| ![1, 5, 9].contains(at)) {
        other[at] = b'x';
    }
    let mut same_sum = name.to_vec();
    same_sum[1] += 1;
    same_sum[9] -= 2;
    let short = joined(&[&name[..10], b"\""]);
    let long = joined(&[&name[..name.len() - 1], b"x\""]);
    vec![other, short, long, same_sum]
}

// ------------------------------------------------------------ other names

fn add_names_of_other_tables(cases: &mut Cases, table: usize) {
    let is_own = |name: &str| fields_of(table).any(|field| field.name == name);
    let mut others: Vec<&str> =
        FIELDS.iter().map(|field| field.name).filter(|name| !is_own(name)).collect();
    others.sort_unstable();
    others.dedup();
    for other in others {
        cases.with_odd_name(table, &quoted(other));
    }
}

fn add_odd_names(cases: &mut Cases, table: usize) {
    let names: [&[u8]; 24] = [
        b"\"\"",
        b"\" \"",
        b"\"x\"",
        b"\"id\"",
        b"\"I\"",
        b"\"ID \"",
        b"\"\\u0049\\u0044\"",
        b"\"\\uD800\"",
        b"\"\\uD83D\\uDE00\"",
        b"\"\\u0000\"",
        b"\"\x7F\"",
        b"\"\xC3\xA9\"",
        b"\"\xFF\"",
        b"\"$schema\"",
        b"\"__proto__\"",
        b"'ID'",
        b"ID",
        b"1",
        b"null",
        b"true",
        b"[]",
        b"{}",
        b"",
        b"\"",
    ];
    for name in names {
        for _ in 0..3 {
            cases.with_odd_name(table, name);
        }
    }
}

/// Two names of the table in one string, with and without what parts them.
fn add_joined_names(cases: &mut Cases, table: usize) {
    let names: Vec<&str> = fields_of(table).map(|field| field.name).collect();
    for pair in names.windows(2) {
        for between in ["", ",", "\\u0022,\\u0022", "\\\",\\\"", ":"] {
            cases.with_odd_name(table, &quoted(&format!("{}{between}{}", pair[0], pair[1])));
        }
    }
}
