//! Where among the records of its file a fault stands, found by the braces
//! alone: what the companions of the cases have to show is not told by the
//! reader that answers them.

use crate::table::is_singleton;

/// The kind of an element that is no record: it stands where one would.
const NOT_A_TABLE: u32 = 12;

#[derive(Clone, Copy, Debug, PartialEq, Eq, PartialOrd, Ord)]
pub enum At {
    /// In the record of a singleton.
    Only,
    First,
    Middle,
    Last,
}

/// The places of a file's faults that cases have to show.
pub fn places_of(number: usize) -> Vec<At> {
    if is_singleton(number) {
        vec![At::Only]
    } else {
        vec![At::First, At::Middle, At::Last]
    }
}

/// The opening braces outside of strings: of a readable file, or of one up to
/// its first fault, the records begun.
pub fn records_begun(bytes: &[u8]) -> usize {
    let mut begun = 0;
    let mut in_string = false;
    let mut rest = bytes.iter();
    while let Some(byte) = rest.next() {
        match byte {
            b'\\' if in_string => drop(rest.next()),
            b'"' => in_string = !in_string,
            b'{' if !in_string => begun += 1,
            _ => {}
        }
    }
    begun
}

/// The number of the record that a fault stands in, or would if it were one;
/// 0 in front of the first.
pub fn record_of_fault(bytes: &[u8], kind: u32, place: usize) -> usize {
    records_begun(&bytes[..place]) + usize::from(kind == NOT_A_TABLE)
}

/// Nothing if the fault is in no record, or the record has no other beside it.
pub fn standing(number: usize, bytes: &[u8], kind: u32, place: usize) -> Option<At> {
    let more = bytes[place..].windows(3).any(|three| three == b",{\"");
    match (is_singleton(number), record_of_fault(bytes, kind, place), more) {
        (_, 0, _) => None,
        (true, _, _) => Some(At::Only),
        (false, 1, true) => Some(At::First),
        (false, 1, false) => None,
        (false, _, true) => Some(At::Middle),
        (false, _, false) => Some(At::Last),
    }
}

/// Where the record of that number stands among so many.
pub fn standing_among(record: usize, count: usize) -> At {
    match record {
        1 if count == 1 => At::Only,
        1 => At::First,
        _ if record == count => At::Last,
        _ => At::Middle,
    }
}

#[cfg(test)]
mod tests {
    use super::*;

    #[test]
    fn braces_in_strings_begin_no_record() {
        assert_eq!(records_begun(b""), 0);
        assert_eq!(records_begun(br#"[{"ID":"{"},{"Name":"\"{\\"},{}]"#), 3);
        assert_eq!(records_begun(br#"[{"ID":"A\"#), 1);
    }

    #[test]
    fn a_fault_stands_in_a_record() {
        let file = br#"[{"a":1},{"b":1},{"c":1}]"#;
        let at = |number, place| standing(number, file, 13, place);
        assert_eq!(
            [at(6, 2), at(6, 10), at(6, 18)].map(Option::unwrap),
            [At::First, At::Middle, At::Last]
        );
        assert_eq!(at(6, 1), None);
        assert_eq!(at(2, 2), Some(At::Only));
        assert_eq!(standing(6, br#"[{"a":1}]"#, 13, 2), None);
        assert_eq!(standing(6, br#"[1,{"a":1}]"#, 12, 1), Some(At::First));
        assert_eq!(standing(6, br#"[{"a":1},1]"#, 12, 9), Some(At::Last));
        assert_eq!(standing(2, b"1", 12, 0), Some(At::Only));
    }

    #[test]
    fn a_record_stands_among_others() {
        let at = [(1, 1), (1, 2), (2, 2), (2, 3)];
        let standing = at.map(|(record, count)| standing_among(record, count));
        assert_eq!(standing, [At::Only, At::First, At::Last, At::Middle]);
    }
}
