//! Pairs of IDs that are one or differ in one respect only, their characters
//! written as themselves or as escapes (order 3).

use super::cases::{written, Style};

/// Two IDs as written, quotes included.
pub(super) struct Pair {
    pub first: Vec<u8>,
    pub second: Vec<u8>,
}

/// Where an ID differs from another.
#[derive(Clone, Copy, PartialEq, Eq)]
enum Change {
    Nothing,
    First,
    Middle,
    Last,
    CaseOfFirst,
    CaseOfLast,
    CaseOfAll,
    /// It is a beginning of the other, or the other is one of it.
    Shorter,
    Longer,
}

const CHANGES: [Change; 9] = [
    Change::Nothing,
    Change::First,
    Change::Middle,
    Change::Last,
    Change::CaseOfFirst,
    Change::CaseOfLast,
    Change::CaseOfAll,
    Change::Shorter,
    Change::Longer,
];

/// Which characters of an ID are written as escapes.
#[derive(Clone, Copy)]
enum Escapes {
    None,
    First,
    Middle,
    Last,
    EverySecond,
    All,
    /// The short escape, which a slash doesn't need.
    Slashes,
}

const ESCAPES: [Escapes; 7] = [
    Escapes::None,
    Escapes::First,
    Escapes::Middle,
    Escapes::Last,
    Escapes::EverySecond,
    Escapes::All,
    Escapes::Slashes,
];

/// How the second ID differs from the first, and how each of them is written.
type Plan = (Change, Escapes, Escapes);

const MAIN_PLANS: [Plan; 10] = [
    (Change::Nothing, Escapes::None, Escapes::None),
    (Change::Last, Escapes::None, Escapes::None),
    (Change::First, Escapes::None, Escapes::None),
    (Change::CaseOfAll, Escapes::None, Escapes::None),
    (Change::Shorter, Escapes::None, Escapes::None),
    (Change::Longer, Escapes::None, Escapes::None),
    (Change::Nothing, Escapes::None, Escapes::Last),
    (Change::Nothing, Escapes::EverySecond, Escapes::Slashes),
    // They differ just where one has an escape.
    (Change::Last, Escapes::Last, Escapes::None),
    (Change::First, Escapes::None, Escapes::First),
];

const MORE_PLANS: [Plan; 10] = [
    (Change::Middle, Escapes::None, Escapes::None),
    (Change::CaseOfLast, Escapes::None, Escapes::None),
    (Change::Nothing, Escapes::First, Escapes::None),
    (Change::Nothing, Escapes::None, Escapes::Middle),
    (Change::CaseOfLast, Escapes::Last, Escapes::None),
    (Change::CaseOfAll, Escapes::Slashes, Escapes::EverySecond),
    (Change::Last, Escapes::None, Escapes::Last),
    (Change::Middle, Escapes::Middle, Escapes::None),
    (Change::Shorter, Escapes::Last, Escapes::None),
    (Change::Longer, Escapes::None, Escapes::Last),
];

/// The characters of an ID of that length.
pub(super) fn id_codes(length: usize) -> Vec<u32> {
    let inner = b"Hb/07-aZ";
    let code = |at: usize| match at {
        0 => b'T',
        _ if at + 1 == length => b'q',
        _ => inner[at % inner.len()],
    };
    (0..length).map(|at| code(at).into()).collect()
}

/// The pairs worth asking where they are as long as can be.
pub(super) fn main_pairs(codes: &[u32]) -> Vec<Pair> {
    MAIN_PLANS.into_iter().filter_map(|plan| pair(codes, plan)).collect()
}

/// The main pairs and others.
pub(super) fn pairs(codes: &[u32]) -> Vec<Pair> {
    MAIN_PLANS.into_iter().chain(MORE_PLANS).filter_map(|plan| pair(codes, plan)).collect()
}

/// Every difference in every mix of writings.
pub(super) fn all_pairs(codes: &[u32]) -> Vec<Pair> {
    all_plans().filter_map(|plan| pair(codes, plan)).collect()
}

fn all_plans() -> impl Iterator<Item = Plan> {
    let writings = ESCAPES.into_iter().flat_map(|first| ESCAPES.map(|second| (first, second)));
    writings.flat_map(|(first, second)| CHANGES.map(|change| (change, first, second)))
}

/// Nothing where one of them would have no character: that is no ID.
fn pair(codes: &[u32], (change, first, second): Plan) -> Option<Pair> {
    let changed = changed(codes, change);
    if changed.is_empty() {
        return None;
    }
    Some(Pair { first: string(codes, first), second: string(&changed, second) })
}

fn changed(codes: &[u32], change: Change) -> Vec<u32> {
    let last = codes.len() - 1;
    let mut changed = codes.to_vec();
    match change {
        Change::Nothing => {}
        // Characters of which one bit differs are two, folded or not.
        Change::First => changed[0] ^= 1,
        Change::Middle => changed[codes.len() / 2] ^= 1,
        Change::Last => changed[last] ^= 1,
        Change::CaseOfFirst => changed[0] = in_other_case(codes[0]),
        Change::CaseOfLast => changed[last] = in_other_case(codes[last]),
        Change::CaseOfAll => changed = codes.iter().map(|code| in_other_case(*code)).collect(),
        Change::Shorter => changed.truncate(last),
        Change::Longer => changed.push(codes[last]),
    }
    changed
}

/// Only A-Z and a-z have another case that counts.
fn in_other_case(code: u32) -> u32 {
    match char::from_u32(code) {
        Some(c) if c.is_ascii_alphabetic() => code ^ 0x20,
        _ => code,
    }
}

fn string(codes: &[u32], escapes: Escapes) -> Vec<u8> {
    let last = codes.len() - 1;
    let middle = codes.len() / 2;
    let is_escaped = |at: usize| match escapes {
        Escapes::None | Escapes::Slashes => false,
        Escapes::First => at == 0,
        Escapes::Middle => at == middle,
        Escapes::Last => at == last,
        Escapes::EverySecond => at % 2 == 1,
        Escapes::All => true,
    };
    let mut string = vec![b'"'];
    for (at, code) in codes.iter().enumerate() {
        let style = match escapes {
            Escapes::Slashes => Style::Short,
            _ if is_escaped(at) => Style::UpperHex,
            _ => Style::Raw,
        };
        string.extend(written(*code, style));
    }
    string.push(b'"');
    string
}

/// An ID of that length whose last four characters alone tell it from others.
pub(super) fn alike_id(number: usize, length: usize) -> String {
    let common: String = "Basin/Quay-7.".chars().cycle().take(length - 4).collect();
    format!("{common}{number:04}")
}

#[cfg(test)]
mod tests {
    use super::*;
    use crate::compare::draft::Draft;
    use crate::json::{decoded_codes, fold_code};
    use crate::table::read_file;

    fn folded(string: &[u8]) -> Vec<u32> {
        decoded_codes(string, 0).into_iter().map(fold_code).collect()
    }

    #[test]
    fn pairs_are_one_exactly_if_nothing_or_case_is_changed() {
        let keeping = [Change::Nothing, Change::CaseOfFirst, Change::CaseOfLast, Change::CaseOfAll];
        let wide: Vec<u32> = "Té/€\u{1F600}q".chars().map(u32::from).collect();
        for codes in [id_codes(1), id_codes(2), id_codes(9), id_codes(60), wide] {
            for plan in all_plans().chain(MAIN_PLANS).chain(MORE_PLANS) {
                let Some(Pair { first, second }) = pair(&codes, plan) else {
                    continue;
                };
                let shown = String::from_utf8_lossy(&second);
                assert_eq!(folded(&first) == folded(&second), keeping.contains(&plan.0), "{shown}");
                assert_eq!(decoded_codes(&first, 0), codes);
            }
        }
    }

    #[test]
    fn pairs_differ_in_characters_and_in_writing() {
        let pairs = pairs(&id_codes(10));
        assert_eq!(pairs.len(), 20);
        let texts: Vec<(String, String)> = pairs
            .into_iter()
            .map(|pair| [pair.first, pair.second].map(|text| String::from_utf8(text).unwrap()))
            .map(|[first, second]| (first, second))
            .collect();
        let is_there = |first: &str, second: &str| {
            let pair = (format!("\"{first}\""), format!("\"{second}\""));
            assert!(texts.contains(&pair), "{first} {second}");
        };
        is_there("Tb/07-aZHq", "Tb/07-aZHq");
        is_there("Tb/07-aZHq", "Tb/07-aZHp");
        is_there("Tb/07-aZHq", "Ub/07-aZHq");
        is_there("Tb/07-aZHq", "tB/07-AzhQ");
        is_there("Tb/07-aZHq", "Tb/07-aZH");
        is_there("Tb/07-aZHq", "Tb/07-aZH\\u0071");
        is_there("T\\u0062/\\u00307\\u002Da\\u005AH\\u0071", "Tb\\/07-aZHq");
        is_there("Tb/07-aZH\\u0071", "Tb/07-aZHp");
        is_there("Tb/07-aZHq", "\\u0055b/07-aZHq");
    }

    #[test]
    fn an_id_has_no_empty_one_beside_it() {
        assert_eq!(pairs(&id_codes(1)).len(), 18);
        assert!(all_pairs(&id_codes(1)).iter().all(|pair| pair.second != b"\"\""));
        assert_eq!(all_pairs(&id_codes(2)).len(), 9 * 7 * 7);
    }

    #[test]
    fn all_are_ids() {
        for pair in pairs(&id_codes(1)).iter().chain(&all_pairs(&id_codes(17))) {
            for id in [&pair.first, &pair.second] {
                let record = Draft::default().with_value("ID", id).with_value("Name", b"\"A\"");
                let file = [b"[", &record.text()[..], b"]"].concat();
                assert!(read_file(6, Some(&file)).is_ok());
            }
        }
    }

    #[test]
    fn alike_ids_differ_in_their_last_four_characters() {
        assert_eq!(alike_id(7, 20), "Basin/Quay-7.Bas0007");
        assert_eq!(alike_id(4095, 60).len(), 60);
        assert_eq!(alike_id(1, 60)[..56], alike_id(4095, 60)[..56]);
    }
}
