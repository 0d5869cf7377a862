//! Strings with a wrong character in them and strings near to those, with the
//! kind and the place that order 4 gives them, worked out by hand.

use crate::fields::Type;

/// A kind, and a place counted from the byte after the opening quote.
type Wrong = (u32, usize);

/// A string as written, without its quotes, and the first wrong character of it
/// as Text, as String and as StringID.
pub(super) struct Example {
    pub inner: &'static [u8],
    text: Option<Wrong>,
    string: Option<Wrong>,
    id: Option<Wrong>,
}

impl Example {
    /// Its first wrong character in a field of that type, if there is one.
    pub fn wrong(&self, kind: Type) -> Option<Wrong> {
        match kind {
            Type::Text => self.text,
            Type::String => self.string,
            Type::StringID => self.id,
            Type::Boolean | Type::Date | Type::Decimal | Type::Integer => None,
        }
    }

    pub fn quoted(&self) -> Vec<u8> {
        [b"\"", self.inner, b"\""].concat()
    }
}

pub(super) fn has_string_rule(kind: Type) -> bool {
    matches!(kind, Type::String | Type::StringID | Type::Text)
}

/// Each type has a line of its own.
const fn example(
    inner: &'static [u8],
    text: Option<Wrong>,
    string: Option<Wrong>,
    id: Option<Wrong>,
) -> Example {
    Example { inner, text, string, id }
}

/// Right as every type.
const fn right(inner: &'static [u8]) -> Example {
    example(inner, None, None, None)
}

/// Wrong as every type, and alike.
const fn barred(inner: &'static [u8], place: usize) -> Example {
    example(inner, Some((30, place)), Some((30, place)), Some((30, place)))
}

/// Whitespace of String and StringID; Text has no rule about it.
const fn white(inner: &'static [u8], place: usize) -> Example {
    example(inner, None, Some((31, place)), Some((31, place)))
}

/// On Unicode's list but none of the four, so to a StringID it is just outside
/// the ID set.
const fn white_to_string(inner: &'static [u8], place: usize) -> Example {
    example(inner, None, Some((31, place)), Some((32, place)))
}

const fn outside(inner: &'static [u8], place: usize) -> Example {
    example(inner, None, None, Some((32, place)))
}

/// Half a surrogate pair. It is outside the ID set, too.
const fn half(inner: &'static [u8], place: usize) -> Example {
    example(inner, Some((33, place)), Some((33, place)), Some((32, place)))
}

pub(super) const EXAMPLES: [Example; 103] = [
    // Spaces: at the start, at the end, after another one; as themselves and as
    // escapes.
    right(b""),
    right(b"A"),
    right(b"A B"),
    right(b"A B C"),
    right(br"A\u0020B"),
    right(b"~ !"),
    white(b" ", 0),
    white(b"  ", 0),
    white(b" A", 0),
    white(b"  A", 0),
    white(b"A ", 1),
    white(b"A  ", 2),
    white(b"A   ", 2),
    white(b"A  B", 2),
    white(b"A   B", 2),
    white(b"A B  C", 4),
    white(b"A B ", 3),
    white(br"\u0020", 0),
    white(br"\u0020A", 0),
    white(br"A\u0020", 1),
    white(br"A\u0020 B", 7),
    white(br"A \u0020B", 2),
    white(br"A\u0020\u0020B", 7),
    white(br"A\u0020 ", 7),
    white(br"A \u0020", 2),
    // Other whitespace is itself wrong, wherever it stands.
    white(br"\t", 0),
    white(br"A\tB", 1),
    white(br"A\u0009B", 1),
    white(br"A\nB", 1),
    white(br"A\rB", 1),
    white(br"A\u000aB", 1),
    white(br"A\u000D", 1),
    white(br"A\t", 1),
    white(br"A\t B", 1),
    white(br"A \tB", 2),
    white(br"A\t ", 1),
    white(br"A \t", 2),
    white(br" \t", 0),
    white_to_string(b"\xC2\xA0", 0),
    white_to_string(b"A\xC2\xA0B", 1),
    white_to_string(b"A\xC2\xA0", 1),
    white_to_string(br"\u00a0A", 0),
    white_to_string(br"A\u00A0B", 1),
    white_to_string(br"A\u00a0", 1),
    white_to_string(b"A \xC2\xA0B", 2),
    white_to_string(b"A\xC2\xA0 ", 1),
    white_to_string(b"A\xE3\x80\x80B", 1),
    white_to_string(br"A\u2028B", 1),
    white_to_string(b"A\xC2\x85", 1),
    // Barred controls, of which two are on the list of whitespace.
    barred(br"\u0000", 0),
    barred(br"A\u0000B", 1),
    barred(br"A\u0008", 1),
    barred(br"A\b", 1),
    barred(br"A\u000BB", 1),
    barred(br"\u000b", 0),
    barred(br"A\u000CB", 1),
    barred(br"A\f", 1),
    barred(br"A\u000E", 1),
    barred(br"A\u001fB", 1),
    barred(b"A\x7FB", 1),
    barred(b"A\x7F", 1),
    barred(br"\u007f", 0),
    barred(b"A \x7F", 2),
    barred(br"A \u0000", 2),
    // Outside the ID set.
    right(br"\u007E"),
    outside(br"\u0080", 0),
    outside(b"\xC3\xA9", 0),
    outside(br"A\u00e9", 1),
    outside(b"A\xE2\x80\x8BB", 1),
    outside(b"A\xF0\x9F\x98\x80", 1),
    outside(br"A\uD83D\uDE00B", 1),
    outside(br"\u0041\u0042\uFFFF", 12),
    // Half a pair, before and behind whole ones.
    half(br"\uD800", 0),
    half(br"A\ud83dB", 1),
    half(br"A\uDFFF", 1),
    half(br"\uDE00\uD83D", 0),
    half(br"\uD83D\uD83D\uDE00", 0),
    half(br"A \udc00", 2),
    example(br"\uD83D\uDE00\uD83D", Some((33, 12)), Some((33, 12)), Some((32, 0))),
    // A character of four bytes, or of twelve as written, before the wrong one.
    example(b"\xF0\x9F\x98\x80  B", None, Some((31, 5)), Some((32, 0))),
    example(b"A\xF0\x9F\x98\x80 ", None, Some((31, 5)), Some((32, 1))),
    example(b"\xF0\x9F\x98\x80\xC2\xA0", None, Some((31, 4)), Some((32, 0))),
    example(b"\xF0\x9F\x98\x80\\t", None, Some((31, 4)), Some((32, 0))),
    example(b"\xF0\x9F\x98\x80\x7F", Some((30, 4)), Some((30, 4)), Some((32, 0))),
    example(b"\xF0\x9F\x98\x80\\uD800", Some((33, 4)), Some((33, 4)), Some((32, 0))),
    example(br"\uD83D\uDE00\u00a0", None, Some((31, 12)), Some((32, 0))),
    // What looks like an escape behind an escaped backslash.
    right(br"A\\u0000"),
    white(br"A\\ ", 3),
    white(br#"\"\\\/\t"#, 6),
    // One wrong character behind another: the first, whatever its kind.
    example(br"A  \u0000", Some((30, 3)), Some((31, 2)), Some((31, 2))),
    barred(br"A\u0000  B", 1),
    barred(br"A\u0000\uD800", 1),
    half(br"A\uD800\u0000", 1),
    half(br"A\uD800\u00A0", 1),
    example(br"A\u00A0\uD800", Some((33, 7)), Some((31, 1)), Some((32, 1))),
    example(br" \u0000", Some((30, 1)), Some((31, 0)), Some((31, 0))),
    example(br"A\t\u0000", Some((30, 3)), Some((31, 1)), Some((31, 1))),
    example(b"A\xC3\xA9  B", None, Some((31, 4)), Some((32, 1))),
    white(b"A  \xC3\xA9", 2),
    example(b"A\xC3\xA9\\t", None, Some((31, 3)), Some((32, 1))),
    white(b"A\\t\xC3\xA9", 1),
    example(b"\xC3\xA9\\u0000", Some((30, 2)), Some((30, 2)), Some((32, 0))),
    white(b" \xC3\xA9", 0),
];

#[cfg(test)]
mod tests {
    use super::*;
    use crate::json::{first_breach, read_string, TextKind};
    use std::collections::BTreeSet;

    /// The types with a string rule, and the kinds that their strings can get.
    const TYPES: [(Type, TextKind, &[u32]); 3] = [
        (Type::Text, TextKind::Text, &[30, 33]),
        (Type::String, TextKind::String, &[30, 31, 33]),
        (Type::StringID, TextKind::StringID, &[30, 31, 32]),
    ];

    #[test]
    fn each_example_is_as_it_says() {
        for example in &EXAMPLES {
            let characters = read_string(&example.quoted(), 0).unwrap().characters;
            for (of, kind, _) in TYPES {
                let found = first_breach(&characters, kind);
                let found = found.map(|breach| (29 + breach.rule as u32, breach.place - 1));
                let shown = String::from_utf8_lossy(example.inner);
                assert_eq!(found, example.wrong(of), "{shown} as {of:?}");
            }
        }
    }

    /// As itself and as an escape; half a pair can't stand as itself.
    #[test]
    fn each_rule_is_broken_in_both_writings() {
        for (of, _, kinds) in TYPES {
            let writing = |example: &Example| {
                let (kind, place) = example.wrong(of)?;
                Some((kind, example.inner[place] == b'\\'))
            };
            let met: BTreeSet<(u32, bool)> = EXAMPLES.iter().filter_map(writing).collect();
            let both = kinds.iter().flat_map(|kind| [(*kind, false), (*kind, true)]);
            let wanted: BTreeSet<(u32, bool)> = both.filter(|way| *way != (33, false)).collect();
            assert_eq!(met, wanted, "{of:?}");
        }
    }
}
