//! Characters on Unicode's White_Space list, characters that a careless test
//! takes for such, and where in a string they may stand (order 2).

use std::collections::BTreeSet;

use super::cases::{written, STYLES};

/// The list. To a StringID only four of these are whitespace.
pub(super) const WHITE_SPACE: [u32; 25] = [
    0x0009, 0x000A, 0x000B, 0x000C, 0x000D, 0x0020, 0x0085, 0x00A0, 0x1680, 0x2000, 0x2001, 0x2002,
    0x2003, 0x2004, 0x2005, 0x2006, 0x2007, 0x2008, 0x2009, 0x200A, 0x2028, 0x2029, 0x202F, 0x205F,
    0x3000,
];

/// The neighbours of each run of the list.
pub(super) const BESIDE: [u32; 20] = [
    0x0008, 0x000E, 0x001F, 0x0021, 0x0084, 0x0086, 0x009F, 0x00A1, 0x167F, 0x1681, 0x1FFF, 0x200B,
    0x2027, 0x202A, 0x202E, 0x2030, 0x205E, 0x2060, 0x2FFF, 0x3001,
];

/// Nobody can see these either, but they are not on the list. Older versions
/// of Unicode had the first one on it.
pub(super) const UNLISTED: [u32; 9] =
    [0x180E, 0x00AD, 0x115F, 0x200C, 0x200D, 0x2800, 0x3164, 0xFEFF, 0xFFA0];

/// Codes that would be on the list if some of their bits were lost.
pub(super) fn white_in_low_bits() -> Vec<u32> {
    let more = [0x80, 0x100, 0x1000, 0x8000, 0x1_0000, 0x1_F000, 0x10_0000];
    let codes: BTreeSet<u32> =
        WHITE_SPACE.iter().flat_map(|code| more.map(|more| code + more)).collect();
    codes.into_iter().filter(|code| !WHITE_SPACE.contains(code)).collect()
}

/// All ways to write the character in a string: as it is where that can be,
/// and as escapes.
pub(super) fn writings(code: u32) -> Vec<Vec<u8>> {
    let writings: BTreeSet<Vec<u8>> = STYLES.iter().map(|style| written(code, *style)).collect();
    writings.into_iter().collect()
}

/// Where a character may stand: alone, first, inside, last, twice, and beside
/// a space.
const PATTERNS: [&str; 15] = [
    "*", "*A", "A*B", "A*", "**", "**A", "A**B", "A**", "* A", "A *B", "A* B", "A *", "A * B",
    " *", "* ",
];

/// The strings, without quotes, in which the character stands so.
pub(super) fn placed(character: &[u8]) -> Vec<Vec<u8>> {
    let in_pattern = |pattern: &str| -> Vec<u8> {
        let piece = |byte: u8| if byte == b'*' { character.to_vec() } else { vec![byte] };
        pattern.bytes().flat_map(piece).collect()
    };
    PATTERNS.map(in_pattern).to_vec()
}

#[cfg(test)]
mod tests {
    use super::*;
    use crate::json::decoded_codes;

    fn is_white(code: u32) -> bool {
        char::from_u32(code).is_some_and(char::is_whitespace)
    }

    #[test]
    fn the_list_is_whole_and_the_others_are_not_on_it() {
        let known: Vec<u32> = (0..0x11_0000).filter(|code| is_white(*code)).collect();
        assert_eq!(WHITE_SPACE[..], known);
        let others = BESIDE.iter().chain(&UNLISTED).copied().chain(white_in_low_bits());
        for code in others {
            assert!(char::from_u32(code).is_some() && !is_white(code), "{code:x}");
        }
    }

    #[test]
    fn each_run_has_both_its_neighbours() {
        for code in WHITE_SPACE {
            for near in [code - 1, code + 1] {
                assert!(is_white(near) || BESIDE.contains(&near), "{near:x}");
            }
        }
        assert!(BESIDE.iter().all(|code| is_white(code - 1) || is_white(code + 1)));
    }

    #[test]
    fn bits_are_lost_on_both_sides_of_sixteen() {
        let codes = white_in_low_bits();
        for code in [0x120, 0x1A0, 0x2128, 0x12000, 0x13000, 0x1F0A0, 0x10_2009] {
            assert!(codes.contains(&code), "{code:x}");
        }
    }

    #[test]
    fn a_character_is_written_in_all_ways() {
        let texts = |code| -> Vec<String> {
            writings(code).into_iter().map(|written| String::from_utf8(written).unwrap()).collect()
        };
        assert_eq!(texts(0x09), [r"\t", r"\u0009"]);
        assert_eq!(texts(0xA0), [r"\u00A0", r"\u00a0", "\u{A0}"]);
        assert_eq!(texts(0x205F), [r"\u205F", r"\u205f", "\u{205F}"]);
        for code in WHITE_SPACE.into_iter().chain(white_in_low_bits()) {
            for written in writings(code) {
                let string = [b"\"", &written[..], b"\""].concat();
                assert_eq!(decoded_codes(&string, 0), [code]);
            }
        }
    }

    #[test]
    fn a_character_is_put_everywhere() {
        let strings = placed(br"\u00a0");
        assert_eq!(strings.len(), 15);
        assert_eq!(strings[0], br"\u00a0");
        assert_eq!(strings[6], br"A\u00a0\u00a0B");
        assert_eq!(strings[12], br"A \u00a0 B");
    }
}
