//! JSON as bytes at a place: spaces, literals, strings, numbers, dates.
//! Nothing here knows of tables.
//!
//! A byte past the end reads as 0. No JSON token goes on with a byte 0, so a
//! file that ends early meets the ordinary fault, at the right place.

use std::str;

/// Ill-formed UTF-8 inside a string.
pub const ILL_FORMED: u32 = 10;
/// Not JSON.
pub const NOT_JSON: u32 = 11;

#[derive(Clone, Copy, Debug, PartialEq, Eq)]
pub struct Fault {
    pub kind: u32,
    pub place: usize,
}

pub fn not_json(place: usize) -> Fault {
    Fault { kind: NOT_JSON, place }
}

pub fn byte_at(bytes: &[u8], at: usize) -> u8 {
    bytes.get(at).copied().unwrap_or(0)
}

// ---------------------------------------------------------------- spaces

/// The first place from `at` on that holds none of the four JSON spaces.
pub fn skip_spaces(bytes: &[u8], at: usize) -> usize {
    let mut end = at;
    while matches!(byte_at(bytes, end), b' ' | b'\t' | b'\n' | b'\r') {
        end += 1;
    }
    end
}

// -------------------------------------------------------------- literals

#[derive(Clone, Copy, Debug, PartialEq, Eq)]
pub enum Literal {
    True,
    False,
    Null,
}

/// Reads the literal that the first letter begins; gives it and its end.
pub fn read_literal(bytes: &[u8], at: usize) -> Result<(Literal, usize), Fault> {
    let (literal, word) = match byte_at(bytes, at) {
        b't' => (Literal::True, "true"),
        b'f' => (Literal::False, "false"),
        b'n' => (Literal::Null, "null"),
        _ => return Err(not_json(at)),
    };
    for (i, letter) in word.bytes().enumerate() {
        if byte_at(bytes, at + i) != letter {
            return Err(not_json(at + i));
        }
    }
    Ok((literal, at + word.len()))
}

// --------------------------------------------------------------- strings

/// What stands at a place inside a string.
#[derive(Clone, Copy, Debug, PartialEq, Eq)]
pub enum Step {
    Character { code: u32, next: usize },
    Close,
    Fault(Fault),
}

/// One decoded character and the place of its first byte as written.
#[derive(Clone, Copy, Debug, PartialEq, Eq)]
pub struct Character {
    pub code: u32,
    pub place: usize,
}

/// A string read whole: its characters, and the place after its closing quote.
#[derive(Clone, Debug, PartialEq, Eq)]
pub struct JsonString {
    pub characters: Vec<Character>,
    pub end: usize,
}

/// Reads one character as written at `at`, inside a string.
pub fn read_character(bytes: &[u8], at: usize) -> Step {
    match byte_at(bytes, at) {
        b'"' => Step::Close,
        b'\\' => match read_escape(bytes, at) {
            Ok((code, next)) => Step::Character { code, next },
            Err(fault) => Step::Fault(fault),
        },
        0x00..=0x1F => Step::Fault(not_json(at)),
        _ => match well_formed_character(bytes, at) {
            Some(c) => Step::Character { code: u32::from(c), next: at + c.len_utf8() },
            None => Step::Fault(Fault { kind: ILL_FORMED, place: at }),
        },
    }
}

/// The character whose UTF-8 sequence starts at `at`, if it is well-formed.
/// No proper front of a well-formed sequence is itself well-formed, so the
/// first length that is taken as UTF-8 is the character's own.
fn well_formed_character(bytes: &[u8], at: usize) -> Option<char> {
    (1..=4)
        .filter_map(|length| bytes.get(at..at + length))
        .find_map(|sequence| str::from_utf8(sequence).ok())
        .and_then(|text| text.chars().next())
}

/// Reads the escape whose backslash is at `at`; gives its code and end.
fn read_escape(bytes: &[u8], at: usize) -> Result<(u32, usize), Fault> {
    let code = match byte_at(bytes, at + 1) {
        same @ (b'"' | b'\\' | b'/') => u32::from(same),
        b'b' => 0x08,
        b'f' => 0x0C,
        b'n' => 0x0A,
        b'r' => 0x0D,
        b't' => 0x09,
        b'u' => return read_unicode_escape(bytes, at),
        _ => return Err(not_json(at + 1)),
    };
    Ok((code, at + 2))
}

/// A high surrogate takes a low one that directly follows with it. If what
/// follows is no whole low surrogate escape, the high one stands by itself and
/// any fault in what follows belongs to the next character.
fn read_unicode_escape(bytes: &[u8], at: usize) -> Result<(u32, usize), Fault> {
    let first = read_four_hex(bytes, at + 2)?;
    if (0xD800..=0xDBFF).contains(&first) {
        if let Some(second) = low_surrogate_escape(bytes, at + 6) {
            let code = 0x10000 + ((first - 0xD800) << 10) + (second - 0xDC00);
            return Ok((code, at + 12));
        }
    }
    Ok((first, at + 6))
}

fn low_surrogate_escape(bytes: &[u8], at: usize) -> Option<u32> {
    if byte_at(bytes, at) != b'\\' || byte_at(bytes, at + 1) != b'u' {
        return None;
    }
    let code = read_four_hex(bytes, at + 2).ok()?;
    (0xDC00..=0xDFFF).contains(&code).then_some(code)
}

fn read_four_hex(bytes: &[u8], at: usize) -> Result<u32, Fault> {
    let mut code = 0;
    for place in at..at + 4 {
        let digit = char::from(byte_at(bytes, place)).to_digit(16);
        code = 16 * code + digit.ok_or(not_json(place))?;
    }
    Ok(code)
}

/// The characters of the string whose opening quote is at `at`, up to its
/// closing quote or its first fault, and how it ends: the place after the
/// closing quote, or the fault. Where no quote opens it, that is its fault.
pub fn walk_string(bytes: &[u8], at: usize) -> (Vec<Character>, Result<usize, Fault>) {
    if byte_at(bytes, at) != b'"' {
        return (Vec::new(), Err(not_json(at)));
    }
    let mut characters = Vec::new();
    let mut place = at + 1;
    loop {
        match read_character(bytes, place) {
            Step::Character { code, next } => {
                characters.push(Character { code, place });
                place = next;
            }
            Step::Close => return (characters, Ok(place + 1)),
            Step::Fault(fault) => return (characters, Err(fault)),
        }
    }
}

/// Reads a string whole, or gives its first fault.
pub fn read_string(bytes: &[u8], at: usize) -> Result<JsonString, Fault> {
    let (characters, end) = walk_string(bytes, at);
    Ok(JsonString { characters, end: end? })
}

/// The decoded codes of a string. One that meets a fault ends there.
pub fn decoded_codes(bytes: &[u8], at: usize) -> Vec<u32> {
    walk_string(bytes, at).0.iter().map(|c| c.code).collect()
}

/// A-Z to a-z; every other character is kept.
pub fn fold_code(code: u32) -> u32 {
    match u8::try_from(code) {
        Ok(byte) => u32::from(byte.to_ascii_lowercase()),
        Err(_) => code,
    }
}

// ---------------------------------------------------------- string rules

/// Which characters a string may hold.
#[derive(Clone, Copy, Debug, PartialEq, Eq)]
pub enum TextKind {
    Text,
    String,
    StringID,
}

/// What a character can be wrong by, numbered as the JSON layer's answers have
/// it. Of two rules that one character breaks, the lower one counts.
#[derive(Clone, Copy, Debug, PartialEq, Eq)]
pub enum StringRule {
    BarredControl = 1,
    Whitespace = 2,
    OutsideIDSet = 3,
    UnpairedSurrogate = 4,
}

/// A broken string rule and the place of the first wrong character: its first
/// byte as written.
#[derive(Clone, Copy, Debug, PartialEq, Eq)]
pub struct Breach {
    pub rule: StringRule,
    pub place: usize,
}

/// The first wrong character, and the lowest rule that it breaks.
pub fn first_breach(characters: &[Character], kind: TextKind) -> Option<Breach> {
    (0..characters.len()).find_map(|index| {
        let place = characters[index].place;
        lowest_broken_rule(characters, index, kind).map(|rule| Breach { rule, place })
    })
}

fn lowest_broken_rule(
    characters: &[Character],
    index: usize,
    kind: TextKind,
) -> Option<StringRule> {
    let code = characters[index].code;
    if is_barred_control(code) {
        Some(StringRule::BarredControl)
    } else if is_wrong_whitespace(characters, index, kind) {
        Some(StringRule::Whitespace)
    } else if kind == TextKind::StringID && !(0x20..=0x7E).contains(&code) {
        Some(StringRule::OutsideIDSet)
    } else if (0xD800..=0xDFFF).contains(&code) {
        // Pairs are one character by now, so a surrogate left is unpaired.
        Some(StringRule::UnpairedSurrogate)
    } else {
        None
    }
}

fn is_barred_control(code: u32) -> bool {
    matches!(code, 0x00..=0x08 | 0x0B..=0x0C | 0x0E..=0x1F | 0x7F)
}

/// Whitespace is only allowed as single inner spaces.
fn is_wrong_whitespace(characters: &[Character], index: usize, kind: TextKind) -> bool {
    if !is_whitespace(characters[index].code, kind) {
        return false;
    }
    let is_space = |i: usize| characters[i].code == SPACE;
    !is_space(index) || index == 0 || index + 1 == characters.len() || is_space(index - 1)
}

const SPACE: u32 = 0x20;

/// What counts as whitespace is for the kind to say. Text has no rule about it.
fn is_whitespace(code: u32, kind: TextKind) -> bool {
    match kind {
        TextKind::Text => false,
        TextKind::String => is_unicode_white_space(code),
        TextKind::StringID => matches!(code, 0x09 | 0x0A | 0x0D | SPACE),
    }
}

/// Unicode's White_Space list (order 2).
fn is_unicode_white_space(code: u32) -> bool {
    matches!(
        code,
        0x0009..=0x000D
            | 0x0020
            | 0x0085
            | 0x00A0
            | 0x1680
            | 0x2000..=0x200A
            | 0x2028
            | 0x2029
            | 0x202F
            | 0x205F
            | 0x3000
    )
}

// ----------------------------------------------------------------- dates

#[derive(Clone, Copy, Debug, PartialEq, Eq, PartialOrd, Ord, Hash)]
pub struct Date {
    pub year: u32,
    pub month: u32,
    pub day: u32,
}

/// The date written as `yyyy-mm-dd`, years 0001 to 9999, Gregorian.
pub fn date_of(codes: &[u32]) -> Option<Date> {
    if codes.len() != 10 || codes[4] != u32::from('-') || codes[7] != u32::from('-') {
        return None;
    }
    let year = whole_of(&codes[0..4])?;
    let month = whole_of(&codes[5..7])?;
    let day = whole_of(&codes[8..10])?;
    let valid =
        year >= 1 && (1..=12).contains(&month) && (1..=days_in_month(year, month)).contains(&day);
    valid.then_some(Date { year, month, day })
}

/// Only the digits U+0030 to U+0039 count.
fn whole_of(codes: &[u32]) -> Option<u32> {
    codes.iter().try_fold(0, |sum, code| {
        let digit = char::from_u32(*code)?.to_digit(10)?;
        Some(10 * sum + digit)
    })
}

fn days_in_month(year: u32, month: u32) -> u32 {
    match month {
        2 if is_leap(year) => 29,
        2 => 28,
        4 | 6 | 9 | 11 => 30,
        _ => 31,
    }
}

fn is_leap(year: u32) -> bool {
    year % 400 == 0 || (year % 4 == 0 && year % 100 != 0)
}

// --------------------------------------------------------------- numbers

/// A number as written, cut into its runs of digits.
#[derive(Clone, Copy, Debug, PartialEq, Eq)]
pub struct NumberToken<'a> {
    pub minus: bool,
    pub whole: &'a [u8],
    pub fraction: &'a [u8],
    pub exponent_minus: bool,
    pub exponent: &'a [u8],
    pub end: usize,
}

/// ±c times 10 to the p, within the limits of c and p and in the one form that
/// its value has: c without trailing zeros, and zero as c 0, p 0 without a
/// sign. So numbers are equal exactly if their values are.
#[derive(Clone, Copy, Debug, PartialEq, Eq)]
pub struct Number {
    pub minus: bool,
    pub c: u64,
    pub p: i32,
}

pub const LARGEST: u64 = 999_999_999_999_999;
const LARGEST_DIGITS: usize = 15;
const P_LIMIT: i128 = 15;

/// No slice is so long that its digits could bring an exponent with more
/// significant digits than this back within the limits.
const EXPONENT_DIGITS: usize = 19;

/// Reads a number as far as the grammar goes.
pub fn read_number(bytes: &[u8], at: usize) -> Result<NumberToken<'_>, Fault> {
    let minus = byte_at(bytes, at) == b'-';
    let start = if minus { at + 1 } else { at };
    let whole = read_whole_part(bytes, start)?;
    let mut end = start + whole.len();
    let mut fraction: &[u8] = &[];
    if byte_at(bytes, end) == b'.' {
        fraction = read_digits(bytes, end + 1)?;
        end += 1 + fraction.len();
    }
    let mut exponent: &[u8] = &[];
    let mut exponent_minus = false;
    if matches!(byte_at(bytes, end), b'e' | b'E') {
        end += 1;
        exponent_minus = byte_at(bytes, end) == b'-';
        if matches!(byte_at(bytes, end), b'+' | b'-') {
            end += 1;
        }
        exponent = read_digits(bytes, end)?;
        end += exponent.len();
    }
    Ok(NumberToken { minus, whole, fraction, exponent_minus, exponent, end })
}

/// A zero stands alone; what follows it belongs to no whole part.
fn read_whole_part(bytes: &[u8], at: usize) -> Result<&[u8], Fault> {
    let digits = read_digits(bytes, at)?;
    Ok(if digits[0] == b'0' { &digits[..1] } else { digits })
}

/// One digit or more.
fn read_digits(bytes: &[u8], at: usize) -> Result<&[u8], Fault> {
    let rest = bytes.get(at..).unwrap_or(&[]);
    let count = rest.iter().take_while(|byte| byte.is_ascii_digit()).count();
    if count == 0 {
        return Err(not_json(at));
    }
    Ok(&rest[..count])
}

impl<'a> NumberToken<'a> {
    /// The value in its one form, or nothing if c or p of that form is beyond
    /// its limits.
    pub fn value(&self) -> Option<Number> {
        let count = self.whole.len() + self.fraction.len();
        let trailing_zeros = self.digits().rev().take_while(|digit| **digit == b'0').count();
        if trailing_zeros == count {
            return Some(Number::ZERO);
        }
        let c = small_whole(self.digits().take(count - trailing_zeros), LARGEST_DIGITS)?;
        let p = self.power(trailing_zeros)?;
        Some(Number { minus: self.minus, c, p })
    }

    /// All digits before any exponent.
    fn digits(&self) -> impl DoubleEndedIterator<Item = &'a u8> {
        self.whole.iter().chain(self.fraction)
    }

    /// p: the exponent less the count of fraction digits, raised by one for
    /// each trailing zero that c goes without.
    fn power(&self, trailing_zeros: usize) -> Option<i32> {
        let size = i128::from(small_whole(self.exponent.iter(), EXPONENT_DIGITS)?);
        let exponent = if self.exponent_minus { -size } else { size };
        let p = exponent - self.fraction.len() as i128 + trailing_zeros as i128;
        (-P_LIMIT..=P_LIMIT).contains(&p).then_some(p as i32)
    }
}

/// The whole number formed by digits, or nothing if more than `most` are left
/// of them once its leading zeros are gone. No digit at all is zero.
fn small_whole<'a>(digits: impl Iterator<Item = &'a u8>, most: usize) -> Option<u64> {
    let mut rest = digits.skip_while(|digit| **digit == b'0');
    let whole = rest.by_ref().take(most).fold(0, |sum, digit| 10 * sum + u64::from(digit - b'0'));
    rest.next().is_none().then_some(whole)
}

/// A number as an Integer.
#[derive(Clone, Copy, Debug, PartialEq, Eq)]
pub enum Whole {
    Integer(i64),
    NotWhole,
    Beyond,
}

impl Number {
    const ZERO: Number = Number { minus: false, c: 0, p: 0 };

    pub fn sign(&self) -> std::cmp::Ordering {
        match (self.c, self.minus) {
            (0, _) => std::cmp::Ordering::Equal,
            (_, true) => std::cmp::Ordering::Less,
            (_, false) => std::cmp::Ordering::Greater,
        }
    }

    /// c has no trailing zeros, so only a p below zero leaves a fraction.
    pub fn whole(&self) -> Whole {
        if self.p < 0 {
            return Whole::NotWhole;
        }
        let size = u128::from(self.c) * 10u128.pow(self.p as u32);
        if size > u128::from(LARGEST) {
            return Whole::Beyond;
        }
        let size = size as i64;
        Whole::Integer(if self.minus { -size } else { size })
    }
}

#[cfg(test)]
mod tests {
    use super::*;

    fn fault(kind: u32, place: usize) -> Fault {
        Fault { kind, place }
    }

    #[test]
    fn spaces_are_the_four_of_json() {
        assert_eq!(skip_spaces(b" \t\n\rx", 0), 4);
        assert_eq!(skip_spaces(b"\x0B", 0), 0);
        assert_eq!(skip_spaces(b"  ", 0), 2);
        assert_eq!(skip_spaces(b"  ", 7), 7);
    }

    #[test]
    fn a_literal_fails_at_the_first_byte_that_differs() {
        assert_eq!(read_literal(b"true", 0), Ok((Literal::True, 4)));
        assert_eq!(read_literal(b"xfalsey", 1), Ok((Literal::False, 6)));
        assert_eq!(read_literal(b"nul", 0), Err(fault(11, 3)));
        assert_eq!(read_literal(b"tree", 0), Err(fault(11, 2)));
        assert_eq!(read_literal(b"x", 0), Err(fault(11, 0)));
        assert_eq!(read_literal(b"", 2), Err(fault(11, 2)));
    }

    #[test]
    fn well_formed_sequences_are_those_of_table_3_7() {
        for first in 0x80..=0xFFu8 {
            for second in 0x00..=0xFFu8 {
                let wide = [first, second, 0x80, 0x80, b'"'];
                let continuation = (0x80..=0xBF).contains(&second);
                let length = match (first, second) {
                    (0xC2..=0xDF, _) if continuation => 2,
                    (0xE0, 0xA0..=0xBF) => 3,
                    (0xED, 0x80..=0x9F) => 3,
                    (0xE1..=0xEC | 0xEE..=0xEF, _) if continuation => 3,
                    (0xF0, 0x90..=0xBF) => 4,
                    (0xF4, 0x80..=0x8F) => 4,
                    (0xF1..=0xF3, _) if continuation => 4,
                    _ => 0,
                };
                match read_character(&wide, 0) {
                    Step::Character { next, .. } => assert_eq!(next, length),
                    step => {
                        assert_eq!(length, 0);
                        assert_eq!(step, Step::Fault(fault(10, 0)));
                    }
                }
            }
        }
    }

    #[test]
    fn a_sequence_cut_off_is_ill_formed_at_its_first_byte() {
        assert_eq!(read_string(b"\"a\xE2\x82", 0), Err(fault(10, 2)));
        assert_eq!(read_string(b"\"\xE2\x82\"", 0), Err(fault(10, 1)));
        assert_eq!(read_string(b"\"\xF4\x90\x80\x80\"", 0), Err(fault(10, 1)));
    }

    #[test]
    fn escapes() {
        let codes = decoded_codes(br#""\"\\\/\b\f\n\r\t\u0041\u00e9\u00E9""#, 0);
        assert_eq!(codes, [0x22, 0x5C, 0x2F, 8, 12, 10, 13, 9, 0x41, 0xE9, 0xE9]);
        assert_eq!(read_string(br#""\x""#, 0), Err(fault(11, 2)));
        assert_eq!(read_string(b"\"\\\xE9\"", 0), Err(fault(11, 2)));
        assert_eq!(read_string(br#""\u00g0""#, 0), Err(fault(11, 5)));
        assert_eq!(read_string(br#""\u00"#, 0), Err(fault(11, 5)));
        assert_eq!(read_string(b"\"a\x1F\"", 0), Err(fault(11, 2)));
        assert_eq!(read_string(b"\"a", 0), Err(fault(11, 2)));
    }

    #[test]
    fn a_string_without_its_opening_quote_fails_there() {
        assert_eq!(read_string(b"", 0), Err(fault(11, 0)));
        assert_eq!(read_string(b"\"", 3), Err(fault(11, 3)));
        assert_eq!(read_string(br#"xab""#, 0), Err(fault(11, 0)));
        assert_eq!(decoded_codes(br#"xab""#, 0), []);
        assert_eq!(decoded_codes(br#"xab"c"#, 3), [0x63]);
    }

    #[test]
    fn surrogates_pair_only_when_whole_and_adjacent() {
        assert_eq!(decoded_codes(br#""\uD83D\uDE00""#, 0), [0x1F600]);
        assert_eq!(decoded_codes(br#""\uDE00\uD83D""#, 0), [0xDE00, 0xD83D]);
        assert_eq!(decoded_codes(br#""\uD83Dx\uDE00""#, 0), [0xD83D, 0x78, 0xDE00]);
        assert_eq!(decoded_codes(br#""\uD83D\uD83D\uDE00""#, 0), [0xD83D, 0x1F600]);
        let cut = br#""\uD83D\uDE0""#;
        assert_eq!(read_character(cut, 1), Step::Character { code: 0xD83D, next: 7 });
        assert_eq!(read_string(cut, 0), Err(fault(11, 12)));
    }

    fn breach(text: &[u8], kind: TextKind) -> Option<(u32, usize)> {
        let characters = read_string(text, 0).unwrap().characters;
        first_breach(&characters, kind).map(|b| (b.rule as u32, b.place))
    }

    #[test]
    fn string_rules() {
        use TextKind::*;
        assert_eq!(breach(br#""A  B""#, String), Some((2, 3)));
        assert_eq!(breach(br#""A  B""#, Text), None);
        assert_eq!(breach(br#"" A""#, String), Some((2, 1)));
        assert_eq!(breach(br#""A ""#, String), Some((2, 2)));
        assert_eq!(breach(br#"" ""#, StringID), Some((2, 1)));
        assert_eq!(breach(br#""A\tB""#, StringID), Some((2, 2)));
        assert_eq!(breach(br#""A\u007FB""#, StringID), Some((1, 2)));
        assert_eq!(breach(b"\"A\x7F\"", Text), Some((1, 2)));
        assert_eq!(breach("\"é\"".as_bytes(), StringID), Some((3, 1)));
        assert_eq!(breach("\"é\"".as_bytes(), String), None);
        assert_eq!(breach(br#""\uD800""#, StringID), Some((3, 1)));
        assert_eq!(breach(br#""\uD800""#, Text), Some((4, 1)));
        assert_eq!(breach(br#""\uD800\u0000""#, Text), Some((4, 1)));
        assert_eq!(breach(br#""""#, StringID), None);
    }

    /// The standard library has the list of its own.
    #[test]
    fn white_space_is_the_list_of_unicode() {
        let listed: Vec<char> = (0..=0x10FFFF)
            .filter(|code| is_unicode_white_space(*code))
            .filter_map(char::from_u32)
            .collect();
        let known: Vec<char> = ('\0'..=char::MAX).filter(|c| c.is_whitespace()).collect();
        assert_eq!(listed, known);
        assert_eq!(listed.len(), 25);
        assert!(!(0xD800..=0xDFFF).any(is_unicode_white_space));
    }

    #[test]
    fn each_kind_has_whitespace_of_its_own() {
        for code in 0..=0x10FFFF {
            assert!(!is_whitespace(code, TextKind::Text));
            assert_eq!(is_whitespace(code, TextKind::String), is_unicode_white_space(code));
            let of_four = [0x09, 0x0A, 0x0D, 0x20].contains(&code);
            assert_eq!(is_whitespace(code, TextKind::StringID), of_four);
        }
    }

    /// The rule that each kind breaks first: Text, String, StringID.
    fn breaches(text: &[u8]) -> [Option<(u32, usize)>; 3] {
        [TextKind::Text, TextKind::String, TextKind::StringID].map(|kind| breach(text, kind))
    }

    /// The character as itself where that can be, and as escapes.
    fn writings(c: char) -> Vec<String> {
        let units: Vec<u16> = c.encode_utf16(&mut [0; 2]).to_vec();
        let mut writings = vec![
            units.iter().map(|unit| format!("\\u{unit:04x}")).collect(),
            units.iter().map(|unit| format!("\\u{unit:04X}")).collect(),
        ];
        writings.extend((c >= ' ').then(|| c.to_string()));
        writings
    }

    /// What Text, String and StringID say of a white character that isn't the
    /// space: two are barred, the four are whitespace, others are no ID's.
    fn breaches_of_white(c: char) -> [Option<u32>; 3] {
        match c {
            '\u{0B}' | '\u{0C}' => [Some(1), Some(1), Some(1)],
            '\t' | '\n' | '\r' => [None, Some(2), Some(2)],
            _ => [None, Some(2), Some(3)],
        }
    }

    #[test]
    fn no_white_character_but_the_space_stands_anywhere_in_a_string() {
        let ends = [("", ""), ("", "B"), ("A", "B"), ("A", ""), ("A ", "B"), ("A", " B")];
        for c in ('\0'..=char::MAX).filter(|c| c.is_whitespace() && *c != ' ') {
            for (written, (front, back)) in
                writings(c).iter().flat_map(|written| ends.map(|ends| (written, ends)))
            {
                let place = 1 + front.len();
                let expected = breaches_of_white(c).map(|rule| rule.map(|rule| (rule, place)));
                let once = format!("\"{front}{written}{back}\"");
                let twice = format!("\"{front}{written}{written}{back}\"");
                assert_eq!(breaches(once.as_bytes()), expected, "{once}");
                assert_eq!(breaches(twice.as_bytes()), expected, "{twice}");
            }
        }
    }

    #[test]
    fn what_is_not_on_the_list_may_stand_anywhere_in_a_string() {
        let beside = "\u{84}\u{86}\u{9F}\u{A1}\u{167F}\u{1681}\u{1FFF}\u{200B}\u{2027}\u{202A}\
            \u{202E}\u{2030}\u{205E}\u{2060}\u{2FFF}\u{3001}";
        let unseen = "\u{180E}\u{FEFF}";
        let white_in_low_bits = "\u{120}\u{1A0}\u{2100}\u{A000}\u{12000}\u{13000}\u{1F0A0}";
        for c in [beside, unseen, white_in_low_bits].concat().chars() {
            for written in writings(c) {
                for text in [format!("\"{written}\""), format!("\"{written}A {written}{written}\"")]
                {
                    assert_eq!(breaches(text.as_bytes()), [None, None, Some((3, 1))], "{text}");
                }
            }
        }
        assert_eq!(breaches(br#""\u0008\u000E\u001F""#), [Some((1, 1)); 3]);
        assert_eq!(breaches(br#""!""#), [None; 3]);
    }

    #[test]
    fn a_space_beside_another_white_one_is_as_right_as_alone() {
        use TextKind::*;
        // The space is single and inside; what follows it is wrong by itself.
        assert_eq!(breach("\"A \u{A0}\"".as_bytes(), String), Some((2, 3)));
        assert_eq!(breach("\"A\u{A0} \u{A0}B\"".as_bytes(), String), Some((2, 2)));
        assert_eq!(breach("\" \u{A0}B\"".as_bytes(), String), Some((2, 1)));
        assert_eq!(breach("\"A  \u{3000}B\"".as_bytes(), String), Some((2, 3)));
        assert_eq!(breach("\"A\u{2028}B\u{7F}\"".as_bytes(), String), Some((2, 2)));
        assert_eq!(breach("\"A\u{7F}\u{2028}B\"".as_bytes(), String), Some((1, 2)));
        assert_eq!(breach("\"A\u{A0}\\uD800\"".as_bytes(), StringID), Some((3, 2)));
    }

    fn date(text: &str) -> Option<(u32, u32, u32)> {
        let codes: Vec<u32> = text.chars().map(u32::from).collect();
        date_of(&codes).map(|d| (d.year, d.month, d.day))
    }

    #[test]
    fn dates() {
        assert_eq!(date("2000-02-29"), Some((2000, 2, 29)));
        assert_eq!(date("1900-02-29"), None);
        assert_eq!(date("2004-02-29"), Some((2004, 2, 29)));
        assert_eq!(date("0001-01-01"), Some((1, 1, 1)));
        assert_eq!(date("9999-12-31"), Some((9999, 12, 31)));
        for wrong in ["0000-01-01", "2020-00-10", "2020-13-10", "2020-04-31", "2020-01-00"] {
            assert_eq!(date(wrong), None);
        }
        for wrong in ["", "2020-1-01", "2020/01/01", "2020-01-01 ", "+202-01-01", "２０２０-01-01"]
        {
            assert_eq!(date(wrong), None);
        }
    }

    fn number(text: &str) -> Option<(bool, u64, i32)> {
        let token = read_number(text.as_bytes(), 0).unwrap();
        assert_eq!(token.end, text.len());
        token.value().map(|n| (n.minus, n.c, n.p))
    }

    fn all_are(texts: &[&str], expected: Option<(bool, u64, i32)>) {
        for text in texts {
            assert_eq!(number(text), expected, "{text}");
        }
    }

    #[test]
    fn a_value_has_one_form_however_it_is_written() {
        all_are(
            &["8", "8.0", "8.0000000000000000", "80e-1", "0.8e1", "8E-00", "800.00e-2"],
            Some((false, 8, 0)),
        );
        all_are(&["80000000000000000000e-19", "0.000000000000000000080e20"], Some((false, 8, 0)));
        all_are(&["0.001", "0.0010", "1e-3", "1000e-6"], Some((false, 1, -3)));
        all_are(&["-12.50E+3", "-12500", "-1.25e4", "-125e2"], Some((true, 125, 2)));
    }

    #[test]
    fn zero_has_neither_sign_nor_power() {
        all_are(&["0", "-0", "0.0", "-0.0000000000000000", "0e15", "0e16"], Some((false, 0, 0)));
        all_are(&["0e-16", "0e99", "-0.000e-99", "-0E+0", "0.0e00099"], Some((false, 0, 0)));
        all_are(&["0e99999999999999999999", "-0E-99999999999999999999"], Some((false, 0, 0)));
    }

    #[test]
    fn c_has_at_most_fifteen_digits_without_its_trailing_zeros() {
        for zeros in ["", "0", "000000000000000"] {
            let p = zeros.len() as i32;
            assert_eq!(number(&format!("999999999999999{zeros}")), Some((false, LARGEST, p)));
            assert_eq!(number(&format!("9.99999999999999{zeros}")), Some((false, LARGEST, -14)));
            assert_eq!(number(&format!("-0.00123456789012345{zeros}E2")).unwrap().2, -15);
            assert_eq!(number(&format!("1000000000000001{zeros}")), None);
            assert_eq!(number(&format!("1.000000000000001{zeros}")), None);
            assert_eq!(number(&format!("1234567890123456{zeros}e-9")), None);
        }
        assert_eq!(number("100000000000001"), Some((false, 100_000_000_000_001, 0)));
        assert_eq!(number("9999999999999990"), Some((false, LARGEST, 1)));
        assert_eq!(number("9999999999999991"), None);
    }

    /// Reached by the exponent, by zeros behind, by fraction digits, by mixtures.
    #[test]
    fn p_is_at_most_fifteen_either_way() {
        let by_exponent = ["1e15", "1E+00015"];
        let by_zeros = ["1000000000000000", "10e14", "1000000000000000e0", "1.0e15"];
        let by_fraction = ["0.1e16", "0.000001e21", "0.01000e17", "1000.000e12"];
        for texts in [&by_exponent[..], &by_zeros, &by_fraction] {
            all_are(texts, Some((false, 1, 15)));
        }
        all_are(&["1e16", "10e15", "10000000000000000", "1000000000000000e1", "1.0e16"], None);
        all_are(&["0.1e17", "0.01000e18", "1000.000e13", "1e18446744073709551617"], None);

        let by_exponent = ["1e-15", "1E-00015"];
        let by_zeros = ["10e-16", "1000000000000000e-30", "1.000e-15"];
        let by_fraction = ["0.000000000000001", "0.1e-14", "0.0000000000000010", "0.00100E-12"];
        for texts in [&by_exponent[..], &by_zeros, &by_fraction] {
            all_are(texts, Some((false, 1, -15)));
        }
        all_are(&["1e-16", "10e-17", "1000000000000000e-31", "1.000e-16"], None);
        all_are(&["0.0000000000000001", "0.1e-15", "0.00000000000000010", "0.00100E-13"], None);
        all_are(&["1e-18446744073709551617", "1e-99999999999999999999"], None);

        assert_eq!(number("-999999999999999e15"), Some((true, LARGEST, 15)));
        assert_eq!(number("999999999999999e-15"), Some((false, LARGEST, -15)));
        all_are(&["999999999999999e16", "99999999999999e-16", "9999999999999990e15"], None);
    }

    #[test]
    fn no_run_of_digits_is_too_long() {
        let count = 1 << 20;
        let zeros = "0".repeat(count);
        let one = |p| Some((false, 1, p));
        // In front of the only digit, and in front of the exponent.
        assert_eq!(number(&format!("0.{zeros}1e{}", count + 1)), one(0));
        assert_eq!(number(&format!("0.{zeros}1e{}", count + 16)), one(15));
        assert_eq!(number(&format!("0.{zeros}1e{}", count + 17)), None);
        assert_eq!(number(&format!("0.{zeros}1")), None);
        assert_eq!(number(&format!("1e-{zeros}5")), one(-5));
        assert_eq!(number(&format!("1e{zeros}")), one(0));
        // Behind it, before the point and after.
        assert_eq!(number(&format!("1.{zeros}")), one(0));
        assert_eq!(number(&format!("1{zeros}")), None);
        assert_eq!(number(&format!("1{zeros}e-{count}")), one(0));
        assert_eq!(number(&format!("1{zeros}.{zeros}e-{}", count - 15)), one(15));
        assert_eq!(number(&format!("1{zeros}.{zeros}e-{}", count - 16)), None);
        assert_eq!(number(&format!("1{zeros}e-{}", count + 15)), one(-15));
        assert_eq!(number(&format!("1{zeros}e-{}", count + 16)), None);
        // Between two digits, and without any other.
        assert_eq!(number(&format!("1.{zeros}1")), None);
        assert_eq!(number(&format!("1{zeros}1e-{count}")), None);
        assert_eq!(number(&format!("-0.{zeros}e{}", "9".repeat(count))), Some((false, 0, 0)));
        assert_eq!(number(&format!("1e{}", "9".repeat(count))), None);
    }

    #[test]
    fn a_number_fails_at_the_first_byte_that_cannot_go_on() {
        for (text, place) in [("-", 1), ("-x", 1), ("1.", 2), ("1.e", 2), ("1e", 2), ("1e+", 3)] {
            assert_eq!(read_number(text.as_bytes(), 0).unwrap_err(), fault(11, place));
        }
        assert_eq!(read_number(b"01", 0).unwrap().end, 1);
        assert_eq!(read_number(b"-01", 0).unwrap().end, 2);
        assert_eq!(read_number(b"", 3).unwrap_err(), fault(11, 3));
    }

    fn whole(text: &str) -> Whole {
        read_number(text.as_bytes(), 0).unwrap().value().unwrap().whole()
    }

    #[test]
    fn integers() {
        assert_eq!(whole("10e-1"), Whole::Integer(1));
        assert_eq!(whole("0.5"), Whole::NotWhole);
        assert_eq!(whole("-0.0"), Whole::Integer(0));
        assert_eq!(whole("1e15"), Whole::Beyond);
        assert_eq!(whole("1000000000000000"), Whole::Beyond);
        assert_eq!(whole("-9999999999999990"), Whole::Beyond);
        assert_eq!(whole("999999999999999"), Whole::Integer(999_999_999_999_999));
        assert_eq!(whole("-999999999999999.0000"), Whole::Integer(-999_999_999_999_999));
        assert_eq!(whole("8.0000000000000000"), Whole::Integer(8));
        assert_eq!(whole("-0e99"), Whole::Integer(0));
        assert_eq!(whole("-99999999999999e1"), Whole::Integer(-999_999_999_999_990));
        assert_eq!(whole("100000000000000e-14"), Whole::Integer(1));
        assert_eq!(whole("100000000000001e-14"), Whole::NotWhole);
        assert_eq!(whole("70000000000000000e-16"), Whole::Integer(7));
        assert_eq!(whole("70000000000000000e-17"), Whole::NotWhole);
    }
}
