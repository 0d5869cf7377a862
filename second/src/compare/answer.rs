//! What this program answers to a case.

use std::cmp::Ordering;

use super::case::*;
use crate::json::{
    date_of, decoded_codes, first_breach, fold_code, read_character, read_literal, read_number,
    read_string, skip_spaces, Fault, Number, Step, TextKind, Whole,
};

const YES: Answer = [1, 0, 0, 0];
const NO: Answer = [0, 0, 0, 0];

pub fn answer(case: &Case) -> Answer {
    let at = case.at as usize;
    match case.op {
        SPACES => [0, skip_spaces(&case.a, at) as u64, 0, 0],
        LITERAL => match read_literal(&case.a, at) {
            Ok((_, end)) => [0, end as u64, 0, 0],
            Err(fault) => answer_fault(1, fault),
        },
        TEXT => answer_text(&case.a, at, text_kind(case.other)),
        CHARACTER => answer_character(&case.a, at),
        EQUAL => yes_or_no(codes_of_a(case) == codes_of_b(case)),
        EQUAL_FOLDED => yes_or_no(folded(codes_of_a(case)) == folded(codes_of_b(case))),
        EQUAL_FIXED => yes_or_no(codes_of_a(case) == fixed_codes(&case.b)),
        EQUAL_FIXED_FOLDED => yes_or_no(folded(codes_of_a(case)) == folded(fixed_codes(&case.b))),
        DATE => match date_of(&codes_of_a(case)) {
            Some(date) => [0, date.year.into(), date.month.into(), date.day.into()],
            None => [1, 0, 0, 0],
        },
        NUMBER => answer_number(&case.a, at),
        INTEGER => answer_integer(&case.a, at),
        SIGN => answer_sign(&case.a, at),
        EQUAL_NUMBERS => answer_equal_numbers(case),
        _ => panic!("ops are numbered 1 to {OPS}"),
    }
}

fn answer_fault(tag: u64, fault: Fault) -> Answer {
    [tag, fault.kind.into(), fault.place as u64, 0]
}

fn yes_or_no(yes: bool) -> Answer {
    if yes {
        YES
    } else {
        NO
    }
}

fn text_kind(other: u32) -> TextKind {
    match other {
        0 => TextKind::Text,
        1 => TextKind::String,
        2 => TextKind::StringID,
        _ => panic!("text kinds are numbered 0 to 2"),
    }
}

fn answer_text(bytes: &[u8], at: usize, kind: TextKind) -> Answer {
    match read_string(bytes, at) {
        Err(fault) => answer_fault(1, fault),
        Ok(string) => match first_breach(&string.characters, kind) {
            None => [0, string.end as u64, 0, 0],
            Some(breach) => [0, string.end as u64, breach.rule as u64, breach.place as u64],
        },
    }
}

fn answer_character(bytes: &[u8], at: usize) -> Answer {
    match read_character(bytes, at) {
        Step::Character { code, next } => [0, code.into(), next as u64, 0],
        Step::Close => [1, 0, 0, 0],
        Step::Fault(fault) => answer_fault(2, fault),
    }
}

fn codes_of_a(case: &Case) -> Vec<u32> {
    decoded_codes(&case.a, case.at as usize)
}

fn codes_of_b(case: &Case) -> Vec<u32> {
    decoded_codes(&case.b, case.other as usize)
}

fn fixed_codes(bytes: &[u8]) -> Vec<u32> {
    bytes.iter().map(|byte| u32::from(*byte)).collect()
}

fn folded(codes: Vec<u32>) -> Vec<u32> {
    codes.into_iter().map(fold_code).collect()
}

fn answer_number(bytes: &[u8], at: usize) -> Answer {
    let token = match read_number(bytes, at) {
        Err(fault) => return answer_fault(1, fault),
        Ok(token) => token,
    };
    match token.value() {
        None => [2, token.end as u64, 0, 0],
        Some(number) => {
            let power = (number.p + 15) as u64;
            let sign = if number.minus { 100 } else { 0 };
            [0, token.end as u64, number.c, power + sign]
        }
    }
}

/// The number at a place; nothing if it meets a fault or is beyond the limits.
fn number_at(bytes: &[u8], at: usize) -> Option<Number> {
    read_number(bytes, at).ok()?.value()
}

fn answer_integer(bytes: &[u8], at: usize) -> Answer {
    let Ok(token) = read_number(bytes, at) else {
        return [3, 0, 0, 0];
    };
    match token.value().map(|number| number.whole()) {
        None | Some(Whole::Beyond) => [2, 0, 0, 0],
        Some(Whole::NotWhole) => [1, 0, 0, 0],
        Some(Whole::Integer(integer)) => [0, integer.unsigned_abs(), u64::from(integer < 0), 0],
    }
}

fn answer_sign(bytes: &[u8], at: usize) -> Answer {
    match number_at(bytes, at).map(|number| number.sign()) {
        None => [3, 0, 0, 0],
        Some(Ordering::Equal) => [0, 0, 0, 0],
        Some(Ordering::Greater) => [0, 1, 0, 0],
        Some(Ordering::Less) => [0, 2, 0, 0],
    }
}

fn answer_equal_numbers(case: &Case) -> Answer {
    let first = number_at(&case.a, case.at as usize);
    let second = number_at(&case.b, case.other as usize);
    match (first, second) {
        (Some(first), Some(second)) => yes_or_no(first == second),
        _ => NO,
    }
}

#[cfg(test)]
mod tests {
    use super::*;

    fn ask(op: u32, at: u32, other: u32, a: &[u8], b: &[u8]) -> Answer {
        answer(&Case { op, at, other, a: a.to_vec(), b: b.to_vec() })
    }

    #[test]
    fn spaces_and_literals() {
        assert_eq!(ask(1, 1, 0, b"x \n\t\ry", b""), [0, 5, 0, 0]);
        assert_eq!(ask(1, 3, 0, b"x", b""), [0, 3, 0, 0]);
        assert_eq!(ask(2, 0, 0, b"nullx", b""), [0, 4, 0, 0]);
        assert_eq!(ask(2, 0, 0, b"nulL", b""), [1, 11, 3, 0]);
        assert_eq!(ask(2, 2, 0, b"", b""), [1, 11, 2, 0]);
    }

    #[test]
    fn texts_and_characters() {
        assert_eq!(ask(3, 0, 1, b"\"A  B\"", b""), [0, 6, 2, 3]);
        assert_eq!(ask(3, 0, 0, b"\"A  B\"", b""), [0, 6, 0, 0]);
        assert_eq!(ask(3, 0, 2, "\"Aé\"".as_bytes(), b""), [0, 5, 3, 2]);
        assert_eq!(ask(3, 2, 2, b"", b""), [1, 11, 2, 0]);
        assert_eq!(ask(3, 1, 2, b"\"A\"", b""), [1, 11, 1, 0]);
        assert_eq!(ask(3, 0, 2, b"\"\xFF\"", b""), [1, 10, 1, 0]);
        assert_eq!(ask(4, 0, 0, b"\\uD83D\\uDE00", b""), [0, 0x1F600, 12, 0]);
        assert_eq!(ask(4, 0, 0, b"\"", b""), [1, 0, 0, 0]);
        assert_eq!(ask(4, 0, 0, b"\\u0000", b""), [0, 0, 6, 0]);
        assert_eq!(ask(4, 2, 0, b"", b""), [2, 11, 2, 0]);
    }

    #[test]
    fn equality() {
        assert_eq!(ask(5, 0, 1, br#""\u0041b""#, br#"x"Ab""#), YES);
        assert_eq!(ask(5, 0, 0, br#""ab""#, br#""Ab""#), NO);
        assert_eq!(ask(6, 0, 0, br#""ab""#, br#""AB""#), YES);
        assert_eq!(ask(6, 0, 0, "\"é\"".as_bytes(), "\"É\"".as_bytes()), NO);
        assert_eq!(ask(5, 0, 0, br#""ab"#, br#""ab\x"#), YES);
        assert_eq!(ask(5, 0, 0, br#""""#, b""), YES);
        assert_eq!(ask(7, 0, 0, br#""I\u0044""#, b"ID"), YES);
        assert_eq!(ask(7, 0, 0, br#""id""#, b"ID"), NO);
        assert_eq!(ask(8, 0, 0, br#""id""#, b"ID"), YES);
        assert_eq!(ask(8, 0, 0, br#""i""#, b"ID"), NO);
    }

    #[test]
    fn without_an_opening_quote_there_is_no_character() {
        assert_eq!(ask(5, 1, 0, br#""ab""#, br#""b""#), NO);
        assert_eq!(ask(5, 1, 9, br#""ab""#, br#""b""#), YES);
        assert_eq!(ask(6, 0, 1, br#""""#, br#""b""#), YES);
        assert_eq!(ask(7, 1, 0, br#""ab""#, b"b"), NO);
        assert_eq!(ask(7, 1, 0, br#""ab""#, b""), YES);
        assert_eq!(ask(8, 9, 0, br#""ab""#, b""), YES);
        assert_eq!(ask(9, 0, 0, br#"x2000-02-29""#, b""), [1, 0, 0, 0]);
    }

    #[test]
    fn dates() {
        assert_eq!(ask(9, 0, 0, br#""2000-02-29""#, b""), [0, 2000, 2, 29]);
        assert_eq!(ask(9, 0, 0, br#""2000\u002d02-29""#, b""), [0, 2000, 2, 29]);
        assert_eq!(ask(9, 0, 0, br#""1900-02-29""#, b""), [1, 0, 0, 0]);
        assert_eq!(ask(9, 0, 0, br#""2000-02-29"#, b""), [0, 2000, 2, 29]);
    }

    #[test]
    fn numbers() {
        assert_eq!(ask(10, 0, 0, b"-12.5e3,", b""), [0, 7, 125, 117]);
        assert_eq!(ask(10, 0, 0, b"8.0000000000000000", b""), [0, 18, 8, 15]);
        assert_eq!(ask(10, 0, 0, b"-0e99", b""), [0, 5, 0, 15]);
        assert_eq!(ask(10, 0, 0, b"-1000000000000000", b""), [0, 17, 1, 130]);
        assert_eq!(ask(10, 0, 0, b"10e15", b""), [2, 5, 0, 0]);
        assert_eq!(ask(10, 0, 0, b"1e16", b""), [2, 4, 0, 0]);
        assert_eq!(ask(10, 0, 0, b"1e", b""), [1, 11, 2, 0]);
        assert_eq!(ask(10, 2, 0, b"1", b""), [1, 11, 2, 0]);
        assert_eq!(ask(11, 0, 0, b"-10e-1", b""), [0, 1, 1, 0]);
        assert_eq!(ask(11, 0, 0, b"-0", b""), [0, 0, 0, 0]);
        assert_eq!(ask(11, 0, 0, b"0.5", b""), [1, 0, 0, 0]);
        assert_eq!(ask(11, 0, 0, b"1e15", b""), [2, 0, 0, 0]);
        assert_eq!(ask(11, 0, 0, b"1000000000000000", b""), [2, 0, 0, 0]);
        assert_eq!(ask(11, 0, 0, b"0.5e-15", b""), [2, 0, 0, 0]);
        assert_eq!(ask(11, 0, 0, b"-", b""), [3, 0, 0, 0]);
        assert_eq!(ask(12, 0, 0, b"-0e3", b""), [0, 0, 0, 0]);
        assert_eq!(ask(12, 0, 0, b"0.1", b""), [0, 1, 0, 0]);
        assert_eq!(ask(12, 0, 0, b"-3", b""), [0, 2, 0, 0]);
        assert_eq!(ask(12, 0, 0, b"1e99", b""), [3, 0, 0, 0]);
        assert_eq!(ask(13, 0, 1, b"10.0", b"x1e1"), YES);
        assert_eq!(ask(13, 0, 0, b"-0", b"0.00"), YES);
        assert_eq!(ask(13, 0, 0, b"1000000000000000", b"1e15"), YES);
        assert_eq!(ask(13, 0, 0, b"-1", b"1"), NO);
        assert_eq!(ask(13, 0, 0, b"1e16", b"1e16"), NO);
    }
}
