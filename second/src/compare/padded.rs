//! Numbers padded with zeros: one value in many spellings (order 1).

use std::collections::BTreeSet;

/// Zero in many spellings; a minus in front changes none of them.
pub(super) const ZEROS: [&str; 16] = [
    "0",
    "0.0",
    "0.0000000000000000",
    "0e0",
    "0E+15",
    "0e16",
    "0E-15",
    "0e-16",
    "0e99",
    "0.000e-99",
    "0.0000000000000000E+17",
    "0.0000000000000000e-1",
    "0e00000000000000000000",
    "0e4294967296",
    "0e-18446744073709551616",
    "0.0e99999999999999999999",
];

/// Digits to be taken as c, on both sides of its limit, with zeros inside and
/// without. None ends in a zero, so padding alone decides how many do.
pub(super) const SIGNIFICANDS: [&str; 9] = [
    "1",
    "8",
    "105",
    "99999999999999",
    "100000000000001",
    "999999999999998",
    "999999999999999",
    "1000000000000001",
    "9999999999999999",
];

/// Few zeros, about as many as c may have digits, and more.
const ZERO_COUNTS: [usize; 8] = [0, 1, 2, 14, 15, 16, 17, 40];

/// The digits times 10 to the p in many spellings: zeros behind them, and the
/// point after all, before the last, before the zeros, one digit earlier,
/// before all digits, and still earlier.
pub(super) fn padded_forms(digits: &str, p: i64) -> Vec<String> {
    let mut forms = BTreeSet::new();
    for zeros in ZERO_COUNTS {
        let count = digits.len() + zeros;
        for places in [0, 1, zeros, zeros + 1, count, count + 15] {
            forms.insert(padded(digits, p, zeros, places));
        }
    }
    forms.into_iter().collect()
}

/// The digits times 10 to the p, written with so many zeros behind them and
/// the point before the last `places` of all.
pub(super) fn padded(digits: &str, p: i64, zeros: usize, places: usize) -> String {
    let digits = format!("{digits}{}", "0".repeat(zeros));
    let digits = format!("{digits:0>width$}", width = places + 1);
    let (whole, fraction) = digits.split_at(digits.len() - places);
    let point = if places > 0 { "." } else { "" };
    let exponent = written_exponent(p - zeros as i64 + places as i64);
    format!("{whole}{point}{fraction}{exponent}")
}

/// Both letters and a plus sign have their turn.
fn written_exponent(exponent: i64) -> String {
    match exponent {
        0 => String::new(),
        even if even % 2 == 0 => format!("e{even}"),
        odd => format!("E{odd:+}"),
    }
}

#[cfg(test)]
mod tests {
    use super::*;
    use crate::json::{read_number, Number};

    fn value(text: &str) -> Option<Number> {
        let token = read_number(text.as_bytes(), 0).unwrap();
        assert_eq!(token.end, text.len(), "{text}");
        token.value()
    }

    #[test]
    fn zeros_and_the_point_stand_where_they_are_wanted() {
        assert_eq!(padded("105", 0, 0, 0), "105");
        assert_eq!(padded("105", 2, 3, 0), "105000E-1");
        assert_eq!(padded("105", 0, 2, 2), "105.00");
        assert_eq!(padded("105", -4, 2, 3), "10.500E-3");
        assert_eq!(padded("105", -15, 1, 6), "0.001050e-10");
        assert_eq!(padded("8", 1, 0, 0), "8E+1");
        assert_eq!(padded("8", 0, 16, 16), "8.0000000000000000");
    }

    #[test]
    fn all_forms_have_one_value() {
        for digits in SIGNIFICANDS {
            for p in -17..=17 {
                let fits = digits.len() <= 15 && (-15..=15).contains(&p);
                let number = Number { minus: false, c: digits.parse().unwrap(), p: p as i32 };
                let forms = padded_forms(digits, p);
                assert!(forms.len() > 30);
                for form in forms {
                    assert_eq!(value(&form), fits.then_some(number), "{form}");
                }
            }
        }
        let zero = Number { minus: false, c: 0, p: 0 };
        for form in ZEROS {
            assert_eq!(value(form), Some(zero), "{form}");
            assert_eq!(value(&format!("-{form}")), Some(zero), "-{form}");
        }
    }
}
