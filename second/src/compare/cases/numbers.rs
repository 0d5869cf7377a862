//! Numbers: the grammar, the limits, integers, signs, equality by value, and
//! all of these with zeros that the value doesn't need.

use super::{joined, replaced, Cases, ODD_BYTES};
use crate::compare::case::{EQUAL_NUMBERS, INTEGER, LONGEST, NUMBER, SIGN};
use crate::compare::padded::{padded, padded_forms, SIGNIFICANDS, ZEROS};
use crate::compare::random::Random;

pub(super) fn add(cases: &mut Cases) {
    add_short_strings(cases);
    add_each_byte_after_each_front(cases);
    add_samples(cases);
    add_limits(cases);
    add_padded(cases);
    add_mostly_zeros(cases);
    add_wrapping_numbers(cases);
    add_integers(cases);
    add_equality(cases);
    add_padded_equality(cases);
    add_random_equality(cases);
    add_long_runs(cases);
    add_longest_runs(cases);
}

impl Cases {
    /// One number by each of the three readings.
    fn number(&mut self, text: &str) {
        self.one(NUMBER, 0, text.as_bytes());
        self.one(INTEGER, 0, text.as_bytes());
        self.one_placed(SIGN, text.as_bytes());
    }

    fn equal_numbers(&mut self, a: &str, b: &str) {
        self.push(EQUAL_NUMBERS, 0, 0, a.as_bytes(), b.as_bytes());
    }
}

/// Every short string of the bytes that numbers are made of.
fn add_short_strings(cases: &mut Cases) {
    let alphabet = b"-+019.eE ";
    let mut strings: Vec<Vec<u8>> = vec![Vec::new()];
    for length in 1..=4 {
        strings = strings
            .iter()
            .flat_map(|front| alphabet.iter().map(|byte| joined(&[front, &[*byte]])))
            .collect();
        for string in &strings {
            cases.one(NUMBER, 0, string);
            if length <= 3 {
                cases.one(INTEGER, 0, string);
                cases.one(SIGN, 0, string);
            }
        }
    }
}

fn add_each_byte_after_each_front(cases: &mut Cases) {
    let fronts =
        ["", "-", "0", "-0", "1", "-9", "10", "1.", "1.5", "1e", "1E+", "1e-", "1e5", "1.5e05"];
    for front in fronts {
        cases.number(front);
        for byte in 0..=255 {
            cases.one_placed(NUMBER, &joined(&[front.as_bytes(), &[byte]]));
        }
    }
}

/// Each sample read from each place, cut at each length, with odd bytes.
fn add_samples(cases: &mut Cases) {
    let samples = [
        "-12.50E+3",
        "999999999999999",
        "0.000000000000001",
        "-0",
        "1e-15",
        "120e-1",
        "8.0000000000000000",
    ];
    for sample in samples {
        let sample = sample.as_bytes();
        for at in 0..=sample.len() + 2 {
            for op in [NUMBER, INTEGER, SIGN] {
                cases.one(op, at, sample);
            }
        }
        for length in 0..sample.len() {
            cases.one(NUMBER, 0, &sample[..length]);
            cases.one(INTEGER, 0, &sample[..length]);
            for byte in ODD_BYTES {
                cases.one(NUMBER, 0, &replaced(sample, length, byte));
                cases.one(INTEGER, 0, &replaced(sample, length, byte));
                cases.one(SIGN, 0, &replaced(sample, length, byte));
            }
        }
    }
}

/// c around its limit, p around both of its limits, both signs, and the same
/// number with its point at several places.
fn add_limits(cases: &mut Cases) {
    let significands = [
        "0",
        "1",
        "9",
        "10",
        "99999999999999",
        "100000000000000",
        "999999999999998",
        "999999999999999",
        "1000000000000000",
        "1000000000000001",
        "9999999999999999",
    ];
    for c in significands {
        for p in -17..=17 {
            for sign in ["", "-"] {
                cases.number(&format!("{sign}{c}e{p}"));
            }
            add_pointed(cases, c, p);
        }
    }
}

/// c times 10 to the p, written with a point before its last digits.
fn add_pointed(cases: &mut Cases, c: &str, p: i64) {
    for places in [1, 5, 15, 16] {
        let text = padded(c, p, 0, places);
        cases.one(NUMBER, 0, text.as_bytes());
        cases.one(INTEGER, 0, format!("-{text}").as_bytes());
    }
}

/// Values on both sides of each limit, each in many spellings.
fn add_padded(cases: &mut Cases) {
    for digits in SIGNIFICANDS {
        for p in [-17, -16, -15, -14, -2, -1, 0, 1, 2, 14, 15, 16, 17] {
            for form in padded_forms(digits, p) {
                let sign = cases.random.pick(&["", "-"]);
                cases.number(&format!("{sign}{form}"));
            }
        }
    }
    for zero in ZEROS {
        cases.number(zero);
        cases.number(&format!("-{zero}"));
    }
}

/// Digits of which few aren't zeros, with the point among them or before them.
fn add_mostly_zeros(cases: &mut Cases) {
    for _ in 0..1500 {
        let random = &mut cases.random;
        let more: String = (0..random.below(30)).map(|_| random.pick(&MOSTLY_ZEROS)).collect();
        let p = random.below(51) as i64 - 35;
        let form = padded(&format!("7{more}"), p, 0, random.below(40));
        let sign = random.pick(&["", "-"]);
        cases.number(&format!("{sign}{form}"));
    }
}

const MOSTLY_ZEROS: [char; 8] = ['0', '0', '0', '0', '0', '0', '0', '1'];

/// Numbers that come back as small ones when they wrap in 32, 64 or 128 bits.
fn add_wrapping_numbers(cases: &mut Cases) {
    let powers = [
        "2147483647",
        "2147483648",
        "4294967295",
        "4294967296",
        "4294967297",
        "9007199254740993",
        "9223372036854775807",
        "9223372036854775808",
        "18446744073709551615",
        "18446744073709551616",
        "18446744073709551617",
        "36893488147419103233",
        "184467440737095516161",
        "340282366920938463463374607431768211456",
        "340282366920938463463374607431768211457",
    ];
    for power in powers {
        cases.number(power);
        cases.number(&format!("-{power}"));
        for form in [format!("0.{power}"), format!("{power}.0"), format!("{power}e-1")] {
            cases.number(&form);
        }
        for digit in ["0", "1", "-1"] {
            for sign in ["", "+", "-", "-0", "000"] {
                cases.number(&format!("{digit}e{sign}{power}"));
            }
        }
    }
}

/// Whole and not whole by one digit, for each count of digits dropped.
fn add_integers(cases: &mut Cases) {
    for dropped in 0..=16u32 {
        let size = 10u64.pow(dropped);
        for c in [size, size + 1, 10 * size, 7 * size, size / 2, size - 1] {
            cases.number(&format!("{c}e-{dropped}"));
            cases.number(&format!("-{c}E-0{dropped}"));
        }
        let zeros = "0".repeat(dropped as usize);
        cases.number(&format!("3.{zeros}"));
        cases.number(&format!("3.{zeros}0"));
        cases.number(&format!("-3.{zeros}1"));
        cases.number(&format!("0.{zeros}1e{}", dropped + 1));
        cases.number(&format!("0.{zeros}1e{dropped}"));
        cases.number(&format!("-0.{zeros}5e15"));
    }
    for digits in 13..=17usize {
        for power in 0..=3 {
            cases.number(&format!("{}e{power}", "9".repeat(digits)));
            cases.number(&format!("-1{}e{power}", "0".repeat(digits - 1)));
        }
    }
}

/// Every pair of a list in which many are equal by value.
fn add_equality(cases: &mut Cases) {
    let numbers = [
        "0",
        "-0",
        "0.0",
        "0e15",
        "-0e-15",
        "0e16",
        "0e99",
        "1",
        "1.0",
        "1.000000000000000",
        "10e-1",
        "0.1e1",
        "1000000000000000e-15",
        "100000000000000e-14",
        "-1",
        "-1.0",
        "-10e-1",
        "1e1",
        "10",
        "10.0",
        "1e15",
        "10e14",
        "100e13",
        "1e16",
        "10e15",
        "0.1e16",
        "1000000000000000",
        "10000000000000000",
        "1000000000000001",
        "999999999999999",
        "99999999999999.9e1",
        "999999999999998",
        "999999999999999e15",
        "999999999999999e14",
        "1e-15",
        "10e-15",
        "1e-14",
        "0.000000000000001",
        "0.0000000000000010",
        "0.00000000000000010",
        "1e-16",
        "",
        "-",
        "1.",
        "1e",
        "x",
        "01",
        "1 ",
        "10,",
        "123456789012345e15",
        "123456789012345e-15",
        "0.123456789012345",
        "8e0",
        "0.8e1",
        "80e-1",
        "8.0000000000000000",
    ];
    for a in numbers {
        for b in numbers {
            cases.equal_numbers(a, b);
        }
    }
    for at in 0..8 {
        cases.push(EQUAL_NUMBERS, at, 2, b"1.501.50", b"  501,");
        cases.push(EQUAL_NUMBERS, 2, at, b"  501,", b"1.501.50");
    }
}

/// Each value in two spellings, and beside others of which only the last digit
/// or the power differs.
fn add_padded_equality(cases: &mut Cases) {
    for digits in SIGNIFICANDS {
        let near = with_other_last_digit(digits);
        for p in [-16, -15, -14, -1, 0, 1, 13, 14, 15, 16] {
            let forms = padded_forms(digits, p);
            for others in [&forms, &padded_forms(&near, p), &padded_forms(digits, p + 1)] {
                add_beside_some(cases, &forms, others);
            }
        }
    }
    for a in ZEROS {
        for b in ZEROS {
            let (sign, other_sign) = random_signs(&mut cases.random);
            cases.equal_numbers(&format!("{sign}{a}"), &format!("{other_sign}{b}"));
        }
        cases.equal_numbers(a, "1e-15");
        cases.equal_numbers("-1e-15", a);
    }
}

/// No zero takes the place of the last digit.
fn with_other_last_digit(digits: &str) -> String {
    let (front, last) = digits.split_at(digits.len() - 1);
    format!("{front}{}", if last == "9" { "8" } else { "9" })
}

/// Each of the forms beside one of the others, mostly with the same sign.
fn add_beside_some(cases: &mut Cases, forms: &[String], others: &[String]) {
    for form in forms {
        let other = &others[cases.random.below(others.len())];
        let (sign, other_sign) = random_signs(&mut cases.random);
        cases.equal_numbers(&format!("{sign}{form}"), &format!("{other_sign}{other}"));
    }
}

/// Two signs that are mostly the same.
fn random_signs(random: &mut Random) -> (&'static str, &'static str) {
    let sign = random.pick(&["", "-"]);
    let other_sign = if random.below(8) == 0 { "-" } else { sign };
    (sign, other_sign)
}

/// A number and the same value written with more zeros, or nearly the same.
fn add_random_equality(cases: &mut Cases) {
    for _ in 0..1500 {
        let c = cases.random.below(100_000);
        let p = cases.random.below(31) as i32 - 15;
        let more = cases.random.below(25);
        let near = c + cases.random.below(3) / 2;
        let zeros = "0".repeat(more);
        let (sign, other_sign) = random_signs(&mut cases.random);
        let a = format!("{sign}{c}e{p}");
        cases.equal_numbers(&a, &format!("{other_sign}{near}{zeros}e{}", p - more as i32));
        cases.equal_numbers(&format!("{other_sign}{near}.{zeros}0E{p}"), &a);
    }
}

/// Runs of 100,000 digits, with exponents that bring them back or do not.
fn add_long_runs(cases: &mut Cases) {
    let zeros = "0".repeat(100_000);
    let nines = "9".repeat(100_000);
    for exponent in [99_985, 99_986, 100_000, 100_001, 100_016, 100_017] {
        cases.one(NUMBER, 0, format!("0.{zeros}1e{exponent}").as_bytes());
        cases.one(INTEGER, 0, format!("-0.{zeros}7E+000{exponent}").as_bytes());
        cases.one(SIGN, 0, format!("-0.{zeros}e{exponent}").as_bytes());
    }
    let texts = [
        format!("1{zeros}"),
        format!("1{zeros}e-100000"),
        format!("1{zeros}e-99985"),
        format!("-1{zeros}e-99984"),
        format!("1{zeros}e-100015"),
        format!("1{zeros}e-100016"),
        format!("999999999999999{zeros}.{zeros}E-100000"),
        format!("9999999999999999{zeros}.{zeros}E-100001"),
        format!("1{zeros}1e-100000"),
        format!("-8.{zeros}"),
        format!("8.{zeros}1"),
        nines.clone(),
        format!("0.{nines}"),
        format!("1e{zeros}15"),
        format!("1e-{zeros}16"),
        format!("1e+{zeros}"),
        format!("1e{nines}"),
        format!("1e-{nines}"),
        format!("0e{nines}"),
        format!("-0.{zeros}E-{nines}"),
        format!("0.{zeros}e"),
        format!("0.{zeros}e+x"),
        format!("0{zeros}"),
    ];
    for text in texts {
        cases.one(NUMBER, 0, text.as_bytes());
        cases.one(INTEGER, 0, text.as_bytes());
    }
    cases.equal_numbers(&format!("0.{zeros}25e100002"), "25");
    cases.equal_numbers("-25", &format!("-0.{zeros}250e100002"));
    cases.equal_numbers(&format!("25e{zeros}"), "26");
}

/// Runs as long as a slice can be.
fn add_longest_runs(cases: &mut Cases) {
    let count = LONGEST - 12;
    let zeros = "0".repeat(count);
    let texts = [
        format!("0.{zeros}3e{}", count + 1),
        format!("0.{zeros}3e{}", count + 17),
        format!("1{zeros}"),
        format!("-3e{zeros}12"),
        format!("3e-1{zeros}"),
        format!("8.{zeros}"),
        format!("-1{zeros}e-{}", count - 15),
        format!("1{zeros}e-{}", count - 16),
        format!("1.{zeros}1"),
    ];
    for text in texts {
        cases.one(NUMBER, 0, text.as_bytes());
    }
    cases.one(INTEGER, 0, format!("7{zeros}e-{count}").as_bytes());
    cases.one(INTEGER, 0, format!("7{zeros}e-{}", count + 1).as_bytes());
    cases.one(SIGN, 0, format!("-0.{zeros}e99").as_bytes());
    cases.one(SIGN, 0, format!("-0e{}", "9".repeat(count)).as_bytes());
    cases.equal_numbers(&format!("8.{zeros}"), "8");
    cases.equal_numbers("9", &format!("8.{zeros}"));
    cases.equal_numbers(&format!("25{zeros}e-{count}"), &format!("25.{zeros}"));
}
