//! The comparison of texts: right programs pass, and programs that are wrong in
//! one respect are caught.

use std::process::{Command, Output};
use std::sync::OnceLock;

use crate::agreed::{place, value, Judged, Manner, RIGHT};
use second::compare::gate::case::LONGEST;
use second::compare::run::Question;
use second::compare::sentences::case::TextCase;
use second::compare::sentences::cases::all_cases;
use second::print::LARGEST_INPUT;

const SEED: u64 = 9;

/// Made once for all tests.
fn cases() -> &'static [TextCase] {
    static CASES: OnceLock<Vec<TextCase>> = OnceLock::new();
    CASES.get_or_init(|| all_cases(SEED))
}

/// The small ones, which are most of them, with their right texts.
fn small() -> &'static [(Judged, String)] {
    static SMALL: OnceLock<Vec<(Judged, String)>> = OnceLock::new();
    SMALL.get_or_init(|| {
        let small = cases().iter().filter(|case| case.bundle.len() < 20_000);
        let judged = |case: &TextCase| {
            let right = String::from_utf8(case.answer()).unwrap();
            (Judged::new(case.bundle.to_vec(), case.grouped), right)
        };
        small.map(judged).collect()
    })
}

/// How many texts such a program gets wrong.
fn caught(manner: Manner) -> usize {
    small().iter().filter(|(judged, right)| judged.text(&manner) != *right).count()
}

#[track_caller]
fn is_caught(least: usize, manner: Manner) {
    let wrong = caught(manner);
    assert!(wrong >= least, "{wrong}");
}

#[test]
fn the_cases_are_a_few_thousand_and_small_enough() {
    assert!((3_000..8_000).contains(&cases().len()), "{}", cases().len());
    assert!(small().len() > 3_000);
    let bytes: usize = cases().iter().map(|case| case.bundle.len() + case.answer().len()).sum();
    assert!(bytes < 40_000_000, "{bytes}");
    assert!(cases().iter().all(|case| case.bundle.len() <= LONGEST));
    // A plain text is asked for no bundle that the program `reasons` refuses.
    let is_taken = |case: &TextCase| case.grouped || case.bundle.len() <= LARGEST_INPUT;
    assert!(cases().iter().all(is_taken));
}

#[test]
fn one_seed_gives_the_same_cases() {
    assert!(all_cases(SEED) == cases());
    assert!(all_cases(SEED + 1) != cases());
}

#[test]
fn the_right_text_passes() {
    assert_eq!(caught(RIGHT), 0);
}

// ----------------------------------------------------------------- values

/// The first bytes of a value, with dots behind if it has more; a character cut
/// in two is a sign of its own.
fn first_bytes(value: &[u8], most: usize) -> String {
    match value.len() > most {
        true => String::from_utf8_lossy(&value[..most]).to_string() + "...",
        false => String::from_utf8(value.to_vec()).unwrap(),
    }
}

/// The same by characters.
fn first_characters(value: &[u8], most: usize) -> String {
    let text = String::from_utf8(value.to_vec()).unwrap();
    match text.chars().count() > most {
        true => text.chars().take(most).collect::<String>() + "...",
        false => text,
    }
}

/// What is done to a value that is cut, without its dots.
fn with_cut(value_of: &[u8], end: impl Fn(&str) -> String) -> String {
    let right = value(value_of);
    match value_of.len() > 80 {
        true => end(right.strip_suffix("...").unwrap()),
        false => right,
    }
}

#[test]
fn a_value_that_is_not_cut_right_is_caught() {
    let with = |value: fn(&[u8]) -> String| Manner { value, ..RIGHT };
    // Never, at another length, and only one that is longer by two.
    is_caught(200, with(|bytes| first_bytes(bytes, usize::MAX)));
    is_caught(200, with(|bytes| first_bytes(bytes, 79)));
    is_caught(200, with(|bytes| first_bytes(bytes, 81)));
    is_caught(
        50,
        with(|bytes| if bytes.len() == 80 { first_bytes(bytes, 79) } else { value(bytes) }),
    );
    is_caught(
        50,
        with(|bytes| if bytes.len() == 81 { first_bytes(bytes, 81) } else { value(bytes) }),
    );
    // In the middle of a character; by characters; one of them too few.
    is_caught(50, with(|bytes| first_bytes(bytes, 80)));
    is_caught(50, with(|bytes| first_characters(bytes, 80)));
    is_caught(
        200,
        with(|bytes| {
            with_cut(bytes, |kept| {
                let (last, _) = kept.char_indices().last().unwrap();
                format!("{}...", &kept[..last])
            })
        }),
    );
    // Without the dots, with the quote closed, without quotes.
    is_caught(200, with(|bytes| with_cut(bytes, str::to_string)));
    is_caught(200, with(|bytes| with_cut(bytes, |kept| format!("{kept}...\""))));
    is_caught(1_000, with(|bytes| value(bytes).trim_matches('"').to_string()));
    // Decoded, where it is shown as it is written.
    is_caught(100, with(|bytes| value(bytes).replace("\\u0041", "A")));
    is_caught(50, Manner { null: "", ..RIGHT });
    is_caught(50, Manner { null: "\"\"", ..RIGHT });
}

// ----------------------------------------------------------------- places

#[test]
fn a_wrong_line_or_column_is_caught() {
    let with = |place: fn(&[u8], usize) -> (usize, usize)| Manner { place, ..RIGHT };
    is_caught(1_000, with(|bytes, at| (place(bytes, at).0 - 1, place(bytes, at).1)));
    is_caught(1_000, with(|bytes, at| (place(bytes, at).0, place(bytes, at).1 - 1)));
    // The column in bytes, in units of UTF-16, from the start of the file.
    is_caught(
        200,
        with(|bytes, at| {
            let start =
                bytes[..at].iter().rposition(|byte| *byte == b'\n').map_or(0, |feed| feed + 1);
            (place(bytes, at).0, at - start + 1)
        }),
    );
    is_caught(
        50,
        with(|bytes, at| {
            let start =
                bytes[..at].iter().rposition(|byte| *byte == b'\n').map_or(0, |feed| feed + 1);
            let units =
                String::from_utf8(bytes[start..at].to_vec()).unwrap().encode_utf16().count();
            (place(bytes, at).0, units + 1)
        }),
    );
    is_caught(
        200,
        with(|bytes, at| {
            let whole = String::from_utf8(bytes[..at].to_vec()).unwrap().chars().count();
            (place(bytes, at).0, whole + 1)
        }),
    );
    // A carriage return that ends a line by itself, or is no character.
    is_caught(
        50,
        with(|bytes, at| {
            let text: Vec<u8> =
                bytes[..at].iter().map(|byte| if *byte == b'\r' { b'\n' } else { *byte }).collect();
            place(&text, at)
        }),
    );
    is_caught(
        20,
        with(|bytes, at| {
            let text: Vec<u8> = bytes[..at].iter().copied().filter(|byte| *byte != b'\r').collect();
            place(&text, text.len())
        }),
    );
    // A line feed that belongs to the next line.
    is_caught(
        100,
        with(|bytes, at| match bytes[..at].last() {
            Some(b'\n') => (place(bytes, at - 1).0, place(bytes, at - 1).1 + 1),
            _ => place(bytes, at),
        }),
    );
}

// ------------------------------------------------------------- the others

#[test]
fn a_wrong_companion_is_caught() {
    is_caught(50, Manner { companion: |record| format!("record {record}"), ..RIGHT });
    is_caught(200, Manner { companion: |_| "none".to_string(), ..RIGHT });
    is_caught(200, Manner { companion: |record| format!("record {}", record + 1), ..RIGHT });
}

#[test]
fn a_wrong_file_for_a_mark_that_is_not_judged_is_caught() {
    is_caught(100, Manner { kept_by: |files| *files.iter().max().unwrap(), ..RIGHT });
    is_caught(100, Manner { kept_by: |files| files[0], ..RIGHT });
    is_caught(100, Manner { kept_by: |files| *files.last().unwrap(), ..RIGHT });
}

#[test]
fn lines_for_a_file_that_are_wrong_are_caught() {
    is_caught(50, Manner { sentence_of_count: |_| "many-kept", ..RIGHT });
    is_caught(200, Manner { sentence_of_count: |_| "one-kept", ..RIGHT });
    is_caught(100, Manner { kept_in_front: true, ..RIGHT });
    // The last line counts marks.
    is_caught(500, Manner { refused: |_, lines| lines, ..RIGHT });
    is_caught(3_000, Manner { refused: |marks, _| marks + 1, ..RIGHT });
}

// ------------------------------------------------------------ the program

fn compare(arguments: &[&str]) -> Output {
    Command::new(env!("CARGO_BIN_EXE_compare_reasons")).args(arguments).output().unwrap()
}

fn last_line(output: &Output) -> String {
    String::from_utf8(output.stdout.clone()).unwrap().lines().last().unwrap_or("").to_string()
}

#[test]
fn this_program_agrees_with_itself() {
    let seed = SEED.to_string();
    let itself = compare(&["--seed", &seed, "--self"]);
    let wanted = TextCase::wanted().len();
    assert_eq!(last_line(&itself), format!("{} passed, 0 failed", cases().len() + wanted));
    assert!(itself.status.success());
    let served = compare(&["--seed", &seed, env!("CARGO_BIN_EXE_compare_reasons"), "--serve"]);
    assert_eq!(last_line(&served), last_line(&itself));
}

#[test]
fn a_program_that_answers_nothing_fails() {
    let silent = compare(&["true"]);
    assert!(last_line(&silent).starts_with("0 passed, "), "{}", last_line(&silent));
    assert!(!silent.status.success());
    // An answer to another question.
    let other = compare(&[env!("CARGO_BIN_EXE_compare_gate"), "--serve"]);
    assert!(!other.status.success());
}

#[test]
fn the_text_is_printed_in_both_forms() {
    let program = env!("CARGO_BIN_EXE_second_reasons");
    let run = |arguments: &[&str], bundle: &[u8]| -> (String, bool) {
        let path = std::env::temp_dir().join(format!("second_reasons_{}", std::process::id()));
        std::fs::write(&path, bundle).unwrap();
        let input = std::fs::File::open(&path).unwrap();
        let output = Command::new(program).args(arguments).stdin(input).output().unwrap();
        std::fs::remove_file(&path).unwrap();
        (String::from_utf8(output.stdout).unwrap(), output.status.success())
    };
    let case = |grouped: bool| {
        let is_such = |case: &&TextCase| case.grouped == grouped && case.answer().len() > 3_000;
        cases().iter().find(is_such).unwrap()
    };
    for (grouped, arguments) in [(false, &[][..]), (true, &["--grouped"])] {
        let case = case(grouped);
        let expected = String::from_utf8(case.answer()).unwrap();
        assert_eq!(run(arguments, &case.bundle), (expected, true));
    }
    assert_eq!(run(&[], &[0; 65_537]), ("bundle 1\n".to_string(), true));
    assert_eq!(run(&["--grouped"], &vec![0; 1_048_577]), ("bundle 1\n".to_string(), true));
    assert_eq!(run(&["--group"], b""), (String::new(), false));
}
