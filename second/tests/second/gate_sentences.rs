//! The sentences of the baseline profile and of the contract side, as they were
//! agreed on; and the comparison of the texts of all three gates.

use std::collections::BTreeMap;
use std::process::{Command, Output};
use std::sync::OnceLock;

use crate::agreed::agreed;
use second::board::Mark;
use second::compare::gates::Which;
use second::compare::run::Question;
use second::compare::sentences::gates::case::GateTextCase;
use second::compare::sentences::gates::cases::all_cases;
use second::gates::calls::judge;
use second::gates::layout::look_up;
use second::gates::reason::reason;
use second::reason::{Reason, Shown};

const SEED: u64 = 5;

fn cases() -> &'static [GateTextCase] {
    static CASES: OnceLock<Vec<GateTextCase>> = OnceLock::new();
    CASES.get_or_init(|| all_cases(SEED))
}

struct Agreed {
    profile: BTreeMap<usize, &'static str>,
    contract: BTreeMap<usize, &'static str>,
    kinds: BTreeMap<usize, &'static str>,
}

fn agreed_here() -> Agreed {
    let text = include_str!("gate_sentences.txt");
    let (profile, rest) = text.strip_prefix("profile\n").unwrap().split_once("contract\n").unwrap();
    let (contract, kinds) = rest.split_once("kinds\n").unwrap();
    let split = |line: &'static str| line.split_once(' ').unwrap();
    let lines = |part: &'static str| -> BTreeMap<usize, &'static str> {
        part.lines().map(split).map(|(number, words)| (number.parse().unwrap(), words)).collect()
    };
    Agreed { profile: lines(profile), contract: lines(contract), kinds: lines(kinds) }
}

fn filled(words: &str, slots: &[(char, String)]) -> String {
    let fill = |character: char| match slots.iter().find(|(slot, _)| *slot == character) {
        Some((_, words)) => words.clone(),
        None => character.to_string(),
    };
    words.chars().map(fill).collect()
}

/// As many whole characters as fit into 80 bytes, by looking back from there.
fn cut(value: &[u8]) -> String {
    let text = String::from_utf8(value.to_vec()).unwrap();
    match text.len() {
        0 => "null".to_string(),
        1..=80 => text,
        _ => {
            let end = (0..=80).rev().find(|end| text.is_char_boundary(*end)).unwrap();
            format!("{}...", &text[..end])
        }
    }
}

fn rule_words(which: Which, bundle: &[u8], words: &str, shown: Shown, searched: usize) -> String {
    let gate = which.gate();
    let companion = match shown.companion {
        0 => "none".to_string(),
        record => format!("record {record}"),
    };
    let slots = [
        ('@', gate.file_names[shown.file].to_string()),
        ('#', shown.record.to_string()),
        ('$', (gate.fields)(shown.file)[shown.field].name.to_string()),
        ('%', cut(&bundle[shown.start..shown.start + shown.length])),
        ('&', companion),
        ('^', gate.file_names[searched].to_string()),
    ];
    filled(words, &slots)
}

fn place_words(name: &str, contents: &[u8], words: &str, own: Mark) -> String {
    let before = &contents[..own.place as usize];
    let line = 1 + before.iter().filter(|byte| **byte == b'\n').count();
    let start = before.iter().rposition(|byte| *byte == b'\n').map_or(0, |at| at + 1);
    let wide = before[start..].iter().filter(|byte| (0x80..0xC0).contains(*byte)).count();
    let column = 1 + before.len() - start - wide;
    let slots = [
        ('!', name.to_string()),
        ('~', format!("line {line}, column {column}")),
        ('#', own.companion.to_string()),
    ];
    filled(words, &slots)
}

/// The line of a mark that doesn't hold, from the agreed sentences alone; nothing
/// where they are the schedule gate's.
fn line(which: Which, bundle: &[u8], mark: usize, judged: Mark) -> Option<String> {
    let (gate, here, there) = (which.gate(), agreed_here(), agreed());
    let numbers = format!("{mark} {} {} {}", judged.kind, judged.place, judged.companion);
    let name = |file: usize| format!("{}.json", gate.file_names[file]);
    let words = match (which, reason(gate, bundle, mark)) {
        (Which::Baseline, Reason::Broken(shown)) if mark > 80 => {
            rule_words(which, bundle, here.profile[&mark], shown, 0)
        }
        (Which::Baseline, _) => return None,
        (_, Reason::Broken(shown)) => rule_words(which, bundle, here.contract[&mark], shown, 0),
        (_, Reason::Missing { shown, searched }) => {
            rule_words(which, bundle, here.contract[&mark], shown, searched)
        }
        (_, Reason::NotJudged { file }) => filled(there.others["not-judged"], &[('!', name(file))]),
        (_, Reason::OwnMark(own)) => {
            let words = here.kinds.get(&(own.kind as usize)).copied();
            let words = words.unwrap_or_else(|| there.kinds[&own.kind]);
            place_words(&name(mark), look_up(gate, bundle, mark).1, words, own)
        }
        (_, Reason::Holds | Reason::Refused(_)) => panic!("mark {mark} holds"),
    };
    Some(format!("{numbers} {words}"))
}

#[test]
fn the_texts_are_made_of_the_agreed_sentences() {
    let mut checked = 0;
    for case in cases().iter().filter(|case| !case.text.grouped) {
        let Some(which) = case.which else { continue };
        let bundle = &case.text.bundle;
        let text = String::from_utf8(case.answer()).unwrap();
        let judged = judge(which.gate(), bundle);
        if judged.refusal > 0 {
            assert_eq!(text, format!("bundle {}\n", judged.refusal));
            continue;
        }
        let lines: Vec<&str> = text.lines().collect();
        assert_eq!(lines[0], format!("marks {}", judged.marks.len()));
        let faults: Vec<(usize, Mark)> =
            judged.marks.into_iter().enumerate().filter(|(_, mark)| mark.kind > 0).collect();
        let last = match faults.len() {
            0 => "accepted".to_string(),
            count => format!("refused {count}"),
        };
        assert_eq!(lines.last(), Some(&last.as_str()));
        assert_eq!(lines.len(), faults.len() + 2);
        for ((mark, judged), told) in faults.into_iter().zip(&lines[1..]) {
            if let Some(expected) = line(which, bundle, mark, judged) {
                assert_eq!(*told, expected);
                checked += 1;
            }
        }
    }
    assert!(checked > 3_000, "{checked}");
}

/// One file that keeps marks from being judged has one line for all of them.
#[test]
fn a_folder_has_one_line_for_a_file() {
    use second::compare::gates::files::Files;
    use second::gates::print::reasons;
    let set = Files::empty(Which::Contract).with(1, b"[").with(0, b"1");
    let text = reasons(Which::Contract.gate(), &set.bundle(), true);
    let lines: Vec<&str> = text.lines().collect();
    assert_eq!(
        lines,
        [
            "marks 19",
            "0 12 0 0 Subcontractors.json line 1, column 1: the value that starts here does not \
            belong here. Each file of this set is an array of objects.",
            "1 11 1 0 WBS.json line 1, column 2: no JSON text goes on like this. Look for a comma, \
            quote or bracket too many or too few, a comment, a byte order mark, or a file that was \
            cut off.",
            "Subcontractors.json does not hold, so that 2 marks which read it were not judged. \
            Mend that file first.",
            "WBS.json does not hold, so that 6 marks which read it were not judged. Mend that file \
            first.",
            "refused 10",
        ]
    );
}

fn compare(arguments: &[&str]) -> Output {
    let program = env!("CARGO_BIN_EXE_compare_reasons");
    Command::new(program).arg("--gates").args(arguments).output().unwrap()
}

fn last_line(output: &Output) -> String {
    let text = String::from_utf8(output.stdout.clone()).unwrap();
    text.lines().last().unwrap_or("").to_string()
}

#[test]
fn it_passes_beside_itself() {
    let program = env!("CARGO_BIN_EXE_compare_reasons");
    let output = compare(&["--seed", "3", program, "--gates", "--serve"]);
    assert!(output.status.success(), "{}", String::from_utf8_lossy(&output.stdout));
    assert!(last_line(&output).ends_with(" passed, 0 failed"));
    // A program that knows the shorter cases alone.
    let output = compare(&[program, "--serve"]);
    assert_eq!(output.status.code(), Some(1));
}

/// Two numbers and the bundle; an answer is a length and the text.
#[test]
fn a_case_comes_back_from_its_bytes() {
    for case in cases().iter().step_by(29) {
        let mut bytes = Vec::new();
        case.write(&mut bytes).unwrap();
        let gate = case.which.map_or(0, Which::number);
        let form = 2 * gate + u32::from(case.text.grouped);
        assert_eq!(bytes[4..8], form.to_le_bytes());
        assert_eq!(bytes[8..], case.text.bundle[..]);
        assert_eq!(GateTextCase::read(&mut &bytes[..]).unwrap().as_ref(), Some(case));
    }
    let unsound = [[0_u32, 6], [0, 7], [1_048_578, 0]];
    for header in unsound {
        let mut bytes: Vec<u8> = header.iter().flat_map(|word| word.to_le_bytes()).collect();
        bytes.resize(2_000_000, 0);
        assert!(GateTextCase::read(&mut &bytes[..]).is_err());
    }
}
