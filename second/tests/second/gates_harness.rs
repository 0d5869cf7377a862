//! The comparison of the two gates: right programs pass, others are caught.

use std::process::{Command, Output};
use std::sync::OnceLock;

use second::board::Mark;
use second::compare::gates::answer::Answer;
use second::compare::gates::case::{Call, GatesCase};
use second::compare::gates::cases::all_cases;
use second::compare::gates::Which;
use second::compare::run::Question;
use second::gates::calls::judge;
use second::gates::{Broken, Gate};
use second::table::Record;

const SEED: u64 = 9;

fn cases() -> &'static [GatesCase] {
    static CASES: OnceLock<Vec<GatesCase>> = OnceLock::new();
    CASES.get_or_init(|| all_cases(SEED))
}

fn compare(arguments: &[&str]) -> Output {
    let program = env!("CARGO_BIN_EXE_compare_gates");
    Command::new(program).args(arguments).output().unwrap()
}

fn last_line(output: &Output) -> String {
    let text = String::from_utf8(output.stdout.clone()).unwrap();
    text.lines().last().unwrap_or("").to_string()
}

#[test]
fn one_seed_gives_the_same_cases() {
    assert!(cases() == all_cases(SEED));
    assert!(cases() != all_cases(SEED + 1));
    let bytes: usize = cases().iter().map(GatesCase::sent_length).sum();
    assert!(bytes < 250_000_000, "{bytes}");
}

#[test]
fn a_case_comes_back_from_its_bytes() {
    for case in cases().iter().step_by(37) {
        let mut bytes = Vec::new();
        case.write(&mut bytes).unwrap();
        assert_eq!(bytes.len(), case.sent_length());
        assert_eq!(GatesCase::read(&mut &bytes[..]).unwrap().as_ref(), Some(case));
        assert!(GatesCase::read(&mut &bytes[..bytes.len() - 1]).is_err());
        let mut answered = Vec::new();
        GatesCase::write_answer(&case.answer(), &mut answered).unwrap();
        assert_eq!(case.read_answer(&mut &answered[..]), Some(case.answer()));
        assert_eq!(case.read_answer(&mut &answered[..answered.len() - 1]), None);
    }
}

/// As the agreed form has it: the gate, the op, lengths and numbers.
#[test]
fn a_case_begins_with_eight_numbers() {
    let is_sought = |case: &&GatesCase| {
        case.which == Which::Contract
            && matches!(&case.call, Call::Make(change, _) if change.new.is_some())
    };
    let case = cases().iter().find(is_sought).unwrap();
    let Call::Make(change, output) = &case.call else { unreachable!() };
    let mut bytes = Vec::new();
    case.write(&mut bytes).unwrap();
    let words: Vec<u32> =
        bytes[..32].chunks_exact(4).map(|w| u32::from_le_bytes(w.try_into().unwrap())).collect();
    let new = change.new.as_ref().unwrap().len();
    let length = case.bundle.len() as u32;
    assert_eq!(words, [2, 2, length, change.file, 1, new as u32, output.length, output.seed]);
    assert_eq!(bytes.len(), 32 + case.bundle.len() + 12 * 19 + new);
}

/// With every wanted sight, as the run itself counts them.
#[test]
fn it_passes_beside_itself() {
    let program = env!("CARGO_BIN_EXE_compare_gates");
    for arguments in [&["--self"][..], &["--seed", "3", program, "--serve"]] {
        let output = compare(arguments);
        assert!(output.status.success(), "{}", String::from_utf8_lossy(&output.stdout));
        assert!(last_line(&output).ends_with(" passed, 0 failed"));
    }
    let output = compare(&["--only", "7", program, "--serve"]);
    assert_eq!(last_line(&output), "1 passed, 0 failed");
}

#[test]
fn programs_that_answer_too_little_fail() {
    for arguments in [&["true"][..], &["head", "-c", "1000"]] {
        let output = compare(arguments);
        assert_eq!(output.status.code(), Some(1));
        assert!(!last_line(&output).ends_with(" 0 failed"));
    }
}

/// Small cases with their right answers, all judgements among them, made once.
fn answered() -> &'static [(&'static GatesCase, Answer)] {
    static ANSWERED: OnceLock<Vec<(&'static GatesCase, Answer)>> = OnceLock::new();
    ANSWERED.get_or_init(|| {
        let small = cases().iter().filter(|case| case.sent_length() < 20_000).enumerate();
        let some = small.filter(|(at, case)| matches!(case.call, Call::Judge) || at % 3 == 0);
        some.map(|(_, case)| (case, case.answer())).collect()
    })
}

/// How many answers are other than right once they are spoilt in this way.
fn caught(spoil: impl Fn(&GatesCase, &mut Answer)) -> usize {
    let spoilt = |(case, right): &&(&GatesCase, Answer)| {
        let mut wrong = right.clone();
        spoil(case, &mut wrong);
        *right != wrong
    };
    answered().iter().filter(spoilt).count()
}

fn board(answer: &mut Answer) -> &mut [Mark] {
    match answer {
        Answer::Judged { board, .. } | Answer::Tried { board, .. } | Answer::Made { board, .. } => {
            board
        }
        Answer::Found(_) | Answer::Told(_) => &mut [],
    }
}

/// Each is a program that is wrong in one respect.
#[test]
fn wrong_programs_are_caught() {
    // A mark that always holds, or names no companion.
    for (which, rules) in [(Which::Baseline, 20..85), (Which::Contract, 4..19)] {
        for mark in rules {
            let blind = answered().iter().filter(|(case, right)| {
                let judged = case.which == which && case.change().is_none();
                judged && right.board().get(mark).is_some_and(|mark| mark.kind == 1)
            });
            assert!(blind.count() > 0, "{which:?} {mark}");
        }
    }
    for mark in [4, 5, 6, 7, 15, 16] {
        let alone = answered().iter().filter(|(case, right)| {
            case.which == Which::Contract
                && right.board().get(mark).is_some_and(|mark| mark.kind == 1 && mark.companion > 0)
        });
        assert!(alone.count() > 5, "{mark}");
    }
    // One that judges only the first of a change's marks, or hands all back.
    let idle = |case: &GatesCase, answer: &mut Answer| {
        if let Some(change) = case.change() {
            board(answer).copy_from_slice(&change.board);
        }
    };
    assert!(caught(idle) > 500);
    let own = |case: &GatesCase, answer: &mut Answer| {
        if let Some(change) = case.change() {
            let (own, board) = (change.file as usize, board(answer));
            for mark in (0..board.len()).filter(|mark| *mark != own) {
                board[mark] = change.board[mark];
            }
        }
    };
    assert!(caught(own) > 500);
    // One that leaves the length of a tried bundle out.
    assert!(
        caught(|_, answer| if let Answer::Tried { length, .. } = answer {
            *length = 0
        }) > 100
    );
}

/// How many judgements come out otherwise by rules of which some are wrong.
fn caught_by(which: Which, breaks: fn(usize, &[&[Record]]) -> Option<Broken>) -> usize {
    let wrong = Gate { breaks, ..*which.gate() };
    let judgements = answered()
        .iter()
        .filter(|(case, _)| case.which == which && matches!(case.call, Call::Judge));
    judgements.filter(|(case, right)| judge(&wrong, &case.bundle).marks != right.board()).count()
}

fn right(mark: usize, tables: &[&[Record]]) -> Option<Broken> {
    (Which::Contract.gate().breaks)(mark, tables)
}

fn level(record: &Record) -> i64 {
    record.integer("Level").unwrap()
}

fn first(count: usize, wrong: impl FnMut(&usize) -> bool) -> Option<Broken> {
    (0..count).find(wrong).map(|at| Broken { record: at + 1, companion: 0 })
}

/// The first broken parent by another rule for the parent.
fn wrong_parents(
    rows: &[Record],
    has_none: fn(&[Record], usize) -> bool,
    parent: fn(&[Record], usize) -> Option<usize>,
) -> Option<Broken> {
    (0..rows.len()).find_map(|at| {
        let given = rows[at].id("ParentID");
        let of = parent(rows, at);
        let is_right = match has_none(rows, at) {
            true => given.is_none(),
            false => of.is_some_and(|of| given == rows[of].id("ID")),
        };
        let companion = of.filter(|_| !has_none(rows, at)).map_or(0, |of| of + 1);
        (!is_right).then_some(Broken { record: at + 1, companion })
    })
}

fn nearest(rows: &[Record], at: usize) -> Option<usize> {
    (0..at).rev().find(|up| level(&rows[*up]) < level(&rows[at]))
}

/// Misreadings of order 9, each a program that is wrong in one rule.
#[test]
fn misread_rules_of_the_contract_side_are_caught() {
    let caught = |breaks| caught_by(Which::Contract, breaks);
    // Several records may have Level 1; levels may jump; the first may be any.
    let several = caught(|mark, tables| match mark {
        13 | 14 => first(tables[0].len(), |at| match at {
            0 => level(&tables[0][0]) != 1,
            _ => {
                let here = level(&tables[0][*at]);
                here < 1 || here > level(&tables[0][*at - 1]) + 1
            }
        }),
        _ => right(mark, tables),
    });
    assert!(several > 100, "{several}");
    // A record of Level 1 has no parent, wherever it stands.
    let by_level = caught(|mark, tables| match mark {
        15 | 16 => wrong_parents(tables[0], |rows, at| level(&rows[at]) == 1, nearest),
        _ => right(mark, tables),
    });
    assert!(by_level > 100, "{by_level}");
    // The parent is the nearest record that is one level up.
    let one_up = caught(|mark, tables| match mark {
        15 | 16 => wrong_parents(
            tables[0],
            |_, at| at == 0,
            |rows, at| (0..at).rev().find(|up| level(&rows[*up]) == level(&rows[at]) - 1),
        ),
        _ => right(mark, tables),
    });
    assert!(one_up > 100, "{one_up}");
    // The parent is the record above.
    let above = caught(|mark, tables| match mark {
        15 | 16 => wrong_parents(tables[0], |_, at| at == 0, |_, at| at.checked_sub(1)),
        _ => right(mark, tables),
    });
    assert!(above > 100, "{above}");
    // A child is one by its ParentID.
    let by_name = caught(|mark, tables| match mark {
        17 | 18 => {
            let field = if mark == 17 { "WBSElementID" } else { "OBSElementID" };
            Broken::first(tables[0], |account| {
                tables[1].iter().any(|element| element.id("ParentID") == account.id(field))
            })
        }
        _ => right(mark, tables),
    });
    assert!(by_name > 100, "{by_name}");
    // Only the first element of that ID counts.
    let first_match = caught(|mark, tables| match mark {
        17 | 18 => {
            let field = if mark == 17 { "WBSElementID" } else { "OBSElementID" };
            Broken::first(tables[0], |account| {
                let of = tables[1].iter().position(|element| element.id("ID") == account.id(field));
                of.is_some_and(|at| {
                    tables[1].get(at + 1).is_some_and(|next| level(next) > level(&tables[1][at]))
                })
            })
        }
        _ => right(mark, tables),
    });
    assert!(first_match > 20, "{first_match}");
    // A leaf rule is broken where nothing matches.
    let unmatched = caught(|mark, tables| match mark {
        17 => right(11, tables).or(right(17, tables)),
        _ => right(mark, tables),
    });
    assert!(unmatched > 20, "{unmatched}");
    // IDs are compared with their case.
    let cased = caught(|mark, tables| match mark {
        8..=12 => {
            let field = ["SubcontractorID", "ParentID", "ParentID", "WBSElementID", "OBSElementID"];
            let field = field[mark - 8];
            let known = tables[tables.len() - 1];
            Broken::first(tables[0], |row| {
                let value = row.value(field);
                value.is_some() && !known.iter().any(|other| other.value("ID") == value)
            })
        }
        _ => right(mark, tables),
    });
    assert!(cased > 100, "{cased}");
}

/// Misreadings of order 8.
#[test]
fn misread_rules_of_the_profile_are_caught() {
    let caught = |breaks| caught_by(Which::Baseline, breaks);
    fn schedule(mark: usize, tables: &[&[Record]]) -> Option<Broken> {
        (Which::Baseline.gate().breaks)(mark, tables)
    }
    let three = caught(|mark, tables| match mark {
        81 => Broken::first(tables[0], |row| {
            let names = ["BaselineDuration", "BaselineStartDate", "BaselineFinishDate"];
            names.iter().any(|name| row.is_null(name))
        }),
        _ => schedule(mark, tables),
    });
    assert!(three > 5, "{three}");
    let strict = caught(|mark, tables| match mark {
        83 => Broken::first(tables[0], |row| {
            let dates = (row.date("BaselineStartDate"), row.date("BaselineFinishDate"));
            matches!(dates, (Some(start), Some(finish)) if start >= finish)
        }),
        _ => schedule(mark, tables),
    });
    assert!(strict > 5, "{strict}");
    let start_alone = caught(|mark, tables| match mark {
        82 => Broken::first(tables[0], |row| !row.is_null("ActualStartDate")),
        _ => schedule(mark, tables),
    });
    assert!(start_alone > 5, "{start_alone}");
    let zero_is_none = caught(|mark, tables| match mark {
        84 => Broken::first(tables[0], |row| {
            let names = ["Actual_ToDate_Dollars", "Actual_ToDate_Hours"];
            let given = |name: &&str| row.decimal(name).is_some_and(|n| n.sign().is_ne());
            names.iter().any(|name| given(name))
        }),
        _ => schedule(mark, tables),
    });
    assert!(zero_is_none > 5, "{zero_is_none}");
}
