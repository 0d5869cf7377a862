//! The sentences as they were agreed on, with a slot for each thing that varies,
//! and the text made of them. Beside it the program is tested; and with one of
//! its manners changed it is a program that is wrong in one respect.

use std::collections::BTreeMap;
use std::sync::OnceLock;

use second::board::{Board, Mark};
use second::bundle::file_part;
use second::fields::FILE_NAMES;
use second::gate::judge;
use second::reason::{reason, Reason, Shown};
use second::rules::files_read;

/// Of a mark's number, of a file's kind, and the others by their names. A slot is
/// one character that no sentence uses otherwise.
pub(crate) struct Sentences {
    pub rules: BTreeMap<usize, &'static str>,
    pub kinds: BTreeMap<u32, &'static str>,
    pub others: BTreeMap<&'static str, &'static str>,
}

pub(crate) fn agreed() -> &'static Sentences {
    static AGREED: OnceLock<Sentences> = OnceLock::new();
    AGREED.get_or_init(|| {
        let text = include_str!("sentences.txt");
        let (rules, rest) = text.strip_prefix("rules\n").unwrap().split_once("kinds\n").unwrap();
        let (kinds, others) = rest.split_once("others\n").unwrap();
        let split = |line: &'static str| line.split_once(' ').unwrap();
        let lines = |part: &'static str| part.lines().map(split);
        Sentences {
            rules: lines(rules).map(|(mark, words)| (mark.parse().unwrap(), words)).collect(),
            kinds: lines(kinds).map(|(kind, words)| (kind.parse().unwrap(), words)).collect(),
            others: lines(others).collect(),
        }
    })
}

/// The sentence with each slot filled in.
fn filled(sentence: &str, slots: &[(char, String)]) -> String {
    let fill = |character: char| match slots.iter().find(|(slot, _)| *slot == character) {
        Some((_, words)) => words.clone(),
        None => character.to_string(),
    };
    sentence.chars().map(fill).collect()
}

// ---------------------------------------------------------------- manners

/// How the slots are filled, and what stands where.
#[derive(Clone, Copy)]
pub(crate) struct Manner {
    pub null: &'static str,
    pub value: fn(&[u8]) -> String,
    /// The line and the column.
    pub place: fn(&[u8], usize) -> (usize, usize),
    pub companion: fn(usize) -> String,
    /// The file that keeps a mark from being judged, of those that its rule
    /// reads and that don't hold, in the order in which it names them.
    pub kept_by: fn(&[usize]) -> usize,
    pub sentence_of_count: fn(usize) -> &'static str,
    /// Of the marks that don't hold and the lines that are printed of them.
    pub refused: fn(usize, usize) -> usize,
    pub kept_in_front: bool,
}

pub(crate) const RIGHT: Manner = Manner {
    null: "null",
    value,
    place,
    companion: |record| match record {
        0 => "none".to_string(),
        record => format!("record {record}"),
    },
    kept_by: |files| *files.iter().min().unwrap(),
    sentence_of_count: |count| if count == 1 { "one-kept" } else { "many-kept" },
    refused: |marks, _| marks,
    kept_in_front: false,
};

/// By bytes: those that continue a character are left out at the end.
pub(crate) fn value(value: &[u8]) -> String {
    let mut kept = value;
    let mut dots = "";
    if value.len() > 80 {
        let mut end = 80;
        while (0x80..0xC0).contains(&value[end]) {
            end -= 1;
        }
        kept = &value[..end];
        dots = "...";
    }
    String::from_utf8(kept.to_vec()).unwrap() + dots
}

/// By bytes as well.
pub(crate) fn place(contents: &[u8], place: usize) -> (usize, usize) {
    let (mut line, mut column) = (1, 1);
    for byte in &contents[..place] {
        match byte {
            b'\n' => (line, column) = (line + 1, 1),
            0x80..=0xBF => {}
            _ => column += 1,
        }
    }
    (line, column)
}

// ------------------------------------------------------------------ texts

/// A bundle with all that its text is made of.
pub(crate) struct Judged {
    bundle: Vec<u8>,
    grouped: bool,
    board: Result<Board, u32>,
    told: Vec<(usize, Mark, Reason)>,
}

impl Judged {
    pub fn new(bundle: Vec<u8>, grouped: bool) -> Judged {
        let verdict = judge(&bundle);
        if verdict.refusal != 0 {
            return Judged { bundle, grouped, board: Err(verdict.refusal), told: Vec::new() };
        }
        let faults = verdict.board.faults();
        let told = faults.map(|(number, mark)| (number, mark, reason(&bundle, number))).collect();
        Judged { bundle, grouped, board: Ok(verdict.board), told }
    }

    pub fn text(&self, manner: &Manner) -> String {
        let board = match self.board {
            Ok(board) => board,
            Err(refusal) => return format!("bundle {refusal}\n"),
        };
        let alone = self.told.iter().filter(|(_, mark, _)| mark.kind != 2 || !self.grouped);
        let line = |(number, mark, reason): &(usize, Mark, Reason)| {
            let numbers = format!("{number} {} {} {}", mark.kind, mark.place, mark.companion);
            format!("{numbers} {}", self.sentence(*number, reason, &board, manner))
        };
        let mut lines: Vec<String> = alone.map(line).collect();
        let kept = if self.grouped { self.kept(&board, manner) } else { Vec::new() };
        let at = if manner.kept_in_front { 0 } else { lines.len() };
        lines.splice(at..at, kept);
        let last = match (self.told.len(), lines.len()) {
            (0, _) => "accepted".to_string(),
            (marks, lines) => format!("refused {}", (manner.refused)(marks, lines)),
        };
        format!(
            "marks 81\n{}{last}\n",
            lines.iter().map(|line| format!("{line}\n")).collect::<String>()
        )
    }

    fn sentence(&self, mark: usize, reason: &Reason, board: &Board, manner: &Manner) -> String {
        match *reason {
            Reason::Refused(_) | Reason::Holds => panic!("mark {mark} has no sentence"),
            Reason::NotJudged { .. } => {
                let file = kept_by(mark, board, manner);
                filled(agreed().others["not-judged"], &[('!', file_name(file))])
            }
            Reason::Broken(shown) => self.of_shown(mark, shown, 0, manner),
            Reason::Missing { shown, searched } => self.of_shown(mark, shown, searched, manner),
            Reason::OwnMark(own) => {
                let contents = file_part(&self.bundle, mark);
                let (line, column) = (manner.place)(contents, own.place as usize);
                let slots = [
                    ('!', file_name(mark)),
                    ('~', format!("line {line}, column {column}")),
                    ('#', own.companion.to_string()),
                ];
                filled(agreed().kinds[&own.kind], &slots)
            }
        }
    }

    fn of_shown(&self, mark: usize, shown: Shown, searched: usize, manner: &Manner) -> String {
        let value = match shown.value(&self.bundle) {
            b"" => manner.null.to_string(),
            value => (manner.value)(value),
        };
        let slots = [
            ('@', FILE_NAMES[shown.file].to_string()),
            ('#', shown.record.to_string()),
            ('$', shown.field_name().to_string()),
            ('%', value),
            ('&', (manner.companion)(shown.companion)),
            ('^', FILE_NAMES[searched].to_string()),
        ];
        filled(agreed().rules[&mark], &slots)
    }

    /// The folder's lines, in the order of the files.
    fn kept(&self, board: &Board, manner: &Manner) -> Vec<String> {
        let mut counts = [0; 20];
        for (mark, ..) in self.told.iter().filter(|(_, mark, _)| mark.kind == 2) {
            counts[kept_by(*mark, board, manner)] += 1;
        }
        let files = (0..20).filter(|file| counts[*file] > 0);
        let line = |file: usize| {
            let sentence = agreed().others[(manner.sentence_of_count)(counts[file])];
            filled(sentence, &[('!', file_name(file)), ('#', counts[file].to_string())])
        };
        files.map(line).collect()
    }
}

fn kept_by(mark: usize, board: &Board, manner: &Manner) -> usize {
    let mut files = files_read(mark);
    files.retain(|file| board.marks[*file].kind != 0);
    (manner.kept_by)(&files)
}

fn file_name(number: usize) -> String {
    match number {
        0 => "FileType.txt".to_string(),
        table => format!("{}.json", FILE_NAMES[table]),
    }
}
