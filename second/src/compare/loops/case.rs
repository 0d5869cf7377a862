//! A case of the loops as bytes between two programs, and what this program
//! answers.

use std::io::{self, Read, Write};
use std::sync::Arc;

use super::sights::{self, Sight};
use crate::compare::gate::case::{Bytes, LONGEST};
use crate::compare::run::{hex, Question};
use crate::compare::sentences::case::first_difference;
use crate::compare::wire::{read_first_word, read_slice_within, read_word, unsound, write_words};
use crate::loops::{is_loop, links_of, ring_text, show_loop, shown_text, Shown};

/// No list is longer.
pub const LONGEST_LIST: u32 = 5_000;

pub const NOTHING: u32 = 0;
pub const RING: u32 = 1;
pub const REFUSED: u32 = 2;

/// No answer is read that is longer: it would be no text of 4,096 links.
const LONGEST_TEXT: usize = 1 << 21;
const LONGEST_SHOWN: usize = 1200;
const MOST_ENTRIES: usize = 40;

/// What is asked for: the list as it is left, or the text of what is shown.
#[derive(Clone, Copy, Debug, PartialEq, Eq)]
pub enum Form {
    List,
    Text { explained: bool },
}

pub const FORMS: [Form; 3] =
    [Form::List, Form::Text { explained: false }, Form::Text { explained: true }];

#[derive(Clone, Debug, PartialEq, Eq)]
pub struct LoopsCase {
    pub bundle: Bytes,
    pub list: u32,
    pub seed: u32,
    pub form: Form,
}

#[derive(Clone, Debug, PartialEq, Eq)]
pub enum Answer {
    /// A tag; the ring's length or the refusal, else 0; and the whole list.
    List { tag: u32, number: u32, list: Vec<u32> },
    /// Bytes, since those of another program need not be UTF-8.
    Text(Vec<u8>),
}

impl LoopsCase {
    /// Entry i is seed + 7 i.
    pub fn filled(&self) -> Vec<u32> {
        (0..self.list).map(|i| self.seed.wrapping_add(i.wrapping_mul(7))).collect()
    }

    /// What this program shows, and the list as it leaves it.
    pub fn shown(&self) -> (Shown, Vec<u32>) {
        let mut list = self.filled();
        (show_loop(&self.bundle, &mut list), list)
    }

    fn is_loop(&self, ring: &[u32]) -> bool {
        is_loop(&links_of(&self.bundle).unwrap_or_default(), ring)
    }

    /// A ring that is a loop, at the start of a list that is else as before; or
    /// the text of one.
    fn is_ring(&self, answer: &Answer) -> bool {
        match answer {
            Answer::List { tag, number, list } => match list.get(..*number as usize) {
                Some(ring) => {
                    let rest = &list[ring.len()..];
                    *tag == RING && self.is_loop(ring) && *rest == self.filled()[ring.len()..]
                }
                None => false,
            },
            Answer::Text(text) => self.is_ring_text(text),
        }
    }

    /// The text of the loop whose records stand in its first line.
    fn is_ring_text(&self, text: &[u8]) -> bool {
        let text = match std::str::from_utf8(text) {
            Ok(text) => text,
            Err(_) => return false,
        };
        let numbers = text.lines().next().unwrap_or("").split(' ').map(str::parse);
        match numbers.collect::<Result<Vec<u32>, _>>() {
            Ok(ring) => {
                let explained = self.form == Form::Text { explained: true };
                self.is_loop(&ring) && text == ring_text(&self.bundle, &ring, explained)
            }
            Err(_) => false,
        }
    }
}

impl Question for LoopsCase {
    type Answer = Answer;
    type Sight = Sight;

    fn write(&self, out: &mut impl Write) -> io::Result<()> {
        let form = FORMS.iter().position(|form| *form == self.form).expect("all are listed");
        write_words(out, &[self.bundle.len() as u32, self.list, self.seed, form as u32])?;
        out.write_all(&self.bundle)
    }

    fn read(input: &mut impl Read) -> io::Result<Option<LoopsCase>> {
        let length = match read_first_word(input)? {
            Some(length) => length,
            None => return Ok(None),
        };
        let [list, seed, form] = [read_word(input)?, read_word(input)?, read_word(input)?];
        if list > LONGEST_LIST {
            return Err(unsound("a list is too long"));
        }
        let form = *FORMS.get(form as usize).ok_or_else(|| unsound("there is no such form"))?;
        let bundle = Arc::new(read_slice_within(input, length, LONGEST)?);
        Ok(Some(LoopsCase { bundle, list, seed, form }))
    }

    fn answer(&self) -> Answer {
        let (shown, list) = self.shown();
        if let Form::Text { explained } = self.form {
            return Answer::Text(shown_text(&self.bundle, shown, &list, explained).into_bytes());
        }
        let (tag, number) = match shown {
            Shown::Nothing => (NOTHING, 0),
            Shown::Ring(length) => (RING, length as u32),
            Shown::Refused(refusal) => (REFUSED, refusal),
        };
        Answer::List { tag, number, list }
    }

    fn write_answer(answer: &Answer, out: &mut impl Write) -> io::Result<()> {
        match answer {
            Answer::List { tag, number, list } => {
                write_words(out, &[*tag, *number])?;
                write_words(out, list)
            }
            Answer::Text(text) => {
                write_words(out, &[text.len() as u32])?;
                out.write_all(text)
            }
        }
    }

    fn read_answer(&self, input: &mut impl Read) -> Option<Answer> {
        let first = read_word(input).ok()?;
        if self.form != Form::List {
            return read_slice_within(input, first, LONGEST_TEXT).ok().map(Answer::Text);
        }
        let number = read_word(input).ok()?;
        let list = (0..self.list).map(|_| read_word(input).ok()).collect::<Option<_>>()?;
        Some(Answer::List { tag: first, number, list })
    }

    /// Any loop is right where there is one.
    fn agrees(&self, expected: &Answer, answered: &Answer) -> bool {
        match self.shown().0 {
            Shown::Ring(_) => self.is_ring(expected) && self.is_ring(answered),
            _ => answered == expected,
        }
    }

    fn describe(&self, expected: &Answer, answered: &Answer) -> String {
        let shown = |answer: &Answer| match answer {
            Answer::Text(text) => String::from_utf8_lossy(text).into_owned(),
            Answer::List { tag, number, list } => {
                let name = match *tag {
                    NOTHING => "nothing",
                    RING => "ring",
                    REFUSED => "refused",
                    _ => "no known tag",
                };
                let list: Vec<&u32> = list.iter().take(MOST_ENTRIES).collect();
                format!("{name} {number} {list:?}")
            }
        };
        let mut lines = vec![
            format!("a loop, {:?}, list of {} entries, seed {}", self.form, self.list, self.seed),
            format!("  bundle {}", hex(&self.bundle, LONGEST_SHOWN)),
        ];
        match (expected, answered) {
            (Answer::Text(expected), Answer::Text(answered)) => {
                lines.extend(first_difference(expected, answered))
            }
            _ => {
                lines.push(format!("  for example {}", shown(expected)));
                lines.push(format!("  answered {}", shown(answered)));
            }
        }
        lines.join("\n")
    }

    fn wanted() -> Vec<Sight> {
        sights::wanted()
    }

    fn sights(&self, expected: &Answer) -> Vec<Sight> {
        sights::sights_of(self, expected)
    }
}

#[cfg(test)]
mod tests {
    use super::*;
    use crate::compare::loops::cases::bundle_of;

    fn case(links: &[(&str, &str)], list: u32) -> LoopsCase {
        LoopsCase { bundle: Arc::new(bundle_of(links)), list, seed: 9, form: Form::List }
    }

    #[test]
    fn a_case_and_its_answer_come_back_from_their_bytes() {
        let cases = [case(&[("A", "B"), ("b", "a")], 4), case(&[], 0), case(&[("A", "B")], 0)];
        let in_form = |form: Form| cases.clone().map(|case| LoopsCase { form, ..case });
        for case in FORMS.iter().flat_map(|form| in_form(*form)) {
            let mut sent = Vec::new();
            case.write(&mut sent).unwrap();
            assert_eq!(LoopsCase::read(&mut &sent[..]).unwrap(), Some(case.clone()));
            assert!(LoopsCase::read(&mut &sent[..sent.len() - 1]).is_err());
            let mut answered = Vec::new();
            LoopsCase::write_answer(&case.answer(), &mut answered).unwrap();
            assert_eq!(case.read_answer(&mut &answered[..]), Some(case.answer()));
        }
    }

    #[test]
    fn any_loop_is_right_and_nothing_else() {
        let case = case(&[("A", "B"), ("B", "A"), ("a", "C"), ("C", "A"), ("x", "x")], 6);
        let expected = case.answer();
        let agrees = |tag: u32, ring: &[u32], rest: &[u32]| {
            let list = [ring, rest].concat();
            let answered = Answer::List { tag, number: ring.len() as u32, list };
            case.agrees(&expected, &answered)
        };
        let rest = [9, 16, 23, 30, 37, 44];
        for ring in [&[1, 2][..], &[2, 1], &[3, 4], &[1, 2, 3, 4], &[5], &[4, 1, 2, 3]] {
            assert!(agrees(RING, ring, &rest[ring.len()..]), "{ring:?}");
        }
        for ring in
            [&[][..], &[1], &[1, 3], &[2, 3], &[5, 5], &[1, 2, 1, 2], &[0], &[6], &[1, 2, 5]]
        {
            assert!(!agrees(RING, ring, &rest[ring.len()..]), "{ring:?}");
        }
        assert!(!agrees(RING, &[1, 2], &[9, 16, 23, 30]));
        assert!(!agrees(NOTHING, &[], &rest));
        assert!(!agrees(REFUSED, &[1, 2], &rest[2..]));
        let too_many = Answer::List { tag: RING, number: 7, list: rest.to_vec() };
        assert!(!case.agrees(&expected, &too_many));
    }

    #[test]
    fn the_text_of_any_loop_is_right_and_no_other_text() {
        let links = [("A", "B"), ("B", "\\u0061"), ("x", "X")];
        let plain = LoopsCase { form: FORMS[1], ..case(&links, 3) };
        let explained = LoopsCase { form: FORMS[2], ..case(&links, 3) };
        let agrees = |case: &LoopsCase, text: &str| {
            case.agrees(&case.answer(), &Answer::Text(text.as_bytes().to_vec()))
        };
        for text in ["1 2\n", "2 1\n", "3\n"] {
            assert!(agrees(&plain, text), "{text}");
            assert!(!agrees(&explained, text), "{text}");
        }
        for text in ["1\n", "1 2", "1  2\n", "1 2 \n", "none\n", "", "1 2\n\n", "bundle 1\n"] {
            assert!(!agrees(&plain, text), "{text}");
        }
        let two = "2 1\n\
            TaskRelationships record 2: SuccessorTaskID \"\\u0061\" waits for \
            PredecessorTaskID \"B\" and leads to record 1.\n\
            TaskRelationships record 1: SuccessorTaskID \"B\" waits for \
            PredecessorTaskID \"A\" and leads back to record 2. Take a link of the loop out.\n";
        assert!(agrees(&explained, two));
        assert!(!agrees(&explained, &two.replace("\\u0061", "a")));
        assert!(!agrees(&plain, two));
    }
}
