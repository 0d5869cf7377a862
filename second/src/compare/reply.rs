//! Answers in pieces: numbers, boards and bytes, each with its name, in the
//! order in which they are sent.

use std::io::{self, Read, Write};

use super::gate::answer::{byte_difference, mark_differences, read_board, write_board};
use super::gate::case::LONGEST;
use super::wire::{read_slice_within, read_word, write_words};
use crate::board::Board;

/// What stands at a place of an answer.
#[derive(Clone, Debug, PartialEq, Eq)]
pub enum Piece {
    Number(u32),
    Long(i64),
    Board(Box<Board>),
    Bytes(Vec<u8>),
}

/// What is to be read at a place of an answer.
#[derive(Clone, Copy, Debug, PartialEq, Eq)]
pub enum Form {
    Number,
    Long,
    Board,
    Bytes(u32),
    /// As many bytes as the number before it says; none if that is too many.
    Counted,
}

#[derive(Clone, Debug, Default, PartialEq, Eq)]
pub struct Reply {
    pieces: Vec<(&'static str, Piece)>,
}

impl Reply {
    pub fn number(self, name: &'static str, number: u32) -> Reply {
        self.with(name, Piece::Number(number))
    }

    pub fn long(self, name: &'static str, long: i64) -> Reply {
        self.with(name, Piece::Long(long))
    }

    pub fn board(self, name: &'static str, board: Board) -> Reply {
        self.with(name, Piece::Board(Box::new(board)))
    }

    pub fn bytes(self, name: &'static str, bytes: Vec<u8>) -> Reply {
        self.with(name, Piece::Bytes(bytes))
    }

    fn with(mut self, name: &'static str, piece: Piece) -> Reply {
        self.pieces.push((name, piece));
        self
    }

    fn piece(&self, name: &str) -> Option<&Piece> {
        self.pieces.iter().find(|(of, _)| *of == name).map(|(_, piece)| piece)
    }

    /// The number of that name; 0 if there is none.
    pub fn number_of(&self, name: &str) -> u32 {
        match self.piece(name) {
            Some(Piece::Number(number)) => *number,
            _ => 0,
        }
    }

    pub fn board_of(&self, name: &str) -> Option<&Board> {
        match self.piece(name) {
            Some(Piece::Board(board)) => Some(board),
            _ => None,
        }
    }

    pub fn bytes_of(&self, name: &str) -> &[u8] {
        match self.piece(name) {
            Some(Piece::Bytes(bytes)) => bytes,
            _ => &[],
        }
    }

    pub fn write(&self, out: &mut impl Write) -> io::Result<()> {
        for (_, piece) in &self.pieces {
            match piece {
                Piece::Number(number) => write_words(out, &[*number])?,
                Piece::Long(long) => out.write_all(&long.to_le_bytes())?,
                Piece::Board(board) => write_board(out, board)?,
                Piece::Bytes(bytes) => out.write_all(bytes)?,
            }
        }
        Ok(())
    }

    pub fn read(forms: &[(&'static str, Form)], input: &mut impl Read) -> io::Result<Reply> {
        let mut reply = Reply::default();
        for (name, form) in forms {
            let piece = match form {
                Form::Number => Piece::Number(read_word(input)?),
                Form::Long => Piece::Long(read_long(input)?),
                Form::Board => Piece::Board(Box::new(read_board(input)?)),
                Form::Bytes(length) => Piece::Bytes(read_slice_within(input, *length, LONGEST)?),
                Form::Counted => {
                    let length = reply.last_number().min(LONGEST as u32 + 1);
                    let read = if length as usize > LONGEST { 0 } else { length };
                    Piece::Bytes(read_slice_within(input, read, LONGEST)?)
                }
            };
            reply = reply.with(name, piece);
        }
        Ok(reply)
    }

    fn last_number(&self) -> u32 {
        match self.pieces.last() {
            Some((_, Piece::Number(number))) => *number,
            _ => 0,
        }
    }

    /// What differs between two answers to one case, in lines.
    pub fn differences(&self, answered: &Reply) -> Vec<String> {
        let pairs = self.pieces.iter().zip(&answered.pieces);
        pairs.flat_map(|((name, right), (_, wrong))| difference(name, right, wrong)).collect()
    }
}

fn read_long(input: &mut impl Read) -> io::Result<i64> {
    let mut bytes = [0; 8];
    input.read_exact(&mut bytes)?;
    Ok(i64::from_le_bytes(bytes))
}

fn difference(name: &str, right: &Piece, wrong: &Piece) -> Vec<String> {
    match (right, wrong) {
        (right, wrong) if right == wrong => Vec::new(),
        (Piece::Number(right), Piece::Number(wrong)) => {
            vec![format!("  {name}: expected {right}, answered {wrong}")]
        }
        (Piece::Long(right), Piece::Long(wrong)) => {
            vec![format!("  {name}: expected {right}, answered {wrong}")]
        }
        (Piece::Board(right), Piece::Board(wrong)) => {
            let lines = mark_differences(&right.marks, &wrong.marks).into_iter();
            lines.map(|line| format!("  {name}{line}")).collect()
        }
        (Piece::Bytes(right), Piece::Bytes(wrong)) => {
            let line = byte_difference(right, wrong).unwrap_or("  another length".to_string());
            vec![format!("  {name}{line}")]
        }
        _ => vec![format!("  {name}: another sort of piece")],
    }
}

#[cfg(test)]
mod tests {
    use super::*;

    const FORMS: [(&str, Form); 5] = [
        ("refusal", Form::Number),
        ("total", Form::Long),
        ("board", Form::Board),
        ("length", Form::Number),
        ("part", Form::Counted),
    ];

    fn reply(total: i64, length: u32, part: &[u8]) -> Reply {
        let board = Board::fresh();
        let front = Reply::default().number("refusal", 3).long("total", total);
        front.board("board", board).number("length", length).bytes("part", part.to_vec())
    }

    #[test]
    fn a_reply_comes_back_from_its_bytes() {
        let reply = reply(-2, 3, b"abc");
        let mut bytes = Vec::new();
        reply.write(&mut bytes).unwrap();
        assert_eq!(bytes.len(), 4 + 8 + 972 + 4 + 3);
        assert_eq!(Reply::read(&FORMS, &mut &bytes[..]).unwrap(), reply);
        assert!(Reply::read(&FORMS, &mut &bytes[..bytes.len() - 1]).is_err());
        assert_eq!((reply.number_of("refusal"), reply.number_of("none")), (3, 0));
        assert_eq!(reply.bytes_of("part"), b"abc");
    }

    #[test]
    fn a_part_that_is_too_long_is_not_read() {
        let mut bytes = Vec::new();
        reply(0, u32::MAX, b"").write(&mut bytes).unwrap();
        assert_eq!(Reply::read(&FORMS, &mut &bytes[..]).unwrap(), reply(0, u32::MAX, b""));
    }

    #[test]
    fn differences_are_named() {
        assert!(reply(1, 2, b"ab").differences(&reply(1, 2, b"ab")).is_empty());
        let lines = reply(1, 2, b"ab").differences(&reply(-1, 3, b"acd"));
        let expected = [
            "  total: expected 1, answered -1",
            "  length: expected 2, answered 3",
            "  part  byte 1: expected 62, answered 63",
        ];
        assert_eq!(lines, expected);
    }
}
