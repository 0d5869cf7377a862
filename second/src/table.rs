//! A file read by itself: its own mark (0 to 19) and, if that holds, its
//! records with their values and where these stand.

use std::collections::{HashMap, HashSet};

use crate::board::{record_number, Mark};
use crate::fields::{fields_of, Field, Type};
use crate::json::{
    byte_at, date_of, first_breach, not_json, read_literal, read_number, read_string, skip_spaces,
    Breach, Date, Fault, JsonString, Literal, Number, NumberToken, StringRule, TextKind, Whole,
};

pub const FILE_TYPE: &[u8] = b"IPMDAR_SCHEDULE_PERFORMANCE_DATASET/1.0";
pub const MOST_RECORDS: usize = 4096;

const NOT_A_TABLE: u32 = 12;
const UNKNOWN_NAME: u32 = 13;
const NAME_TWICE: u32 = 14;
const WRONG_JSON_KIND: u32 = 15;
const NOT_A_DATE: u32 = 17;
const BEYOND_LIMITS: u32 = 18;
const MISSING_VALUE: u32 = 19;
const TOO_MANY_RECORDS: u32 = 20;
const FILE_MISSING: u32 = 21;
const WRONG_FILE_TYPE: u32 = 22;
const BARRED_CONTROL: u32 = 30;
const WHITESPACE: u32 = 31;
const OUTSIDE_ID_SET: u32 = 32;
const UNPAIRED_SURROGATE: u32 = 33;
const NOT_WHOLE: u32 = 34;

/// A value that isn't null.
#[derive(Clone, Debug, PartialEq)]
pub enum Value {
    /// String, StringID and Text: decoded, never empty.
    Text(String),
    Boolean(bool),
    Date(Date),
    Decimal(Number),
    Integer(i64),
}

/// Where a field's value stands in its file: its first byte, and the one after
/// its last, quotes included. A null that is written, as `null` or as an empty
/// string, has the end 0; of an absent field both are 0.
#[derive(Clone, Copy, Debug, Default, PartialEq, Eq)]
pub struct Place {
    pub start: u32,
    pub end: u32,
}

/// The values of one record by field name, and the places of all the fields
/// that are written. A null field has no value, an absent one no place either.
#[derive(Clone, Debug, Default)]
pub struct Record {
    values: HashMap<&'static str, Value>,
    places: HashMap<&'static str, Place>,
}

impl Record {
    /// Enters what is written from `start` up to `after`.
    fn enter(&mut self, name: &'static str, value: Option<Value>, start: usize, after: usize) {
        let end = if value.is_some() { offset(after) } else { 0 };
        self.places.insert(name, Place { start: offset(start), end });
        if let Some(value) = value {
            self.values.insert(name, value);
        }
    }

    pub fn place(&self, name: &str) -> Place {
        self.places.get(name).copied().unwrap_or_default()
    }

    pub fn value(&self, name: &str) -> Option<&Value> {
        self.values.get(name)
    }

    pub fn is_null(&self, name: &str) -> bool {
        self.value(name).is_none()
    }

    /// A StringID with A-Z folded to a-z: the form in which IDs and
    /// enumeration values are compared.
    pub fn id(&self, name: &str) -> Option<String> {
        match self.value(name) {
            Some(Value::Text(text)) => Some(text.to_ascii_lowercase()),
            _ => None,
        }
    }

    pub fn decimal(&self, name: &str) -> Option<Number> {
        match self.value(name) {
            Some(Value::Decimal(number)) => Some(*number),
            _ => None,
        }
    }

    pub fn integer(&self, name: &str) -> Option<i64> {
        match self.value(name) {
            Some(Value::Integer(integer)) => Some(*integer),
            _ => None,
        }
    }

    pub fn date(&self, name: &str) -> Option<Date> {
        match self.value(name) {
            Some(Value::Date(date)) => Some(*date),
            _ => None,
        }
    }

    pub fn is_true(&self, name: &str) -> bool {
        self.value(name) == Some(&Value::Boolean(true))
    }
}

/// A file's records, or the mark that it gets instead.
pub type Reading = Result<Vec<Record>, Mark>;

/// Reads the file of that number as it stands, or as omitted.
pub fn read_file(number: usize, contents: Option<&[u8]>) -> Reading {
    match (number, contents) {
        (0 | 1 | 3, None) => Err(Fault { kind: FILE_MISSING, place: 0 }.into()),
        (_, None) => Ok(Vec::new()),
        (0, Some(bytes)) if bytes == FILE_TYPE => Ok(Vec::new()),
        (0, Some(_)) => Err(Fault { kind: WRONG_FILE_TYPE, place: 0 }.into()),
        (_, Some(bytes)) => {
            let fields = fields_of(number).collect();
            Reader { bytes, fields, is_singleton: is_singleton(number) }.read_whole_file()
        }
    }
}

/// Reads an array of records with these fields; omitted it has no records.
pub fn read_array(fields: Vec<&'static Field>, contents: Option<&[u8]>) -> Reading {
    match contents {
        None => Ok(Vec::new()),
        Some(bytes) => Reader { bytes, fields, is_singleton: false }.read_whole_file(),
    }
}

/// A fault that stands in no record, or whose kind names none.
impl From<Fault> for Mark {
    fn from(fault: Fault) -> Mark {
        Mark { kind: fault.kind, place: offset(fault.place), companion: 0 }
    }
}

/// A fault met while the record of that number was read.
fn mark_in_record(fault: Fault, record: usize) -> Mark {
    match fault.kind {
        UNKNOWN_NAME | NAME_TWICE | WRONG_JSON_KIND | NOT_A_DATE | BEYOND_LIMITS
        | BARRED_CONTROL | WHITESPACE | OUTSIDE_ID_SET | UNPAIRED_SURROGATE | NOT_WHOLE => {
            Mark { companion: record_number(record), ..fault.into() }
        }
        _ => fault.into(),
    }
}

fn offset(place: usize) -> u32 {
    u32::try_from(place).expect("a file's length has 32 bits")
}

pub fn is_singleton(table: usize) -> bool {
    (1..=3).contains(&table)
}

fn fault<T>(kind: u32, place: usize) -> Result<T, Fault> {
    Err(Fault { kind, place })
}

/// The JSON value that begins at a place, read whole if it is a scalar.
enum Begun<'a> {
    Array,
    Object,
    String(JsonString),
    Number(NumberToken<'a>),
    Literal(Literal, usize),
}

struct Reader<'a> {
    bytes: &'a [u8],
    fields: Vec<&'static Field>,
    is_singleton: bool,
}

impl<'a> Reader<'a> {
    fn byte(&self, at: usize) -> u8 {
        byte_at(self.bytes, at)
    }

    fn skip(&self, at: usize) -> usize {
        skip_spaces(self.bytes, at)
    }

    /// The file's value, and nothing but spaces after it.
    fn read_whole_file(&self) -> Reading {
        let start = self.skip(0);
        let (records, after) = if self.is_singleton {
            let (record, after) = self.read_singleton(start)?;
            (vec![record], after)
        } else {
            self.read_array(start)?
        };
        let end = self.skip(after);
        if end < self.bytes.len() {
            return Err(not_json(end).into());
        }
        Ok(records)
    }

    fn read_singleton(&self, at: usize) -> Result<(Record, usize), Mark> {
        match self.begin_value(at)? {
            Begun::Object => self.read_record(at, 1),
            _ => Err(Fault { kind: NOT_A_TABLE, place: at }.into()),
        }
    }

    fn read_array(&self, at: usize) -> Result<(Vec<Record>, usize), Mark> {
        match self.begin_value(at)? {
            Begun::Array => {}
            _ => return Err(Fault { kind: NOT_A_TABLE, place: at }.into()),
        }
        let mut records = Vec::new();
        let mut place = self.skip(at + 1);
        if self.byte(place) == b']' {
            return Ok((records, place + 1));
        }
        loop {
            let (record, after) = self.read_element(place, records.len())?;
            records.push(record);
            let next = self.skip(after);
            match self.byte(next) {
                b',' => place = self.skip(next + 1),
                b']' => return Ok((records, next + 1)),
                _ => return Err(not_json(next).into()),
            }
        }
    }

    /// An element that is no object is a wrong table even where it would be
    /// one record too many.
    fn read_element(&self, at: usize, earlier: usize) -> Result<(Record, usize), Mark> {
        match self.begin_value(at)? {
            Begun::Object if earlier == MOST_RECORDS => {
                Err(Fault { kind: TOO_MANY_RECORDS, place: at }.into())
            }
            Begun::Object => self.read_record(at, earlier + 1),
            _ => Err(Fault { kind: NOT_A_TABLE, place: at }.into()),
        }
    }

    /// Reads a scalar whole before anyone judges whether it belongs here;
    /// of an array or object only the opening byte is looked at.
    fn begin_value(&self, at: usize) -> Result<Begun<'a>, Fault> {
        match self.byte(at) {
            b'[' => Ok(Begun::Array),
            b'{' => Ok(Begun::Object),
            b'"' => read_string(self.bytes, at).map(Begun::String),
            b'-' | b'0'..=b'9' => read_number(self.bytes, at).map(Begun::Number),
            _ => read_literal(self.bytes, at).map(|(literal, end)| Begun::Literal(literal, end)),
        }
    }

    /// Reads the record of that number, whose opening brace is at `at`.
    fn read_record(&self, at: usize, number: usize) -> Result<(Record, usize), Mark> {
        self.read_members(at).map_err(|fault| mark_in_record(fault, number))
    }

    fn read_members(&self, at: usize) -> Result<(Record, usize), Fault> {
        let mut record = Record::default();
        let mut seen: HashSet<&'static str> = HashSet::new();
        let mut place = self.skip(at + 1);
        if self.byte(place) != b'}' {
            loop {
                place = self.skip(self.read_member(place, &mut record, &mut seen)?);
                match self.byte(place) {
                    b',' => place = self.skip(place + 1),
                    b'}' => break,
                    _ => return Err(not_json(place)),
                }
            }
        }
        let is_missing = |field: &&Field| !field.nullable && record.is_null(field.name);
        if self.fields.iter().any(is_missing) {
            return fault(MISSING_VALUE, place);
        }
        Ok((record, place + 1))
    }

    /// Reads one name and value; gives the place after them.
    fn read_member(
        &self,
        at: usize,
        record: &mut Record,
        seen: &mut HashSet<&'static str>,
    ) -> Result<usize, Fault> {
        if self.byte(at) != b'"' {
            return Err(not_json(at));
        }
        let name = read_string(self.bytes, at)?;
        let field = match self.field_named(&name) {
            Some(field) => field,
            None => return fault(UNKNOWN_NAME, at),
        };
        if !seen.insert(field.name) {
            return fault(NAME_TWICE, at);
        }
        let colon = self.skip(name.end);
        if self.byte(colon) != b':' {
            return Err(not_json(colon));
        }
        let start = self.skip(colon + 1);
        let (value, after) = self.read_value(start, field.kind)?;
        record.enter(field.name, value, start, after);
        Ok(after)
    }

    /// Decoded, case kept.
    fn field_named(&self, name: &JsonString) -> Option<&'static Field> {
        let codes = || name.characters.iter().map(|c| c.code);
        let is_named = |field: &&&'static Field| field.name.chars().map(u32::from).eq(codes());
        self.fields.iter().find(is_named).copied()
    }

    /// Reads and judges a value of that type; gives it, or nothing for null,
    /// and the place after it.
    fn read_value(&self, at: usize, kind: Type) -> Result<(Option<Value>, usize), Fault> {
        match self.begin_value(at)? {
            Begun::Array | Begun::Object => fault(WRONG_JSON_KIND, at),
            Begun::String(string) => Ok((value_of_string(&string, kind, at)?, string.end)),
            Begun::Number(token) => Ok((Some(value_of_number(&token, kind, at)?), token.end)),
            Begun::Literal(literal, end) => Ok((value_of_literal(literal, kind, at)?, end)),
        }
    }
}

fn value_of_string(string: &JsonString, kind: Type, at: usize) -> Result<Option<Value>, Fault> {
    match kind {
        Type::Text => value_of_text(string, TextKind::Text),
        Type::String => value_of_text(string, TextKind::String),
        Type::StringID => value_of_text(string, TextKind::StringID),
        Type::Date => value_of_date(string, at).map(Some),
        Type::Boolean | Type::Decimal | Type::Integer => fault(WRONG_JSON_KIND, at),
    }
}

fn value_of_text(string: &JsonString, kind: TextKind) -> Result<Option<Value>, Fault> {
    if let Some(Breach { rule, place }) = first_breach(&string.characters, kind) {
        return fault(kind_of_rule(rule), place);
    }
    let text: String = string
        .characters
        .iter()
        .map(|c| char::from_u32(c.code).expect("no rule lets a lone surrogate through"))
        .collect();
    // The empty string is null.
    Ok((!text.is_empty()).then_some(Value::Text(text)))
}

fn kind_of_rule(rule: StringRule) -> u32 {
    match rule {
        StringRule::BarredControl => BARRED_CONTROL,
        StringRule::Whitespace => WHITESPACE,
        StringRule::OutsideIDSet => OUTSIDE_ID_SET,
        StringRule::UnpairedSurrogate => UNPAIRED_SURROGATE,
    }
}

fn value_of_date(string: &JsonString, at: usize) -> Result<Value, Fault> {
    let codes: Vec<u32> = string.characters.iter().map(|c| c.code).collect();
    match date_of(&codes) {
        Some(date) => Ok(Value::Date(date)),
        None => fault(NOT_A_DATE, at),
    }
}

fn value_of_number(token: &NumberToken, kind: Type, at: usize) -> Result<Value, Fault> {
    if !matches!(kind, Type::Decimal | Type::Integer) {
        return fault(WRONG_JSON_KIND, at);
    }
    let number = match token.value() {
        Some(number) => number,
        None => return fault(BEYOND_LIMITS, at),
    };
    if kind == Type::Decimal {
        return Ok(Value::Decimal(number));
    }
    match number.whole() {
        Whole::Integer(integer) => Ok(Value::Integer(integer)),
        Whole::NotWhole => fault(NOT_WHOLE, at),
        Whole::Beyond => fault(BEYOND_LIMITS, at),
    }
}

fn value_of_literal(literal: Literal, kind: Type, at: usize) -> Result<Option<Value>, Fault> {
    match (literal, kind) {
        (Literal::Null, _) => Ok(None),
        (Literal::True, Type::Boolean) => Ok(Some(Value::Boolean(true))),
        (Literal::False, Type::Boolean) => Ok(Some(Value::Boolean(false))),
        _ => fault(WRONG_JSON_KIND, at),
    }
}
