// Schemas, rows and what fits: docs/FORMATS.md, Office text and Schema faults.
use crate::geometry::{Part, Place};
use std::rc::Rc;

const GREATEST_KEY: i64 = 999_999_999_999_999;
const GREATEST_COORDINATE: u64 = 1_000_000_000;
const LONGEST_TEXT: usize = 200;
const MOST_VERTICES: usize = 32;

#[derive(Clone, Copy, PartialEq, Eq)]
pub enum Kind {
    Int,
    Text,
}

#[derive(Clone, Copy, PartialEq, Eq)]
pub enum Form {
    Bare,
    Point,
    Segment,
    Path,
}

pub struct Table {
    pub name: String,
    pub columns: Vec<(String, Kind)>,
    pub form: Form,
}

#[derive(Clone, Copy, PartialEq, Eq, PartialOrd, Ord, Hash)]
pub struct Cell {
    pub table: u16,
    pub key: i64,
}

#[derive(Clone, PartialEq, Eq, Hash)]
pub enum Value {
    Int(i64),
    Text(Box<str>),
}

#[derive(PartialEq, Eq)]
pub struct Row {
    pub values: Box<[Value]>,
    pub places: Box<[Place]>,
}

pub type Shared = Rc<Row>;

#[derive(Clone, Copy)]
pub struct Held<'a> {
    pub cell: Cell,
    pub row: &'a Row,
}

impl Row {
    /// How many parts a segment or a path has; a point has none.
    pub fn parts(&self) -> usize {
        self.places.len().saturating_sub(1)
    }

    /// A part by its number from 1.
    pub fn part(&self, number: u8) -> Part {
        (self.places[usize::from(number) - 1], self.places[usize::from(number)])
    }
}

pub struct Schema {
    pub tables: Vec<Table>,
}

impl Schema {
    pub fn table(&self, name: &str) -> Option<u16> {
        self.tables.iter().position(|table| table.name == name).map(|at| at as u16)
    }

    pub fn column(&self, table: u16, name: &str) -> Option<usize> {
        self.tables[usize::from(table)].columns.iter().position(|(column, _)| column == name)
    }

    /// The fault of a row, by its name.
    pub fn fault(&self, cell: Cell, row: &Row) -> Option<&'static str> {
        let table = &self.tables[usize::from(cell.table)];
        let is_kind = |(value, column): (&Value, &(String, Kind))| matches!(value, Value::Int(_)) == (column.1 == Kind::Int);
        if row.values.len() != table.columns.len() {
            return Some("WrongCount");
        }
        if !row.values.iter().zip(&table.columns).all(is_kind) {
            return Some("WrongKind");
        }
        if row.values.iter().any(|value| matches!(value, Value::Text(text) if text.len() > LONGEST_TEXT)) {
            return Some("WordsTooLong");
        }
        shape_fault(table.form, &row.places).or(key_fault(cell)).or_else(|| places_fault(table.form, &row.places))
    }
}

pub fn key_fault(cell: Cell) -> Option<&'static str> {
    (!(1..=GREATEST_KEY).contains(&cell.key)).then_some("OutOfRange")
}

fn shape_fault(form: Form, places: &[Place]) -> Option<&'static str> {
    let fits = match form {
        Form::Bare => places.is_empty(),
        Form::Point => places.len() == 1,
        Form::Segment => places.len() == 2,
        Form::Path => true,
    };
    (!fits).then_some("WrongShape")
}

fn places_fault(form: Form, places: &[Place]) -> Option<&'static str> {
    if places.iter().any(|place| place.x.unsigned_abs().max(place.y.unsigned_abs()) > GREATEST_COORDINATE) {
        return Some("OutOfRange");
    }
    if places.windows(2).any(|ends| ends[0] == ends[1]) {
        return Some("ZeroSegment");
    }
    (form == Form::Path && !(2..=MOST_VERTICES).contains(&places.len())).then_some("BadPath")
}
