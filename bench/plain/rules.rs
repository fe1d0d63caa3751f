// Rules: which rows call for something, and which rows serve: docs/MODEL.md, Rules over rows.
use crate::geometry::{Meeting, is_near, lies_on, meet};
use crate::rows::{Cell, Held, Value};

pub struct Side {
    pub table: u16,
    pub filter: Vec<(usize, Value)>,
}

impl Side {
    pub fn has(&self, held: Held) -> bool {
        held.cell.table == self.table && self.filter.iter().all(|(column, literal)| held.row.values[*column] == *literal)
    }
}

#[derive(Clone, Copy, PartialEq, Eq, PartialOrd, Ord)]
pub enum Column {
    At(usize),
    Key,
}

pub enum Rule {
    Unique { subject: Side, columns: Vec<Column> },
    Partner { subject: Side, columns: Vec<Column>, server: Side, server_columns: Vec<Column> },
    EndNode { subject: Side, is_first: bool, server: Side },
    Crossing { a: Side, b: Side, server: Side },
    Near { a: Side, b: Side, distance: i64 },
}

/// A rule's number, its subjects and their parts; of cells it is a need of a content, of versions one of a scene.
#[derive(Clone, Copy, PartialEq, Eq, PartialOrd, Ord, Hash)]
pub struct Need<V> {
    pub rule: u16,
    pub first: V,
    pub second: Option<V>,
    pub parts: (u8, u8),
}

fn value_is(column: Column, held: Held, other: Column, than: Held) -> bool {
    match (column, other) {
        (Column::At(one), Column::At(two)) => held.row.values[one] == than.row.values[two],
        (Column::At(at), Column::Key) => held.row.values[at] == Value::Int(than.cell.key),
        (Column::Key, Column::At(at)) => Value::Int(held.cell.key) == than.row.values[at],
        (Column::Key, Column::Key) => held.cell.key == than.cell.key,
    }
}

fn values_are(columns: &[Column], held: Held, others: &[Column], than: Held) -> bool {
    columns.iter().zip(others).all(|(column, other)| value_is(*column, held, *other, than))
}

fn fit_sides(a: &Side, b: &Side, one: Held, other: Held) -> bool {
    a.has(one) && b.has(other) || a.has(other) && b.has(one)
}

impl Rule {
    /// The side of a rule of one subject.
    pub fn single(&self) -> Option<&Side> {
        match self {
            Rule::Partner { subject, .. } | Rule::EndNode { subject, .. } => Some(subject),
            _ => None,
        }
    }

    pub fn server(&self) -> Option<&Side> {
        match self {
            Rule::Partner { server, .. } | Rule::EndNode { server, .. } | Rule::Crossing { server, .. } => Some(server),
            _ => None,
        }
    }

    /// The tables of the first and of the second subject of a need, in the order of cells.
    pub fn tables(&self) -> (u16, u16) {
        match self {
            Rule::Unique { subject, .. } | Rule::Partner { subject, .. } | Rule::EndNode { subject, .. } => (subject.table, subject.table),
            Rule::Crossing { a, b, .. } | Rule::Near { a, b, .. } => (a.table.min(b.table), a.table.max(b.table)),
        }
    }

    pub fn is_subject(&self, held: Held) -> bool {
        match self {
            Rule::Unique { subject, .. } | Rule::Partner { subject, .. } | Rule::EndNode { subject, .. } => subject.has(held),
            Rule::Crossing { a, b, .. } | Rule::Near { a, b, .. } => a.has(held) || b.has(held),
        }
    }

    /// Gives the parts of two rows, of different cells, for which the rule asks.
    pub fn each_call(&self, one: Held, other: Held, mut give: impl FnMut((u8, u8))) {
        match self {
            Rule::Unique { subject, columns } => {
                if subject.has(one) && subject.has(other) && values_are(columns, one, columns, other) {
                    give((1, 1));
                }
            }
            Rule::Near { a, b, distance } => {
                if fit_sides(a, b, one, other) && is_near(one.row.places[0], other.row.places[0], *distance) {
                    give((1, 1));
                }
            }
            Rule::Crossing { a, b, .. } => {
                if !fit_sides(a, b, one, other) {
                    return;
                }
                for first in 1..=one.row.parts() as u8 {
                    for second in 1..=other.row.parts() as u8 {
                        if meet(one.row.part(first), other.row.part(second)) != Meeting::Apart {
                            give((first, second));
                        }
                    }
                }
            }
            Rule::Partner { .. } | Rule::EndNode { .. } => {}
        }
    }

    /// Whether a row serves subjects that call.
    pub fn serves(&self, one: Held, other: Option<Held>, parts: (u8, u8), server: Held) -> bool {
        self.server().is_some_and(|side| side.has(server))
            && match (self, other) {
                (Rule::Partner { columns, server_columns, .. }, None) => values_are(columns, one, server_columns, server),
                (Rule::EndNode { is_first, .. }, None) => server.row.places[0] == end_of(one, *is_first),
                (Rule::Crossing { .. }, Some(other)) => {
                    let (first, second, place) = (one.row.part(parts.0), other.row.part(parts.1), server.row.places[0]);
                    lies_on(place, first) && lies_on(place, second) && meet(first, second) != Meeting::Overlap
                }
                _ => false,
            }
    }
}

pub fn end_of(held: Held, is_first: bool) -> crate::geometry::Place {
    let places = &held.row.places;
    places[if is_first { 0 } else { places.len() - 1 }]
}

pub type Broken = Need<Cell>;
