// LIVE and the workspaces over it, stored by their differences: docs/MODEL.md, Workspaces.
use crate::index::{FiledRow, RuleIndex};
use crate::rows::{Cell, Schema, Shared};
use crate::rules::{Broken, Rule};
use std::collections::{BTreeMap, HashSet};

/// Rows to lie over a content at some cells; none where no row stands.
pub type Layer = BTreeMap<Cell, Option<Shared>>;

#[derive(Clone)]
pub enum Mark {
    Child(String),
    Savepoint(String, Layer),
}

pub struct Space {
    pub name: String,
    pub parent: usize,
    /// Over the parent's current content.
    pub base: Layer,
    /// Over the base.
    pub current: Layer,
    pub marks: Vec<Mark>,
    pub is_kept: bool,
    /// Of LIVE and of each kept workspace.
    pub index: Option<Vec<RuleIndex>>,
}

pub struct Change {
    pub cell: Cell,
    pub before: Option<Shared>,
    pub after: Option<Shared>,
}

pub struct Office {
    pub schema: Schema,
    pub rules: Vec<Rule>,
    /// The needs that the text names as broken: only for them an office may be opened though it breaks them.
    pub known: HashSet<Broken>,
    pub tables_text: String,
    pub rules_text: String,
    pub live: BTreeMap<Cell, Shared>,
    /// LIVE first, whose layers are empty.
    pub spaces: Vec<Space>,
}

pub const LIVE: usize = 0;

impl Space {
    pub fn new(name: &str, parent: usize) -> Self {
        Space { name: name.into(), parent, base: Layer::new(), current: Layer::new(), marks: Vec::new(), is_kept: false, index: None }
    }

    pub fn drop_savepoints(&mut self) {
        self.marks.retain(|mark| matches!(mark, Mark::Child(_)));
    }

    pub fn drop_child(&mut self, name: &str) {
        self.marks.retain(|mark| !matches!(mark, Mark::Child(child) if child == name));
    }

    pub fn savepoint(&self, name: &str) -> Option<usize> {
        self.marks.iter().position(|mark| matches!(mark, Mark::Savepoint(saved, _) if saved == name))
    }

    pub fn savepoints(&self) -> usize {
        self.marks.iter().filter(|mark| matches!(mark, Mark::Savepoint(..))).count()
    }
}

/// Stores a difference, or takes it away where it has the row that lies below.
fn put(layer: &mut Layer, cell: Cell, row: &Option<Shared>, below: &Option<Shared>) {
    if row == below {
        layer.remove(&cell);
    } else {
        layer.insert(cell, row.clone());
    }
}

impl Office {
    pub fn find(&self, name: &str) -> Option<usize> {
        self.spaces.iter().position(|space| space.name == name)
    }

    pub fn children(&self, at: usize) -> impl Iterator<Item = usize> + '_ {
        (1..self.spaces.len()).filter(move |child| self.spaces[*child].parent == at)
    }

    pub fn level(&self, at: usize) -> usize {
        if at == LIVE { 0 } else { 1 + self.level(self.spaces[at].parent) }
    }

    pub fn row(&self, at: usize, cell: Cell) -> Option<&Shared> {
        if at == LIVE {
            return self.live.get(&cell);
        }
        match self.spaces[at].current.get(&cell) {
            Some(difference) => difference.as_ref(),
            None => self.base_row(at, cell),
        }
    }

    pub fn base_row(&self, at: usize, cell: Cell) -> Option<&Shared> {
        match self.spaces[at].base.get(&cell) {
            Some(difference) => difference.as_ref(),
            None => self.row(self.spaces[at].parent, cell),
        }
    }

    fn whole(&self, at: usize) -> BTreeMap<Cell, Shared> {
        if at == LIVE {
            return self.live.clone();
        }
        let mut rows = self.whole(self.spaces[at].parent);
        for (cell, row) in self.spaces[at].base.iter().chain(&self.spaces[at].current) {
            match row {
                Some(row) => rows.insert(*cell, row.clone()),
                None => rows.remove(cell),
            };
        }
        rows
    }

    /// The rows of a current content, ascending by cell.
    pub fn rows(&self, at: usize) -> Vec<FiledRow> {
        if at == LIVE {
            return self.live.iter().map(|(cell, row)| FiledRow { cell: *cell, row: row.clone() }).collect();
        }
        self.whole(at).into_iter().map(|(cell, row)| FiledRow { cell, row }).collect()
    }

    pub fn changes(&self, at: usize) -> Vec<Change> {
        let change = |(cell, after): (&Cell, &Option<Shared>)| Change { cell: *cell, before: self.base_row(at, *cell).cloned(), after: after.clone() };
        self.spaces[at].current.iter().map(change).collect()
    }

    pub fn conflicts(&self, at: usize) -> Vec<Cell> {
        let is_in_conflict = |cell: &&Cell| at != LIVE && self.base_row(at, **cell) != self.row(self.spaces[at].parent, **cell);
        self.spaces[at].current.keys().filter(is_in_conflict).copied().collect()
    }

    /// Lets the bases of the children keep the row that they have at a cell which is going to change.
    fn pin_children(&mut self, at: usize, cell: Cell, old: &Option<Shared>) {
        for child in 1..self.spaces.len() {
            if self.spaces[child].parent == at {
                self.spaces[child].base.entry(cell).or_insert_with(|| old.clone());
            }
        }
    }

    fn unpin_children(&mut self, at: usize, cell: Cell, new: &Option<Shared>) {
        for child in 1..self.spaces.len() {
            if self.spaces[child].parent == at && self.spaces[child].base.get(&cell) == Some(new) {
                self.spaces[child].base.remove(&cell);
            }
        }
    }

    fn reindex(&mut self, at: usize, cell: Cell, old: &Option<Shared>, new: &Option<Shared>) {
        let Some(indexes) = &mut self.spaces[at].index else { return };
        for (index, rule) in indexes.iter_mut().zip(&self.rules) {
            old.iter().for_each(|row| index.remove(rule, cell, row));
            new.iter().for_each(|row| index.add(rule, cell, row));
        }
    }

    pub fn set_row(&mut self, at: usize, cell: Cell, new: Option<Shared>) {
        let old = self.row(at, cell).cloned();
        if old == new {
            return;
        }
        self.pin_children(at, cell, &old);
        if at == LIVE {
            match &new {
                Some(row) => self.live.insert(cell, row.clone()),
                None => self.live.remove(&cell),
            };
        } else {
            let below = self.base_row(at, cell).cloned();
            put(&mut self.spaces[at].current, cell, &new, &below);
        }
        self.reindex(at, cell, &old, &new);
        self.unpin_children(at, cell, &new);
    }

    /// Sets the row of a base; the current content and the savepoints stay.
    pub fn set_base_row(&mut self, at: usize, cell: Cell, new: Option<Shared>) {
        let old = self.base_row(at, cell).cloned();
        let below = self.row(self.spaces[at].parent, cell).cloned();
        let space = &mut self.spaces[at];
        put(&mut space.base, cell, &new, &below);
        let saved = space.marks.iter_mut().filter_map(|mark| if let Mark::Savepoint(_, layer) = mark { Some(layer) } else { None });
        for layer in saved.chain([&mut space.current]) {
            let row = layer.get(&cell).unwrap_or(&old).clone();
            put(layer, cell, &row, &new);
        }
    }

    /// The changes that a current content would have from other differences over its base.
    pub fn changes_to(&self, at: usize, layer: &Layer) -> Vec<Change> {
        let cells = self.spaces[at].current.keys().chain(layer.keys());
        let row_there = |cell: &Cell| layer.get(cell).cloned().unwrap_or_else(|| self.base_row(at, *cell).cloned());
        let change = |cell: &Cell| Change { cell: *cell, before: self.row(at, *cell).cloned(), after: row_there(cell) };
        distinct(cells.map(change).collect())
    }

    /// The changes of a content that a refresh makes: where the base isn't the parent's content, and nothing was changed.
    pub fn changes_of_refresh(&self, at: usize) -> Vec<Change> {
        let parent = self.spaces[at].parent;
        let cells = self.spaces[at].base.keys().filter(|cell| !self.spaces[at].current.contains_key(cell));
        let change = |cell: &Cell| Change { cell: *cell, before: self.row(at, *cell).cloned(), after: self.row(parent, *cell).cloned() };
        distinct(cells.map(change).collect())
    }

    pub fn make(&mut self, at: usize, changes: Vec<Change>) {
        for change in changes {
            self.set_row(at, change.cell, change.after);
        }
    }

    pub fn remove(&mut self, at: usize) {
        let gone = self.spaces.remove(at);
        self.spaces.iter_mut().for_each(|space| space.parent -= usize::from(space.parent > at));
        self.spaces[gone.parent].drop_child(&gone.name);
    }
}

fn distinct(mut changes: Vec<Change>) -> Vec<Change> {
    changes.sort_by_key(|change| change.cell);
    changes.dedup_by_key(|change| change.cell);
    changes.retain(|change| change.before != change.after);
    changes
}
