// What changes touch, what covers it, and what breaks: docs/THEORY.md, and docs/MODEL.md, Versions, needs and covers.
use crate::index::{FiledRow, QuickMap, RuleIndex};
use crate::rows::{Cell, Held, Shared};
use crate::rules::{Broken, Need, Rule};
use crate::tree::{Change, Office};
use std::collections::{BTreeMap, BTreeSet};

#[derive(Clone, Copy, PartialEq, Eq, PartialOrd, Ord, Hash)]
pub struct Version {
    pub cell: Cell,
    pub is_new: bool,
}

#[derive(Clone, Copy, PartialEq, Eq)]
pub enum Life {
    Always,
    Without(usize),
    With(usize),
}

pub type Asked = Need<Version>;
pub type Witnesses = (Version, Option<Version>);

pub struct Scene<'a> {
    office: &'a Office,
    root: usize,
    indexes: &'a [RuleIndex],
    sets: &'a [Vec<Change>],
    changer: QuickMap<Cell, usize>,
    new_rows: Vec<FiledRow>,
    new_row_at: QuickMap<Cell, Shared>,
    new_indexes: Vec<RuleIndex>,
}

/// The least cell that two sets change, and the first two that do.
pub fn shared_cell(sets: &[Vec<Change>]) -> Option<(Cell, usize, usize)> {
    let mut first = QuickMap::default();
    let mut least: Option<(Cell, usize, usize)> = None;
    for (member, set) in sets.iter().enumerate() {
        for change in set {
            match first.get(&change.cell) {
                None => {
                    first.insert(change.cell, member);
                }
                Some(earlier) if least.is_none_or(|it| change.cell < it.0) => least = Some((change.cell, *earlier, member)),
                Some(_) => {}
            }
        }
    }
    least
}

impl<'a> Scene<'a> {
    pub fn new(office: &'a Office, root: usize, sets: &'a [Vec<Change>]) -> Self {
        let indexes = office.spaces[root].index.as_ref().expect("a root is kept");
        let (mut changer, mut new_row_at, mut new_rows) = (QuickMap::default(), QuickMap::default(), Vec::new());
        for (member, set) in sets.iter().enumerate() {
            for change in set {
                changer.insert(change.cell, member);
                if let Some(row) = &change.after {
                    new_row_at.insert(change.cell, row.clone());
                    new_rows.push(FiledRow { cell: change.cell, row: row.clone() });
                }
            }
        }
        new_rows.sort_unstable_by_key(|filed| filed.cell);
        let new_indexes = office.rules.iter().map(|rule| RuleIndex::of(rule, &new_rows)).collect();
        Scene { office, root, indexes, sets, changer, new_rows, new_row_at, new_indexes }
    }

    pub fn life(&self, version: Version) -> Life {
        match (self.changer.get(&version.cell), version.is_new) {
            (Some(member), true) => Life::With(*member),
            (Some(member), false) => Life::Without(*member),
            (None, _) => Life::Always,
        }
    }

    fn held(&self, version: Version) -> Held<'_> {
        let row = if version.is_new { self.new_row_at.get(&version.cell) } else { self.office.row(self.root, version.cell) };
        Held { cell: version.cell, row: row.expect("a version has a row") }
    }

    fn each_pair(number: u16, rule: &Rule, one: (Version, Held), other: (Version, Held), give: &mut impl FnMut(Asked)) {
        let (one, other) = if one.0 < other.0 { (one, other) } else { (other, one) };
        rule.each_call(one.1, other.1, |parts| give(Need { rule: number, first: one.0, second: Some(other.0), parts }));
    }

    /// Gives each need of which this new row is a subject; of two new ones, where it is the lesser.
    fn each_with_subject(&self, number: u16, rule: &Rule, filed: &FiledRow, give: &mut impl FnMut(Asked)) {
        let (version, held) = (Version { cell: filed.cell, is_new: true }, filed.held());
        if !rule.is_subject(held) {
            return;
        }
        if rule.single().is_some() {
            return give(Need { rule: number, first: version, second: None, parts: (1, 1) });
        }
        let Life::With(member) = self.life(version) else { return };
        self.indexes[usize::from(number)].each_beside(rule, held, |other| {
            let old = Version { cell: other.cell, is_new: false };
            if other.cell != filed.cell && self.life(old) != Life::Without(member) {
                Self::each_pair(number, rule, (version, held), (old, other.held()), give);
            }
        });
        self.new_indexes[usize::from(number)].each_beside(rule, held, |other| {
            if other.cell > filed.cell {
                Self::each_pair(number, rule, (version, held), (Version { cell: other.cell, is_new: true }, other.held()), give);
            }
        });
    }

    /// Gives each need of old rows which this old row serves, that a member changes.
    fn each_with_server(&self, number: u16, rule: &Rule, server: Held, give: &mut impl FnMut(Asked)) {
        if !rule.server().is_some_and(|side| side.has(server)) {
            return;
        }
        let old = |filed: &FiledRow| Version { cell: filed.cell, is_new: false };
        let near = self.indexes[usize::from(number)].subjects_of(rule, server);
        if rule.single().is_some() {
            for filed in near.filter(|filed| rule.serves(filed.held(), None, (1, 1), server)) {
                give(Need { rule: number, first: old(filed), second: None, parts: (1, 1) });
            }
            return;
        }
        let place = server.row.places[0];
        let mut through: Vec<&FiledRow> = near.filter(|it| (1..=it.row.parts() as u8).any(|n| crate::geometry::lies_on(place, it.row.part(n)))).collect();
        through.sort_unstable_by_key(|filed| filed.cell);
        for (at, one) in through.iter().enumerate() {
            for other in &through[at + 1..] {
                rule.each_call(one.held(), other.held(), |parts| {
                    if rule.serves(one.held(), Some(other.held()), parts, server) {
                        give(Need { rule: number, first: old(one), second: Some(old(other)), parts });
                    }
                });
            }
        }
    }

    /// Gives each touched need, once or more.
    pub fn each_touched(&self, give: &mut impl FnMut(Asked)) {
        for (number, rule) in self.office.rules.iter().enumerate() {
            for filed in &self.new_rows {
                self.each_with_subject(number as u16, rule, filed, give);
            }
            for change in self.sets.iter().flatten() {
                if let Some(row) = &change.before {
                    self.each_with_server(number as u16, rule, Held { cell: change.cell, row }, give);
                }
            }
        }
    }

    pub fn touched_needs(&self) -> Vec<Asked> {
        let mut needs = Vec::new();
        self.each_touched(&mut |need| needs.push(need));
        needs.sort_unstable();
        needs.dedup();
        needs
    }

    /// The versions that serve a need, ascending, as far as they are asked for.
    fn servers(&self, need: Asked) -> impl Iterator<Item = Version> + '_ {
        let number = usize::from(need.rule);
        let rule = &self.office.rules[number];
        let (one, other) = (self.held(need.first), need.second.map(|second| self.held(second)));
        let mut old = self.indexes[number].servers_of(rule, one, other, need.parts).iter().peekable();
        let mut new = self.new_indexes[number].servers_of(rule, one, other, need.parts).iter().peekable();
        std::iter::from_fn(move || {
            let is_new = match (old.peek(), new.peek()) {
                (Some(old), Some(new)) => new.cell < old.cell,
                (old, _) => old.is_none(),
            };
            let filed = if is_new { new.next()? } else { old.next()? };
            Some((Version { cell: filed.cell, is_new }, filed))
        })
        .filter(move |(_, filed)| rule.serves(one, other, need.parts, filed.held()))
        .map(|(version, _)| version)
    }

    fn lasts(&self, need: Asked, server: Version) -> bool {
        let life = self.life(server);
        life == Life::Always || life == self.life(need.first) || need.second.is_some_and(|second| life == self.life(second))
    }

    /// One witness that stands wherever the subjects do, or else two of the first member that has such.
    pub fn pick(&self, need: Asked) -> Option<Witnesses> {
        let mut of_members: BTreeMap<usize, (Option<Version>, Option<Version>)> = BTreeMap::new();
        for server in self.servers(need) {
            if self.lasts(need, server) {
                return Some((server, None));
            }
            match self.life(server) {
                Life::Without(member) => of_members.entry(member).or_default().0.get_or_insert(server),
                Life::With(member) => of_members.entry(member).or_default().1.get_or_insert(server),
                Life::Always => continue,
            };
        }
        of_members.into_values().find_map(|pair| Some((pair.0?, Some(pair.1?))))
    }

    pub fn blockers(&self, need: Asked) -> Vec<usize> {
        let subjects = [Some(need.first), need.second].into_iter().flatten().filter_map(|it| match self.life(it) {
            Life::With(member) => Some(member),
            _ => None,
        });
        let servers = self.servers(need).filter_map(|it| match self.life(it) {
            Life::Without(member) => Some(member),
            _ => None,
        });
        subjects.chain(servers).collect::<BTreeSet<_>>().into_iter().collect()
    }

    /// Whether the witnesses of an filed cover its need.
    pub fn covers(&self, need: Asked, witnesses: Witnesses) -> bool {
        let stands = |it: Version| if it.is_new { self.new_row_at.contains_key(&it.cell) } else { self.office.row(self.root, it.cell).is_some() };
        let (one, other) = (self.held(need.first), need.second.map(|second| self.held(second)));
        let serves = |it: Version| stands(it) && self.office.rules[usize::from(need.rule)].serves(one, other, need.parts, self.held(it));
        let (first, second) = (Some(witnesses.0).filter(|it| serves(*it)), witnesses.1.filter(|it| serves(*it)));
        if [first, second].into_iter().flatten().any(|it| self.lasts(need, it)) {
            return true;
        }
        match (first.map(|it| self.life(it)), second.map(|it| self.life(it))) {
            (Some(Life::Without(one)), Some(Life::With(other))) | (Some(Life::With(one)), Some(Life::Without(other))) => one == other,
            _ => false,
        }
    }

    /// Of one member: the least need that is broken once its changes are made.
    pub fn first_broken(&self) -> Option<Broken> {
        let mut least: Option<Asked> = None;
        let is_gone = |it: Version| self.life(it) == Life::Without(0);
        self.each_touched(&mut |need| {
            let stands = !is_gone(need.first) && !need.second.is_some_and(is_gone);
            if stands && least.is_none_or(|it| need < it) && self.servers(need).all(is_gone) {
                least = Some(need);
            }
        });
        least.map(|need| Need { rule: need.rule, first: need.first.cell, second: need.second.map(|it| it.cell), parts: need.parts })
    }
}
