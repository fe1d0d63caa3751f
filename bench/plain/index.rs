// Finds the rows that may call for something together, or serve: by values, exact places, and squares of the plane.
use crate::geometry::Place;
use crate::rows::{Cell, Held, Shared, Value};
use crate::rules::{Broken, Column, Need, Rule, end_of};
use std::collections::{HashMap, HashSet};
use std::hash::{BuildHasherDefault, Hash, Hasher};

const SQUARE: i64 = 100_000;
const MOST_SQUARES: i64 = 64;

#[derive(Default, Clone, Copy)]
pub struct QuickHasher(u64);

impl Hasher for QuickHasher {
    fn write(&mut self, bytes: &[u8]) {
        for chunk in bytes.chunks(8) {
            let mut word = [0; 8];
            word[..chunk.len()].copy_from_slice(chunk);
            self.write_u64(u64::from_le_bytes(word));
        }
    }

    fn write_u64(&mut self, word: u64) {
        self.0 = (self.0.rotate_left(5) ^ word).wrapping_mul(0x517c_c1b7_2722_0a95);
    }

    fn finish(&self) -> u64 {
        self.0 ^ (self.0 >> 32)
    }
}

pub type QuickMap<K, V> = HashMap<K, V, BuildHasherDefault<QuickHasher>>;

#[derive(Clone)]
pub struct FiledRow {
    pub cell: Cell,
    pub row: Shared,
}

impl FiledRow {
    pub fn held(&self) -> Held<'_> {
        Held { cell: self.cell, row: &self.row }
    }
}

/// Rows at one spot, ascending by cell; most spots have one.
enum FiledRows {
    One([FiledRow; 1]),
    Many(Vec<FiledRow>),
}

impl FiledRows {
    fn list(&self) -> &[FiledRow] {
        match self {
            FiledRows::One(one) => one,
            FiledRows::Many(list) => list,
        }
    }
}

/// The rows of one rule by their spots.
#[derive(Default)]
pub struct RuleIndex {
    subjects: QuickMap<u64, FiledRows>,
    servers: QuickMap<u64, FiledRows>,
    wide: Vec<FiledRow>,
}

/// The spots by which a row is filed as a subject, or looked for.
enum Spots {
    One([u64; 1]),
    Many(Vec<u64>),
    Wide,
}

impl Spots {
    fn list(&self) -> &[u64] {
        match self {
            Spots::One(one) => one,
            Spots::Many(list) => list,
            Spots::Wide => &[],
        }
    }
}

fn square(i: i64, j: i64) -> u64 {
    (u64::from(i as u32) << 32) | u64::from(j as u32)
}

fn spot_of_place(place: Place) -> u64 {
    square(place.x, place.y)
}

fn spot_of_values(columns: &[Column], held: Held) -> u64 {
    let mut hasher = QuickHasher::default();
    for column in columns {
        match column {
            Column::At(at) => held.row.values[*at].hash(&mut hasher),
            Column::Key => Value::Int(held.cell.key).hash(&mut hasher),
        }
    }
    hasher.finish()
}

fn squares_of_parts(held: Held) -> Spots {
    let mut list = Vec::new();
    for ends in held.row.places.windows(2) {
        let (x, y) = ((ends[0].x.min(ends[1].x), ends[0].x.max(ends[1].x)), (ends[0].y.min(ends[1].y), ends[0].y.max(ends[1].y)));
        let (columns, lines) = (x.0.div_euclid(SQUARE)..=x.1.div_euclid(SQUARE), y.0.div_euclid(SQUARE)..=y.1.div_euclid(SQUARE));
        if (columns.end() - columns.start() + 1) * (lines.end() - lines.start() + 1) > MOST_SQUARES {
            return Spots::Wide;
        }
        list.extend(columns.flat_map(|i| lines.clone().map(move |j| square(i, j))));
    }
    list.sort_unstable();
    list.dedup();
    if let [spot] = list[..] { Spots::One([spot]) } else { Spots::Many(list) }
}

fn subject_spots(rule: &Rule, held: Held) -> Spots {
    Spots::One([match rule {
        Rule::Unique { columns, .. } | Rule::Partner { columns, .. } => spot_of_values(columns, held),
        Rule::EndNode { is_first, .. } => spot_of_place(end_of(held, *is_first)),
        Rule::Crossing { .. } => return squares_of_parts(held),
        Rule::Near { distance, .. } => {
            let place = held.row.places[0];
            square(place.x.div_euclid(*distance), place.y.div_euclid(*distance))
        }
    }])
}

/// The spots at which the rows are filed that may call together with a row.
fn spots_beside(rule: &Rule, held: Held) -> Spots {
    let Rule::Near { distance, .. } = rule else { return subject_spots(rule, held) };
    let place = held.row.places[0];
    let (i, j) = (place.x.div_euclid(*distance), place.y.div_euclid(*distance));
    Spots::Many((i - 1..=i + 1).flat_map(|i| (j - 1..=j + 1).map(move |j| square(i, j))).collect())
}

fn server_spot(rule: &Rule, held: Held) -> u64 {
    match rule {
        Rule::Partner { server_columns, .. } => spot_of_values(server_columns, held),
        _ => spot_of_place(held.row.places[0]),
    }
}

fn insert(list: &mut Vec<FiledRow>, filed: FiledRow) {
    match list.last() {
        Some(last) if last.cell >= filed.cell => {
            let at = list.partition_point(|it| it.cell < filed.cell);
            list.insert(at, filed);
        }
        _ => list.push(filed),
    }
}

fn file(map: &mut QuickMap<u64, FiledRows>, spot: u64, filed: FiledRow) {
    match map.get_mut(&spot) {
        None => {
            map.insert(spot, FiledRows::One([filed]));
        }
        Some(FiledRows::Many(list)) => insert(list, filed),
        Some(filed_rows) => {
            let mut list = filed_rows.list().to_vec();
            insert(&mut list, filed);
            *filed_rows = FiledRows::Many(list);
        }
    }
}

fn take_out(map: &mut QuickMap<u64, FiledRows>, spot: u64, cell: Cell) {
    match map.get_mut(&spot) {
        Some(FiledRows::Many(list)) => list.retain(|filed| filed.cell != cell),
        _ => {
            map.remove(&spot);
        }
    }
}

fn list_at(map: &QuickMap<u64, FiledRows>, spot: u64) -> &[FiledRow] {
    map.get(&spot).map_or(&[], FiledRows::list)
}

impl RuleIndex {
    pub fn add(&mut self, rule: &Rule, cell: Cell, row: &Shared) {
        let (held, filed) = (Held { cell, row }, || FiledRow { cell, row: row.clone() });
        if rule.is_subject(held) {
            let spots = subject_spots(rule, held);
            if matches!(spots, Spots::Wide) {
                insert(&mut self.wide, filed());
            }
            for spot in spots.list() {
                file(&mut self.subjects, *spot, filed());
            }
        }
        if rule.server().is_some_and(|side| side.has(held)) {
            file(&mut self.servers, server_spot(rule, held), filed());
        }
    }

    pub fn remove(&mut self, rule: &Rule, cell: Cell, row: &Shared) {
        let held = Held { cell, row };
        if rule.is_subject(held) {
            let spots = subject_spots(rule, held);
            self.wide.retain(|filed| filed.cell != cell);
            for spot in spots.list() {
                take_out(&mut self.subjects, *spot, cell);
            }
        }
        if rule.server().is_some_and(|side| side.has(held)) {
            take_out(&mut self.servers, server_spot(rule, held), cell);
        }
    }

    /// Gives each other row that may call together with a row, once, and maybe more.
    pub fn each_beside<'a>(&'a self, rule: &Rule, held: Held, mut give: impl FnMut(&'a FiledRow)) {
        let spots = spots_beside(rule, held);
        let mut found: Vec<&FiledRow> = match &spots {
            Spots::One([spot]) => {
                list_at(&self.subjects, *spot).iter().for_each(&mut give);
                Vec::new()
            }
            Spots::Many(list) => list.iter().flat_map(|spot| list_at(&self.subjects, *spot)).collect(),
            Spots::Wide => self.subjects.values().flat_map(FiledRows::list).collect(),
        };
        found.sort_unstable_by_key(|filed| filed.cell);
        found.dedup_by_key(|filed| filed.cell);
        found.into_iter().for_each(&mut give);
        self.wide.iter().for_each(give);
    }

    /// The rows of a rule of one subject, or of a crossing, on which a server may lie or whose values it may have.
    pub fn subjects_of(&self, rule: &Rule, server: Held) -> impl Iterator<Item = &FiledRow> {
        let spot = match rule {
            Rule::Crossing { .. } => square(server.row.places[0].x.div_euclid(SQUARE), server.row.places[0].y.div_euclid(SQUARE)),
            _ => server_spot(rule, server),
        };
        list_at(&self.subjects, spot).iter().chain(&self.wide)
    }

    /// The rows that may serve subjects, ascending by cell.
    pub fn servers_of(&self, rule: &Rule, one: Held, other: Option<Held>, parts: (u8, u8)) -> &[FiledRow] {
        let spot = match (rule, other) {
            (Rule::Partner { columns, .. }, _) => Some(spot_of_values(columns, one)),
            (Rule::EndNode { is_first, .. }, _) => Some(spot_of_place(end_of(one, *is_first))),
            (Rule::Crossing { .. }, Some(other)) => {
                crate::geometry::common_place(one.row.part(parts.0), other.row.part(parts.1)).map(spot_of_place)
            }
            _ => None,
        };
        spot.map_or(&[], |spot| list_at(&self.servers, spot))
    }

    fn is_met(&self, rule: &Rule, one: Held, other: Option<Held>, parts: (u8, u8)) -> bool {
        self.servers_of(rule, one, other, parts).iter().any(|filed| rule.serves(one, other, parts, filed.held()))
    }

    /// Gives each broken need of which this row is the first subject.
    fn each_broken_of(&self, number: u16, rule: &Rule, held: Held, give: &mut impl FnMut(Broken)) {
        if rule.single().is_some() {
            if !self.is_met(rule, held, None, (1, 1)) {
                give(Need { rule: number, first: held.cell, second: None, parts: (1, 1) });
            }
            return;
        }
        self.each_beside(rule, held, |filed| {
            if filed.cell > held.cell {
                rule.each_call(held, filed.held(), |parts| {
                    if !self.is_met(rule, held, Some(filed.held()), parts) {
                        give(Need { rule: number, first: held.cell, second: Some(filed.cell), parts });
                    }
                });
            }
        });
    }

    pub fn of(rule: &Rule, rows: &[FiledRow]) -> Self {
        let mut index = RuleIndex::default();
        for filed in rows {
            index.add(rule, filed.cell, &filed.row);
        }
        index
    }

    pub fn each_broken(&self, number: u16, rule: &Rule, rows: &[FiledRow], give: &mut impl FnMut(Broken)) {
        for filed in rows.iter().filter(|filed| rule.is_subject(filed.held())) {
            self.each_broken_of(number, rule, filed.held(), give);
        }
    }
}

/// All broken needs of some rows, ascending.
pub fn audit(rules: &[Rule], rows: &[FiledRow]) -> Vec<Broken> {
    let mut list = Vec::new();
    for (number, rule) in rules.iter().enumerate() {
        RuleIndex::of(rule, rows).each_broken(number as u16, rule, rows, &mut |broken| list.push(broken));
    }
    list.sort_unstable();
    list.dedup();
    list
}

/// The rows of a content by their spots, for each rule; or the least broken need that isn't known.
pub fn index_or_broken(rules: &[Rule], known: &HashSet<Broken>, rows: &[FiledRow]) -> Result<Vec<RuleIndex>, Broken> {
    let mut indexes = Vec::new();
    for (number, rule) in rules.iter().enumerate() {
        let index = RuleIndex::of(rule, rows);
        let mut least: Option<Broken> = None;
        index.each_broken(number as u16, rule, rows, &mut |broken| {
            if least.is_none_or(|it| broken < it) && !known.contains(&broken) {
                least = Some(broken);
            }
        });
        if let Some(broken) = least {
            return Err(broken);
        }
        indexes.push(index);
    }
    Ok(indexes)
}
