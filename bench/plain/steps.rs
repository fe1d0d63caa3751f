// Commands and reports of a script: docs/FORMATS.md, Script and Lines.
use crate::clearance::{broken_text, cell_text, push_plan};
use crate::csv::{number, push_record, records};
use crate::geometry::Place;
use crate::index::{audit, index_or_broken};
use crate::office_text;
use crate::rows::{Cell, Form, Held, Kind, Row, Schema, Shared, Value, key_fault};
use crate::rules::Broken;
use crate::scene::Scene;
use crate::tree::{Change, LIVE, Layer, Mark, Office, Space};
use std::collections::HashSet;

const MOST_SPACES: usize = 256;
const MOST_LEVELS: usize = 8;
const MOST_SAVEPOINTS: usize = 64;
const LONGEST_NAME: usize = 30;

#[derive(PartialEq)]
enum Edit {
    Insert(Cell, Shared),
    Update(Cell, Shared),
    Delete(Cell),
}

pub struct Step {
    words: Vec<String>,
    edits: Vec<Edit>,
}

type Done = Result<(), String>;

fn row_of(schema: &Schema, table: u16, fields: &[String]) -> Option<Row> {
    let table = &schema.tables[usize::from(table)];
    let (values, numbers) = fields.split_at_checked(table.columns.len())?;
    let value = |(field, column): (&String, &(String, Kind))| match column.1 {
        Kind::Int => number(field).map(Value::Int),
        Kind::Text => Some(Value::Text(field.as_str().into())),
    };
    let values = values.iter().zip(&table.columns).map(value).collect::<Option<_>>()?;
    let place = |pair: &[String]| Some(Place { x: number(&pair[0])?, y: number(&pair[1])? });
    let is_count = match table.form {
        Form::Bare => numbers.is_empty(),
        Form::Point => numbers.len() == 2,
        Form::Segment => numbers.len() == 4,
        Form::Path => numbers.len() % 2 == 0 && (4..=64).contains(&numbers.len()),
    };
    let places = numbers.chunks_exact(2).map(place).collect::<Option<_>>()?;
    is_count.then_some(Row { values, places })
}

fn edit_of(schema: &Schema, record: &[String]) -> Option<Edit> {
    let [word, table, key, rest @ ..] = record else { return None };
    let cell = Cell { table: schema.table(table)?, key: number(key)? };
    let row = || row_of(schema, cell.table, rest).map(Shared::new);
    match word.as_str() {
        "insert" => Some(Edit::Insert(cell, row()?)),
        "update" => Some(Edit::Update(cell, row()?)),
        "delete" => rest.is_empty().then_some(Edit::Delete(cell)),
        _ => None,
    }
}

/// How many fields a record of this word has.
fn is_count(word: &str, count: usize) -> bool {
    match word {
        "create" | "apply" | "mark" | "unmark" | "rollto" | "merge" => count == 3,
        "remove" | "rollall" | "refresh" | "hold" | "release" | "show" | "changes" | "conflicts" | "audit" => count == 2,
        "resolve" => count == 5,
        "workspaces" | "dump" => count == 1,
        "plan" => count >= 1,
        "planunder" => count >= 2,
        _ => false,
    }
}

pub fn read_script(schema: &Schema, text: &str) -> Option<Vec<Step>> {
    let (mut steps, mut records) = (Vec::new(), records(text).into_iter());
    while let Some(words) = records.next() {
        if !is_count(&words[0], words.len()) {
            return None;
        }
        let count = if words[0] == "apply" { number(&words[2])?.try_into().ok()? } else { 0 };
        let edits = records.by_ref().take(count).map(|record| edit_of(schema, &record)).collect::<Option<Vec<_>>>()?;
        if edits.len() < count || words[0] == "merge" && words[2] != "keep" && words[2] != "remove" {
            return None;
        }
        if words[0] == "resolve" && (schema.table(&words[2]).is_none() || number(&words[3]).is_none() || !["PARENT", "CHILD", "BASE"].contains(&&*words[4])) {
            return None;
        }
        steps.push(Step { words, edits });
    }
    Some(steps)
}

fn is_good_name(name: &str) -> bool {
    let is_letter = |byte: u8| byte.is_ascii_alphanumeric() || byte == b'_';
    (1..=LONGEST_NAME).contains(&name.len()) && name.as_bytes()[0].is_ascii_alphabetic() && name.bytes().all(is_letter)
}

fn demand(is_so: bool, refusal: &str) -> Done {
    if is_so { Ok(()) } else { Err(refusal.into()) }
}

fn demand_no_conflict(office: &Office, at: usize) -> Done {
    let conflicts = office.conflicts(at);
    conflicts.first().map_or(Ok(()), |first| Err(format!("10 Conflict {} {}", cell_text(&office.schema, *first), conflicts.len())))
}

/// Demands that each rule holds after these changes, where the workspace is kept.
fn demand_rules(office: &Office, at: usize, changes: Vec<Change>) -> Result<Vec<Change>, String> {
    let mut sets = [changes];
    if office.spaces[at].index.is_some() && !sets[0].is_empty() {
        if let Some(broken) = Scene::new(office, at, &sets).first_broken() {
            return Err(format!("12 RuleBroken {}", broken_text(&office.schema, broken)));
        }
    }
    Ok(std::mem::take(&mut sets[0]))
}

fn create(office: &mut Office, name: &str, parent: &str) -> Done {
    let parent = office.find(parent).ok_or("1 NoWorkspace")?;
    demand(is_good_name(name), "3 BadName")?;
    demand(office.find(name).is_none(), "2 NameTaken")?;
    demand(office.spaces.len() < MOST_SPACES && office.level(parent) < MOST_LEVELS, "6 TooMany")?;
    office.spaces.push(Space::new(name, parent));
    if parent != LIVE {
        office.spaces[parent].marks.push(Mark::Child(name.into()));
    }
    Ok(())
}

fn stage(office: &Office, at: usize, staged: &mut Layer, edit: &Edit) -> Result<(), &'static str> {
    let stands = |staged: &Layer, cell: &Cell| staged.get(cell).map_or_else(|| office.row(at, *cell).is_some(), Option::is_some);
    let (cell, row) = match edit {
        Edit::Insert(cell, row) | Edit::Update(cell, row) => (cell, Some(row)),
        Edit::Delete(cell) => (cell, None),
    };
    let fault = row.map_or_else(|| key_fault(*cell), |row| office.schema.fault(*cell, row));
    fault.map_or(Ok(()), Err)?;
    match (edit, stands(staged, cell)) {
        (Edit::Insert(..), true) => Err("KeyTaken"),
        (Edit::Update(..) | Edit::Delete(_), false) => Err("NoRow"),
        _ => {
            staged.insert(*cell, row.cloned());
            Ok(())
        }
    }
}

fn apply(office: &mut Office, at: usize, edits: &[Edit]) -> Done {
    let mut staged = Layer::new();
    for (number, edit) in edits.iter().enumerate() {
        stage(office, at, &mut staged, edit).map_err(|fault| format!("9 BadEdit {} {fault}", number + 1))?;
    }
    let change = |(cell, after)| Change { cell, before: office.row(at, cell).cloned(), after };
    let changes = staged.into_iter().map(change).filter(|change| change.before != change.after).collect();
    let changes = demand_rules(office, at, changes)?;
    office.make(at, changes);
    Ok(())
}

fn roll_to(office: &mut Office, at: usize, name: &str) -> Done {
    let mark = office.spaces[at].savepoint(name).ok_or("7 NoSavepoint")?;
    demand(!office.spaces[at].marks[mark..].iter().any(|mark| matches!(mark, Mark::Child(_))), "8 SavepointHeld")?;
    let Mark::Savepoint(_, layer) = &office.spaces[at].marks[mark] else { return Ok(()) };
    let changes = demand_rules(office, at, office.changes_to(at, layer))?;
    office.make(at, changes);
    office.spaces[at].marks.truncate(mark + 1);
    Ok(())
}

fn roll_all(office: &mut Office, at: usize) -> Done {
    demand(office.children(at).next().is_none(), "5 NotLeaf")?;
    let changes = demand_rules(office, at, office.changes_to(at, &Layer::new()))?;
    office.make(at, changes);
    office.spaces[at].drop_savepoints();
    Ok(())
}

fn refresh(office: &mut Office, at: usize) -> Done {
    demand_no_conflict(office, at)?;
    let parent = office.spaces[at].parent;
    let mut changes = office.changes_of_refresh(at);
    if office.spaces[parent].index.is_none() {
        changes = demand_rules(office, at, changes)?;
    } else if office.spaces[at].index.is_some() {
        demand_rules(office, parent, office.changes(at))?;
    }
    office.spaces[at].drop_savepoints();
    office.make(at, changes);
    for cell in office.spaces[at].base.keys().copied().collect::<Vec<_>>() {
        office.set_base_row(at, cell, office.row(parent, cell).cloned());
    }
    if parent != LIVE {
        let name = office.spaces[at].name.clone();
        office.spaces[parent].drop_child(&name);
        office.spaces[parent].marks.push(Mark::Child(name));
    }
    Ok(())
}

pub fn merge(office: &mut Office, at: usize, is_removed: bool) -> Done {
    demand(!is_removed || office.children(at).next().is_none(), "5 NotLeaf")?;
    demand_no_conflict(office, at)?;
    let parent = office.spaces[at].parent;
    let changes = demand_rules(office, parent, office.changes(at))?;
    for change in changes {
        office.set_row(parent, change.cell, change.after.clone());
        office.set_base_row(at, change.cell, change.after);
    }
    office.spaces[at].drop_savepoints();
    if is_removed {
        office.remove(at);
    }
    Ok(())
}

fn resolve(office: &mut Office, at: usize, cell: Cell, keep: &str) -> Done {
    demand(office.conflicts(at).contains(&cell), "11 NotInConflict")?;
    let of_parent = office.row(office.spaces[at].parent, cell).cloned();
    let before = office.row(at, cell).cloned();
    let after = match keep {
        "PARENT" => of_parent.clone(),
        "BASE" => office.base_row(at, cell).cloned(),
        _ => before.clone(),
    };
    let changes = if before == after { Vec::new() } else { vec![Change { cell, before, after }] };
    let changes = demand_rules(office, at, changes)?;
    office.set_base_row(at, cell, of_parent);
    office.make(at, changes);
    Ok(())
}

fn mark(office: &mut Office, at: usize, name: &str) -> Done {
    let space = &mut office.spaces[at];
    demand(is_good_name(name), "3 BadName")?;
    demand(space.savepoint(name).is_none(), "2 NameTaken")?;
    demand(space.savepoints() < MOST_SAVEPOINTS, "6 TooMany")?;
    space.marks.push(Mark::Savepoint(name.into(), space.current.clone()));
    Ok(())
}

/// The needs that the parent breaks, if the rules are to hold there, with rows that a workspace has too.
fn broken_above(office: &Office, at: usize) -> HashSet<Broken> {
    let parent = office.spaces[at].parent;
    if office.spaces[parent].index.is_none() {
        return HashSet::new();
    }
    let is_same = |cell: Cell| office.row(parent, cell) == office.row(at, cell);
    let broken = audit(&office.rules, &office.rows(parent)).into_iter();
    broken.filter(|need| is_same(need.first) && need.second.is_none_or(is_same)).collect()
}

fn hold(office: &mut Office, at: usize) -> Done {
    if !office.spaces[at].is_kept {
        let indexes = index_or_broken(&office.rules, &broken_above(office, at), &office.rows(at)).map_err(|broken| format!("12 RuleBroken {}", broken_text(&office.schema, broken)))?;
        office.spaces[at].index = Some(indexes);
        office.spaces[at].is_kept = true;
    }
    Ok(())
}

fn perform(office: &mut Office, step: &Step) -> Done {
    let word = |at: usize| step.words[at].as_str();
    if word(0) == "create" {
        return create(office, word(1), word(2));
    }
    let at = office.find(word(1)).ok_or("1 NoWorkspace")?;
    if word(0) == "apply" {
        return apply(office, at, &step.edits);
    }
    demand(at != LIVE, "4 LiveIsFixed")?;
    match word(0) {
        "remove" => {
            demand(office.children(at).next().is_none(), "5 NotLeaf")?;
            office.remove(at);
        }
        "mark" => return mark(office, at, word(2)),
        "unmark" => {
            let mark = office.spaces[at].savepoint(word(2)).ok_or("7 NoSavepoint")?;
            office.spaces[at].marks.remove(mark);
        }
        "rollto" => return roll_to(office, at, word(2)),
        "rollall" => return roll_all(office, at),
        "refresh" => return refresh(office, at),
        "merge" => return merge(office, at, word(2) == "remove"),
        "resolve" => {
            let cell = Cell { table: office.schema.table(word(2)).unwrap_or(0), key: number(word(3)).unwrap_or(0) };
            return resolve(office, at, cell, word(4));
        }
        "hold" => return hold(office, at),
        _ => {
            office.spaces[at].is_kept = false;
            office.spaces[at].index = None;
        }
    }
    Ok(())
}

/// Puts the line of a reply behind what is there, and tells whether it is done.
pub fn push_reply(to: &mut String, reply: Done) -> bool {
    match &reply {
        Ok(()) => to.push_str("done\n"),
        Err(refusal) => to.push_str(&format!("refused {refusal}\n")),
    }
    reply.is_ok()
}

fn push_rows(to: &mut String, office: &Office, at: usize) {
    let rows = office.rows(at);
    to.push_str(&format!("rows {}\n", rows.len()));
    for filed in rows {
        let Held { cell, row } = filed.held();
        let value = |value: &Value| match value {
            Value::Int(number) => number.to_string(),
            Value::Text(text) => text.to_string(),
        };
        let mut fields = vec![office.schema.tables[usize::from(cell.table)].name.clone(), cell.key.to_string()];
        fields.extend(row.values.iter().map(value));
        fields.extend(row.places.iter().flat_map(|place| [place.x.to_string(), place.y.to_string()]));
        push_record(to, fields.iter().map(String::as_str));
    }
}

fn push_changes(to: &mut String, office: &Office, at: usize) {
    let changes = if at == LIVE { Vec::new() } else { office.changes(at) };
    to.push_str(&format!("changes {}\n", changes.len()));
    for change in changes {
        let word = match (change.before, change.after) {
            (None, _) => "insert",
            (_, None) => "delete",
            _ => "update",
        };
        to.push_str(&format!("{word} {}\n", cell_text(&office.schema, change.cell)));
    }
}

pub fn push_audit(to: &mut String, office: &Office, at: usize) -> bool {
    let broken = audit(&office.rules, &office.rows(at));
    to.push_str(&format!("broken {}\n", broken.len()));
    broken.iter().for_each(|need| to.push_str(&format!("{}\n", broken_text(&office.schema, *need))));
    broken.is_empty()
}

fn push_workspaces(to: &mut String, office: &Office) {
    to.push_str(&format!("workspaces {}\n", office.spaces.len() - 1));
    for (at, space) in office.spaces.iter().enumerate().skip(1) {
        let (parent, kept) = (&office.spaces[space.parent].name, if space.is_kept { " kept" } else { "" });
        to.push_str(&format!("{} {parent} {} {}{kept}\n", space.name, space.current.len(), office.conflicts(at).len()));
    }
}

/// Puts the lines of a report on one workspace behind what is there, and tells whether it shows nothing amiss.
fn push_report(to: &mut String, office: &Office, word: &str, at: usize) -> bool {
    match word {
        "show" => push_rows(to, office, at),
        "changes" => push_changes(to, office, at),
        "audit" => return push_audit(to, office, at),
        _ => {
            let conflicts = office.conflicts(at);
            to.push_str(&format!("conflicts {}\n", conflicts.len()));
            conflicts.iter().for_each(|cell| to.push_str(&format!("{}\n", cell_text(&office.schema, *cell))));
        }
    }
    true
}

/// Performs a step and puts its lines behind what is there; tells whether nothing was refused.
pub fn take(to: &mut String, office: &mut Office, step: &Step) -> bool {
    match step.words[0].as_str() {
        "workspaces" => push_workspaces(to, office),
        "dump" => office_text::push(to, office),
        "plan" => return push_plan(to, office, "LIVE", &step.words[1..]),
        "planunder" => return push_plan(to, office, &step.words[1], &step.words[2..]),
        "show" | "changes" | "conflicts" | "audit" => match office.find(&step.words[1]) {
            Some(at) => return push_report(to, office, &step.words[0], at),
            None => return push_reply(to, Err("1 NoWorkspace".into())),
        },
        _ => {
            let reply = perform(office, step);
            return push_reply(to, reply);
        }
    }
    true
}
