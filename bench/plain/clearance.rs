// Plans, certificates and verdicts: docs/FORMATS.md, Certificate and Lines.
use crate::csv::{number, push_record, records};
use crate::rows::{Cell, Schema};
use crate::rules::{Broken, Need};
use crate::scene::{Asked, Scene, Version, Witnesses, shared_cell};
use crate::tree::{Change, Office};
use std::collections::{HashMap, HashSet};

pub enum Plan {
    Unfit(String),
    Blocked { order: Vec<String>, cause: String },
    Cleared(Vec<(Asked, Witnesses)>),
}

pub struct Certificate {
    pub root: String,
    pub members: Vec<String>,
    pub entries: Vec<(Asked, Witnesses)>,
}

pub fn cell_text(schema: &Schema, cell: Cell) -> String {
    format!("{}/{}", schema.tables[usize::from(cell.table)].name, cell.key)
}

fn version_text(schema: &Schema, version: Version) -> String {
    format!("{}/{}", cell_text(schema, version.cell), if version.is_new { "new" } else { "old" })
}

fn part_text(part: u8) -> String {
    if part == 1 { String::new() } else { format!("/{part}") }
}

fn need_text<V: Copy>(schema: &Schema, need: Need<V>, text: fn(&Schema, V) -> String) -> String {
    let first = format!("rule {} {}{}", need.rule, text(schema, need.first), part_text(need.parts.0));
    need.second.map_or(first.clone(), |second| format!("{first} {}{}", text(schema, second), part_text(need.parts.1)))
}

pub fn broken_text(schema: &Schema, need: Broken) -> String {
    need_text(schema, need, cell_text)
}

struct Site {
    root: usize,
    members: Vec<usize>,
}

/// The root and the members by their names, or the verdict of the first test of names that fails.
fn site(office: &Office, root: &str, names: &[String]) -> Result<Site, String> {
    let kept = office.find(root).filter(|at| office.spaces[*at].index.is_some());
    let at_root = kept.ok_or_else(|| format!("7 NotKept {root}"))?;
    let mut seen = HashSet::new();
    if let Some(name) = names.iter().find(|name| !seen.insert(*name)) {
        return Err(format!("1 RepeatedMember {name}"));
    }
    let find = |name: &String| office.find(name).ok_or_else(|| format!("2 NoWorkspace {name}"));
    let members = names.iter().map(find).collect::<Result<Vec<_>, _>>()?;
    let is_child = |at: usize| at != 0 && office.spaces[at].parent == at_root;
    match members.iter().position(|member| !is_child(*member)) {
        Some(member) => Err(format!("3 NotUnderRoot {}", names[member])),
        None => Ok(Site { root: at_root, members }),
    }
}

/// The members that can't be merged in turn, and the verdict: a conflict, or a cell that two change.
fn sets_fault(office: &Office, names: &[String], members: &[usize], sets: &[Vec<Change>]) -> Option<(Vec<usize>, String)> {
    for (member, at) in members.iter().enumerate() {
        let conflicts = office.conflicts(*at);
        if let Some(first) = conflicts.first() {
            return Some((vec![member], format!("4 Conflict {} {} {}", names[member], cell_text(&office.schema, *first), conflicts.len())));
        }
    }
    let (cell, one, other) = shared_cell(sets)?;
    let verdict = format!("5 SharedCell {} {} {}", cell_text(&office.schema, cell), names[one], names[other]);
    Some((vec![one, other], verdict))
}

pub fn plan(office: &Office, root: &str, names: &[String]) -> Plan {
    let site = match site(office, root, names) {
        Ok(site) => site,
        Err(verdict) => return Plan::Unfit(verdict),
    };
    let sets: Vec<Vec<Change>> = site.members.iter().map(|at| office.changes(*at)).collect();
    let blocked = |members: Vec<usize>, cause| Plan::Blocked { order: members.into_iter().map(|it| names[it].clone()).collect(), cause };
    if let Some((members, cause)) = sets_fault(office, names, &site.members, &sets) {
        return blocked(members, cause);
    }
    let scene = Scene::new(office, site.root, &sets);
    let mut entries = Vec::new();
    for need in scene.touched_needs() {
        match scene.pick(need) {
            Some(witnesses) => entries.push((need, witnesses)),
            None => return blocked(scene.blockers(need), format!("6 Uncovered {}", need_text(&office.schema, need, version_text))),
        }
    }
    Plan::Cleared(entries)
}

/// The line of the verdict on a certificate; none where it is clear.
pub fn verdict(office: &Office, certificate: &Certificate) -> Option<String> {
    let site = match site(office, &certificate.root, &certificate.members) {
        Ok(site) => site,
        Err(verdict) => return Some(verdict),
    };
    let sets: Vec<Vec<Change>> = site.members.iter().map(|at| office.changes(*at)).collect();
    if let Some((_, verdict)) = sets_fault(office, &certificate.members, &site.members, &sets) {
        return Some(verdict);
    }
    let mut witnesses: HashMap<Asked, Vec<Witnesses>> = HashMap::new();
    for (need, given) in &certificate.entries {
        witnesses.entry(*need).or_default().push(*given);
    }
    let scene = Scene::new(office, site.root, &sets);
    let is_covered = |need: &Asked| witnesses.get(need).is_some_and(|list| list.iter().any(|given| scene.covers(*need, *given)));
    let uncovered = scene.touched_needs().into_iter().find(|need| !is_covered(need))?;
    Some(format!("6 Uncovered {}", need_text(&office.schema, uncovered, version_text)))
}

/// Whether a merge is quiet for a certificate's root and members.
pub fn is_quiet_merge(office: &Office, certificate: &Certificate, name: &str) -> bool {
    let is_member = |name: &str| certificate.members.iter().any(|member| member == name);
    let parent = || office.find(name).filter(|at| *at != 0).map(|at| office.spaces[office.spaces[at].parent].name.as_str());
    is_member(name) || name != certificate.root && parent().is_some_and(|parent| parent != certificate.root && !is_member(parent))
}

fn version(schema: &Schema, text: &str) -> Option<(Version, u8)> {
    let mut pieces = text.split('/');
    let cell = Cell { table: schema.table(pieces.next()?)?, key: number(pieces.next()?)? };
    let is_new = match pieces.next()? {
        "new" => true,
        "old" => false,
        _ => return None,
    };
    let part = pieces.next().map_or(Some(1), |part| number(part)?.try_into().ok())?;
    Some((Version { cell, is_new }, part))
}

fn entry(schema: &Schema, record: &[String]) -> Option<(Asked, Witnesses)> {
    let maybe = |text: &str| if text.is_empty() { Some(None) } else { version(schema, text).map(Some) };
    let (first, second) = (version(schema, &record[2])?, maybe(&record[3])?);
    let parts = (first.1, second.map_or(1, |second| second.1));
    let need = Need { rule: number(&record[1])?.try_into().ok()?, first: first.0, second: second.map(|it| it.0), parts };
    Some((need, (version(schema, &record[4])?.0, maybe(&record[5])?.map(|it| it.0))))
}

pub fn read_certificate(schema: &Schema, text: &str) -> Option<Certificate> {
    let mut certificate = Certificate { root: "LIVE".into(), members: Vec::new(), entries: Vec::new() };
    for record in records(text) {
        if record.len() != 6 {
            return None;
        }
        match record[0].as_str() {
            "root" => certificate.root = record[1].clone(),
            "member" => certificate.members.push(record[1].clone()),
            "need" => certificate.entries.push(entry(schema, &record)?),
            _ => return None,
        }
    }
    Some(certificate)
}

fn push_entry(to: &mut String, schema: &Schema, (need, witnesses): &(Asked, Witnesses)) {
    let maybe = |version: Option<Version>| version.map_or(String::new(), |it| version_text(schema, it));
    let first = version_text(schema, need.first) + &part_text(need.parts.0);
    let second = need.second.map_or(String::new(), |it| version_text(schema, it) + &part_text(need.parts.1));
    let fields = ["need", &need.rule.to_string(), &first, &second, &version_text(schema, witnesses.0), &maybe(witnesses.1)];
    push_record(to, fields);
}

/// Puts the lines of a plan behind what is there, and tells whether it is cleared.
pub fn push_plan(to: &mut String, office: &Office, root: &str, names: &[String]) -> bool {
    match plan(office, root, names) {
        Plan::Unfit(verdict) => to.push_str(&format!("unfit {verdict}\n")),
        Plan::Blocked { order, cause } => {
            let names: String = order.iter().map(|name| format!(" {name}")).collect();
            to.push_str(&format!("blocked {}{names}\ncause {cause}\n", order.len()));
        }
        Plan::Cleared(entries) => {
            to.push_str(&format!("cleared {}\n", entries.len()));
            if root != "LIVE" {
                push_record(to, ["root", root, "", "", "", ""]);
            }
            names.iter().for_each(|name| push_record(to, ["member", name, "", "", "", ""]));
            entries.iter().for_each(|entry| push_entry(to, &office.schema, entry));
            return true;
        }
    }
    false
}
