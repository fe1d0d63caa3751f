// Office texts, read and written: docs/FORMATS.md, Office text. A text that is refused is refused without saying why.
use crate::geometry::Place;
use crate::json::{NotJson, Read, Reader, push_text};
use crate::rows::{Cell, Form, Kind, Row, Schema, Shared, Table, Value};
use crate::rules::{Broken, Column, Need, Rule, Side};
use crate::tree::{LIVE, Layer, Mark, Office, Space};
use std::collections::{BTreeMap, HashMap, HashSet};

fn demand(is_so: bool) -> Read<()> {
    if is_so { Ok(()) } else { Err(NotJson) }
}

fn value(reader: &mut Reader) -> Read<Value> {
    Ok(if reader.peek() == b'"' { Value::Text(reader.text()?.into()) } else { Value::Int(reader.int()?) })
}

fn text(reader: &mut Reader) -> Read<String> {
    reader.text().map(String::from)
}

fn list<T>(reader: &mut Reader, mut each: impl FnMut(&mut Reader) -> Read<T>) -> Read<Vec<T>> {
    let mut items = Vec::new();
    reader.list(|reader| Ok(items.push(each(reader)?)))?;
    Ok(items)
}

fn pair<A, B>(reader: &mut Reader, first: impl Fn(&mut Reader) -> Read<A>, second: impl Fn(&mut Reader) -> Read<B>) -> Read<(A, B)> {
    let (mut one, mut other) = (None, None);
    reader.list(|reader| {
        match &one {
            None => one = Some(first(reader)?),
            Some(_) if other.is_none() => other = Some(second(reader)?),
            Some(_) => return Err(NotJson),
        }
        Ok(())
    })?;
    one.zip(other).ok_or(NotJson)
}

fn table(reader: &mut Reader) -> Read<Table> {
    let (mut name, mut columns, mut form) = (None, None, None);
    let kind = |reader: &mut Reader| Ok(if reader.text()? == "INT" { Kind::Int } else { Kind::Text });
    reader.object(|reader, key| {
        match key {
            "name" => name = Some(text(reader)?),
            "columns" => columns = Some(list(reader, |reader| pair(reader, text, kind))?),
            "shape" => {
                form = Some(match &*reader.text()? {
                    "NONE" => Form::Bare,
                    "POINT" => Form::Point,
                    "SEGMENT" => Form::Segment,
                    "PATH" => Form::Path,
                    _ => return Err(NotJson),
                })
            }
            _ => reader.skip()?,
        }
        Ok(())
    })?;
    Ok(Table { name: name.ok_or(NotJson)?, columns: columns.ok_or(NotJson)?, form: form.ok_or(NotJson)? })
}

/// Reads a value, or goes over one of another form, which may be looked at or not.
fn if_of_form<T>(reader: &mut Reader, read: impl Fn(&mut Reader) -> Read<T>) -> Read<Option<T>> {
    let from = reader.at();
    match read(reader) {
        Ok(value) => Ok(Some(value)),
        Err(_) => reader.skip_from(from).map(|()| None),
    }
}

/// A cell with its row, or with none where it is gone.
fn cell(reader: &mut Reader, schema: &Schema) -> Read<(Cell, Option<Shared>)> {
    let (mut table, mut key, mut values, mut numbers, mut is_gone) = (None, None, None, None, false);
    reader.object(|reader, name| {
        match name {
            "t" => table = Some(schema.table(&reader.text()?).ok_or(NotJson)?),
            "k" => key = Some(reader.int()?),
            "v" => values = if_of_form(reader, |reader| list(reader, value))?,
            "s" => numbers = if_of_form(reader, |reader| list(reader, |reader| reader.int()))?,
            "gone" => is_gone = reader.bool()?,
            _ => reader.skip()?,
        }
        Ok(())
    })?;
    let cell = Cell { table: table.ok_or(NotJson)?, key: key.ok_or(NotJson)? };
    if is_gone {
        return Ok((cell, None));
    }
    let (values, numbers): (Vec<Value>, Vec<i64>) = values.zip(numbers).ok_or(NotJson)?;
    let places = numbers.chunks_exact(2).map(|place| Place { x: place[0], y: place[1] }).collect();
    let row = Row { values: values.into(), places };
    demand(numbers.len() % 2 == 0 && schema.fault(cell, &row).is_none())?;
    Ok((cell, Some(row.into())))
}

fn layer(reader: &mut Reader, schema: &Schema) -> Read<Layer> {
    let cells = list(reader, |reader| cell(reader, schema))?;
    let (count, layer) = (cells.len(), cells.into_iter().collect::<Layer>());
    demand(layer.len() == count)?;
    Ok(layer)
}

#[derive(Default)]
struct RuleText {
    words: HashMap<String, String>,
    sides: HashMap<String, (String, Vec<(String, Value)>)>,
    columns: HashMap<String, Vec<String>>,
    distance: i64,
    known: Vec<Vec<i64>>,
}

fn side_text(reader: &mut Reader) -> Read<(String, Vec<(String, Value)>)> {
    let (mut table, mut filter) = (None, Vec::new());
    reader.object(|reader, key| {
        match key {
            "table" => table = Some(text(reader)?),
            "where" => filter = list(reader, |reader| pair(reader, text, value))?,
            _ => reader.skip()?,
        }
        Ok(())
    })?;
    Ok((table.ok_or(NotJson)?, filter))
}

fn rule_text(reader: &mut Reader) -> Read<RuleText> {
    let mut rule = RuleText::default();
    reader.object(|reader, key| {
        match key {
            "kind" | "tip" => _ = rule.words.insert(key.into(), text(reader)?),
            "subject" | "server" | "a" | "b" => _ = rule.sides.insert(key.into(), side_text(reader)?),
            "columns" | "server_columns" => _ = rule.columns.insert(key.into(), list(reader, text)?),
            "d" => rule.distance = reader.int()?,
            "known" => rule.known = if_of_form(reader, |reader| list(reader, |reader| list(reader, |reader| reader.int())))?.unwrap_or_default(),
            _ => reader.skip()?,
        }
        Ok(())
    })?;
    Ok(rule)
}

impl RuleText {
    fn side(&self, schema: &Schema, key: &str) -> Read<Side> {
        let (name, filter) = self.sides.get(key).ok_or(NotJson)?;
        let table = schema.table(name).ok_or(NotJson)?;
        let literal = |(column, value): &(String, Value)| Ok((schema.column(table, column).ok_or(NotJson)?, value.clone()));
        Ok(Side { table, filter: filter.iter().map(literal).collect::<Read<_>>()? })
    }

    fn columns(&self, schema: &Schema, key: &str, table: u16) -> Read<Vec<Column>> {
        let column = |name: &String| if name == "KEY" { Ok(Column::Key) } else { schema.column(table, name).map(Column::At).ok_or(NotJson) };
        self.columns.get(key).ok_or(NotJson)?.iter().map(column).collect()
    }

    fn rule(&self, schema: &Schema) -> Read<Rule> {
        let side = |key| self.side(schema, key);
        Ok(match self.words.get("kind").ok_or(NotJson)?.as_str() {
            "UNIQUE" => {
                let subject = side("subject")?;
                let mut columns = self.columns(schema, "columns", subject.table)?;
                columns.sort_unstable();
                columns.dedup();
                Rule::Unique { subject, columns }
            }
            "PARTNER" => {
                let (subject, server) = (side("subject")?, side("server")?);
                let columns = self.columns(schema, "columns", subject.table)?;
                let server_columns = self.columns(schema, "server_columns", server.table)?;
                Rule::Partner { subject, columns, server, server_columns }
            }
            "ENDNODE" => Rule::EndNode { subject: side("subject")?, is_first: self.words.get("tip").ok_or(NotJson)? == "FIRST", server: side("server")? },
            "CROSSING" => Rule::Crossing { a: side("a")?, b: side("b")?, server: side("server")? },
            "NEAR" => Rule::Near { a: side("a")?, b: side("b")?, distance: self.distance },
            _ => return Err(NotJson),
        })
    }

    /// The needs of the rule of this number that are known to be broken.
    fn known(&self, number: usize, rule: &Rule) -> Read<Vec<Broken>> {
        let (low, high) = rule.tables();
        let part = |known: &[i64], at: usize| known.get(at).map_or(Ok(1), |part| u8::try_from(*part).map_err(|_| NotJson));
        let need = |known: &Vec<i64>| {
            let first = Cell { table: low, key: *known.first().ok_or(NotJson)? };
            let second = known.get(1).map(|key| Cell { table: high, key: *key });
            Ok(Need { rule: number as u16, first, second, parts: (part(known, 2)?, part(known, 3)?) })
        };
        self.known.iter().map(need).collect()
    }

    fn push_to(&self, to: &mut String) {
        let mut keys: BTreeMap<&str, String> = BTreeMap::new();
        self.words.iter().for_each(|(key, word)| _ = keys.insert(key, format!("\"{word}\"")));
        self.sides.iter().for_each(|(key, side)| _ = keys.insert(key, side_written(side)));
        self.columns.iter().for_each(|(key, names)| _ = keys.insert(key, format!("[\"{}\"]", names.join("\",\""))));
        if self.words.get("kind").is_some_and(|kind| kind == "NEAR") {
            keys.insert("d", self.distance.to_string());
        }
        let fields: Vec<String> = keys.into_iter().map(|(key, text)| format!("\"{key}\":{text}")).collect();
        to.push_str(&format!("{{{}}}", fields.join(",")));
    }
}

fn side_written((table, filter): &(String, Vec<(String, Value)>)) -> String {
    let mut text = format!("{{\"table\":\"{table}\",\"where\":");
    push_list(&mut text, filter, |to, (column, literal)| {
        to.push_str(&format!("[\"{column}\","));
        push_value(to, literal);
        to.push(']');
    });
    text + "}"
}

fn mark(reader: &mut Reader, schema: &Schema) -> Read<Mark> {
    let (mut child, mut name, mut rows) = (None, None, Some(Layer::new()));
    reader.object(|reader, key| {
        match key {
            "child" => child = Some(text(reader)?),
            "savepoint" => name = if_of_form(reader, text)?,
            "rows" => rows = if_of_form(reader, |reader| layer(reader, schema))?,
            _ => reader.skip()?,
        }
        Ok(())
    })?;
    match child {
        Some(name) => Ok(Mark::Child(name)),
        None => Ok(Mark::Savepoint(name.ok_or(NotJson)?, rows.ok_or(NotJson)?)),
    }
}

/// Reads a workspace and puts it behind the others, without differences that have the row of what they lie over.
fn workspace(reader: &mut Reader, office: &mut Office, format: i64) -> Read<()> {
    let (mut parent, mut space) = (None, Space::new("", LIVE));
    reader.object(|reader, key| {
        match key {
            "name" => space.name = text(reader)?,
            "parent" => parent = Some(office.find(&reader.text()?).ok_or(NotJson)?),
            "base" => space.base = layer(reader, &office.schema)?,
            "rows" => space.current = layer(reader, &office.schema)?,
            "marks" => space.marks = list(reader, |reader| mark(reader, &office.schema))?,
            "kept" if format >= 3 => space.is_kept = reader.bool()?,
            _ => reader.skip()?,
        }
        Ok(())
    })?;
    space.parent = parent.ok_or(NotJson)?;
    space.base.retain(|cell, row| office.row(space.parent, *cell) != row.as_ref());
    let (base, below) = (std::mem::take(&mut space.base), space.parent);
    let is_other = |cell: &Cell, row: &mut Option<Shared>| base.get(cell).map_or_else(|| office.row(below, *cell), Option::as_ref) != row.as_ref();
    space.current.retain(is_other);
    for mark in &mut space.marks {
        if let Mark::Savepoint(_, layer) = mark {
            layer.retain(is_other);
        }
    }
    space.base = base;
    demand(office.find(&space.name).is_none())?;
    office.spaces.push(space);
    Ok(())
}

/// The texts of an object's values, by their keys.
fn fields<'a>(bytes: &'a [u8]) -> Read<HashMap<String, &'a [u8]>> {
    let mut found = HashMap::new();
    let mut reader = Reader::new(bytes);
    reader.object(|reader, key| {
        let from = reader.at();
        reader.skip()?;
        found.insert(key.to_string(), &bytes[from..reader.at()]);
        Ok(())
    })?;
    reader.end()?;
    Ok(found)
}

pub fn read(bytes: &[u8]) -> Read<Office> {
    let fields = fields(bytes)?;
    let field = |key: &str| fields.get(key).map(|bytes| Reader::new(bytes));
    let format = field("format").ok_or(NotJson)?.int()?;
    let schema = Schema { tables: list(&mut field("tables").ok_or(NotJson)?, table)? };
    let rule_texts = field("rules").map_or(Ok(Vec::new()), |mut reader| list(&mut reader, rule_text))?;
    let rules = rule_texts.iter().map(|rule| rule.rule(&schema)).collect::<Read<Vec<_>>>()?;
    let (mut tables_text, mut rules_text) = (String::new(), String::new());
    push_list(&mut tables_text, &schema.tables, push_table);
    push_list(&mut rules_text, &rule_texts, |to, rule| rule.push_to(to));
    let row = |reader: &mut Reader| cell(reader, &schema).and_then(|(cell, row)| Ok((cell, row.ok_or(NotJson)?)));
    let rows = list(&mut field("live").ok_or(NotJson)?, row)?;
    let count = rows.len();
    let live: BTreeMap<Cell, Shared> = rows.into_iter().collect();
    demand(live.len() == count && (1..=4).contains(&format))?;
    let mut known = HashSet::new();
    for (number, (text, rule)) in rule_texts.iter().zip(&rules).enumerate().filter(|_| format == 4) {
        known.extend(text.known(number, rule)?);
    }
    let mut office = Office { schema, rules, known, tables_text, rules_text, live, spaces: vec![Space::new("LIVE", LIVE)] };
    if let Some(mut reader) = field("workspaces") {
        reader.list(|reader| workspace(reader, &mut office, format))?;
    }
    Ok(office)
}

fn push_list<T>(to: &mut String, items: impl IntoIterator<Item = T>, mut each: impl FnMut(&mut String, T)) {
    to.push('[');
    for (at, item) in items.into_iter().enumerate() {
        if at > 0 {
            to.push(',');
        }
        each(to, item);
    }
    to.push(']');
}

fn push_value(to: &mut String, value: &Value) {
    match value {
        Value::Int(number) => push_number(to, *number),
        Value::Text(text) => push_text(to, text),
    }
}

fn push_number(to: &mut String, number: i64) {
    use std::fmt::Write;
    write!(to, "{number}").expect("a string takes all");
}

fn push_table(to: &mut String, table: &Table) {
    to.push_str("{\"columns\":");
    push_list(to, &table.columns, |to, (name, kind)| {
        to.push_str(&format!("[\"{name}\",\"{}\"]", if *kind == Kind::Int { "INT" } else { "TEXT" }));
    });
    let shape = match table.form {
        Form::Bare => "NONE",
        Form::Point => "POINT",
        Form::Segment => "SEGMENT",
        Form::Path => "PATH",
    };
    to.push_str(&format!(",\"name\":\"{}\",\"shape\":\"{shape}\"}}", table.name));
}

fn push_cell(to: &mut String, schema: &Schema, cell: Cell, row: Option<&Shared>) {
    to.push_str(if row.is_some() { "{\"k\":" } else { "{\"gone\":true,\"k\":" });
    push_number(to, cell.key);
    if let Some(row) = row {
        to.push_str(",\"s\":");
        push_list(to, row.places.iter().flat_map(|place| [place.x, place.y]), push_number);
    }
    to.push_str(",\"t\":\"");
    to.push_str(&schema.tables[usize::from(cell.table)].name);
    to.push('"');
    if let Some(row) = row {
        to.push_str(",\"v\":");
        push_list(to, row.values.iter(), push_value);
    }
    to.push('}');
}

fn push_layer(to: &mut String, schema: &Schema, layer: &Layer) {
    push_list(to, layer, |to, (cell, row)| push_cell(to, schema, *cell, row.as_ref()));
}

fn push_workspace(to: &mut String, office: &Office, space: &Space) {
    to.push_str("{\"base\":");
    push_layer(to, &office.schema, &space.base);
    to.push_str(&format!(",\"kept\":{},\"marks\":", space.is_kept));
    push_list(to, &space.marks, |to, mark| match mark {
        Mark::Child(name) => to.push_str(&format!("{{\"child\":\"{name}\"}}")),
        Mark::Savepoint(name, layer) => {
            to.push_str("{\"rows\":");
            push_layer(to, &office.schema, layer);
            to.push_str(&format!(",\"savepoint\":\"{name}\"}}"));
        }
    });
    to.push_str(&format!(",\"name\":\"{}\",\"parent\":\"{}\",\"rows\":", space.name, office.spaces[space.parent].name));
    push_layer(to, &office.schema, &space.current);
    to.push('}');
}

/// Puts the office in format 3, in one line, behind what is there. Needs that are broken aren't named.
pub fn push(to: &mut String, office: &Office) {
    to.push_str("{\"format\":3,\"live\":");
    push_list(to, &office.live, |to, (cell, row)| push_cell(to, &office.schema, *cell, Some(row)));
    to.push_str(&format!(",\"rules\":{},\"tables\":{},\"workspaces\":", office.rules_text, office.tables_text));
    push_list(to, &office.spaces[1..], |to, space| push_workspace(to, office, space));
    to.push_str("}\n");
}
