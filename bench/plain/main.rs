// The program in plain Rust, by the theory in docs/: what the proved one is measured beside, and compared with. It knows neither the
// words of `independence` nor all faults of a text: `plain-unread` and status 2 stand for what it doesn't read.
//     plain audit DB | run DB SCRIPT | plan DB NAME.. | planunder DB ROOT NAME.. | check DB CERT | merge DB CERT NAME..
//     plain < INPUT
mod clearance;
mod csv;
mod geometry;
mod index;
mod json;
mod office_text;
mod rows;
mod rules;
mod scene;
mod steps;
mod tree;

use std::io::{Read, Write};
use std::process::ExitCode;
use tree::{LIVE, Office};

/// Lines, and whether nothing was refused; none where a text can't be read.
type Answer = Option<(String, bool)>;

/// Makes the indexes of LIVE and of each kept workspace, or tells which need is broken there that isn't known.
fn admit(office: &mut Office) -> Result<(), String> {
    for at in 0..office.spaces.len() {
        if at != LIVE && !office.spaces[at].is_kept {
            continue;
        }
        let name = if at == LIVE { String::new() } else { format!("{} ", office.spaces[at].name) };
        let indexes = index::index_or_broken(&office.rules, &office.known, &office.rows(at));
        let indexes = indexes.map_err(|broken| format!("unheld {name}{}\n", clearance::broken_text(&office.schema, broken)))?;
        office.spaces[at].index = Some(indexes);
    }
    Ok(())
}

/// An office that stands until the process ends, so that no time goes into letting go of it.
fn leaked(office: Office) -> &'static mut Office {
    Box::leak(Box::new(office))
}

fn run(office: &mut Office, script: &[u8]) -> Answer {
    let steps = steps::read_script(&office.schema, std::str::from_utf8(script).ok()?)?;
    let (mut lines, mut is_well) = (String::new(), true);
    for step in &steps {
        is_well &= steps::take(&mut lines, office, step);
    }
    Some((lines, is_well))
}

fn merge(office: &mut Office, certificate: &clearance::Certificate, names: &[String]) -> (String, bool) {
    if let Some(verdict) = clearance::verdict(office, certificate) {
        return (verdict + "\n", false);
    }
    let (mut lines, mut is_well) = (String::new(), true);
    for (at, name) in names.iter().enumerate() {
        if !clearance::is_quiet_merge(office, certificate, name) {
            lines.push_str(&format!("notquiet {}\n", at + 1));
            is_well = false;
            break;
        }
        let reply = match office.find(name) {
            Some(at) => steps::merge(office, at, false),
            None => Err("1 NoWorkspace".into()),
        };
        is_well &= steps::push_reply(&mut lines, reply);
    }
    office_text::push(&mut lines, office);
    (lines, is_well)
}

fn answer(words: &[String]) -> Answer {
    let file = |at: usize| std::fs::read(words.get(at)?).ok();
    let word = words[0].as_str();
    let office = leaked(office_text::read(&file(1)?).ok()?);
    let mut lines = String::new();
    if word == "audit" {
        let is_well = steps::push_audit(&mut lines, office, LIVE);
        return Some((lines, is_well));
    }
    if let Err(line) = admit(office) {
        return Some((line, false));
    }
    match word {
        "run" => run(office, &file(2)?),
        "plan" | "planunder" => {
            let (root, names) = if word == "plan" { ("LIVE", &words[2..]) } else { (words[2].as_str(), &words[3..]) };
            let is_well = clearance::push_plan(&mut lines, office, root, names);
            Some((lines, is_well))
        }
        "check" | "merge" => {
            let certificate = clearance::read_certificate(&office.schema, std::str::from_utf8(&file(2)?).ok()?)?;
            if word == "merge" {
                return Some(merge(office, &certificate, &words[3..]));
            }
            let verdict = clearance::verdict(office, &certificate);
            let is_clear = verdict.is_none();
            Some((verdict.unwrap_or("clear".into()) + "\n", is_clear))
        }
        _ => None,
    }
}

/// An office text, the separator and a script, from standard input.
fn session() -> Answer {
    let mut input = Vec::new();
    std::io::stdin().read_to_end(&mut input).ok()?;
    let mut from = 0;
    for line in input.split_inclusive(|byte| *byte == b'\n') {
        let end = line.strip_suffix(b"\n").unwrap_or(line);
        if end == b"---" || end == b"---\r" {
            let office = leaked(office_text::read(&input[..from]).ok()?);
            return match admit(office) {
                Ok(()) => run(office, &input[from + line.len()..]),
                Err(line) => Some((line, false)),
            };
        }
        from += line.len();
    }
    None
}

fn main() -> ExitCode {
    let words: Vec<String> = std::env::args().skip(1).collect();
    match if words.is_empty() { session() } else { answer(&words) } {
        Some((lines, is_well)) => {
            let is_written = std::io::stdout().write_all(lines.as_bytes()).is_ok();
            ExitCode::from(if is_written { u8::from(!is_well) } else { 2 })
        }
        None => {
            eprintln!("plain-unread");
            ExitCode::from(2)
        }
    }
}
