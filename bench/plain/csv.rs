// Records of CSV, read and written: docs/FORMATS.md, Script.

pub fn records(text: &str) -> Vec<Vec<String>> {
    let text = text.strip_prefix('\u{feff}').unwrap_or(text);
    let (mut records, mut record, mut field) = (Vec::new(), Vec::new(), String::new());
    let (mut is_quoted, mut is_begun) = (false, false);
    let mut letters = text.chars().peekable();
    while let Some(letter) = letters.next() {
        match letter {
            '"' if is_quoted && letters.next_if_eq(&'"').is_some() => field.push('"'),
            '"' if is_quoted => is_quoted = false,
            '"' if field.is_empty() && !is_begun => (is_quoted, is_begun) = (true, true),
            _ if is_quoted => field.push(letter),
            ',' => {
                record.push(std::mem::take(&mut field));
                is_begun = false;
            }
            '\n' | '\r' => {
                if is_begun || !field.is_empty() || !record.is_empty() {
                    record.push(std::mem::take(&mut field));
                    records.push(std::mem::take(&mut record));
                }
                is_begun = false;
            }
            _ => field.push(letter),
        }
    }
    if is_begun || !field.is_empty() || !record.is_empty() {
        record.push(field);
        records.push(record);
    }
    records
}

pub fn push_record<'a>(to: &mut String, fields: impl IntoIterator<Item = &'a str>) {
    for (at, field) in fields.into_iter().enumerate() {
        if at > 0 {
            to.push(',');
        }
        if field.contains(['"', ',', '\n', '\r']) {
            to.push('"');
            to.push_str(&field.replace('"', "\"\""));
            to.push('"');
        } else {
            to.push_str(field);
        }
    }
    to.push('\n');
}

/// A number in its one form.
pub fn number(text: &str) -> Option<i64> {
    let digits = text.strip_prefix('-').unwrap_or(text);
    let is_in_form = digits.bytes().all(|byte| byte.is_ascii_digit()) && (digits == "0" && digits.len() == text.len() || !digits.starts_with('0'));
    if is_in_form { text.parse().ok() } else { None }
}
