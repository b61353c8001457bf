//! The named small lists of `rows.txt`, with the lines that document 01 gives.

use crate::text;

pub struct Row {
    pub name: String,
    pub list: Vec<u8>,
    pub lines: String,
}

/// `== NAME: words` begins a list; `record -> line` follows; bytes that are no
/// whole record have no line; `#` begins a comment.
pub fn rows(source: &str) -> Result<Vec<Row>, String> {
    let mut rows: Vec<Row> = Vec::new();
    for line in source.lines().map(str::trim).filter(|line| !line.is_empty()) {
        if let Some(title) = line.strip_prefix("== ") {
            let name = title.split(':').next().unwrap_or(title).to_string();
            rows.push(Row { name, list: Vec::new(), lines: String::new() });
        } else if !line.starts_with('#') {
            let row = rows.last_mut().ok_or_else(|| format!("before the first list: {line}"))?;
            let (record, answer) = line.split_once("->").unwrap_or((line, ""));
            let record = text::parse(record).ok_or_else(|| format!("not a record: {line}"))?;
            row.list.extend(record);
            if !answer.trim().is_empty() {
                row.lines += answer.trim();
                row.lines.push('\n');
            }
        }
    }
    Ok(rows)
}
