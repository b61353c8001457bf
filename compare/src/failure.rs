//! A failing list: cut down, kept as a file, told.

use crate::cut::{cut, Records};
use crate::program::{expected, first_difference, run, Output};
use crate::records::RECORD;
use crate::text;
use std::fs;
use std::io;
use std::path::{Path, PathBuf};
use std::time::{Duration, Instant};

/// Cutting stops after this time; what stands then is kept.
const TIME_FOR_CUTTING: Duration = Duration::from_secs(8);

/// Cuts the list down, keeps it, and gives the message that names it. `piece`
/// is how the program is fed.
pub fn keep(folder: &Path, name: &str, program: &Path, list: &[u8], piece: usize) -> String {
    let start = Instant::now();
    let whole: Records = list.chunks(RECORD).map(<[u8]>::to_vec).collect();
    let count = whole.len();
    let differs = |records: &Records| {
        let bytes = records.concat();
        first_difference(&expected(&bytes), &run(program, &bytes, piece))
    };
    let short = cut(whole, differs, || start.elapsed() < TIME_FOR_CUTTING);
    let bytes = short.concat();
    let (wanted, got) = (expected(&bytes), run(program, &bytes, piece));
    if first_difference(&wanted, &got).is_none() {
        return format!("{name}: differed in one run and not in the next; nothing kept");
    }
    let story = tell(&short, &wanted, &got);
    match write(folder, name, &bytes, &story) {
        Ok(file) => format!(
            "{name}: differs; cut from {count} to {} records, kept as {} (and .txt)\n{}",
            short.len(),
            file.display(),
            last_lines(&story, 12)
        ),
        Err(error) => format!("{name}: differs, and could not be kept: {error}\n{story}"),
    }
}

fn write(folder: &Path, name: &str, list: &[u8], story: &str) -> io::Result<PathBuf> {
    fs::create_dir_all(folder)?;
    let file = folder.join(format!("{name}.records"));
    fs::write(&file, list)?;
    fs::write(folder.join(format!("{name}.txt")), story)?;
    Ok(file)
}

/// Each record with the line that belongs to it and, if it differs, the
/// program's.
fn tell(records: &Records, wanted: &Output, got: &Output) -> String {
    let (ours, theirs) = (wanted.lines(), got.lines());
    let mut story = String::from("# record -> line of the Rust implementation\n");
    for i in 0..records.len().max(ours.len()).max(theirs.len()) {
        let record = records.get(i).map_or("(no record)".into(), |record| text::show(record));
        let line = show_line(ours.get(i));
        story += &format!("{record} -> {line}\n");
        if ours.get(i) != theirs.get(i) {
            story += &format!("# the program printed: {}\n", show_line(theirs.get(i)));
        }
    }
    if let Some(trouble) = &got.trouble {
        story += &format!("# the program {trouble}\n");
    }
    story
}

fn show_line(line: Option<&&[u8]>) -> String {
    line.map_or("(no line)".into(), |line| String::from_utf8_lossy(line).trim_end().to_string())
}

fn last_lines(story: &str, count: usize) -> String {
    let lines: Vec<&str> = story.lines().collect();
    let from = lines.len().saturating_sub(count);
    lines[from..].iter().map(|line| format!("    {line}\n")).collect()
}
