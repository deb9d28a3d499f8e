//! How strong a set of stored traces is: which of them notice which break.

use std::fs;
use std::io::{self, BufReader, Write};
use std::path::Path;

use crate::breaks::{self, Break};
use crate::explain;
use crate::trace::{self, Program, Setup};

struct Stored {
    name: String,
    input: Vec<u8>,
    answers: Vec<u8>,
    setup: Setup,
    /// The program whose answers are stored.
    program: Program,
}

/// Takes what is written and stops at the first byte that is not expected.
struct Compare<'a> {
    expected: &'a [u8],
    at: usize,
}

impl Write for Compare<'_> {
    fn write(&mut self, written: &[u8]) -> io::Result<usize> {
        let end = self.at + written.len();
        if self.expected.get(self.at..end) != Some(written) {
            return Err(io::Error::other("differs"));
        }
        self.at = end;
        Ok(written.len())
    }

    fn flush(&mut self) -> io::Result<()> {
        Ok(())
    }
}

/// Whether a stored trace notices a break.
fn notices(stored: &Stored, broken: Break) -> bool {
    let mut output = Compare {
        expected: &stored.answers,
        at: 0,
    };
    let mut input = BufReader::new(&stored.input[..]);
    let run = (stored.program)(broken, stored.setup, false, &mut input, &mut output);
    run.is_err() || output.at != stored.answers.len()
}

/// The panel and memory that the first line of the answers names.
fn setup_of(answers: &[u8]) -> Option<Setup> {
    let line = answers.split(|byte| *byte == b'\n').next()?;
    let line = std::str::from_utf8(line).ok()?;
    let mut fields = line.split(' ');
    if fields.next()? != "PERMEDIA2" {
        return None;
    }
    parse_setup(fields.next()?, fields.next()?)
}

/// A panel as `4x1` and a number of bytes.
pub fn parse_setup(panel: &str, bytes: &str) -> Option<Setup> {
    let (width, height) = panel.split_once('x')?;
    Some(Setup {
        width: width.parse().ok()?,
        height: height.parse().ok()?,
        memory_bytes: bytes.parse().ok()?,
    })
}

/// The program that a file beside the input names: explain, or, where there is
/// no such file, the trace program.
fn program_of(form: &Path) -> Result<Program, String> {
    if !form.exists() {
        return Ok(trace::run);
    }
    let text = fs::read_to_string(form).map_err(|e| e.to_string())?;
    match text.trim() {
        "explain" => Ok(explain::run),
        "trace" => Ok(trace::run),
        other => Err(format!("{}: no form {other}", form.display())),
    }
}

fn load(folder: &Path) -> Result<Vec<Stored>, String> {
    let listing = fs::read_dir(folder).map_err(|e| e.to_string())?;
    let mut list = Vec::new();
    for item in listing {
        let path = item.map_err(|e| e.to_string())?.path();
        if path.extension().and_then(|e| e.to_str()) != Some("stdin") {
            continue;
        }
        let input = fs::read(&path).map_err(|e| e.to_string())?;
        let answers = fs::read(path.with_extension("stdout")).map_err(|e| e.to_string())?;
        let program = program_of(&path.with_extension("form"))?;
        let name = path
            .file_stem()
            .unwrap_or_default()
            .to_string_lossy()
            .into_owned();
        let setup = setup_of(&answers).ok_or(format!("{name}: no first line in its answers"))?;
        list.push(Stored {
            name,
            input,
            answers,
            setup,
            program,
        });
    }
    list.sort_by(|a, b| a.name.cmp(&b.name));
    if list.is_empty() {
        return Err("no stored traces (*.stdin with *.stdout) there".to_string());
    }
    Ok(list)
}

/// Runs breaks over a folder of stored traces and prints what catches them.
/// Breaks of table bits are printed one by one only when nothing catches them.
pub fn run(folder: &Path, tables_too: bool) -> Result<(), String> {
    let list = load(folder)?;
    for stored in &list {
        if notices(stored, Break::Nothing) {
            return Err(format!(
                "{}: the sound model gives other answers",
                stored.name
            ));
        }
    }
    println!(
        "{} traces, which the sound model answers as stored",
        list.len()
    );
    let mut rules = (0, 0);
    let mut tables = (0, 0);
    let mut missed = Vec::new();
    for (number, broken, text) in breaks::all() {
        let is_table = matches!(broken, Break::Table(_));
        if is_table && !tables_too {
            continue;
        }
        let enough = if is_table { 1 } else { list.len() };
        let catching: Vec<&Stored> = list
            .iter()
            .filter(|s| notices(s, broken))
            .take(enough)
            .collect();
        let count = if is_table { &mut tables } else { &mut rules };
        count.0 += 1;
        if !catching.is_empty() {
            count.1 += 1;
        }
        if catching.is_empty() {
            missed.push(format!("{number:5}  {text}"));
        }
        if !is_table {
            let names: Vec<&str> = catching.iter().map(|stored| stored.name.as_str()).collect();
            println!(
                "{number:5} {:4}/{}  {text}  [{}]",
                catching.len(),
                list.len(),
                names.join(" ")
            );
        }
    }
    println!("rules: {} of {} caught", rules.1, rules.0);
    if tables_too {
        println!("table entries: {} of {} caught", tables.1, tables.0);
    }
    if !missed.is_empty() {
        println!("caught by none of these traces:");
        for line in &missed {
            println!("{line}");
        }
    }
    Ok(())
}
