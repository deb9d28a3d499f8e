//! The trace program: lines of reads and writes in, lines of answers out. What
//! reads lines and carries them out serves explain as well.

use std::io::{self, BufRead, Write};

use crate::breaks::{Break, Rule};
use crate::check;
use crate::model::{Act, Answer, Asked, At, Model, DONE};
use crate::ppm;
use crate::state::{side_fits, State, MEMORY_LIMIT};

/// A line of more bytes than this, its newline left out, is bad.
const LINE_LIMIT: usize = 64;

/// A panel and the memory fitted.
#[derive(Clone, Copy, PartialEq, Eq, Debug)]
pub struct Setup {
    pub width: u32,
    pub height: u32,
    pub memory_bytes: u32,
}

/// What the trace program opens when nothing else is said.
pub const USUAL: Setup = Setup {
    width: 4,
    height: 1,
    memory_bytes: 16,
};

/// A model with an opened panel.
pub struct Machine {
    model: Model,
    state: State,
    memory: Vec<u8>,
    picture: Vec<u32>,
    check: bool,
}

impl Machine {
    /// Opens a panel with zeroed memory.
    pub fn open(broken: Break, setup: Setup, check: bool) -> Result<Machine, String> {
        let model = Model::with(broken);
        // What is too large is refused, so it need not be there.
        let dots = if side_fits(setup.width) && side_fits(setup.height) {
            setup.width as usize * setup.height as usize
        } else {
            0
        };
        let bytes = u64::from(setup.memory_bytes).min(MEMORY_LIMIT + 8);
        let mut memory = vec![0; bytes as usize];
        let mut picture = vec![0; dots];
        let (status, state) = model.open(setup.width, setup.height, &mut memory, &mut picture);
        if status != DONE {
            return Err(format!("the opening is refused as {status}"));
        }
        Ok(Machine {
            model,
            state,
            memory,
            picture,
            check,
        })
    }

    /// Carries out what a line asks for. A look has a changed count of 0 here,
    /// so that all three answer alike.
    pub fn carry_out(&mut self, asked: &Asked) -> Result<Answer, String> {
        match *asked {
            Asked::Read(at) => self.read(at),
            Asked::Write(at, word) => self.write(at, word),
            Asked::Look(at) => self.look(at),
        }
    }

    fn read(&mut self, at: At) -> Result<Answer, String> {
        let (state, memory, picture) = (&mut self.state, &self.memory, &self.picture);
        if !self.check {
            return Ok(self.model.read(state, memory, picture, at));
        }
        let (answer, verdict) = check::read(&self.model, state, memory, picture, at);
        verdict.map(|()| answer)
    }

    fn write(&mut self, at: At, word: u32) -> Result<Answer, String> {
        let (state, memory, picture) = (&mut self.state, &mut self.memory, &mut self.picture);
        if !self.check {
            return Ok(self.model.write(state, memory, picture, at, word));
        }
        let (answer, verdict) = check::write(&self.model, state, memory, picture, at, word);
        verdict.map(|()| answer)
    }

    fn look(&mut self, at: At) -> Result<Answer, String> {
        let (state, memory, picture) = (&mut self.state, &self.memory, &mut self.picture);
        let seen = if self.check {
            let (seen, verdict) = check::look(&self.model, state, memory, picture, at);
            verdict?;
            seen
        } else {
            let seen = self.model.look(state, memory, picture, at);
            self.model.spoil(state, memory, picture, at, seen);
            seen
        };
        Ok(Answer {
            status: seen.status,
            word: seen.word,
            known: seen.known,
            changed: 0,
        })
    }

    pub fn model(&self) -> &Model {
        &self.model
    }

    pub fn state(&self) -> &State {
        &self.state
    }

    /// The picture as it is now, as the bytes of a file.
    pub fn picture_file(&self) -> Vec<u8> {
        ppm::file(self.state.width, self.state.height, &self.picture)
    }
}

/// Why a trace ended early.
#[derive(Debug)]
pub enum Failure {
    Wrong(String),
    Io(io::Error),
}

impl From<io::Error> for Failure {
    fn from(error: io::Error) -> Failure {
        Failure::Io(error)
    }
}

/// A program that reads lines: what runs it over an input.
pub type Program =
    fn(Break, Setup, bool, &mut dyn BufRead, &mut dyn Write) -> Result<Machine, Failure>;

/// What a program writes for a line, its newline left out.
pub type Answering = fn(&mut Machine, &[u8]) -> Result<String, String>;

/// Runs a whole trace.
pub fn run(
    broken: Break,
    setup: Setup,
    check: bool,
    input: &mut dyn BufRead,
    output: &mut dyn Write,
) -> Result<Machine, Failure> {
    let machine = Machine::open(broken, setup, check).map_err(Failure::Wrong)?;
    each_line(machine, setup, trace_line, input, output)
}

/// The header line, then one line for every line read. Gives the machine as the
/// last line left it.
pub fn each_line(
    mut machine: Machine,
    setup: Setup,
    answering: Answering,
    input: &mut dyn BufRead,
    output: &mut dyn Write,
) -> Result<Machine, Failure> {
    let broken = machine.model.broken;
    writeln!(
        output,
        "PERMEDIA2 {}x{} {}",
        setup.width, setup.height, setup.memory_bytes
    )?;
    let mut lines = Lines::new(broken);
    while let Some(line) = lines.next(input)? {
        if line.is_empty() && broken.is(Rule::EmptySkipped) {
            continue;
        }
        if broken.is(Rule::BadStops) && std::str::from_utf8(&line).is_err() {
            break;
        }
        if broken.is(Rule::LongLineDropped) && line.len() > LINE_LIMIT {
            continue;
        }
        let text = answering(&mut machine, &line).map_err(Failure::Wrong)?;
        writeln!(output, "{text}")?;
    }
    Ok(machine)
}

/// The trace program's line; looks are bad there.
fn trace_line(machine: &mut Machine, line: &[u8]) -> Result<String, String> {
    let broken = machine.model.broken;
    let Some(asked) = parse(line, broken.is(Rule::LookInTrace), &broken) else {
        return Ok("bad".to_string());
    };
    let a = machine.carry_out(&asked)?;
    Ok(if broken.is(Rule::UpperOutput) {
        format!("{} {:08X} {:08X} {}", a.status, a.word, a.known, a.changed)
    } else if broken.is(Rule::ShortOutput) {
        format!("{} {:x} {:x} {}", a.status, a.word, a.known, a.changed)
    } else {
        format!("{} {:08x} {:08x} {}", a.status, a.word, a.known, a.changed)
    })
}

/// Takes input apart into lines. Of a long line only the first bytes are kept,
/// one more than the limit, so that any length of line can be read.
pub struct Lines {
    broken: Break,
    ended: bool,
}

impl Lines {
    pub fn new(broken: Break) -> Lines {
        Lines {
            broken,
            ended: false,
        }
    }

    pub fn next(&mut self, input: &mut dyn BufRead) -> io::Result<Option<Vec<u8>>> {
        let mut line = Vec::new();
        let mut begun = false;
        if self.ended {
            return Ok(None);
        }
        loop {
            let Some(byte) = next_byte(input)? else {
                self.ended = true;
                let dropped = self.broken.is(Rule::LastLineDropped);
                let further = self.broken.is(Rule::EmptyAtEnd);
                return Ok(if begun && !dropped || further {
                    Some(line)
                } else {
                    None
                });
            };
            begun = true;
            if byte == b'\n' {
                return Ok(Some(line));
            }
            if line.len() <= LINE_LIMIT {
                line.push(byte);
            }
            if self.broken.is(Rule::LongLinesCut) && line.len() == LINE_LIMIT {
                return Ok(Some(line));
            }
        }
    }
}

fn next_byte(input: &mut dyn BufRead) -> io::Result<Option<u8>> {
    loop {
        match input.fill_buf() {
            Ok(buffer) => {
                let byte = buffer.first().copied();
                if byte.is_some() {
                    input.consume(1);
                }
                return Ok(byte);
            }
            Err(error) if error.kind() == io::ErrorKind::Interrupted => {}
            Err(error) => return Err(error),
        }
    }
}

/// What a line asks for, if it has the form; looks only where they are taken.
pub fn parse(line: &[u8], looks: bool, broken: &Break) -> Option<Asked> {
    if line.len() > LINE_LIMIT {
        return None;
    }
    let line = forgiven(line, broken);
    let fields: Vec<&[u8]> = line.split(|byte| *byte == b' ').collect();
    let act = match fields[0] {
        b"r" => Act::Read,
        b"w" => Act::Write,
        b"l" if looks && !broken.is(Rule::LookBad) => Act::Look,
        b"R" if broken.is(Rule::UpperLetters) => Act::Read,
        b"W" if broken.is(Rule::UpperLetters) => Act::Write,
        b"L" if looks && broken.is(Rule::LookUpper) => Act::Look,
        _ => return None,
    };
    if !fits(act, fields.len(), broken) {
        return None;
    }
    let at = At {
        target: target(fields[1], broken)?,
        offset: hex(fields[2], broken)?,
        enables: hex(fields[3], broken)?,
    };
    let asked = match act {
        Act::Read => Asked::Read(at),
        Act::Look => Asked::Look(at),
        Act::Write if fields.len() == 4 => Asked::Write(at, 0),
        Act::Write => Asked::Write(at, hex(fields[4], broken)?),
    };
    if broken.is(Rule::BadPrintsThree) && at.target > 3 {
        return None;
    }
    if broken.is(Rule::HighEnablesBad) && at.enables > 15 {
        return None;
    }
    Some(asked)
}

/// Whether a line of one act may have so many fields.
fn fits(act: Act, fields: usize, broken: &Break) -> bool {
    match (act, fields) {
        (Act::Read | Act::Look, 4) | (Act::Write, 5) => true,
        (Act::Read, 5) => broken.is(Rule::ReadWithWord),
        (Act::Look, 5) => broken.is(Rule::LookWithWord),
        (Act::Write, 4) => broken.is(Rule::WriteWithoutWord),
        (Act::Write, 6) => broken.is(Rule::FifthField),
        _ => false,
    }
}

/// The line as a break would have it.
fn forgiven(line: &[u8], broken: &Break) -> Vec<u8> {
    let mut line = line.to_vec();
    if broken.is(Rule::TabParts) {
        for byte in &mut line {
            if *byte == b'\t' {
                *byte = b' ';
            }
        }
    }
    if broken.is(Rule::ReturnTaken) && line.last() == Some(&b'\r') {
        line.pop();
    }
    if broken.is(Rule::LeadingSpace) {
        while line.first() == Some(&b' ') {
            line.remove(0);
        }
    }
    if broken.is(Rule::TrailingSpace) {
        while line.last() == Some(&b' ') {
            line.pop();
        }
    }
    if broken.is(Rule::SeveralSpaces) {
        line.dedup_by(|next, first| *next == b' ' && *first == b' ');
    }
    line
}

/// One decimal digit.
fn target(field: &[u8], broken: &Break) -> Option<u32> {
    match field {
        [digit @ b'0'..=b'9'] => Some(u32::from(digit - b'0')),
        [digit] if broken.is(Rule::HexTarget) => (*digit as char).to_digit(16),
        [tens @ b'0'..=b'9', digit @ b'0'..=b'9'] if broken.is(Rule::TwoDigitTarget) => {
            Some(10 * u32::from(tens - b'0') + u32::from(digit - b'0'))
        }
        _ => None,
    }
}

/// One to eight hexadecimal digits.
fn hex(field: &[u8], broken: &Break) -> Option<u32> {
    let mut field = field;
    if broken.is(Rule::PlusTaken) && field.first() == Some(&b'+') {
        field = &field[1..];
    }
    if broken.is(Rule::PrefixTaken) && field.starts_with(b"0x") {
        field = &field[2..];
    }
    if broken.is(Rule::NineDigits) && field.len() == 9 && field[0] == b'0' {
        field = &field[1..];
    }
    if field.is_empty() || field.len() > 8 {
        return None;
    }
    let mut number = 0;
    for byte in field {
        let digit = match byte {
            b'0'..=b'9' => byte - b'0',
            b'a'..=b'f' => byte - b'a' + 10,
            b'A'..=b'F' if !broken.is(Rule::UpperHexBad) => byte - b'A' + 10,
            _ => return None,
        };
        number = number << 4 | u32::from(digit);
    }
    Some(number)
}
