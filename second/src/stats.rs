//! What a trace is made of.

use std::io::BufReader;

use crate::bits::byte_of;
use crate::breaks::{Break, Rule};
use crate::model::{Act, Answer, Asked, At, Model, DONE};
use crate::offsets::PALETTE_DATA;
use crate::palette::{FLAG, NEVER};
use crate::state::{Stage, State};
use crate::tables::MISC_CONTROL;
use crate::trace::{self, Lines, Machine, Setup};

pub struct Stats {
    pub lines: usize,
    pub bad: usize,
    pub by_status: [usize; 10],
    /// Lines with a changed count that is not zero.
    pub changing: usize,
    /// Reads that were done, and those of them that showed something known.
    pub reads: usize,
    pub telling: usize,
    pub six: Six,
    pub words: Words,
    pub lanes: Lanes,
    /// Only where looks are counted.
    pub looks: Option<Looks>,
}

/// How often a trace looks (02, C-12).
#[derive(Default)]
pub struct Looks {
    pub looks: usize,
    pub by_status: [usize; 10],
    /// Looks at palette data that were done and had lane 0, by the component
    /// that was next.
    pub palette: [usize; 3],
    /// Looks that showed something known.
    pub telling: usize,
    /// Looks with the same read as the next line.
    pub followed: usize,
    /// Looks with the same look as the line before.
    pub repeated: usize,
    /// Looks while a palette load is under way, whose next write came later
    /// with nothing between that ends it.
    pub between: usize,
    /// The line before, if it was a look.
    before: Option<At>,
    /// Looks since red or green was staged.
    waiting: usize,
}

/// How often a trace touches what 02, C-13 says of six bits.
#[derive(Default)]
pub struct Six {
    /// Components written in six-bit width, and those of them whose six bits
    /// are 16 or more: C-13 stores another byte for them.
    pub written: usize,
    pub moved: usize,
    /// How often an entry was stored that holds such a byte.
    pub entries: usize,
    /// Answers that differ from those before C-13: words, which are eight-bit
    /// reads of such a byte, and changed counts. No line has both.
    pub other_words: usize,
    pub other_counts: usize,
}

/// How often a trace touches the words of 02, C-15.
#[derive(Default)]
pub struct Words {
    /// Lines that complete an entry, so that its word is stored; those of them
    /// over a stored entry; those that store black.
    pub stored: usize,
    pub over: usize,
    pub black: usize,
    /// Palette data accesses that showed a stored entry's component, and those
    /// that showed an entry never stored.
    pub reads: (usize, usize),
    pub looks: (usize, usize),
}

/// How often a trace touches the lanes of 02, C-17.
pub struct Lanes {
    model: Model,
    /// One for each swap code that is served.
    pub codes: [Code; 3],
    /// The writes that were done, and for each byte of memory the number of the
    /// last one that reached it.
    writes: Vec<Written>,
    last: Vec<Option<usize>>,
}

/// Accesses to apertures that were done in one swap code, and those of them with
/// some lanes enabled and some not.
#[derive(Clone, Copy, Default)]
pub struct Code {
    pub reads: usize,
    pub partial_reads: usize,
    pub writes: usize,
    pub partial_writes: usize,
    /// Reads of a lane that a write brought there by the same aperture, offset
    /// and code; no byte of that write was overwritten since.
    pub read_backs: usize,
}

/// A write to an aperture.
struct Written {
    target: u32,
    code: usize,
    enables: u32,
}

/// Runs a trace and counts.
pub fn of(trace: &[u8], setup: Setup, looks: bool) -> Result<Stats, String> {
    let mut machine = Machine::open(Break::Nothing, setup, false)?;
    let mut earlier = Machine::open(Break::Rule(Rule::SixBitFourTimes), setup, false)?;
    let mut stats = Stats::new(setup, looks);
    let mut lines = Lines::new(Break::Nothing);
    let mut input = BufReader::new(trace);
    while let Some(line) = lines.next(&mut input).map_err(|e| e.to_string())? {
        stats.lines += 1;
        let Some(asked) = trace::parse(&line, looks, &Break::Nothing) else {
            stats.bad += 1;
            if let Some(looks) = &mut stats.looks {
                looks.before = None;
            }
            continue;
        };
        let old = machine.state().clone();
        let answer = machine.carry_out(&asked)?;
        let answer_earlier = earlier.carry_out(&asked)?;
        let words = &mut stats.words;
        words.count(&asked, &answer, &old, machine.state());
        if let Some(looks) = &mut stats.looks {
            looks.count(&asked, &answer, &old, machine.state());
        }
        if asked.act() == Act::Look {
            continue;
        }
        stats.count(&asked, &answer, machine.state());
        if let Some(byte) = palette_written(&asked, &answer) {
            let six = &mut stats.six;
            six.count(byte, completed_next(&old), machine.state(), earlier.state());
        }
        if answer.word != answer_earlier.word {
            stats.six.other_words += 1;
        }
        if answer.changed != answer_earlier.changed {
            stats.six.other_counts += 1;
        }
    }
    Ok(stats)
}

/// The byte that a palette data write staged or stored.
fn palette_written(asked: &Asked, answer: &Answer) -> Option<u8> {
    match asked {
        Asked::Write(at, word)
            if at.is_register(PALETTE_DATA) && at.enables & 1 == 1 && answer.status == DONE =>
        {
            Some(byte_of(*word, 0))
        }
        _ => None,
    }
}

/// The entry that a palette write would complete.
fn completed_next(state: &State) -> Option<usize> {
    match (state.component, state.stage) {
        (2, Stage::RedGreen(..)) => Some(usize::from(state.address)),
        _ => None,
    }
}

impl Six {
    /// Counts a component written, with the entry that it completed and the
    /// states that it left by the rules now and by those before C-13.
    fn count(&mut self, byte: u8, completed: Option<usize>, state: &State, earlier: &State) {
        if state.indirect[MISC_CONTROL].value & 2 == 0 {
            self.written += 1;
            if byte % 64 >= 16 {
                self.moved += 1;
            }
        }
        if completed.is_some_and(|number| state.palette[number] != earlier.palette[number]) {
            self.entries += 1;
        }
    }
}

impl Words {
    /// Counts a line, with the states before and after it.
    fn count(&mut self, asked: &Asked, answer: &Answer, old: &State, state: &State) {
        if palette_written(asked, answer).is_some() {
            if let Some(number) = completed_next(old) {
                self.stored += 1;
                self.over += usize::from(old.palette[number] != NEVER);
                self.black += usize::from(state.palette[number] == FLAG);
            }
        }
        let at = asked.at();
        if answer.status != DONE || !at.is_register(PALETTE_DATA) || at.enables & 1 == 0 {
            return;
        }
        let (stored, never) = match asked.act() {
            Act::Read => (&mut self.reads.0, &mut self.reads.1),
            Act::Look => (&mut self.looks.0, &mut self.looks.1),
            Act::Write => return,
        };
        if old.palette[usize::from(old.address)] == NEVER {
            *never += 1;
        } else {
            *stored += 1;
        }
    }

    /// The counts as lines of text; looks only where they are counted.
    fn report(&self, looks: bool) -> String {
        let mut text = format!(
            "entries stored: {}, over a stored one: {}, black: {}\n",
            self.stored, self.over, self.black
        );
        text += &format!(
            "palette data read: {} of a stored entry, {} of one never stored\n",
            self.reads.0, self.reads.1
        );
        if looks {
            text += &format!(
                "palette data looked at: {} of a stored entry, {} of one never stored\n",
                self.looks.0, self.looks.1
            );
        }
        text
    }
}

impl Looks {
    /// Counts a line, with the states before and after it.
    fn count(&mut self, asked: &Asked, answer: &Answer, old: &State, state: &State) {
        let before = self.before.take();
        match *asked {
            Asked::Look(at) => {
                self.look(at, answer, old);
                self.repeated += usize::from(before == Some(at));
                self.before = Some(at);
            }
            Asked::Read(at) => self.followed += usize::from(before == Some(at)),
            Asked::Write(..) => {}
        }
        // What ends a load or takes it a step further.
        if state.stage != old.stage {
            if old.stage != Stage::Empty && palette_written(asked, answer).is_some() {
                self.between += self.waiting;
            }
            self.waiting = 0;
        }
    }

    fn look(&mut self, at: At, answer: &Answer, state: &State) {
        self.looks += 1;
        self.by_status[answer.status as usize] += 1;
        self.telling += usize::from(answer.known != 0);
        if answer.status == DONE && at.is_register(PALETTE_DATA) && at.enables & 1 == 1 {
            self.palette[usize::from(state.component)] += 1;
        }
        if state.stage != Stage::Empty {
            self.waiting += 1;
        }
    }

    /// The counts as lines of text.
    fn report(&self) -> String {
        let mut text = format!("looks: {}", self.looks);
        for (status, count) in self.by_status.iter().enumerate() {
            if *count > 0 {
                text += &format!(", status {status}: {count}");
            }
        }
        let [red, green, blue] = self.palette;
        text += &format!("\nlooks with known bits: {}\n", self.telling);
        text += &format!(
            "looks at palette data: {}, at red {red}, green {green}, blue {blue}\n",
            red + green + blue
        );
        text += &format!(
            "looks with the same read next: {}, with the same look before: {}\n",
            self.followed, self.repeated
        );
        text + &format!(
            "looks between two writes of a palette load: {}\n",
            self.between
        )
    }
}

impl Lanes {
    fn new(memory_bytes: u32) -> Lanes {
        Lanes {
            model: Model::sound(),
            codes: [Code::default(); 3],
            writes: Vec::new(),
            last: vec![None; memory_bytes as usize],
        }
    }

    /// Counts an access to an aperture that was done.
    fn count(&mut self, asked: &Asked, state: &State) {
        let at = asked.at();
        let order = self.model.order(state, at.target);
        let places: Vec<usize> = (0..4)
            .filter(|&number| at.enables >> self.model.lane_for(order, number) & 1 == 1)
            .map(|number| (at.offset + number) as usize)
            .collect();
        let partial = usize::from(!places.is_empty() && places.len() < 4);
        let code = order as usize;
        let counts = &mut self.codes[code];
        if asked.act() == Act::Write {
            counts.writes += 1;
            counts.partial_writes += partial;
            for place in places {
                self.last[place] = Some(self.writes.len());
            }
            self.writes.push(Written {
                target: at.target,
                code,
                enables: at.enables,
            });
        } else {
            counts.reads += 1;
            counts.partial_reads += partial;
            if places.iter().any(|&place| self.kept(place, &at, code)) {
                self.codes[code].read_backs += 1;
            }
        }
    }

    /// Whether the byte at a place is from a write by this read's aperture in
    /// this code of which every byte is still there.
    fn kept(&self, place: usize, at: &At, code: usize) -> bool {
        let Some(number) = self.last[place] else {
            return false;
        };
        let write = &self.writes[number];
        let first = at.offset as usize;
        let left = self.last[first..first + 4]
            .iter()
            .filter(|last| **last == Some(number))
            .count();
        write.target == at.target
            && write.code == code
            && left == write.enables.count_ones() as usize
    }

    /// The counts as lines of text.
    fn report(&self) -> String {
        let done: usize = self.codes.iter().map(|code| code.reads + code.writes).sum();
        let mut text = format!("aperture accesses done: {done}\n");
        for (number, code) in self.codes.iter().enumerate() {
            text += &format!(
                "swap code {number}: {} writes, {} of some lanes; {} reads, {} of some lanes, {} read back\n",
                code.writes, code.partial_writes, code.reads, code.partial_reads, code.read_backs
            );
        }
        text
    }
}

impl Stats {
    fn new(setup: Setup, looks: bool) -> Stats {
        Stats {
            lines: 0,
            bad: 0,
            by_status: [0; 10],
            changing: 0,
            reads: 0,
            telling: 0,
            six: Six::default(),
            words: Words::default(),
            lanes: Lanes::new(setup.memory_bytes),
            looks: looks.then(Looks::default),
        }
    }

    /// Counts a read or a write, with the state after it.
    fn count(&mut self, asked: &Asked, answer: &Answer, state: &State) {
        self.by_status[answer.status as usize] += 1;
        if answer.changed != 0 {
            self.changing += 1;
        }
        if asked.act() == Act::Read && answer.status == DONE {
            self.reads += 1;
            if answer.known != 0 {
                self.telling += 1;
            }
        }
        if asked.at().is_memory() && answer.status == DONE {
            self.lanes.count(asked, state);
        }
    }

    /// The counts as lines of text.
    pub fn report(&self) -> String {
        let share = |part: usize| 100.0 * part as f64 / self.lines.max(1) as f64;
        let mut text = format!("lines {}\n", self.lines);
        for (status, count) in self.by_status.iter().enumerate() {
            if *count > 0 {
                text += &format!("status {status}: {count} ({:.1}%)\n", share(*count));
            }
        }
        text += &format!("bad: {} ({:.1}%)\n", self.bad, share(self.bad));
        text += &format!(
            "changed not zero: {} ({:.1}%)\n",
            self.changing,
            share(self.changing)
        );
        text += &format!(
            "reads done: {}, with known bits: {}\n",
            self.reads, self.telling
        );
        let six = &self.six;
        text += &format!(
            "six-bit components written: {}, of 16 or more: {}, entries stored with one: {}\n",
            six.written, six.moved, six.entries
        );
        text += &format!(
            "other than before C-13: {} lines, {} palette reads and {} changed counts\n",
            six.other_words + six.other_counts,
            six.other_words,
            six.other_counts
        );
        text += &self.words.report(self.looks.is_some());
        text += &self.lanes.report();
        match &self.looks {
            Some(looks) => text + &looks.report(),
            None => text,
        }
    }
}
