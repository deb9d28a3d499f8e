//! The palette as it was before 02, C-15: for every entry a flag and three
//! components, in four columns. It is kept to be compared with the words, and has
//! its own refusal 1, palette reads, stores and drawing, which know no breaks. All
//! else is the model's, run over a state whose own palette stays empty, and with
//! the break that it has: what is compared is the palette.

use crate::breaks::Break;
use crate::check;
use crate::model::{Answer, Asked, At, Model, Seen, DONE, NOT_A_STATE};
use crate::palette::{ENTRIES, NEVER};
use crate::state::{Stage, State};

type Column = [u8; ENTRIES];

#[derive(Clone, PartialEq, Eq, Debug)]
pub struct Columns {
    /// 1 for a stored entry, 0 for one never stored.
    pub flag: Column,
    pub red: Column,
    pub green: Column,
    pub blue: Column,
}

impl Columns {
    /// The columns at reset: no entry was ever stored.
    pub fn reset() -> Columns {
        Columns {
            flag: [0; ENTRIES],
            red: [0; ENTRIES],
            green: [0; ENTRIES],
            blue: [0; ENTRIES],
        }
    }

    /// The columns that correspond to a palette of words, states and others.
    pub fn of(words: &[u32; ENTRIES]) -> Columns {
        let column = |divisor: u32| words.map(|word| (word / divisor % 256) as u8);
        Columns {
            flag: column(1 << 24),
            red: column(1 << 16),
            green: column(1 << 8),
            blue: column(1),
        }
    }

    /// The words that correspond to these columns.
    pub fn words(&self) -> [u32; ENTRIES] {
        let mut words = [0; ENTRIES];
        for (number, word) in words.iter_mut().enumerate() {
            for column in [&self.flag, &self.red, &self.green, &self.blue] {
                *word = 256 * *word + u32::from(column[number]);
            }
        }
        words
    }

    /// Refusal 1 before C-15 (D-29): a flag is 0 or 1, and an entry never stored
    /// has components of zero.
    pub fn fit(&self) -> bool {
        (0..ENTRIES).all(|number| match self.flag[number] {
            0 => self.components(number) == [0; 3],
            flag => flag == 1,
        })
    }

    fn components(&self, number: usize) -> [u8; 3] {
        [self.red[number], self.green[number], self.blue[number]]
    }

    fn store(&mut self, number: usize, components: [u8; 3]) {
        self.flag[number] = 1;
        [self.red[number], self.green[number], self.blue[number]] = components;
    }

    /// The word of a dot for every entry.
    fn dots(&self) -> [u32; ENTRIES] {
        let mut dots = [0x0400_0000; ENTRIES];
        for (number, dot) in dots.iter_mut().enumerate() {
            if self.flag[number] == 1 {
                let [red, green, blue] = self.components(number);
                *dot = u32::from_be_bytes([1, red, green, blue]);
            }
        }
        dots
    }
}

/// A machine with the palette in columns.
pub struct Machine {
    model: Model,
    /// All but the palette.
    pub rest: State,
    pub columns: Columns,
    pub memory: Vec<u8>,
    pub picture: Vec<u32>,
}

/// The same state without its palette.
pub fn without_palette(state: &State) -> State {
    let mut rest = state.clone();
    rest.palette = [NEVER; ENTRIES];
    rest
}

impl Machine {
    /// What corresponds to a state with words and its buffers.
    pub fn of(broken: Break, state: &State, memory: &[u8], picture: &[u32]) -> Machine {
        Machine {
            model: Model::with(broken),
            rest: without_palette(state),
            columns: Columns::of(&state.palette),
            memory: memory.to_vec(),
            picture: picture.to_vec(),
        }
    }

    pub fn carry_out(&mut self, asked: &Asked) -> Answer {
        if !self.columns.fit() {
            return answer(NOT_A_STATE, (0, 0));
        }
        match *asked {
            Asked::Read(at) => self.read(at),
            Asked::Write(at, word) => self.write(at, word),
            Asked::Look(at) => {
                let rest = &self.rest;
                let seen = self.model.look(rest, &self.memory, &self.picture, at);
                self.seen(rest, at, seen)
            }
        }
    }

    fn read(&mut self, at: At) -> Answer {
        let old = self.rest.clone();
        let (memory, picture) = (&self.memory, &self.picture);
        let read = self.model.read(&mut self.rest, memory, picture, at);
        let seen = Seen {
            status: read.status,
            word: read.word,
            known: read.known,
        };
        self.seen(&old, at, seen)
    }

    /// The answer of a read or a look: at palette data from the columns.
    fn seen(&self, rest: &State, at: At, seen: Seen) -> Answer {
        if seen.status != DONE || !reaches_data(at) {
            return answer(seen.status, (seen.word, seen.known));
        }
        let number = usize::from(rest.address);
        if self.columns.flag[number] == 0 {
            return answer(DONE, (0, 0));
        }
        let byte = self.columns.components(number)[usize::from(rest.component)];
        let shown = if eight_bits(rest) { byte } else { byte >> 2 };
        answer(DONE, (u32::from(shown), 0xff))
    }

    fn write(&mut self, at: At, word: u32) -> Answer {
        let old = (self.rest.clone(), self.memory.clone(), self.columns.dots());
        // The model draws with an empty palette, so it has a picture to itself.
        let mut lent = self.picture.clone();
        let (rest, memory) = (&mut self.rest, &mut self.memory);
        let mut answer = self.model.write(rest, memory, &mut lent, at, word);
        self.rest.palette = [NEVER; ENTRIES];
        if answer.status == DONE {
            if let Some(components) = completed(&old.0, at, word) {
                self.columns.store(usize::from(old.0.address), components);
            }
            let before = check::draw_with(&old.2, &old.0, &old.1);
            answer.changed = self.redraw(&before);
        }
        answer
    }

    /// Writes what differs from the dots before, and counts.
    fn redraw(&mut self, before: &[u32]) -> u32 {
        let after = check::draw_with(&self.columns.dots(), &self.rest, &self.memory);
        let mut changed = 0;
        for (place, dot) in self.picture.iter_mut().enumerate() {
            if before[place] != after[place] && *dot != after[place] {
                *dot = after[place];
                changed += 1;
            }
        }
        changed
    }
}

fn answer(status: u32, shown: (u32, u32)) -> Answer {
    Answer {
        status,
        word: shown.0,
        known: shown.1,
        changed: 0,
    }
}

/// Palette data with lane 0.
fn reaches_data(at: At) -> bool {
    at.target == 0 && at.offset == 0x4008 && at.enables % 2 == 1
}

fn eight_bits(rest: &State) -> bool {
    rest.indirect[0x1e].value & 2 != 0
}

/// The three components that a write completes, by the state before it.
fn completed(rest: &State, at: At, word: u32) -> Option<[u8; 3]> {
    let byte = word as u8;
    let six = byte & 0x3f;
    let blue = if eight_bits(rest) {
        byte
    } else {
        six << 2 | six >> 4
    };
    match (rest.component, rest.stage) {
        (2, Stage::RedGreen(red, green)) if reaches_data(at) => Some([red, green, blue]),
        _ => None,
    }
}
