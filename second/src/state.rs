//! The state of the chip, its reset, and what makes a state a state.

use crate::bits::Bits;
use crate::breaks::{Break, Rule};
use crate::palette::{self, ENTRIES, NEVER};
use crate::tables::{Tables, HEADER_WORDS, INDICES, SUBSYSTEM};

/// The components of one entry that wait for the third one.
#[derive(Clone, Copy, PartialEq, Eq, Debug)]
pub enum Stage {
    Empty,
    Red(u8),
    RedGreen(u8, u8),
}

#[derive(Clone, PartialEq, Eq, Debug)]
pub struct State {
    pub width: u32,
    pub height: u32,
    pub memory_bytes: u32,
    /// One word for every row of the region 0 table.
    pub region0: Vec<Bits>,
    /// One word for every multiple of four from 0 to FCh.
    pub header: Vec<Bits>,
    pub vendor_fixed: bool,
    pub id_fixed: bool,
    /// The one RAMDAC address, eight bits.
    pub address: u8,
    pub address_known: u8,
    pub component: u8,
    pub stage: Stage,
    /// One byte for every index.
    pub indirect: Vec<Bits>,
    /// One word for every entry (02, C-15).
    pub palette: [u32; ENTRIES],
}

pub const SIDE_LIMIT: u32 = 1024;
pub const MEMORY_LIMIT: u64 = 8_388_608;

impl State {
    /// The reset state of a panel and a memory.
    pub fn reset(tables: &Tables, width: u32, height: u32, memory_bytes: u32) -> State {
        State {
            width,
            height,
            memory_bytes,
            region0: tables.region0.iter().map(|r| r.reset).collect(),
            header: tables.header.iter().map(|w| w.reset).collect(),
            vendor_fixed: false,
            id_fixed: false,
            address: 0,
            address_known: 0,
            component: 0,
            stage: Stage::Empty,
            indirect: tables.indirect.iter().map(|i| i.reset).collect(),
            palette: [NEVER; ENTRIES],
        }
    }

    /// Refusal 1 is given exactly when this is false.
    pub fn is_state(&self, tables: &Tables, broken: &Break) -> bool {
        self.rest_fits(tables, broken) && self.palette_fits(broken)
    }

    /// All of refusal 1 but the palette.
    pub fn rest_fits(&self, tables: &Tables, broken: &Break) -> bool {
        let component_fits =
            self.component <= 2 || broken.is(Rule::StateComponent) && self.component == 3;
        let unknown_ones = self.address & !self.address_known != 0;
        side_fits(self.width)
            && side_fits(self.height)
            && memory_fits(u64::from(self.memory_bytes))
            && component_fits
            && self.rows_fit(tables, broken)
            && self.header_fits(tables, broken)
            && (!unknown_ones || broken.is(Rule::StateUnknownOnes))
    }

    /// The registers of region 0 and the indirect ones.
    fn rows_fit(&self, tables: &Tables, broken: &Break) -> bool {
        if self.region0.len() != tables.region0.len() || self.indirect.len() != INDICES {
            return false;
        }
        let direct = self.region0.iter().zip(&tables.region0);
        let indirect = self.indirect.iter().zip(&tables.indirect);
        direct
            .map(|(held, register)| (*held, register.reset, register.writable))
            .chain(indirect.map(|(held, register)| (*held, register.reset, register.writable)))
            .all(|(held, reset, writable)| allowed(held, reset, writable, broken))
    }

    fn header_fits(&self, tables: &Tables, broken: &Break) -> bool {
        if self.header.len() != HEADER_WORDS {
            return false;
        }
        for (place, (held, word)) in self.header.iter().zip(&tables.header).enumerate() {
            let mut changeable = word.writable | word.cleared;
            if place as u32 == SUBSYSTEM / 4 && !broken.is(Rule::StateOnceCompared) {
                if self.vendor_fixed {
                    changeable |= 0x0000_ffff;
                }
                if self.id_fixed {
                    changeable |= 0xffff_0000;
                }
            }
            if !allowed(*held, word.reset, changeable, broken) {
                return false;
            }
        }
        true
    }

    /// What refusal 1 asks of the palette: that of every entry.
    pub fn palette_fits(&self, broken: &Break) -> bool {
        let passed_over = |number: usize| match broken {
            Break::Rule(Rule::EntryFirstUnasked) => number == 0,
            Break::Rule(Rule::EntryLastUnasked) => number == 255,
            Break::Rule(Rule::EntryAddressedOnly) => number != usize::from(self.address),
            _ => false,
        };
        let mut entries = self.palette.iter().enumerate();
        entries.all(|(number, word)| passed_over(number) || palette::fits(*word, broken))
    }
}

/// Whether a held word can stand where `reset` stood at reset and writes may
/// change the bits of `writable`.
fn allowed(held: Bits, reset: Bits, writable: u32, broken: &Break) -> bool {
    let value_moved = (held.value ^ reset.value) & !writable != 0;
    let known_moved = (held.known ^ reset.known) & !writable != 0;
    let forgotten = reset.known & !held.known != 0;
    let unknown_ones = held.value & !held.known != 0;
    if (value_moved || known_moved) && !broken.loosens_states() {
        return false;
    }
    if unknown_ones && !broken.is(Rule::StateUnknownOnes) {
        return false;
    }
    !forgotten
}

/// Whether a panel may be this wide or high.
pub fn side_fits(side: u32) -> bool {
    (1..=SIDE_LIMIT).contains(&side)
}

/// Whether so many bytes of memory may be fitted.
pub fn memory_fits(bytes: u64) -> bool {
    (8..=MEMORY_LIMIT).contains(&bytes) && bytes % 8 == 0
}
