//! The words of the palette (02, C-15): 01RRGGBBh for a stored entry, which is
//! its word in the picture, and 0 for an entry never stored.

use crate::bits::byte_of;
use crate::breaks::{Break, Rule};

pub const ENTRIES: usize = 256;
/// The word of an entry never stored.
pub const NEVER: u32 = 0;
/// The known flag: bit 24, and nothing else of the top byte.
pub const FLAG: u32 = 0x0100_0000;
/// The bits of the three components.
pub const COLOURS: u32 = 0x00ff_ffff;

/// The word of an entry with these components, red first.
pub fn entry(components: [u8; 3]) -> u32 {
    let [red, green, blue] = components.map(u32::from);
    FLAG | red << 16 | green << 8 | blue
}

/// Whether a word is that of a stored entry. What is neither that nor zero is in
/// no state, and counts as never stored (D-43).
pub fn is_stored(word: u32) -> bool {
    word >> 24 == 1
}

/// Component 0, 1 or 2; red is the highest of the three bytes.
pub fn component(word: u32, number: usize) -> u8 {
    byte_of(word, 2 - number as u32)
}

/// All three, red first.
pub fn components(word: u32) -> [u8; 3] {
    [0, 1, 2].map(|number| component(word, number))
}

/// The same top byte with other components.
pub fn recoloured(word: u32, components: [u8; 3]) -> u32 {
    word & !COLOURS | entry(components) & COLOURS
}

/// Refusal 1 for one entry: its word is zero, or its top byte has exactly bit 24
/// set.
pub fn fits(kept: u32, broken: &Break) -> bool {
    let word = meant(kept, broken);
    if word == FLAG && broken.is(Rule::EntryBlackRefused) {
        return false;
    }
    word == NEVER || is_stored(word) || passes(word, broken)
}

/// What breaks take that is no entry.
fn passes(word: u32, broken: &Break) -> bool {
    let top = word >> 24;
    let Break::Rule(rule) = broken else {
        return false;
    };
    match rule {
        Rule::StateUnknownOnes | Rule::EntryColourTaken => top == 0,
        // They leave such words, and everything would be refused as 1.
        Rule::StoreWhiteBare | Rule::StoreToggles | Rule::StorePieces => top == 0,
        Rule::EntryTwoTaken => top == 2,
        Rule::EntryThreeTaken => top == 3,
        Rule::EntrySevenBits => top & 0x7f == 1,
        Rule::EntryBitOnly => top & 1 == 1,
        Rule::EntryAnyBit => top.count_ones() == 1,
        Rule::EntryAnyTop => top != 0,
        _ => false,
    }
}

/// What is kept for an entry's word: that word, but for breaks.
pub fn kept(word: u32, broken: &Break) -> u32 {
    if broken.is(Rule::KeptFlagLow) {
        return word.rotate_left(8);
    }
    exchanged(word, broken)
}

/// The entry's word for what is kept.
pub fn meant(kept: u32, broken: &Break) -> u32 {
    if broken.is(Rule::KeptFlagLow) {
        return kept.rotate_right(8);
    }
    exchanged(kept, broken)
}

/// Both ways, for breaks that exchange two things.
fn exchanged(word: u32, broken: &Break) -> u32 {
    let [top, red, green, blue] = word.to_be_bytes();
    match (broken, top) {
        (Break::Rule(Rule::KeptBgr), _) => u32::from_be_bytes([top, blue, green, red]),
        (Break::Rule(Rule::KeptBit25), 1 | 2) => word ^ 0x0300_0000,
        (Break::Rule(Rule::KeptFour), 0 | 4) if word & COLOURS == 0 => word ^ 0x0400_0000,
        _ => word,
    }
}
