//! Words of which some bits may be unknown, and byte lanes.

/// A word with some bits unknown. An unknown bit is held as zero.
#[derive(Clone, Copy, PartialEq, Eq, Debug)]
pub struct Bits {
    pub value: u32,
    pub known: u32,
}

impl Bits {
    pub const fn new(value: u32, known: u32) -> Bits {
        Bits { value, known }
    }

    /// Every bit known.
    pub const fn known(value: u32) -> Bits {
        Bits::new(value, 0xffff_ffff)
    }

    /// No bit known.
    pub const fn unknown() -> Bits {
        Bits::new(0, 0)
    }
}

/// The bits of one lane; lane 0 is the lowest byte.
pub fn lane(number: u32) -> u32 {
    0xff << (8 * number)
}

/// The bits of all lanes that the enables name.
pub fn lanes(enables: u32) -> u32 {
    let mut mask = 0;
    for number in 0..4 {
        if enables >> number & 1 == 1 {
            mask |= lane(number);
        }
    }
    mask
}

/// The byte of a word that lies in a lane.
pub fn byte_of(word: u32, number: u32) -> u8 {
    (word >> (8 * number)) as u8
}
