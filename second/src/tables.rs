//! The three tables: registers of region 0, words of the configuration header,
//! indirect registers of the RAMDAC.

use crate::bits::Bits;
use crate::breaks::{Table, TableBreak, What};

/// How a region 0 register answers.
#[derive(Clone, Copy, PartialEq, Eq, Debug)]
pub enum Kind {
    /// A word that is stored and read back.
    Stored,
    /// One of the two ways to the one palette address.
    PaletteAddress,
    /// One component of a palette entry.
    PaletteData,
    /// The indirect register that the address names.
    IndexedData,
}

/// One register of region 0.
#[derive(Clone, Copy, Debug)]
pub struct Register {
    pub name: &'static str,
    pub offset: u32,
    pub kind: Kind,
    pub reads: bool,
    pub writes: bool,
    pub writable: u32,
    pub reset: Bits,
}

const ALL: u32 = 0xffff_ffff;

/// A register that is read and written.
const fn rw(name: &'static str, offset: u32, writable: u32, value: u32, known: u32) -> Register {
    Register {
        name,
        offset,
        kind: Kind::Stored,
        reads: true,
        writes: true,
        writable,
        reset: Bits::new(value, known),
    }
}

/// A register that is only read, with all its bits unknown.
const fn ro(name: &'static str, offset: u32) -> Register {
    Register {
        name,
        offset,
        kind: Kind::Stored,
        reads: true,
        writes: false,
        writable: 0,
        reset: Bits::unknown(),
    }
}

/// A register of the RAMDAC that stores nothing of its own.
const fn dac(name: &'static str, offset: u32, kind: Kind) -> Register {
    Register {
        name,
        offset,
        kind,
        reads: true,
        writes: true,
        writable: 0,
        reset: Bits::unknown(),
    }
}

pub const REGION0: &[Register] = &[
    // Aperture controls.
    rw("ApertureOne", 0x50, 0x0000_03fb, 0, ALL),
    rw("ApertureTwo", 0x58, 0x0000_03fb, 0, ALL),
    // Bypass DMA.
    rw("ByDMAAddress", 0xa0, ALL, 0, ALL),
    rw("ByDMAStride", 0xb8, ALL, 0, ALL),
    rw("ByDMAMemAddr", 0xc0, 0x00ff_ffff, 0, ALL),
    rw("ByDMASize", 0xc8, 0x0fff_0fff, 0, ALL),
    rw("ByDMAByteMask", 0xd0, ALL, 0, 0),
    rw("ByDMAControl", 0xd8, 0x3fff_ffff, 0, ALL),
    rw("ByDMAComplete", 0xe8, 0, 0, 0xffff_fffe),
    // Memory control.
    rw("Reboot", 0x1000, 0, 0, ALL),
    rw("MemControl", 0x1040, 0x0000_0010, 0, ALL),
    rw("BootAddress", 0x1080, 0x0000_03ff, 0x31, ALL),
    rw("MemConfig", 0x10c0, 0xffff_e7ff, 0x259f_ffff, ALL),
    rw("BypassWriteMask", 0x1100, ALL, 0, 0),
    ro("FramebufferWriteMask", 0x1140),
    ro("Count", 0x1180),
    // Video control.
    rw("ScreenBase", 0x3000, 0x000f_ffff, 0, 0xfff0_0000),
    rw("ScreenStride", 0x3008, 0x000f_ffff, 0, 0xfff0_0000),
    rw("HTotal", 0x3010, 0x0000_07ff, 0, 0xffff_f800),
    rw("HgEnd", 0x3018, 0x0000_07ff, 0, 0xffff_f800),
    rw("HbEnd", 0x3020, 0x0000_07ff, 0, 0xffff_f800),
    rw("HsStart", 0x3028, 0x0000_07ff, 0, 0xffff_f800),
    rw("HsEnd", 0x3030, 0x0000_07ff, 0, 0xffff_f800),
    rw("VTotal", 0x3038, 0x0000_07ff, 0, 0xffff_f800),
    rw("VbEnd", 0x3040, 0x0000_07ff, 0, 0xffff_f800),
    rw("VsStart", 0x3048, 0x0000_07ff, 0, 0xffff_f800),
    rw("VsEnd", 0x3050, 0x0000_07ff, 0, 0xffff_f800),
    rw("VideoControl", 0x3058, 0x0001_1e7f, 0, 0xfffe_0000),
    rw("InterruptLine", 0x3060, 0x0000_07ff, 0, 0xffff_f800),
    rw("DisplayData", 0x3068, 0x0000_e30c, 0, 0xffff_e30c),
    rw("LineCount", 0x3070, 0, 0, 0xffff_f800),
    rw("FifoControl", 0x3078, 0x0000_1f1f, 0, 0xfffe_e0e0),
    rw("ScreenBaseRight", 0x3080, 0x000f_ffff, 0, 0xfff0_0000),
    // RAMDAC; only lane 0 holds anything.
    dac("RDPaletteWriteAddress", 0x4000, Kind::PaletteAddress),
    dac("RDPaletteData", 0x4008, Kind::PaletteData),
    rw("RDPixelMask", 0x4010, 0xff, 0xff, 0xff),
    dac("RDPaletteReadAddress", 0x4018, Kind::PaletteAddress),
    dac("RDIndexedData", 0x4050, Kind::IndexedData),
    rw("RDCursorXLow", 0x4060, 0xff, 0, 0),
    rw("RDCursorXHigh", 0x4068, 0xff, 0, 0),
    rw("RDCursorYLow", 0x4070, 0xff, 0, 0),
    rw("RDCursorYHigh", 0x4078, 0xff, 0, 0),
];

/// One word of the configuration header.
#[derive(Clone, Copy, Debug)]
pub struct HeaderWord {
    /// Bits that take the value written.
    pub writable: u32,
    /// Bits that a written one clears.
    pub cleared: u32,
    pub reset: Bits,
}

pub const HEADER_WORDS: usize = 64;

/// Where the two write-once subsystem numbers lie.
pub const SUBSYSTEM: u32 = 0x2c;

/// Offset, writable, cleared by one, value, known. Every other offset holds no
/// register: it reads zero, known, and ignores writes.
const HEADER: &[(usize, u32, u32, u32, u32)] = &[
    (0x00, 0, 0, 0x0007_3d3d, ALL),
    (0x04, 0x0000_0006, 0x3000_0000, 0x0280_0000, ALL),
    (0x08, 0, 0, 0x0380_0001, ALL),
    (0x0c, 0x0000_ff00, 0, 0, ALL),
    (0x10, 0xfffe_0000, 0, 0, ALL),
    (0x14, 0xff80_0000, 0, 0, ALL),
    (0x18, 0xff80_0000, 0, 0, ALL),
    (0x28, 0, 0, 0, ALL),
    (0x2c, 0, 0, 0x0007_3d3d, ALL),
    (0x30, 0xffff_0001, 0, 0, ALL),
    (0x34, 0, 0, 0, !0x0000_0040),
    (0x3c, 0x0000_00ff, 0, 0x0000_0100, !0xc0c0_0000),
    (0x40, 0, 0, 0, !0x0010_0002),
    (0x44, 0, 0, 0, !0x1f00_0201),
    (0x48, 0xff00_0303, 0, 0, ALL),
    (0xf8, 0xe07f_ffff, 0, 0, ALL),
    (0xfc, ALL, 0, 0, ALL),
];

/// One indirect register of the RAMDAC. The bits of its reset value are all
/// known or, in a status register, all unknown.
#[derive(Clone, Copy, Debug)]
pub struct Indirect {
    pub exists: bool,
    pub reads: bool,
    pub writable: u32,
    pub reset: Bits,
}

pub const INDICES: usize = 256;

/// The index at which RDColorMode lies.
pub const COLOR_MODE: usize = 0x18;
/// The index at which RDPalettePage lies.
pub const PALETTE_PAGE: usize = 0x1c;
/// The index at which RDMiscControl lies.
pub const MISC_CONTROL: usize = 0x1e;

/// Index, is it read, writable, reset.
const INDIRECT: &[(usize, bool, u32, u32)] = &[
    (0x06, true, 0x7f, 0x00),
    (COLOR_MODE, true, 0xbf, 0x00),
    (0x19, true, 0x07, 0x00),
    (PALETTE_PAGE, true, 0xff, 0x00),
    (MISC_CONTROL, true, 0x3f, 0x00),
    (0x20, false, 0xff, 0x1c),
    (0x21, false, 0xff, 0x02),
    (0x22, false, 0x0b, 0x0b),
    (0x23, false, 0xff, 0x10),
    (0x24, false, 0xff, 0x02),
    (0x25, false, 0x0b, 0x0b),
    (0x26, false, 0xff, 0x00),
    (0x27, false, 0xff, 0x00),
    (0x28, false, 0x0b, 0x00),
    (0x30, false, 0xff, 0x1c),
    (0x31, false, 0xff, 0x02),
    (0x32, false, 0x03, 0x02),
    (0x40, true, 0x1f, 0x00),
    (0x41, true, 0xff, 0x00),
    (0x42, true, 0xff, 0x00),
    (0x43, true, 0xff, 0x00),
    (0x44, true, 0xff, 0x00),
];

/// The two clock status registers: written without effect, read as unknown.
const CLOCK_STATUS: &[usize] = &[0x29, 0x33];

/// The tables that a model works by.
pub struct Tables {
    pub region0: Vec<Register>,
    pub header: Vec<HeaderWord>,
    pub indirect: Vec<Indirect>,
}

impl Tables {
    /// The tables as the documents give them.
    pub fn sound() -> Tables {
        let absent_word = HeaderWord {
            writable: 0,
            cleared: 0,
            reset: Bits::known(0),
        };
        let mut header = vec![absent_word; HEADER_WORDS];
        for &(offset, writable, cleared, value, known) in HEADER {
            header[offset / 4] = HeaderWord {
                writable,
                cleared,
                reset: Bits::new(value, known),
            };
        }

        let absent_index = Indirect {
            exists: false,
            reads: false,
            writable: 0,
            reset: Bits::unknown(),
        };
        let mut indirect = vec![absent_index; INDICES];
        for &(index, reads, writable, value) in INDIRECT {
            indirect[index] = Indirect {
                exists: true,
                reads,
                writable,
                reset: Bits::new(value, 0xff),
            };
        }
        for &index in CLOCK_STATUS {
            indirect[index] = Indirect {
                exists: true,
                reads: true,
                writable: 0,
                reset: Bits::unknown(),
            };
        }

        Tables {
            region0: REGION0.to_vec(),
            header,
            indirect,
        }
    }

    /// The tables with one entry wrong.
    pub fn broken(wrong: &TableBreak) -> Tables {
        let mut tables = Tables::sound();
        match wrong.table {
            Table::Region0(row) => {
                let register = &mut tables.region0[row];
                match wrong.what {
                    What::Writable(bit) => register.writable ^= 1 << bit,
                    What::Known(bit) => flip_known(&mut register.reset, bit),
                    What::Value(bit) => register.reset.value ^= 1 << bit,
                    What::Readable => register.reads = !register.reads,
                    What::Writes => register.writes = !register.writes,
                    // An offset that no access gets past refusal 4 with.
                    What::Exists => register.offset = 1,
                }
            }
            Table::Extra(offset) => tables.region0.push(rw("extra", offset, ALL, 0, ALL)),
            Table::Header(word) => {
                let word = &mut tables.header[word];
                match wrong.what {
                    What::Writable(bit) => word.writable ^= 1 << bit,
                    What::Known(bit) => flip_known(&mut word.reset, bit),
                    What::Value(bit) => word.reset.value ^= 1 << bit,
                    What::Readable | What::Writes | What::Exists => {}
                }
            }
            Table::Indirect(index) => {
                let register = &mut tables.indirect[index];
                match wrong.what {
                    What::Writable(bit) => register.writable ^= 1 << bit,
                    What::Known(bit) => flip_known(&mut register.reset, bit),
                    What::Value(bit) => register.reset.value ^= 1 << bit,
                    What::Readable => register.reads = !register.reads,
                    What::Writes => {}
                    What::Exists => {
                        register.exists = !register.exists;
                        register.reads = register.exists;
                    }
                }
            }
        }
        tables
    }

    /// The row of the register at an offset of region 0.
    pub fn find(&self, offset: u32) -> Option<usize> {
        self.region0.iter().position(|r| r.offset == offset)
    }
}

fn flip_known(bits: &mut Bits, bit: u32) {
    bits.known ^= 1 << bit;
    bits.value &= bits.known;
}
