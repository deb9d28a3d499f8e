//! Random traces. A trace is a row of scenes; each scene plays one part of the
//! chip, most of them with a picture that is really drawn. Where looks are asked
//! for (02, C-12) they stand among the lines of every scene, and have scenes of
//! their own; whatever they need of the random numbers is drawn only then, since
//! traces without looks are stored.

use crate::breaks::Break;
use crate::model::Asked;
use crate::offsets::{
    BYPASS_WRITE_MASK, INDEXED_DATA, PALETTE_DATA, PALETTE_READ_ADDRESS, PALETTE_WRITE_ADDRESS,
    PIXEL_MASK, SCREEN_BASE, SCREEN_BASE_RIGHT, SCREEN_STRIDE, VIDEO_CONTROL,
};
use crate::rng::Rng;
use crate::tables::REGION0;
use crate::trace::{self, Setup};

const APERTURE_CONTROLS: [u32; 2] = [0x50, 0x58];

/// The indices at which an indirect register exists.
const PRESENT: &[u8] = &[
    0x06, 0x18, 0x19, 0x1c, 0x1e, 0x20, 0x21, 0x22, 0x23, 0x24, 0x25, 0x26, 0x27, 0x28, 0x29, 0x30,
    0x31, 0x32, 0x33, 0x40, 0x41, 0x42, 0x43, 0x44,
];

/// Offsets of region 0 where the manual prints or suggests a register that the
/// model has not.
const TEMPTING: &[u32] = &[
    0x00, 0x08, 0x10, 0x18, 0x20, 0x28, 0x30, 0x38, 0x40, 0x48, 0x54, 0x60, 0x68, 0x70, 0x78, 0x80,
    0x88, 0x90, 0x98, 0xa8, 0xb0, 0xe0, 0xf0, 0xf8, 0x1008, 0x1044, 0x10c8, 0x11c0, 0x2000, 0x3004,
    0x3014, 0x3088, 0x3090, 0x4004, 0x4020, 0x4028, 0x4030, 0x4038, 0x4040, 0x4048, 0x4058, 0x4080,
    0x5000, 0x5800, 0x6000, 0x63c0, 0x7000, 0x8000, 0xfff8,
];

/// How many kinds of bad lines there are.
const BAD_KINDS: u32 = 31;
/// How many kinds of interruption there are.
const INTERRUPTIONS: u32 = 16;
/// How many kinds of strides there are on a panel of several rows.
const STRIDE_KINDS: u32 = 12;

const COLOR_MODE: u8 = 0x18;
const MISC_CONTROL: u8 = 0x1e;

/// A trace of so many lines, each with its newline; every second seed leaves
/// the last newline out.
pub fn trace(seed: u64, lines: usize, setup: Setup, looks: bool) -> Vec<u8> {
    let mut generator = Generator {
        rng: Rng::new(seed),
        setup,
        limit: lines,
        lines: Vec::new(),
        pool: Vec::new(),
        indices: Turn::new(256, seed, 22),
        present: Turn::new(PRESENT.len(), seed, 2),
        registers: Turn::new(REGION0.len(), seed, 4),
        header_words: Turn::new(64, seed, 6),
        tempting: Turn::new(TEMPTING.len(), seed, 5),
        base: 0,
        stride: 0,
        strides: Vec::new(),
        last_address: 0,
        bad_kinds: Vec::new(),
        stride_set: false,
        poking: false,
        whole: seed % 6 == 5 && lines >= 1500,
        looks,
        looking: false,
        bad_looks: Vec::new(),
        look_registers: Turn::new(REGION0.len(), seed, 11),
        look_words: Turn::new(64, seed, 13),
        look_indices: Turn::new(256, seed, 17),
        look_present: Turn::new(PRESENT.len(), seed, 7),
    };
    generator.new_pool();
    generator.play();
    let mut text = generator.lines.join(&b'\n');
    if seed % 2 == 0 && !generator.lines.is_empty() {
        text.push(b'\n');
    }
    text
}

/// The numbers below some count in one mixed order, again and again. Each seed
/// begins further on than the seed before it, so that traces of neighbouring
/// seeds visit different parts.
struct Turn {
    order: Vec<usize>,
    at: usize,
}

impl Turn {
    fn new(count: usize, seed: u64, step: u64) -> Turn {
        let mut order: Vec<usize> = (0..count).collect();
        Rng::new(0).shuffle(&mut order);
        let at = (seed % 1000 * step % count as u64) as usize;
        Turn { order, at }
    }

    fn next(&mut self) -> usize {
        self.at = (self.at + 1) % self.order.len();
        self.order[self.at]
    }
}

struct Generator {
    rng: Rng,
    setup: Setup,
    limit: usize,
    lines: Vec<Vec<u8>>,
    /// The palette entries that memory and palette scenes mostly use.
    pool: Vec<u8>,
    /// What sweeps visit in turn: indices, indices that exist, registers,
    /// header words, tempting offsets.
    indices: Turn,
    present: Turn,
    registers: Turn,
    header_words: Turn,
    tempting: Turn,
    /// The screen base that was set last, in units of eight bytes.
    base: u32,
    /// The stride that was set last, in units of eight bytes.
    stride: u32,
    /// The kinds of strides still to come before each comes again, on a panel
    /// of several rows.
    strides: Vec<u32>,
    /// The RAMDAC address that was set last.
    last_address: u8,
    /// The kinds of bad lines still to come before each comes again.
    bad_kinds: Vec<u32>,
    stride_set: bool,
    poking: bool,
    /// Whether the whole palette is loaded; every sixth seed does.
    whole: bool,
    /// Whether there are looks among the lines.
    looks: bool,
    /// Whether looks are just being put in.
    looking: bool,
    /// The kinds of bad looks still to come before each comes again.
    bad_looks: Vec<u32>,
    /// What looks visit in turn: registers, header words, indices, indices that
    /// exist.
    look_registers: Turn,
    look_words: Turn,
    look_indices: Turn,
    look_present: Turn,
}

type Scene = fn(&mut Generator);

/// Scenes that play with everything but the picture, and how often they come.
const QUIET: &[(u32, Scene)] = &[
    (3, Generator::sweep_registers),
    (3, Generator::one_register),
    (2, Generator::sweep_header),
    (1, Generator::subsystem),
    (1, Generator::indirect_data),
    (4, Generator::palette_load),
    (4, Generator::palette_chaos),
    (3, Generator::interruption_drill),
    (3, Generator::palette_come_round),
    (4, Generator::width_between),
    (2, Generator::wrap),
    (1, Generator::long_load),
    (4, Generator::sweep_indices),
    (5, Generator::apertures),
    (3, Generator::swapped_lanes),
    (4, Generator::refusals),
    (2, Generator::malformed),
    (3, Generator::anything),
];

/// Scenes that play with the live picture.
const LIVE: &[(u32, Scene)] = &[
    (16, Generator::live_memory),
    (6, Generator::live_palette),
    (10, Generator::live_mask),
    (8, Generator::live_mode),
    (8, Generator::live_base),
    (6, Generator::others_change_nothing),
];

/// Scenes of looks.
const LOOKS: &[Scene] = &[
    Generator::look_at_load,
    Generator::look_at_load,
    Generator::look_at_entries,
    Generator::look_at_registers,
    Generator::look_at_header,
    Generator::look_at_indices,
    Generator::look_at_memory,
    Generator::look_refused,
    Generator::look_malformed,
];

/// How many kinds of bad looks there are.
const BAD_LOOKS: u32 = 18;

impl Generator {
    fn play(&mut self) {
        if self.looks {
            self.look_before_address();
        }
        let mut openings: Vec<Scene> = vec![
            Generator::read_everything,
            Generator::read_indices,
            Generator::lanes_first,
        ];
        self.rng.shuffle(&mut openings);
        openings.truncate(1 + self.rng.below(3) as usize);
        let place = self.rng.pick(&[0, 0, 1, openings.len()]);
        openings.insert(place, Generator::unknown_picture);
        if self.rng.chance(3, 4) {
            openings.insert(0, Generator::unknown_address);
        }
        for scene in openings {
            scene(self);
        }
        // Each scene that does not play with the live picture once, with writes
        // to a live picture between them; then scenes by weight.
        let mut scenes: Vec<Scene> = QUIET.iter().map(|s| s.1).collect();
        self.rng.shuffle(&mut scenes);
        if self.looks {
            self.mix_in_looks(&mut scenes);
        }
        if self.whole {
            // The sweeps still find room if they come before it.
            let first: [Scene; 5] = [
                Generator::whole_palette,
                Generator::sweep_registers,
                Generator::one_register,
                Generator::sweep_header,
                Generator::sweep_indices,
            ];
            scenes.extend_from_slice(&first);
        }
        while self.lines.len() < self.limit {
            if self.rng.chance(1, 4) {
                self.new_pool();
            }
            if let Some(scene) = scenes.pop() {
                if self.rng.chance(1, 3) {
                    self.go_live();
                }
                scene(self);
                self.burst();
            } else {
                if self.rng.chance(4, 5) {
                    self.go_live();
                }
                let scene = self.scene_by_weight();
                scene(self);
            }
        }
    }

    /// Puts each scene of looks once among those that come first, every second
    /// one of them. Scenes are taken from the end.
    fn mix_in_looks(&mut self, scenes: &mut Vec<Scene>) {
        let mut looks = LOOKS.to_vec();
        self.rng.shuffle(&mut looks);
        for (number, scene) in looks.into_iter().enumerate() {
            scenes.insert(scenes.len() - 2 * number, scene);
        }
    }

    /// Whether the stride counts. What depends on this may not touch the
    /// traces of panels with one row, which are stored.
    fn rows(&self) -> bool {
        self.setup.height > 1
    }

    fn scene_by_weight(&mut self) -> Scene {
        if self.looks && self.rng.chance(1, 5) {
            return self.rng.pick(LOOKS);
        }
        if self.rows() && self.rng.chance(1, 6) {
            return Generator::live_stride;
        }
        let weight: u32 = QUIET.iter().chain(LIVE).map(|s| s.0).sum();
        let mut at = self.rng.below(weight);
        for (part, scene) in QUIET.iter().chain(LIVE) {
            if at < *part {
                return *scene;
            }
            at -= part;
        }
        Generator::anything
    }

    // ----- lines -----

    /// One line, and now and then a poke after it.
    fn line(&mut self, line: Vec<u8>) {
        if self.looks && !self.looking {
            self.looking = true;
            self.look_first(&line);
            self.looking = false;
        }
        if self.lines.len() >= self.limit {
            return;
        }
        self.lines.push(line);
        if self.looking {
            return;
        }
        if !self.poking && self.rng.chance(1, 6) {
            self.poking = true;
            self.poke();
            self.poking = false;
        }
    }

    /// Something small that has nothing to do with the scene.
    fn poke(&mut self) {
        match self.rng.below(12) {
            0..=5 | 7 => {
                let target = 1 + self.rng.below(2);
                let offset = self.visible_offset();
                let enables = self.rng.pick(&[15, 15, 15, 1, 2, 4, 8, 3, 12, 7, 0]);
                let dots = self.dots();
                self.write(target, offset, enables, dots);
            }
            6 => {
                let mask = self.rng.pick(&[0xff, 0xff, 0x0f, 0xfe, 0x7f, 0x00]);
                self.write(0, PIXEL_MASK, 1, mask);
            }
            8 | 9 => self.refused(),
            10 => self.bad_line(),
            _ => {
                let offset = self.region_offset();
                self.read(0, offset, 15);
            }
        }
    }

    /// Hexadecimal digits, sometimes padded, in either case.
    fn digits(&mut self, number: u32) -> String {
        let mut text = format!("{number:x}");
        if self.rng.chance(1, 5) {
            let wanted = text.len() + self.rng.below(9 - text.len() as u32) as usize;
            text = format!("{number:0wanted$x}");
        }
        if self.rng.chance(1, 4) {
            text = text.to_uppercase();
        } else if self.rng.chance(1, 8) {
            let mixed = text.chars().map(|c| {
                if self.rng.chance(1, 2) {
                    c.to_ascii_uppercase()
                } else {
                    c
                }
            });
            text = mixed.collect();
        }
        text
    }

    fn access(&mut self, write: bool, target: u32, offset: u32, enables: u32, word: u32) -> String {
        let offset = self.digits(offset);
        let enables = self.digits(enables);
        if write {
            let word = self.digits(word);
            format!("w {target} {offset} {enables} {word}")
        } else {
            format!("r {target} {offset} {enables}")
        }
    }

    fn read(&mut self, target: u32, offset: u32, enables: u32) {
        let line = self.access(false, target, offset, enables, 0);
        self.line(line.into_bytes());
    }

    fn write(&mut self, target: u32, offset: u32, enables: u32, word: u32) {
        let line = self.access(true, target, offset, enables, word);
        self.line(line.into_bytes());
    }

    // ----- numbers -----

    /// Any enables, all lanes more often.
    fn enables(&mut self) -> u32 {
        match self.rng.below(20) {
            0..=7 => 15,
            8..=18 => self.rng.below(16),
            _ => self.high_enables(),
        }
    }

    /// Four-bit enables, all lanes more often.
    fn low_enables(&mut self) -> u32 {
        if self.rng.chance(2, 5) {
            15
        } else {
            self.rng.below(16)
        }
    }

    fn high_enables(&mut self) -> u32 {
        match self.rng.below(4) {
            0 => 16,
            1 => 16 + self.rng.below(16),
            2 => 1 << self.rng.below(32) | 16,
            _ => self.rng.word() | 16,
        }
    }

    /// Enables with lane 0.
    fn lane_zero(&mut self) -> u32 {
        if self.rng.chance(1, 2) {
            15
        } else {
            2 * self.rng.below(8) + 1
        }
    }

    /// Enables without lane 0.
    fn no_lane_zero(&mut self) -> u32 {
        2 * self.rng.below(8)
    }

    fn any_word(&mut self) -> u32 {
        match self.rng.below(10) {
            0 | 1 => 0xffff_ffff,
            2 => 0,
            3 => 1 << self.rng.below(32),
            4 => !(1 << self.rng.below(32)),
            5 => u32::from(self.rng.byte()) * 0x0101_0101,
            6 => u32::from(self.rng.byte()),
            _ => self.rng.word(),
        }
    }

    /// A byte in lane 0, with anything above it.
    fn around(&mut self, byte: u8) -> u32 {
        if self.rng.chance(1, 2) {
            u32::from(byte)
        } else {
            self.rng.word() & 0xffff_ff00 | u32::from(byte)
        }
    }

    fn new_pool(&mut self) {
        let size = 3 + self.rng.below(6);
        self.pool = (0..size).map(|_| self.rng.byte()).collect();
        if self.rng.chance(1, 2) {
            self.pool.push(MISC_CONTROL);
        }
        if self.rng.chance(1, 2) {
            self.pool.push(0);
        }
        if self.rng.chance(1, 4) {
            self.pool.push(255);
        }
    }

    fn pool_entry(&mut self) -> u8 {
        let place = self.rng.below(self.pool.len() as u32) as usize;
        self.pool[place]
    }

    /// A byte of memory, mostly an entry of the pool.
    fn dot(&mut self) -> u8 {
        if self.rng.chance(5, 6) {
            self.pool_entry()
        } else {
            self.rng.byte()
        }
    }

    fn dots(&mut self) -> u32 {
        u32::from_le_bytes([self.dot(), self.dot(), self.dot(), self.dot()])
    }

    /// A component byte: the ends, and anything between.
    fn component(&mut self) -> u8 {
        match self.rng.below(6) {
            0 => 0,
            1 => 255,
            2 => 63,
            _ => self.rng.byte(),
        }
    }

    /// An offset at which an aperture reaches the picture, mostly.
    fn visible_offset(&mut self) -> u32 {
        if self.rows() && self.rng.chance(3, 4) {
            return self.row_offset();
        }
        let words = self.setup.memory_bytes / 4;
        let first = self.base.saturating_mul(2);
        let shown = self.setup.width.div_ceil(4);
        if first < words && self.rng.chance(4, 5) {
            let word = first + self.rng.below(shown.max(1));
            4 * word.min(words - 1)
        } else {
            4 * self.rng.below(words)
        }
    }

    /// An offset at which an aperture reaches a row of the picture that is
    /// fitted; the first and the last of them more often.
    fn row_offset(&mut self) -> u32 {
        let fitted = u64::from(self.setup.memory_bytes);
        let first = 8 * u64::from(self.base);
        let stride = 8 * u64::from(self.stride);
        let rows = u64::from(self.setup.height);
        let last = match fitted.saturating_sub(first + 1).checked_div(stride) {
            Some(row) => row.min(rows - 1) as u32,
            None => self.setup.height - 1,
        };
        let row = match self.rng.below(8) {
            0 => 0,
            1 => last,
            _ => self.rng.below(last + 1),
        };
        let x = self.rng.below(self.setup.width);
        let place = first + stride * u64::from(row) + u64::from(x);
        (place.min(fitted - 1) & !3) as u32
    }

    /// An offset of an aperture, also beyond fitted memory.
    fn aperture_offset(&mut self) -> u32 {
        let fitted = self.setup.memory_bytes;
        match self.rng.below(16) {
            0 => fitted,
            1 => fitted + 4 * self.rng.below(8),
            2 => self
                .rng
                .pick(&[0xffff_fffc, 0x007f_fffc, 0x0080_0000, 0x8000_0000]),
            3 => self.rng.word() & !3,
            4 => fitted - 4,
            5 => self.rng.below(fitted + 8),
            _ => 4 * self.rng.below(fitted / 4),
        }
    }

    // ----- small steps -----

    fn set_address(&mut self, byte: u8) {
        let offset = if self.rng.chance(2, 3) {
            PALETTE_WRITE_ADDRESS
        } else {
            PALETTE_READ_ADDRESS
        };
        let enables = self.lane_zero();
        let word = self.around(byte);
        self.last_address = byte;
        self.write(0, offset, enables, word);
    }

    fn read_address(&mut self) {
        let offset = self
            .rng
            .pick(&[PALETTE_WRITE_ADDRESS, PALETTE_READ_ADDRESS]);
        let enables = self.lane_zero();
        self.read(0, offset, enables);
    }

    fn palette_write(&mut self, byte: u8) {
        let enables = self.lane_zero();
        let word = self.around(byte);
        self.write(0, PALETTE_DATA, enables, word);
    }

    fn palette_read(&mut self) {
        let enables = self.lane_zero();
        self.read(0, PALETTE_DATA, enables);
    }

    fn indexed_write(&mut self, byte: u8) {
        let enables = self.lane_zero();
        let word = self.around(byte);
        self.write(0, INDEXED_DATA, enables, word);
    }

    fn indexed_read(&mut self) {
        let enables = self.lane_zero();
        self.read(0, INDEXED_DATA, enables);
    }

    fn index(&mut self, index: u8, byte: u8) {
        self.set_address(index);
        self.indexed_write(byte);
    }

    /// A value of RDMiscControl with a palette width and anything else.
    fn misc_value(&mut self) -> u8 {
        if self.rng.chance(1, 2) {
            self.rng.pick(&[0, 2])
        } else {
            self.rng.byte()
        }
    }

    fn set_width(&mut self) {
        let value = self.misc_value();
        self.index(MISC_CONTROL, value);
    }

    /// Three components written, without a pause.
    fn entry(&mut self) {
        if self.rng.chance(1, 6) {
            for _ in 0..3 {
                self.palette_write(0);
            }
        } else {
            for _ in 0..3 {
                let byte = self.component();
                self.palette_write(byte);
            }
        }
    }

    /// Loads up to so many entries of the pool.
    fn load_pool(&mut self, most: u32) {
        let mut entries = self.pool.clone();
        self.rng.shuffle(&mut entries);
        let number = 1 + self.rng.below(most.min(entries.len() as u32)) as usize;
        for entry in &entries[..number] {
            self.set_address(*entry);
            self.entry();
        }
    }

    /// A value of RDColorMode with which the picture is drawn.
    fn drawn_mode(&mut self) -> u8 {
        0x10 | self.rng.byte() & self.rng.pick(&[0x00, 0x00, 0xe0])
    }

    fn set_base(&mut self) {
        let units = self.setup.memory_bytes / 8;
        let base = match self.rng.below(10) {
            0 => units,
            1 => units + self.rng.below(8),
            2 => self
                .rng
                .pick(&[0x000f_ffff, 0x0010_0000, 0x0008_0000, 0xffff_ffff]),
            _ => self.rng.below(units),
        };
        self.base = base & 0x000f_ffff;
        self.write(0, SCREEN_BASE, 15, base);
    }

    /// A base at which something is fitted.
    fn set_good_base(&mut self) {
        let units = self.setup.memory_bytes / 8;
        let last = units.saturating_sub(self.setup.width / 8).max(1);
        if self.rows() && self.rng.chance(1, 2) {
            // Most rows stay fitted.
            self.base = self.rng.below(last.min(1 + self.setup.width / 4));
            self.write(0, SCREEN_BASE, 15, self.base);
            return;
        }
        self.base = if self.rng.chance(1, 2) {
            0
        } else {
            self.rng.below(last.min(units))
        };
        let high = self.rng.pick(&[0, 0, 0xfff0_0000]);
        self.write(0, SCREEN_BASE, 15, self.base | high);
    }

    fn set_stride(&mut self) {
        if self.rows() {
            let stride = self.next_stride();
            self.write_stride(stride);
            return;
        }
        let row = self.setup.width.div_ceil(8);
        let stride = match self.rng.below(8) {
            0 => 0,
            1 => 1,
            2 => row + 1,
            3 => row.saturating_sub(1),
            4 => self.rng.word(),
            5 => 0xffff_ffff,
            _ => row,
        };
        self.stride_set = true;
        self.write(0, SCREEN_STRIDE, 15, stride);
    }

    /// Strides of every kind in turn: none, smaller than a row, a row, larger
    /// with many rows or all still fitted, and so large that few are.
    fn next_stride(&mut self) -> u32 {
        let row = self.setup.width.div_ceil(8);
        let units = self.setup.memory_bytes / 8;
        // The largest with which every row begins in fitted memory.
        let fitting = (units - 1) / (self.setup.height - 1);
        if self.strides.is_empty() {
            self.strides = (0..STRIDE_KINDS).collect();
            self.rng.shuffle(&mut self.strides);
        }
        match self.strides.pop().unwrap_or(0) {
            0 | 1 => 0,
            2 => 1,
            3 => row.saturating_sub(1),
            4 => self.rng.below(row),
            5..=7 => row,
            8 => row + 1,
            9 => fitting.max(row + 1),
            10 => row + 1 + self.rng.below(units),
            _ => {
                let word = self.rng.word();
                self.rng.pick(&[word, 0xffff_ffff, 0x000f_ffff, units])
            }
        }
    }

    fn write_stride(&mut self, stride: u32) {
        self.stride_set = true;
        self.stride = stride & 0x000f_ffff;
        let high = if self.rng.chance(1, 4) {
            0xfff0_0000
        } else {
            0
        };
        self.write(0, SCREEN_STRIDE, 15, stride | high);
    }

    /// An aperture in a served mode, which the steps after it use.
    fn open_aperture(&mut self) -> u32 {
        let which = self.rng.below(2);
        if self.rng.chance(2, 3) {
            let harmless = self.rng.pick(&[0, 0, 0x10, 0xf0, 0x04, 0xffff_fc04]);
            let mode = self.rng.below(3) | harmless;
            self.write(0, APERTURE_CONTROLS[which as usize], 15, mode);
        } else {
            self.write(0, APERTURE_CONTROLS[which as usize], 15, 0);
        }
        which + 1
    }

    /// Sets up what the picture needs, mostly all of it.
    fn go_live(&mut self) {
        let mode = self.drawn_mode();
        self.index(COLOR_MODE, mode);
        self.set_good_base();
        if !self.stride_set || self.rng.chance(1, 4) || self.rows() {
            self.set_stride();
        }
        if self.rng.chance(4, 5) {
            self.write(0, PIXEL_MASK, 1, 0xff);
        }
        if self.rng.chance(1, 3) {
            self.load_pool(3);
        }
        for _ in 0..2 {
            let target = self.open_aperture();
            let offset = self.visible_offset();
            let dots = self.dots();
            self.write(target, offset, 15, dots);
        }
    }

    /// Something that comes between two steps of a palette load.
    fn interruption(&mut self) {
        let kind = self.rng.below(INTERRUPTIONS);
        self.interrupt(kind);
    }

    fn interrupt(&mut self, kind: u32) {
        match kind {
            0 => {
                let times = 1 + self.rng.below(6);
                for _ in 0..times {
                    self.palette_read();
                }
            }
            1 => {
                let entry = self.dot();
                self.set_address(entry);
            }
            15 => self.set_address(self.last_address),
            2 => {
                let enables = self.no_lane_zero();
                self.read(0, PALETTE_DATA, enables);
            }
            3 => {
                let enables = self.no_lane_zero();
                let word = self.rng.word();
                self.write(0, PALETTE_DATA, enables, word);
            }
            4 => {
                let offset = self
                    .rng
                    .pick(&[PALETTE_WRITE_ADDRESS, PALETTE_READ_ADDRESS]);
                let enables = self.no_lane_zero();
                let word = self.rng.word();
                self.write(0, offset, enables, word);
            }
            5 => {
                let offset = self
                    .rng
                    .pick(&[PALETTE_WRITE_ADDRESS, PALETTE_READ_ADDRESS]);
                let enables = self.no_lane_zero();
                self.read(0, offset, enables);
            }
            6 => {
                let enables = self.no_lane_zero();
                if self.rng.chance(1, 2) {
                    self.read(0, INDEXED_DATA, enables);
                } else {
                    let word = self.rng.word();
                    self.write(0, INDEXED_DATA, enables, word);
                }
            }
            7 => self.indexed_read(),
            8 => {
                let byte = self.rng.byte();
                self.indexed_write(byte);
            }
            9 => self.read_address(),
            10 => self.refused(),
            11 => self.bad_line(),
            12 => {
                let target = 1 + self.rng.below(2);
                let offset = self.visible_offset();
                if self.rng.chance(1, 3) {
                    self.read(target, offset, 15);
                } else {
                    let dots = self.dots();
                    self.write(target, offset, 15, dots);
                }
            }
            13 => {
                let offset = self.rng.pick(&[PIXEL_MASK, 0x4060, 0x4078, 0x1040, 0x3010]);
                self.read(0, offset, 15);
            }
            _ => {
                let offset = self.rng.pick(&[0x4060, 0x4078, 0x1040, 0x3010, 0x50]);
                self.write(0, offset, 15, 0);
            }
        }
    }

    // ----- scenes for the start of a trace, while resets still show -----

    fn read_everything(&mut self) {
        let mut places: Vec<(u32, u32)> = REGION0.iter().map(|r| (0, r.offset)).collect();
        places.extend((0..64).map(|word| (3, 4 * word)));
        self.rng.shuffle(&mut places);
        let mut number = places.len();
        if self.rng.chance(1, 2) && !self.lines.is_empty() {
            number = 20;
        }
        for &(target, offset) in &places[..number] {
            let enables = if self.rng.chance(5, 6) {
                15
            } else {
                self.rng.below(16)
            };
            self.read(target, offset, enables);
        }
    }

    /// Indirect registers, mostly before anything is written there.
    fn read_indices(&mut self) {
        let mut present = PRESENT.to_vec();
        self.rng.shuffle(&mut present);
        for index in present {
            self.set_address(index);
            self.indexed_read();
        }
    }

    /// Registers written lane by lane, so that they become known lane by lane.
    fn lanes_first(&mut self) {
        let mut registers: Vec<u32> = REGION0.iter().map(|r| r.offset).collect();
        self.rng.shuffle(&mut registers);
        let number = 8 + self.rng.below(20) as usize;
        for offset in &registers[..number] {
            let drawn_by = *offset == SCREEN_BASE || *offset == SCREEN_STRIDE;
            if drawn_by && self.rng.chance(3, 4) {
                continue;
            }
            let mut lanes = [1, 2, 4, 8];
            self.rng.shuffle(&mut lanes);
            let steps = 1 + self.rng.below(3) as usize;
            for lane in &lanes[..steps] {
                let other = 1 << self.rng.below(4);
                let enables = lane | self.rng.pick(&[0, 0, other]);
                let word = self.any_word();
                self.write(0, *offset, enables, word);
                self.read(0, *offset, 15);
            }
        }
    }

    /// A drawn picture of which base and stride become known lane by lane.
    fn unknown_picture(&mut self) {
        if self.rng.chance(1, 2) {
            self.load_pool(2);
        }
        if self.rng.chance(5, 6) {
            let mode = self.drawn_mode();
            self.index(COLOR_MODE, mode);
        }
        // One lane is left out until the end.
        let missing = (
            self.rng.pick(&[SCREEN_BASE, SCREEN_STRIDE]),
            self.rng.pick(&[1, 2, 4]),
        );
        let mut steps = Vec::new();
        for offset in [SCREEN_BASE, SCREEN_STRIDE] {
            for enables in [1, 2, 4, 8] {
                if (offset, enables) == missing {
                    continue;
                }
                steps.push((offset, enables, 0xffff_ffff));
                steps.push((offset, enables, self.rng.pick(&[0, 0, 0, 1])));
            }
        }
        self.rng.shuffle(&mut steps);
        for (offset, enables, word) in steps {
            if word != 0xffff_ffff || self.rng.chance(1, 2) {
                self.write(0, offset, enables, word);
            }
            match self.rng.below(12) {
                0 => self.read(0, offset, 15),
                1 => {
                    let mode = self.drawn_mode() ^ self.rng.pick(&[0, 0x10, 1, 8]);
                    self.index(COLOR_MODE, mode);
                }
                2 => {
                    let dots = self.dots();
                    self.write(1, 0, 15, dots);
                }
                3 => {
                    let mask = self.any_word();
                    self.write(0, PIXEL_MASK, 15, mask);
                }
                _ => {}
            }
        }
        let mode = self.drawn_mode();
        self.index(COLOR_MODE, mode);
        let (offset, enables) = missing;
        self.write(0, offset, enables, 0);
        self.set_good_base();
        self.set_stride();
    }

    /// Palette and indexed data before an address is known.
    fn unknown_address(&mut self) {
        let steps = 4 + self.rng.below(6);
        for _ in 0..steps {
            let offset = self.rng.pick(&[
                PALETTE_DATA,
                PALETTE_DATA,
                INDEXED_DATA,
                INDEXED_DATA,
                PALETTE_WRITE_ADDRESS,
                PALETTE_READ_ADDRESS,
            ]);
            let sets = offset == PALETTE_WRITE_ADDRESS || offset == PALETTE_READ_ADDRESS;
            if self.rng.chance(1, 2) {
                let enables = self.low_enables();
                self.read(0, offset, enables);
            } else {
                let enables = if sets {
                    self.no_lane_zero()
                } else {
                    self.low_enables()
                };
                let word = self.any_word();
                self.write(0, offset, enables, word);
            }
        }
        for offset in [PALETTE_DATA, INDEXED_DATA] {
            self.read(0, offset, 15);
            self.read(0, offset, 14);
            self.write(0, offset, 1, 0x20);
        }
    }

    // ----- region 0 -----

    /// Offsets of region 0 worth a visit: registers, their neighbours, what the
    /// manual prints but the model leaves out, and what lies beyond.
    fn region_offset(&mut self) -> u32 {
        match self.rng.below(16) {
            0..=8 => self.register(),
            9 => 4 * self.rng.below(0x40),
            10 => 0x1000 + 4 * self.rng.below(0x80),
            11 => 0x3000 + 4 * self.rng.below(0x28),
            12 => 0x4000 + 4 * self.rng.below(0x24),
            13 => {
                let near = self.rng.pick(&[1, 2, 3, 4, 0xffff_fffc, 0xffff_ffff]);
                self.register().wrapping_add(near)
            }
            14 => {
                self.register()
                    | self
                        .rng
                        .pick(&[0x1_0000, 0x1_0000, 0x2_0000, 0x10_0000, 0x8000_0000])
            }
            _ => {
                if self.rng.chance(1, 2) {
                    4 * self.rng.below(0x4000)
                } else {
                    self.rng.word()
                }
            }
        }
    }

    fn register(&mut self) -> u32 {
        REGION0[self.rng.below(REGION0.len() as u32) as usize].offset
    }

    fn sweep_registers(&mut self) {
        if self.rng.chance(1, 8) {
            // One range from end to end.
            let (first, words) =
                self.rng
                    .pick(&[(0, 0x40), (0x1000, 0x68), (0x3000, 0x24), (0x4000, 0x22)]);
            let write = self.rng.chance(1, 2);
            for word in 0..words {
                let offset = first + 4 * word;
                if write && self.rng.chance(1, 2) {
                    let word = self.any_word();
                    self.write(0, offset, 15, word);
                } else {
                    self.read(0, offset, 15);
                }
            }
        }
        let steps = 15 + self.rng.below(20);
        for step in 0..steps {
            let offset = if step % 3 == 0 {
                TEMPTING[self.tempting.next()]
            } else {
                self.region_offset()
            };
            if self.rng.chance(3, 4) {
                let enables = self.enables();
                let word = self.any_word();
                self.write(0, offset, enables, word);
            }
            if self.rng.chance(3, 4) {
                let enables = self.low_enables();
                self.read(0, offset, enables);
            }
        }
    }

    /// All ones, all zeros and walking bits through one register.
    fn one_register(&mut self) {
        let times = 5 + self.rng.below(3);
        for _ in 0..times {
            let offset = REGION0[self.registers.next()].offset;
            for word in [0xffff_ffff, 0] {
                self.write(0, offset, 15, word);
                self.read(0, offset, 15);
            }
            let steps = self.rng.below(4);
            for _ in 0..steps {
                let enables = self.low_enables();
                let word = self.any_word();
                self.write(0, offset, enables, word);
                let enables = self.low_enables();
                self.read(0, offset, enables);
            }
        }
    }

    // ----- the header -----

    fn header_offset(&mut self) -> u32 {
        match self.rng.below(12) {
            0 => 0x100 + 4 * self.rng.below(0x40),
            1 => self.rng.word() & !3,
            2 => self.rng.below(0x108),
            3..=6 => self
                .rng
                .pick(&[0x04, 0x0c, 0x10, 0x14, 0x18, 0x30, 0x3c, 0x48, 0xf8, 0xfc]),
            _ => 4 * self.rng.below(0x40),
        }
    }

    fn sweep_header(&mut self) {
        // Ones and zeros through some words, then anything.
        for _ in 0..9 {
            let offset = 4 * self.header_words.next() as u32;
            if offset == 0x2c {
                continue;
            }
            let mut words = [0xffff_ffff, 0];
            self.rng.shuffle(&mut words);
            for word in words {
                self.write(3, offset, 15, word);
                self.read(3, offset, 15);
            }
        }
        // Command and status.
        for word in [0xffff_ffff, 0x3000_0006] {
            let enables = self.rng.pick(&[15, 15, 8, 12, 1, 9]);
            self.write(3, 0x04, enables, word);
            self.read(3, 0x04, 15);
        }
        let steps = 8 + self.rng.below(10);
        for _ in 0..steps {
            let mut offset = self.header_offset();
            if offset == 0x2c {
                offset = 0x28;
            }
            if self.rng.chance(2, 3) {
                let enables = self.enables();
                let word = self.any_word();
                self.write(3, offset, enables, word);
            }
            let enables = self.rng.pick(&[15, 15, 15, 1, 6, 8]);
            self.read(3, offset, enables);
        }
    }

    /// The write-once numbers: single lanes first, then halves.
    fn subsystem(&mut self) {
        self.read(3, 0x2c, 15);
        let partial = self.rng.below(4);
        for _ in 0..partial {
            let enables = self.rng.pick(&[1, 2, 4, 8, 5, 6, 9, 10, 0]);
            let word = self.any_word();
            self.write(3, 0x2c, enables, word);
            self.read(3, 0x2c, 15);
        }
        let plan = self.rng.pick(&[
            [3, 12, 15],
            [3, 15, 12],
            [12, 3, 15],
            [12, 15, 3],
            [15, 3, 12],
            [15, 15, 15],
            [7, 11, 15],
            [11, 14, 15],
            [13, 7, 15],
            [14, 3, 15],
        ]);
        let same_first = self.rng.chance(1, 2);
        for (step, &enables) in plan.iter().enumerate() {
            let word = if step == 0 && same_first {
                0x0007_3d3d
            } else {
                self.rng.word()
            };
            self.write(3, 0x2c, enables, word);
            let enables = self.rng.pick(&[15, 15, 15, 3, 12, 6]);
            self.read(3, 0x2c, enables);
        }
    }

    /// The indirect address and data of the header, which reach nothing.
    fn indirect_data(&mut self) {
        for _ in 0..4 {
            let register = self.register();
            let named = register | self.rng.pick(&[0, 0, 0, 1 << 29, 7 << 29]);
            self.write(3, 0xf8, 15, named);
            let word = self.any_word();
            self.write(3, 0xfc, 15, word);
            self.read(3, 0xfc, 15);
            self.read(0, register, 15);
            let word = self.any_word();
            self.write(0, register, 15, word);
            self.read(3, 0xfc, 15);
        }
    }

    // ----- the palette -----

    fn palette_load(&mut self) {
        if self.rng.chance(2, 3) {
            self.set_width();
        }
        let first = self.dot();
        let entries = 1 + self.rng.below(5);
        let often = self.rng.pick(&[0, 3, 12]);
        self.set_address(first);
        for _ in 0..3 * entries {
            if often > 0 && self.rng.chance(1, often) {
                self.interruption();
            }
            let byte = self.component();
            self.palette_write(byte);
        }
        if self.rng.chance(1, 2) {
            self.read_address();
        }
        if self.rng.chance(1, 3) {
            self.set_width();
        }
        self.set_address(first);
        for _ in 0..3 * entries {
            if often > 0 && self.rng.chance(1, 4 * often) {
                self.interruption();
            }
            self.palette_read();
        }
        if self.rng.chance(1, 2) {
            self.read_address();
        }
    }

    /// Palette steps in any order.
    fn palette_chaos(&mut self) {
        let first = self.dot();
        self.set_address(first);
        let steps = 15 + self.rng.below(30);
        for _ in 0..steps {
            match self.rng.below(8) {
                0..=3 => {
                    let byte = self.component();
                    self.palette_write(byte);
                }
                4 | 5 => self.palette_read(),
                _ => self.interruption(),
            }
        }
        self.read_back(first);
    }

    /// Staged bytes, then reads until the component has come round or not.
    fn palette_come_round(&mut self) {
        for _ in 0..2 {
            let first = self.dot();
            self.set_address(first);
            let staged = self.rng.below(3);
            for _ in 0..staged {
                let byte = self.component();
                self.palette_write(byte);
            }
            let reads = self.rng.pick(&[1, 2, 3, 3, 3, 4, 5, 6]);
            for _ in 0..reads {
                self.palette_read();
            }
            // Up to the end of an entry, or as many as were missing.
            let to_end = 3 - (staged + reads) % 3;
            let rest = self.rng.pick(&[to_end, 3 - staged, 3, 4]);
            for _ in 0..rest {
                let byte = self.component();
                self.palette_write(byte);
            }
            self.read_address();
            self.set_address(first);
            for _ in 0..6 + reads {
                self.palette_read();
            }
        }
    }

    /// One or two components, one interruption, the rest, and a look at it;
    /// many kinds of interruption one after another.
    fn interruption_drill(&mut self) {
        let mut kinds: Vec<u32> = (0..INTERRUPTIONS).collect();
        self.rng.shuffle(&mut kinds);
        let number = 6 + self.rng.below(5) as usize;
        for &kind in &kinds[..number] {
            let entry = self.rng.pick(&[self.pool[0], MISC_CONTROL]);
            let before = 1 + self.rng.below(2);
            self.set_address(entry);
            for _ in 0..before {
                let byte = self.component();
                self.palette_write(byte);
            }
            self.interrupt(kind);
            for _ in before..3 {
                let byte = self.component();
                self.palette_write(byte);
            }
            if self.rng.chance(1, 3) {
                self.read_address();
            }
            self.set_address(entry);
            for _ in 0..3 {
                self.palette_read();
            }
        }
    }

    /// Reads an entry and the two after it.
    fn read_back(&mut self, first: u8) {
        self.set_address(first);
        let reads = 3 * (1 + self.rng.below(3));
        for _ in 0..reads {
            self.palette_read();
        }
    }

    /// Entry 30 and RDMiscControl have the same address, so the width can
    /// change between two components.
    fn width_between(&mut self) {
        for _ in 0..2 {
            self.set_address(MISC_CONTROL);
            for _ in 0..3 {
                if self.rng.chance(2, 3) {
                    let value = self.misc_value();
                    self.indexed_write(value);
                }
                let byte = self.component();
                self.palette_write(byte);
            }
            self.set_address(MISC_CONTROL);
            if self.rng.chance(1, 3) {
                self.indexed_read();
            }
            for _ in 0..3 {
                if self.rng.chance(1, 2) {
                    let value = self.misc_value();
                    self.indexed_write(value);
                }
                self.palette_read();
            }
        }
        // Eight bits, six, eight again: entries stay as they are.
        for value in [2, 0, 2] {
            self.index(MISC_CONTROL, value);
        }
        let entry = self.pool_entry();
        self.read_back(entry);
    }

    /// Over the end of the palette.
    fn wrap(&mut self) {
        let first = 252 + self.rng.below(4) as u8;
        self.set_address(first);
        let steps = 3 * (u32::from(255 - first) + 1 + self.rng.below(3));
        for _ in 0..steps {
            let byte = self.component();
            self.palette_write(byte);
        }
        self.read_address();
        self.set_address(first);
        for _ in 0..steps {
            self.palette_read();
        }
        self.read_address();
        self.indexed_read();
    }

    /// A long part of the palette.
    fn long_load(&mut self) {
        let entries = 8 + self.rng.below(16);
        self.load_in_a_row(entries);
    }

    /// The whole palette, and one entry more than that.
    fn whole_palette(&mut self) {
        self.go_live();
        self.poking = true;
        self.load_in_a_row(257);
        self.poking = false;
    }

    fn load_in_a_row(&mut self, entries: u32) {
        let first = self.rng.byte();
        let target = self.open_aperture();
        self.set_address(first);
        for number in 0..entries {
            // Now and then a dot that shows the entry that comes next.
            if number % 3 == 0 {
                let dot = first.wrapping_add(number as u8);
                let offset = self.visible_offset();
                let enables = 1 << self.rng.below(4);
                self.write(target, offset, enables, u32::from(dot) * 0x0101_0101);
            }
            self.entry();
        }
        self.read_address();
        let start = first.wrapping_add(self.rng.below(entries) as u8);
        self.read_back(start);
    }

    // ----- indexed data -----

    /// Some of the 256 indices, and ones and zeros through some that exist.
    fn sweep_indices(&mut self) {
        for _ in 0..23 {
            let index = self.indices.next() as u8;
            self.set_address(index);
            if self.rng.chance(1, 4) {
                let enables = self.low_enables();
                let word = self.any_word();
                self.write(0, INDEXED_DATA, enables, word);
            }
            let enables = self.low_enables();
            self.read(0, INDEXED_DATA, enables);
        }
        for _ in 0..4 {
            let index = PRESENT[self.present.next()];
            self.set_address(index);
            let other = self.rng.byte();
            for byte in [0xff, 0, other] {
                self.indexed_write(byte);
                self.indexed_read();
            }
        }
        let mode = self.drawn_mode();
        self.index(COLOR_MODE, mode);
    }

    // ----- the apertures -----

    fn aperture_mode(&mut self) -> u32 {
        let bits = self.rng.pick(&[
            0,
            0,
            0,
            0,
            0x08,
            0x10,
            0xf0,
            0x100,
            0x200,
            0x308,
            0xffff_fc04,
        ]);
        self.rng.below(4) | bits
    }

    fn apertures(&mut self) {
        let rounds = 2 + self.rng.below(3);
        for _ in 0..rounds {
            for control in APERTURE_CONTROLS {
                let mode = self.aperture_mode();
                self.write(0, control, 15, mode);
            }
            let steps = 6 + self.rng.below(8);
            for _ in 0..steps {
                let target = 1 + self.rng.below(2);
                let offset = self.aperture_offset();
                let enables = self.enables();
                if self.rng.chance(1, 2) {
                    let word = if self.rng.chance(1, 2) {
                        self.dots()
                    } else {
                        self.rng.word()
                    };
                    self.write(target, offset, enables, word);
                } else {
                    self.read(target, offset, enables);
                }
            }
        }
    }

    /// Every set of enables in every served order, seen through the other
    /// aperture in standard order.
    fn swapped_lanes(&mut self) {
        let through = self.rng.below(2);
        let mode = self.rng.below(3);
        self.write(0, APERTURE_CONTROLS[through as usize], 15, mode);
        self.write(0, APERTURE_CONTROLS[1 - through as usize], 15, 0);
        let mut order: Vec<u32> = (0..16).collect();
        self.rng.shuffle(&mut order);
        let steps = 6 + self.rng.below(11) as usize;
        for &enables in &order[..steps] {
            let offset = self.visible_offset();
            let word = if self.rng.chance(1, 2) {
                self.dots()
            } else {
                self.rng.word()
            };
            self.write(1 + through, offset, enables, word);
            match self.rng.below(3) {
                0 => self.read(2 - through, offset, 15),
                1 => self.read(1 + through, offset, enables),
                _ => {
                    let enables = self.low_enables();
                    self.read(1 + through, offset, enables);
                }
            }
        }
    }

    // ----- the live picture -----

    /// A few writes to a picture that is surely drawn.
    fn burst(&mut self) {
        let mode = self.drawn_mode();
        self.index(COLOR_MODE, mode);
        self.set_good_base();
        if self.rows() {
            self.set_stride();
        }
        self.write(0, PIXEL_MASK, 1, 0xff);
        if self.rng.chance(1, 2) {
            self.load_pool(2);
        }
        let target = self.open_aperture();
        let steps = 5 + self.rng.below(7);
        for _ in 0..steps {
            let offset = self.visible_offset();
            let dots = self.dots();
            self.write(target, offset, 15, dots);
        }
    }

    fn live_memory(&mut self) {
        let target = self.open_aperture();
        if self.rng.chance(1, 3) {
            self.load_pool(3);
        }
        let steps = 10 + self.rng.below(15);
        for _ in 0..steps {
            let offset = self.visible_offset();
            let enables = self.low_enables();
            let dots = self.dots();
            self.write(target, offset, enables, dots);
            if self.rng.chance(1, 8) {
                self.read(target, offset, enables);
            }
        }
    }

    fn live_palette(&mut self) {
        let target = self.open_aperture();
        let offset = self.visible_offset();
        let dots = self.dots();
        self.write(target, offset, 15, dots);
        if self.rng.chance(1, 2) {
            self.set_width();
        }
        let steps = 3 + self.rng.below(4);
        for _ in 0..steps {
            let entry = if self.rng.chance(2, 3) {
                self.rng.pick(&dots.to_le_bytes())
            } else {
                self.pool_entry()
            };
            self.set_address(entry);
            self.entry();
        }
    }

    fn live_mask(&mut self) {
        let target = self.open_aperture();
        let offset = self.visible_offset();
        let dots = self.dots();
        self.write(target, offset, 15, dots);
        self.load_pool(3);
        let steps = 8 + self.rng.below(12);
        for _ in 0..steps {
            let mask = match self.rng.below(6) {
                0 => 0xff,
                1 => 0,
                2 => 1 << self.rng.below(8),
                3 => !(1 << self.rng.below(8)),
                _ => self.rng.byte(),
            };
            let enables = if self.rng.chance(5, 6) {
                self.lane_zero()
            } else {
                self.no_lane_zero()
            };
            let word = self.around(mask);
            self.write(0, PIXEL_MASK, enables, word);
            match self.rng.below(8) {
                0 => {
                    let entry = self.rng.pick(&dots.to_le_bytes()) & mask;
                    self.set_address(entry);
                    self.entry();
                }
                1 => {
                    let enables = self.low_enables();
                    self.read(0, PIXEL_MASK, enables);
                }
                2 => {
                    let dots = self.dots();
                    self.write(target, offset, 15, dots);
                }
                _ => {}
            }
        }
    }

    fn live_mode(&mut self) {
        if self.rng.chance(1, 3) {
            self.set_base();
        }
        self.set_address(COLOR_MODE);
        let steps = 10 + self.rng.below(12);
        for _ in 0..steps {
            let mode = match self.rng.below(6) {
                0 => self.rng.byte(),
                1 => 1 << self.rng.below(8),
                2 => 0x10 | 1 << self.rng.below(8),
                3 => self.rng.pick(&[0x11, 0x12, 0x14, 0x18, 0x00, 0x80]),
                _ => self.drawn_mode(),
            };
            if self.rng.chance(5, 6) {
                self.indexed_write(mode);
            } else {
                let enables = self.no_lane_zero();
                let word = self.around(mode);
                self.write(0, INDEXED_DATA, enables, word);
            }
            if self.rng.chance(1, 5) {
                self.indexed_read();
            }
        }
        let mode = self.drawn_mode();
        self.indexed_write(mode);
    }

    fn live_base(&mut self) {
        let first = self.open_aperture();
        let mut offset = 0;
        while offset < self.setup.memory_bytes && offset < 64 {
            let dots = self.dots();
            self.write(first, offset, 15, dots);
            offset += 4;
        }
        let steps = 6 + self.rng.below(10);
        for _ in 0..steps {
            match self.rng.below(7) {
                6 => {
                    let mode = self.drawn_mode() ^ self.rng.pick(&[0x10, 1, 8, 0]);
                    self.index(COLOR_MODE, mode);
                }
                0 => self.set_stride(),
                1 => {
                    let enables = self.low_enables();
                    let word = self.any_word();
                    let offset = self.rng.pick(&[SCREEN_BASE, SCREEN_STRIDE]);
                    self.write(0, offset, enables, word);
                }
                2 => self.set_base(),
                _ => self.set_good_base(),
            }
        }
        if self.rng.chance(1, 2) {
            // Beyond memory, not drawn, drawn again.
            let units = self.setup.memory_bytes / 8;
            self.write(0, SCREEN_BASE, 15, units);
            for mode in [0x10, 0x00, 0x10] {
                self.index(COLOR_MODE, mode);
            }
        }
        let mode = self.drawn_mode();
        self.index(COLOR_MODE, mode);
        self.set_good_base();
    }

    /// A picture whose rows differ, moved about by strides of every kind; on
    /// panels of several rows.
    fn live_stride(&mut self) {
        let target = self.open_aperture();
        self.load_pool(3);
        self.write(0, PIXEL_MASK, 1, 0xff);
        self.set_good_base();
        let steps = 6 + self.rng.below(8);
        for _ in 0..steps {
            match self.rng.below(8) {
                0 => {
                    // Lane by lane: what lies between is shown as well.
                    let stride = self.next_stride() & 0x000f_ffff;
                    let mut lanes = [1, 2, 4];
                    self.rng.shuffle(&mut lanes);
                    for lane in lanes {
                        self.write(0, SCREEN_STRIDE, lane, stride);
                    }
                    self.stride = stride;
                }
                1 => self.set_good_base(),
                _ => self.set_stride(),
            }
            let writes = 1 + self.rng.below(4);
            for _ in 0..writes {
                let offset = self.row_offset();
                let enables = self.low_enables();
                let dots = self.dots();
                self.write(target, offset, enables, dots);
            }
        }
    }

    /// Registers that must not alter the picture or an aperture.
    fn others_change_nothing(&mut self) {
        let target = self.open_aperture();
        self.load_pool(3);
        let steps = 8 + self.rng.below(10);
        for _ in 0..steps {
            match self.rng.below(9) {
                0 => {
                    let word = self.any_word();
                    self.write(0, VIDEO_CONTROL, 15, word);
                }
                1 => {
                    let word = self.rng.pick(&[0, 1, 2, 0xffff_ffff]);
                    self.write(0, SCREEN_BASE_RIGHT, 15, word);
                }
                2 => {
                    let word = self.any_word();
                    self.write(0, BYPASS_WRITE_MASK, 15, word);
                }
                3 => {
                    let index = self.rng.pick(&[0x06, 0x19, 0x1c, 0x1c, 0x1e, 0x40]);
                    let byte = self.rng.byte();
                    self.index(index, byte);
                }
                4 => {
                    let word = self.any_word();
                    self.write(3, 0x04, 15, word);
                    self.read(3, 0x04, 15);
                }
                5 => {
                    let offset = self
                        .rng
                        .pick(&[0x1040, 0x1080, 0x10c0, 0x1000, 0xe8, 0xd0, 0x3078]);
                    let word = self.any_word();
                    self.write(0, offset, 15, word);
                }
                _ => {
                    let offset = self.visible_offset();
                    let enables = self.low_enables();
                    let dots = self.dots();
                    self.write(target, offset, enables, dots);
                    self.read(target, offset, 15);
                }
            }
        }
    }

    // ----- refusals and bad lines -----

    /// One access that is refused.
    fn refused(&mut self) {
        let fitted = self.setup.memory_bytes;
        let odd = self.rng.pick(&[1, 2, 3]);
        let absent = self
            .rng
            .pick(&[0x00, 0x40, 0x4020, 0x4028, 0x4058, 0x4004, 0x1_4008, 0x3088]);
        let (target, offset, enables) = match self.rng.below(14) {
            0 => (4 + self.rng.below(6), self.register(), 15),
            1 => (
                self.rng.below(4),
                4 * self.rng.below(4),
                self.high_enables(),
            ),
            2 => (4 + self.rng.below(6), odd, self.high_enables()),
            3 => (self.rng.below(4), 0x50 + odd, self.low_enables()),
            4 => (self.rng.below(4), 0x50 + odd, self.high_enables()),
            5 => (0, absent, self.rng.pick(&[0, 15, 1])),
            6 => (0, absent + odd, self.low_enables()),
            7 => (0, absent, self.high_enables()),
            8 => {
                let enables = self.rng.pick(&[0, 15, 15, 6]);
                (
                    1 + self.rng.below(2),
                    fitted + 4 * self.rng.below(3),
                    enables,
                )
            }
            9 => (3, 0x100 + 4 * self.rng.below(0x40), self.low_enables()),
            10 => (1 + self.rng.below(2), fitted + odd, self.enables()),
            11 => {
                // An aperture that is not served.
                let which = self.rng.below(2);
                let mode = self.rng.pick(&[3, 8, 0x100, 0x200]);
                let offset = self.visible_offset();
                let enables = self.rng.pick(&[15, 15, 0, 6]);
                let dots = self.dots();
                self.write(0, APERTURE_CONTROLS[which as usize], 15, mode);
                self.write(1 + which, offset, enables, dots);
                self.write(0, APERTURE_CONTROLS[which as usize], 15, 0);
                return;
            }
            _ => {
                // Read-only registers, written.
                let offset = self.rng.pick(&[0x1140, 0x1180]);
                let enables = self.rng.pick(&[0, 15, 15, 1, 6]);
                let word = self.any_word();
                self.write(0, offset, enables, word);
                return;
            }
        };
        if self.rng.chance(1, 2) {
            self.read(target, offset, enables);
        } else {
            let word = self.any_word();
            self.write(target, offset, enables, word);
        }
    }

    fn refusals(&mut self) {
        let steps = 8 + self.rng.below(10);
        for step in 0..steps {
            match self.rng.below(5).min(step) {
                0 => {
                    // An aperture that is not served, with every other reason.
                    let which = self.rng.below(2);
                    let mode = self.rng.pick(&[3, 8, 0x100, 0x200, 0x109, 0x20a]);
                    self.write(0, APERTURE_CONTROLS[which as usize], 15, mode);
                    for _ in 0..5 {
                        let offset = self.aperture_offset();
                        let offset = offset | self.rng.pick(&[0, 0, 0, 1, 2]);
                        let enables = self.enables();
                        if self.rng.chance(1, 2) {
                            self.read(1 + which, offset, enables);
                        } else {
                            let dots = self.dots();
                            self.write(1 + which, offset, enables, dots);
                        }
                    }
                    self.write(0, APERTURE_CONTROLS[which as usize], 15, 0);
                }
                1 => {
                    // Write-only and absent indices, with and without lane 0.
                    let index = self.rng.pick(&[
                        0x20, 0x22, 0x28, 0x30, 0x32, 0x1f, 0x45, 0xff, 0x00, 0x9e, 0x29, 0x33,
                    ]);
                    self.set_address(index);
                    for _ in 0..2 {
                        let enables = self.low_enables();
                        self.read(0, INDEXED_DATA, enables);
                    }
                    let enables = self.low_enables();
                    let word = self.any_word();
                    self.write(0, INDEXED_DATA, enables, word);
                }
                _ => self.refused(),
            }
        }
    }

    fn malformed(&mut self) {
        let steps = 6 + self.rng.below(10);
        for _ in 0..steps {
            self.bad_line();
            if self.rng.chance(1, 4) {
                let offset = self.register();
                self.read(0, offset, 15);
            }
        }
    }

    /// A line that has not the form, near to one that has.
    fn bad_line(&mut self) {
        let write = self.rng.chance(1, 2);
        let (target, offset) = match self.rng.below(3) {
            0 => (0, self.register()),
            1 => (1 + self.rng.below(2), self.visible_offset()),
            _ => (3, 4 * self.rng.below(0x40)),
        };
        let word = self.any_word();
        let good = self.access(write, target, offset, 15, word).into_bytes();
        let mut spaces = Vec::new();
        for (place, byte) in good.iter().enumerate() {
            if *byte == b' ' {
                spaces.push(place);
            }
        }
        let space = self.rng.pick(&spaces);
        let number = self.rng.pick(&spaces[1..]) + 1;
        let mut bad = good.clone();
        if self.bad_kinds.is_empty() {
            self.bad_kinds = (0..BAD_KINDS).collect();
            self.rng.shuffle(&mut self.bad_kinds);
        }
        match self.bad_kinds.pop().unwrap_or(0) {
            0 => bad[0] = bad[0].to_ascii_uppercase(),
            1 => bad.insert(space, b' '),
            2 => bad.insert(0, b' '),
            3 => bad.push(b' '),
            4 => bad[space] = b'\t',
            5 => bad.push(b'\r'),
            6 => {
                let digits = self.digits_at(&bad, number);
                for _ in digits..9 {
                    bad.insert(number, b'0');
                }
            }
            7 => bad.truncate(spaces[spaces.len() - 1]),
            8 => {
                bad = self.access(false, target, offset, 15, 0).into_bytes();
                bad.extend_from_slice(b" 1");
            }
            29 => {
                bad = self.access(true, target, offset, 15, word).into_bytes();
                bad.extend_from_slice(b" 0");
            }
            9 => bad.insert(2, b'0'),
            10 => bad.insert(3, b'0'),
            11 => bad[2] = self.rng.pick(b"abcfABF-x:/"),
            12 => bad.insert(number, b'+'),
            13 => bad.insert(number, b'-'),
            14 => {
                bad.insert(number, b'x');
                bad.insert(number, b'0');
            }
            15 => bad[number] = self.rng.pick(b"gGhxzZ/:@`_.,\0"),
            16 => bad.clear(),
            17 => bad = vec![b' '; 1 + self.rng.below(4) as usize],
            18 => bad.resize(65, b' '),
            19 => bad.resize(65 + self.rng.below(200) as usize, b'0'),
            20 => {
                // A good line just after the 64th byte, or the 65th.
                bad = vec![b'0'; 64 + self.rng.below(2) as usize];
                bad.extend_from_slice(&good);
            }
            21 => bad.insert(number, self.rng.pick(&[0x00, 0x80, 0xff, 0xc3, 0x0b, 0x0c])),
            22 => {
                let length = self.rng.below(70);
                bad = (0..length).map(|_| self.rng.byte()).collect();
                for byte in &mut bad {
                    if *byte == b'\n' {
                        *byte = b'r';
                    }
                }
                bad.push(b'?');
            }
            23 => {
                bad.remove(space);
            }
            24 => bad[0] = self.rng.pick(b"xq#0RW?"),
            25 => bad.push(b'h'),
            26 => bad = b"r".to_vec(),
            27 => bad = b"w 0 1040 f".to_vec(),
            28 => bad = b"r 0 1040".to_vec(),
            _ => {
                // Two lines in one.
                bad.push(b' ');
                bad.extend_from_slice(&good);
            }
        }
        self.line(bad);
    }

    /// How many digits stand at a place of a line.
    fn digits_at(&self, line: &[u8], place: usize) -> usize {
        line[place..].iter().take_while(|b| **b != b' ').count()
    }

    /// Accesses without any plan.
    fn anything(&mut self) {
        let steps = 10 + self.rng.below(20);
        for _ in 0..steps {
            let target = if self.rng.chance(1, 20) {
                self.rng.below(10)
            } else {
                self.rng.below(4)
            };
            let offset = match target {
                0 => self.region_offset(),
                1 | 2 => self.aperture_offset(),
                _ => self.header_offset(),
            };
            let offset = if target == 3 && offset == 0x2c {
                0x30
            } else {
                offset
            };
            let enables = self.enables();
            if self.rng.chance(1, 2) {
                self.read(target, offset, enables);
            } else {
                let word = self.any_word();
                self.write(target, offset, enables, word);
            }
        }
    }

    // ----- looks -----

    fn look(&mut self, target: u32, offset: u32, enables: u32) {
        let offset = self.digits(offset);
        let enables = self.digits(enables);
        self.push_look(format!("l {target} {offset} {enables}").into_bytes());
    }

    /// A line of a look, before which no other look is put.
    fn push_look(&mut self, line: Vec<u8>) {
        let looking = self.looking;
        self.looking = true;
        self.line(line);
        self.looking = looking;
    }

    /// A look, and often the same look or the same read at once after it.
    fn look_and_read(&mut self, target: u32, offset: u32, enables: u32) {
        self.look(target, offset, enables);
        if self.rng.chance(1, 4) {
            self.look(target, offset, enables);
        }
        if self.rng.chance(1, 2) {
            let line = self.access(false, target, offset, enables, 0);
            self.push_look(line.into_bytes());
        }
    }

    /// Looks that come before a line: at what it reads, at palette data around
    /// palette accesses, or anywhere.
    fn look_first(&mut self, line: &[u8]) {
        let asked = trace::parse(line, false, &Break::Nothing);
        let ramdac = [
            PALETTE_DATA,
            PALETTE_WRITE_ADDRESS,
            PALETTE_READ_ADDRESS,
            INDEXED_DATA,
        ];
        let near_palette = asked.is_some_and(|asked| {
            let at = asked.at();
            ramdac.iter().any(|offset| at.is_register(*offset))
        });
        match asked {
            Some(Asked::Read(_)) if self.rng.chance(1, 5) => {
                let mut same = line.to_vec();
                same[0] = b'l';
                self.push_look(same.clone());
                if self.rng.chance(1, 4) {
                    self.push_look(same);
                }
            }
            _ if near_palette && self.rng.chance(1, 6) => {
                let times = self.rng.pick(&[1, 1, 2, 3]);
                for _ in 0..times {
                    self.look_at_palette();
                }
            }
            _ if self.rng.chance(1, 11) => self.look_anywhere(),
            _ => {}
        }
    }

    fn look_at_palette(&mut self) {
        let enables = match self.rng.below(12) {
            0 => self.no_lane_zero(),
            1 => self.high_enables(),
            _ => self.lane_zero(),
        };
        self.look(0, PALETTE_DATA, enables);
    }

    fn look_anywhere(&mut self) {
        let enables = self.enables();
        match self.rng.below(12) {
            0..=2 => self.look_at_palette(),
            3 => self.look(0, INDEXED_DATA, enables),
            4 => {
                let offset = self
                    .rng
                    .pick(&[PALETTE_WRITE_ADDRESS, PALETTE_READ_ADDRESS]);
                self.look(0, offset, enables);
            }
            5 | 6 => {
                let offset = self.region_offset();
                self.look(0, offset, enables);
            }
            7 => {
                let offset = self.header_offset();
                self.look(3, offset, enables);
            }
            8 | 9 => {
                let target = 1 + self.rng.below(2);
                let offset = self.visible_offset();
                self.look(target, offset, enables);
            }
            10 => self.look_with_reason(),
            _ => self.bad_look(),
        }
    }

    /// Palette and indexed data before any address is set.
    fn look_before_address(&mut self) {
        for offset in [
            PALETTE_DATA,
            INDEXED_DATA,
            PALETTE_WRITE_ADDRESS,
            PALETTE_READ_ADDRESS,
        ] {
            for enables in [15, 14, 0] {
                if self.rng.chance(2, 3) {
                    self.look_and_read(0, offset, enables);
                }
            }
        }
        self.look(0, PALETTE_DATA, 1);
        self.look(0, INDEXED_DATA, 1);
    }

    /// Looks between the writes of a palette load, then the entry read back with
    /// looks between the reads.
    fn look_at_load(&mut self) {
        if self.rng.chance(1, 2) {
            self.set_width();
        }
        let entry = self.dot();
        self.set_address(entry);
        for _ in 0..3 {
            let times = self.rng.below(3);
            for _ in 0..times {
                match self.rng.below(4) {
                    0 => self.look_anywhere(),
                    _ => self.look_at_palette(),
                }
            }
            let byte = self.component();
            self.palette_write(byte);
        }
        self.look_at_palette();
        self.set_address(entry);
        if self.rng.chance(1, 3) {
            self.look(0, INDEXED_DATA, 15);
        }
        for _ in 0..4 {
            let enables = self.lane_zero();
            self.look_and_read(0, PALETTE_DATA, enables);
            if self.rng.chance(1, 4) {
                self.look_at_palette();
            }
        }
        self.read_address();
    }

    /// Looks at entries at each component, stored or not, without a load.
    fn look_at_entries(&mut self) {
        let steps = 3 + self.rng.below(4);
        for _ in 0..steps {
            let entry = if self.rng.chance(1, 2) {
                self.pool_entry()
            } else {
                self.rng.byte()
            };
            self.set_address(entry);
            let reads = self.rng.below(4);
            for _ in 0..reads {
                self.palette_read();
            }
            let enables = self.lane_zero();
            self.look(0, PALETTE_DATA, enables);
            self.look_and_read(0, PALETTE_DATA, enables);
            let offset = self
                .rng
                .pick(&[PALETTE_WRITE_ADDRESS, PALETTE_READ_ADDRESS]);
            self.look_and_read(0, offset, 15);
            self.look_at_palette();
        }
    }

    fn look_at_registers(&mut self) {
        for _ in 0..REGION0.len() / 2 {
            let offset = REGION0[self.look_registers.next()].offset;
            if self.rng.chance(1, 4) {
                let word = self.any_word();
                self.write(0, offset, 15, word);
            }
            let enables = self.enables();
            self.look_and_read(0, offset, enables);
        }
        for offset in [0x1140, 0x1180] {
            let enables = self.enables();
            self.look_and_read(0, offset, enables);
            self.write(0, offset, 15, 0);
        }
    }

    fn look_at_header(&mut self) {
        for _ in 0..20 {
            let offset = 4 * self.look_words.next() as u32;
            if self.rng.chance(1, 4) && offset != 0x2c {
                let word = self.any_word();
                self.write(3, offset, 15, word);
            }
            let enables = self.enables();
            self.look_and_read(3, offset, enables);
        }
        // The write-once numbers, which a look does not fix.
        self.look_and_read(3, 0x2c, 15);
        let enables = self.rng.pick(&[3, 12, 15, 1, 0]);
        let word = self.rng.word();
        self.write(3, 0x2c, enables, word);
        self.look_and_read(3, 0x2c, 15);
        let offset = 0x100 + 4 * self.rng.below(0x40);
        self.look_and_read(3, offset, 15);
    }

    /// Looks through the index: registers that are read, that are only written,
    /// that are not there. The address stays.
    fn look_at_indices(&mut self) {
        for step in 0..12 {
            let index = if step % 3 == 2 {
                self.look_indices.next() as u8
            } else {
                PRESENT[self.look_present.next()]
            };
            self.set_address(index);
            if self.rng.chance(1, 4) {
                let byte = self.rng.byte();
                self.indexed_write(byte);
            }
            let enables = self.enables();
            self.look_and_read(0, INDEXED_DATA, enables);
            if self.rng.chance(1, 2) {
                self.look(0, PALETTE_WRITE_ADDRESS, 15);
            } else {
                self.look(0, PALETTE_DATA, 15);
            }
        }
    }

    /// Memory through each swap code, the one that is not served among them.
    fn look_at_memory(&mut self) {
        let mut codes = [0, 1, 2, 3];
        self.rng.shuffle(&mut codes);
        for code in codes {
            let which = self.rng.below(2);
            let control = APERTURE_CONTROLS[which as usize];
            self.write(0, control, 15, 0);
            let offset = 4 * self.rng.below(self.setup.memory_bytes / 4);
            let word = self.rng.word();
            self.write(1 + which, offset, 15, word);
            self.write(0, control, 15, code);
            self.look_and_read(1 + which, offset, 15);
            for _ in 0..2 {
                let enables = self.enables();
                let offset = self.rng.pick(&[offset, offset, offset ^ 4]);
                self.look_and_read(1 + which, offset, enables);
            }
            let offset = self.aperture_offset();
            self.look_and_read(1 + which, offset, 15);
            self.write(0, control, 15, 0);
        }
    }

    fn look_refused(&mut self) {
        let steps = 10 + self.rng.below(8);
        for _ in 0..steps {
            self.look_with_reason();
        }
    }

    /// A look with one of the reasons 3 to 7, or two of them.
    fn look_with_reason(&mut self) {
        let fitted = self.setup.memory_bytes;
        let odd = self.rng.pick(&[1, 2, 3]);
        match self.rng.below(9) {
            0 => {
                let target = 4 + self.rng.below(6);
                let offset = self.register() + self.rng.pick(&[0, odd]);
                self.look_and_read(target, offset, 15);
            }
            1 => {
                let enables = self.high_enables();
                let target = self.rng.below(4);
                let offset = 0x50 + self.rng.pick(&[0, 0, odd]);
                self.look_and_read(target, offset, enables);
            }
            2 => {
                let offset = self.register() + odd;
                let enables = self.low_enables();
                self.look_and_read(0, offset, enables);
            }
            3 => {
                let target = 1 + self.rng.below(2);
                let offset = self.rng.pick(&[0, 4, fitted - 4, fitted]) + odd;
                self.look_and_read(target, offset, 15);
            }
            4 => {
                let offset = TEMPTING[self.tempting.next()];
                let enables = self.low_enables();
                self.look_and_read(0, offset, enables);
            }
            5 => {
                let target = 1 + self.rng.below(2);
                let offset = fitted + 4 * self.rng.below(3);
                self.look_and_read(target, offset, 15);
            }
            6 => {
                let offset = self.rng.pick(&[odd, 0x100, 0x104, 0x1_0000, 0x100 + odd]);
                self.look_and_read(3, offset, 15);
            }
            7 => {
                // A clock parameter, which is only written.
                let index = self.rng.pick(&[0x20, 0x22, 0x25, 0x28, 0x30, 0x32]);
                self.set_address(index);
                let enables = self.low_enables();
                self.look_and_read(0, INDEXED_DATA, enables);
            }
            _ => {
                let which = self.rng.below(2);
                let mode = self.rng.pick(&[3, 8, 0x100, 0x200]);
                self.write(0, APERTURE_CONTROLS[which as usize], 15, mode);
                let enables = self.rng.pick(&[15, 15, 0, 6]);
                let offset = self.rng.pick(&[0, 4, fitted - 4, fitted]);
                self.look_and_read(1 + which, offset, enables);
                self.write(0, APERTURE_CONTROLS[which as usize], 15, 0);
            }
        }
    }

    fn look_malformed(&mut self) {
        for _ in 0..8 {
            self.bad_look();
        }
    }

    /// A line that is no look, near to one that is.
    fn bad_look(&mut self) {
        let offset = self.rng.pick(&[PALETTE_DATA, 0x1040, PIXEL_MASK, 0]);
        let target = self.rng.pick(&[0, 0, 1, 3]);
        let good = format!("l {target} {offset:x} f");
        if self.bad_looks.is_empty() {
            self.bad_looks = (0..BAD_LOOKS).collect();
            self.rng.shuffle(&mut self.bad_looks);
        }
        let bad = match self.bad_looks.pop().unwrap_or(0) {
            0 => good.replace('l', "L"),
            1 => format!("{good} 0"),
            2 => format!("{good} ffffffff"),
            3 => format!("l {target} {offset:x}"),
            4 => "l".to_string(),
            5 => format!(" {good}"),
            6 => format!("{good} "),
            7 => good.replacen(' ', "  ", 1),
            8 => good.replacen(' ', "\t", 1),
            9 => format!("{good}\r"),
            10 => format!("l 0{target} {offset:x} f"),
            11 => format!("l {target} {offset:09x} f"),
            12 => format!("l {target} 0x{offset:x} f"),
            13 => format!("l{target} {offset:x} f"),
            14 => good.replace('l', self.rng.pick(&["ll", "lr", "look", "1", "I"])),
            15 => format!("l {target} {offset:x} {}", "0".repeat(64)),
            16 => format!("l a {offset:x} f"),
            _ => format!("{good} {good}"),
        };
        self.push_look(bad.into_bytes());
    }
}
