//! The program's own tests: the values that the documents give, the rules one
//! by one, and random accesses on panels of many sizes. Those of the palette's
//! words are in `words`.

mod words;

use std::io::BufReader;

use crate::bits::Bits;
use crate::breaks::{Break, Rule, RULES};
use crate::check;
use crate::explain;
use crate::generate;
use crate::model::{Answer, Asked, At, Model, Seen};
use crate::ppm;
use crate::rng::Rng;
use crate::state::{Stage, State};
use crate::tables::Tables;
use crate::trace::{self, Setup};

type Test = fn(&mut Tests);

/// A test with a seed, the number of a panel, and so many lines.
type PanelTest = fn(&mut Tests, u64, u32, usize);

/// The tests of the rules, one by one.
const RULE_TESTS: &[(&str, Test)] = &[
    ("values marked P", marked_values),
    ("other values", other_values),
    ("register fields", register_fields),
    ("absent offsets", absent_offsets),
    ("directions", directions),
    ("header fields", header_fields),
    ("subsystem numbers", subsystem),
    ("indirect fields", indirect_fields),
    ("address", address),
    ("palette stage", palette_stage),
    ("palette width", palette_width),
    ("apertures", apertures),
    ("lanes written and read back", lanes_both_ways),
    ("lanes swapped twice", lanes_twice),
    ("order of refusals", order_of_refusals),
    ("picture rules", picture_rules),
    ("picture places", picture_places),
    ("altered pictures", altered_pictures),
    ("openings", openings),
    ("wrong lengths", wrong_lengths),
    ("states", states),
    ("trace program", trace_program),
    ("bad lines", bad_lines),
    ("picture files", picture_files),
];

/// The tests of looks, and of reads and writes apart (02, C-12).
const LOOK_TESTS: &[(&str, Test)] = &[
    ("looks at palette data", look_palette),
    ("looks at registers", look_registers),
    ("looks at memory", look_memory),
    ("looks refused", look_refused),
    ("looks alter nothing", look_alters_nothing),
    ("reads and writes apart", apart),
    ("explain", explain_program),
    ("looks among other lines", look_lines),
];

/// Runs every test and gives back what was wrong.
pub fn run(broken: Break, seed: u64, panels: u32, lines: usize) -> Vec<String> {
    let mut list = Tests {
        broken,
        name: "",
        wrong: Vec::new(),
    };
    for (name, test) in RULE_TESTS.iter().chain(LOOK_TESTS).chain(words::TESTS) {
        list.name = name;
        test(&mut list);
    }
    if broken == Break::Nothing {
        let first = |first| RULES.iter().position(|r| r.0 == first).unwrap_or(0);
        let (looks, words) = (first(Rule::LookIsRead), first(Rule::StoreBlackZero));
        list.name = "breaks of looks";
        tried_breaks(&mut list, &RULES[looks..words], LOOK_TESTS);
        list.name = "breaks of words";
        tried_breaks(&mut list, &RULES[words..], words::TESTS);
    }
    let panel_tests: [(&str, PanelTest); 3] = [
        ("random panels with looks", look_panel),
        ("random panels in both layouts", words::layouts_panel),
        ("random panels", random_panel),
    ];
    for (name, test) in panel_tests {
        list.name = name;
        for number in 0..panels {
            let seed = seed.wrapping_add(u64::from(number));
            test(&mut list, seed, number, lines);
        }
    }
    list.wrong
}

struct Tests {
    broken: Break,
    name: &'static str,
    wrong: Vec<String>,
}

impl Tests {
    fn complain(&mut self, text: String) {
        self.wrong.push(format!("{}: {text}", self.name));
    }

    fn equal<T: PartialEq + std::fmt::Debug>(&mut self, what: &str, got: T, expected: T) {
        if got != expected {
            self.complain(format!("{what}: {got:x?} and not {expected:x?}"));
        }
    }

    fn bench(&self, width: u32, height: u32, bytes: u32) -> Bench {
        let model = Model::with(self.broken);
        let mut memory = vec![0; bytes as usize];
        let mut picture = vec![0x7777_7777; width as usize * height as usize];
        let (_, state) = model.open(width, height, &mut memory, &mut picture);
        Bench {
            model,
            state,
            memory,
            picture,
            complaints: Vec::new(),
        }
    }

    /// The panel of the trace program.
    fn usual(&self) -> Bench {
        self.bench(4, 1, 16)
    }

    fn done(&mut self, bench: Bench) {
        for complaint in bench.complaints {
            self.complain(complaint);
        }
    }
}

/// A model with its buffers; every access is checked.
struct Bench {
    model: Model,
    state: State,
    memory: Vec<u8>,
    picture: Vec<u32>,
    complaints: Vec<String>,
}

impl Bench {
    fn carry_out(&mut self, asked: &Asked) -> Answer {
        match *asked {
            Asked::Read(at) => self.read_at(at),
            Asked::Write(at, word) => self.write_at(at, word),
            Asked::Look(at) => {
                let seen = self.look_at(at);
                Answer {
                    status: seen.status,
                    word: seen.word,
                    known: seen.known,
                    changed: 0,
                }
            }
        }
    }

    fn note(&mut self, verdict: Result<(), String>) {
        if let Err(text) = verdict {
            self.complaints.push(text);
        }
    }

    fn read_at(&mut self, at: At) -> Answer {
        let (state, memory, picture) = (&mut self.state, &self.memory, &self.picture);
        let (answer, verdict) = check::read(&self.model, state, memory, picture, at);
        self.note(verdict);
        answer
    }

    fn write_at(&mut self, at: At, word: u32) -> Answer {
        let (state, memory, picture) = (&mut self.state, &mut self.memory, &mut self.picture);
        let (answer, verdict) = check::write(&self.model, state, memory, picture, at, word);
        self.note(verdict);
        answer
    }

    fn look_at(&mut self, at: At) -> Seen {
        let (state, memory, picture) = (&mut self.state, &self.memory, &mut self.picture);
        let (seen, verdict) = check::look(&self.model, state, memory, picture, at);
        self.note(verdict);
        seen
    }

    /// Status, word and known mask of a read.
    fn read(&mut self, target: u32, offset: u32, enables: u32) -> (u32, u32, u32) {
        let answer = self.read_at(At {
            target,
            offset,
            enables,
        });
        (answer.status, answer.word, answer.known)
    }

    /// Status, word and known mask of a look.
    fn look(&mut self, target: u32, offset: u32, enables: u32) -> (u32, u32, u32) {
        let seen = self.look_at(At {
            target,
            offset,
            enables,
        });
        (seen.status, seen.word, seen.known)
    }

    /// Status and changed count of a write.
    fn write(&mut self, target: u32, offset: u32, enables: u32, word: u32) -> (u32, u32) {
        let at = At {
            target,
            offset,
            enables,
        };
        let answer = self.write_at(at, word);
        (answer.status, answer.changed)
    }

    fn index(&mut self, index: u32, byte: u32) -> (u32, u32) {
        self.write(0, 0x4000, 1, index);
        self.write(0, 0x4050, 1, byte)
    }

    fn entry(&mut self, number: u32, components: [u32; 3]) -> u32 {
        self.write(0, 0x4000, 1, number);
        let mut changed = 0;
        for component in components {
            changed += self.write(0, 0x4008, 1, component).1;
        }
        changed
    }

    /// Three palette reads from an entry on.
    fn entry_read(&mut self, number: u32) -> [(u32, u32, u32); 3] {
        self.write(0, 0x4018, 1, number);
        [0; 3].map(|_| self.read(0, 0x4008, 1))
    }

    /// Draws CI8 from the start of memory, in eight-bit palette width.
    fn live(&mut self, base: u32, stride: u32) {
        self.index(0x1e, 2);
        self.index(0x18, 0x10);
        self.write(0, 0x3000, 15, base);
        self.write(0, 0x3008, 15, stride);
    }
}

const ALL: u32 = 0xffff_ffff;

fn marked_values(tests: &mut Tests) {
    let mut b = tests.usual();
    tests.equal("P1 write", b.write(0, 0x1040, 15, ALL), (0, 0));
    tests.equal("P1 read", b.read(0, 0x1040, 15), (0, 0x10, ALL));
    tests.done(b);
    let mut b = tests.usual();
    tests.equal("P2", b.read(0, 0x1080, 15), (0, 0x31, ALL));
    tests.done(b);
    let mut b = tests.usual();
    b.write(0, 0x1080, 1, ALL);
    tests.equal("P3", b.read(0, 0x1080, 15), (0, 0xff, ALL));
    tests.done(b);
    let mut b = tests.usual();
    tests.equal("P4", b.read(0, 0x10c0, 15), (0, 0x259f_ffff, ALL));
    tests.done(b);
    let mut b = tests.usual();
    b.write(0, 0x10c0, 3, 0);
    tests.equal("P5", b.read(0, 0x10c0, 15), (0, 0x259f_1800, ALL));
    tests.done(b);
    let mut b = tests.usual();
    tests.equal("P6", b.read(0, 0xe8, 15), (0, 0, 0xffff_fffe));
    tests.equal("P7", b.read(0, 0x4060, 15), (0, 0, 0));
    tests.done(b);
    for (name, mode, bytes) in [
        ("P8", 1, [0x11, 0x22, 0x33, 0x44]),
        ("P9", 2, [0x22, 0x11, 0x44, 0x33]),
    ] {
        let mut b = tests.usual();
        b.write(0, 0x50, 15, mode);
        tests.equal(name, b.write(1, 0, 15, 0x1122_3344), (0, 0));
        tests.equal(name, b.memory[..4].to_vec(), bytes.to_vec());
        tests.equal(name, b.read(1, 0, 15), (0, 0x1122_3344, ALL));
        tests.done(b);
    }
}

fn other_values(tests: &mut Tests) {
    for target in [1, 2] {
        let mut b = tests.usual();
        tests.equal("offset 12", b.read(target, 12, 15), (0, 0, ALL));
        tests.equal("offset 16", b.read(target, 16, 15), (5, 0, 0));
        tests.equal("offset 14", b.read(target, 14, 15), (4, 0, 0));
        tests.equal("enables 15", b.read(target, 0, 15).0, 0);
        tests.equal("enables 16", b.read(target, 0, 16).0, 3);
        tests.equal("enables 0", b.read(target, 0, 0), (0, 0, 0));
        tests.equal("enables 0 beyond", b.read(target, 16, 0), (5, 0, 0));
        tests.equal("the last word", b.read(target, 0xffff_fffc, 15), (5, 0, 0));
        tests.done(b);
    }
    // 01's last value as 02, C-13 amends it, with the two that stand beside it.
    let mut b = tests.usual();
    b.entry(7, [63, 0, 16]);
    tests.equal("six-bit components stored", b.state.palette[7], 0x01ff_0041);
    tests.equal(
        "six-bit components read",
        b.entry_read(7),
        [(0, 63, 0xff), (0, 0, 0xff), (0, 16, 0xff)],
    );
    tests.done(b);
}

/// A mask from fields of bits, each with its first and last bit.
fn mask(fields: &[(u32, u32)]) -> u32 {
    let mut mask = 0;
    for &(first, last) in fields {
        for bit in first..=last {
            mask |= 1 << bit;
        }
    }
    mask
}

type Fields = &'static [(u32, u32)];

/// Offset, writable fields, unknown fields, reset: the documents once more, in
/// another form than the table.
const FIELDS: &[(u32, Fields, Fields, u32)] = &[
    (0x50, &[(0, 1), (3, 9)], &[], 0),
    (0x58, &[(0, 1), (3, 9)], &[], 0),
    (0xa0, &[(0, 31)], &[], 0),
    (0xb8, &[(0, 31)], &[], 0),
    (0xc0, &[(0, 23)], &[], 0),
    (0xc8, &[(0, 11), (16, 27)], &[], 0),
    (0xd0, &[(0, 31)], &[(0, 31)], 0),
    (0xd8, &[(0, 29)], &[], 0),
    (0xe8, &[], &[(0, 0)], 0),
    (0x1000, &[], &[], 0),
    (0x1040, &[(4, 4)], &[], 0),
    (0x1080, &[(0, 9)], &[], 0x31),
    (0x10c0, &[(0, 10), (13, 31)], &[], 0x259f_ffff),
    (0x1100, &[(0, 31)], &[(0, 31)], 0),
    (0x3000, &[(0, 19)], &[(0, 19)], 0),
    (0x3008, &[(0, 19)], &[(0, 19)], 0),
    (0x3010, &[(0, 10)], &[(0, 10)], 0),
    (0x3018, &[(0, 10)], &[(0, 10)], 0),
    (0x3020, &[(0, 10)], &[(0, 10)], 0),
    (0x3028, &[(0, 10)], &[(0, 10)], 0),
    (0x3030, &[(0, 10)], &[(0, 10)], 0),
    (0x3038, &[(0, 10)], &[(0, 10)], 0),
    (0x3040, &[(0, 10)], &[(0, 10)], 0),
    (0x3048, &[(0, 10)], &[(0, 10)], 0),
    (0x3050, &[(0, 10)], &[(0, 10)], 0),
    (0x3058, &[(0, 6), (9, 12), (16, 16)], &[(0, 16)], 0),
    (0x3060, &[(0, 10)], &[(0, 10)], 0),
    (
        0x3068,
        &[(2, 3), (8, 9), (13, 15)],
        &[(0, 1), (4, 7), (10, 12)],
        0,
    ),
    (0x3070, &[], &[(0, 10)], 0),
    (0x3078, &[(0, 4), (8, 12)], &[(0, 4), (8, 12), (16, 16)], 0),
    (0x3080, &[(0, 19)], &[(0, 19)], 0),
    (0x4010, &[(0, 7)], &[(8, 31)], 0xff),
    (0x4060, &[(0, 7)], &[(0, 31)], 0),
    (0x4068, &[(0, 7)], &[(0, 31)], 0),
    (0x4070, &[(0, 7)], &[(0, 31)], 0),
    (0x4078, &[(0, 7)], &[(0, 31)], 0),
];

/// What lanes of enables cover, in yet another form.
fn covered(enables: u32) -> u32 {
    (enables & 1) * 0xff
        + (enables >> 1 & 1) * 0xff00
        + (enables >> 2 & 1) * 0xff_0000
        + (enables >> 3) * 0xff00_0000
}

fn register_fields(tests: &mut Tests) {
    for &(offset, writable, unknown, reset) in FIELDS {
        let writable = mask(writable);
        let known = !mask(unknown);
        for enables in 0..16 {
            let lanes = covered(enables);
            let mut b = tests.usual();
            let what = format!("{offset:x}h, enables {enables:x}");
            tests.equal(
                &what,
                b.read(0, offset, enables),
                (0, reset & lanes, known & lanes),
            );
            for word in [ALL, 0, 0x5a3c_96e1] {
                tests.equal(&what, b.write(0, offset, enables, word), (0, 0));
                let taken = writable & lanes;
                let value = reset & !taken | word & taken;
                tests.equal(&what, b.read(0, offset, 15), (0, value, known | taken));
                let mut fresh = tests.usual();
                std::mem::swap(&mut b, &mut fresh);
                tests.done(fresh);
            }
            // One write after another.
            b.write(0, offset, enables, 0x1234_5678);
            b.write(0, offset, 15, 0xf0e1_d2c3);
            b.write(0, offset, enables, 0x0f1e_2d3c);
            let word = 0xf0e1_d2c3 & !lanes | 0x0f1e_2d3c & lanes;
            let value = reset & !writable | word & writable;
            tests.equal(&what, b.read(0, offset, 15), (0, value, known | writable));
            tests.done(b);
        }
    }
    for offset in [0x1140, 0x1180] {
        let mut b = tests.usual();
        tests.equal("read only", b.read(0, offset, 15), (0, 0, 0));
        tests.equal("read only", b.write(0, offset, 15, 0), (6, 0));
        tests.equal("read only", b.write(0, offset, 0, 0), (6, 0));
        tests.done(b);
    }
}

fn absent_offsets(tests: &mut Tests) {
    let special = [0x1140, 0x1180, 0x4000, 0x4008, 0x4018, 0x4050];
    let mut b = tests.usual();
    b.write(0, 0x4000, 1, 0x18);
    for word in 0..0x8000 {
        let offset = 4 * word;
        let present = FIELDS.iter().any(|f| f.0 == offset) || special.contains(&offset);
        let status = b.read(0, offset, 14).0;
        tests.equal(
            &format!("read {offset:x}h"),
            status,
            if present { 0 } else { 5 },
        );
        if !present {
            tests.equal(
                &format!("write {offset:x}h"),
                b.write(0, offset, 0, ALL),
                (5, 0),
            );
        }
    }
    for offset in [0x2_0040, 0x8000_1040, 0xffff_fffc, 0x10_4010] {
        tests.equal(
            &format!("read {offset:x}h"),
            b.read(0, offset, 15),
            (5, 0, 0),
        );
    }
    tests.done(b);
}

fn directions(tests: &mut Tests) {
    let mut b = tests.usual();
    for index in (0x20..=0x28).chain(0x30..=0x32) {
        tests.equal("a clock parameter is written", b.index(index, ALL), (0, 0));
        for enables in [15, 1, 14, 0] {
            tests.equal(
                "a clock parameter is not read",
                b.read(0, 0x4050, enables),
                (6, 0, 0),
            );
        }
    }
    for index in [0x29, 0x33] {
        tests.equal("a clock status is written", b.index(index, ALL), (0, 0));
        tests.equal(
            "a clock status is unknown",
            b.read(0, 0x4050, 15),
            (0, 0, 0),
        );
    }
    for index in [0x00, 0x05, 0x1f, 0x2a, 0x34, 0x45, 0xff] {
        tests.equal("an absent index is not written", b.index(index, 0), (5, 0));
        for enables in [15, 14, 0] {
            tests.equal(
                "an absent index is not read",
                b.read(0, 0x4050, enables),
                (5, 0, 0),
            );
        }
    }
    tests.equal("Reboot", b.write(0, 0x1000, 15, ALL), (0, 0));
    tests.equal("Reboot", b.read(0, 0x1000, 15), (0, 0, ALL));
    tests.done(b);
}

fn header_fields(tests: &mut Tests) {
    /// Offset, writable fields, unknown fields, reset.
    const HEADER: &[(u32, Fields, Fields, u32)] = &[
        (0x00, &[], &[], 7 << 16 | 0x3d3d),
        (0x04, &[(1, 2)], &[], 1 << 23 | 1 << 25),
        (0x08, &[], &[], 0x03 << 24 | 0x80 << 16 | 1),
        (0x0c, &[(8, 15)], &[], 0),
        (0x10, &[(17, 31)], &[], 0),
        (0x14, &[(23, 31)], &[], 0),
        (0x18, &[(23, 31)], &[], 0),
        (0x30, &[(0, 0), (16, 31)], &[], 0),
        (0x34, &[], &[(6, 6)], 0),
        (0x3c, &[(0, 7)], &[(22, 23), (30, 31)], 1 << 8),
        (0x40, &[], &[(1, 1), (20, 20)], 0),
        (0x44, &[], &[(0, 0), (9, 9), (24, 28)], 0),
        (0x48, &[(0, 1), (8, 9), (24, 31)], &[], 0),
        (0xf8, &[(0, 22), (29, 31)], &[], 0),
        (0xfc, &[(0, 31)], &[], 0),
    ];
    for word in 0..64 {
        let offset = 4 * word;
        if offset == 0x2c {
            continue;
        }
        let row = HEADER.iter().find(|h| h.0 == offset);
        let (writable, unknown, reset) = match row {
            Some(&(_, writable, unknown, reset)) => (mask(writable), mask(unknown), reset),
            None => (0, 0, 0),
        };
        for enables in [15, 1, 2, 4, 8, 6, 0] {
            let lanes = covered(enables);
            let mut b = tests.usual();
            let what = format!("{offset:x}h, enables {enables:x}");
            tests.equal(
                &what,
                b.read(3, offset, enables),
                (0, reset & lanes, !unknown & lanes),
            );
            for word in [ALL, 0, 0x5a3c_96e1] {
                tests.equal(&what, b.write(3, offset, enables, word), (0, 0));
                let taken = writable & lanes;
                let value = reset & !taken | word & taken;
                tests.equal(&what, b.read(3, offset, 15), (0, value, !unknown));
            }
            tests.done(b);
        }
    }
    let mut b = tests.usual();
    tests.equal("above the header", b.read(3, 0x100, 15), (5, 0, 0));
    tests.equal("above the header", b.write(3, 0x100, 0, 0), (5, 0));
    // The indirect data register is no window.
    b.write(3, 0xf8, 15, 0x1080);
    tests.equal("no window", b.read(3, 0xfc, 15), (0, 0, ALL));
    b.write(3, 0xfc, 15, 0x55);
    tests.equal("no window", b.read(3, 0xfc, 15), (0, 0x55, ALL));
    tests.equal("no window", b.read(0, 0x1080, 15), (0, 0x31, ALL));
    // Status bits that somebody set.
    b.state.header[1].value |= 0x3000_0000;
    tests.equal("status set", b.read(3, 4, 15), (0, 0x3280_0000, ALL));
    b.write(3, 4, 15, 0);
    tests.equal("status kept", b.read(3, 4, 15), (0, 0x3280_0000, ALL));
    b.write(3, 4, 7, ALL);
    tests.equal(
        "status kept without lane 3",
        b.read(3, 4, 15),
        (0, 0x3280_0006, ALL),
    );
    b.write(3, 4, 8, 0x1000_0000);
    tests.equal("status cleared", b.read(3, 4, 15), (0, 0x2280_0006, ALL));
    b.write(3, 4, 15, ALL);
    tests.equal("status cleared", b.read(3, 4, 15), (0, 0x0280_0006, ALL));
    tests.done(b);
}

fn subsystem(tests: &mut Tests) {
    let plans: &[(&[u32], u32)] = &[
        (&[1, 2, 4, 8, 5, 6, 9, 10, 0], 0x0007_3d3d),
        (&[3, 15], 0xb1b1_a0a0),
        (&[12, 3, 15], 0xa0a0_b1b1),
        (&[15, 15], 0xa0a0_a0a0),
        (&[7, 15], 0xb1b1_a0a0),
        (&[14, 11], 0xa0a0_b1b1),
        (&[1, 3, 2], 0x0007_b1b1),
    ];
    let words = [0xa0a0_a0a0, 0xb1b1_b1b1, 0xc2c2_c2c2];
    for (enables, expected) in plans {
        let mut b = tests.usual();
        for (step, lanes) in enables.iter().enumerate() {
            b.write(3, 0x2c, *lanes, words[step % 3]);
        }
        tests.equal(
            &format!("after {enables:x?}"),
            b.read(3, 0x2c, 15),
            (0, *expected, ALL),
        );
        tests.done(b);
    }
    let mut b = tests.usual();
    b.write(3, 0x2c, 15, 0x0007_3d3d);
    b.write(3, 0x2c, 15, 0);
    tests.equal(
        "fixed by its own value",
        b.read(3, 0x2c, 15),
        (0, 0x0007_3d3d, ALL),
    );
    tests.done(b);
}

fn indirect_fields(tests: &mut Tests) {
    let readable: &[(u32, u32)] = &[
        (0x06, mask(&[(0, 6)])),
        (0x18, mask(&[(0, 5), (7, 7)])),
        (0x19, mask(&[(0, 2)])),
        (0x1c, mask(&[(0, 7)])),
        (0x1e, mask(&[(0, 5)])),
        (0x40, mask(&[(0, 4)])),
        (0x41, mask(&[(0, 7)])),
        (0x42, mask(&[(0, 7)])),
        (0x43, mask(&[(0, 7)])),
        (0x44, mask(&[(0, 7)])),
    ];
    let others: Vec<u32> = (0x20..=0x29).chain(0x30..=0x33).collect();
    let mut b = tests.usual();
    for index in 0..256 {
        let what = format!("index {index:x}h");
        b.write(0, 0x4000, 15, index);
        if let Some((_, writable)) = readable.iter().find(|r| r.0 == index) {
            tests.equal(&what, b.read(0, 0x4050, 15), (0, 0, 0xff));
            tests.equal(&what, b.write(0, 0x4050, 14, ALL), (0, 0));
            tests.equal(&what, b.read(0, 0x4050, 15), (0, 0, 0xff));
            tests.equal(&what, b.read(0, 0x4050, 14), (0, 0, 0));
            b.write(0, 0x4050, 15, ALL);
            tests.equal(&what, b.read(0, 0x4050, 15), (0, *writable, 0xff));
            b.write(0, 0x4050, 1, 0);
            tests.equal(&what, b.read(0, 0x4050, 1), (0, 0, 0xff));
        } else if !others.contains(&index) {
            tests.equal(&what, b.read(0, 0x4050, 15), (5, 0, 0));
            tests.equal(&what, b.write(0, 0x4050, 15, 0), (5, 0));
        }
        tests.equal(&what, b.read(0, 0x4018, 15), (0, index, 0xff));
    }
    tests.done(b);
}

fn address(tests: &mut Tests) {
    let mut b = tests.usual();
    for enables in [15, 1, 14, 0] {
        tests.equal("palette data", b.read(0, 0x4008, enables), (5, 0, 0));
        tests.equal("palette data", b.write(0, 0x4008, enables, 0), (5, 0));
        tests.equal("indexed data", b.read(0, 0x4050, enables), (5, 0, 0));
        tests.equal("indexed data", b.write(0, 0x4050, enables, 0), (5, 0));
    }
    tests.equal("unknown address", b.read(0, 0x4000, 15), (0, 0, 0));
    tests.equal("without lane 0", b.write(0, 0x4000, 14, ALL), (0, 0));
    tests.equal("unknown address", b.read(0, 0x4018, 15), (0, 0, 0));
    b.write(0, 0x4018, 1, 0x1e);
    tests.equal("either way", b.read(0, 0x4000, 15), (0, 0x1e, 0xff));
    tests.equal("either way", b.read(0, 0x4018, 1), (0, 0x1e, 0xff));
    tests.equal("either way", b.read(0, 0x4018, 14), (0, 0, 0));
    tests.done(b);

    // An address of which some bits are known, and they name a register.
    let mut b = tests.usual();
    b.state.address = 0x18;
    b.state.address_known = 0x7f;
    tests.equal("partly known", b.read(0, 0x4000, 15), (0, 0x18, 0x7f));
    tests.equal("partly known", b.read(0, 0x4050, 15), (5, 0, 0));
    tests.equal("partly known", b.write(0, 0x4008, 15, 0), (5, 0));
    b.state.address = 0x20;
    tests.equal("5 before 6", b.read(0, 0x4050, 15), (5, 0, 0));
    tests.done(b);
}

fn palette_stage(tests: &mut Tests) {
    let never = (0, 0, 0);
    let is = |byte: u32| (0, byte, 0xff);

    // Written in order: shown after the third.
    let mut b = tests.usual();
    b.index(0x1e, 2);
    b.write(0, 0x4000, 1, 9);
    for byte in [1, 2] {
        b.write(0, 0x4008, 1, byte);
    }
    tests.equal("not yet", b.state.palette[9], 0);
    b.write(0, 0x4008, 1, 3);
    tests.equal("next entry", b.read(0, 0x4000, 1), is(10));
    tests.equal("stored", b.entry_read(9), [is(1), is(2), is(3)]);
    tests.equal("never stored", b.entry_read(10), [never; 3]);

    // One to six reads between.
    for staged in 1..3 {
        for reads in 1..7 {
            let mut b = tests.usual();
            b.index(0x1e, 2);
            b.write(0, 0x4000, 1, 20);
            for byte in 0..staged {
                b.write(0, 0x4008, 1, 40 + byte);
            }
            for _ in 0..reads {
                b.read(0, 0x4008, 1);
            }
            for byte in 0..3 - staged {
                b.write(0, 0x4008, 1, 50 + byte);
            }
            let stored = b.state.palette != [0; 256];
            tests.equal(&format!("{staged} staged, {reads} reads"), stored, false);
            tests.equal("place", b.read(0, 0x4000, 1), is(20 + (3 + reads) / 3));
            tests.equal("component", u32::from(b.state.component), reads % 3);
            tests.done(b);
        }
    }

    // What does not come between.
    for kind in 0..10 {
        let mut b = tests.usual();
        b.index(0x1e, 2);
        b.write(0, 0x4018, 1, 0x1e);
        for byte in [7, 8, 9] {
            match kind {
                0 => drop(b.read(0, 0x4008, 14)),
                1 => drop(b.write(0, 0x4008, 14, 99)),
                2 => drop(b.write(0, 0x4000, 14, 99)),
                3 => drop(b.read(0, 0x4000, 15)),
                4 => drop(b.read(0, 0x4050, 15)),
                5 => drop(b.write(0, 0x4050, 15, 2)),
                6 => drop(b.write(0, 0x4008, 16, 99)),
                7 => drop(b.read(0, 0x4009, 15)),
                8 => drop(b.write(1, 0, 15, 99)),
                _ => drop(b.write(0, 0x4010, 15, 99)),
            }
            b.write(0, 0x4008, 15, byte);
        }
        let what = format!("not interrupted by kind {kind}");
        tests.equal(&what, b.entry_read(0x1e), [is(7), is(8), is(9)]);
        tests.done(b);
    }

    // Setting an address, also the same one, starts again.
    for offset in [0x4000, 0x4018] {
        for address in [30, 31] {
            let mut b = tests.usual();
            b.index(0x1e, 2);
            b.write(0, 0x4000, 1, 30);
            b.write(0, 0x4008, 1, 1);
            b.write(0, 0x4008, 1, 2);
            b.write(0, offset, 1, address);
            b.write(0, 0x4008, 1, 3);
            tests.equal("started again", b.state.palette[address as usize], 0);
            b.write(0, 0x4008, 1, 4);
            b.write(0, 0x4008, 1, 5);
            tests.equal(
                "started again",
                b.entry_read(address),
                [is(3), is(4), is(5)],
            );
            tests.done(b);
        }
    }

    // The end of the palette.
    let mut b = tests.usual();
    b.index(0x1e, 2);
    b.entry(255, [11, 12, 13]);
    tests.equal("after 255", b.read(0, 0x4000, 1), is(0));
    for byte in [21, 22, 23] {
        b.write(0, 0x4008, 1, byte);
    }
    tests.equal("255", b.entry_read(255), [is(11), is(12), is(13)]);
    tests.equal(
        "0",
        [0; 3].map(|_| b.read(0, 0x4008, 15)),
        [is(21), is(22), is(23)],
    );
    tests.done(b);

    // Stages that no accesses lead to.
    for (component, stage, stores) in [
        (0, Stage::RedGreen(1, 2), false),
        (1, Stage::RedGreen(1, 2), false),
        (1, Stage::Empty, false),
        (2, Stage::Red(1), false),
        (2, Stage::Empty, false),
        (2, Stage::RedGreen(1, 2), true),
    ] {
        let mut b = tests.usual();
        b.write(0, 0x4000, 1, 5);
        b.state.component = component;
        b.state.stage = stage;
        for _ in component..3 {
            b.write(0, 0x4008, 1, 3);
        }
        let stored = b.state.palette[5] != 0;
        tests.equal(
            &format!("{component} {stage:?}"),
            stored,
            stores || component == 0,
        );
        tests.done(b);
    }
}

fn palette_width(tests: &mut Tests) {
    let is = |byte: u32| (0, byte, 0xff);
    // Every byte written and read in either width. 02, C-13 in another form:
    // 4w + w div 16 is a sixteenth of 65w, rounded down.
    for byte in 0..256u32 {
        let six = byte % 64;
        for (width, stored, narrow) in [(0, 65 * six / 16, six), (2, byte, byte / 4)] {
            let mut b = tests.usual();
            b.index(0x1e, width);
            b.entry(3, [byte; 3]);
            tests.equal(
                "stored",
                b.state.palette[3],
                0x0100_0000 + stored * 0x1_0101,
            );
            b.index(0x1e, 0x3d);
            tests.equal("read by six", b.entry_read(3), [is(narrow); 3]);
            b.index(0x1e, 0x02);
            tests.equal("read by eight", b.entry_read(3), [is(stored); 3]);
            tests.done(b);
        }
    }
    // Six bits rise from black to white, and white is white.
    let mut b = tests.usual();
    b.live(0, 0);
    b.index(0x1e, 0);
    for six in 0..64 {
        b.entry(six, [six; 3]);
    }
    let reds: Vec<u8> = b.state.palette[..64]
        .iter()
        .map(|word| (word >> 16) as u8)
        .collect();
    tests.equal("rising", reds.windows(2).all(|two| two[0] < two[1]), true);
    tests.equal("black and white", (reds[0], reds[63]), (0, 255));
    tests.equal("white", b.write(1, 0, 15, 0x3f3f_3f3f), (0, 4));
    tests.equal("white", b.picture.clone(), vec![0x01ff_ffff; 4]);
    // The bytes of a state kept from before C-13 stay as they are (D-40).
    b.index(0x18, 0);
    b.state.palette[63] = 0x01fc_fcfc;
    for (width, shown) in [(2, 252), (0, 63), (2, 252)] {
        b.index(0x1e, width);
        tests.equal("kept", b.entry_read(63), [is(shown); 3]);
    }
    tests.equal("kept", b.index(0x18, 0x10), (0, 4));
    tests.equal("kept", b.picture.clone(), vec![0x01fc_fcfc; 4]);
    tests.done(b);
    // The width changes between two components.
    for widths in 0..8 {
        let mut b = tests.usual();
        b.write(0, 0x4000, 1, 0x1e);
        let mut expected = [0u8; 3];
        for (place, stored) in expected.iter_mut().enumerate() {
            let eight = widths >> place & 1 == 1;
            b.write(0, 0x4050, 1, if eight { 2 } else { 0 });
            b.write(0, 0x4008, 1, 0xd7);
            *stored = if eight { 0xd7 } else { 0x5d };
        }
        let [red, green, blue] = expected;
        let word = u32::from_be_bytes([1, red, green, blue]);
        tests.equal("mixed widths", b.state.palette[0x1e], word);
        b.write(0, 0x4000, 1, 0x1e);
        for (place, stored) in expected.iter().enumerate() {
            let eight = widths >> place & 1 == 0;
            b.write(0, 0x4050, 1, if eight { 2 } else { 0 });
            let shown = if eight { *stored } else { stored / 4 };
            tests.equal(
                "mixed widths read",
                b.read(0, 0x4008, 1),
                is(u32::from(shown)),
            );
        }
        tests.done(b);
    }
    // An entry never stored is unknown in either width.
    for width in [0, 2] {
        let mut b = tests.usual();
        b.index(0x1e, width);
        tests.equal("never stored", b.entry_read(1), [(0, 0, 0); 3]);
        tests.done(b);
    }
}

fn apertures(tests: &mut Tests) {
    for target in [1, 2] {
        let control = if target == 1 { 0x50 } else { 0x58 };
        let other = if target == 1 { 0x58 } else { 0x50 };
        // Memory byte i and its lane, for each served code.
        let orders = [[0, 1, 2, 3], [3, 2, 1, 0], [2, 3, 0, 1]];
        for (code, order) in orders.iter().enumerate() {
            for enables in 0..16 {
                let mut b = tests.usual();
                b.memory = (0x60..0x70).collect();
                b.write(0, other, 15, 3);
                b.write(0, control, 15, code as u32 | 0xffff_fcf4);
                let word = 0xd3c2_b1a0u32;
                let mut expected = b.memory.clone();
                let mut shown = 0;
                for (number, lane) in order.iter().enumerate() {
                    if enables >> lane & 1 == 1 {
                        shown |= u32::from(expected[4 + number]) << (8 * lane);
                        expected[4 + number] = word.to_le_bytes()[*lane as usize];
                    }
                }
                let what = format!("aperture {target}, code {code}, enables {enables:x}");
                tests.equal(
                    &what,
                    b.read(target, 4, enables),
                    (0, shown, covered(enables)),
                );
                b.write(0, 0x1100, 15, 0);
                tests.equal(&what, b.write(target, 4, enables, word), (0, 0));
                tests.equal(&what, b.memory.clone(), expected);
                tests.done(b);
            }
        }
        for mode in 0..0x400 {
            let served = mode & 3 != 3 && mode & 0x308 == 0;
            let mut b = tests.usual();
            b.write(0, control, 15, mode);
            let status = if served { 0 } else { 7 };
            let what = format!("mode {mode:x}");
            tests.equal(&what, b.write(target, 12, 15, ALL), (status, 0));
            tests.equal(&what, b.read(target, 8, 0).0, status);
            tests.equal(&what, b.read(target, 16, 0).0, 5);
            tests.equal(&what, b.read(target, 18, 0).0, 4);
            tests.equal(&what, b.read(3 - target, 8, 15).0, 0);
            tests.done(b);
        }
    }
}

/// The lane of memory byte `number` as 01 writes it.
fn ruled(code: u32, number: u32) -> u32 {
    match code {
        0 => number,
        1 => 3 - number,
        _ => (number + 2) % 4,
    }
}

/// What a word shows of the four bytes at an offset.
fn ruled_word(code: u32, memory: &[u8], offset: u32) -> u32 {
    (0..4).fold(0, |word, number| {
        let byte = u32::from(memory[(offset + number) as usize]);
        word | byte << (8 * ruled(code, number))
    })
}

/// An aperture in a swap code, the other one in another code. Two bits of packed
/// mode that are only stored are set as well.
fn swapping(tests: &Tests, target: u32, code: u32) -> Bench {
    let mut b = tests.bench(4, 1, 24);
    b.memory = (0..24).map(|place| 0x51 + 5 * place).collect();
    b.write(0, 0x48 + 8 * target, 15, code | 0x50);
    b.write(0, 0x60 - 8 * target, 15, (code + 1) % 3);
    b
}

/// 02, C-17: all enables of a write by all enables of a read, through the same
/// aperture in the same code, at a few offsets with a few words, from the rule.
fn lanes_both_ways(tests: &mut Tests) {
    for target in [1, 2] {
        for code in 0..3 {
            for offset in [0, 4, 8, 20] {
                for word in [0xd3c2_b1a0, 0x0000_0001, 0x80ff_7f00] {
                    for written in 0..16 {
                        one_write(tests, (target, code), offset, written, word);
                    }
                }
            }
        }
    }
}

/// One write of `lanes_both_ways`, with all reads before and after it.
fn one_write(tests: &mut Tests, through: (u32, u32), offset: u32, written: u32, word: u32) {
    let (target, code) = through;
    let mut b = swapping(tests, target, code);
    let what = format!("aperture {target}, code {code}, {offset:x}h, written {written:x}");
    let earlier = ruled_word(code, &b.memory, offset);
    let mut stored = b.memory.clone();
    for number in 0..4 {
        let lane = ruled(code, number);
        if written >> lane & 1 == 1 {
            stored[(offset + number) as usize] = (word >> (8 * lane)) as u8;
        }
    }
    let without: Vec<_> = (0..16)
        .map(|enables| b.read(target, offset, enables))
        .collect();
    tests.equal(&what, b.write(target, offset, written, word), (0, 0));
    tests.equal(&what, b.memory.clone(), stored);
    for (enables, before) in (0..16).zip(without) {
        let shown = covered(enables);
        let what = format!("{what}, read {enables:x}");
        tests.equal(&what, before, (0, earlier & shown, shown));
        let both = shown & covered(written);
        let expected = word & both | before.1 & !both;
        tests.equal(&what, b.read(target, offset, enables), (0, expected, shown));
    }
    tests.done(b);
}

/// Each rule is its own inverse: what a swapped read shows, written as it is and
/// read swapped again, is what memory held in standard order; so is what two
/// swapped writes leave.
fn lanes_twice(tests: &mut Tests) {
    for code in 0..3 {
        for number in 0..4 {
            let twice = ruled(code, ruled(code, number));
            tests.equal("the rule", twice, number);
        }
        for target in [1, 2] {
            let mut b = swapping(tests, target, code);
            b.write(0, 0x60 - 8 * target, 15, 0);
            let plain = 3 - target;
            let what = format!("aperture {target}, code {code}");
            for offset in [0, 4, 8, 12] {
                let held = b.read(plain, offset, 15);
                let once = b.read(target, offset, 15).1;
                b.write(plain, 20, 15, once);
                tests.equal(&what, b.read(target, 20, 15), held);
                b.write(target, 16, 15, held.1);
                let once = b.read(plain, 16, 15).1;
                b.write(target, 16, 15, once);
                tests.equal(&what, b.read(plain, 16, 15), held);
            }
            tests.done(b);
        }
    }
}

fn order_of_refusals(tests: &mut Tests) {
    let mut b = tests.usual();
    b.write(0, 0x50, 15, 3);
    for (target, offset, enables, status) in [
        (4, 0x1040, 15, 3),
        (9, 1, 0, 3),
        (0, 0x1041, 16, 3),
        (0, 0x4020, 0x8000_0000, 3),
        (1, 0, 16, 3),
        (3, 0x100, 16, 3),
        (0, 0x1041, 15, 4),
        (0, 0x4022, 15, 4),
        (0, 0x1_0042, 15, 4),
        (1, 2, 15, 4),
        (1, 18, 15, 4),
        (3, 0x101, 15, 4),
        (3, 0x2e, 15, 4),
        (0, 0x4020, 15, 5),
        (0, 0x1_1040, 15, 5),
        (1, 16, 15, 5),
        (1, 16, 0, 5),
        (3, 0x100, 0, 5),
        (1, 12, 0, 7),
        (1, 12, 15, 7),
        (2, 12, 15, 0),
    ] {
        let what = format!("{target} {offset:x} {enables:x}");
        tests.equal(&what, b.read(target, offset, enables).0, status);
        tests.equal(&what, b.write(target, offset, enables, 0).0, status);
    }
    tests.done(b);
}

fn picture_rules(tests: &mut Tests) {
    let mut b = tests.usual();
    tests.equal("at the opening", b.picture.clone(), vec![0x0300_0000; 4]);
    tests.equal("unknown base and stride", b.index(0x18, 0x10), (0, 4));
    tests.equal("unknown", b.picture.clone(), vec![0x0500_0000; 4]);
    tests.equal(
        "base beyond, stride unknown",
        b.write(0, 0x3000, 15, 0xf_ffff),
        (0, 0),
    );
    tests.equal("stride known", b.write(0, 0x3008, 15, 0), (0, 4));
    tests.equal("beyond", b.picture.clone(), vec![0x0200_0000; 4]);
    tests.equal("last units", b.write(0, 0x3000, 15, 1), (0, 4));
    tests.equal("never stored", b.picture.clone(), vec![0x0400_0000; 4]);
    b.index(0x1e, 2);
    tests.equal("black", b.entry(0, [0, 0, 0]), 4);
    tests.equal("black", b.picture.clone(), vec![0x0100_0000; 4]);
    tests.equal("a colour", b.entry(0, [0x11, 0x22, 0x33]), 4);
    tests.equal("a colour", b.picture.clone(), vec![0x0111_2233; 4]);
    tests.equal("the same colour", b.entry(0, [0x11, 0x22, 0x33]), 0);
    tests.equal("memory", b.write(1, 8, 10, 0x8101_ff00), (0, 2));
    let never = 0x0400_0000;
    let colour = 0x0111_2233;
    tests.equal(
        "memory",
        b.picture.clone(),
        vec![colour, never, colour, never],
    );
    tests.equal("mask", b.write(0, 0x4010, 1, 0), (0, 2));
    tests.equal("mask", b.picture.clone(), vec![colour; 4]);
    tests.equal("mask", b.write(0, 0x4010, 1, 0x80), (0, 2));
    tests.equal("mask", b.write(0, 0x4010, 14, 0), (0, 0));
    tests.equal("masked entry", b.entry(0x80, [1, 2, 3]), 2);
    tests.equal(
        "masked entry",
        b.picture.clone(),
        vec![colour, 0x0101_0203, colour, 0x0101_0203],
    );
    tests.equal("unmasked entry", b.entry(0xff, [9, 9, 9]), 0);
    tests.equal("hidden memory", b.write(1, 0, 15, ALL), (0, 0));

    // Every value of RDColorMode.
    b.write(0, 0x4000, 1, 0x18);
    for mode in 0..256 {
        b.write(0, 0x4050, 1, mode);
        let drawn = mode & 0x1f == 0x10;
        tests.equal(
            "colour mode",
            b.picture[0],
            if drawn { colour } else { 0x0300_0000 },
        );
    }
    b.write(0, 0x4050, 1, 0x10);

    // Nothing else alters the picture.
    for (offset, word) in [
        (0x3058, 0x0001_1e7f),
        (0x3080, 0),
        (0x3078, ALL),
        (0x1100, 0),
        (0x3058, 4),
    ] {
        tests.equal("another register", b.write(0, offset, 15, word), (0, 0));
    }
    for index in [0x06, 0x19, 0x1c, 0x1e, 0x40] {
        tests.equal("another index", b.index(index, 0xff), (0, 0));
        tests.equal("another index", b.index(index, 0), (0, 0));
    }
    tests.equal("another aperture mode", b.write(0, 0x50, 15, 1), (0, 0));
    tests.done(b);

    // Each writable bit of base, stride and mask counts, alone.
    for offset in [0x3000, 0x3008, 0x4010] {
        let bits = if offset == 0x4010 { 8 } else { 20 };
        for bit in 0..bits {
            let mut b = tests.usual();
            b.live(0, 0);
            b.write(0, 0x4010, 1, 0);
            let row = b.model.tables.find(offset).unwrap_or(0);
            if offset == 0x4010 {
                // Known at reset, so such a mask is in no state.
                b.state.region0[row].known &= !(1 << bit);
                tests.equal("mask forgotten", b.read(0, 0x1040, 15).0, 1);
                let words = b.model.words(&b.state, &b.memory);
                tests.equal("mask bit unknown", words, vec![0x0500_0000; 4]);
            } else {
                b.index(0x18, 0);
                b.state.region0[row].known &= !(1 << bit);
                tests.equal("bit unknown", b.index(0x18, 0x10), (0, 4));
                tests.equal("bit unknown", b.picture.clone(), vec![0x0500_0000; 4]);
            }
            tests.done(b);
        }
    }
}

fn picture_places(tests: &mut Tests) {
    // Every byte is its own entry, so a dot tells its place.
    let palette = |b: &mut Bench| {
        for number in 0..256 {
            b.state.palette[number as usize] = 0x0100_0000 + number;
        }
    };
    for (width, height, bytes, base, stride) in [
        (3, 4, 64, 0, 1),
        (3, 4, 64, 1, 0),
        (9, 3, 64, 0, 1),
        (9, 3, 64, 1, 2),
        (1, 5, 32, 1, 1),
        (8, 8, 64, 0, 1),
        (5, 2, 16, 0, 3),
        (5, 3, 64, 0xf_ffff, 1),
        (2, 3, 64, 1, 0xf_ffff),
        (2, 3, 16, 0, 1),
    ] {
        let mut b = tests.bench(width, height, bytes);
        palette(&mut b);
        b.memory = (0..bytes as u8).collect();
        b.live(base, stride);
        let mut expected = Vec::new();
        for y in 0..height {
            for x in 0..width {
                let place =
                    8 * u64::from(base) + 8 * u64::from(stride) * u64::from(y) + u64::from(x);
                expected.push(if place < u64::from(bytes) {
                    0x0100_0000 + place as u32
                } else {
                    0x0200_0000
                });
            }
        }
        let what = format!("{width}x{height}, base {base:x}, stride {stride:x}");
        tests.equal(&what, b.picture.clone(), expected);
        b.write(0, 0x3058, 15, ALL);
        tests.done(b);
    }
    // A sum beyond 8 MB does not come round.
    let mut b = tests.bench(1, 2, 8_388_608);
    palette(&mut b);
    b.live(0xf_ffff, 1);
    tests.equal("no wrap", b.picture.clone(), vec![0x0100_0000, 0x0200_0000]);
    tests.done(b);
    let mut b = tests.bench(2, 2, 64);
    palette(&mut b);
    b.live(0, 1);
    b.write(0, 0x3058, 15, 4);
    tests.equal("second row", b.write(1, 8, 15, 0x0101_0101), (0, 2));
    tests.equal(
        "second row",
        b.picture.clone(),
        vec![0x0100_0000, 0x0100_0000, 0x0100_0001, 0x0100_0001],
    );
    tests.done(b);
}

fn altered_pictures(tests: &mut Tests) {
    let mut b = tests.bench(4, 2, 16);
    b.live(0, 1);
    b.entry(0, [1, 2, 3]);
    b.entry(1, [4, 5, 6]);
    let (one, two) = (0x0101_0203, 0x0104_0506);
    b.picture = vec![9, one, one, two, 9, one, two, 9];
    // Dots 0, 1 and 3 change by the rules; 3 holds the new word already.
    tests.equal("altered", b.write(1, 0, 15, 0x0100_0101), (0, 2));
    tests.equal(
        "altered",
        b.picture.clone(),
        vec![two, two, one, two, 9, one, two, 9],
    );
    // Nothing changes by the rules, so nothing is written.
    tests.equal("a read", b.read(1, 0, 15), (0, 0x0100_0101, ALL));
    tests.equal("the same again", b.write(1, 0, 15, 0x0100_0101), (0, 0));
    tests.equal(
        "the same again",
        b.picture.clone(),
        vec![two, two, one, two, 9, one, two, 9],
    );
    // A change in the first row leaves the second as lent.
    tests.equal("one dot", b.write(1, 0, 1, 0), (0, 1));
    tests.equal(
        "one dot",
        b.picture.clone(),
        vec![one, two, one, two, 9, one, two, 9],
    );
    tests.equal("all dots", b.index(0x18, 0), (0, 8));
    tests.done(b);
}

fn openings(tests: &mut Tests) {
    let model = Model::with(tests.broken);
    // Width, height, memory, picture, status.
    for (width, height, bytes, dots, status) in [
        (1024, 1, 8, 1024, 0),
        (1, 1024, 16, 1024, 0),
        (0, 1, 8, 0, 8),
        (1, 0, 8, 0, 8),
        (1025, 1, 8, 1025, 8),
        (1, 1025, 8, 1025, 8),
        (0, 0, 0, 5, 8),
        (4_000_000_000, 1, 8, 4, 8),
        (1025, 1, 7, 1, 8),
        (4, 1, 0, 4, 9),
        (4, 1, 7, 4, 9),
        (4, 1, 12, 4, 9),
        (4, 1, 9, 3, 9),
        (4, 1, 8_388_616, 4, 9),
        (4, 1, 8_388_608, 4, 0),
        (4, 1, 16, 3, 2),
        (4, 1, 16, 5, 2),
        (4, 2, 16, 0, 2),
        (4, 2, 16, 8, 0),
    ] {
        let mut memory: Vec<u8> = (0..bytes).map(|place| place as u8).collect();
        let mut picture = vec![0x1234_5678; dots];
        let lent = memory.clone();
        let (got, state) = model.open(width, height, &mut memory, &mut picture);
        let what = format!("{width}x{height}, {bytes} bytes, {dots} dots");
        tests.equal(&what, got, status);
        tests.equal(&what, memory == lent, true);
        let fill = if status == 0 {
            0x0300_0000
        } else {
            0x1234_5678
        };
        tests.equal(&what, picture.iter().all(|dot| *dot == fill), true);
        let size = if status == 0 {
            (width, height, bytes)
        } else {
            (0, 0, 0)
        };
        tests.equal(&what, (state.width, state.height, state.memory_bytes), size);
        let reset = State::reset(&model.tables, size.0, size.1, size.2);
        tests.equal(&what, state == reset, true);
        if status != 0 {
            let mut b = Bench {
                model: Model::with(tests.broken),
                state,
                memory: Vec::new(),
                picture: Vec::new(),
                complaints: Vec::new(),
            };
            tests.equal(&what, b.read(0, 0x1040, 15), (1, 0, 0));
            tests.done(b);
        }
    }
}

fn wrong_lengths(tests: &mut Tests) {
    for (dots, bytes) in [(3, 16), (5, 16), (0, 16), (4, 8), (4, 24), (4, 0), (5, 17)] {
        let mut b = tests.usual();
        b.memory.resize(bytes, 1);
        b.picture.resize(dots, 2);
        let what = format!("{dots} dots, {bytes} bytes");
        tests.equal(&what, b.read(0, 0x1040, 15), (2, 0, 0));
        tests.equal(&what, b.write(1, 0, 15, 1), (2, 0));
        tests.equal("2 before 3", b.read(4, 1, 16).0, 2);
        b.state.component = 3;
        tests.equal("1 before 2", b.read(4, 1, 16).0, 1);
        tests.done(b);
    }
}

type Alter = fn(&mut State);

fn states(tests: &mut Tests) {
    // Rows of the region 0 table, by offset.
    fn row(offset: u32) -> usize {
        let place = crate::tables::REGION0
            .iter()
            .position(|r| r.offset == offset);
        place.unwrap_or(0)
    }
    let refused: &[(&str, Alter)] = &[
        ("width 0", |s| s.width = 0),
        ("width 1025", |s| s.width = 1025),
        ("height 0", |s| s.height = 0),
        ("height 1025", |s| s.height = 1025),
        ("no memory", |s| s.memory_bytes = 0),
        ("memory 12", |s| s.memory_bytes = 12),
        ("memory above", |s| s.memory_bytes = 8_388_616),
        ("component 3", |s| s.component = 3),
        ("component 255", |s| s.component = 255),
        ("fixed bit", |s| s.region0[row(0x1040)].value |= 1),
        ("fixed bit cleared", |s| {
            s.region0[row(0x10c0)].value &= !0x800
        }),
        ("fixed bit unknown", |s| s.region0[row(0x1040)].known &= !1),
        ("live bit known", |s| s.region0[row(0xe8)].known |= 1),
        ("known bit unknown", |s| {
            s.region0[row(0xa0)].known &= !0x8000_0000
        }),
        ("unknown one", |s| s.region0[row(0x3000)].value |= 1),
        ("direct high bit known", |s| {
            s.region0[row(0x4010)].known |= 0x100
        }),
        ("header fixed bit", |s| s.header[0].value ^= 1),
        ("header absent", |s| s.header[0x50 / 4].value |= 1),
        ("header unknown one", |s| s.header[0x34 / 4].value |= 0x40),
        ("header known", |s| s.header[0x34 / 4].known |= 0x40),
        ("header forgotten", |s| {
            s.header[0x10 / 4].known &= !0x8000_0000
        }),
        ("status bit 30", |s| s.header[1].value |= 0x4000_0000),
        ("vendor not fixed", |s| s.header[0x2c / 4].value ^= 1),
        ("id not fixed", |s| s.header[0x2c / 4].value ^= 0x1_0000),
        ("vendor with id fixed", |s| {
            s.id_fixed = true;
            s.header[0x2c / 4].value ^= 1
        }),
        ("index fixed bit", |s| s.indirect[0x18].value |= 0x40),
        ("index absent", |s| s.indirect[0x00] = Bits::new(1, 1)),
        ("index status", |s| s.indirect[0x29] = Bits::new(0, 0x10)),
        ("index forgotten", |s| s.indirect[0x18].known &= !1),
        ("address unknown one", |s| s.address = 1),
        ("palette", |s| s.palette[200] = 0x0000_0100),
    ];
    for (what, alter) in refused {
        let mut b = tests.usual();
        alter(&mut b.state);
        b.picture = vec![0; 3];
        tests.equal(what, b.read(9, 1, 99), (1, 0, 0));
        tests.equal(what, b.write(1, 0, 15, 7), (1, 0));
        tests.done(b);
    }
    let taken: &[(&str, Alter)] = &[
        ("component 2", |s| s.component = 2),
        ("writable bit", |s| s.region0[row(0x1040)].value |= 0x10),
        ("unknown bit known", |s| {
            s.region0[row(0x3000)] = Bits::new(1, 0xfff0_0001)
        }),
        ("status bits", |s| s.header[1].value |= 0x3000_0000),
        ("vendor fixed", |s| {
            s.vendor_fixed = true;
            s.header[0x2c / 4].value ^= 0xffff
        }),
        ("id fixed", |s| {
            s.id_fixed = true;
            s.header[0x2c / 4].value ^= 0xffff_0000
        }),
        ("a stored black", |s| s.palette[1] = 0x0100_0000),
        ("a stage out of step", |s| s.stage = Stage::RedGreen(1, 2)),
        ("a clock parameter", |s| s.indirect[0x20].value = 0xff),
        ("an address partly known", |s| {
            s.address = 0x40;
            s.address_known = 0x60
        }),
    ];
    for (what, alter) in taken {
        let mut b = tests.usual();
        alter(&mut b.state);
        tests.equal(what, b.read(0, 0x1080, 15), (0, 0x31, ALL));
        tests.done(b);
    }
}

/// What a trace prints.
fn printed(tests: &Tests, input: &[u8]) -> String {
    let mut output = Vec::new();
    let run = trace::run(
        tests.broken,
        trace::USUAL,
        true,
        &mut BufReader::new(input),
        &mut output,
    );
    match run {
        Ok(_) => String::from_utf8_lossy(&output).into_owned(),
        Err(failure) => format!("{failure:?}"),
    }
}

fn trace_program(tests: &mut Tests) {
    let input = "w 0 1040 f ffffffff\nr 0 1040 f\nr 0 4060 f\nr 0 1002 f";
    let expected = "PERMEDIA2 4x1 16\n0 00000000 00000000 0\n0 00000010 ffffffff 0\n0 00000000 00000000 0\n4 00000000 00000000 0\n";
    let lines = |text: &str| printed(tests, text.as_bytes());
    let outcomes = [
        ("the example", lines(input), expected.to_string()),
        (
            "with a newline",
            lines(&format!("{input}\n")),
            expected.to_string(),
        ),
        ("nothing", lines(""), "PERMEDIA2 4x1 16\n".to_string()),
        (
            "a newline",
            lines("\n"),
            "PERMEDIA2 4x1 16\nbad\n".to_string(),
        ),
        (
            "hexadecimal",
            lines("w 3 000000FC F aBcDeF01\nr 3 fC 0000000f\n"),
            "PERMEDIA2 4x1 16\n0 00000000 00000000 0\n0 abcdef01 ffffffff 0\n".to_string(),
        ),
        (
            "a changed count",
            lines("w 0 4000 1 18\nw 0 4050 1 10\n"),
            "PERMEDIA2 4x1 16\n0 00000000 00000000 0\n0 00000000 00000000 4\n".to_string(),
        ),
    ];
    for (what, got, expected) in outcomes {
        tests.equal(what, got, expected);
    }
}

fn bad_lines(tests: &mut Tests) {
    let good = "w 0 1040 f ffffffff";
    let long = format!("{good}{}", " ".repeat(100));
    let sixty_five = format!("r 0 1040 {}", "0".repeat(56));
    let two = format!("{}{good}", "0".repeat(64));
    let bad: &[&[u8]] = &[
        b"",
        b" ",
        b"r",
        b"w",
        b"R 0 1040 f",
        b"W 0 1040 f 0",
        b"r 0 1040",
        b"r 0 1040 f 0",
        b"w 0 1040 f",
        b"w 0 1040 f 0 0",
        b"r  0 1040 f",
        b"r 0  1040 f",
        b" r 0 1040 f",
        b"r 0 1040 f ",
        b"r\t0 1040 f",
        b"r 0 1040 f\r",
        b"r 00 1040 f",
        b"r 10 1040 f",
        b"r a 1040 f",
        b"r -1 1040 f",
        b"r 0 000001040 f",
        b"r 0 1040 00000000f",
        b"w 0 1040 f 000000000",
        b"r 0 +1040 f",
        b"r 0 -1040 f",
        b"r 0 0x1040 f",
        b"r 0 104g f",
        b"r 0 1040h f",
        b"r 0 1040 f\0",
        b"r 0 10\xff40 f",
        b"\xc3\xa9",
        b"x 0 1040 f",
        b"rw 0 1040 f",
        b"r0 1040 f",
        long.as_bytes(),
        sixty_five.as_bytes(),
        two.as_bytes(),
    ];
    for line in bad {
        let mut input = b"w 0 1040 f 10\n".to_vec();
        input.extend_from_slice(line);
        input.extend_from_slice(b"\nr 0 1040 f\n");
        let expected = "PERMEDIA2 4x1 16\n0 00000000 00000000 0\nbad\n0 00000010 ffffffff 0\n";
        let what = String::from_utf8_lossy(line).into_owned();
        tests.equal(&what, printed(tests, &input), expected.to_string());
    }
    for (line, answer) in [
        ("r 4 0 f", "3 00000000 00000000 0"),
        ("r 9 0 f", "3 00000000 00000000 0"),
        ("r 0 1040 10", "3 00000000 00000000 0"),
        ("r 0 1040 ffffffff", "3 00000000 00000000 0"),
        ("r 0 00001040 0000000f", "0 00000000 ffffffff 0"),
        ("w 1 fffffffc f 0", "5 00000000 00000000 0"),
        ("w 0 1140 f 0", "6 00000000 00000000 0"),
    ] {
        let got = printed(tests, line.as_bytes());
        tests.equal(line, got, format!("PERMEDIA2 4x1 16\n{answer}\n"));
    }
}

fn picture_files(tests: &mut Tests) {
    let shown = [
        (0x0100_0000, [0x00, 0x00, 0x00]),
        (0x0112_3456, [0x12, 0x34, 0x56]),
        (0x01ff_ffff, [0xff, 0xff, 0xff]),
        (0x0200_0000, [0xff, 0x00, 0xff]),
        (0x0300_0000, [0xff, 0x80, 0x00]),
        (0x0400_0000, [0x80, 0xff, 0x00]),
        (0x0500_0000, [0x00, 0xff, 0xff]),
        (0x0000_0000, [0xff, 0xff, 0xff]),
        (0x0600_0000, [0xff, 0xff, 0xff]),
        (0xff12_3456, [0xff, 0xff, 0xff]),
    ];
    let words = shown.map(|(word, _)| word);
    let mut expected = b"P6\n5 2\n255\n".to_vec();
    expected.extend(shown.iter().flat_map(|(_, colour)| colour));
    tests.equal("kinds of dots", ppm::file(5, 2, &words), expected);

    // Two rows of two dots, in each of the ways that a trace reaches: black
    // and never stored stay apart.
    let mode = "w 0 4000 1 18\nw 0 4050 1 10\n";
    let places = "w 0 3000 f 0\nw 0 3008 f 1\n";
    let black = "w 0 4000 1 0\nw 0 4008 1 0\nw 0 4008 1 0\nw 0 4008 1 0\n";
    let cases = [
        ("nothing", String::new(), [[0xff, 0x80, 0x00]; 4]),
        ("mode", mode.to_string(), [[0x00, 0xff, 0xff]; 4]),
        ("places", format!("{mode}{places}"), [[0x80, 0xff, 0x00]; 4]),
        (
            "a black entry",
            format!("{mode}{places}{black}w 1 8 1 3\n"),
            [[0, 0, 0], [0, 0, 0], [0x80, 0xff, 0x00], [0, 0, 0]],
        ),
        (
            "beyond",
            format!("{mode}{places}{black}w 0 3000 f 1\n"),
            [[0, 0, 0], [0, 0, 0], [0xff, 0, 0xff], [0xff, 0, 0xff]],
        ),
        (
            "a colour",
            format!("{mode}{places}{black}w 0 4000 1 1e\nw 0 4050 1 2\nw 0 4000 1 0\nw 0 4008 1 12\nw 0 4008 1 34\nw 0 4008 1 56\n"),
            [[0x12, 0x34, 0x56]; 4],
        ),
    ];
    for (what, input, dots) in cases {
        let run = trace::run(
            tests.broken,
            Setup {
                width: 2,
                height: 2,
                memory_bytes: 16,
            },
            true,
            &mut BufReader::new(input.as_bytes()),
            &mut Vec::new(),
        );
        let mut expected = b"P6\n2 2\n255\n".to_vec();
        expected.extend(dots.iter().flatten());
        match run {
            Ok(machine) => tests.equal(what, machine.picture_file(), expected),
            Err(failure) => tests.complain(format!("{what}: {failure:?}")),
        }
    }
}

// ----- looks -----

/// A look repeated, which must answer the same, and then the same read.
fn looks_then_read(
    tests: &mut Tests,
    b: &mut Bench,
    what: &str,
    at: (u32, u32, u32),
    expected: (u32, u32, u32),
) {
    let (target, offset, enables) = at;
    tests.equal(what, b.look(target, offset, enables), expected);
    tests.equal(what, b.look(target, offset, enables), expected);
    tests.equal(what, b.read(target, offset, enables), expected);
}

fn look_palette(tests: &mut Tests) {
    const DATA: (u32, u32, u32) = (0, 0x4008, 15);
    let mut b = tests.usual();
    // Before an address is set.
    for enables in [15, 1, 14, 0] {
        tests.equal("no address", b.look(0, 0x4008, enables), (5, 0, 0));
        tests.equal("no address", b.look(0, 0x4050, enables), (5, 0, 0));
    }
    tests.equal("no address", b.look(0, 0x4000, 15), (0, 0, 0));
    // Eight bits, entry 5 stored and entry 6 not.
    b.index(0x1e, 2);
    b.entry(5, [0x11, 0xa2, 0xf3]);
    b.write(0, 0x4018, 1, 5);
    for (what, byte) in [("red", 0x11), ("green", 0xa2), ("blue", 0xf3)] {
        tests.equal(what, b.look(0, 0x4008, 14), (0, 0, 0));
        tests.equal("the address", b.look(0, 0x4000, 15), (0, 5, 0xff));
        looks_then_read(tests, &mut b, what, DATA, (0, byte, 0xff));
    }
    tests.equal("the next entry", b.look(0, 0x4018, 15), (0, 6, 0xff));
    looks_then_read(tests, &mut b, "never stored", DATA, (0, 0, 0));
    looks_then_read(tests, &mut b, "never stored", DATA, (0, 0, 0));
    tests.equal("the same entry", b.read(0, 0x4018, 15), (0, 6, 0xff));
    // Without a look before it a read steps too, and with one only once.
    b.write(0, 0x4000, 1, 5);
    tests.equal("a read", b.read(0, 0x4008, 15), (0, 0x11, 0xff));
    tests.equal("a read", b.read(0, 0x4008, 15), (0, 0xa2, 0xff));
    tests.equal("a look", b.look(0, 0x4008, 15), (0, 0xf3, 0xff));
    tests.equal("a read", b.read(0, 0x4008, 15), (0, 0xf3, 0xff));
    tests.equal("the next entry", b.read(0, 0x4018, 15), (0, 6, 0xff));
    // The width counts for a look as for a read.
    b.index(0x1e, 0);
    b.write(0, 0x4000, 1, 5);
    for byte in [0x11 / 4, 0xa2 / 4, 0xf3 / 4] {
        looks_then_read(tests, &mut b, "six bits", DATA, (0, byte, 0xff));
    }
    tests.done(b);

    // A load with looks between its writes stores, and its second write shows
    // nothing yet.
    let places = [
        (0, 0x4008, 15),
        (0, 0x4008, 14),
        (0, 0x4000, 15),
        (0, 0x4050, 15),
        (0, 0x4010, 15),
        (1, 0, 15),
        (3, 0x2c, 15),
        (0, 0x4004, 15),
        (9, 3, 99),
    ];
    for (target, offset, enables) in places {
        let mut b = tests.usual();
        b.index(0x1e, 2);
        b.write(0, 0x4000, 1, 0x18);
        for byte in [1, 2, 3] {
            b.look(target, offset, enables);
            b.write(0, 0x4008, 1, byte);
            b.look(target, offset, enables);
        }
        let what = format!("a load with looks at {target} {offset:x}");
        tests.equal(&what, b.state.palette[0x18], 0x0101_0203);
        tests.equal(&what, b.read(0, 0x4000, 1), (0, 0x19, 0xff));
        tests.done(b);
    }
    // Where a read does break it.
    let mut b = tests.usual();
    b.write(0, 0x4000, 1, 7);
    b.write(0, 0x4008, 1, 1);
    b.look(0, 0x4008, 1);
    b.read(0, 0x4008, 1);
    b.write(0, 0x4008, 1, 3);
    tests.equal("a load with a read", b.state.palette[7], 0);
    tests.done(b);
}

fn look_registers(tests: &mut Tests) {
    let mut b = tests.usual();
    for &(offset, _, unknown, reset) in FIELDS {
        for enables in 0..16 {
            let lanes = covered(enables);
            let expected = (0, reset & lanes, !mask(unknown) & lanes);
            let what = format!("{offset:x}h, enables {enables:x}");
            tests.equal(&what, b.look(0, offset, enables), expected);
        }
    }
    for &(offset, writable, unknown, reset) in FIELDS {
        let (writable, known) = (mask(writable), !mask(unknown));
        b.write(0, offset, 15, 0x5a3c_96e1);
        let value = reset & !writable | 0x5a3c_96e1 & writable;
        let at = (0, offset, 15);
        let expected = (0, value, known | writable);
        looks_then_read(tests, &mut b, &format!("{offset:x}h"), at, expected);
    }
    for offset in [0x1140, 0x1180] {
        looks_then_read(tests, &mut b, "read only", (0, offset, 15), (0, 0, 0));
    }
    for offset in (0x1c..=0x24).step_by(4).chain([0x38, 0x50, 0xf4]) {
        looks_then_read(tests, &mut b, "blank", (3, offset, 15), (0, 0, ALL));
    }
    looks_then_read(
        tests,
        &mut b,
        "header",
        (3, 0, 6),
        (0, 0x0007_3d00, 0xff_ff00),
    );
    looks_then_read(tests, &mut b, "pins", (3, 0x34, 15), (0, 0, !0x40));
    // A look fixes nothing.
    looks_then_read(tests, &mut b, "once", (3, 0x2c, 15), (0, 0x0007_3d3d, ALL));
    b.write(3, 0x2c, 15, 0x1234_5678);
    looks_then_read(tests, &mut b, "once", (3, 0x2c, 15), (0, 0x1234_5678, ALL));
    // Indexed data stays where it is.
    b.index(0x06, 0x55);
    for enables in [15, 1] {
        looks_then_read(
            tests,
            &mut b,
            "index",
            (0, 0x4050, enables),
            (0, 0x55, 0xff),
        );
    }
    looks_then_read(tests, &mut b, "index", (0, 0x4050, 14), (0, 0, 0));
    tests.equal("the address", b.read(0, 0x4000, 15), (0, 0x06, 0xff));
    b.write(0, 0x4000, 1, 0x29);
    looks_then_read(tests, &mut b, "clock status", (0, 0x4050, 15), (0, 0, 0));
    tests.done(b);
}

fn look_memory(tests: &mut Tests) {
    for (target, control) in [(1, 0x50), (2, 0x58)] {
        let mut b = tests.usual();
        b.write(target, 4, 15, 0x4433_2211);
        let orders = [0x4433_2211, 0x1122_3344, 0x2211_4433];
        for (code, word) in orders.into_iter().enumerate() {
            b.write(0, control, 15, code as u32);
            for enables in 0..16 {
                let lanes = covered(enables);
                let what = format!("code {code}, enables {enables:x}");
                let at = (target, 4, enables);
                looks_then_read(tests, &mut b, &what, at, (0, word & lanes, lanes));
            }
        }
        for mode in [3, 8, 0x100, 0x200] {
            b.write(0, control, 15, mode);
            for enables in [15, 0] {
                looks_then_read(tests, &mut b, "mode", (target, 4, enables), (7, 0, 0));
            }
            looks_then_read(tests, &mut b, "5 before 7", (target, 16, 15), (5, 0, 0));
            looks_then_read(tests, &mut b, "4 before 7", (target, 6, 15), (4, 0, 0));
        }
        tests.done(b);
    }
}

fn look_refused(tests: &mut Tests) {
    let mut b = tests.usual();
    b.write(0, 0x4000, 1, 0x20);
    let cases = [
        ("target 4", (4, 0, 15), 3),
        ("target 9, unaligned", (9, 1, 15), 3),
        ("enables 16", (0, 0x1040, 16), 3),
        ("enables 16, unaligned", (0, 0x1041, 16), 3),
        ("enables 31, absent", (0, 0x4004, 31), 3),
        ("unaligned", (0, 0x1042, 15), 4),
        ("unaligned, absent", (0, 0x4001, 15), 4),
        ("unaligned, beyond", (1, 17, 15), 4),
        ("unaligned header", (3, 2, 15), 4),
        ("absent", (0, 0x4058, 15), 5),
        ("absent, no lanes", (0, 0x4058, 0), 5),
        ("twice", (0, 0x1_1040, 15), 5),
        ("beyond", (1, 16, 15), 5),
        ("beyond, no lanes", (2, 16, 0), 5),
        ("above the header", (3, 0x100, 15), 5),
        ("write only", (0, 0x4050, 15), 6),
        ("write only, no lane 0", (0, 0x4050, 14), 6),
    ];
    for (what, at, status) in cases {
        looks_then_read(tests, &mut b, what, at, (status, 0, 0));
    }
    b.write(0, 0x4000, 1, 0x45);
    looks_then_read(tests, &mut b, "no index", (0, 0x4050, 15), (5, 0, 0));
    tests.done(b);

    // Buffers of the wrong length, and what is no state.
    for (dots, bytes) in [(3, 16), (5, 16), (4, 8), (4, 24)] {
        let mut b = tests.usual();
        b.memory.resize(bytes, 1);
        b.picture.resize(dots, 2);
        let what = format!("{dots} dots, {bytes} bytes");
        looks_then_read(tests, &mut b, &what, (0, 0x1040, 15), (2, 0, 0));
        looks_then_read(tests, &mut b, "2 before 3", (4, 1, 16), (2, 0, 0));
        b.state.address = 1;
        looks_then_read(tests, &mut b, "1 before 2", (4, 1, 16), (1, 0, 0));
        tests.done(b);
    }
    let mut b = tests.usual();
    b.state.address = 1;
    looks_then_read(tests, &mut b, "no state", (0, 0x1040, 15), (1, 0, 0));
    tests.done(b);
}

/// A look leaves a picture that somebody altered, and every state.
fn look_alters_nothing(tests: &mut Tests) {
    let mut b = tests.bench(4, 2, 16);
    b.live(0, 1);
    b.entry(0, [1, 2, 3]);
    b.picture = vec![9, 8, 7, 6, 5, 4, 3, 2];
    for (target, offset) in [(0, 0x4008), (0, 0x1040), (1, 0), (3, 0), (0, 0x4004)] {
        b.look(target, offset, 15);
    }
    tests.equal("altered", b.picture.clone(), vec![9, 8, 7, 6, 5, 4, 3, 2]);
    // A stage that no accesses lead to stays as well.
    for stage in [Stage::Empty, Stage::Red(7), Stage::RedGreen(8, 9)] {
        for component in 0..3 {
            b.state.stage = stage;
            b.state.component = component;
            for enables in [15, 14] {
                b.look(0, 0x4008, enables);
                b.look(0, 0x4000, enables);
            }
            tests.equal(
                "stage",
                (b.state.stage, b.state.component),
                (stage, component),
            );
        }
    }
    tests.done(b);
}

/// Each of the two has its own refusals and its own answer.
fn apart(tests: &mut Tests) {
    let mut b = tests.usual();
    for offset in [0x1140, 0x1180] {
        tests.equal("read only, read", b.read(0, offset, 15), (0, 0, 0));
        tests.equal("read only, written", b.write(0, offset, 15, 0), (6, 0));
    }
    b.write(0, 0x4000, 1, 0x30);
    tests.equal("write only, written", b.write(0, 0x4050, 15, 1), (0, 0));
    tests.equal("write only, read", b.read(0, 0x4050, 15), (6, 0, 0));
    let at = At {
        target: 0,
        offset: 0x1040,
        enables: 15,
    };
    let answer = b.write_at(at, ALL);
    tests.equal("a write", (answer.word, answer.known), (0, 0));
    // A read steps and drops what is staged; it alters no dot.
    b.entry(9, [1, 2, 3]);
    b.write(0, 0x4000, 1, 9);
    b.write(0, 0x4008, 1, 40);
    tests.equal("a read", b.read(0, 0x4008, 1), (0, 2, 0xff));
    tests.equal(
        "a read",
        (b.state.stage, b.state.component),
        (Stage::Empty, 2),
    );
    b.picture = vec![1, 2, 3, 4];
    tests.equal("a read", b.read_at(at).changed, 0);
    tests.equal("a read", b.picture.clone(), vec![1, 2, 3, 4]);
    b.picture.pop();
    tests.equal("a short picture", b.read(0, 0x1040, 15), (2, 0, 0));
    tests.done(b);
}

/// What explain writes for lines, its first line left out.
fn explained(tests: &Tests, input: &str) -> String {
    let mut output = Vec::new();
    let mut input = BufReader::new(input.as_bytes());
    match explain::run(tests.broken, trace::USUAL, true, &mut input, &mut output) {
        Ok(_) => {
            let text = String::from_utf8_lossy(&output).into_owned();
            match text.strip_prefix("PERMEDIA2 4x1 16\n") {
                Some(rest) => rest.to_string(),
                None => text,
            }
        }
        Err(failure) => format!("{failure:?}"),
    }
}

const BAD: &str = "bad line: expected is r TARGET OFFSET ENABLES, w TARGET OFFSET ENABLES WORD, or l TARGET OFFSET ENABLES";

fn explain_program(tests: &mut Tests) {
    // A line, and what is written for it, one after another.
    let lines = [
        ("l 0 4008 f", "look  RDPaletteData: refused as 5, nothing is there"),
        ("r 0 4050 1", "read  RDIndexedData (enables 1): refused as 5, nothing is there"),
        ("r 0 4000 F", "read  RDPaletteWriteAddress = ????????, nothing of it is known"),
        ("w 0 4018 1 1e", "write RDPaletteReadAddress 0000001e (enables 1)"),
        ("l 0 4018 f", "look  RDPaletteReadAddress = ??????1e"),
        ("w 0 4050 f 2", "write RDIndexedData index 1e RDMiscControl 00000002"),
        ("l 0 4050 f", "look  RDIndexedData index 1e RDMiscControl = ??????02"),
        ("l 0 4050 e", "look  RDIndexedData index 1e RDMiscControl (enables e) = ????????, nothing of it is known"),
        ("w 0 4000 1 18", "write RDPaletteWriteAddress 00000018 (enables 1)"),
        ("w 0 4050 1 10", "write RDIndexedData index 18 RDColorMode 00000010 (enables 1), 4 dots changed"),
        ("w 0 3000 f 0", "write ScreenBase 00000000"),
        ("w 0 3008 f 0", "write ScreenStride 00000000, 4 dots changed"),
        ("w 1 0 2 ff00", "write aperture one byte 0 0000ff00 (enables 2)"),
        ("w 0 4000 1 ff", "write RDPaletteWriteAddress 000000ff (enables 1)"),
        ("l 0 4008 f", "look  RDPaletteData entry ff red = ????????, nothing of it is known"),
        ("w 0 4008 f 11", "write RDPaletteData entry ff red 00000011"),
        ("w 0 4008 f 22", "write RDPaletteData entry ff green 00000022"),
        ("l 0 4008 f", "look  RDPaletteData entry ff blue = ????????, nothing of it is known"),
        ("w 0 4008 f 33", "write RDPaletteData entry ff blue 00000033, 1 dot changed"),
        ("r 0 4008 f", "read  RDPaletteData entry 0 red = ????????, nothing of it is known"),
        ("w 0 4018 1 ff", "write RDPaletteReadAddress 000000ff (enables 1)"),
        ("l 0 4008 f", "look  RDPaletteData entry ff red = ??????11"),
        ("l 0 4008 f", "look  RDPaletteData entry ff red = ??????11"),
        ("r 0 4008 f", "read  RDPaletteData entry ff red = ??????11"),
        ("r 0 4008 1", "read  RDPaletteData entry ff green (enables 1) = ??????22"),
        ("l 0 4050 f", "look  RDIndexedData index ff: refused as 5, nothing is there"),
        ("w 0 4018 1 20", "write RDPaletteReadAddress 00000020 (enables 1)"),
        ("l 0 4050 f", "look  RDIndexedData index 20 RDPixelClockA1: refused as 6, not readable, or not writable"),
        ("w 0 1180 f 1", "write Count 00000001: refused as 6, not readable, or not writable"),
        ("l 0 1180 f", "look  Count = ????????, nothing of it is known"),
        ("l 0 e8 f", "look  ByDMAComplete = 0000000?"),
        ("l 0 3058 f", "look  VideoControl = 000?????"),
        ("w 0 58 f 1", "write ApertureTwo 00000001"),
        ("l 2 0 f", "look  aperture two byte 0 = 00ff0000"),
        ("r 2 c 6", "read  aperture two byte c (enables 6) = ??0000??"),
        ("w 0 58 f 3", "write ApertureTwo 00000003"),
        ("l 2 c 0", "look  aperture two byte c (enables 0): refused as 7, the aperture's mode is not served"),
        ("l 2 10 f", "look  aperture two byte 10: refused as 5, nothing is there"),
        ("r 2 10 f", "read  aperture two byte 10: refused as 5, nothing is there"),
        ("r 2 0000ABCC 1", "read  aperture two byte abcc (enables 1): refused as 5, nothing is there"),
        ("r 2 FFFFFFFC f", "read  aperture two byte fffffffc: refused as 5, nothing is there"),
        ("w 2 10 c ABCDEF01", "write aperture two byte 10 abcdef01 (enables c): refused as 5, nothing is there"),
        ("r 2 6 f", "read  aperture two byte 6: refused as 4, the offset is no multiple of 4"),
        ("r 2 13 f", "read  aperture two byte 13: refused as 4, the offset is no multiple of 4"),
        ("r 2 0 1f", "read  aperture two byte 0 (enables 1f): refused as 3, no such target, or enables above 15"),
        ("r 2 13 0000001F", "read  aperture two byte 13 (enables 1f): refused as 3, no such target, or enables above 15"),
        ("l 1 a f", "look  aperture one byte a: refused as 4, the offset is no multiple of 4"),
        ("l 1 d f", "look  aperture one byte d: refused as 4, the offset is no multiple of 4"),
        ("w 1 ffffffff f 0", "write aperture one byte ffffffff 00000000: refused as 4, the offset is no multiple of 4"),
        ("w 1 10 f 0", "write aperture one byte 10 00000000: refused as 5, nothing is there"),
        ("l 1 c FFFFFFFF", "look  aperture one byte c (enables ffffffff): refused as 3, no such target, or enables above 15"),
        ("l 4 0 f", "look  target 4 offset 0: refused as 3, no such target, or enables above 15"),
        ("r 0 4050 1f", "read  RDIndexedData index 20 RDPixelClockA1 (enables 1f): refused as 3, no such target, or enables above 15"),
        ("l 0 4008 10", "look  RDPaletteData entry 20 red (enables 10): refused as 3, no such target, or enables above 15"),
        ("r 0 1002 f", "read  target 0 offset 1002: refused as 4, the offset is no multiple of 4"),
        ("l 0 4004 f", "look  target 0 offset 4004: refused as 5, nothing is there"),
        ("l 9 1040 f", "look  target 9 offset 1040: refused as 3, no such target, or enables above 15"),
        ("w 0 1040 1f 0", "write MemControl 00000000 (enables 1f): refused as 3, no such target, or enables above 15"),
        ("l 3 0 f", "look  CFGVendorId/CFGDeviceId = 00073d3d"),
        ("l 3 34 3", "look  CFGCapPtr (enables 3) = ????00?0"),
        ("l 3 000001C f", "look  target 3 offset 1c = 00000000"),
        ("w 3 1c f ABCDEF01", "write target 3 offset 1c abcdef01"),
        ("l 3 100 f", "look  target 3 offset 100: refused as 5, nothing is there"),
        ("l 3 2 f", "look  target 3 offset 2: refused as 4, the offset is no multiple of 4"),
        ("", BAD),
        ("L 0 1040 f", BAD),
        ("l 0 1040 f 0", BAD),
        ("l 0 1040", BAD),
        ("l  0 1040 f", BAD),
        ("l 0 1040 f ", BAD),
        ("l", BAD),
        ("look 0 1040 f", BAD),
        ("l 00 1040 f", BAD),
        ("l 0 000001040 f", BAD),
        ("R 0 1040 f", BAD),
        ("W 0 1040 f 10", BAD),
        ("r 0 1040 f 0", BAD),
        ("w 0 1040 f", BAD),
        ("l 0 1040 f\r", BAD),
        ("l 0 1040 0x1", BAD),
        ("l 0 1040 f", "look  MemControl = 00000000"),
    ];
    let mut input = String::new();
    let mut expected = String::new();
    for (line, answer) in lines {
        input += &format!("{line}\n");
        expected += &format!("{answer}\n");
    }
    let got = explained(tests, &input);
    for (got, expected) in got.lines().zip(expected.lines()) {
        tests.equal("a line", got, expected);
    }
    tests.equal("the lines", got.lines().count(), expected.lines().count());
    // The last newline may be missing, and a long line is bad.
    tests.equal(
        "no newline",
        explained(tests, "l 0 1080 f"),
        "look  BootAddress = 00000031\n".to_string(),
    );
    long_looks(tests);
    tests.equal("nothing", explained(tests, ""), String::new());
    // The trace program takes none of this.
    for line in ["l 0 1040 f", "l 0 4008 f", "L 0 1040 f", "l 9 0 f"] {
        let expected = "PERMEDIA2 4x1 16\nbad\n".to_string();
        tests.equal(line, printed(tests, line.as_bytes()), expected);
    }
    every_name(tests);
}

/// A line may have 64 bytes. No line of the form has as many, so one of 64 bytes is
/// bad by its form, and one of 65 by its length as well: each is one bad line.
fn long_looks(tests: &mut Tests) {
    for bytes in [64, 65, 128, 129] {
        for line in [
            format!("l 0 1080 {:0>1$}", "f", bytes - 9),
            format!("{:bytes$}", "l 0 1080 f"),
            format!("{:0>bytes$}", "l 0 1080 f"),
        ] {
            tests.equal("bytes", line.len(), bytes);
            let expected = format!("{BAD}\nlook  BootAddress = 00000031\n");
            let got = explained(tests, &format!("{line}\nl 0 1080 f\n"));
            tests.equal("a long look", got, expected);
            tests.equal("the last", explained(tests, &line), format!("{BAD}\n"));
        }
    }
}

/// Every register is named, and nothing else is.
fn every_name(tests: &mut Tests) {
    let tables = Tables::sound();
    for (index, register) in tables.indirect.iter().enumerate() {
        let got = explained(tests, &format!("w 0 4000 1 {index:x}\nl 0 4050 f\n"));
        let start = format!("look  RDIndexedData index {index:x} RD");
        let line = got.lines().nth(1).unwrap_or("");
        tests.equal("an index", line.starts_with(&start), register.exists);
    }
    for (word, register) in tables.header.iter().enumerate() {
        let offset = 4 * word;
        let got = explained(tests, &format!("l 3 {offset:x} f\n"));
        // CFGCardBus is a register of which nothing shows.
        let blank = register.writable | register.cleared == 0
            && register.reset == Bits::known(0)
            && offset != 0x28;
        tests.equal("a header word", got.starts_with("look  CFG"), !blank);
    }
}

/// Looks among the lines of traces, on the usual panel and another.
fn look_lines(tests: &mut Tests) {
    for number in 0..6 {
        look_panel(tests, 900 + u64::from(number), number, 250);
    }
}

/// Every break of a later request is noticed by that request's tests alone.
fn tried_breaks(tests: &mut Tests, rules: &[(Rule, &str)], own: &[(&str, Test)]) {
    for (rule, text) in rules {
        let mut list = Tests {
            broken: Break::Rule(*rule),
            name: "",
            wrong: Vec::new(),
        };
        for (_, test) in own {
            test(&mut list);
        }
        if list.wrong.is_empty() {
            tests.complain(format!("not noticed: {text}"));
        }
    }
}

/// A trace with looks, run as it is and with the looks left out: every other line
/// is answered alike, and state, memory and picture are the same after each. Now
/// and then a look is followed by its read, in both.
fn look_panel(tests: &mut Tests, seed: u64, number: u32, lines: usize) {
    let mut rng = Rng::new(seed ^ 0x100c);
    let setup = panel_size(&mut rng, number);
    let mut looking = tests.bench(setup.width, setup.height, setup.memory_bytes);
    for byte in &mut looking.memory {
        *byte = rng.byte();
    }
    if rng.chance(1, 2) {
        made_state(&mut looking, &mut rng);
    }
    let mut plain = tests.bench(setup.width, setup.height, setup.memory_bytes);
    plain.state = looking.state.clone();
    plain.memory = looking.memory.clone();
    plain.picture = looking.picture.clone();

    let text = generate::trace(seed, lines, setup, true);
    for line in text.split(|byte| *byte == b'\n') {
        let Some(asked) = trace::parse(line, true, &Break::Nothing) else {
            continue;
        };
        if let Asked::Look(at) = asked {
            let seen = looking.look_at(at);
            if rng.chance(1, 2) {
                continue;
            }
            for bench in [&mut looking, &mut plain] {
                let answer = bench.read_at(at);
                let read = (answer.status, answer.word, answer.known);
                let what = format!("seed {seed}: the read after {asked:x?}");
                tests.equal(&what, read, (seen.status, seen.word, seen.known));
            }
        } else {
            let what = format!("seed {seed}: {asked:x?}");
            let answers = (looking.carry_out(&asked), plain.carry_out(&asked));
            tests.equal(&what, answers.0, answers.1);
        }
        let same = looking.state == plain.state
            && looking.memory == plain.memory
            && looking.picture == plain.picture;
        if !same {
            tests.complain(format!("seed {seed}: looks alter something by {asked:x?}"));
        }
        if !same || looking.complaints.len() > 3 {
            break;
        }
    }
    tests.done(looking);
    tests.done(plain);
}

/// The panels of the random tests: some that are named, then any.
fn panel_size(rng: &mut Rng, number: u32) -> Setup {
    let fixed = [
        (1, 1, 8),
        (1, 64, 64),
        (64, 1, 64),
        (8, 4, 32),
        (9, 5, 64),
        (7, 3, 24),
        (16, 16, 256),
        (3, 33, 4096),
        (1024, 1, 1024),
        (1, 1024, 8192),
        (100, 40, 8000),
        (5, 7, 40),
    ];
    let (width, height, memory_bytes) = match fixed.get(number as usize) {
        Some(size) => *size,
        None => {
            let width = 1 + rng.below(40);
            let height = 1 + rng.below(20);
            (width, height, 8 * (1 + rng.below(80)))
        }
    };
    Setup {
        width,
        height,
        memory_bytes,
    }
}

/// Random accesses on a panel of some size, over random memory and from a
/// state that somebody made, with dots altered now and then.
fn random_panel(tests: &mut Tests, seed: u64, number: u32, lines: usize) {
    let mut rng = Rng::new(seed ^ 0x5eed);
    let setup = panel_size(&mut rng, number);
    let (width, height) = (setup.width, setup.height);
    let mut b = tests.bench(width, height, setup.memory_bytes);
    for byte in &mut b.memory {
        *byte = rng.byte();
    }
    if rng.chance(1, 2) {
        made_state(&mut b, &mut rng);
    }
    let text = generate::trace(seed, lines, setup, false);
    for line in text.split(|byte| *byte == b'\n') {
        let Some(asked) = trace::parse(line, false, &Break::Nothing) else {
            continue;
        };
        if rng.chance(1, 10) {
            let place = rng.below(width * height) as usize;
            b.picture[place] = rng.pick(&[0, 0x0100_0000, 0x0400_0000, 0x0300_0000, 0xffff_ffff]);
        }
        let status = b.carry_out(&asked).status;
        if !(status == 0 || (3..=7).contains(&status)) {
            tests.complain(format!("seed {seed}: status {status} for {asked:?}"));
        }
        if b.complaints.len() > 3 {
            break;
        }
    }
    tests.done(b);
}

/// A state that is a state but that no accesses may lead to.
fn made_state(b: &mut Bench, rng: &mut Rng) {
    for (held, register) in b.state.region0.iter_mut().zip(&b.model.tables.region0) {
        let known = register.reset.known | rng.word() & register.writable;
        let value = register.reset.value & !register.writable | rng.word() & register.writable;
        *held = Bits::new(value & known, known);
    }
    for (held, register) in b.state.indirect.iter_mut().zip(&b.model.tables.indirect) {
        let writable = register.writable & register.reset.known;
        held.value = held.value & !writable | rng.word() & writable;
    }
    b.state.address = rng.byte();
    b.state.address_known = if rng.chance(1, 2) { 0xff } else { rng.byte() };
    b.state.address &= b.state.address_known;
    b.state.component = rng.below(3) as u8;
    b.state.stage = rng.pick(&[Stage::Empty, Stage::Red(7), Stage::RedGreen(8, 9)]);
    b.state.header[1].value |= rng.word() & 0x3000_0000;
    if rng.chance(1, 2) {
        b.state.vendor_fixed = true;
        b.state.header[0x2c / 4].value ^= rng.word() & 0xffff;
    }
    for word in &mut b.state.palette {
        if rng.chance(1, 2) {
            *word = u32::from_be_bytes([1, rng.byte(), rng.byte(), rng.byte()]);
        }
    }
    // The picture that belongs to it.
    b.picture = check::draw(&b.state, &b.memory);
}
