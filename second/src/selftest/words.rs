//! Tests of the palette as words (02, C-15): the words that loads leave, what is
//! shown of a word, refusal 1, and that the layout before it gives the same.

use super::{made_state, panel_size, Bench, Test, Tests, ALL};
use crate::breaks::Break;
use crate::columns::{without_palette, Columns, Machine};
use crate::generate;
use crate::model::{Answer, Asked, At};
use crate::palette::ENTRIES;
use crate::rng::Rng;
use crate::trace;

pub const TESTS: &[(&str, Test)] = &[
    ("words at an opening", opened),
    ("words that loads leave", loaded),
    ("words overwritten", overwritten),
    ("loads broken off", broken_off),
    ("words shown", shown),
    ("words drawn", drawn),
    ("entries taken", taken),
    ("entries refused", refused),
    ("whole palettes", whole),
    ("a wrong entry before all else", before_all_else),
    ("words and columns", one_to_one),
    ("both layouts", both_layouts),
];

/// Where words are put.
const PLACES: [usize; 5] = [0, 1, 128, 254, 255];

const TAKEN: [u32; 8] = [
    0x0000_0000,
    0x0100_0000,
    0x0100_0001,
    0x0100_0100,
    0x0101_0000,
    0x0180_0000,
    0x0101_0203,
    0x01ff_ffff,
];

const REFUSED: [u32; 26] = [
    0x0000_0001,
    0x0000_0100,
    0x0001_0000,
    0x0080_0000,
    0x00ff_ffff,
    0x0200_0000,
    0x0400_0000,
    0x0800_0000,
    0x1000_0000,
    0x2000_0000,
    0x4000_0000,
    0x8000_0000,
    0x0201_0203,
    0xfe00_0000,
    0x0300_0000,
    0x03ff_ffff,
    0x0500_0000,
    0x0900_0000,
    0x1100_0000,
    0x2100_0000,
    0x4100_0000,
    0x8100_0000,
    0x81ff_ffff,
    0xff00_0000,
    0xffff_ffff,
    0x0302_0101,
];

/// A palette with one word, all else never stored.
fn only(number: usize, word: u32) -> [u32; ENTRIES] {
    let mut words = [0; ENTRIES];
    words[number] = word;
    words
}

fn opened(tests: &mut Tests) {
    let b = tests.usual();
    tests.equal("an opening", b.state.palette, [0; ENTRIES]);
    let (status, state) = b.model.open(0, 1, &mut [0; 8], &mut []);
    tests.equal("a refused opening", status, 8);
    tests.equal("a refused opening", state.palette, [0; ENTRIES]);
    tests.done(b);
}

/// RDMiscControl, the bytes written, the word of the entry.
const LOADS: [(u32, [u32; 3], u32); 9] = [
    (2, [1, 2, 3], 0x0101_0203),
    (2, [0, 0, 0], 0x0100_0000),
    (2, [255, 255, 255], 0x01ff_ffff),
    (2, [0, 0, 1], 0x0100_0001),
    (2, [0x80, 0, 0], 0x0180_0000),
    (0, [63, 16, 0], 0x01ff_4100),
    (0, [15, 32, 48], 0x013c_82c3),
    (0, [0, 64, 128], 0x0100_0000),
    (0, [63, 127, 255], 0x01ff_ffff),
];

fn loaded(tests: &mut Tests) {
    for number in PLACES {
        for (width, bytes, word) in LOADS {
            let mut b = tests.usual();
            b.index(0x1e, width);
            b.entry(number as u32, bytes);
            let what = format!("entry {number} by {bytes:?}");
            tests.equal(&what, b.state.palette, only(number, word));
            let next = (number as u32 + 1) % 256;
            tests.equal(&what, b.read(0, 0x4000, 1), (0, next, 0xff));
            tests.done(b);
        }
    }
    // Two entries in a row, over the end.
    let mut b = tests.usual();
    b.index(0x1e, 2);
    b.entry(255, [0x10, 0x20, 0x30]);
    for byte in [0x40, 0x50, 0x60] {
        b.write(0, 0x4008, 15, 0x9999_9900 + byte);
    }
    let mut words = only(255, 0x0110_2030);
    words[0] = 0x0140_5060;
    tests.equal("over the end", b.state.palette, words);
    tests.done(b);
}

fn overwritten(tests: &mut Tests) {
    for number in PLACES {
        let mut b = tests.usual();
        for (width, bytes, word) in LOADS.into_iter().chain(LOADS.into_iter().rev()) {
            b.index(0x1e, width);
            b.entry(number as u32, bytes);
            let what = format!("entry {number} by {bytes:?}");
            tests.equal(&what, b.state.palette, only(number, word));
        }
        tests.done(b);
    }
    // Neighbours stay.
    let mut b = tests.usual();
    b.index(0x1e, 2);
    b.state.palette = [0x0177_7777; ENTRIES];
    b.entry(128, [1, 2, 3]);
    let mut words = [0x0177_7777; ENTRIES];
    words[128] = 0x0101_0203;
    tests.equal("neighbours", b.state.palette, words);
    tests.done(b);
}

/// Loads that store nothing, over an entry never stored and over a stored one.
fn broken_off(tests: &mut Tests) {
    for word in [0, 0x0100_0000, 0x0144_5566] {
        for number in PLACES {
            let mut b = tests.usual();
            let words = only(number, word);
            b.state.palette = words;
            b.index(0x1e, 2);
            b.write(0, 0x4000, 1, number as u32);
            for (what, byte) in [("red only", 1), ("red and green", 2)] {
                b.write(0, 0x4008, 1, byte);
                tests.equal(what, b.state.palette, words);
            }
            for enables in [14, 0] {
                tests.equal("no lane 0", b.write(0, 0x4008, enables, 9), (0, 0));
                tests.equal("no lane 0", b.state.palette, words);
            }
            tests.equal("enables 16", b.write(0, 0x4008, 17, 9), (3, 0));
            tests.equal("enables 16", b.state.palette, words);
            b.write(0, 0x4008, 1, 3);
            tests.equal("lane 0", b.state.palette, only(number, 0x0101_0203));
            // A read between.
            b.state.palette = words;
            b.write(0, 0x4000, 1, number as u32);
            b.write(0, 0x4008, 1, 7);
            b.read(0, 0x4008, 1);
            b.write(0, 0x4008, 1, 9);
            tests.equal("a read between", b.state.palette, words);
            tests.done(b);
        }
    }
}

/// Palette data shows the bytes of the entry's word.
fn shown(tests: &mut Tests) {
    for number in PLACES {
        for word in TAKEN.into_iter().chain([0x01a1_b2c3, 0x0100_4000]) {
            let mut b = tests.usual();
            b.state.palette = only(number, word);
            for width in [2, 0] {
                b.index(0x1e, width);
                b.write(0, 0x4000, 1, number as u32);
                for moved in [16, 8, 0] {
                    let byte = word >> moved & 0xff;
                    let byte = if width == 2 { byte } else { byte / 4 };
                    let expected = if word == 0 {
                        (0, 0, 0)
                    } else {
                        (0, byte, 0xff)
                    };
                    let what = format!("entry {number} of {word:08x}, width {width}");
                    tests.equal(&what, b.look(0, 0x4008, 15), expected);
                    tests.equal(&what, b.read(0, 0x4008, 1), expected);
                }
                tests.equal("read only", b.state.palette, only(number, word));
            }
            tests.done(b);
        }
    }
}

/// A dot shows the word of its entry, or 04000000h for a word of zero.
fn drawn(tests: &mut Tests) {
    for number in PLACES {
        for word in TAKEN {
            let mut b = tests.bench(4, 2, 16);
            let other = (number as u8).wrapping_add(3);
            b.memory.fill(other);
            b.memory[1] = number as u8;
            b.memory[10] = number as u8;
            b.state.palette = only(number, word);
            b.live(0, 1);
            let dot = if word == 0 { 0x0400_0000 } else { word };
            let mut dots = vec![0x0400_0000; 8];
            dots[1] = dot;
            dots[6] = dot;
            let what = format!("entry {number} of {word:08x}");
            tests.equal(&what, b.picture.clone(), dots.clone());
            // Black, and the other entry too: each store shows at once.
            let changed = if word == 0x0100_0000 { 0 } else { 2 };
            tests.equal(&what, b.entry(number as u32, [0; 3]), changed);
            tests.equal(&what, b.entry(u32::from(other), [0; 3]), 6);
            tests.equal(&what, b.picture.clone(), vec![0x0100_0000; 8]);
            tests.equal(&what, b.entry(u32::from(other), [0, 0, 1]), 6);
            tests.done(b);
        }
    }
}

fn taken(tests: &mut Tests) {
    for number in PLACES {
        for word in TAKEN {
            let mut b = tests.usual();
            b.state.palette = only(number, word);
            let what = format!("entry {number} of {word:08x}");
            tests.equal(&what, b.read(0, 0x1080, 15), (0, 0x31, ALL));
            tests.equal(&what, b.look(0, 0x1080, 15), (0, 0x31, ALL));
            tests.equal(&what, b.write(0, 0x1040, 15, ALL), (0, 0));
            tests.equal(&what, b.look(1, 12, 15), (0, 0, ALL));
            tests.equal(&what, b.state.palette, only(number, word));
            tests.done(b);
        }
    }
}

/// A read, a write and a look, each refused as 1 with zeros, and nothing altered.
fn three_refused(tests: &mut Tests, b: &mut Bench, what: &str, at: (u32, u32, u32)) {
    let (target, offset, enables) = at;
    let old = (b.state.clone(), b.memory.clone(), b.picture.clone());
    let at = At {
        target,
        offset,
        enables,
    };
    for asked in [
        Asked::Read(at),
        Asked::Write(at, 0x0a0b_0c0d),
        Asked::Look(at),
    ] {
        let a = b.carry_out(&asked);
        let got = (a.status, a.word, a.known, a.changed);
        tests.equal(&format!("{what}: {asked:x?}"), got, (1, 0, 0, 0));
    }
    let same = b.state == old.0 && b.memory == old.1 && b.picture == old.2;
    tests.equal(what, same, true);
}

fn refused(tests: &mut Tests) {
    for number in PLACES {
        for word in REFUSED {
            let mut b = tests.usual();
            b.state.palette[number] = word;
            let what = format!("entry {number} of {word:08x}");
            three_refused(tests, &mut b, &what, (0, 0x1040, 15));
            three_refused(tests, &mut b, &what, (0, 0x4000, 1));
            tests.equal(&what, b.state.palette, only(number, word));
            tests.done(b);
        }
    }
}

fn whole(tests: &mut Tests) {
    let stored = std::array::from_fn(|number| 0x01ff_0000 - 0xff01 * number as u32);
    let mut last_wrong: [u32; ENTRIES] = stored;
    last_wrong[255] ^= 0x0200_0000;
    let mut last_bare: [u32; ENTRIES] = stored;
    last_bare[255] ^= 0x0100_0000;
    for (what, words, status) in [
        ("none stored", [0; ENTRIES], 0),
        ("all stored", stored, 0),
        ("all black", [0x0100_0000; ENTRIES], 0),
        ("all white", [0x01ff_ffff; ENTRIES], 0),
        ("all but the last", last_wrong, 1),
        ("all, the last without flag", last_bare, 1),
        ("the last alone", only(255, 1), 1),
        ("all as the picture has them", [0x0400_0000; ENTRIES], 1),
    ] {
        let mut b = tests.usual();
        b.state.palette = words;
        let shown = if status == 0 {
            (0, 0x31, ALL)
        } else {
            (1, 0, 0)
        };
        tests.equal(what, b.read(0, 0x1080, 15), shown);
        tests.equal(what, b.look(0, 0x1080, 15), shown);
        tests.equal(what, b.write(0, 0x1080, 15, 0), (status, 0));
        tests.equal(what, b.state.palette, words);
        tests.done(b);
    }
}

/// Where accesses go, and how they are refused where the entries are right.
const ACCESSES: [(&str, (u32, u32, u32)); 15] = [
    ("done", (0, 0x1080, 15)),
    ("palette data", (0, 0x4008, 15)),
    ("palette data, no lane 0", (0, 0x4008, 14)),
    ("memory", (2, 0, 15)),
    ("header", (3, 0, 15)),
    ("no lanes", (0, 0x1080, 0)),
    ("3", (9, 0, 15)),
    ("3 by enables", (0, 0x1080, 16)),
    ("4", (0, 0x1081, 15)),
    ("5", (0, 0x4004, 15)),
    ("5 at memory", (1, 16, 15)),
    ("6 for a write", (0, 0x1140, 15)),
    ("6 for a read", (0, 0x4050, 15)),
    ("7", (1, 0, 15)),
    ("3 and 4", (4, 1, 99)),
];

/// 1 comes before 2 to 7 and before what would be done, wherever the entry is: at
/// the address, among the dots, or neither.
fn before_all_else(tests: &mut Tests) {
    let entries = [
        (0, 0x0200_0000),
        (7, 0x0000_0001),
        (0x20, 0xff00_0000),
        (200, 0x8100_0000),
    ];
    for (number, word) in entries {
        let mut b = tests.usual();
        b.live(0, 0);
        b.entry(5, [1, 2, 3]);
        b.write(2, 0, 15, 0x0005_0700);
        b.write(0, 0x50, 15, 3);
        b.write(0, 0x4000, 1, 0x20);
        b.state.palette[number] = word;
        for (dots, bytes) in [(4, 16), (3, 16), (5, 16), (4, 8), (4, 24), (0, 0), (4, 16)] {
            b.picture.resize(dots, 2);
            b.memory.resize(bytes, 1);
            for (what, at) in ACCESSES {
                let what = format!("entry {number}, {dots} dots, {bytes} bytes, {what}");
                three_refused(tests, &mut b, &what, at);
            }
        }
        // Mended, it goes on.
        b.state.palette[number] = 0x0100_0000;
        tests.equal("mended", b.read(0, 0x1080, 15), (0, 0x31, ALL));
        tests.done(b);
    }
}

// ----- the layout before -----

/// Every top byte with some colours: each word has its columns, each columns
/// their word, and both are refused as 1 or neither.
fn one_to_one(tests: &mut Tests) {
    let colours = [0, 1, 0x100, 0x1_0000, 0x80_0000, 0x01_0203, 0xff_ffff];
    let mut b = tests.usual();
    for top in 0..256 {
        for colour in colours {
            let word = top << 24 | colour;
            let number = (top * 7 + colour) as usize % ENTRIES;
            let columns = Columns::of(&only(number, word));
            let [flag, red, green, blue] = word.to_be_bytes();
            let held = [&columns.flag, &columns.red, &columns.green, &columns.blue];
            let what = format!("{word:08x}");
            let bytes = held.map(|column| column[number]);
            tests.equal(&what, bytes, [flag, red, green, blue]);
            let sums = held.map(|column| column.iter().map(|c| u32::from(*c)).sum());
            tests.equal(&what, sums, [flag, red, green, blue].map(u32::from));
            tests.equal(&what, columns.words(), only(number, word));
            b.state.palette = only(number, word);
            let status = if columns.fit() { 0 } else { 1 };
            tests.equal(&what, b.look(0, 0x1080, 15).0, status);
        }
    }
    let mut rng = Rng::new(0xc15);
    for _ in 0..20 {
        let words = std::array::from_fn(|_| rng.word());
        tests.equal("random words", Columns::of(&words).words(), words);
    }
    tests.done(b);
}

fn both_layouts(tests: &mut Tests) {
    for number in 0..6 {
        layouts_panel(tests, 1500 + u64::from(number), number, 250);
    }
}

/// A trace with looks on a machine with words and on one with columns, from an
/// opening or from a state that somebody made: after every line the answers,
/// memory and picture are the same, and the states correspond. On the way
/// somebody alters both, also to what is no state.
pub fn layouts_panel(tests: &mut Tests, seed: u64, number: u32, lines: usize) {
    let mut rng = Rng::new(seed ^ 0xc015);
    let setup = panel_size(&mut rng, number);
    let mut b = tests.bench(setup.width, setup.height, setup.memory_bytes);
    for byte in &mut b.memory {
        *byte = rng.byte();
    }
    let mut before = Machine::of(tests.broken, &b.state, &b.memory, &b.picture);
    before.columns = Columns::reset();
    if rng.chance(1, 2) {
        made_state(&mut b, &mut rng);
        before = Machine::of(tests.broken, &b.state, &b.memory, &b.picture);
    }
    if !correspond(&b, &before) {
        tests.complain(format!("seed {seed}: the layouts differ from the start"));
    }
    let text = generate::trace(seed, lines, setup, true);
    for line in text.split(|byte| *byte == b'\n') {
        let Some(asked) = trace::parse(line, true, &Break::Nothing) else {
            continue;
        };
        meddle_entry(&mut b, &mut before, &mut rng);
        meddle_dot(&mut b, &mut before, &mut rng);
        let what = format!("seed {seed}: {asked:x?}");
        let answers = meddled(&mut b, &mut before, &mut rng, &asked);
        tests.equal(&what, answers.0, answers.1);
        if answers.0 != answers.1 || !correspond(&b, &before) {
            tests.complain(format!("the layouts part at {what}"));
            break;
        }
    }
    tests.done(b);
}

/// Whether state, memory and picture are the same but for the layout.
fn correspond(b: &Bench, before: &Machine) -> bool {
    before.rest == without_palette(&b.state)
        && before.columns.words() == b.state.palette
        && before.columns == Columns::of(&b.state.palette)
        && before.memory == b.memory
        && before.picture == b.picture
}

/// Somebody puts a word into an entry, in both. What is no state does not stay
/// for long.
fn meddle_entry(b: &mut Bench, before: &mut Machine, rng: &mut Rng) {
    let wrong = |word: &u32| *word != 0 && word >> 24 != 1;
    let (number, word) = match b.state.palette.iter().position(wrong) {
        Some(number) if rng.chance(1, 3) => (number, 0x0100_0000 | rng.word() >> 8),
        None if rng.chance(1, 12) => {
            let places = [rng.byte(), b.state.address, b.memory[0], 255, 0];
            (usize::from(rng.pick(&places)), meddled_word(rng))
        }
        _ => return,
    };
    b.state.palette[number] = word;
    let [flag, red, green, blue] = word.to_be_bytes();
    before.columns.flag[number] = flag;
    before.columns.red[number] = red;
    before.columns.green[number] = green;
    before.columns.blue[number] = blue;
}

/// About half of them are no entry's.
fn meddled_word(rng: &mut Rng) -> u32 {
    let colour = rng.word() >> 8;
    let bit = 1 << (24 + rng.below(8));
    let kinds = [
        0,
        0x0100_0000,
        0x0100_0000 | colour,
        colour,
        bit | colour,
        bit | colour | 0x0100_0000,
        rng.word(),
    ];
    rng.pick(&kinds)
}

/// Somebody alters a dot, in both.
fn meddle_dot(b: &mut Bench, before: &mut Machine, rng: &mut Rng) {
    if rng.chance(1, 10) {
        let place = rng.below(b.picture.len() as u32) as usize;
        let words = [0, 0x0100_0000, 0x0400_0000, 0x0300_0000, ALL];
        b.picture[place] = rng.pick(&words);
        before.picture[place] = b.picture[place];
    }
}

/// Carries out on both, now and then with a height that is none, or without the
/// last dot or the last byte of memory, which are there again afterwards.
fn meddled(b: &mut Bench, before: &mut Machine, rng: &mut Rng, asked: &Asked) -> (Answer, Answer) {
    let kind = rng.below(60);
    let (dot, byte) = (b.picture.last().copied(), b.memory.last().copied());
    match kind {
        0 => (b.state.height, before.rest.height) = (b.state.height + 1024, b.state.height + 1024),
        1 => drop((b.picture.pop(), before.picture.pop())),
        2 => drop((b.memory.pop(), before.memory.pop())),
        _ => {}
    }
    let answers = (b.carry_out(asked), before.carry_out(asked));
    match kind {
        0 => (b.state.height, before.rest.height) = (b.state.height - 1024, b.state.height - 1024),
        1 => {
            b.picture.extend(dot);
            before.picture.extend(dot);
        }
        2 => {
            b.memory.extend(byte);
            before.memory.extend(byte);
        }
        _ => {}
    }
    answers
}
