//! Explain: the trace program's lines and looks in, lines for people out, as
//! docs/EXPLAIN.md has them.

use std::io::{BufRead, Write};

use crate::breaks::{Break, Rule};
use crate::model::{
    Act, Answer, Asked, At, Model, APERTURE_ONE, APERTURE_TWO, CONFIGURATION, DONE, REGION_ZERO,
};
use crate::state::State;
use crate::tables::Kind;
use crate::trace::{each_line, parse, Failure, Machine, Setup};

const BAD_LINE: &str = "bad line: expected is r TARGET OFFSET ENABLES, w TARGET OFFSET ENABLES WORD, or l TARGET OFFSET ENABLES";

/// The registers of the header, by their offset.
const HEADER_NAMES: &[(u32, &str)] = &[
    (0x00, "CFGVendorId/CFGDeviceId"),
    (0x04, "CFGCommand/CFGStatus"),
    (0x08, "CFGRevisionId/CFGClassCode"),
    (0x0c, "CFGCacheLine/CFGLatTimer/CFGHeaderType/CFGBist"),
    (0x10, "CFGBaseAddr0"),
    (0x14, "CFGBaseAddr1"),
    (0x18, "CFGBaseAddr2"),
    (0x28, "CFGCardBus"),
    (0x2c, "CFGSubsystemVendorId/CFGSubsystemId"),
    (0x30, "CFGRomAddr"),
    (0x34, "CFGCapPtr"),
    (0x3c, "CFGIntLine/CFGIntPin/CFGMinGrant/CFGMaxLat"),
    (0x40, "CFGCapID/CFGNextPtr/CFGAGPRev"),
    (0x44, "CFGAGPStatus"),
    (0x48, "CFGAGPCommand"),
    (0xf8, "CFGIndirectAddress"),
    (0xfc, "CFGIndirectData"),
];

/// The indirect registers of the RAMDAC, by their index.
const INDIRECT_NAMES: &[(u32, &str)] = &[
    (0x06, "RDCursorControl"),
    (0x18, "RDColorMode"),
    (0x19, "RDModeControl"),
    (0x1c, "RDPalettePage"),
    (0x1e, "RDMiscControl"),
    (0x20, "RDPixelClockA1"),
    (0x21, "RDPixelClockA2"),
    (0x22, "RDPixelClockA3"),
    (0x23, "RDPixelClockB1"),
    (0x24, "RDPixelClockB2"),
    (0x25, "RDPixelClockB3"),
    (0x26, "RDPixelClockC1"),
    (0x27, "RDPixelClockC2"),
    (0x28, "RDPixelClockC3"),
    (0x29, "RDPixelClockStatus"),
    (0x30, "RDMemoryClock1"),
    (0x31, "RDMemoryClock2"),
    (0x32, "RDMemoryClock3"),
    (0x33, "RDMemoryClockStatus"),
    (0x40, "RDColorKeyControl"),
    (0x41, "RDOverlayKey"),
    (0x42, "RDRedKey"),
    (0x43, "RDGreenKey"),
    (0x44, "RDBlueKey"),
];

/// What the refusals mean, 1 to 7.
const REASONS: [&str; 7] = [
    "not a state",
    "a lent buffer has the wrong length",
    "no such target, or enables above 15",
    "the offset is no multiple of 4",
    "nothing is there",
    "not readable, or not writable",
    "the aperture's mode is not served",
];

/// Runs explain over a whole input.
pub fn run(
    broken: Break,
    setup: Setup,
    check: bool,
    input: &mut dyn BufRead,
    output: &mut dyn Write,
) -> Result<Machine, Failure> {
    let machine = Machine::open(broken, setup, check).map_err(Failure::Wrong)?;
    each_line(machine, setup, explained, input, output)
}

/// The line that explains a line.
fn explained(machine: &mut Machine, line: &[u8]) -> Result<String, String> {
    let broken = machine.model().broken;
    let Some(asked) = parse(line, true, &broken) else {
        return Ok(BAD_LINE.to_string());
    };
    let mut named = place(machine.model(), machine.state(), &asked.at());
    let answer = machine.carry_out(&asked)?;
    if broken.is(Rule::ExplainAfter) {
        named = place(machine.model(), machine.state(), &asked.at());
    }
    Ok(sentence(&asked, &named, &answer, &broken))
}

fn sentence(asked: &Asked, place: &str, answer: &Answer, broken: &Break) -> String {
    let mut text = match asked {
        Asked::Read(_) => format!("read  {place}"),
        Asked::Write(_, word) => format!("write {place} {word:08x}"),
        Asked::Look(_) => format!("look  {place}"),
    };
    let enables = asked.at().enables;
    if enables != 15 {
        text += &format!(" (enables {enables:x})");
    }
    if answer.status != DONE {
        let reason = REASONS[answer.status as usize - 1];
        return format!("{text}: refused as {}, {reason}", answer.status);
    }
    text += &match asked.act() {
        Act::Read | Act::Look => shown(answer, broken),
        Act::Write => changed(answer.changed),
    };
    text
}

/// What a read or a look shows.
fn shown(answer: &Answer, broken: &Break) -> String {
    let word = digits(answer.word, answer.known, broken);
    if answer.known == 0 {
        format!(" = {word}, nothing of it is known")
    } else {
        format!(" = {word}")
    }
}

/// What a write did to the picture.
fn changed(dots: u32) -> String {
    match dots {
        0 => String::new(),
        1 => ", 1 dot changed".to_string(),
        _ => format!(", {dots} dots changed"),
    }
}

/// Eight digits, with a question mark for each that has an unknown bit.
fn digits(word: u32, known: u32, broken: &Break) -> String {
    let mut text = String::new();
    for place in (0..8).rev() {
        let digit = word >> (4 * place) & 15;
        let known = known >> (4 * place) & 15;
        let hidden = if broken.is(Rule::ExplainPartDigits) {
            known == 0
        } else {
            known != 15
        };
        if hidden && !broken.is(Rule::ExplainZeros) {
            text.push('?');
        } else {
            text += &format!("{digit:x}");
        }
    }
    text
}

/// Where a line leads. An aperture is named whether memory is fitted there or not.
fn place(model: &Model, state: &State, at: &At) -> String {
    let named = match at.target {
        REGION_ZERO => register(model, state, at.offset),
        APERTURE_ONE => Some(format!("aperture one byte {:x}", at.offset)),
        APERTURE_TWO => Some(format!("aperture two byte {:x}", at.offset)),
        CONFIGURATION => named(HEADER_NAMES, at.offset).map(str::to_string),
        _ => None,
    };
    named.unwrap_or(format!("target {} offset {:x}", at.target, at.offset))
}

fn named(names: &[(u32, &'static str)], number: u32) -> Option<&'static str> {
    names.iter().find(|n| n.0 == number).map(|n| n.1)
}

/// A register of region 0, with what lies behind palette and indexed data.
fn register(model: &Model, state: &State, offset: u32) -> Option<String> {
    let register = &model.tables.region0[model.tables.find(offset)?];
    let mut text = register.name.to_string();
    if state.address_known != 0xff {
        return Some(text);
    }
    let address = state.address;
    if register.kind == Kind::PaletteData {
        let component = ["red", "green", "blue"][usize::from(state.component)];
        text += &format!(" entry {address:x} {component}");
    }
    if register.kind == Kind::IndexedData {
        text += &format!(" index {address:x}");
        if let Some(name) = named(INDIRECT_NAMES, u32::from(address)) {
            text += &format!(" {name}");
        }
    }
    Some(text)
}
