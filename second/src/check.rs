//! Checks one read or write against a picture drawn afresh and plain counts, and
//! one look against a read made on a copy. The drawing here is a second one, by
//! another way, and knows no breaks.

use std::fmt::Debug;

use crate::bits::lanes;
use crate::model::{Act, Answer, Asked, At, Model, Seen, DONE};
use crate::palette::ENTRIES;
use crate::state::State;

/// Offset of a register in region 0 to the word held there.
fn word_at(state: &State, offset: u32) -> (u32, u32) {
    for (row, register) in crate::tables::REGION0.iter().enumerate() {
        if register.offset == offset {
            return (state.region0[row].value, state.region0[row].known);
        }
    }
    (0, 0)
}

/// The whole picture by the five rules.
pub fn draw(state: &State, memory: &[u8]) -> Vec<u32> {
    draw_with(&state.palette.map(dot), state, memory)
}

/// The word of a dot that shows an entry, by the last two rules: the entry's own,
/// if it was ever stored.
fn dot(entry: u32) -> u32 {
    match entry.to_be_bytes() {
        [1, ..] => entry,
        _ => 0x0400_0000,
    }
}

/// The same with a word of a dot for every entry; the state's palette is not
/// looked at.
pub fn draw_with(entries: &[u32; ENTRIES], state: &State, memory: &[u8]) -> Vec<u32> {
    let dots = state.width as usize * state.height as usize;
    if state.indirect[0x18].value & 0x1f != 0x10 {
        return vec![0x0300_0000; dots];
    }
    let (base, base_known) = word_at(state, 0x3000);
    let (stride, stride_known) = word_at(state, 0x3008);
    let (mask, mask_known) = word_at(state, 0x4010);
    if base_known << 12 != 0xffff_f000
        || stride_known << 12 != 0xffff_f000
        || mask_known << 24 != 0xff00_0000
    {
        return vec![0x0500_0000; dots];
    }
    let mut picture = Vec::with_capacity(dots);
    let mut row = u64::from(base) << 3;
    for _ in 0..state.height {
        for place in row..row + u64::from(state.width) {
            match memory.get(place as usize) {
                Some(byte) => picture.push(entries[(u32::from(*byte) & mask) as usize]),
                None => picture.push(0x0200_0000),
            }
        }
        row += u64::from(stride) << 3;
    }
    picture
}

/// State, memory and picture, as they were.
struct Old {
    state: State,
    memory: Vec<u8>,
    picture: Vec<u32>,
}

impl Old {
    fn of(state: &State, memory: &[u8], picture: &[u32]) -> Old {
        Old {
            state: state.clone(),
            memory: memory.to_vec(),
            picture: picture.to_vec(),
        }
    }

    fn same(&self, state: &State, memory: &[u8], picture: &[u32]) -> bool {
        self.state == *state && self.memory == memory && self.picture == picture
    }
}

/// Whether something is wrong, with what was asked and answered.
fn verdict(wrong: Option<String>, asked: &Asked, answer: &dyn Debug) -> Result<(), String> {
    match wrong {
        Some(text) => Err(format!("{text}: {asked:?} gave {answer:?}")),
        None => Ok(()),
    }
}

/// Reads, and says what is wrong with the outcome, if anything.
pub fn read(
    model: &Model,
    state: &mut State,
    memory: &[u8],
    picture: &[u32],
    at: At,
) -> (Answer, Result<(), String>) {
    let old = Old::of(state, memory, picture);
    let answer = model.read(state, memory, picture, at);
    let asked = Asked::Read(at);
    let wrong = fault(&old, state, memory, picture, &asked, &answer);
    (answer, verdict(wrong, &asked, &answer))
}

/// Writes, and says what is wrong with the outcome, if anything.
pub fn write(
    model: &Model,
    state: &mut State,
    memory: &mut [u8],
    picture: &mut [u32],
    at: At,
    word: u32,
) -> (Answer, Result<(), String>) {
    let old = Old::of(state, memory, picture);
    let answer = model.write(state, memory, picture, at, word);
    let asked = Asked::Write(at, word);
    let wrong = fault(&old, state, memory, picture, &asked, &answer);
    (answer, verdict(wrong, &asked, &answer))
}

/// Looks, and says what is wrong with the outcome, if anything. State and
/// picture are lent to be altered for the sake of breaks only.
pub fn look(
    model: &Model,
    state: &mut State,
    memory: &[u8],
    picture: &mut [u32],
    at: At,
) -> (Seen, Result<(), String>) {
    let old = Old::of(state, memory, picture);
    let seen = model.look(state, memory, picture, at);
    model.spoil(state, memory, picture, at, seen);
    let mut wrong = look_fault(model, &old, at, &seen);
    if !old.same(state, memory, picture) {
        wrong = Some("a look alters something".to_string());
    }
    (seen, verdict(wrong, &Asked::Look(at), &seen))
}

/// What is wrong with the answer of a look, by a read made on a copy.
fn look_fault(model: &Model, old: &Old, at: At, seen: &Seen) -> Option<String> {
    if seen.status != DONE && (seen.word != 0 || seen.known != 0) {
        return Some("a refused look answers more than its status".to_string());
    }
    if seen.word & !seen.known != 0 || seen.known & !lanes(at.enables) != 0 {
        return Some("a look shows what it does not know".to_string());
    }
    // A model of its own, so that breaks that remember something are not led
    // astray by this read.
    let reader = Model::with(model.broken);
    let mut copy = old.state.clone();
    let answer = reader.read(&mut copy, &old.memory, &old.picture, at);
    if (answer.status, answer.word, answer.known) != (seen.status, seen.word, seen.known) {
        return Some(format!("a read answers {answer:?}"));
    }
    None
}

fn fault(
    old: &Old,
    state: &State,
    memory: &[u8],
    picture: &[u32],
    asked: &Asked,
    answer: &Answer,
) -> Option<String> {
    let (at, writes) = (asked.at(), asked.act() == Act::Write);
    if answer.status != DONE {
        if answer.word != 0 || answer.known != 0 || answer.changed != 0 {
            return Some("a refused access answers more than its status".to_string());
        }
        if !old.same(state, memory, picture) {
            return Some("a refused access alters something".to_string());
        }
        return None;
    }

    let sound = Model::sound();
    if !state.is_state(&sound.tables, &sound.broken) {
        return Some("what comes out is no state".to_string());
    }
    if memory != old.memory && !(at.is_memory() && writes) {
        return Some("memory is altered without an aperture write".to_string());
    }
    if *state != old.state && at.is_memory() {
        return Some("an aperture access alters the state".to_string());
    }
    if writes && (answer.word != 0 || answer.known != 0) {
        return Some("a write answers a word".to_string());
    }
    if answer.word & !answer.known != 0 || answer.known & !lanes(at.enables) != 0 {
        return Some("a read shows what it does not know".to_string());
    }

    let before = draw(&old.state, &old.memory);
    let after = draw(state, memory);
    if picture.len() != before.len() || picture.len() != after.len() {
        return Some("a picture of the wrong length is taken".to_string());
    }
    let mut differing = 0;
    for place in 0..picture.len() {
        let expected = if before[place] == after[place] {
            old.picture[place]
        } else {
            after[place]
        };
        if picture[place] != expected {
            return Some(format!(
                "dot {place} is {:08x} and not {expected:08x}",
                picture[place]
            ));
        }
        if picture[place] != old.picture[place] {
            differing += 1;
        }
    }
    if old.picture == before && picture != after {
        return Some("the picture is not the one drawn afresh".to_string());
    }
    if answer.changed != differing {
        return Some(format!("{differing} dots differ"));
    }
    None
}
