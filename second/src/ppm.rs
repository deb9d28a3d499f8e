//! A picture as a file: a binary PPM (P6), row after row. A dot that is not
//! drawn has a loud colour of its own and never looks like black.

use crate::picture::{BEYOND, COLOUR, NEVER_STORED, UNDRAWN, UNKNOWN};

const MAGENTA: [u8; 3] = [0xff, 0x00, 0xff];
const ORANGE: [u8; 3] = [0xff, 0x80, 0x00];
const LIME: [u8; 3] = [0x80, 0xff, 0x00];
const CYAN: [u8; 3] = [0x00, 0xff, 0xff];
const WHITE: [u8; 3] = [0xff, 0xff, 0xff];

/// The bytes of the file.
pub fn file(width: u32, height: u32, words: &[u32]) -> Vec<u8> {
    let mut bytes = format!("P6\n{width} {height}\n255\n").into_bytes();
    for word in words {
        bytes.extend_from_slice(&shown(*word));
    }
    bytes
}

/// Red, green and blue of one dot: the colour of a drawn one, and for the
/// others a colour that says why there is none. The high byte decides.
fn shown(word: u32) -> [u8; 3] {
    let [kind, red, green, blue] = word.to_be_bytes();
    match u32::from(kind) << 24 {
        COLOUR => [red, green, blue],
        BEYOND => MAGENTA,
        UNDRAWN => ORANGE,
        NEVER_STORED => LIME,
        UNKNOWN => CYAN,
        _ => WHITE,
    }
}
