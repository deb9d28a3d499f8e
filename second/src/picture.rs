//! The picture: what each dot shows, and what a write redraws.

use crate::breaks::Rule;
use crate::model::{At, Model};
use crate::offsets::{
    APERTURE_ONE_CONTROL, INDEXED_DATA, PALETTE_DATA, PIXEL_MASK, SCREEN_BASE, SCREEN_BASE_RIGHT,
    SCREEN_STRIDE, VIDEO_CONTROL,
};
use crate::palette::{self, COLOURS, FLAG};
use crate::state::State;
use crate::tables::{COLOR_MODE, MISC_CONTROL, PALETTE_PAGE};

/// Not a CI8 picture.
pub const UNDRAWN: u32 = 0x0300_0000;
/// Base, stride or mask unknown.
pub const UNKNOWN: u32 = 0x0500_0000;
/// Beyond fitted memory.
pub const BEYOND: u32 = 0x0200_0000;
/// An entry never stored.
pub const NEVER_STORED: u32 = 0x0400_0000;
/// A colour; red, green and blue follow. It is the word of a stored entry.
pub const COLOUR: u32 = FLAG;

/// A number of units of eight bytes.
#[derive(Clone, Copy)]
struct Units(u64);

/// A number of single bytes.
#[derive(Clone, Copy)]
struct Bytes(u64);

impl Units {
    fn bytes(self) -> Bytes {
        Bytes(8 * self.0)
    }
}

/// What every dot of a picture depends on.
struct View {
    drawn: bool,
    unknown: bool,
    base: Bytes,
    stride: Bytes,
    mask: u8,
}

impl Model {
    fn view(&self, state: &State) -> View {
        let mode = state.indirect[COLOR_MODE].value;
        let gui = mode & 0x10 != 0 || self.is(Rule::GuiIgnored);
        let mut format = mode & 0x0f;
        if self.is(Rule::FormatThreeBits) {
            format &= 7;
        }
        if self.is(Rule::FormatIgnored) {
            format = 0;
        }
        let mut drawn = gui && format == 0;
        if self.is(Rule::RgbMatters) && mode & 0x20 != 0 {
            drawn = false;
        }
        if self.is(Rule::TrueColorMatters) && mode & 0x80 != 0 {
            drawn = false;
        }
        let control = self.held(state, VIDEO_CONTROL).value;
        if self.is(Rule::EnableNeeded) && control & 1 == 0 {
            drawn = false;
        }
        if self.is(Rule::PowerDownBlanks) && state.indirect[MISC_CONTROL].value & 1 != 0 {
            drawn = false;
        }

        let mut base = self.held(state, SCREEN_BASE);
        if self.is(Rule::RightBase) && control & 1 << 11 != 0 {
            base = self.held(state, SCREEN_BASE_RIGHT);
        }
        let stride = self.held(state, SCREEN_STRIDE);
        let mask = self.held(state, PIXEL_MASK);
        let base_unknown = base.known & 0x000f_ffff != 0x000f_ffff;
        let stride_unknown = stride.known & 0x000f_ffff != 0x000f_ffff;
        let mask_unknown = mask.known & 0xff != 0xff;
        let stride_excused = self.is(Rule::UnknownStrideDrawn)
            || self.is(Rule::UnknownStrideOneRow) && state.height == 1;
        let unknown = base_unknown && !self.is(Rule::UnknownBaseDrawn)
            || stride_unknown && !stride_excused
            || mask_unknown && !self.is(Rule::UnknownMaskDrawn);

        let mut view = View {
            drawn,
            unknown,
            base: Units(u64::from(base.value)).bytes(),
            stride: Units(u64::from(stride.value)).bytes(),
            mask: mask.value as u8,
        };
        if self.is(Rule::BaseInBytes) {
            view.base = Bytes(u64::from(base.value));
        }
        if self.is(Rule::BaseHalf) {
            view.base = Bytes(4 * u64::from(base.value));
        }
        if self.is(Rule::StrideInBytes) {
            view.stride = Bytes(u64::from(stride.value));
        }
        if self.is(Rule::StrideIgnored) {
            view.stride = Bytes(0);
        }
        if self.is(Rule::MaskIgnored) {
            view.mask = 0xff;
        }
        view
    }

    /// The place in memory of a dot's byte.
    fn dot_place(&self, view: &View, state: &State, x: u32, y: u32) -> Bytes {
        let (x, mut y) = (u64::from(x), u64::from(y));
        if self.is(Rule::LineDoubled) && self.held(state, VIDEO_CONTROL).value & 4 != 0 {
            y /= 2;
        }
        let mut place = view.base.0 + view.stride.0 * y + x;
        if self.is(Rule::StrideTimesX) {
            place = view.base.0 + view.stride.0 * x + y;
        }
        if self.is(Rule::SumWraps) {
            place %= 8_388_608;
        }
        if self.is(Rule::PictureWraps) {
            place %= u64::from(state.memory_bytes);
        }
        if self.is(Rule::PictureSwapped) && self.held(state, APERTURE_ONE_CONTROL).value & 3 == 1 {
            place ^= 3;
        }
        Bytes(place)
    }

    /// The word of one dot: the first of the five rules that applies.
    fn dot(&self, view: &View, state: &State, memory: &[u8], x: u32, y: u32) -> u32 {
        let place = self.dot_place(view, state, x, y);
        let fitted = place.0 < memory.len() as u64;
        if self.is(Rule::UnknownFirst) && view.unknown {
            return UNKNOWN;
        }
        if !view.drawn {
            return UNDRAWN;
        }
        if self.is(Rule::BeyondBeforeUnknown) && !fitted {
            return BEYOND;
        }
        if view.unknown {
            return if self.is(Rule::UnknownIsUndrawn) {
                UNDRAWN
            } else {
                UNKNOWN
            };
        }
        if !fitted {
            if self.is(Rule::BeyondIsUndrawn) {
                return UNDRAWN;
            }
            if self.is(Rule::BeyondIsNeverStored) {
                return NEVER_STORED;
            }
            return BEYOND;
        }
        self.dot_of(view, state, memory[place.0 as usize])
    }

    /// The word of a dot that shows a byte of memory, by the last two rules.
    fn dot_of(&self, view: &View, state: &State, byte: u8) -> u32 {
        let mut number = usize::from(byte & view.mask);
        if self.is(Rule::MaskOrs) {
            number = usize::from(byte | !view.mask);
        }
        if self.is(Rule::PageUsed) {
            number |= state.indirect[PALETTE_PAGE].value as usize;
        }
        let entry = self.entry_word(state, number);
        let stored = if self.is(Rule::MaskOnlyStored) {
            palette::is_stored(self.entry_word(state, usize::from(byte)))
        } else {
            self.counts_as_stored(entry)
        };
        if stored {
            self.drawn(state, entry)
        } else if self.is(Rule::NeverStoredNumbered) {
            NEVER_STORED | number as u32
        } else if self.is(Rule::NeverDrawnZero) {
            entry
        } else {
            NEVER_STORED
        }
    }

    /// The word of a dot whose entry counts as stored: that entry's, as it stands
    /// (02, C-15).
    fn drawn(&self, state: &State, entry: u32) -> u32 {
        let mut components = palette::components(entry);
        let clear_rgb = state.indirect[COLOR_MODE].value & 0x20 == 0;
        if self.is(Rule::ComponentOrder) || self.is(Rule::BgrOrder) && clear_rgb {
            components.reverse();
        }
        if self.is(Rule::WidthPicture) && state.indirect[MISC_CONTROL].value & 2 == 0 {
            components = components.map(|c| c / 4);
        }
        if self.is(Rule::SixBitPictureOnly) {
            components = components.map(|c| if c % 4 == 0 { c + c / 64 } else { c });
        }
        let word = palette::recoloured(entry, components);
        if self.is(Rule::DrawnBare) {
            return word & COLOURS;
        }
        if self.is(Rule::DrawnBit25) {
            return word & COLOURS | FLAG << 1;
        }
        if self.is(Rule::NeverStoredBlack) || self.is(Rule::MaskOnlyStored) {
            return word | COLOUR;
        }
        word
    }

    /// The words of all dots, row after row.
    pub fn words(&self, state: &State, memory: &[u8]) -> Vec<u32> {
        let view = self.view(state);
        let mut words = Vec::with_capacity((state.width * state.height) as usize);
        for y in 0..state.height {
            for x in 0..state.width {
                words.push(self.dot(&view, state, memory, x, y));
            }
        }
        words
    }

    /// Writes the new word at exactly the dots whose word differs, and counts
    /// the words of the lent picture that this changed.
    pub fn redraw(
        &self,
        state: &State,
        at: &At,
        picture: &mut [u32],
        before: &[u32],
        after: &[u32],
    ) -> u32 {
        if self.redraw_forgotten(state, at) {
            return 0;
        }
        let any = before != after;
        let mut changed = 0;
        let mut redrawn = 0;
        for (place, dot) in picture.iter_mut().enumerate().take(before.len()) {
            let differs = self.differs(before[place], after[place]);
            let forced = self.is(Rule::RedrawAll) || self.is(Rule::RedrawWhenAny) && any;
            if self.is(Rule::FirstRowOnly) && place >= state.width as usize {
                continue;
            }
            if differs || forced {
                redrawn += 1;
                if *dot != after[place] {
                    changed += 1;
                }
                *dot = after[place];
            }
        }
        if self.is(Rule::ChangedByRules) {
            changed = redrawn;
        }
        if self.is(Rule::ChangedAll) && changed > 0 {
            changed = state.width * state.height;
        }
        if self.is(Rule::ChangedOnce) {
            changed = changed.min(1);
        }
        if self.is(Rule::ChangedZero) {
            changed = 0;
        }
        changed
    }

    /// Whether a dot is to be redrawn.
    fn differs(&self, before: u32, after: u32) -> bool {
        if self.is(Rule::BlackNoRedraw) && (before, after) == (NEVER_STORED, COLOUR) {
            return false;
        }
        before != after
    }

    /// Whether a break leaves out the redrawing after this write.
    fn redraw_forgotten(&self, state: &State, at: &At) -> bool {
        let mode = at.is_register(INDEXED_DATA) && usize::from(state.address) == COLOR_MODE;
        self.is(Rule::PaletteNoRedraw) && at.is_register(PALETTE_DATA)
            || self.is(Rule::MemoryNoRedraw) && at.is_memory()
            || self.is(Rule::MaskNoRedraw) && at.is_register(PIXEL_MASK)
            || self.is(Rule::ModeNoRedraw) && mode
            || self.is(Rule::BaseNoRedraw) && at.is_register(SCREEN_BASE)
            || self.is(Rule::StrideNoRedraw) && at.is_register(SCREEN_STRIDE)
    }
}
