//! Openings, reads, writes and looks: refusals, region 0, the RAMDAC, the
//! header, the apertures. The picture is in `picture`.
//!
//! What a read shows and what it alters are apart (`shown`, `step`), so that a
//! look can show the same and be lent everything to be read only (02, C-12).
//!
//! Where `self.is(Rule::...)` stands, a deliberate mistake can be switched on;
//! without one, none of these places does anything.

use std::cell::Cell;

use crate::bits::{byte_of, lane, lanes, Bits};
use crate::breaks::{Break, Rule};
use crate::offsets::{
    APERTURE_ONE_CONTROL, APERTURE_TWO_CONTROL, BYPASS_WRITE_MASK, INDEXED_DATA, PALETTE_DATA,
    PALETTE_READ_ADDRESS, PALETTE_WRITE_ADDRESS,
};
use crate::palette::{self, COLOURS, ENTRIES, FLAG, NEVER};
use crate::picture::UNDRAWN;
use crate::state::{memory_fits, side_fits, Stage, State};
use crate::tables::{Kind, Tables, MISC_CONTROL, SUBSYSTEM};

pub const DONE: u32 = 0;
pub const NOT_A_STATE: u32 = 1;
pub const WRONG_LENGTH: u32 = 2;
pub const NO_TARGET: u32 = 3;
pub const NOT_ALIGNED: u32 = 4;
pub const NOTHING_HERE: u32 = 5;
pub const NO_DIRECTION: u32 = 6;
pub const NOT_SERVED: u32 = 7;
pub const BAD_PANEL: u32 = 8;
pub const BAD_MEMORY: u32 = 9;

pub const REGION_ZERO: u32 = 0;
pub const APERTURE_ONE: u32 = 1;
pub const APERTURE_TWO: u32 = 2;
pub const CONFIGURATION: u32 = 3;

/// Where a read, a write or a look goes.
#[derive(Clone, Copy, PartialEq, Eq, Debug)]
pub struct At {
    pub target: u32,
    pub offset: u32,
    pub enables: u32,
}

impl At {
    pub fn is_memory(&self) -> bool {
        self.target == APERTURE_ONE || self.target == APERTURE_TWO
    }

    pub fn is_register(&self, offset: u32) -> bool {
        self.target == REGION_ZERO && self.offset == offset
    }
}

/// Which of the three is asked for.
#[derive(Clone, Copy, PartialEq, Eq, Debug)]
pub enum Act {
    Read,
    Write,
    Look,
}

/// One of the three, with what it needs.
#[derive(Clone, Copy, PartialEq, Eq, Debug)]
pub enum Asked {
    Read(At),
    Write(At, u32),
    Look(At),
}

impl Asked {
    pub fn at(&self) -> At {
        match *self {
            Asked::Read(at) | Asked::Write(at, _) | Asked::Look(at) => at,
        }
    }

    pub fn act(&self) -> Act {
        match self {
            Asked::Read(_) => Act::Read,
            Asked::Write(..) => Act::Write,
            Asked::Look(_) => Act::Look,
        }
    }
}

#[derive(Clone, Copy, PartialEq, Eq, Debug)]
pub struct Answer {
    pub status: u32,
    pub word: u32,
    pub known: u32,
    pub changed: u32,
}

/// What a look answers. It alters nothing, so it has no changed count.
#[derive(Clone, Copy, PartialEq, Eq, Debug)]
pub struct Seen {
    pub status: u32,
    pub word: u32,
    pub known: u32,
}

pub struct Model {
    pub tables: Tables,
    pub broken: Break,
    /// Used by the break `WidthAtFirst` only.
    first_was_eight: Cell<bool>,
    /// Used by the break `LookAnswersLastRead` only.
    last_read: Cell<Seen>,
    /// Used by the break `LookStandsForRead` only.
    looked: Cell<bool>,
}

const NOTHING_SEEN: Seen = Seen {
    status: DONE,
    word: 0,
    known: 0,
};

/// How an aperture arranges bytes. The served ones are numbered as their codes.
#[derive(Clone, Copy, PartialEq, Eq, Debug)]
pub enum Order {
    Standard,
    ByteSwapped,
    HalfSwapped,
    NotServed,
}

impl Model {
    /// The model as the documents give it.
    pub fn sound() -> Model {
        Model::with(Break::Nothing)
    }

    /// The model with one break.
    pub fn with(broken: Break) -> Model {
        let tables = match &broken {
            Break::Table(wrong) => Tables::broken(wrong),
            _ => Tables::sound(),
        };
        Model {
            tables,
            broken,
            first_was_eight: Cell::new(false),
            last_read: Cell::new(NOTHING_SEEN),
            looked: Cell::new(false),
        }
    }

    pub fn is(&self, rule: Rule) -> bool {
        self.broken.is(rule)
    }

    // ----- openings -----

    /// Opens a panel over lent memory and a lent picture.
    pub fn open(
        &self,
        width: u32,
        height: u32,
        memory: &mut [u8],
        picture: &mut [u32],
    ) -> (u32, State) {
        let status = self.opening_refusal(width, height, memory.len(), picture.len());
        if status != DONE {
            return (status, self.reset(0, 0, 0));
        }
        picture.fill(UNDRAWN);
        if self.is(Rule::OpenPictureZero) {
            picture.fill(0);
        }
        if self.is(Rule::OpenClearsMemory) {
            memory.fill(0);
        }
        (DONE, self.reset(width, height, memory.len() as u32))
    }

    /// The reset state.
    fn reset(&self, width: u32, height: u32, memory_bytes: u32) -> State {
        let mut state = State::reset(&self.tables, width, height, memory_bytes);
        let word = if self.is(Rule::OpenBlack) {
            FLAG
        } else {
            NEVER
        };
        state.palette = [palette::kept(word, &self.broken); ENTRIES];
        state
    }

    fn opening_refusal(&self, width: u32, height: u32, memory: usize, picture: usize) -> u32 {
        let mut panel_wrong = !side_fits(width) || !side_fits(height);
        let mut memory_wrong = !memory_fits(memory as u64);
        let picture_wrong = picture as u64 != u64::from(width) * u64::from(height);
        if self.is(Rule::OpenWideLimit) {
            panel_wrong &= width != 1025;
        }
        if self.is(Rule::OpenAnyMultiple) {
            memory_wrong &= memory % 4 != 0 || memory == 0;
        }
        if self.is(Rule::OpenOrder) && picture_wrong {
            return WRONG_LENGTH;
        }
        if self.is(Rule::OpenNineFirst) && memory_wrong {
            return BAD_MEMORY;
        }
        if panel_wrong {
            BAD_PANEL
        } else if memory_wrong {
            BAD_MEMORY
        } else if picture_wrong {
            WRONG_LENGTH
        } else {
            DONE
        }
    }

    // ----- reads, writes and looks -----

    /// A read. It alters the state only.
    pub fn read(&self, state: &mut State, memory: &[u8], picture: &[u32], lent: At) -> Answer {
        let at = self.cut(lent);
        let status = self.refusal(state, memory, picture, &at, Act::Read);
        let seen = if status != DONE {
            self.spoil_by_refusal(state, status);
            self.refused(status, &at, Act::Read)
        } else if self.is(Rule::ReadAnswersNext) {
            self.step(state, &at);
            self.seen(state, memory, &at, Act::Read)
        } else {
            let seen = self.seen(state, memory, &at, Act::Read);
            self.step(state, &at);
            seen
        };
        self.last_read.set(seen);
        Answer {
            status: seen.status,
            word: seen.word,
            known: seen.known,
            changed: 0,
        }
    }

    /// A write, which redraws what it changed.
    pub fn write(
        &self,
        state: &mut State,
        memory: &mut [u8],
        picture: &mut [u32],
        lent: At,
        word: u32,
    ) -> Answer {
        let at = self.cut(lent);
        let mut answer = Answer {
            status: self.refusal(state, memory, picture, &at, Act::Write),
            word: 0,
            known: 0,
            changed: 0,
        };
        if answer.status != DONE {
            self.spoil_by_refusal(state, answer.status);
            return answer;
        }
        let before = self.words(state, memory);
        self.put(state, memory, &at, word);
        let after = self.words(state, memory);
        answer.changed = self.redraw(state, &at, picture, &before, &after);
        if self.is(Rule::WriteAnswersWord) {
            answer.word = word;
        }
        if self.is(Rule::WriteAnswersKnown) {
            answer.known = lanes(at.enables);
        }
        if self.is(Rule::WriteAnswersRead) {
            let seen = self.look(state, memory, picture, at);
            (answer.word, answer.known) = (seen.word, seen.known);
        }
        answer
    }

    /// A look: what the read would answer now (02, C-12).
    pub fn look(&self, state: &State, memory: &[u8], picture: &[u32], lent: At) -> Seen {
        if self.is(Rule::LookAnswersLastRead) {
            return self.last_read.get();
        }
        let at = self.cut_look(self.cut(lent));
        let status = self.refusal(state, memory, picture, &at, Act::Look);
        if status != DONE {
            return self.refused(status, &at, Act::Look);
        }
        if at.is_register(PALETTE_DATA) && at.enables & 1 == 1 {
            self.looked.set(true);
        }
        if self.is(Rule::LookAnswersNext) {
            let mut later = state.clone();
            self.step(&mut later, &at);
            return self.seen(&later, memory, &at, Act::Look);
        }
        self.seen(state, memory, &at, Act::Look)
    }

    /// What breaks let a look alter. The look cannot, so whoever looks calls this
    /// after it; without a break it does nothing.
    pub fn spoil(&self, state: &mut State, memory: &[u8], picture: &mut [u32], at: At, seen: Seen) {
        if self.is(Rule::LookDropsAnyStage) {
            state.stage = Stage::Empty;
        }
        if seen.status != DONE {
            return;
        }
        let lane_zero = at.enables & 1 == 1;
        if at.is_register(PALETTE_DATA) {
            if self.is(Rule::LookAdvances) && lane_zero
                || self.is(Rule::LookAdvancesAnyLane) && !lane_zero
            {
                self.advance(state, false);
            }
            if self.is(Rule::LookDropsStage) && lane_zero {
                state.stage = Stage::Empty;
            }
            if self.is(Rule::LookIsRead) && lane_zero {
                self.step(state, &at);
            }
        }
        if at.is_register(INDEXED_DATA) && self.is(Rule::LookMovesAddress) {
            state.address = state.address.wrapping_add(1);
        }
        let address = at.is_register(PALETTE_WRITE_ADDRESS) || at.is_register(PALETTE_READ_ADDRESS);
        if address && self.is(Rule::LookAddressResets) {
            state.component = 0;
            state.stage = Stage::Empty;
        }
        if at.target == CONFIGURATION && at.offset == SUBSYSTEM && self.is(Rule::LookFixes) {
            state.vendor_fixed = true;
            state.id_fixed = true;
        }
        if self.is(Rule::LookRedraws) {
            picture.copy_from_slice(&self.words(state, memory));
        }
    }

    /// Where it goes, as some breaks have it.
    fn cut(&self, lent: At) -> At {
        let mut at = lent;
        if self.is(Rule::HighEnablesCut) {
            at.enables &= 15;
        }
        if self.is(Rule::HighTargetCut) {
            at.target &= 3;
        }
        if self.is(Rule::OffsetRounded) {
            at.offset &= !3;
        }
        at
    }

    /// The same for looks only.
    fn cut_look(&self, lent: At) -> At {
        let mut at = lent;
        if self.is(Rule::LookHighEnables) {
            at.enables &= 15;
        }
        if self.is(Rule::LookOffsetRounded) {
            at.offset &= !3;
        }
        at
    }

    /// What breaks let a refused read or write alter.
    fn spoil_by_refusal(&self, state: &mut State, status: u32) {
        if self.is(Rule::StageDroppedByRefusal) {
            state.stage = Stage::Empty;
        }
        if self.is(Rule::EntryMended) && status == NOT_A_STATE {
            for word in &mut state.palette {
                if !palette::fits(*word, &self.broken) {
                    *word = NEVER;
                }
            }
        }
    }

    /// The answer of a read or a look that is refused.
    fn refused(&self, status: u32, at: &At, act: Act) -> Seen {
        let mut known = 0;
        if self.is(Rule::RefusedAnswersKnown) || self.is(Rule::LookRefusedKnown) && act == Act::Look
        {
            known = lanes(at.enables);
        }
        Seen {
            status,
            word: 0,
            known,
        }
    }

    /// The answer of a read or a look that is done.
    fn seen(&self, state: &State, memory: &[u8], at: &At, act: Act) -> Seen {
        let shown = self.shown(state, memory, at, act);
        let (word, known) = self.answer(shown, at, act);
        Seen {
            status: DONE,
            word,
            known,
        }
    }

    /// What of a word a read shows.
    fn answer(&self, shown: Bits, at: &At, act: Act) -> (u32, u32) {
        let mut enabled = lanes(at.enables);
        let memory = at.is_memory();
        let look = act == Act::Look;
        if self.is(Rule::ReadIgnoresEnables) && !memory {
            enabled = lanes(15);
        }
        if self.is(Rule::MemoryReadAllLanes) && memory {
            enabled = lanes(15);
        }
        if self.is(Rule::LookAllLanes) && look {
            enabled = lanes(15);
        }
        if self.is(Rule::UnknownShownKnown) || self.is(Rule::LookUnknownKnown) && look {
            return (shown.value & enabled, enabled);
        }
        if self.is(Rule::DisabledLanesKnown) {
            return (shown.value & shown.known & enabled, shown.known | !enabled);
        }
        if self.is(Rule::DisabledLanesShown) {
            return (shown.value, shown.known & enabled);
        }
        (shown.value & shown.known & enabled, shown.known & enabled)
    }

    // ----- refusals -----

    /// The number of the first refusal that holds, or 0. A look is refused as
    /// the read; only breaks tell them apart.
    fn refusal(&self, state: &State, memory: &[u8], picture: &[u32], at: &At, act: Act) -> u32 {
        let wrong_length = self.wrong_length(state, memory, picture, act);
        if self.is(Rule::TwoBeforeOne) && wrong_length {
            return WRONG_LENGTH;
        }
        let unasked = self.is(Rule::LookAnyState) && act == Act::Look;
        if !state.rest_fits(&self.tables, &self.broken) && !unasked {
            return NOT_A_STATE;
        }
        let wrong_entry = !unasked && self.wrong_entry(state, memory, at, act);
        let later = self.is(Rule::EntryAfterTwo) || self.is(Rule::EntryAfterSeven);
        if wrong_entry && !later {
            return NOT_A_STATE;
        }
        if self.is(Rule::ThreeBeforeTwo) && (at.target > 3 || at.enables > 15) {
            return NO_TARGET;
        }
        if wrong_length {
            return WRONG_LENGTH;
        }
        if wrong_entry && self.is(Rule::EntryAfterTwo) {
            return NOT_A_STATE;
        }
        match self.refusal_from_three(state, at, act) {
            DONE if wrong_entry => NOT_A_STATE,
            status => status,
        }
    }

    /// Refusal 2.
    fn wrong_length(&self, state: &State, memory: &[u8], picture: &[u32], act: Act) -> bool {
        let dots = u64::from(state.width) * u64::from(state.height);
        let memory_wrong = memory.len() as u64 != u64::from(state.memory_bytes);
        if self.is(Rule::ReadAnyLength) && act == Act::Read
            || self.is(Rule::LookAnyLength) && act == Act::Look
        {
            return memory_wrong;
        }
        let picture_wrong = picture.len() as u64 != dots;
        if self.is(Rule::LengthIgnored) {
            return (picture_wrong || memory_wrong) && (picture.len() as u64) < dots;
        }
        picture_wrong || memory_wrong
    }

    /// What refusal 1 says of the palette. Only breaks ask what the access is.
    fn wrong_entry(&self, state: &State, memory: &[u8], at: &At, act: Act) -> bool {
        if self.is(Rule::EntryUnasked)
            || self.is(Rule::EntryUnlooked) && act == Act::Look
            || self.is(Rule::EntryWritesOnly) && act != Act::Write
            || self.is(Rule::EntryDataOnly) && !at.is_register(PALETTE_DATA)
        {
            return false;
        }
        if self.is(Rule::EntryShownOnly) {
            let mut shown = memory.iter().map(|byte| state.palette[usize::from(*byte)]);
            return shown.any(|word| !palette::fits(word, &self.broken));
        }
        !state.palette_fits(&self.broken)
    }

    /// Refusals 3 to 7.
    fn refusal_from_three(&self, state: &State, at: &At, act: Act) -> u32 {
        let no_target = at.target > 3 || at.enables > 15;
        let mut not_aligned = at.offset % 4 != 0;
        if self.is(Rule::OffsetEven) {
            not_aligned = at.offset % 2 != 0;
        }
        let four_first = self.is(Rule::FourBeforeThree)
            || self.is(Rule::LookFourBeforeThree) && act == Act::Look;
        if four_first && not_aligned {
            return NOT_ALIGNED;
        }
        if self.is(Rule::FiveBeforeThree) && at.target <= 3 {
            let status = self.refusal_there(state, at, act);
            if status == NOTHING_HERE && !not_aligned {
                return NOTHING_HERE;
            }
        }
        if no_target {
            return NO_TARGET;
        }
        if self.is(Rule::FiveBeforeFour) && self.refusal_there(state, at, act) == NOTHING_HERE {
            return NOTHING_HERE;
        }
        if self.is(Rule::SevenBeforeFour)
            && at.is_memory()
            && self.order(state, at.target) == Order::NotServed
        {
            return NOT_SERVED;
        }
        if not_aligned {
            return NOT_ALIGNED;
        }
        self.refusal_there(state, at, act)
    }

    /// Refusals 5, 6 and 7, which depend on the target.
    fn refusal_there(&self, state: &State, at: &At, act: Act) -> u32 {
        match at.target {
            REGION_ZERO => self.region0_refusal(state, at, act),
            CONFIGURATION => self.header_refusal(at, act),
            _ => self.aperture_refusal(state, at, act),
        }
    }

    fn region0_refusal(&self, state: &State, at: &At, act: Act) -> u32 {
        let Some(row) = self.row(at.offset) else {
            if self.is(Rule::NoLanesAbsent) && at.enables == 0 {
                return DONE;
            }
            return NOTHING_HERE;
        };
        let register = &self.tables.region0[row];
        let look = act == Act::Look;
        let writes = self.refused_as_write(act);
        let lane_zero = at.enables & 1 == 1;
        let mut address_unknown = state.address_known != 0xff;
        if self.is(Rule::UnknownAddressServed) || self.is(Rule::LookUnknownAddress) && look {
            address_unknown = false;
        }
        if self.is(Rule::UnknownAddressNeedsLane) && !lane_zero {
            address_unknown = false;
        }
        if register.kind == Kind::PaletteData && address_unknown {
            return NOTHING_HERE;
        }
        if register.kind == Kind::PaletteData && look && self.is(Rule::LookPaletteRefused) {
            return NO_DIRECTION;
        }
        if register.kind == Kind::IndexedData {
            if self.is(Rule::MissedLaneNoRefusal) && !lane_zero {
                return DONE;
            }
            if address_unknown && !self.is(Rule::UnknownAddressPaletteOnly) {
                return NOTHING_HERE;
            }
            let indirect = &self.tables.indirect[self.index(state)];
            if !indirect.exists && self.is(Rule::AbsentIndexIsSix) {
                return NO_DIRECTION;
            }
            let absent_served =
                self.is(Rule::AbsentIndexServed) || self.is(Rule::LookAbsentIndex) && look;
            if !indirect.exists && !absent_served {
                return NOTHING_HERE;
            }
            let write_only_read =
                self.is(Rule::WriteOnlyRead) || self.is(Rule::LookWriteOnly) && look;
            if indirect.exists && !writes && !indirect.reads && !write_only_read {
                return NO_DIRECTION;
            }
            let status_register = indirect.exists && indirect.writable == 0;
            if status_register && writes && self.is(Rule::ClockStatusWriteRefused) {
                return NO_DIRECTION;
            }
        }
        if self.is(Rule::RebootReadRefused) && register.name == "Reboot" && !writes {
            return NO_DIRECTION;
        }
        if self.is(Rule::CompleteWriteRefused) && register.name == "ByDMAComplete" && writes {
            return NO_DIRECTION;
        }
        let mut has_direction = if writes {
            register.writes
        } else {
            register.reads
        };
        if self.is(Rule::LookReadOnlyRefused) && look {
            has_direction &= register.writes;
        }
        if has_direction || self.is(Rule::NoLanesReadOnly) && at.enables == 0 {
            DONE
        } else if self.is(Rule::MissingDirectionIsFive) {
            NOTHING_HERE
        } else {
            NO_DIRECTION
        }
    }

    /// Whether the direction asked for is that of a write.
    fn refused_as_write(&self, act: Act) -> bool {
        match act {
            Act::Read => self.is(Rule::ReadRefusedAsWrite),
            Act::Write => !self.is(Rule::WriteRefusedAsRead),
            Act::Look => false,
        }
    }

    fn header_refusal(&self, at: &At, act: Act) -> u32 {
        if at.offset > 0xfc && !self.is(Rule::HeaderWraps) {
            return NOTHING_HERE;
        }
        let offset = at.offset & 0xfc;
        let word = &self.tables.header[offset as usize / 4];
        let fixed = word.writable | word.cleared == 0 && offset != SUBSYSTEM;
        let absent_refused = self.is(Rule::HeaderAbsentRefused)
            || self.is(Rule::LookBlankRefused) && act == Act::Look;
        if absent_refused && fixed && word.reset == Bits::known(0) {
            return NOTHING_HERE;
        }
        if self.is(Rule::HeaderReadOnlyRefused) && fixed && act == Act::Write {
            return NO_DIRECTION;
        }
        DONE
    }

    fn aperture_refusal(&self, state: &State, at: &At, act: Act) -> u32 {
        let fitted = u64::from(state.memory_bytes);
        let mut beyond = u64::from(at.offset) + 4 > fitted;
        if self.is(Rule::ApertureWraps) {
            beyond = false;
        }
        if self.is(Rule::ApertureEndWraps) {
            beyond = u64::from(at.offset.wrapping_add(4)) > fitted;
        }
        if self.is(Rule::ApertureOneMore) {
            beyond = u64::from(at.offset) > fitted;
        }
        if self.is(Rule::ApertureOneLess) {
            beyond = u64::from(at.offset) + 4 >= fitted;
        }
        if self.is(Rule::NoLanesBeyondMemory) && at.enables == 0 {
            beyond = false;
        }
        if self.is(Rule::MemoryEnableGates) && state.header[1].value & 2 == 0 {
            beyond = true;
        }
        let mut not_served = self.order(state, at.target) == Order::NotServed;
        if self.is(Rule::NoLanesAnyMode) && at.enables == 0 {
            not_served = false;
        }
        if act == Act::Look {
            let code = self.aperture_control(state, at.target) & 3;
            if self.is(Rule::LookAnyMode) || self.is(Rule::LookCodeThree) && code == 3 {
                not_served = false;
            }
        }
        let seven_first = self.is(Rule::SevenBeforeFive)
            || self.is(Rule::LookSevenBeforeFive) && act == Act::Look;
        if seven_first && not_served {
            return NOT_SERVED;
        }
        if beyond {
            NOTHING_HERE
        } else if not_served {
            NOT_SERVED
        } else {
            DONE
        }
    }

    // ----- reads, writes and looks that are not refused -----

    /// What a read shows, before lanes are left out.
    fn shown(&self, state: &State, memory: &[u8], at: &At, act: Act) -> Bits {
        match at.target {
            REGION_ZERO => self.region0_shown(state, at, act),
            CONFIGURATION => self.header_shown(state, at.offset),
            _ => self.aperture_shown(state, memory, at, act),
        }
    }

    /// What a read alters. That is something at palette data only; all else here
    /// is breaks.
    fn step(&self, state: &mut State, at: &At) {
        if at.target != REGION_ZERO {
            return;
        }
        let Some(row) = self.row(at.offset) else {
            return;
        };
        let lane_zero = at.enables & 1 == 1;
        match self.tables.region0[row].kind {
            Kind::PaletteData if lane_zero || self.is(Rule::PaletteReadAnyLane) => {
                self.palette_step(state);
            }
            Kind::PaletteData if self.is(Rule::PaletteReadAnyLaneDrops) => {
                state.stage = Stage::Empty;
            }
            Kind::PaletteAddress if self.is(Rule::AddressReadResets) => {
                state.component = 0;
                state.stage = Stage::Empty;
            }
            Kind::Stored if self.is(Rule::StageDroppedByOthers) => state.stage = Stage::Empty,
            Kind::IndexedData if lane_zero && self.is(Rule::IndexedDropsStage) => {
                state.stage = Stage::Empty;
            }
            Kind::IndexedData if lane_zero && self.is(Rule::IndexedReadAdvances) => {
                self.advance(state, false);
            }
            _ => {}
        }
    }

    /// What a write stores.
    fn put(&self, state: &mut State, memory: &mut [u8], at: &At, word: u32) {
        match at.target {
            REGION_ZERO => self.region0_write(state, at, word),
            CONFIGURATION => self.header_write(state, at, word),
            _ => self.aperture_write(state, memory, at, word),
        }
        if self.is(Rule::StageDroppedByMemory) && at.is_memory() {
            state.stage = Stage::Empty;
        }
    }

    // ----- region 0 -----

    /// The row of the register at an offset.
    fn row(&self, offset: u32) -> Option<usize> {
        let mut offset = offset;
        if self.is(Rule::RegionTwice) && offset < 0x20000 {
            offset &= 0xffff;
        }
        if self.is(Rule::RegionHighBits) {
            offset &= 0xffff;
        }
        if self.is(Rule::OffsetBitTwo) {
            offset &= !4;
        }
        self.tables.find(offset)
    }

    /// The word held by the stored register at an offset.
    pub fn held(&self, state: &State, offset: u32) -> Bits {
        match self.tables.find(offset) {
            Some(row) => state.region0[row],
            None => Bits::known(0),
        }
    }

    fn region0_shown(&self, state: &State, at: &At, act: Act) -> Bits {
        let Some(row) = self.row(at.offset) else {
            return Bits::unknown();
        };
        let register = &self.tables.region0[row];
        let lane_zero = at.enables & 1 == 1;
        let mut shown = match register.kind {
            Kind::Stored if self.is(Rule::LookShowsReset) && act == Act::Look => register.reset,
            Kind::Stored => state.region0[row],
            Kind::PaletteAddress => self.address_shown(state, register.name),
            Kind::PaletteData if lane_zero => self.palette_shown(state, act),
            Kind::PaletteData => Bits::unknown(),
            Kind::IndexedData if lane_zero => self.indexed_shown(state),
            Kind::IndexedData => Bits::unknown(),
        };
        if self.is(Rule::DirectHighKnown) && register.offset >= 0x4000 {
            shown.known |= 0xffff_ff00;
        }
        shown
    }

    fn region0_write(&self, state: &mut State, at: &At, word: u32) {
        let Some(row) = self.row(at.offset) else {
            return;
        };
        let register = &self.tables.region0[row];
        let lane_zero = at.enables & 1 == 1;
        let byte = byte_of(word, 0);
        if self.is(Rule::StageDroppedByOthers) && register.kind == Kind::Stored {
            state.stage = Stage::Empty;
        }
        match register.kind {
            Kind::Stored => self.stored_write(&mut state.region0[row], register.writable, at, word),
            Kind::PaletteAddress => {
                if lane_zero || self.is(Rule::AddressAnyLane) {
                    self.address_write(state, byte, register.name);
                } else if self.is(Rule::AddressAnyLaneResets) {
                    state.component = 0;
                    state.stage = Stage::Empty;
                }
            }
            Kind::PaletteData => {
                if lane_zero || self.is(Rule::PaletteWriteAnyLane) {
                    self.palette_write(state, byte);
                } else if self.is(Rule::PaletteWriteAnyLaneDrops) {
                    state.stage = Stage::Empty;
                }
            }
            Kind::IndexedData => {
                if lane_zero || self.is(Rule::IndexedWriteAnyLane) {
                    self.indexed_write(state, byte);
                }
            }
        }
    }

    /// Changes the writable bits in enabled lanes; those become known.
    fn stored_write(&self, held: &mut Bits, writable: u32, at: &At, written: u32) {
        let mut enabled = lanes(at.enables);
        let mut word = written;
        if self.is(Rule::WriteIgnoresEnables)
            || self.is(Rule::WriteOneEnableIsAll) && at.enables != 0
        {
            enabled = lanes(15);
        }
        if self.is(Rule::WriteLanesReversed) {
            enabled = enabled.swap_bytes();
        }
        if self.is(Rule::WriteLowLaneOnly) {
            enabled &= lane(0);
        }
        if self.is(Rule::WriteFromLaneZero) {
            word = u32::from(byte_of(word, 0)) * 0x0101_0101;
        }
        if self.is(Rule::WriteOrs) {
            word |= held.value;
        }
        let taken = writable & enabled;
        let was_known = held.known;
        held.value = held.value & !taken | word & taken;
        if self.is(Rule::WrittenStaysUnknown) {
            held.value &= held.known;
            return;
        }
        held.known |= taken;
        if self.is(Rule::WriteKnowsReserved) {
            held.known |= enabled;
        }
        if self.is(Rule::WriteKnowsAllLanes) && at.enables != 0 {
            held.known |= writable;
        }
        if self.is(Rule::WriteOnlyKnowsOnes) {
            held.known = was_known | taken & word;
        }
    }

    // ----- the RAMDAC's address -----

    fn address_shown(&self, state: &State, name: &str) -> Bits {
        let mut shown = Bits::new(u32::from(state.address), u32::from(state.address_known));
        if self.is(Rule::AddressReadKnown) {
            shown.known = 0xff;
        }
        if self.is(Rule::AddressReadNextEntry) && name == "RDPaletteReadAddress" {
            shown.value = (shown.value + 1) & shown.known;
        }
        shown
    }

    fn address_write(&self, state: &mut State, byte: u8, name: &str) {
        let by_read_address = name == "RDPaletteReadAddress";
        if self.is(Rule::ReadAddressIgnored) && by_read_address {
            return;
        }
        let same = state.address == byte && state.address_known == 0xff;
        if self.is(Rule::SameAddressKeepsPlace) && same {
            return;
        }
        state.address = byte;
        state.address_known = 0xff;
        if self.is(Rule::WriteAddressKeepsPlace) && !by_read_address
            || self.is(Rule::ReadAddressKeepsPlace) && by_read_address
        {
            return;
        }
        state.component = 0;
        state.stage = Stage::Empty;
    }

    /// Goes on to the next component, and after the third to the next entry.
    fn advance(&self, state: &mut State, writing: bool) {
        if self.is(Rule::ReadKeepsComponent) && !writing {
            return;
        }
        if state.component < 2 {
            state.component += 1;
            return;
        }
        state.component = 0;
        if self.is(Rule::WriteNeverAdvances) && writing
            || self.is(Rule::ReadNeverAdvances) && !writing
        {
            return;
        }
        if state.address == 255 {
            if self.is(Rule::WrapStays) {
                return;
            }
            if self.is(Rule::WrapLoses) {
                state.address_known = 0;
            }
        }
        state.address = state.address.wrapping_add(1);
    }

    // ----- the palette -----

    fn eight_bits(&self, state: &State) -> bool {
        let control = state.indirect[MISC_CONTROL].value;
        if self.is(Rule::WidthBitZero) {
            return control & 1 != 0;
        }
        (control & 2 != 0) != self.is(Rule::WidthInverted)
    }

    /// The byte to store for a byte written.
    fn widened(&self, state: &State, byte: u8) -> u8 {
        if self.eight_bits(state) || self.is(Rule::WidthIgnoredWrite) {
            byte
        } else {
            self.six_stored(byte)
        }
    }

    /// The byte to store for a byte written in six-bit width: 4w + w div 16,
    /// where w is the byte modulo 64 (02, C-13).
    fn six_stored(&self, byte: u8) -> u8 {
        let six = byte % 64;
        if self.is(Rule::SixBitNoShift) {
            six
        } else if self.is(Rule::SixBitFourTimes)
            || self.is(Rule::SixBitFilledAtThird)
            || self.is(Rule::SixBitPictureOnly)
        {
            4 * six
        } else if self.is(Rule::SixBitWholeByte) {
            (4 * six).wrapping_add(byte / 16)
        } else if self.is(Rule::SixBitWhiteOnly) {
            if six == 63 {
                255
            } else {
                4 * six
            }
        } else if self.is(Rule::SixBitLowOnes) {
            4 * six + 3
        } else if self.is(Rule::SixBitLowRepeats) {
            4 * six + six % 4
        } else if self.is(Rule::SixBitScaled) {
            ((255 * u32::from(six) + 31) / 63) as u8
        } else {
            4 * six + six / 16
        }
    }

    /// The byte to show for a byte stored. In six-bit width that is w for what
    /// was stored so; 02, C-13 leaves the rule for reads as 01 has it.
    fn narrowed(&self, state: &State, byte: u8) -> u8 {
        if self.eight_bits(state) || self.is(Rule::WidthIgnoredRead) {
            byte
        } else if self.is(Rule::SixBitReadMod) {
            byte % 64
        } else if self.is(Rule::SixBitReadRounds) {
            (byte / 4 + u8::from(byte % 4 != 0)) % 64
        } else if self.is(Rule::SixBitReadScaled) {
            ((63 * u32::from(byte) + 127) / 255) as u8
        } else if self.is(Rule::SixBitReadSixOnly) && byte % 4 != byte / 64 {
            byte
        } else {
            byte / 4
        }
    }

    /// The entry that palette data reaches.
    fn entry_number(&self, state: &State) -> usize {
        if self.is(Rule::EntryByMask) {
            let mask = self.held(state, 0x4010).value as u8;
            return usize::from(state.address & mask);
        }
        usize::from(state.address)
    }

    /// The word of an entry.
    pub fn entry_word(&self, state: &State, number: usize) -> u32 {
        palette::meant(state.palette[number], &self.broken)
    }

    fn keep_entry(&self, state: &mut State, number: usize, word: u32) {
        state.palette[number] = palette::kept(word, &self.broken);
    }

    /// The component that is next.
    fn palette_shown(&self, state: &State, act: Act) -> Bits {
        let look = act == Act::Look;
        let entry = self.entry_word(state, self.entry_number(state));
        let six = !self.eight_bits(state);
        if self.counts_as_stored(entry) {
            let taken = self.byte_taken(entry, self.component_shown(state, act), six);
            let whole = !six || self.is(Rule::LookEightBits) && look;
            let byte = if whole {
                taken
            } else {
                self.narrowed(state, taken)
            };
            if self.is(Rule::ReadZeroUnknown) && taken == 0 {
                return Bits::unknown();
            }
            let six_only = self.is(Rule::SixBitTopUnknown) && six;
            Bits::new(u32::from(byte), if six_only { 0x3f } else { 0xff })
        } else if self.is(Rule::NeverStoredReadsZero) || self.is(Rule::LookNeverStored) && look {
            Bits::new(0, 0xff)
        } else if self.is(Rule::NeverStoredSixBits) && six {
            Bits::new(0, 0xc0)
        } else {
            Bits::unknown()
        }
    }

    /// The number of the component that palette data shows.
    fn component_shown(&self, state: &State, act: Act) -> usize {
        let look = act == Act::Look;
        let mut component = usize::from(state.component);
        if self.is(Rule::LookRedOnly) && look {
            component = 0;
        }
        if self.is(Rule::LookBefore) && look {
            component = (component + 2) % 3;
        }
        if self.is(Rule::ComponentsReversed) {
            component = 2 - component;
        }
        component
    }

    /// The byte of a stored entry's word for a component.
    fn byte_taken(&self, entry: u32, component: usize, six: bool) -> u8 {
        if self.is(Rule::ReadByteAbove) {
            return byte_of(entry, 3 - component as u32);
        }
        if self.is(Rule::SixBitNextByte) && six {
            return palette::component(entry, (component + 1) % 3);
        }
        palette::component(entry, component)
    }

    /// What a palette data read alters.
    fn palette_step(&self, state: &mut State) {
        if self.is(Rule::UnknownAddressServed) {
            state.address_known = 0xff;
        }
        if self.is(Rule::ReadIsLook) || self.is(Rule::LookStandsForRead) && self.looked.take() {
            return;
        }
        if !self.is(Rule::ReadKeepsStage) {
            state.stage = Stage::Empty;
        }
        self.advance(state, false);
    }

    /// Stages one component; the third of three staged in order stores all.
    fn palette_write(&self, state: &mut State, byte: u8) {
        if self.is(Rule::UnknownAddressServed) {
            state.address_known = 0xff;
        }
        let staged = self.staged(state, byte);
        if self.is(Rule::ShowsAtOnce) {
            self.put_component(state, staged, FLAG);
            self.advance(state, true);
            return;
        }
        if self.is(Rule::StorePieces) {
            self.put_component(state, staged, 0);
        }
        if self.is(Rule::StoreBegins) && state.component == 0 {
            self.keep_entry(state, self.entry_number(state), NEVER);
        }
        let stored = self.stage_next(state, staged);
        if self.is(Rule::UnstoredNoAdvance) && state.component == 2 && stored.is_none() {
            state.component = 0;
            return;
        }
        if self.is(Rule::AdvanceBeforeStore) {
            self.advance(state, true);
        }
        if let Some(components) = stored {
            self.store(state, components);
        }
        if !self.is(Rule::AdvanceBeforeStore) {
            self.advance(state, true);
        }
    }

    /// The byte to stage for a byte written.
    fn staged(&self, state: &State, byte: u8) -> u8 {
        if self.is(Rule::WidthAtThird) {
            return byte;
        }
        if self.is(Rule::WidthAtFirst) {
            if state.component == 0 {
                self.first_was_eight.set(self.eight_bits(state));
            } else if self.first_was_eight.get() {
                return byte;
            } else {
                return self.six_stored(byte);
            }
        }
        self.widened(state, byte)
    }

    /// Breaks put one component into the entry's word, and a flag.
    fn put_component(&self, state: &mut State, byte: u8, flag: u32) {
        let number = self.entry_number(state);
        let entry = self.entry_word(state, number);
        let mut components = palette::components(entry);
        components[usize::from(state.component)] = byte;
        let word = palette::recoloured(entry, components) | flag;
        self.keep_entry(state, number, word);
    }

    /// Puts a component into the stage. Gives the three that are to be stored.
    fn stage_next(&self, state: &mut State, staged: u8) -> Option<[u8; 3]> {
        let mut stored = None;
        state.stage = match (state.component, state.stage) {
            (0, _) => Stage::Red(staged),
            (1, Stage::Red(red)) => {
                if self.is(Rule::ShowsAfterSecond) {
                    stored = Some([red, staged, 0]);
                }
                Stage::RedGreen(red, staged)
            }
            (1, _) if self.is(Rule::GreenWithoutRed) => Stage::RedGreen(0, staged),
            (2, Stage::RedGreen(red, green)) => {
                stored = Some([red, green, staged]);
                Stage::Empty
            }
            (2, other) if self.is(Rule::MixedOrderStores) => {
                let entry = self.entry_word(state, self.entry_number(state));
                let [old_red, green, _] = palette::components(entry);
                let red = if let Stage::Red(red) = other {
                    red
                } else {
                    old_red
                };
                stored = Some([red, green, staged]);
                Stage::Empty
            }
            _ => Stage::Empty,
        };
        stored
    }

    /// Stores three components as the entry's word.
    fn store(&self, state: &mut State, components: [u8; 3]) {
        let mut components = components;
        if self.is(Rule::WidthAtThird) {
            components = components.map(|c| self.widened(state, c));
        }
        if self.is(Rule::SixBitFilledAtThird) && !self.eight_bits(state) {
            components = components.map(|c| c / 4 * 4 + c / 64);
        }
        if self.is(Rule::ComponentsReversed) {
            components.reverse();
        }
        let number = self.entry_number(state);
        let old = self.entry_word(state, number);
        let word = self.left_by_store(number, old, palette::entry(components));
        self.keep_entry(state, number, word);
    }

    /// The word that a store leaves: the new one, whatever the old one was.
    fn left_by_store(&self, number: usize, old: u32, new: u32) -> u32 {
        let was_stored = palette::is_stored(old);
        let Break::Rule(rule) = self.broken else {
            return new;
        };
        match rule {
            Rule::StoreBlackZero if new == FLAG => NEVER,
            Rule::StoreBlackSkipped if new == FLAG => old,
            Rule::StoreWhiteBare if new == FLAG | COLOURS => COLOURS,
            Rule::StoreToggles if was_stored => new ^ FLAG,
            Rule::StoreOrs => old | new,
            Rule::StoreKeepsRed => new & 0xff00_ffff | old & 0x00ff_0000,
            Rule::StoreNoGreen => new & 0xffff_00ff,
            Rule::StoreOnce if was_stored => old,
            Rule::StoreLastLost if number == 255 => old,
            _ => new,
        }
    }

    /// Whether an entry counts as stored.
    pub fn counts_as_stored(&self, entry: u32) -> bool {
        if self.is(Rule::BlackNeverStored) && entry & COLOURS == 0 {
            return false;
        }
        palette::is_stored(entry) || self.is(Rule::NeverStoredBlack)
    }

    // ----- indexed data -----

    fn index(&self, state: &State) -> usize {
        let index = usize::from(state.address);
        if self.is(Rule::IndexSevenBits) {
            return index % 128;
        }
        index
    }

    fn indexed_shown(&self, state: &State) -> Bits {
        let index = self.index(state);
        let indirect = &self.tables.indirect[index];
        let mut shown = state.indirect[index];
        if indirect.exists && indirect.writable == 0 {
            if self.is(Rule::ClockStatusKnown) {
                shown.known = 0xff;
            }
            if self.is(Rule::ClockStatusLockOnly) {
                shown.known = 0xef;
            }
        }
        if !indirect.exists {
            shown.known = 0xff;
        }
        if self.is(Rule::IndexedHighKnown) {
            shown.known |= 0xffff_ff00;
        }
        shown
    }

    fn indexed_write(&self, state: &mut State, byte: u8) {
        let index = self.index(state);
        let was_eight = self.eight_bits(state);
        let writable = self.tables.indirect[index].writable;
        let held = &mut state.indirect[index];
        held.value = held.value & !writable | u32::from(byte) & writable;
        held.known |= writable;
        if self.is(Rule::WidthChangeAlters) && was_eight && !self.eight_bits(state) {
            for word in &mut state.palette {
                let cut = palette::components(*word).map(|c| self.six_stored(c / 4));
                *word = palette::recoloured(*word, cut);
            }
        }
        if self.is(Rule::IndexedDropsStage) {
            state.stage = Stage::Empty;
        }
        if self.is(Rule::IndexedWriteAdvances) {
            self.advance(state, true);
        }
    }

    // ----- the configuration header -----

    fn header_shown(&self, state: &State, offset: u32) -> Bits {
        let place = (offset & 0xfc) as usize / 4;
        if self.is(Rule::IndirectDataWindow) && place == 0xfc / 4 {
            let named = state.header[0xf8 / 4].value;
            if let (0, Some(row)) = (named >> 29, self.tables.find(named & 0x7f_ffff)) {
                return state.region0[row];
            }
        }
        state.header[place]
    }

    fn header_write(&self, state: &mut State, at: &At, word: u32) {
        let place = (at.offset & 0xfc) as usize / 4;
        let row = &self.tables.header[place];
        let mut enabled = lanes(at.enables);
        if self.is(Rule::HeaderIgnoresEnables) {
            enabled = lanes(15);
        }
        let mut taken = row.writable & enabled;
        let mut cleared = row.cleared & enabled & word;
        if self.is(Rule::StatusWritable) {
            taken |= row.cleared & enabled;
            cleared = 0;
        }
        if self.is(Rule::StatusClearsAll) && row.cleared != 0 {
            cleared |= 0xffff_0000 & enabled & word;
        }
        let held = &mut state.header[place];
        held.value = held.value & !taken | word & taken;
        held.known |= taken;
        if self.is(Rule::StatusSetByOne) {
            held.value |= cleared;
        } else {
            held.value &= !cleared;
        }
        if place as u32 == SUBSYSTEM / 4 {
            self.subsystem_write(state, at, word);
        }
    }

    /// Each half takes the first write that has both of its lanes.
    fn subsystem_write(&self, state: &mut State, at: &At, word: u32) {
        if self.is(Rule::OnceReadOnly) {
            return;
        }
        let vendor = (0x0000_ffff, 0b0011);
        let id = (0xffff_0000, 0b1100);
        let (vendor_was, id_was) = (state.vendor_fixed, state.id_fixed);
        if self.fixes(state, vendor, vendor_was, at, word) {
            state.vendor_fixed = true;
        }
        if self.fixes(state, id, id_was, at, word) {
            state.id_fixed = true;
        }
        if self.is(Rule::OnceTogether) && (state.vendor_fixed || state.id_fixed) {
            state.vendor_fixed = true;
            state.id_fixed = true;
        }
    }

    /// Stores one half of the subsystem word, and says whether it is now fixed.
    fn fixes(
        &self,
        state: &mut State,
        half: (u32, u32),
        was_fixed: bool,
        at: &At,
        word: u32,
    ) -> bool {
        let (bits, both) = half;
        let held = &mut state.header[SUBSYSTEM as usize / 4];
        let was = held.value;
        let mut enables = at.enables;
        if self.is(Rule::OnceHalvesSwapped) {
            enables = enables >> 2 | (enables & 3) << 2;
        }
        let passes = self.is(Rule::OnceTwice) && at.enables == 15;
        if was_fixed && !passes {
            return true;
        }
        let whole = enables & both == both;
        let partly = enables & both != 0;
        if whole || partly && (self.is(Rule::OnceByOneLane) || self.is(Rule::OneLaneStores)) {
            let taken = bits & if whole { bits } else { lanes(enables) };
            held.value = held.value & !taken | word & taken;
        }
        if self.is(Rule::OnceNever) {
            return false;
        }
        if self.is(Rule::OnceNeedsFour) && at.enables != 15 {
            held.value = was;
            return false;
        }
        if self.is(Rule::OnceSameValue) && held.value & bits == was & bits {
            return false;
        }
        whole || partly && self.is(Rule::OnceByOneLane)
    }

    // ----- the apertures -----

    /// The word of the register that controls an aperture.
    fn aperture_control(&self, state: &State, target: u32) -> u32 {
        let mut offset = if target == APERTURE_ONE {
            APERTURE_ONE_CONTROL
        } else {
            APERTURE_TWO_CONTROL
        };
        if self.is(Rule::OneByTwo) {
            offset = APERTURE_TWO_CONTROL;
        }
        if self.is(Rule::TwoByOne) {
            offset = APERTURE_ONE_CONTROL;
        }
        self.held(state, offset).value
    }

    /// How an aperture arranges bytes, by its control register.
    pub fn order(&self, state: &State, target: u32) -> Order {
        let control = self.aperture_control(state, target);
        let packed = control & 1 << 3 != 0 && !self.is(Rule::PackedServed);
        let svga = control & 1 << 8 != 0 && !self.is(Rule::SvgaServed);
        let rom = control & 1 << 9 != 0 && !self.is(Rule::RomServed);
        let details = control & 0xf0 != 0 && self.is(Rule::PackedDetailsRefused);
        if packed || svga || rom || details {
            return Order::NotServed;
        }
        let others = control & !3 != 0 && self.is(Rule::SwapCodeAlone);
        match control & 3 {
            0 => Order::Standard,
            1 | 2 if others => Order::Standard,
            1 if self.is(Rule::SwapCodesExchanged) => Order::HalfSwapped,
            2 if self.is(Rule::SwapCodesExchanged) => Order::ByteSwapped,
            1 => Order::ByteSwapped,
            2 => Order::HalfSwapped,
            _ if self.is(Rule::SwapThreeServed) => Order::Standard,
            _ if self.is(Rule::SwapThreeBoth) => Order::ByteSwapped,
            _ => Order::NotServed,
        }
    }

    /// How the bytes of an access are arranged. Only breaks tell the three acts
    /// apart here or go by the other aperture; not served there, it is standard
    /// here.
    fn order_of(&self, state: &State, at: &At, act: Act) -> Order {
        let target = match at.target {
            APERTURE_ONE if self.is(Rule::OneLanesByTwo) => APERTURE_TWO,
            APERTURE_TWO if self.is(Rule::TwoLanesByOne) => APERTURE_ONE,
            own => own,
        };
        if self.is(Rule::LookPlain) && act == Act::Look {
            return Order::Standard;
        }
        match (self.order(state, target), act == Act::Write) {
            (_, false) if self.is(Rule::SwapReadPlain) => Order::Standard,
            (_, true) if self.is(Rule::SwapWritePlain) => Order::Standard,
            (Order::HalfSwapped, false) if self.is(Rule::HalfSwapReadByte) => Order::ByteSwapped,
            (Order::ByteSwapped, true) if self.is(Rule::ByteSwapWriteHalf) => Order::HalfSwapped,
            (order, _) => order,
        }
    }

    /// The lane that byte `number` of the four exchanges with, by 01's rule.
    pub fn lane_for(&self, order: Order, number: u32) -> u32 {
        match order {
            Order::ByteSwapped if self.is(Rule::ByteSwapRotates) => (number + 1) % 4,
            Order::ByteSwapped if self.is(Rule::ByteSwapOuter) && number % 3 != 0 => number,
            Order::ByteSwapped => 3 - number,
            Order::HalfSwapped if self.is(Rule::HalfSwapPairs) => number ^ 1,
            Order::HalfSwapped if self.is(Rule::HalfSwapRotates) => (number + 1) % 4,
            Order::HalfSwapped if self.is(Rule::HalfSwapNoModulo) => number + 2,
            Order::HalfSwapped => (number + 2) % 4,
            Order::Standard | Order::NotServed => number,
        }
    }

    /// The same for an access; reads and writes both ask here. Only breaks look at
    /// more than the order. One break of `lane_for` gives lanes above 3: they move
    /// nothing.
    fn lane_in(&self, order: Order, at: &At, act: Act, number: u32) -> u32 {
        let swapped = order != Order::Standard;
        if self.is(Rule::LaneByWord) || self.is(Rule::SwapLaneByWord) && swapped {
            return self.lane_for(order, (at.offset / 4 + number) % 4);
        }
        if self.is(Rule::HalfSwapTurnsOn) && order == Order::HalfSwapped {
            let by = if act == Act::Write { 1 } else { 3 };
            return (number + by) % 4;
        }
        self.lane_for(order, number)
    }

    /// The place in memory of byte `number` of an aperture word.
    fn place(&self, memory: &[u8], offset: u32, number: u32) -> Option<usize> {
        let place = (u64::from(offset) + u64::from(number)) as usize;
        if self.is(Rule::ApertureWraps) {
            return Some(place % memory.len());
        }
        if place < memory.len() {
            Some(place)
        } else {
            None
        }
    }

    fn aperture_shown(&self, state: &State, memory: &[u8], at: &At, act: Act) -> Bits {
        let order = self.order_of(state, at, act);
        let same_lane = self.is(Rule::ByteSwapReadEnable) && order == Order::ByteSwapped
            || self.is(Rule::HalfSwapReadEnable) && order == Order::HalfSwapped;
        let mut shown = Bits::known(0);
        for number in 0..4 {
            let to = self.lane_in(order, at, act, number);
            let byte = match self.place(memory, at.offset, number) {
                Some(place) => memory[place],
                None => 0,
            };
            if to > 3 || same_lane && at.enables >> number & 1 == 0 {
                continue;
            }
            shown.value |= u32::from(byte) << (8 * to);
        }
        if self.is(Rule::SwapReadPacked) && order != Order::Standard {
            shown.value = packed(shown.value, at.enables);
        }
        if self.is(Rule::MemoryUnknown) {
            shown.known = shown.value;
        }
        shown
    }

    fn aperture_write(&self, state: &State, memory: &mut [u8], at: &At, word: u32) {
        let order = self.order_of(state, at, Act::Write);
        let same_lane = self.is(Rule::ByteSwapEnable) && order == Order::ByteSwapped
            || self.is(Rule::HalfSwapEnable) && order == Order::HalfSwapped;
        let clears = self.is(Rule::SwapWriteClears) && order != Order::Standard;
        let mask = self.held(state, BYPASS_WRITE_MASK);
        for number in 0..4 {
            let from = self.lane_in(order, at, Act::Write, number);
            let deciding = if same_lane { number } else { from };
            let enabled = at.enables >> deciding & 1 == 1 || self.is(Rule::MemoryWriteAllLanes);
            let Some(place) = self.place(memory, at.offset, number) else {
                continue;
            };
            if !enabled {
                if clears {
                    memory[place] = 0;
                }
                continue;
            }
            let byte = byte_of(word, from);
            if self.is(Rule::WriteMaskUsed) {
                let may = byte_of(mask.value | !mask.known, from);
                memory[place] = memory[place] & !may | byte & may;
            } else {
                memory[place] = byte;
            }
        }
    }
}

/// The bytes of the enabled lanes, moved down to the lowest lanes.
fn packed(word: u32, enables: u32) -> u32 {
    let mut low = 0;
    let mut to = 0;
    for number in 0..4 {
        if enables >> number & 1 == 1 {
            low |= u32::from(byte_of(word, number)) << (8 * to);
            to += 1;
        }
    }
    low
}
