//! Deliberate mistakes. Each one breaks a single rule of the model (or of the
//! programs that read lines), so that traces can be judged by what they notice.
//!
//! Numbers 1 to 999 are mistakes in rules; from 1001 on, each number is one
//! wrong bit, direction or presence in one of the three tables.

use crate::tables::{Tables, HEADER_WORDS, INDICES};

macro_rules! rules {
    ($($name:ident: $text:expr,)*) => {
        /// A mistake in one rule.
        #[derive(Clone, Copy, PartialEq, Eq, Debug)]
        pub enum Rule { $($name,)* }

        /// Every mistake in a rule with one line about it; number 1 comes first.
        pub const RULES: &[(Rule, &str)] = &[$((Rule::$name, $text),)*];
    };
}

rules! {
    // Refusals.
    FourBeforeThree: "4 is tested before 3",
    FiveBeforeFour: "5 is tested before 4",
    FiveBeforeThree: "5 is tested before 3",
    SevenBeforeFour: "at an aperture 7 is tested before 4",
    SevenBeforeFive: "at an aperture 7 is tested before 5",
    HighEnablesCut: "enables above 15 are cut to four bits instead of refused",
    HighTargetCut: "a target above 3 is cut to two bits instead of refused",
    OffsetRounded: "an offset that is no multiple of four is rounded down",
    OffsetEven: "only odd offsets are refused as 4",
    NoLanesBeyondMemory: "an aperture access with enables 0 is served beyond fitted memory",
    NoLanesAnyMode: "an aperture access with enables 0 is served in every mode",
    NoLanesAbsent: "an access with enables 0 is served at a region 0 offset without register",
    NoLanesReadOnly: "a write with enables 0 to a read-only register is served",
    ApertureWraps: "memory repeats beyond its fitted length",
    ApertureEndWraps: "offset plus four is computed in 32 bits, so the last word passes",
    ApertureOneMore: "the word just beyond fitted memory is served, reading zero",
    ApertureOneLess: "the last word of fitted memory is refused",
    HeaderWraps: "header offsets above FCh repeat the header",
    HeaderAbsentRefused: "a header offset without a register is refused as 5",
    HeaderReadOnlyRefused: "a header write to a word without writable bits is refused as 6",
    RegionTwice: "region 0 repeats from 10000h on",
    RegionHighBits: "the upper half of a region 0 offset is ignored",
    OffsetBitTwo: "region 0 registers answer at their offset plus four as well",
    MissingDirectionIsFive: "a register without the direction is refused as 5",
    AbsentIndexIsSix: "an absent index is refused as 6",
    AbsentIndexServed: "an absent index reads zero and ignores writes",
    WriteOnlyRead: "the write-only clock parameters can be read",
    ClockStatusWriteRefused: "writing a clock status register is refused as 6",
    ClockStatusKnown: "a clock status register reads zero, known",
    ClockStatusLockOnly: "a clock status register has only its lock bit unknown",
    RebootReadRefused: "reading Reboot is refused as 6",
    CompleteWriteRefused: "writing ByDMAComplete is refused as 6",
    MemoryEnableGates: "memory space disabled in the command register refuses apertures as 5",
    MissedLaneNoRefusal: "indexed data without lane 0 is never refused",
    UnknownAddressServed: "an unknown address counts as 0 instead of being refused",
    UnknownAddressNeedsLane: "an unknown address is refused only with lane 0 enabled",
    UnknownAddressPaletteOnly: "an unknown address refuses palette data only",
    RefusedAnswersKnown: "a refused read answers zero as known",

    // Lanes and known bits.
    ReadIgnoresEnables: "a read shows all four lanes",
    DisabledLanesKnown: "a lane not enabled reads zero as known",
    DisabledLanesShown: "a lane not enabled shows its word though unknown",
    UnknownShownKnown: "an unknown bit is shown as a known zero",
    WriteAnswersWord: "a write answers the word written",
    WriteAnswersKnown: "a write answers its lanes as known",
    WriteIgnoresEnables: "a register write changes all four lanes",
    WriteOneEnableIsAll: "a register write with any lane enabled changes all four",
    WriteLanesReversed: "enable 0 stands for the highest lane in a register write",
    WriteLowLaneOnly: "a register write changes lane 0 only",
    WriteFromLaneZero: "a register write takes lane 0's byte for every enabled lane",
    WrittenStaysUnknown: "written bits do not become known",
    WriteKnowsReserved: "a write makes reserved bits of its lanes known",
    WriteKnowsAllLanes: "a write makes the writable bits of every lane known",
    WriteOnlyKnowsOnes: "a write makes only the bits known that it sets",
    WriteOrs: "a register write only sets bits",
    HeaderIgnoresEnables: "a header write changes all four lanes",

    // RAMDAC address.
    ReadAddressIgnored: "setting the palette read address does nothing",
    WriteAddressKeepsPlace: "setting the palette write address keeps component and stage",
    ReadAddressKeepsPlace: "setting the palette read address keeps component and stage",
    SameAddressKeepsPlace: "setting the address it has already keeps component and stage",
    AddressAnyLane: "setting an address needs no lane 0",
    AddressAnyLaneResets: "setting an address without lane 0 makes the component 0",
    AddressReadResets: "reading an address makes the component 0",
    AddressReadKnown: "the address at reset reads zero, known",
    AddressReadNextEntry: "the palette read address reads one more than was set",
    DirectHighKnown: "bits 8 to 31 of a direct register read zero, known",
    IndexedHighKnown: "bits 8 to 31 of indexed data read zero, known",
    IndexedReadAdvances: "an indexed read advances the address",
    IndexedWriteAdvances: "an indexed write advances the address",
    IndexedDropsStage: "an indexed access drops staged bytes",
    IndexedWriteAnyLane: "an indexed write needs no lane 0",
    IndexSevenBits: "the index has seven bits",

    // Palette.
    ReadKeepsStage: "a palette read keeps staged bytes",
    PaletteWriteAnyLane: "a palette write needs no lane 0",
    PaletteReadAnyLane: "a palette read without lane 0 advances the component",
    PaletteReadAnyLaneDrops: "a palette read without lane 0 drops staged bytes",
    PaletteWriteAnyLaneDrops: "a palette write without lane 0 drops staged bytes",
    ShowsAtOnce: "a palette write stores its component at once",
    ShowsAfterSecond: "an entry is stored at its second component, blue as zero",
    MixedOrderStores: "the third write stores though the first two were not both staged",
    GreenWithoutRed: "green is staged without red, which then counts as zero",
    WrapStays: "the address stays at 255",
    WrapLoses: "the address becomes unknown after 255",
    WriteNeverAdvances: "a palette write does not go on to the next entry",
    ReadNeverAdvances: "a palette read does not go on to the next entry",
    ReadKeepsComponent: "a palette read does not advance the component",
    UnstoredNoAdvance: "a third write that stores nothing does not go on to the next entry",
    AdvanceBeforeStore: "the third write stores in the next entry",
    BlackNeverStored: "an entry of black counts as never stored",
    NeverStoredBlack: "an entry never stored reads and shows as black",
    NeverStoredReadsZero: "an entry never stored reads zero, known",
    NeverStoredSixBits: "an entry never stored reads two known zero bits in six-bit width",
    SixBitTopUnknown: "a six-bit read leaves the two upper bits unknown",
    WidthAtThird: "the width at the third component counts for all three",
    WidthAtFirst: "the width at the first component counts for all three",
    WidthInverted: "PaletteWidth is the wrong way round",
    WidthBitZero: "PaletteWidth is bit 0 of RDMiscControl",
    WidthIgnoredRead: "palette reads give eight bits in either width",
    WidthIgnoredWrite: "palette writes take eight bits in either width",
    WidthChangeAlters: "changing to six bits cuts the stored entries",
    WidthPicture: "the picture shows six-bit components in six-bit width",
    SixBitNoShift: "six-bit bytes are stored as they are, cut to six bits",
    SixBitFourTimes: "six-bit bytes are stored as 4 times, white as 252",
    SixBitReadMod: "a six-bit read gives the stored byte modulo 64",
    SixBitReadRounds: "a six-bit read rounds up",
    StageDroppedByRefusal: "a refused access drops staged bytes",
    StageDroppedByOthers: "an access to any other register drops staged bytes",
    StageDroppedByMemory: "an aperture access drops staged bytes",
    ComponentsReversed: "the first component is blue and the third red",
    EntryByMask: "the pixel mask applies to palette accesses",

    // Header.
    OnceByOneLane: "a subsystem number is fixed by one lane",
    OneLaneStores: "a write of one lane changes a subsystem number without fixing it",
    OnceNeedsFour: "a subsystem number is only fixed by all four lanes",
    OnceTogether: "fixing one subsystem number fixes the other",
    OnceNever: "subsystem numbers are never fixed",
    OnceReadOnly: "subsystem numbers cannot be written",
    OnceTwice: "a write of all four lanes passes a fixed subsystem number",
    OnceHalvesSwapped: "the halves of the subsystem word are looked at the wrong way round",
    OnceSameValue: "writing the reset value does not fix a subsystem number",
    StatusSetByOne: "writing one sets a status bit",
    StatusWritable: "a status bit takes the value written",
    StatusClearsAll: "writing one clears every status bit, the fixed ones too",
    IndirectDataWindow: "reading FCh shows the register that F8h names",

    // Apertures.
    ByteSwapEnable: "a byte-swapped write uses the enable of the same-numbered lane",
    HalfSwapEnable: "a half-word swapped write uses the enable of the same-numbered lane",
    ByteSwapReadEnable: "a byte-swapped read uses the enable of the same-numbered lane",
    HalfSwapReadEnable: "a half-word swapped read uses the enable of the same-numbered lane",
    SwapCodesExchanged: "swap codes 1 and 2 are exchanged",
    HalfSwapPairs: "half-word swap exchanges the bytes of each half",
    ByteSwapRotates: "byte swap turns lanes by one",
    SwapReadPlain: "reads are not swapped",
    SwapWritePlain: "writes are not swapped",
    SwapThreeServed: "swap code 3 is served as standard",
    SwapThreeBoth: "swap code 3 is served as both swaps",
    PackedServed: "packed mode is served",
    SvgaServed: "SVGA access is served",
    RomServed: "ROM access is served",
    PackedDetailsRefused: "the packed buffer bits alone are refused as 7",
    OneByTwo: "aperture one goes by ApertureTwo",
    TwoByOne: "aperture two goes by ApertureOne",
    WriteMaskUsed: "BypassWriteMask protects memory from aperture writes",
    MemoryUnknown: "memory reads are known only where not zero",
    MemoryWriteAllLanes: "an aperture write moves all four lanes",
    MemoryReadAllLanes: "an aperture read shows all four lanes",

    // The picture.
    StrideTimesX: "the stride is multiplied by x",
    StrideInBytes: "the stride counts bytes",
    StrideIgnored: "every row is the first",
    BaseInBytes: "the base counts bytes",
    BaseHalf: "the base counts units of four bytes",
    RightBase: "ScreenBaseRight is used when StereoEnable is set",
    EnableNeeded: "the picture needs VideoControl's enable bit",
    LineDoubled: "LineDouble shows each row twice",
    SumWraps: "the byte's place wraps at 8 MB",
    PictureWraps: "the byte's place wraps at the end of memory",
    PictureSwapped: "the picture is taken through aperture one's byte swap",
    MaskIgnored: "the pixel mask is ignored",
    MaskOrs: "the pixel mask is added instead of taken away",
    MaskOnlyStored: "the pixel mask counts only for the colour, not for what is stored",
    PageUsed: "RDPalettePage is added to the entry",
    UnknownBaseDrawn: "an unknown base bit counts as zero",
    UnknownStrideDrawn: "an unknown stride bit counts as zero",
    UnknownStrideOneRow: "an unknown stride does not matter on one row",
    UnknownMaskDrawn: "an unknown pixel mask bit counts as zero",
    UnknownFirst: "05000000h goes before 03000000h",
    BeyondBeforeUnknown: "02000000h goes before 05000000h",
    UnknownIsUndrawn: "03000000h instead of 05000000h",
    BeyondIsUndrawn: "03000000h instead of 02000000h",
    BeyondIsNeverStored: "04000000h instead of 02000000h",
    NeverStoredNumbered: "the word of an entry never stored carries its number",
    GuiIgnored: "the GUI bit does not matter",
    FormatThreeBits: "the highest bit of the pixel format does not matter",
    FormatIgnored: "the pixel format does not matter",
    RgbMatters: "the RGB bit must be clear",
    BgrOrder: "components are exchanged while the RGB bit is clear",
    TrueColorMatters: "TrueColor must be clear",
    ComponentOrder: "the picture has blue above green above red",
    PowerDownBlanks: "DACPowerDown blanks the picture",
    PaletteNoRedraw: "palette stores are not redrawn",
    MemoryNoRedraw: "memory writes are not redrawn",
    MaskNoRedraw: "a pixel mask change is not redrawn",
    ModeNoRedraw: "a colour mode change is not redrawn",
    BaseNoRedraw: "a base change is not redrawn",
    StrideNoRedraw: "a stride change is not redrawn",
    FirstRowOnly: "only the first row is redrawn",
    RedrawAll: "every dot is written at every access",
    RedrawWhenAny: "every dot is written when any dot changes",
    ChangedByRules: "the changed count counts dots redrawn, also when the lent word was the same",
    ChangedAll: "the changed count is the whole panel when any dot changes",
    ChangedOnce: "the changed count is at most one",
    ChangedZero: "the changed count is always zero",

    // Openings and states.
    OpenOrder: "an opening tests the picture's length first",
    OpenNineFirst: "an opening tests 9 before 8",
    OpenAnyMultiple: "an opening takes memory of any multiple of four",
    OpenPictureZero: "an opening fills the picture with zero",
    OpenClearsMemory: "an opening clears memory",
    OpenWideLimit: "an opening takes a panel of 1025",
    StateLoose: "a state with a changed fixed bit is taken",
    StateUnknownOnes: "a state with an unknown bit that is one is taken",
    StateComponent: "a state with component 3 is taken",
    StateOnceCompared: "a fixed subsystem number is compared with its reset",
    LengthIgnored: "a picture that is too long is taken",
    TwoBeforeOne: "2 is tested before 1",
    ThreeBeforeTwo: "3 is tested before 2",

    // The trace program.
    UpperLetters: "R and W are taken for r and w",
    SeveralSpaces: "several spaces part fields",
    LeadingSpace: "spaces before the first field are taken",
    TrailingSpace: "spaces after the last field are taken",
    TabParts: "a tab parts fields",
    ReturnTaken: "a carriage return before the newline is taken",
    NineDigits: "nine digits with a leading zero are taken",
    TwoDigitTarget: "a target of two digits is taken",
    HexTarget: "the target is a hexadecimal digit",
    PlusTaken: "a plus sign before digits is taken",
    PrefixTaken: "0x before digits is taken",
    UpperHexBad: "hexadecimal digits in upper case are bad",
    ReadWithWord: "a read with a word is taken",
    WriteWithoutWord: "a write without a word writes zero",
    FifthField: "a further field after the word is ignored",
    EmptySkipped: "an empty line prints nothing",
    EmptyAtEnd: "a final newline starts a further, empty line",
    LongLinesCut: "a line over 64 bytes is cut in pieces of 64",
    LongLineDropped: "a line over 64 bytes prints nothing",
    LastLineDropped: "a last line without newline is dropped",
    BadStops: "the program stops at a line that is not text",
    BadPrintsThree: "a target above 3 is bad",
    HighEnablesBad: "enables above 15 are bad",
    UpperOutput: "words are printed in upper case",
    ShortOutput: "words are printed without leading zeros",

    // Six bits as 02, C-13 stores them. From here on whatever is new comes last,
    // so that no number before it changes.
    SixBitWholeByte: "the sixteenth added to a six-bit byte is that of the whole byte written",
    SixBitWhiteOnly: "six-bit 63 is stored as 255, all else as 4 times",
    SixBitLowOnes: "six-bit bytes are stored with ones in the two lower bits",
    SixBitLowRepeats: "six-bit bytes are stored with their low bits repeated below",
    SixBitScaled: "six-bit bytes are stored scaled by 255/63, to the nearest",
    SixBitFilledAtThird: "the lower bits are filled at the third component, for all three by the width then",
    SixBitPictureOnly: "six-bit bytes are stored as 4 times, and the picture fills lower bits that are zero",
    SixBitReadScaled: "a six-bit read scales by 63/255, to the nearest",
    SixBitReadSixOnly: "a six-bit read divides only bytes that a six-bit write can store",

    // Lanes by rule, 02, C-17.
    HalfSwapRotates: "half-word swap turns lanes by one",
    HalfSwapTurnsOn: "half-word swap turns lanes by one, and a read turns them on instead of back",
    HalfSwapNoModulo: "half-word swap gives lanes to bytes 0 and 1 only",
    HalfSwapReadByte: "a half-word swapped read is byte swapped",
    ByteSwapWriteHalf: "a byte-swapped write is half-word swapped",
    ByteSwapOuter: "byte swap exchanges the outer two bytes only",
    SwapLaneByWord: "in a swapped mode byte i uses the lane of byte (o / 4 + i) mod 4",
    LaneByWord: "in every mode byte i uses the lane of byte (o / 4 + i) mod 4",
    OneLanesByTwo: "aperture one is served by ApertureOne and swapped by ApertureTwo",
    TwoLanesByOne: "aperture two is served by ApertureTwo and swapped by ApertureOne",
    SwapCodeAlone: "swap codes 1 and 2 count as standard while any other control bit is set",
    SwapWriteClears: "a swapped write stores zero where the lane is not enabled",
    SwapReadPacked: "a swapped read moves the bytes of enabled lanes down to the lowest lanes",

    // Reads, writes and looks, 02, C-12. First what a look may not alter.
    LookIsRead: "a look at palette data steps and drops staged bytes as a read does",
    LookAdvances: "a look at palette data advances the component, and keeps staged bytes",
    LookAdvancesAnyLane: "a look at palette data without lane 0 advances the component",
    LookDropsStage: "a look at palette data drops staged bytes, and does not advance",
    LookDropsAnyStage: "every look drops staged bytes",
    LookMovesAddress: "a look at indexed data moves the address on",
    LookAddressResets: "a look at an address makes the component 0",
    LookFixes: "a look at the subsystem numbers fixes them",
    LookRedraws: "a look draws the picture afresh",
    LookStandsForRead: "the palette data read after a look at palette data does not step",
    // What a look answers.
    LookAnswersNext: "a look at palette data answers from after stepping",
    LookAnswersLastRead: "a look answers what the last read answered",
    LookRedOnly: "a look at palette data shows red whatever component is next",
    LookBefore: "a look at palette data shows the component before the next one",
    LookNeverStored: "a look at an entry never stored shows known zeros",
    LookEightBits: "a look at palette data shows eight bits in either width",
    LookShowsReset: "a look at a register shows its reset",
    LookUnknownKnown: "a look shows an unknown bit as a known zero",
    LookAllLanes: "a look shows all four lanes",
    LookPlain: "a look at memory is not swapped",
    LookRefusedKnown: "a refused look answers zero as known",
    // How a look is refused.
    LookAnyState: "a look is not refused as 1",
    LookAnyLength: "a look does not ask how long the picture is",
    LookHighEnables: "a look cuts enables above 15 to four bits instead of refusing them",
    LookFourBeforeThree: "a look tests 4 before 3",
    LookOffsetRounded: "a look rounds an offset that is no multiple of four down",
    LookUnknownAddress: "a look takes an unknown address for 0",
    LookAbsentIndex: "a look at an absent index shows zero",
    LookBlankRefused: "a look at a header offset without a register is refused as 5",
    LookWriteOnly: "a look shows the write-only clock parameters",
    LookReadOnlyRefused: "a look at a read-only register is refused as 6",
    LookPaletteRefused: "a look at palette data is refused as 6",
    LookCodeThree: "a look through swap code 3 is served",
    LookAnyMode: "a look is never refused as 7",
    LookSevenBeforeFive: "a look tests 7 before 5",
    // Reads and writes apart.
    ReadIsLook: "a palette data read alters nothing, as a look",
    ReadAnswersNext: "a palette data read answers from after stepping",
    ReadRefusedAsWrite: "a read is refused where a write has no direction",
    WriteRefusedAsRead: "a write is refused where a read has no direction",
    ReadAnyLength: "a read does not ask how long the picture is",
    WriteAnswersRead: "a write answers what a read after it would",
    // Lines.
    LookInTrace: "the trace program takes l lines",
    LookUpper: "L is taken for l",
    LookWithWord: "a look with a word is taken",
    LookBad: "explain calls l lines bad",
    ExplainAfter: "explain says where a line leads by the state after it",
    ExplainZeros: "explain shows a digit with an unknown bit as 0",
    ExplainPartDigits: "explain hides a digit only where none of its bits is known",

    // The palette as words, 02, C-15. First what a store leaves.
    StoreBlackZero: "an entry of black is stored as 0, as if it was never stored",
    StoreBlackSkipped: "a load of black leaves the entry as it was",
    StoreWhiteBare: "an entry of white is stored without its flag",
    StoreToggles: "a store over a stored entry takes its flag away",
    StoreOrs: "a store only sets bits of the entry's word",
    StoreKeepsRed: "a store puts green and blue into the entry's word and leaves its red",
    StoreNoGreen: "an entry is stored with a green of zero",
    StoreOnce: "an entry that is stored is not stored again",
    StoreLastLost: "a store at entry 255 is lost",
    StorePieces: "each palette write puts its component into the entry's word, the third its flag",
    StoreBegins: "writing red makes the entry's word 0 until the third component comes",
    OpenBlack: "an opening leaves black in every entry",
    // Words of another kind, read and drawn rightly.
    KeptBgr: "an entry is kept as 01BBGGRRh, and read and drawn accordingly",
    KeptBit25: "an entry's flag is bit 25, and an entry is read and drawn accordingly",
    KeptFlagLow: "an entry is kept as RRGGBB01h, and read and drawn accordingly",
    KeptFour: "an entry never stored is kept as 04000000h, as the picture has it",
    // What is read and drawn.
    ReadByteAbove: "a palette read takes the byte above the component's, for red the flag's",
    SixBitNextByte: "a six-bit palette read takes the byte of the component after it",
    ReadZeroUnknown: "a stored component of zero reads as unknown",
    NeverDrawnZero: "an entry never stored is drawn as its word, 00000000h",
    DrawnBare: "a stored entry is drawn without its flag, as 00RRGGBBh",
    DrawnBit25: "a stored entry is drawn with its flag in bit 25, as 02RRGGBBh",
    BlackNoRedraw: "a dot that turns from never stored to black is not redrawn",
    // Refusal 1: which words are taken.
    EntryColourTaken: "a state with a colour in an entry without flag is taken",
    EntryTwoTaken: "a state with 02h as an entry's top byte is taken",
    EntryThreeTaken: "a state with 03h as an entry's top byte is taken",
    EntrySevenBits: "a state with 81h as an entry's top byte is taken",
    EntryBitOnly: "a state with any odd top byte in an entry is taken",
    EntryAnyBit: "a state with any single bit in an entry's top byte is taken",
    EntryAnyTop: "a state with any top byte but 00h in an entry is taken",
    EntryBlackRefused: "a state with an entry of black is refused",
    // Refusal 1: of which entries, and when.
    EntryUnasked: "no entry's word is tested",
    EntryFirstUnasked: "the word of entry 0 is not tested",
    EntryLastUnasked: "the word of entry 255 is not tested",
    EntryAddressedOnly: "only the word of the entry at the address is tested",
    EntryShownOnly: "only the words of entries that a byte of memory names are tested",
    EntryDataOnly: "entries' words are tested at palette data only",
    EntryUnlooked: "entries' words are not tested by a look",
    EntryWritesOnly: "entries' words are tested by writes only",
    EntryAfterTwo: "entries' words are tested after 2",
    EntryAfterSeven: "entries' words are tested after 7",
    EntryMended: "a read or write refused for an entry's word makes it 0",
}

/// One of the three tables, with the row in it.
#[derive(Clone, Copy, PartialEq, Eq, Debug)]
pub enum Table {
    Region0(usize),
    /// A register where none is.
    Extra(u32),
    Header(usize),
    Indirect(usize),
}

/// What is wrong in a row.
#[derive(Clone, Copy, PartialEq, Eq, Debug)]
pub enum What {
    Writable(u32),
    Known(u32),
    Value(u32),
    Readable,
    Writes,
    Exists,
}

#[derive(Clone, Copy, PartialEq, Eq, Debug)]
pub struct TableBreak {
    pub table: Table,
    pub what: What,
}

/// What is broken, if anything.
#[derive(Clone, Copy, PartialEq, Eq, Debug)]
pub enum Break {
    Nothing,
    Rule(Rule),
    Table(TableBreak),
}

impl Break {
    pub fn is(&self, rule: Rule) -> bool {
        *self == Break::Rule(rule)
    }

    /// Whether the break changes bits that no write may change. Such a state is
    /// then not held against the reset, or everything would be refused as 1.
    pub fn loosens_states(&self) -> bool {
        self.is(Rule::StateLoose)
            || self.is(Rule::WriteKnowsReserved)
            || self.is(Rule::StatusClearsAll)
            || self.is(Rule::OnceNever)
            || self.is(Rule::OneLaneStores)
    }
}

/// Every break with its number and one line about it.
pub fn all() -> Vec<(u32, Break, String)> {
    let mut list = Vec::new();
    for (place, (rule, text)) in RULES.iter().enumerate() {
        list.push((place as u32 + 1, Break::Rule(*rule), text.to_string()));
    }
    for (place, (wrong, text)) in table_breaks().into_iter().enumerate() {
        list.push((place as u32 + 1001, Break::Table(wrong), text));
    }
    list
}

/// The break of a number; 0 breaks nothing.
pub fn by_number(number: u32) -> Option<Break> {
    if number == 0 {
        return Some(Break::Nothing);
    }
    all().into_iter().find(|b| b.0 == number).map(|b| b.1)
}

/// Region 0 offsets that have no register here though 000 prints or suggests one.
const TEMPTING: &[u32] = &[
    0x00, 0x08, 0x10, 0x18, 0x20, 0x28, 0x30, 0x38, 0x40, 0x48, 0x60, 0x68, 0x70, 0x78, 0x80, 0x88,
    0x90, 0x98, 0xa8, 0xb0, 0xe0, 0xf0, 0xf8, 0x1008, 0x11c0, 0x2000, 0x3088, 0x3090, 0x4020,
    0x4028, 0x4030, 0x4038, 0x4040, 0x4048, 0x4058, 0x4080, 0x5000, 0x5800, 0x6000, 0x8000,
];

fn table_breaks() -> Vec<(TableBreak, String)> {
    let tables = Tables::sound();
    let mut list = Vec::new();
    let mut add = |table, what, text: String| list.push((TableBreak { table, what }, text));

    for (row, register) in tables.region0.iter().enumerate() {
        let table = Table::Region0(row);
        let name = register.name;
        add(table, What::Exists, format!("{name}: absent"));
        add(table, What::Readable, format!("{name}: not read"));
        let written = if register.writes { "not " } else { "" };
        add(table, What::Writes, format!("{name}: {written}written"));
        if register.kind != crate::tables::Kind::Stored {
            continue;
        }
        for bit in 0..32 {
            if register.writes {
                add(
                    table,
                    What::Writable(bit),
                    format!("{name}: writable bit {bit}"),
                );
            }
            add(table, What::Known(bit), format!("{name}: known bit {bit}"));
            if register.reset.known >> bit & 1 == 1 {
                add(table, What::Value(bit), format!("{name}: reset bit {bit}"));
            }
        }
    }
    for &offset in TEMPTING {
        let text = format!("region 0: a register at {offset:x}h");
        add(Table::Extra(offset), What::Exists, text);
    }
    for word in 0..HEADER_WORDS {
        let table = Table::Header(word);
        let offset = 4 * word;
        for bit in 0..32 {
            if tables.header[word].cleared >> bit & 1 == 1 {
                continue;
            }
            add(
                table,
                What::Writable(bit),
                format!("header {offset:x}h: writable bit {bit}"),
            );
            add(
                table,
                What::Known(bit),
                format!("header {offset:x}h: known bit {bit}"),
            );
            if tables.header[word].reset.known >> bit & 1 == 1 {
                add(
                    table,
                    What::Value(bit),
                    format!("header {offset:x}h: reset bit {bit}"),
                );
            }
        }
    }
    for index in 0..INDICES {
        let table = Table::Indirect(index);
        let register = tables.indirect[index];
        add(table, What::Exists, format!("index {index:x}h: presence"));
        if !register.exists {
            continue;
        }
        add(table, What::Readable, format!("index {index:x}h: reading"));
        if !register.reads {
            continue;
        }
        for bit in 0..8 {
            add(
                table,
                What::Writable(bit),
                format!("index {index:x}h: writable bit {bit}"),
            );
            add(
                table,
                What::Known(bit),
                format!("index {index:x}h: known bit {bit}"),
            );
            if register.reset.known >> bit & 1 == 1 {
                add(
                    table,
                    What::Value(bit),
                    format!("index {index:x}h: reset bit {bit}"),
                );
            }
        }
    }
    list
}
