/* Reefstencil for C: a register-level model of the 3Dlabs Permedia 2, proved in Rattle.
 *
 * Four functions are the model: pm_open, pm_read, pm_write and pm_look. All are total: whatever numbers they are handed, they end with an answer or
 * with one numbered refusal. The caller owns three things and lends them at each call: the state, the memory and the picture. A read of palette data
 * steps to the next component, as the chip's does; a look gives the same answer and alters nothing.
 * Nothing else is kept anywhere, so that a state can be copied, stored and gone back to, and two chips never meet.
 *
 * The archive that `tools/staticlib reefstencil` writes, target/staticlib/libreefstencil.a, is for x86-64 Linux (System V calls). It calls nothing
 * but memcpy, memmove and memset. `tools/install-c PREFIX` installs it with this header.
 *
 * This is the second edition (PM_ABI). In the first a state went in and came back by value; now it is a struct of the caller's, lent by pointer. The
 * archive's functions carry the edition in their names, pm_open_v2 to pm_look_v2, and this header calls them by these names: with an archive of the
 * first edition it does not link, nor does a program of the first edition with an archive of this one.
 *
 * What C must see to, since nothing here can test it:
 *  - s points to a struct pm_state, memory to memory_length bytes and picture to picture_length words. All can be read and, where a function takes
 *    them without const, written. A pointer is never null, also where its length is 0, and s and picture are aligned for uint32_t;
 *  - the lengths are true. The library compares them as numbers, with those of the opening; how long a buffer is, it can't see. The state's parts
 *    cross the boundary as pointers without any length: it reads and writes as much as struct pm_state has, whatever is there;
 *  - no two lent parts overlap. The fields of one state never do; state, memory and picture must lie apart;
 *  - nobody else writes them during a call, or reads what the call may write.
 * Any state and any numbers may be handed in: what is not a state is refused as 1.
 *
 * It compiles as C11, C17, C++11 and C++17. Numbers such as 4000h are offsets in the manual (Permedia 2 Hardware Reference, issue 7). */
#ifndef REEFSTENCIL_H
#define REEFSTENCIL_H

#include <stddef.h>
#include <stdint.h>

/* these three are undefined again at the end of this file */
#ifdef __cplusplus
extern "C" {
#define PM_ASSERT(test) static_assert(test, #test)
#define PM_ALIGN(type) alignof(type)
#define PM_CAST(type, place) reinterpret_cast<type>(place)
#else
#define PM_ASSERT(test) _Static_assert(test, #test)
#define PM_ALIGN(type) _Alignof(type)
#define PM_CAST(type, place) ((type)(place))
#endif

/* ---- the edition ---- */

#define PM_ABI 2u           /* as pm_abi() of the archive says it .. */
#define PM_STATE_SIZE 1680u /* .. and pm_state_size(): the bytes of struct pm_state */

/* ---- the status of an answer ---- */

/* A read, a write and a look are tested in the order 1 to 7, an opening in the order 8, 9, 2. A refused read, write or look alters nothing, and its
 * answer is the number and zeros. A refused opening leaves both buffers, and makes the state one of 0 by 0 dots, with which every read, write and look
 * is refused as 1. pm_status_text has these in words. */
enum pm_status {
    PM_DONE = 0,
    PM_NO_STATE = 1,      /* not a state */
    PM_WRONG_LENGTH = 2,  /* a lent buffer has the wrong length */
    PM_BAD_FORM = 3,      /* target above 3, or enables above 15 */
    PM_UNALIGNED = 4,     /* the offset is no multiple of four */
    PM_NOTHING_HERE = 5,  /* no register here, or no memory fitted here */
    PM_NO_DIRECTION = 6,  /* the register is not read, or not written */
    PM_MODE_UNSERVED = 7, /* the aperture's mode is not served: swap code 3, packed 16-bit, SVGA or ROM */
    PM_BAD_PANEL = 8,     /* opening: width or height not 1 to 1,024 */
    PM_BAD_MEMORY = 9     /* opening: memory no multiple of 8 from 8 to 8,388,608 bytes */
};

/* ---- what a read, a write and a look name ---- */

/* The target is one of these; the offset counts bytes from its start and is a multiple of four; the enables are 0 to 15: bit i for lane i, which is bits
 * 8i to 8i + 7 of the word.
 *
 * Through an aperture, memory byte offset + i (i from 0 to 3) is exchanged with lane i of the word. If bits 0 and 1 of the aperture's register hold the
 * number 1 (byte swapped) it is lane 3 - i, if they hold 2 (half-word swapped) lane (i + 2) % 4. That lane's enable decides, in a read or a look as in a
 * write. */
enum pm_target {
    PM_REGION_0 = 0,     /* the registers */
    PM_APERTURE_ONE = 1, /* memory, in the mode of register 50h */
    PM_APERTURE_TWO = 2, /* memory, in the mode of register 58h */
    PM_CONFIGURATION = 3 /* the PCI configuration header */
};

/* ---- the state ---- */

/* pm_open makes a state, whatever the struct held before, and reads and writes alter it in place. Its fields may be read and stored, and the struct
 * copied by =; a C program has no need to write them. */

#define PM_ROWS 79u     /* registers: 38 of region 0, 17 of the header, 24 indirect ones */
#define PM_ENTRIES 256u /* palette entries */

/* Which element of values and knowns is which register. */
enum pm_row {
    /* region 0, with its offset */
    PM_ROW_APERTURE_ONE = 0,            /* 0050h */
    PM_ROW_APERTURE_TWO = 1,            /* 0058h */
    PM_ROW_BY_DMA_ADDRESS = 2,          /* 00A0h */
    PM_ROW_BY_DMA_STRIDE = 3,           /* 00B8h */
    PM_ROW_BY_DMA_MEM_ADDR = 4,         /* 00C0h */
    PM_ROW_BY_DMA_SIZE = 5,             /* 00C8h */
    PM_ROW_BY_DMA_BYTE_MASK = 6,        /* 00D0h */
    PM_ROW_BY_DMA_CONTROL = 7,          /* 00D8h */
    PM_ROW_BY_DMA_COMPLETE = 8,         /* 00E8h */
    PM_ROW_REBOOT = 9,                  /* 1000h */
    PM_ROW_MEM_CONTROL = 10,            /* 1040h */
    PM_ROW_BOOT_ADDRESS = 11,           /* 1080h */
    PM_ROW_MEM_CONFIG = 12,             /* 10C0h */
    PM_ROW_BYPASS_WRITE_MASK = 13,      /* 1100h */
    PM_ROW_FRAMEBUFFER_WRITE_MASK = 14, /* 1140h */
    PM_ROW_COUNT_1180H = 15,            /* 1180h: the register Count. How many rows there are is PM_ROWS */
    PM_ROW_SCREEN_BASE = 16,            /* 3000h, in units of eight bytes */
    PM_ROW_SCREEN_STRIDE = 17,          /* 3008h, in units of eight bytes */
    PM_ROW_H_TOTAL = 18,                /* 3010h */
    PM_ROW_HG_END = 19,                 /* 3018h */
    PM_ROW_HB_END = 20,                 /* 3020h */
    PM_ROW_HS_START = 21,               /* 3028h */
    PM_ROW_HS_END = 22,                 /* 3030h */
    PM_ROW_V_TOTAL = 23,                /* 3038h */
    PM_ROW_VB_END = 24,                 /* 3040h */
    PM_ROW_VS_START = 25,               /* 3048h */
    PM_ROW_VS_END = 26,                 /* 3050h */
    PM_ROW_VIDEO_CONTROL = 27,          /* 3058h */
    PM_ROW_INTERRUPT_LINE = 28,         /* 3060h */
    PM_ROW_DISPLAY_DATA = 29,           /* 3068h */
    PM_ROW_LINE_COUNT = 30,             /* 3070h */
    PM_ROW_FIFO_CONTROL = 31,           /* 3078h */
    PM_ROW_SCREEN_BASE_RIGHT = 32,      /* 3080h */
    PM_ROW_PIXEL_MASK = 33,             /* 4010h */
    PM_ROW_CURSOR_X_LOW = 34,           /* 4060h */
    PM_ROW_CURSOR_X_HIGH = 35,          /* 4068h */
    PM_ROW_CURSOR_Y_LOW = 36,           /* 4070h */
    PM_ROW_CURSOR_Y_HIGH = 37,          /* 4078h */
    /* the configuration header, with its offset */
    PM_ROW_CFG_VENDOR_DEVICE = 38,      /* 00h */
    PM_ROW_CFG_COMMAND_STATUS = 39,     /* 04h */
    PM_ROW_CFG_REVISION_CLASS = 40,     /* 08h */
    PM_ROW_CFG_LATENCY = 41,            /* 0Ch: cache line, latency timer, header type, self test */
    PM_ROW_CFG_BASE_0 = 42,             /* 10h */
    PM_ROW_CFG_BASE_1 = 43,             /* 14h */
    PM_ROW_CFG_BASE_2 = 44,             /* 18h */
    PM_ROW_CFG_CARD_BUS = 45,           /* 28h */
    PM_ROW_CFG_SUBSYSTEM = 46,          /* 2Ch: vendor in bits 0 to 15, ID in 16 to 31 */
    PM_ROW_CFG_ROM_BASE = 47,           /* 30h */
    PM_ROW_CFG_CAPABILITY = 48,         /* 34h */
    PM_ROW_CFG_INTERRUPT = 49,          /* 3Ch: line, pin, minimum grant, maximum latency */
    PM_ROW_CFG_AGP_ID = 50,             /* 40h */
    PM_ROW_CFG_AGP_STATUS = 51,         /* 44h */
    PM_ROW_CFG_AGP_COMMAND = 52,        /* 48h */
    PM_ROW_CFG_INDIRECT_ADDRESS = 53,   /* F8h */
    PM_ROW_CFG_INDIRECT_DATA = 54,      /* FCh */
    /* the RAMDAC's indirect registers, with their index */
    PM_ROW_RD_CURSOR_CONTROL = 55,      /* 06h */
    PM_ROW_RD_COLOR_MODE = 56,          /* 18h */
    PM_ROW_RD_MODE_CONTROL = 57,        /* 19h */
    PM_ROW_RD_PALETTE_PAGE = 58,        /* 1Ch */
    PM_ROW_RD_MISC_CONTROL = 59,        /* 1Eh */
    PM_ROW_RD_PIXEL_CLOCK_A1 = 60,      /* 20h */
    PM_ROW_RD_PIXEL_CLOCK_A2 = 61,      /* 21h */
    PM_ROW_RD_PIXEL_CLOCK_A3 = 62,      /* 22h */
    PM_ROW_RD_PIXEL_CLOCK_B1 = 63,      /* 23h */
    PM_ROW_RD_PIXEL_CLOCK_B2 = 64,      /* 24h */
    PM_ROW_RD_PIXEL_CLOCK_B3 = 65,      /* 25h */
    PM_ROW_RD_PIXEL_CLOCK_C1 = 66,      /* 26h */
    PM_ROW_RD_PIXEL_CLOCK_C2 = 67,      /* 27h */
    PM_ROW_RD_PIXEL_CLOCK_C3 = 68,      /* 28h */
    PM_ROW_RD_PIXEL_CLOCK_STATUS = 69,  /* 29h */
    PM_ROW_RD_MEMORY_CLOCK_1 = 70,      /* 30h */
    PM_ROW_RD_MEMORY_CLOCK_2 = 71,      /* 31h */
    PM_ROW_RD_MEMORY_CLOCK_3 = 72,      /* 32h */
    PM_ROW_RD_MEMORY_CLOCK_STATUS = 73, /* 33h */
    PM_ROW_RD_COLOR_KEY_CONTROL = 74,   /* 40h */
    PM_ROW_RD_OVERLAY_KEY = 75,         /* 41h */
    PM_ROW_RD_RED_KEY = 76,             /* 42h */
    PM_ROW_RD_GREEN_KEY = 77,           /* 43h */
    PM_ROW_RD_BLUE_KEY = 78             /* 44h */
};

/* The RAMDAC's one address, which serves palette reads, palette writes and the index, with what hangs on it. */
struct pm_dac {
    uint8_t address;   /* a palette entry, or an index */
    uint8_t known;     /* which bits of address are known; the others are 0 in it. FFh once an address was set */
    uint8_t component; /* the next read, write or look of palette data is for 0 red, 1 green, 2 blue */
    uint8_t staged;    /* palette bytes written and not stored yet: 1 red; 2 red and green; any other number: none */
    uint8_t red;       /* the staged red .. */
    uint8_t green;     /* .. and green, as they will be stored */
};

struct pm_state {
    uint32_t width;           /* the panel in dots, as given at opening .. */
    uint32_t height;
    uint32_t fitted;          /* .. and the length of memory in bytes */
    uint32_t once;            /* write-once numbers that are fixed: bit 0 the subsystem vendor, bit 1 the subsystem ID */
    uint32_t values[PM_ROWS]; /* what each register holds, by enum pm_row; 0 wherever it is unknown .. */
    uint32_t knowns[PM_ROWS]; /* .. and which of its bits are known */
    /* Each entry: 01RRGGBBh, the word of its dots, or 0 if it was never stored. Another top byte, or a colour without the 01h, is not a state. A
     * component has eight bits, whichever width it was written in: w, written with six bits, is stored as 4 * w + w / 16, so 63 as 255. */
    uint32_t palette[PM_ENTRIES];
    struct pm_dac dac;
    /* two bytes follow that mean nothing: no call reads or writes them, and they may differ in equal states. Compare fields, not bytes */
};

/* ---- what comes back ---- */

/* of a read and of a look. Neither changes a word of the picture */
struct pm_reply {
    uint32_t status; /* enum pm_status, 0 to 7 */
    uint32_t word;   /* what was seen. A bit counts only where known has it set; it is 0 everywhere else */
    uint32_t known;  /* which bits of word are known */
};

/* of a write */
struct pm_wrote {
    uint32_t status;  /* enum pm_status, 0 to 7 */
    uint32_t changed; /* how many words of the picture differ before and after */
};

/* ---- the picture ---- */

/* Dot (x, y) is word y * width + x. The upper byte says what the word is. */
#define PM_DOT_COLOUR 0x01000000u   /* plus RRGGBBh: the stored palette entry of the dot's byte */
#define PM_DOT_BEYOND 0x02000000u   /* the dot's byte lies beyond fitted memory */
#define PM_DOT_OFF 0x03000000u      /* RDColorMode is not the 8-bit indexed mode; every dot after opening */
#define PM_DOT_NEVER 0x04000000u    /* the dot's palette entry was never stored */
#define PM_DOT_UNPLACED 0x05000000u /* ScreenBase, ScreenStride or RDPixelMask has an unknown bit */

/* ---- what the archive has ---- */

/* For C, the functions of the next part call these, and put the addresses in from the struct. A buffer is a pointer and then its length: memory in bytes,
 * picture in words. Each other pointer has a field's type and length: one word, PM_ROWS words, PM_ENTRIES words, the 6 bytes of struct pm_dac. */

uint32_t pm_abi(void);        /* the archive's own PM_ABI .. */
uint32_t pm_state_size(void); /* .. and PM_STATE_SIZE */

uint32_t pm_open_v2(uint32_t *width, uint32_t *height, uint32_t *fitted, uint32_t *once, uint32_t *values, uint32_t *knowns, uint32_t *palette,
    uint8_t *dac, uint32_t panel_width, uint32_t panel_height, uint8_t *memory, size_t memory_length, uint32_t *picture, size_t picture_length);

struct pm_reply pm_read_v2(uint32_t width, uint32_t height, uint32_t fitted, uint32_t once, uint32_t *values, const uint32_t *knowns,
    const uint32_t *palette, uint8_t *dac, uint32_t target, uint32_t offset, uint32_t enables, const uint8_t *memory, size_t memory_length,
    const uint32_t *picture, size_t picture_length);

struct pm_wrote pm_write_v2(uint32_t width, uint32_t height, uint32_t fitted, uint32_t *once, uint32_t *values, uint32_t *knowns, uint32_t *palette,
    uint8_t *dac, uint32_t target, uint32_t offset, uint32_t enables, uint32_t word, uint8_t *memory, size_t memory_length, uint32_t *picture,
    size_t picture_length);

struct pm_reply pm_look_v2(uint32_t width, uint32_t height, uint32_t fitted, uint32_t once, const uint32_t *values, const uint32_t *knowns,
    const uint32_t *palette, const uint8_t *dac, uint32_t target, uint32_t offset, uint32_t enables, const uint8_t *memory, size_t memory_length,
    const uint32_t *picture, size_t picture_length);

/* ---- the four functions ---- */

/* Opens a panel: makes *s the reset state, fills picture, which must have width * height words, with PM_DOT_OFF, and leaves memory as it is. Gives the
 * status: 0, 8, 9 or 2. */
static inline uint32_t pm_open(struct pm_state *s, uint32_t width, uint32_t height, uint8_t *memory, size_t memory_length, uint32_t *picture,
    size_t picture_length) {
    return pm_open_v2(&s->width, &s->height, &s->fitted, &s->once, s->values, s->knowns, s->palette, PM_CAST(uint8_t *, &s->dac), width, height, memory,
        memory_length, picture, picture_length);
}

/* For these three, memory and picture have the lengths of the opening. A read and a look ask the picture for its length alone. */

/* A read. Of the state it alters the palette's component, address and staged bytes, and these only where it reads palette data. */
static inline struct pm_reply pm_read(struct pm_state *s, uint32_t target, uint32_t offset, uint32_t enables, const uint8_t *memory, size_t memory_length,
    const uint32_t *picture, size_t picture_length) {
    return pm_read_v2(s->width, s->height, s->fitted, s->once, s->values, s->knowns, s->palette, PM_CAST(uint8_t *, &s->dac), target, offset, enables,
        memory, memory_length, picture, picture_length);
}

/* A write. Alters exactly those dots whose word it changes. */
static inline struct pm_wrote pm_write(struct pm_state *s, uint32_t target, uint32_t offset, uint32_t enables, uint32_t word, uint8_t *memory,
    size_t memory_length, uint32_t *picture, size_t picture_length) {
    return pm_write_v2(s->width, s->height, s->fitted, &s->once, s->values, s->knowns, s->palette, PM_CAST(uint8_t *, &s->dac), target, offset, enables,
        word, memory, memory_length, picture, picture_length);
}

/* A look: exactly the status, word and known that pm_read with the same arguments would answer, and nothing altered. For watch windows and debuggers:
 * looked at as often as you like, palette data stays at its component and a load under way is not disturbed. */
static inline struct pm_reply pm_look(const struct pm_state *s, uint32_t target, uint32_t offset, uint32_t enables, const uint8_t *memory,
    size_t memory_length, const uint32_t *picture, size_t picture_length) {
    return pm_look_v2(s->width, s->height, s->fitted, s->once, s->values, s->knowns, s->palette, PM_CAST(const uint8_t *, &s->dac), target, offset,
        enables, memory, memory_length, picture, picture_length);
}

/* ---- names, for logs and watch windows ---- */

/* Every register: X(row, kind, at, name). Of kind 0 (PM_REGION_0) and 3 (PM_CONFIGURATION), at is the offset in that target; of kind 4 it is an index
 * of the RAMDAC's. The name is the manual's; where registers share a word, all of theirs, lowest bits first. */
/* ---- table written by register_map: begin ---- */
#define PM_REGISTERS(X) \
    X(0, 0, 0x50, "ApertureOne") \
    X(1, 0, 0x58, "ApertureTwo") \
    X(2, 0, 0xa0, "ByDMAAddress") \
    X(3, 0, 0xb8, "ByDMAStride") \
    X(4, 0, 0xc0, "ByDMAMemAddr") \
    X(5, 0, 0xc8, "ByDMASize") \
    X(6, 0, 0xd0, "ByDMAByteMask") \
    X(7, 0, 0xd8, "ByDMAControl") \
    X(8, 0, 0xe8, "ByDMAComplete") \
    X(9, 0, 0x1000, "Reboot") \
    X(10, 0, 0x1040, "MemControl") \
    X(11, 0, 0x1080, "BootAddress") \
    X(12, 0, 0x10c0, "MemConfig") \
    X(13, 0, 0x1100, "BypassWriteMask") \
    X(14, 0, 0x1140, "FramebufferWriteMask") \
    X(15, 0, 0x1180, "Count") \
    X(16, 0, 0x3000, "ScreenBase") \
    X(17, 0, 0x3008, "ScreenStride") \
    X(18, 0, 0x3010, "HTotal") \
    X(19, 0, 0x3018, "HgEnd") \
    X(20, 0, 0x3020, "HbEnd") \
    X(21, 0, 0x3028, "HsStart") \
    X(22, 0, 0x3030, "HsEnd") \
    X(23, 0, 0x3038, "VTotal") \
    X(24, 0, 0x3040, "VbEnd") \
    X(25, 0, 0x3048, "VsStart") \
    X(26, 0, 0x3050, "VsEnd") \
    X(27, 0, 0x3058, "VideoControl") \
    X(28, 0, 0x3060, "InterruptLine") \
    X(29, 0, 0x3068, "DisplayData") \
    X(30, 0, 0x3070, "LineCount") \
    X(31, 0, 0x3078, "FifoControl") \
    X(32, 0, 0x3080, "ScreenBaseRight") \
    X(33, 0, 0x4010, "RDPixelMask") \
    X(34, 0, 0x4060, "RDCursorXLow") \
    X(35, 0, 0x4068, "RDCursorXHigh") \
    X(36, 0, 0x4070, "RDCursorYLow") \
    X(37, 0, 0x4078, "RDCursorYHigh") \
    X(38, 3, 0x0, "CFGVendorId/CFGDeviceId") \
    X(39, 3, 0x4, "CFGCommand/CFGStatus") \
    X(40, 3, 0x8, "CFGRevisionId/CFGClassCode") \
    X(41, 3, 0xc, "CFGCacheLine/CFGLatTimer/CFGHeaderType/CFGBist") \
    X(42, 3, 0x10, "CFGBaseAddr0") \
    X(43, 3, 0x14, "CFGBaseAddr1") \
    X(44, 3, 0x18, "CFGBaseAddr2") \
    X(45, 3, 0x28, "CFGCardBus") \
    X(46, 3, 0x2c, "CFGSubsystemVendorId/CFGSubsystemId") \
    X(47, 3, 0x30, "CFGRomAddr") \
    X(48, 3, 0x34, "CFGCapPtr") \
    X(49, 3, 0x3c, "CFGIntLine/CFGIntPin/CFGMinGrant/CFGMaxLat") \
    X(50, 3, 0x40, "CFGCapID/CFGNextPtr/CFGAGPRev") \
    X(51, 3, 0x44, "CFGAGPStatus") \
    X(52, 3, 0x48, "CFGAGPCommand") \
    X(53, 3, 0xf8, "CFGIndirectAddress") \
    X(54, 3, 0xfc, "CFGIndirectData") \
    X(55, 4, 0x6, "RDCursorControl") \
    X(56, 4, 0x18, "RDColorMode") \
    X(57, 4, 0x19, "RDModeControl") \
    X(58, 4, 0x1c, "RDPalettePage") \
    X(59, 4, 0x1e, "RDMiscControl") \
    X(60, 4, 0x20, "RDPixelClockA1") \
    X(61, 4, 0x21, "RDPixelClockA2") \
    X(62, 4, 0x22, "RDPixelClockA3") \
    X(63, 4, 0x23, "RDPixelClockB1") \
    X(64, 4, 0x24, "RDPixelClockB2") \
    X(65, 4, 0x25, "RDPixelClockB3") \
    X(66, 4, 0x26, "RDPixelClockC1") \
    X(67, 4, 0x27, "RDPixelClockC2") \
    X(68, 4, 0x28, "RDPixelClockC3") \
    X(69, 4, 0x29, "RDPixelClockStatus") \
    X(70, 4, 0x30, "RDMemoryClock1") \
    X(71, 4, 0x31, "RDMemoryClock2") \
    X(72, 4, 0x32, "RDMemoryClock3") \
    X(73, 4, 0x33, "RDMemoryClockStatus") \
    X(74, 4, 0x40, "RDColorKeyControl") \
    X(75, 4, 0x41, "RDOverlayKey") \
    X(76, 4, 0x42, "RDRedKey") \
    X(77, 4, 0x43, "RDGreenKey") \
    X(78, 4, 0x44, "RDBlueKey")
/* ---- table written by register_map: end ---- */

#define PM_NAMED(row, kind, at, name) \
    case row##u: return name;
#define PM_PLACED(row, kind, at, name) \
    case kind##u * 0x10000u + at##u: return row##u;
#define PM_COUNTED(row, kind, at, name) +1u

/* The name of a row of enum pm_row, or "no row". */
static inline const char *pm_row_name(uint32_t row) {
    switch (row) {
        PM_REGISTERS(PM_NAMED)
    default: return "no row";
    }
}

/* The row of a kind's offset or index; PM_ROWS where there is none. For the next two. */
static inline uint32_t pm_row_of_kind(uint32_t kind, uint32_t at) {
    if (kind > 4 || at > 0xFFFF) return PM_ROWS;
    switch (kind * 0x10000u + at) {
        PM_REGISTERS(PM_PLACED)
    default: return PM_ROWS;
    }
}

/* The row of the register at an offset of region 0 or of the configuration header. PM_ROWS where there is none: so for the apertures, and for the RAMDAC's
 * ports 4000h, 4008h, 4018h and 4050h, which hold nothing of their own but lead to struct pm_dac, to the palette and to the indirect registers. */
static inline uint32_t pm_row_at(uint32_t target, uint32_t offset) { return target > 3 ? PM_ROWS : pm_row_of_kind(target, offset); }

/* The row of the RAMDAC's indirect register at an index; PM_ROWS where there is none. Such a register is reached through 4050h, with the index in
 * dac.address. */
static inline uint32_t pm_row_of_index(uint32_t at) { return pm_row_of_kind(4, at); }

/* The name of what is at a target's offset: a row's, a port's, "aperture one", "aperture two", or "no register". */
static inline const char *pm_name_at(uint32_t target, uint32_t offset) {
    uint32_t row = pm_row_at(target, offset);
    if (row < PM_ROWS) return pm_row_name(row);
    if (target == PM_APERTURE_ONE) return "aperture one";
    if (target == PM_APERTURE_TWO) return "aperture two";
    if (target == PM_REGION_0) {
        switch (offset) {
        case 0x4000: return "RDPaletteWriteAddress";
        case 0x4008: return "RDPaletteData";
        case 0x4018: return "RDPaletteReadAddress";
        case 0x4050: return "RDIndexedData";
        }
    }
    return "no register";
}

/* A status in words. */
static inline const char *pm_status_text(uint32_t status) {
    switch (status) {
    case PM_DONE: return "done";
    case PM_NO_STATE: return "not a state";
    case PM_WRONG_LENGTH: return "a lent buffer has the wrong length";
    case PM_BAD_FORM: return "no such target, or enables above 15";
    case PM_UNALIGNED: return "the offset is no multiple of 4";
    case PM_NOTHING_HERE: return "nothing is there";
    case PM_NO_DIRECTION: return "not readable, or not writable";
    case PM_MODE_UNSERVED: return "the aperture's mode is not served";
    case PM_BAD_PANEL: return "the panel is out of range";
    case PM_BAD_MEMORY: return "the memory is out of range";
    default: return "no such status";
    }
}

/* ---- the layout, tested where this file is compiled. tests/layout tests it against the library ---- */

PM_ASSERT(sizeof(uint8_t) == 1 && sizeof(uint32_t) == 4 && sizeof(size_t) == 8 && sizeof(void *) == 8);

PM_ASSERT(sizeof(struct pm_dac) == 6 && PM_ALIGN(struct pm_dac) == 1);
PM_ASSERT(offsetof(struct pm_dac, address) == 0);
PM_ASSERT(offsetof(struct pm_dac, known) == 1);
PM_ASSERT(offsetof(struct pm_dac, component) == 2);
PM_ASSERT(offsetof(struct pm_dac, staged) == 3);
PM_ASSERT(offsetof(struct pm_dac, red) == 4);
PM_ASSERT(offsetof(struct pm_dac, green) == 5);

PM_ASSERT(sizeof(struct pm_state) == PM_STATE_SIZE && PM_ALIGN(struct pm_state) == 4);
PM_ASSERT(offsetof(struct pm_state, width) == 0);
PM_ASSERT(offsetof(struct pm_state, height) == 4);
PM_ASSERT(offsetof(struct pm_state, fitted) == 8);
PM_ASSERT(offsetof(struct pm_state, once) == 12);
PM_ASSERT(offsetof(struct pm_state, values) == 16);
PM_ASSERT(offsetof(struct pm_state, knowns) == 332);
PM_ASSERT(offsetof(struct pm_state, palette) == 648);
PM_ASSERT(offsetof(struct pm_state, dac) == 1672);

PM_ASSERT(sizeof(struct pm_reply) == 12 && PM_ALIGN(struct pm_reply) == 4);
PM_ASSERT(offsetof(struct pm_reply, status) == 0);
PM_ASSERT(offsetof(struct pm_reply, word) == 4);
PM_ASSERT(offsetof(struct pm_reply, known) == 8);

PM_ASSERT(sizeof(struct pm_wrote) == 8 && PM_ALIGN(struct pm_wrote) == 4);
PM_ASSERT(offsetof(struct pm_wrote, status) == 0);
PM_ASSERT(offsetof(struct pm_wrote, changed) == 4);

PM_ASSERT(0u PM_REGISTERS(PM_COUNTED) == PM_ROWS); /* no two rows have one number or one place either: that would be two equal cases above */

#undef PM_COUNTED
#undef PM_PLACED
#undef PM_NAMED
#undef PM_CAST
#undef PM_ALIGN
#undef PM_ASSERT

#ifdef __cplusplus
}
#endif

#endif
