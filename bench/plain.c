/* A plain model of the same rules, written for speed: the state by reference, tables for every lookup, and a redraw of only the dots that can change.
 * Sections are those of the manual (000); "01" is the scope paper, D-n a line of docs/DECISIONS.md. */
#include "plain.h"
#include <string.h>

#define ALL 0xFFFFFFFFu
#define UNITS 0xFFFFFu /* ScreenBase and ScreenStride: bits 0 to 19 */

/* ---- the tables (01, Region 0, RAMDAC and Configuration header; 000, 3.2 to 3.6, table 5.2 and 2.14) ---- */

/* what a write may change, by enum pm_row: region 0, the header, the indirect registers. Of 2Ch nothing is writable here: it has a rule of its own */
static const uint32_t row_writable[PM_ROWS] = {
    0x3FB, 0x3FB, ALL, ALL, 0xFFFFFF, 0x0FFF0FFF, ALL, 0x3FFFFFFF, 0, 0, 0x10, 0x3FF, 0xFFFFE7FF, ALL, 0, 0, UNITS, UNITS, 0x7FF, 0x7FF, 0x7FF, 0x7FF,
    0x7FF, 0x7FF, 0x7FF, 0x7FF, 0x7FF, 0x11E7F, 0x7FF, 0xE30C, 0, 0x1F1F, UNITS, 0xFF, 0xFF, 0xFF, 0xFF, 0xFF,
    0, 0x6, 0, 0xFF00, 0xFFFE0000, 0xFF800000, 0xFF800000, 0, 0, 0xFFFF0001, 0, 0xFF, 0, 0, 0xFF000303, 0xE07FFFFF, ALL,
    0x7F, 0xBF, 0x07, 0xFF, 0x3F, 0xFF, 0xFF, 0x0B, 0xFF, 0xFF, 0x0B, 0xFF, 0xFF, 0x0B, 0, 0xFF, 0xFF, 0x03, 0, 0x1F, 0xFF, 0xFF, 0xFF, 0xFF
};
#define STATUS_BITS 0x30000000u /* of 04h: cleared by writing one */
static const uint32_t row_reset[PM_ROWS] = {
    [PM_ROW_BOOT_ADDRESS] = 0x31, [PM_ROW_MEM_CONFIG] = 0x259FFFFF, [PM_ROW_PIXEL_MASK] = 0xFF, [PM_ROW_CFG_VENDOR_DEVICE] = 0x00073D3D,
    [PM_ROW_CFG_COMMAND_STATUS] = 0x02800000, [PM_ROW_CFG_REVISION_CLASS] = 0x03800001, [PM_ROW_CFG_SUBSYSTEM] = 0x00073D3D,
    [PM_ROW_CFG_INTERRUPT] = 0x100, [PM_ROW_RD_PIXEL_CLOCK_A1] = 0x1C, [PM_ROW_RD_PIXEL_CLOCK_A2] = 0x02, [PM_ROW_RD_PIXEL_CLOCK_A3] = 0x0B,
    [PM_ROW_RD_PIXEL_CLOCK_B1] = 0x10, [PM_ROW_RD_PIXEL_CLOCK_B2] = 0x02, [PM_ROW_RD_PIXEL_CLOCK_B3] = 0x0B, [PM_ROW_RD_MEMORY_CLOCK_1] = 0x1C,
    [PM_ROW_RD_MEMORY_CLOCK_2] = 0x02, [PM_ROW_RD_MEMORY_CLOCK_3] = 0x02
};
static const uint32_t row_known[PM_ROWS] = {
    ALL, ALL, ALL, ALL, ALL, ALL, 0, ALL, 0xFFFFFFFE, ALL, ALL, ALL, ALL, 0, 0, 0, ~UNITS, ~UNITS, ~0x7FFu, ~0x7FFu, ~0x7FFu, ~0x7FFu, ~0x7FFu, ~0x7FFu,
    ~0x7FFu, ~0x7FFu, ~0x7FFu, 0xFFFE0000, ~0x7FFu, 0xFFFFE30C, ~0x7FFu, 0xFFFEE0E0, ~UNITS, 0xFF, 0, 0, 0, 0,
    ALL, ALL, ALL, ALL, ALL, ALL, ALL, ALL, ALL, ALL, 0xFFFFFFBF, 0x3F3FFFFF, 0xFFEFFFFD, 0xE0FFFDFE, ALL, ALL, ALL,
    0xFF, 0xFF, 0xFF, 0xFF, 0xFF, 0xFF, 0xFF, 0xFF, 0xFF, 0xFF, 0xFF, 0xFF, 0xFF, 0xFF, 0, 0xFF, 0xFF, 0xFF, 0, 0xFF, 0xFF, 0xFF, 0xFF, 0xFF
};

/* one more than the row, by an eighth of the offset: every offset of region 0 is a multiple of eight */
#define ROW_OFFSETS (0x4080 / 8)
static const uint8_t row_at[ROW_OFFSETS] = {
    [0x50 / 8] = 1, [0x58 / 8] = 2, [0xA0 / 8] = 3, [0xB8 / 8] = 4, [0xC0 / 8] = 5, [0xC8 / 8] = 6, [0xD0 / 8] = 7, [0xD8 / 8] = 8, [0xE8 / 8] = 9,
    [0x1000 / 8] = 10, [0x1040 / 8] = 11, [0x1080 / 8] = 12, [0x10C0 / 8] = 13, [0x1100 / 8] = 14, [0x1140 / 8] = 15, [0x1180 / 8] = 16,
    [0x3000 / 8] = 17, [0x3008 / 8] = 18, [0x3010 / 8] = 19, [0x3018 / 8] = 20, [0x3020 / 8] = 21, [0x3028 / 8] = 22, [0x3030 / 8] = 23,
    [0x3038 / 8] = 24, [0x3040 / 8] = 25, [0x3048 / 8] = 26, [0x3050 / 8] = 27, [0x3058 / 8] = 28, [0x3060 / 8] = 29, [0x3068 / 8] = 30,
    [0x3070 / 8] = 31, [0x3078 / 8] = 32, [0x3080 / 8] = 33, [0x4010 / 8] = 34, [0x4060 / 8] = 35, [0x4068 / 8] = 36, [0x4070 / 8] = 37,
    [0x4078 / 8] = 38
};

/* the header: one more than the row, by a quarter of the offset */
static const uint8_t header_at[64] = {
    [0x00 / 4] = 39, [0x04 / 4] = 40, [0x08 / 4] = 41, [0x0C / 4] = 42, [0x10 / 4] = 43, [0x14 / 4] = 44, [0x18 / 4] = 45, [0x28 / 4] = 46, [0x2C / 4] = 47,
    [0x30 / 4] = 48, [0x34 / 4] = 49, [0x3C / 4] = 50, [0x40 / 4] = 51, [0x44 / 4] = 52, [0x48 / 4] = 53, [0xF8 / 4] = 54, [0xFC / 4] = 55
};

/* the indirect registers (000, table 5.2 and 3.6): one more than the row, by the index */
static const uint8_t index_at[256] = {
    [0x06] = 56, [0x18] = 57, [0x19] = 58, [0x1C] = 59, [0x1E] = 60, [0x20] = 61, [0x21] = 62, [0x22] = 63, [0x23] = 64, [0x24] = 65, [0x25] = 66,
    [0x26] = 67, [0x27] = 68, [0x28] = 69, [0x29] = 70, [0x30] = 71, [0x31] = 72, [0x32] = 73, [0x33] = 74, [0x40] = 75, [0x41] = 76, [0x42] = 77,
    [0x43] = 78, [0x44] = 79
};

/* the clocks' parameters are only written (01, RAMDAC), and two registers of region 0 only read */
static int row_reads(unsigned row) {
    return !(row >= PM_ROW_RD_PIXEL_CLOCK_A1 && row <= PM_ROW_RD_PIXEL_CLOCK_C3) && !(row >= PM_ROW_RD_MEMORY_CLOCK_1 && row <= PM_ROW_RD_MEMORY_CLOCK_3);
}

static int row_writes(unsigned row) { return row != PM_ROW_FRAMEBUFFER_WRITE_MASK && row != PM_ROW_COUNT_1180H; }

static const uint32_t lanes_of[16] = {
    0x00000000, 0x000000FF, 0x0000FF00, 0x0000FFFF, 0x00FF0000, 0x00FF00FF, 0x00FFFF00, 0x00FFFFFF, 0xFF000000, 0xFF0000FF, 0xFF00FF00, 0xFF00FFFF,
    0xFFFF0000, 0xFFFF00FF, 0xFFFFFF00, 0xFFFFFFFF
};

/* ---- refusal 1: what a state is ---- */

static int panel_ok(uint32_t width, uint32_t height) { return width - 1 < 1024 && height - 1 < 1024; }

static int memory_ok(size_t fitted) { return fitted % 8 == 0 && fitted >= 8 && fitted <= 8388608; }

static uint32_t half_bits(uint32_t halves) { return (halves & 1 ? 0xFFFFu : 0) | (halves & 2 ? 0xFFFF0000u : 0); }

/* The faults are gathered without a branch, so that the loops run over many elements at a time. */
static int is_state(const struct pm_state *s) {
    if (!panel_ok(s->width, s->height) || !memory_ok(s->fitted) || s->once > 3) return 0;
    if (s->dac.component > 2 || (s->dac.address & ~s->dac.known) != 0) return 0;
    uint32_t bad = 0;
    for (unsigned i = 0; i < PM_ROWS; i++) {
        uint32_t v = s->values[i], k = s->knowns[i], may = row_writable[i];
        if (i == PM_ROW_CFG_COMMAND_STATUS) may |= STATUS_BITS;
        if (i == PM_ROW_CFG_SUBSYSTEM) may = half_bits(s->once);
        bad |= (((v ^ row_reset[i]) | (k ^ row_known[i])) & ~may) | ((v | row_known[i]) & ~k);
    }
    /* with the flag turned over, 0 and every stored colour are at most 01000000h, and no other word is */
    uint32_t most = 0;
    for (unsigned i = 0; i < PM_ENTRIES; i++) {
        uint32_t turned = s->palette[i] ^ PM_DOT_COLOUR;
        most = turned > most ? turned : most;
    }
    return bad == 0 && most <= PM_DOT_COLOUR;
}

/* ---- the picture (01, The picture) ---- */

/* what of a state places the dots: the fixed word of rules 1 and 2, or 0; bytes, not units */
struct view {
    uint32_t fixed;
    uint64_t base, stride;
    uint8_t mask;
};

static struct view view_of(const struct pm_state *s) {
    struct view v;
    v.base = (uint64_t)(s->values[PM_ROW_SCREEN_BASE] & UNITS) * 8;
    v.stride = (uint64_t)(s->values[PM_ROW_SCREEN_STRIDE] & UNITS) * 8;
    v.mask = (uint8_t)s->values[PM_ROW_PIXEL_MASK];
    v.fixed = 0;
    if ((s->values[PM_ROW_RD_COLOR_MODE] & 0x1F) != 0x10)
        v.fixed = PM_DOT_OFF;
    else if ((s->knowns[PM_ROW_SCREEN_BASE] & s->knowns[PM_ROW_SCREEN_STRIDE] & UNITS) != UNITS || (s->knowns[PM_ROW_PIXEL_MASK] & 0xFF) != 0xFF)
        v.fixed = PM_DOT_UNPLACED;
    return v;
}

/* the word of an entry's dots is the entry's own, once it was stored */
static uint32_t entry_word(const uint32_t *palette, unsigned e) { return palette[e] ? palette[e] : PM_DOT_NEVER; }

static void table_of(uint32_t *table, const uint32_t *palette, uint8_t mask) {
    for (unsigned b = 0; b < 256; b++) table[b] = entry_word(palette, b & mask);
}

/* how many of the dots of a row, whose bytes start at a place, lie in memory */
static size_t in_memory(uint64_t start, size_t width, size_t fitted) {
    if (start >= fitted) return 0;
    return fitted - start < width ? (size_t)(fitted - start) : width;
}

/* a dot's word goes from a to b; 1 where what stands there changes */
static inline uint32_t put(uint32_t *dot, uint32_t a, uint32_t b) {
    uint32_t p = *dot, q = a == b ? p : b;
    *dot = q;
    return p != q;
}

/* a row that shows n bytes by a table and then one word */
struct line {
    const uint8_t *bytes;
    size_t n;
    const uint32_t *table;
    uint32_t past;
};

static struct line line_of(const struct view *v, const uint32_t *table, uint64_t y, size_t width, const uint8_t *memory, size_t fitted) {
    struct line l = { memory, 0, table, v->fixed };
    if (v->fixed) return l;
    uint64_t start = v->base + v->stride * y;
    l.n = in_memory(start, width, fitted);
    if (l.n) l.bytes = memory + start;
    l.past = PM_DOT_BEYOND;
    return l;
}

static uint32_t draw_line(uint32_t *dots, size_t width, struct line a, struct line b) {
    uint32_t changed = 0;
    size_t x = 0, both = a.n < b.n ? a.n : b.n;
    for (; x < both; x++) changed += put(&dots[x], a.table[a.bytes[x]], b.table[b.bytes[x]]);
    for (; x < a.n; x++) changed += put(&dots[x], a.table[a.bytes[x]], b.past);
    for (; x < b.n; x++) changed += put(&dots[x], a.past, b.table[b.bytes[x]]);
    if (a.past != b.past)
        for (; x < width; x++) changed += put(&dots[x], a.past, b.past);
    return changed;
}

/* base, stride, mask or colour mode went from one view to another */
static uint32_t redraw(const struct pm_state *s, struct view from, struct view to, const uint8_t *memory, uint32_t *picture) {
    if (from.fixed ? from.fixed == to.fixed : !to.fixed && from.base == to.base && from.stride == to.stride && from.mask == to.mask) return 0;
    uint32_t t0[256], t1[256];
    if (!from.fixed) table_of(t0, s->palette, from.mask);
    if (!to.fixed) table_of(t1, s->palette, to.mask);
    uint32_t changed = 0;
    for (uint64_t y = 0; y < s->height; y++)
        changed += draw_line(picture + y * s->width, s->width, line_of(&from, t0, y, s->width, memory, s->fitted),
            line_of(&to, t1, y, s->width, memory, s->fitted));
    return changed;
}

/* entry e went to the word w: the dots whose byte, masked, is e */
static uint32_t redraw_entry(const struct pm_state *s, unsigned e, uint32_t w, const uint8_t *memory, uint32_t *picture) {
    struct view v = view_of(s);
    if (v.fixed || (e & v.mask) != e) return 0;
    uint32_t changed = 0;
    for (uint64_t y = 0; y < s->height; y++) {
        uint64_t start = v.base + v.stride * y;
        size_t n = in_memory(start, s->width, s->fitted);
        uint32_t *dots = picture + y * s->width;
        for (size_t x = 0; x < n; x++) {
            uint32_t p = dots[x], q = (memory[start + x] & v.mask) == e ? w : p;
            dots[x] = q;
            changed += p != q;
        }
    }
    return changed;
}

/* the dots that show memory byte at, as its word goes from a to b */
static uint32_t redraw_byte(const struct pm_state *s, const struct view *v, uint64_t at, uint32_t a, uint32_t b, uint32_t *picture) {
    if (a == b || at < v->base) return 0;
    uint64_t d = at - v->base, first = 0, end = s->height, stride = v->stride, width = s->width;
    if (stride == 0) {
        if (d >= width) return 0;
    } else {
        if (d >= width) first = (d - width) / stride + 1;
        if (d / stride < end) end = d / stride + 1;
    }
    uint32_t changed = 0;
    for (uint64_t y = first; y < end; y++) changed += put(&picture[y * width + (d - y * stride)], a, b);
    return changed;
}

/* ---- apertures ---- */

/* what is asked for; a read and a look have no word */
struct asked {
    uint32_t target, offset, enables, word;
};

/* the lane of memory byte o + i, by swap code: the rule of 01 written out, so that the two models do not share a way to it */
static const uint8_t lane_of[3][4] = { { 0, 1, 2, 3 }, { 3, 2, 1, 0 }, { 2, 3, 0, 1 } };

static uint32_t write_memory(const struct pm_state *s, const struct asked *a, unsigned swap, uint8_t *memory, uint32_t *picture) {
    struct view v = view_of(s);
    uint32_t changed = 0;
    /* a word never crosses the end of a row where rows do not overlap: offsets are multiples of four, rows of eight. One division serves it */
    int apart = v.stride >= s->width;
    uint64_t x = 0, y = 0;
    if (!v.fixed && apart && a->offset >= v.base) {
        uint64_t d = a->offset - v.base;
        y = d / v.stride;
        x = d % v.stride;
    }
    for (unsigned i = 0; i < 4; i++) {
        unsigned lane = lane_of[swap][i];
        if (!(a->enables >> lane & 1)) continue;
        uint64_t at = (uint64_t)a->offset + i;
        uint8_t old = memory[at], new = (uint8_t)(a->word >> 8 * lane);
        memory[at] = new;
        if (v.fixed || at < v.base) continue;
        uint32_t before = entry_word(s->palette, old & v.mask), after = entry_word(s->palette, new & v.mask);
        if (!apart)
            changed += redraw_byte(s, &v, at, before, after, picture);
        else if (x + i < s->width && y < s->height)
            changed += put(&picture[y * s->width + x + i], before, after);
    }
    return changed;
}

static uint32_t read_memory(uint32_t offset, unsigned swap, const uint8_t *memory) {
    uint32_t w = 0;
    for (unsigned i = 0; i < 4; i++) w |= (uint32_t)memory[offset + i] << 8 * lane_of[swap][i];
    return w;
}

/* 3.2.11: bits 0 and 1 the swap; 3 packed 16-bit, 8 SVGA, 9 ROM */
static uint32_t window_status(const struct pm_state *s, uint32_t control, uint32_t offset) {
    if ((uint64_t)offset + 4 > s->fitted) return PM_NOTHING_HERE;
    return (control & 3) == 3 || (control & 0x308) ? PM_MODE_UNSERVED : PM_DONE;
}

static uint32_t control_of(const struct pm_state *s, uint32_t target) {
    return s->values[target == PM_APERTURE_ONE ? PM_ROW_APERTURE_ONE : PM_ROW_APERTURE_TWO];
}

/* ---- a read, a write and a look: what they share ---- */

/* refusals 2 to 4 */
static uint32_t form_status(const struct pm_state *s, const struct asked *a, size_t memory_length, size_t picture_length) {
    if (memory_length != s->fitted || picture_length != (size_t)s->width * s->height) return PM_WRONG_LENGTH;
    if (a->target > 3 || a->enables > 15) return PM_BAD_FORM;
    return a->offset % 4 ? PM_UNALIGNED : PM_DONE;
}

/* one more than the row of a register in region 0 or behind the index, or 0 */
static unsigned region_row(const struct pm_state *s, uint32_t offset) {
    if (offset == 0x4050) return s->dac.known == 0xFF ? index_at[s->dac.address] : 0;
    return offset % 8 == 0 && offset / 8 < ROW_OFFSETS ? row_at[offset / 8] : 0;
}

/* ---- a look, and a read, which is a look that steps ---- */

static struct pm_reply not_seen(uint32_t status) {
    struct pm_reply r = { status, 0, 0 };
    return r;
}

static struct pm_reply seen(uint32_t value, uint32_t known, uint32_t enables) {
    known &= lanes_of[enables];
    struct pm_reply r = { PM_DONE, value & known, known };
    return r;
}

static struct pm_reply register_seen(const struct pm_state *s, unsigned row, uint32_t enables) {
    return row_reads(row) ? seen(s->values[row], s->knowns[row], enables) : not_seen(PM_NO_DIRECTION);
}

static struct pm_reply data_seen(const struct pm_state *s, uint32_t enables) {
    const struct pm_dac *d = &s->dac;
    if (d->known != 0xFF) return not_seen(PM_NOTHING_HERE);
    uint32_t w = s->palette[d->address], v = w >> 8 * (2 - d->component) & 0xFF;
    return seen(s->values[PM_ROW_RD_MISC_CONTROL] & 2 ? v : v / 4, w ? 0xFF : 0, enables);
}

static struct pm_reply region_seen(const struct pm_state *s, const struct asked *a) {
    if (a->offset == 0x4000 || a->offset == 0x4018) return seen(s->dac.address, s->dac.known, a->enables);
    if (a->offset == 0x4008) return data_seen(s, a->enables);
    unsigned row = region_row(s, a->offset);
    return row ? register_seen(s, row - 1, a->enables) : not_seen(PM_NOTHING_HERE);
}

static struct pm_reply window_seen(const struct pm_state *s, const struct asked *a, const uint8_t *memory) {
    uint32_t control = control_of(s, a->target), status = window_status(s, control, a->offset);
    return status ? not_seen(status) : seen(read_memory(a->offset, control & 3, memory), ALL, a->enables);
}

static struct pm_reply header_seen(const struct pm_state *s, const struct asked *a) {
    if (a->offset > 0xFC) return not_seen(PM_NOTHING_HERE);
    unsigned row = header_at[a->offset / 4];
    return row ? register_seen(s, row - 1, a->enables) : seen(0, ALL, a->enables);
}

static struct pm_reply seen_at(const struct pm_state *s, const struct asked *a, const uint8_t *memory, size_t memory_length, size_t picture_length) {
    uint32_t status = form_status(s, a, memory_length, picture_length);
    if (status) return not_seen(status);
    switch (a->target) {
    case PM_REGION_0: return region_seen(s, a);
    case PM_CONFIGURATION: return header_seen(s, a);
    default: return window_seen(s, a, memory);
    }
}

struct pm_reply plain_look(const struct pm_state *s, uint32_t target, uint32_t offset, uint32_t enables, const uint8_t *memory, size_t memory_length,
    const uint32_t *picture, size_t picture_length) {
    (void)picture;
    struct asked a = { target, offset, enables, 0 };
    return is_state(s) ? seen_at(s, &a, memory, memory_length, picture_length) : not_seen(PM_NO_STATE);
}

/* every read and write of palette data advances the component, and after 2 the address */
static void advance(struct pm_dac *d, uint8_t staged, uint8_t red, uint8_t green) {
    if (d->component < 2) {
        d->component++;
    } else {
        d->component = 0;
        d->address++;
    }
    d->staged = staged;
    d->red = red;
    d->green = green;
}

struct pm_reply plain_sure_read(struct pm_state *s, uint32_t target, uint32_t offset, uint32_t enables, const uint8_t *memory, size_t memory_length,
    const uint32_t *picture, size_t picture_length) {
    (void)picture;
    struct asked a = { target, offset, enables, 0 };
    struct pm_reply r = seen_at(s, &a, memory, memory_length, picture_length);
    if (r.status == PM_DONE && target == PM_REGION_0 && offset == 0x4008 && (enables & 1)) advance(&s->dac, 0, 0, 0);
    return r;
}

struct pm_reply plain_read(struct pm_state *s, uint32_t target, uint32_t offset, uint32_t enables, const uint8_t *memory, size_t memory_length,
    const uint32_t *picture, size_t picture_length) {
    if (!is_state(s)) return not_seen(PM_NO_STATE);
    return plain_sure_read(s, target, offset, enables, memory, memory_length, picture, picture_length);
}

/* ---- a write ---- */

static struct pm_wrote not_written(uint32_t status) {
    struct pm_wrote r = { status, 0 };
    return r;
}

static struct pm_wrote written(uint32_t changed) {
    struct pm_wrote r = { PM_DONE, changed };
    return r;
}

static struct pm_wrote write_window(const struct pm_state *s, const struct asked *a, uint8_t *memory, uint32_t *picture) {
    uint32_t control = control_of(s, a->target), status = window_status(s, control, a->offset);
    return status ? not_written(status) : written(write_memory(s, a, control & 3, memory, picture));
}

/* any register of the bank */
static struct pm_wrote write_register(struct pm_state *s, const struct asked *a, unsigned row, const uint8_t *memory, uint32_t *picture) {
    if (!row_writes(row)) return not_written(PM_NO_DIRECTION);
    uint32_t bits = row_writable[row], word = a->word;
    if (row == PM_ROW_CFG_SUBSYSTEM) { /* D-17: a half is fixed by the first write with both of its lanes */
        uint32_t halves = ((a->enables & 3) == 3 ? 1u : 0u) | ((a->enables & 12) == 12 ? 2u : 0u);
        bits = half_bits(halves & ~s->once);
        s->once |= halves;
    } else {
        if (row == PM_ROW_CFG_COMMAND_STATUS) {
            bits |= STATUS_BITS & word;
            word &= ~STATUS_BITS;
        }
        bits &= lanes_of[a->enables];
    }
    int shows = row == PM_ROW_SCREEN_BASE || row == PM_ROW_SCREEN_STRIDE || row == PM_ROW_PIXEL_MASK || row == PM_ROW_RD_COLOR_MODE;
    struct view from = { 0 };
    if (shows) from = view_of(s);
    s->values[row] = (s->values[row] & ~bits) | (word & bits);
    s->knowns[row] |= bits;
    return written(shows ? redraw(s, from, view_of(s), memory, picture) : 0);
}

static struct pm_wrote write_header(struct pm_state *s, const struct asked *a, const uint8_t *memory, uint32_t *picture) {
    if (a->offset > 0xFC) return not_written(PM_NOTHING_HERE);
    unsigned row = header_at[a->offset / 4];
    return row ? write_register(s, a, row - 1, memory, picture) : written(0);
}

static struct pm_wrote write_data(struct pm_state *s, const struct asked *a, const uint8_t *memory, uint32_t *picture) {
    struct pm_dac *d = &s->dac;
    if (d->known != 0xFF) return not_written(PM_NOTHING_HERE);
    if (!(a->enables & 1)) return written(0);
    unsigned e = d->address;
    uint32_t w = a->word % 64;
    uint8_t v = (uint8_t)(s->values[PM_ROW_RD_MISC_CONTROL] & 2 ? a->word : 4 * w + w / 16);
    if (d->component == 0) {
        advance(d, 1, v, 0);
    } else if (d->component == 1 && d->staged == 1) {
        advance(d, 2, d->red, v);
    } else if (d->component == 2 && d->staged == 2) {
        uint32_t before = s->palette[e], after = PM_DOT_COLOUR | (uint32_t)d->red << 16 | (uint32_t)d->green << 8 | v;
        s->palette[e] = after;
        advance(d, 0, 0, 0);
        if (before != after) return written(redraw_entry(s, e, after, memory, picture));
    } else {
        advance(d, 0, 0, 0);
    }
    return written(0);
}

static struct pm_wrote write_region(struct pm_state *s, const struct asked *a, const uint8_t *memory, uint32_t *picture) {
    if (a->offset == 0x4008) return write_data(s, a, memory, picture);
    if (a->offset == 0x4000 || a->offset == 0x4018) { /* RDPaletteWriteAddress and RDPaletteReadAddress: one address */
        if (a->enables & 1) s->dac = (struct pm_dac){ .address = (uint8_t)a->word, .known = 0xFF };
        return written(0);
    }
    unsigned row = region_row(s, a->offset);
    return row ? write_register(s, a, row - 1, memory, picture) : not_written(PM_NOTHING_HERE);
}

struct pm_wrote plain_sure_write(struct pm_state *s, uint32_t target, uint32_t offset, uint32_t enables, uint32_t word, uint8_t *memory,
    size_t memory_length, uint32_t *picture, size_t picture_length) {
    struct asked a = { target, offset, enables, word };
    uint32_t status = form_status(s, &a, memory_length, picture_length);
    if (status) return not_written(status);
    switch (target) {
    case PM_REGION_0: return write_region(s, &a, memory, picture);
    case PM_CONFIGURATION: return write_header(s, &a, memory, picture);
    default: return write_window(s, &a, memory, picture);
    }
}

struct pm_wrote plain_write(struct pm_state *s, uint32_t target, uint32_t offset, uint32_t enables, uint32_t word, uint8_t *memory, size_t memory_length,
    uint32_t *picture, size_t picture_length) {
    if (!is_state(s)) return not_written(PM_NO_STATE);
    return plain_sure_write(s, target, offset, enables, word, memory, memory_length, picture, picture_length);
}

/* ---- a list ---- */

uint32_t plain_run(struct pm_state *s, const uint32_t *list, size_t list_length, uint32_t *answers, size_t answers_length, uint8_t *memory,
    size_t memory_length, uint32_t *picture, size_t picture_length) {
    size_t n = list_length / PLAIN_LIST_WORDS;
    if (list_length % PLAIN_LIST_WORDS || answers_length != PLAIN_ANSWER_WORDS * n) return 2;
    uint32_t *statuses = answers, *words = statuses + n, *knowns = words + n, *changes = knowns + n;
    for (size_t i = 0; i < n; i++) {
        const uint32_t *a = list + PLAIN_LIST_WORDS * i;
        if (a[2]) {
            struct pm_wrote r = plain_sure_write(s, a[0], a[1], a[3], a[4], memory, memory_length, picture, picture_length);
            statuses[i] = r.status;
            words[i] = 0;
            knowns[i] = 0;
            changes[i] = r.changed;
        } else {
            struct pm_reply r = plain_sure_read(s, a[0], a[1], a[3], memory, memory_length, picture, picture_length);
            statuses[i] = r.status;
            words[i] = r.word;
            knowns[i] = r.known;
            changes[i] = 0;
        }
    }
    return 0;
}

/* ---- an opening ---- */

/* the two bytes behind the last field are left */
static void reset(struct pm_state *s, uint32_t width, uint32_t height, uint32_t fitted) {
    s->width = width;
    s->height = height;
    s->fitted = fitted;
    s->once = 0;
    memcpy(s->values, row_reset, sizeof s->values);
    memcpy(s->knowns, row_known, sizeof s->knowns);
    memset(s->palette, 0, sizeof s->palette);
    memset(&s->dac, 0, sizeof s->dac);
}

uint32_t plain_open(struct pm_state *s, uint32_t width, uint32_t height, uint8_t *memory, size_t memory_length, uint32_t *picture, size_t picture_length) {
    (void)memory;
    reset(s, 0, 0, 0);
    if (!panel_ok(width, height)) return PM_BAD_PANEL;
    if (!memory_ok(memory_length)) return PM_BAD_MEMORY;
    if (picture_length != (size_t)width * height) return PM_WRONG_LENGTH;
    for (size_t i = 0; i < picture_length; i++) picture[i] = PM_DOT_OFF;
    reset(s, width, height, (uint32_t)memory_length);
    return PM_DONE;
}
