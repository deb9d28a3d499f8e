/* How much stack a call takes, on a panel of 1,024 by 1,024 dots. The stack below the caller is painted, the call is made, and the lowest byte that is no longer the paint
 * says how deep the call went: arguments, return addresses and all that it calls counted. What a call sets aside and never writes is not seen, and not used either.
 * Each call is made three times: once unseen, since a function of the C library is looked up at its first call, and that takes stack too; then over two paints, since a
 * call may write the byte that a paint has. */
#include "reefstencil.h"
#include <stdio.h>

#define LIMIT 4096u  /* what a call may take */
#define ROOM 65536u  /* what is painted */
#define SIDE 1024u
#define DOTS (SIDE * SIDE)
#define BYTES (SIDE * SIDE)

static uint8_t memory[BYTES];
static uint32_t picture[DOTS];
static struct pm_state state;

/* ---- painting and looking ---- */

static volatile uint8_t *low; /* the lowest byte that is painted */

/* The room is this function's own; when it returns, it lies free below the caller, with the paint in it. */
__attribute__((noinline)) static void paint(uint8_t colour) {
    volatile uint8_t room[ROOM];
    for (size_t i = 0; i < ROOM; i++) room[i] = colour;
    low = room;
}

/* From the caller's stack pointer down to the lowest byte that the call wrote. */
__attribute__((noinline)) static size_t depth_over(void (*call)(void), uint8_t colour) {
    volatile uint8_t *here;
    paint(colour);
    __asm__ volatile("mov %%rsp, %0" : "=r"(here));
    call();
    volatile uint8_t *p = low;
    while (p < here && *p == colour) p++;
    return (size_t)(here - p);
}

/* ---- the calls ---- */

static void opens(void) { pm_open(&state, SIDE, SIDE, memory, BYTES, picture, DOTS); }

static uint32_t writes(uint32_t target, uint32_t offset, uint32_t word) {
    return pm_write(&state, target, offset, 15, word, memory, BYTES, picture, DOTS).changed;
}

static void opens_badly(void) { pm_open(&state, SIDE + 1, SIDE, memory, BYTES, picture, DOTS); }
static void reads_register(void) { pm_read(&state, PM_REGION_0, 0x1080, 15, memory, BYTES, picture, DOTS); }
static void reads_palette(void) { pm_read(&state, PM_REGION_0, 0x4008, 15, memory, BYTES, picture, DOTS); }
static void reads_memory(void) { pm_read(&state, PM_APERTURE_ONE, 4, 15, memory, BYTES, picture, DOTS); }
static void looks(void) { pm_look(&state, PM_REGION_0, 0x4008, 15, memory, BYTES, picture, DOTS); }
static void writes_base(void) { writes(PM_REGION_0, 0x3000, 1); }
static void writes_stride(void) { writes(PM_REGION_0, 0x3008, 1); }
static void writes_mask(void) { writes(PM_REGION_0, 0x4010, 1); }
static void writes_mode(void) { writes(PM_REGION_0, 0x4050, 0); }
static void writes_blue(void) { writes(PM_REGION_0, 0x4008, 3); }
static void writes_memory(void) { writes(PM_APERTURE_ONE, 4, 0x02030001); }
static void writes_subsystem(void) { writes(PM_CONFIGURATION, 0x2C, 0x12345678); }

/* ---- what they start from: a picture with colours in it, and the RAMDAC at an address ---- */

static void starts(uint32_t address) {
    for (size_t i = 0; i < BYTES; i++) memory[i] = (uint8_t)(i * 7);
    opens();
    writes(PM_REGION_0, 0x4000, 0x18); /* RDColorMode: 8-bit indexed, GUI */
    writes(PM_REGION_0, 0x4050, 0x10);
    writes(PM_REGION_0, 0x3000, 0);
    writes(PM_REGION_0, 0x3008, SIDE / 8);
    for (uint32_t e = 0; e < 8; e++) {
        writes(PM_REGION_0, 0x4000, e);
        for (uint32_t i = 0; i < 3; i++) writes(PM_REGION_0, 0x4008, e + i);
    }
    writes(PM_REGION_0, 0x4000, address);
}

/* red and green of entry 9 are written */
static void starts_blue(void) {
    starts(9);
    writes(PM_REGION_0, 0x4008, 1);
    writes(PM_REGION_0, 0x4008, 2);
}

static void starts_any(void) { starts(1); }
static void starts_mode(void) { starts(0x18); }

/* every row of the picture is the same: one byte of memory shows in 1,024 dots */
static void starts_flat(void) {
    starts(1);
    writes(PM_REGION_0, 0x3008, 0);
}

/* ---- can this test fail? A function of its own that takes 5,000 bytes must be found too deep ---- */

__attribute__((noinline)) static void deep(void) {
    volatile uint8_t own[5000];
    for (size_t i = 0; i < sizeof own; i++) own[i] = 1;
}

static size_t depth(void (*start)(void), void (*call)(void)) {
    static const uint8_t paints[3] = { 0, 0xA5, 0x5A };
    size_t most = 0;
    for (unsigned i = 0; i < 3; i++) {
        start();
        size_t found = depth_over(call, paints[i]);
        if (i > 0 && found > most) most = found;
    }
    return most;
}

static const struct {
    const char *name;
    void (*start)(void);
    void (*call)(void);
} calls[] = {
    { "pm_open", starts_any, opens },
    { "pm_open, refused", starts_any, opens_badly },
    { "pm_read of BootAddress", starts_any, reads_register },
    { "pm_read of palette data", starts_any, reads_palette },
    { "pm_read of memory", starts_any, reads_memory },
    { "pm_look at palette data", starts_any, looks },
    { "pm_write of ScreenBase", starts_any, writes_base },
    { "pm_write of ScreenStride", starts_any, writes_stride },
    { "pm_write of RDPixelMask", starts_any, writes_mask },
    { "pm_write of RDColorMode", starts_mode, writes_mode },
    { "pm_write of an entry's third component", starts_blue, writes_blue },
    { "pm_write of memory", starts_any, writes_memory },
    { "pm_write of memory that 1,024 dots show", starts_flat, writes_memory },
    { "pm_write of the subsystem numbers", starts_any, writes_subsystem },
};

int main(void) {
    unsigned over = 0;
    size_t own = depth(starts_any, deep);
    if (own < 5000 || own > 6000) {
        printf("stack: a function that takes 5,000 bytes is found to take %u: the test is no good here\n", (unsigned)own);
        return 1;
    }
    for (size_t i = 0; i < sizeof calls / sizeof *calls; i++) {
        size_t d = depth(calls[i].start, calls[i].call);
        printf("stack: %5u bytes, %s%s\n", (unsigned)d, calls[i].name, d > LIMIT ? ": too many" : "");
        over += d > LIMIT;
    }
    printf("stack: %u calls, %u over %u bytes\n", (unsigned)(sizeof calls / sizeof *calls), over, LIMIT);
    return over != 0;
}
