/* What the calls do to what they are lent, by C's names: which field holds what after a call, that nothing around the lent parts is written, that a refusal
 * and a look alter nothing, and what a refused opening leaves. */
#include "reefstencil.h"
#include <stdio.h>
#include <string.h>

#define WIDTH 6u
#define HEIGHT 3u
#define DOTS (WIDTH * HEIGHT)
#define BYTES 64u

/* what is lent, with guards between the parts */
static struct world {
    uint8_t guard_0[64];
    struct pm_state s;
    uint8_t guard_1[64];
    uint8_t memory[BYTES];
    uint8_t guard_2[64];
    uint32_t picture[DOTS];
    uint8_t guard_3[64];
} w, kept;

static unsigned tested, wrong;

static void same(const char *what, uint32_t found, uint32_t wanted) {
    tested++;
    if (found != wanted) {
        wrong++;
        printf("%s: %08x, expected is %08x\n", what, (unsigned)found, (unsigned)wanted);
    }
}

#define GUARD 0xC3

static int guarded(const uint8_t *guard) {
    for (unsigned i = 0; i < 64; i++)
        if (guard[i] != GUARD) return 0;
    return 1;
}

/* the guards, and the two bytes of the struct after the RAMDAC's six */
static void same_guards(const char *what) {
    const uint8_t *end = (const uint8_t *)&w.s + offsetof(struct pm_state, dac) + sizeof w.s.dac;
    same(what, guarded(w.guard_0) && guarded(w.guard_1) && guarded(w.guard_2) && guarded(w.guard_3) && end[0] == GUARD && end[1] == GUARD, 1);
}

static struct pm_wrote put(uint32_t target, uint32_t offset, uint32_t word) {
    return pm_write(&w.s, target, offset, 15, word, w.memory, BYTES, w.picture, DOTS);
}

static struct pm_reply get(uint32_t target, uint32_t offset) { return pm_read(&w.s, target, offset, 15, w.memory, BYTES, w.picture, DOTS); }

static struct pm_reply see(uint32_t target, uint32_t offset) { return pm_look(&w.s, target, offset, 15, w.memory, BYTES, w.picture, DOTS); }

/* from here on nothing may alter .. */
static void keep(void) { memcpy(&kept, &w, sizeof w); }

/* .. and nothing did, not a byte */
static void same_all(const char *what) { same(what, memcmp(&w, &kept, sizeof w) == 0, 1); }

static void same_dac(const char *what, uint32_t address, uint32_t known, uint32_t component, uint32_t staged, uint32_t red, uint32_t green) {
    same(what, w.s.dac.address, address);
    same(what, w.s.dac.known, known);
    same(what, w.s.dac.component, component);
    same(what, w.s.dac.staged, staged);
    same(what, w.s.dac.red, red);
    same(what, w.s.dac.green, green);
}

/* ---- the parts of the test ---- */

static void test_library(void) {
    same("pm_abi", pm_abi(), PM_ABI);
    same("pm_state_size", pm_state_size(), sizeof(struct pm_state));
}

/* an opening alters every field of the state, whatever is there, and every dot; memory it leaves */
static void test_open(void) {
    memset(&w, GUARD, sizeof w);
    same("open", pm_open(&w.s, WIDTH, HEIGHT, w.memory, BYTES, w.picture, DOTS), PM_DONE);
    same("width", w.s.width, WIDTH);
    same("height", w.s.height, HEIGHT);
    same("fitted", w.s.fitted, BYTES);
    same("once", w.s.once, 0);
    same("BootAddress", w.s.values[PM_ROW_BOOT_ADDRESS], 0x31);
    same("BootAddress, known", w.s.knowns[PM_ROW_BOOT_ADDRESS], 0xFFFFFFFF);
    same("ScreenBase, known", w.s.knowns[PM_ROW_SCREEN_BASE], 0xFFF00000);
    same("Count, known", w.s.knowns[PM_ROW_COUNT_1180H], 0);
    same("RDMemoryClock3", w.s.values[PM_ROW_RD_MEMORY_CLOCK_3], 2);
    same("RDBlueKey, known", w.s.knowns[PM_ROW_RD_BLUE_KEY], 0xFF);
    for (unsigned i = 0; i < PM_ENTRIES; i++) same("an entry", w.s.palette[i], 0);
    same_dac("dac", 0, 0, 0, 0, 0, 0);
    for (unsigned i = 0; i < BYTES; i++) same("memory", w.memory[i], GUARD);
    for (unsigned i = 0; i < DOTS; i++) same("picture", w.picture[i], PM_DOT_OFF);
    same_guards("guards after an opening");
}

static void test_write(void) {
    same("write", put(PM_REGION_0, 0x3000, 0xFFFFFFFF).status, PM_DONE);
    same("ScreenBase", w.s.values[PM_ROW_SCREEN_BASE], 0xFFFFF);
    same("ScreenBase, known", w.s.knowns[PM_ROW_SCREEN_BASE], 0xFFFFFFFF);
    put(PM_REGION_0, 0x3000, 0);
    put(PM_REGION_0, 0x3008, 1);
    put(PM_CONFIGURATION, 0x2C, 0x56781234);
    same("subsystem", w.s.values[PM_ROW_CFG_SUBSYSTEM], 0x56781234);
    same("once", w.s.once, 3);
    put(PM_APERTURE_ONE, 8, 0x44332211);
    same("memory, byte 8", w.memory[8], 0x11);
    same("memory, byte 11", w.memory[11], 0x44);
    same("memory, byte 12", w.memory[12], GUARD);
    put(PM_REGION_0, 0x4000, 0x1E);
    put(PM_REGION_0, 0x4050, 2);
    same("RDMiscControl", w.s.values[PM_ROW_RD_MISC_CONTROL], 2);
    put(PM_REGION_0, 0x4000, 0x18);
    same("dots that change by RDColorMode", put(PM_REGION_0, 0x4050, 0x10).changed, DOTS);
    same("a dot", w.picture[0], PM_DOT_NEVER);
    same_guards("guards after writes");
}

/* the RAMDAC's six fields through a load, and the entry at its end */
static void test_palette(void) {
    put(PM_REGION_0, 0x4000, 0x44);
    same_dac("dac with an address", 0x44, 0xFF, 0, 0, 0, 0);
    put(PM_REGION_0, 0x4008, 0xA1);
    same_dac("dac after red", 0x44, 0xFF, 1, 1, 0xA1, 0);
    put(PM_REGION_0, 0x4008, 0xB2);
    same_dac("dac after green", 0x44, 0xFF, 2, 2, 0xA1, 0xB2);
    same("entry 44h before blue", w.s.palette[0x44], 0);
    same("dots that change by blue", put(PM_REGION_0, 0x4008, 0xC3).changed, 1);
    same_dac("dac after blue", 0x45, 0xFF, 0, 0, 0, 0);
    same("entry 44h", w.s.palette[0x44], 0x01A1B2C3);
    same("dot 3 of row 1", w.picture[1 * WIDTH + 3], 0x01A1B2C3);
    put(PM_REGION_0, 0x4018, 0x44);
    same("red is read", get(PM_REGION_0, 0x4008).word, 0xA1);
    same_dac("dac after a read", 0x44, 0xFF, 1, 0, 0, 0);
    keep();
    struct pm_reply r = see(PM_REGION_0, 0x4008);
    same("green is seen", r.word, 0xB2);
    same("green is known", r.known, 0xFF);
    same_all("a look leaves all as it is");
    get(PM_REGION_0, 0x1080);
    same_all("a read of a register leaves all as it is");
    same_guards("guards after a load");
}

/* a refused access: the number, zeros, and not a byte altered */
static void refuses_write(uint32_t status, uint32_t target, uint32_t offset, uint32_t enables, size_t bytes, size_t dots) {
    keep();
    struct pm_wrote v = pm_write(&w.s, target, offset, enables, 0xFFFFFFFF, w.memory, bytes, w.picture, dots);
    same("a refused write", v.status, status);
    same("a refused write's count", v.changed, 0);
    same_all("a refused write leaves all as it is");
}

static void refuses_read(uint32_t status, uint32_t target, uint32_t offset, uint32_t enables, size_t bytes, size_t dots) {
    keep();
    struct pm_reply r = pm_read(&w.s, target, offset, enables, w.memory, bytes, w.picture, dots);
    struct pm_reply l = pm_look(&w.s, target, offset, enables, w.memory, bytes, w.picture, dots);
    same("a refused read", r.status, status);
    same("a refused look", l.status, status);
    same("their words and masks", r.word | r.known | l.word | l.known, 0);
    same_all("a refused read or look leaves all as it is");
}

static void refuses(uint32_t status, uint32_t target, uint32_t offset, uint32_t enables, size_t bytes, size_t dots) {
    refuses_write(status, target, offset, enables, bytes, dots);
    refuses_read(status, target, offset, enables, bytes, dots);
}

static void test_refusals(void) {
    refuses(PM_WRONG_LENGTH, PM_REGION_0, 0x3000, 15, BYTES - 8, DOTS);
    refuses(PM_WRONG_LENGTH, PM_REGION_0, 0x3000, 15, BYTES, DOTS - 1);
    refuses(PM_BAD_FORM, 4, 0x3000, 15, BYTES, DOTS);
    refuses(PM_BAD_FORM, PM_REGION_0, 0x3000, 16, BYTES, DOTS);
    refuses(PM_UNALIGNED, PM_REGION_0, 0x3001, 15, BYTES, DOTS);
    refuses(PM_NOTHING_HERE, PM_REGION_0, 0x2000, 15, BYTES, DOTS);
    refuses(PM_NOTHING_HERE, PM_APERTURE_TWO, BYTES, 15, BYTES, DOTS);
    refuses_write(PM_NO_DIRECTION, PM_REGION_0, 0x1180, 15, BYTES, DOTS); /* Count */
    put(PM_REGION_0, 0x4000, 0x20);
    refuses_read(PM_NO_DIRECTION, PM_REGION_0, 0x4050, 15, BYTES, DOTS); /* RDPixelClockA1 */
    put(PM_REGION_0, 0x0050, 3);
    refuses(PM_MODE_UNSERVED, PM_APERTURE_ONE, 0, 15, BYTES, DOTS);
    w.s.palette[7] = 0x02000000;
    refuses(PM_NO_STATE, PM_REGION_0, 0x3000, 15, BYTES, DOTS);
    w.s.palette[7] = 0;
    w.s.dac.component = 3;
    refuses(PM_NO_STATE, PM_REGION_0, 0x3000, 15, BYTES, DOTS);
    w.s.dac.component = 0;
    same("a state again", put(PM_REGION_0, 0x3000, 0).status, PM_DONE);
}

/* a refused opening: a state of 0 by 0 dots, which every access refuses, and the buffers as they were */
static void opens_not(uint32_t status, uint32_t width, uint32_t height, size_t bytes, size_t dots) {
    keep();
    same("a refused opening", pm_open(&w.s, width, height, w.memory, bytes, w.picture, dots), status);
    same("its width", w.s.width, 0);
    same("its height", w.s.height, 0);
    same("its memory", memcmp(w.memory, kept.memory, sizeof w.memory) == 0, 1);
    same("its picture", memcmp(w.picture, kept.picture, sizeof w.picture) == 0, 1);
    same_guards("guards after a refused opening");
    refuses(PM_NO_STATE, PM_REGION_0, 0x3000, 15, BYTES, DOTS);
    refuses(PM_NO_STATE, PM_REGION_0, 0x3000, 15, BYTES, 0);
    same("opened again", pm_open(&w.s, WIDTH, HEIGHT, w.memory, BYTES, w.picture, DOTS), PM_DONE);
}

int main(void) {
    test_library();
    test_open();
    test_write();
    test_palette();
    test_refusals();
    opens_not(PM_BAD_PANEL, 0, HEIGHT, BYTES, DOTS);
    opens_not(PM_BAD_PANEL, WIDTH, 1025, BYTES, DOTS);
    opens_not(PM_BAD_MEMORY, WIDTH, HEIGHT, BYTES - 1, DOTS);
    opens_not(PM_WRONG_LENGTH, WIDTH, HEIGHT, BYTES, DOTS - 1);
    printf("lent: %u tested, %u wrong\n", tested, wrong);
    return wrong != 0;
}
