/* Do pm_open, pm_read, pm_write and pm_look hand each argument on as it is, and in its place? In the library's stead stand functions that compare all that they
 * get. Every number and every address here is another one, so two that change places are seen. */
#include "reefstencil.h"
#include <stdio.h>

static struct pm_state s;
static uint8_t memory[7];
static uint32_t picture[5];
static unsigned tested, wrong;

static void same(const char *call, const char *what, int is) {
    tested++;
    if (!is) {
        wrong++;
        printf("%s: %s is not what was handed in\n", call, what);
    }
}

/* the numbers of the state, of an access, and of the buffers' lengths */
enum { WIDTH = 11, HEIGHT = 12, FITTED = 13, ONCE = 14, TARGET = 15, OFFSET = 16, ENABLES = 17, WORD = 18, PANEL_WIDTH = 19, PANEL_HEIGHT = 20, BYTES = 21, DOTS = 22 };

static void same_parts(const char *call, const uint32_t *values, const uint32_t *knowns, const uint32_t *palette, const uint8_t *dac) {
    same(call, "values", values == s.values);
    same(call, "knowns", knowns == s.knowns);
    same(call, "palette", palette == s.palette);
    same(call, "dac", dac == &s.dac.address);
}

static void same_buffers(const char *call, const uint8_t *bytes, size_t bytes_length, const uint32_t *dots, size_t dots_length) {
    same(call, "memory", bytes == memory);
    same(call, "memory_length", bytes_length == BYTES);
    same(call, "picture", dots == picture);
    same(call, "picture_length", dots_length == DOTS);
}

static void same_sizes(const char *call, uint32_t width, uint32_t height, uint32_t fitted) {
    same(call, "width", width == WIDTH);
    same(call, "height", height == HEIGHT);
    same(call, "fitted", fitted == FITTED);
}

static void same_access(const char *call, uint32_t target, uint32_t offset, uint32_t enables) {
    same(call, "target", target == TARGET);
    same(call, "offset", offset == OFFSET);
    same(call, "enables", enables == ENABLES);
}

/* ---- in the library's stead ---- */

uint32_t pm_open_v2(uint32_t *width, uint32_t *height, uint32_t *fitted, uint32_t *once, uint32_t *values, uint32_t *knowns, uint32_t *palette,
    uint8_t *dac, uint32_t panel_width, uint32_t panel_height, uint8_t *bytes, size_t bytes_length, uint32_t *dots, size_t dots_length) {
    same("open", "width", width == &s.width);
    same("open", "height", height == &s.height);
    same("open", "fitted", fitted == &s.fitted);
    same("open", "once", once == &s.once);
    same_parts("open", values, knowns, palette, dac);
    same("open", "panel_width", panel_width == PANEL_WIDTH);
    same("open", "panel_height", panel_height == PANEL_HEIGHT);
    same_buffers("open", bytes, bytes_length, dots, dots_length);
    return 31;
}

struct pm_reply pm_read_v2(uint32_t width, uint32_t height, uint32_t fitted, uint32_t once, uint32_t *values, const uint32_t *knowns,
    const uint32_t *palette, uint8_t *dac, uint32_t target, uint32_t offset, uint32_t enables, const uint8_t *bytes, size_t bytes_length,
    const uint32_t *dots, size_t dots_length) {
    struct pm_reply r = { 32, 33, 34 };
    same_sizes("read", width, height, fitted);
    same("read", "once", once == ONCE);
    same_parts("read", values, knowns, palette, dac);
    same_access("read", target, offset, enables);
    same_buffers("read", bytes, bytes_length, dots, dots_length);
    return r;
}

struct pm_wrote pm_write_v2(uint32_t width, uint32_t height, uint32_t fitted, uint32_t *once, uint32_t *values, uint32_t *knowns, uint32_t *palette,
    uint8_t *dac, uint32_t target, uint32_t offset, uint32_t enables, uint32_t word, uint8_t *bytes, size_t bytes_length, uint32_t *dots,
    size_t dots_length) {
    struct pm_wrote r = { 35, 36 };
    same_sizes("write", width, height, fitted);
    same("write", "once", once == &s.once);
    same_parts("write", values, knowns, palette, dac);
    same_access("write", target, offset, enables);
    same("write", "word", word == WORD);
    same_buffers("write", bytes, bytes_length, dots, dots_length);
    return r;
}

struct pm_reply pm_look_v2(uint32_t width, uint32_t height, uint32_t fitted, uint32_t once, const uint32_t *values, const uint32_t *knowns,
    const uint32_t *palette, const uint8_t *dac, uint32_t target, uint32_t offset, uint32_t enables, const uint8_t *bytes, size_t bytes_length,
    const uint32_t *dots, size_t dots_length) {
    struct pm_reply r = { 37, 38, 39 };
    same_sizes("look", width, height, fitted);
    same("look", "once", once == ONCE);
    same_parts("look", values, knowns, palette, dac);
    same_access("look", target, offset, enables);
    same_buffers("look", bytes, bytes_length, dots, dots_length);
    return r;
}

int main(void) {
    s.width = WIDTH;
    s.height = HEIGHT;
    s.fitted = FITTED;
    s.once = ONCE;
    same("open", "the status", pm_open(&s, PANEL_WIDTH, PANEL_HEIGHT, memory, BYTES, picture, DOTS) == 31);
    struct pm_reply r = pm_read(&s, TARGET, OFFSET, ENABLES, memory, BYTES, picture, DOTS);
    same("read", "the answer", r.status == 32 && r.word == 33 && r.known == 34);
    struct pm_wrote w = pm_write(&s, TARGET, OFFSET, ENABLES, WORD, memory, BYTES, picture, DOTS);
    same("write", "the answer", w.status == 35 && w.changed == 36);
    struct pm_reply l = pm_look(&s, TARGET, OFFSET, ENABLES, memory, BYTES, picture, DOTS);
    same("look", "the answer", l.status == 37 && l.word == 38 && l.known == 39);
    printf("calls: %u arguments and answers tested, %u wrong\n", tested, wrong);
    return wrong != 0;
}
