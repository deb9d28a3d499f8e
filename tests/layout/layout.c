/* The layout of include/reefstencil.h against the library's own: each field is written on one side and read on the other, both ways.
 *
 * Places are numbered over a whole struct, field after field and element after element. Two rounds give each place two numbers that no other place
 * has together: a byte holds its number's lower byte in round 0 and the upper one in round 1, a word holds its number and the round. So two fields,
 * two elements or two widths that are taken for each other are seen. */
#include "reefstencil.h"
#include <stdio.h>
#include <string.h>

/* crates/layout, which is proved to make and to take apart each struct by its fields' names */
struct pm_reply made_reply(uint32_t status, uint32_t word, uint32_t known);
struct pm_wrote made_wrote(uint32_t status, uint32_t changed);
struct pm_state made_state(uint32_t width, uint32_t height, uint32_t fitted, uint32_t once, const uint32_t *values, const uint32_t *knowns,
    const uint32_t *palette, uint8_t address, uint8_t known, uint8_t component, uint8_t staged, uint8_t staged_red,
    uint8_t staged_green);
void parts_of_reply(struct pm_reply r, uint32_t *out);
void parts_of_wrote(struct pm_wrote w, uint32_t *out);
void sizes_of_state(struct pm_state s, uint32_t *out);
void values_of_state(struct pm_state s, uint32_t *out);
void knowns_of_state(struct pm_state s, uint32_t *out);
void palette_of_state(struct pm_state s, uint32_t *out);
void dac_of_state(struct pm_state s, uint8_t *out);

static unsigned place, round_number;
static unsigned tested, failed;

static uint8_t next_byte(void) {
    unsigned n = place++;
    return (uint8_t)(round_number == 0 ? n % 256 : n / 256);
}

static uint32_t next_word(void) { return 0x5A000000u + 0x10000u * round_number + place++; }

static void same(const char *what, unsigned at, uint32_t found, uint32_t wanted) {
    tested++;
    if (found != wanted) {
        failed++;
        printf("%s[%u]: %08x where %08x was written\n", what, at, (unsigned)found, (unsigned)wanted);
    }
}

static void fill_words(uint32_t *out, unsigned n) {
    for (unsigned i = 0; i < n; i++) out[i] = next_word();
}

static void fill_bytes(uint8_t *out, unsigned n) {
    for (unsigned i = 0; i < n; i++) out[i] = next_byte();
}

static void same_words(const char *what, const uint32_t *found, unsigned n) {
    for (unsigned i = 0; i < n; i++) same(what, i, found[i], next_word());
}

static void same_bytes(const char *what, const uint8_t *found, unsigned n) {
    for (unsigned i = 0; i < n; i++) same(what, i, found[i], next_byte());
}

/* ---- a state, by C's names, in the order of its fields ---- */

static struct pm_state written_state(unsigned from) {
    struct pm_state s;
    memset(&s, 0xEE, sizeof s);
    place = from;
    s.width = next_word();
    s.height = next_word();
    s.fitted = next_word();
    s.once = next_word();
    fill_words(s.values, PM_ROWS);
    fill_words(s.knowns, PM_ROWS);
    fill_words(s.palette, PM_ENTRIES);
    s.dac.address = next_byte();
    s.dac.known = next_byte();
    s.dac.component = next_byte();
    s.dac.staged = next_byte();
    s.dac.red = next_byte();
    s.dac.green = next_byte();
    return s;
}

static void read_state(const struct pm_state *s, unsigned from) {
    place = from;
    same("state.width", 0, s->width, next_word());
    same("state.height", 0, s->height, next_word());
    same("state.fitted", 0, s->fitted, next_word());
    same("state.once", 0, s->once, next_word());
    same_words("state.values", s->values, PM_ROWS);
    same_words("state.knowns", s->knowns, PM_ROWS);
    same_words("state.palette", s->palette, PM_ENTRIES);
    same("state.dac.address", 0, s->dac.address, next_byte());
    same("state.dac.known", 0, s->dac.known, next_byte());
    same("state.dac.component", 0, s->dac.component, next_byte());
    same("state.dac.staged", 0, s->dac.staged, next_byte());
    same("state.dac.red", 0, s->dac.red, next_byte());
    same("state.dac.green", 0, s->dac.green, next_byte());
}

/* ---- the same by the library: made from its parts, and taken apart ---- */

static struct pm_state library_state(unsigned from) {
    uint32_t sizes[4], values[PM_ROWS], knowns[PM_ROWS], palette[PM_ENTRIES];
    uint8_t dac[6];
    place = from;
    fill_words(sizes, 4);
    fill_words(values, PM_ROWS);
    fill_words(knowns, PM_ROWS);
    fill_words(palette, PM_ENTRIES);
    fill_bytes(dac, 6);
    return made_state(sizes[0], sizes[1], sizes[2], sizes[3], values, knowns, palette, dac[0], dac[1], dac[2], dac[3], dac[4], dac[5]);
}

static void library_reads_state(struct pm_state s, unsigned from) {
    uint32_t words[PM_ENTRIES];
    uint8_t bytes[6];
    place = from;
    sizes_of_state(s, words);
    same_words("library: width, height, fitted, once", words, 4);
    values_of_state(s, words);
    same_words("library: values", words, PM_ROWS);
    knowns_of_state(s, words);
    same_words("library: knowns", words, PM_ROWS);
    palette_of_state(s, words);
    same_words("library: palette", words, PM_ENTRIES);
    dac_of_state(s, bytes);
    same_bytes("library: dac", bytes, 6);
}

/* ---- the answers ---- */

static void test_reply(void) {
    uint32_t w[3];
    struct pm_reply c;
    place = 1;
    c.status = next_word();
    c.word = next_word();
    c.known = next_word();
    parts_of_reply(c, w);
    place = 1;
    same_words("library: reply", w, 3);

    place = 1;
    fill_words(w, 3);
    struct pm_reply r = made_reply(w[0], w[1], w[2]);
    place = 1;
    same("reply.status", 0, r.status, next_word());
    same("reply.word", 0, r.word, next_word());
    same("reply.known", 0, r.known, next_word());
}

static void test_wrote(void) {
    uint32_t w[2];
    struct pm_wrote c;
    place = 1;
    c.status = next_word();
    c.changed = next_word();
    parts_of_wrote(c, w);
    place = 1;
    same_words("library: wrote", w, 2);

    place = 1;
    fill_words(w, 2);
    struct pm_wrote r = made_wrote(w[0], w[1]);
    place = 1;
    same("wrote.status", 0, r.status, next_word());
    same("wrote.changed", 0, r.changed, next_word());
}

int main(void) {
    for (round_number = 0; round_number < 2; round_number++) {
        library_reads_state(written_state(1), 1);
        struct pm_state s = library_state(1);
        read_state(&s, 1);
        test_reply();
        test_wrote();
    }
    printf("layout: %u numbers tested, %u wrong\n", tested, failed);
    return failed != 0;
}
