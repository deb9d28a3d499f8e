/* An emulator's save code: the chip's state is written to a file with a version, read back, and gone on with. Where a damaged file holds no state, the
 * model says so: refusal 1. A state is plain numbers. The palette is 256 words, each the word of the entry's dots (01RRGGBBh) or 0, so the struct is saved
 * as it stands, and memory and picture after it. */
#include "reefstencil.h"
#include <stdio.h>
#include <string.h>

#define WIDTH 8u
#define HEIGHT 2u
#define DOTS (WIDTH * HEIGHT)
#define BYTES 16u

/* one chip with its buffers */
struct chip {
    struct pm_state state;
    uint8_t memory[BYTES];
    uint32_t picture[DOTS];
};

/* ---- the file ---- */

/* 1 stands for states of the layout before, with the palette in four columns, and 2 for words. Both structs have the same size, so only the number tells
 * them apart. */
enum { VERSION_COLUMNS = 1, VERSION_WORDS = 2 };

struct heading {
    char name[8];
    uint32_t version, state_bytes, memory_bytes, picture_bytes;
};

static const char name[8] = "RFSTATE";

static struct heading heading_of(uint32_t version) {
    struct heading h = { { 0 }, version, PM_STATE_SIZE, BYTES, 4 * DOTS };
    memcpy(h.name, name, sizeof name);
    return h;
}

static int save_as(const char *path, uint32_t version, const void *state, const struct chip *c) {
    struct heading h = heading_of(version);
    FILE *f = fopen(path, "wb");
    if (!f) return 0;
    int done = fwrite(&h, sizeof h, 1, f) == 1 && fwrite(state, sizeof(struct pm_state), 1, f) == 1 && fwrite(c->memory, sizeof c->memory, 1, f) == 1 &&
        fwrite(c->picture, sizeof c->picture, 1, f) == 1;
    return fclose(f) == 0 && done;
}

static int save(const char *path, const struct chip *c) {
    struct pm_state s;
    memset(&s, 0, sizeof s); /* the two bytes after the RAMDAC's six mean nothing: the file has zeros there */
    memcpy(&s, &c->state, offsetof(struct pm_state, dac) + sizeof s.dac);
    return save_as(path, VERSION_WORDS, &s, c);
}

/* ---- the layout of version 1: the same but for the palette, which came after the RAMDAC ---- */

struct columns {
    uint32_t sizes[4], values[PM_ROWS], knowns[PM_ROWS];
    struct pm_dac dac;
    uint8_t red[PM_ENTRIES], green[PM_ENTRIES], blue[PM_ENTRIES], stored[PM_ENTRIES];
};

#ifndef __cplusplus
_Static_assert(sizeof(struct columns) == sizeof(struct pm_state), "a state of either layout fills the same room");
#endif

/* Entry by entry, and nothing is lost either way: what was no state is none afterwards. */
static struct pm_state from_columns(const struct columns *o) {
    struct pm_state s;
    memset(&s, 0, sizeof s);
    memcpy(&s, o, offsetof(struct columns, dac));
    s.dac = o->dac;
    for (unsigned e = 0; e < PM_ENTRIES; e++)
        s.palette[e] = (uint32_t)o->stored[e] << 24 | (uint32_t)o->red[e] << 16 | (uint32_t)o->green[e] << 8 | o->blue[e];
    return s;
}

static struct columns to_columns(const struct pm_state *s) {
    struct columns o;
    memset(&o, 0, sizeof o);
    memcpy(&o, s, offsetof(struct columns, dac));
    o.dac = s->dac;
    for (unsigned e = 0; e < PM_ENTRIES; e++) {
        o.stored[e] = (uint8_t)(s->palette[e] >> 24);
        o.red[e] = (uint8_t)(s->palette[e] >> 16);
        o.green[e] = (uint8_t)(s->palette[e] >> 8);
        o.blue[e] = (uint8_t)s->palette[e];
    }
    return o;
}

/* ---- loading: 0, or what is wrong. The chip is altered only where all is well ---- */

static const char *read_parts(FILE *f, struct heading *h, uint8_t *state, struct chip *into) {
    if (fread(h, sizeof *h, 1, f) != 1) return "the file is too short";
    struct heading own = heading_of(h->version);
    if (memcmp(h->name, own.name, sizeof own.name) != 0) return "this is no saved chip";
    if (h->version != VERSION_COLUMNS && h->version != VERSION_WORDS) return "it was saved by a version that this program does not know";
    if (memcmp(h, &own, sizeof own) != 0) return "it was saved with other sizes";
    if (fread(state, sizeof(struct pm_state), 1, f) != 1 || fread(into->memory, sizeof into->memory, 1, f) != 1 ||
        fread(into->picture, sizeof into->picture, 1, f) != 1)
        return "the file is too short";
    return getc(f) == EOF ? 0 : "the file is too long";
}

static const char *load(const char *path, struct chip *into) {
    uint8_t bytes[sizeof(struct pm_state)];
    struct heading h;
    struct chip c;
    FILE *f = fopen(path, "rb");
    if (!f) return "the file cannot be opened";
    const char *wrong = read_parts(f, &h, bytes, &c);
    fclose(f);
    if (wrong) return wrong;
    if (h.version == VERSION_WORDS) {
        memcpy(&c.state, bytes, sizeof c.state);
    } else {
        struct columns o;
        memcpy(&o, bytes, sizeof o);
        c.state = from_columns(&o);
    }
    /* a look alters nothing, and with no lane enabled it shows nothing: it is there for its status. 1080h is BootAddress, which is always there */
    uint32_t status = pm_look(&c.state, PM_REGION_0, 0x1080, 0, c.memory, sizeof c.memory, c.picture, DOTS).status;
    if (status == PM_NO_STATE) return "refused as 1: what it holds is not a state, so the file is damaged";
    if (status == PM_WRONG_LENGTH) return "refused as 2: its panel or memory length does not fit the saved memory and picture";
    *into = c;
    return 0;
}

/* ---- a chip that is saved in the middle of a palette load ---- */

static struct pm_wrote write_word(struct chip *c, uint32_t target, uint32_t offset, uint32_t word) {
    return pm_write(&c->state, target, offset, 15, word, c->memory, sizeof c->memory, c->picture, DOTS);
}

static void write_index(struct chip *c, uint32_t index, uint32_t byte) {
    write_word(c, PM_REGION_0, 0x4000, index);
    write_word(c, PM_REGION_0, 0x4050, byte);
}

static void write_entry(struct chip *c, uint32_t entry, uint32_t rgb) {
    write_word(c, PM_REGION_0, 0x4000, entry);
    for (int shift = 16; shift >= 0; shift -= 8) write_word(c, PM_REGION_0, 0x4008, rgb >> shift & 255);
}

static int start(struct chip *c) {
    if (pm_open(&c->state, WIDTH, HEIGHT, c->memory, sizeof c->memory, c->picture, DOTS) != PM_DONE) return 0;
    write_index(c, 0x18, 0x10); /* RDColorMode: 8-bit indexed, GUI */
    write_index(c, 0x1E, 0x02); /* RDMiscControl: palette components of eight bits */
    write_word(c, PM_REGION_0, 0x3000, 0);
    write_word(c, PM_REGION_0, 0x3008, WIDTH / 8);
    write_entry(c, 0, 0x000000);
    write_entry(c, 1, 0xFF8000);
    for (uint32_t i = 0; i < BYTES; i += 4) write_word(c, PM_APERTURE_ONE, i, 0x03020100);
    write_word(c, PM_REGION_0, 0x4000, 2); /* red and green of entry 2 are staged, and blue is still to come */
    write_word(c, PM_REGION_0, 0x4008, 0x11);
    write_word(c, PM_REGION_0, 0x4008, 0x22);
    return 1;
}

static int same(const struct chip *a, const struct chip *b) {
    return memcmp(&a->state, &b->state, offsetof(struct pm_state, dac) + sizeof a->state.dac) == 0 && memcmp(a->memory, b->memory, sizeof a->memory) == 0 &&
        memcmp(a->picture, b->picture, sizeof a->picture) == 0;
}

static void print_row(const char *title, const struct chip *c) {
    printf("%s:", title);
    for (unsigned x = 0; x < WIDTH / 2; x++) printf(" %08x", (unsigned)c->picture[x]);
    putchar('\n');
}

/* ---- damaging a file: the state's bytes at a place are replaced ---- */

static void try_damaged(const char *path, const char *what, const struct chip *c, uint32_t version, size_t at, uint32_t word) {
    struct pm_state s = c->state;
    struct columns o = to_columns(&c->state);
    void *state = version == VERSION_COLUMNS ? (void *)&o : (void *)&s;
    memcpy((uint8_t *)state + at, &word, version == VERSION_COLUMNS ? 1 : 4);
    struct chip untouched = *c, into = *c;
    if (!save_as(path, version, state, c)) {
        printf("%s: it cannot be saved\n", what);
        return;
    }
    const char *wrong = load(path, &into);
    printf("%s: %s%s\n", what, wrong ? wrong : "loaded", same(&into, &untouched) ? "" : ", and it is another state");
}

/* a file that ends after the state */
static void try_short(const char *path, const struct chip *c) {
    struct heading h = heading_of(VERSION_WORDS);
    struct chip into = *c;
    FILE *f = fopen(path, "wb");
    if (!f) return;
    fwrite(&h, sizeof h, 1, f);
    fwrite(&c->state, sizeof c->state, 1, f);
    fclose(f);
    const char *wrong = load(path, &into);
    printf("without memory and picture: %s\n", wrong ? wrong : "loaded");
}

#define ENTRY(e) (offsetof(struct pm_state, palette) + 4 * (size_t)(e))

static int go_on(const char *path, struct chip *c) {
    static struct chip d;
    const char *wrong = load(path, &d);
    if (wrong) {
        printf("not loaded: %s\n", wrong);
        return 0;
    }
    printf("loaded: %s\n", same(c, &d) ? "the same state, memory and picture" : "not the same");
    struct pm_wrote r = write_word(c, PM_REGION_0, 0x4008, 0x33), s = write_word(&d, PM_REGION_0, 0x4008, 0x33);
    printf("blue of entry 2 is written: %u dots changed, and %u in the loaded chip\n", (unsigned)r.changed, (unsigned)s.changed);
    printf("entry 2 is %08x\n", (unsigned)d.state.palette[2]);
    return same(c, &d);
}

int main(int count, char **words) {
    static struct chip c;
    if (count != 2) {
        puts("usage: save FILE");
        return 2;
    }
    const char *path = words[1];
    if (!start(&c) || !save(path, &c)) {
        puts("the chip cannot be saved");
        return 1;
    }
    puts("saved while a palette entry is loaded: red and green are staged");
    for (unsigned e = 0; e < 3; e++) printf("entry %u is %08x\n", e, (unsigned)c.state.palette[e]);
    print_row("shown", &c);
    if (!go_on(path, &c)) return 1;
    print_row("shown", &c);

    /* an entry is 0, or its top byte is 01h; a fixed bit of a register is as at reset; sizes are in their limits */
    try_damaged(path, "entry 1 as 02ff8000", &c, VERSION_WORDS, ENTRY(1), 0x02FF8000);
    try_damaged(path, "entry 1 as 81ff8000", &c, VERSION_WORDS, ENTRY(1), 0x81FF8000);
    try_damaged(path, "entry 255 as 00000001", &c, VERSION_WORDS, ENTRY(255), 1);
    try_damaged(path, "Reboot as 1", &c, VERSION_WORDS, offsetof(struct pm_state, values) + 4 * PM_ROW_REBOOT, 1);
    try_damaged(path, "a panel 0 dots wide", &c, VERSION_WORDS, offsetof(struct pm_state, width), 0);
    try_damaged(path, "a panel 9 dots wide", &c, VERSION_WORDS, offsetof(struct pm_state, width), 9);
    try_damaged(path, "version 3", &c, 3, ENTRY(1), c.state.palette[1]);
    try_short(path, &c);
    /* a state with another colour is a state: whether a file is the one that was written, a checksum tells */
    try_damaged(path, "entry 1 as 01ff8001", &c, VERSION_WORDS, ENTRY(1), 0x01FF8001);

    /* files of the layout before */
    try_damaged(path, "version 1", &c, VERSION_COLUMNS, offsetof(struct columns, stored), 1);
    try_damaged(path, "version 1, entry 1 with flag 2", &c, VERSION_COLUMNS, offsetof(struct columns, stored) + 1, 2);
    try_damaged(path, "version 1, entry 9 blue without a flag", &c, VERSION_COLUMNS, offsetof(struct columns, blue) + 9, 255);
    return save(path, &c) ? 0 : 1; /* what stays is a file that can be loaded */
}
