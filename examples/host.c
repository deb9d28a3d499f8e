/* A small host of the model: opens a panel, loads a palette, draws bars through an aperture, shows what a program should never take for zero, and watches
 * palette data without stepping it. */
#include "reefstencil.h"
#include <stdio.h>

/* nine bars of four dots; rows of five units of eight bytes, of which the last four bytes are not shown */
#define BARS 9u
#define WIDTH (4 * BARS)
#define HEIGHT 5u
#define STRIDE 5u

#define DOTS (WIDTH * HEIGHT)

static uint8_t memory[8 * STRIDE * HEIGHT];
static uint32_t picture[DOTS];
static struct pm_state state;

/* The three ways into the chip, with all lanes. A write and a read alter the state in place .. */
static struct pm_wrote write_word(uint32_t target, uint32_t offset, uint32_t word) {
    return pm_write(&state, target, offset, 15, word, memory, sizeof memory, picture, DOTS);
}

static struct pm_reply read_word(uint32_t target, uint32_t offset) { return pm_read(&state, target, offset, 15, memory, sizeof memory, picture, DOTS); }

/* .. and a look does not. */
static struct pm_reply look_at(uint32_t target, uint32_t offset) { return pm_look(&state, target, offset, 15, memory, sizeof memory, picture, DOTS); }

/* An indirect register of the RAMDAC: its index goes to RDPaletteWriteAddress (4000h), its byte to RDIndexedData (4050h). */
static void write_index(uint32_t index, uint32_t byte) {
    write_word(PM_REGION_0, 0x4000, index);
    write_word(PM_REGION_0, 0x4050, byte);
}

/* RDPaletteData (4008h) takes red, green, blue. Nothing shows before the third. */
static uint32_t write_entry(uint32_t entry, uint32_t rgb) {
    write_word(PM_REGION_0, 0x4000, entry);
    write_word(PM_REGION_0, 0x4008, rgb >> 16);
    write_word(PM_REGION_0, 0x4008, rgb >> 8 & 255);
    return write_word(PM_REGION_0, 0x4008, rgb & 255).changed;
}

/* a byte bit by bit: a bit that is not known is a question mark */
static void print_bits(uint32_t word, uint32_t known) {
    for (int i = 7; i >= 0; i--) putchar(known >> i & 1 ? (word >> i & 1 ? '1' : '0') : '?');
}

static const char *const components[] = { "red", "green", "blue" };

static void print_entry(const char *name, uint32_t entry) {
    printf("entry %u, %s:", (unsigned)entry, name);
    write_word(PM_REGION_0, 0x4018, entry); /* RDPaletteReadAddress */
    for (int i = 0; i < 3; i++) {
        struct pm_reply r = read_word(PM_REGION_0, 0x4008);
        printf(" %s ", components[i]);
        print_bits(r.word, r.known);
    }
    putchar('\n');
}

/* A watch window on palette data, which looks three times before each read: both show the same, and the reads go on as if nobody had looked. */
static void print_watched(const char *name, uint32_t entry) {
    printf("entry %u, %s, looked at and read:", (unsigned)entry, name);
    write_word(PM_REGION_0, 0x4018, entry);
    for (int i = 0; i < 3; i++) {
        struct pm_reply shown = look_at(PM_REGION_0, 0x4008);
        for (int k = 1; k < 3; k++) shown = look_at(PM_REGION_0, 0x4008);
        struct pm_reply r = read_word(PM_REGION_0, 0x4008);
        printf(" %s ", components[i]);
        print_bits(shown.word, shown.known);
        putchar(' ');
        print_bits(r.word, r.known);
    }
    putchar('\n');
}

static void print_read(const char *name, uint32_t target, uint32_t offset) {
    struct pm_reply r = read_word(target, offset);
    printf("%s: ", name);
    if (r.status == PM_DONE)
        printf("word %08x, known %08x\n", (unsigned)r.word, (unsigned)r.known);
    else
        printf("refused as %u, %s\n", (unsigned)r.status, pm_status_text(r.status));
}

static void print_picture(const char *title) {
    puts(title);
    for (uint32_t y = 0; y < HEIGHT; y++) {
        printf("  ");
        for (uint32_t x = 0; x < WIDTH; x++) {
            char c = '#';
            switch (picture[y * WIDTH + x]) {
            case 0x01FFFFFF: c = 'W'; break;
            case 0x01FFFF00: c = 'Y'; break;
            case 0x0100FFFF: c = 'C'; break;
            case 0x0100FF00: c = 'G'; break;
            case 0x01FF00FF: c = 'M'; break;
            case 0x01FF0000: c = 'R'; break;
            case 0x010000FF: c = 'B'; break;
            case 0x01000000: c = '.'; break; /* black, which was stored */
            case PM_DOT_BEYOND: c = '-'; break;
            case PM_DOT_OFF: c = ' '; break;
            case PM_DOT_NEVER: c = '?'; break;
            case PM_DOT_UNPLACED: c = '!'; break;
            }
            putchar(c);
        }
        putchar('\n');
    }
}

int main(void) {
    static const uint32_t colours[8] = { 0xFFFFFF, 0xFFFF00, 0x00FFFF, 0x00FF00, 0xFF00FF, 0xFF0000, 0x0000FF, 0x000000 };

    if (pm_abi() != PM_ABI || pm_state_size() != PM_STATE_SIZE) {
        puts("the library is of another edition than the header");
        return 1;
    }
    uint32_t status = pm_open(&state, WIDTH, HEIGHT, memory, sizeof memory, picture, DOTS);
    printf("opening %u by %u with %u bytes: %u, %s\n", WIDTH, HEIGHT, (unsigned)sizeof memory, (unsigned)status, pm_status_text(status));
    if (status != PM_DONE) return 1;

    /* A register that nobody has set is not zero: it is unknown. */
    print_read("BootAddress (1080h)", PM_REGION_0, 0x1080);
    print_read("ScreenBase (3000h), never set", PM_REGION_0, 0x3000);

    write_index(0x18, 0x10); /* RDColorMode: 8-bit indexed, GUI */
    print_picture("shown with ScreenBase and ScreenStride unknown:");
    write_word(PM_REGION_0, 0x3000, 0);      /* ScreenBase and ScreenStride count units of eight bytes .. */
    write_word(PM_REGION_0, 0x3008, STRIDE);
    write_index(0x1E, 0x02); /* RDMiscControl: palette components of eight bits */
    for (uint32_t i = 0; i < 8; i++) write_entry(i, colours[i]);

    uint32_t changed = 0;
    for (uint32_t y = 0; y < HEIGHT; y++)
        for (uint32_t i = 0; i < BARS; i++) changed += write_word(PM_APERTURE_ONE, 8 * STRIDE * y + 4 * i, i * 0x01010101).changed; /* .. an aperture bytes */
    printf("bars drawn: %u dots changed\n", (unsigned)changed);
    print_picture("the eighth bar is black, the ninth has an entry that was never stored:");

    /* The two look alike to a program that reads only the word. */
    print_entry("black", 7);
    print_entry("never stored", 8);
    print_watched("yellow", 1);

    print_read("memory beyond its end", PM_APERTURE_ONE, sizeof memory);
    write_word(PM_REGION_0, 0x4000, 0x20); /* RDPixelClockA1 is written only */
    print_read("RDPixelClockA1 (index 20h)", PM_REGION_0, 0x4050);
    print_read("offset 2", PM_REGION_0, 2);

    printf("entry 8 stored as red: %u dots changed\n", (unsigned)write_entry(8, 0xFF0000));
    print_picture("now:");
    print_entry("red", 8);
    return 0;
}
