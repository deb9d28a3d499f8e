/* A log as a host writes one while a driver runs: each line names the register that was meant, and says what came of it. */
#include "reefstencil.h"
#include <stdio.h>

#define DOTS 4u

static uint8_t memory[16];
static uint32_t picture[DOTS];
static struct pm_state state;

/* the name at an offset; of RDIndexedData (4050h) also that of the register behind it, which the RAMDAC's address selects */
static void print_place(const char *verb, uint32_t target, uint32_t offset) {
    printf("%s %s", verb, pm_name_at(target, offset));
    if (target != PM_REGION_0 || offset != 0x4050 || state.dac.known != 0xFF) return;
    uint32_t row = pm_row_of_index(state.dac.address);
    printf(" at index %02xh, %s", (unsigned)state.dac.address, row < PM_ROWS ? pm_row_name(row) : "no register");
}

static void write_word(uint32_t target, uint32_t offset, uint32_t word) {
    print_place("write", target, offset);
    struct pm_wrote r = pm_write(&state, target, offset, 15, word, memory, sizeof memory, picture, DOTS);
    printf(" %08x: %s", (unsigned)word, pm_status_text(r.status));
    if (r.changed > 0) printf(", %u dots changed", (unsigned)r.changed);
    putchar('\n');
}

static void read_word(uint32_t target, uint32_t offset) {
    print_place("read", target, offset);
    struct pm_reply r = pm_read(&state, target, offset, 15, memory, sizeof memory, picture, DOTS);
    printf(": %s", pm_status_text(r.status));
    if (r.status == PM_DONE) printf(", %08x, known %08x", (unsigned)r.word, (unsigned)r.known);
    putchar('\n');
}

int main(void) {
    uint32_t status = pm_open(&state, DOTS, 1, memory, sizeof memory, picture, DOTS);
    printf("open: %s\n", pm_status_text(status));
    if (status != PM_DONE) return 1;
    read_word(PM_CONFIGURATION, 0x00);
    write_word(PM_REGION_0, 0x3000, 0);
    read_word(PM_REGION_0, 0x4050); /* no index was set yet */
    write_word(PM_REGION_0, 0x4000, 0x18);
    write_word(PM_REGION_0, 0x4050, 0x10);
    write_word(PM_REGION_0, 0x4000, 0x07);
    read_word(PM_REGION_0, 0x4050);
    write_word(PM_REGION_0, 0x1180, 0);
    write_word(PM_APERTURE_ONE, 16, 0);
    read_word(PM_REGION_0, 0x2000);

    printf("nothing is known of:");
    for (uint32_t row = 0; row < PM_ROWS; row++)
        if (state.knowns[row] == 0) printf(" %s", pm_row_name(row));
    putchar('\n');
    return 0;
}
