/* Every function of the header, and every name that a host may write. For the warnings of tests/c-warnings; nobody runs it. */
#include "reefstencil.h"

struct chip {
    struct pm_state state;
    uint8_t memory[64];
    uint32_t picture[64];
};

uint32_t every_call(struct chip *c, uint32_t target, uint32_t offset, uint32_t word);
const char *every_name(uint32_t target, uint32_t offset);
size_t every_row(void);

uint32_t every_call(struct chip *c, uint32_t target, uint32_t offset, uint32_t word) {
    if (pm_abi() != PM_ABI || pm_state_size() != PM_STATE_SIZE) return PM_NO_STATE;
    uint32_t status = pm_open(&c->state, 8, 8, c->memory, sizeof c->memory, c->picture, 64);
    if (status != PM_DONE) return status;
    struct pm_wrote w = pm_write(&c->state, target, offset, 15, word, c->memory, sizeof c->memory, c->picture, 64);
    struct pm_reply r = pm_read(&c->state, target, offset, 15, c->memory, sizeof c->memory, c->picture, 64);
    const struct pm_state *shown = &c->state;
    struct pm_reply l = pm_look(shown, target, offset, 15, c->memory, sizeof c->memory, c->picture, 64);
    struct pm_state copy = *shown;
    struct pm_dac dac = copy.dac;
    if (w.status != PM_DONE || r.status != PM_DONE || l.status != PM_DONE) return w.changed;
    return (r.word & r.known) + (l.word & l.known) + dac.address + copy.values[PM_ROW_COUNT_1180H] + copy.palette[PM_ENTRIES - 1];
}

const char *every_name(uint32_t target, uint32_t offset) {
    uint32_t row = pm_row_at(target, offset);
    if (row == PM_ROWS) row = pm_row_of_index(offset);
    if (row == PM_ROW_SCREEN_BASE) return pm_name_at(target, offset);
    return row < PM_ROWS ? pm_row_name(row) : pm_status_text(PM_NOTHING_HERE);
}

/* the table, used by the host itself */
#define ADDED(row, kind, at, name) +(row) + (kind) + (at) + sizeof(name)
size_t every_row(void) { return 0u PM_REGISTERS(ADDED); }
