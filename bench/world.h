/* One chip with its buffers, both models over it, and what is asked of them. */
#ifndef WORLD_H
#define WORLD_H

#include "plain.h"
#include <string.h>

enum kind { READ, WRITE, LOOK };

struct access {
    uint32_t target, offset;
    enum kind kind;
    uint32_t enables, word; /* a read and a look have no word */
};

/* of any access: a read and a look change no dot, a write sees no word */
struct answer {
    uint32_t status, word, known, changed;
};

struct world {
    struct pm_state state;
    uint8_t *memory;
    uint32_t *picture;
    size_t memory_length, picture_length;
};

/* the state's bytes but the last two, which mean nothing */
#define STATE_BYTES (offsetof(struct pm_state, dac) + sizeof(struct pm_dac))

static inline struct answer of_reply(struct pm_reply r) {
    struct answer a = { r.status, r.word, r.known, 0 };
    return a;
}

static inline struct answer of_wrote(struct pm_wrote r) {
    struct answer a = { r.status, 0, 0, r.changed };
    return a;
}

static inline uint32_t open_proved(struct world *w, uint32_t width, uint32_t height) {
    return pm_open(&w->state, width, height, w->memory, w->memory_length, w->picture, w->picture_length);
}

static inline uint32_t open_plain(struct world *w, uint32_t width, uint32_t height) {
    return plain_open(&w->state, width, height, w->memory, w->memory_length, w->picture, w->picture_length);
}

static inline struct answer ask_proved(struct world *w, const struct access *a) {
    switch (a->kind) {
    case WRITE:
        return of_wrote(pm_write(&w->state, a->target, a->offset, a->enables, a->word, w->memory, w->memory_length, w->picture, w->picture_length));
    case LOOK: return of_reply(pm_look(&w->state, a->target, a->offset, a->enables, w->memory, w->memory_length, w->picture, w->picture_length));
    default: return of_reply(pm_read(&w->state, a->target, a->offset, a->enables, w->memory, w->memory_length, w->picture, w->picture_length));
    }
}

static inline struct answer ask_plain(struct world *w, const struct access *a) {
    switch (a->kind) {
    case WRITE:
        return of_wrote(plain_write(&w->state, a->target, a->offset, a->enables, a->word, w->memory, w->memory_length, w->picture, w->picture_length));
    case LOOK: return of_reply(plain_look(&w->state, a->target, a->offset, a->enables, w->memory, w->memory_length, w->picture, w->picture_length));
    default: return of_reply(plain_read(&w->state, a->target, a->offset, a->enables, w->memory, w->memory_length, w->picture, w->picture_length));
    }
}

static inline int same_answers(const struct answer *a, const struct answer *b) {
    return a->status == b->status && a->word == b->word && a->known == b->known && a->changed == b->changed;
}

static inline int same_states(const struct pm_state *a, const struct pm_state *b) { return memcmp(a, b, STATE_BYTES) == 0; }

static inline int same_buffers(const struct world *a, const struct world *b) {
    return memcmp(a->memory, b->memory, a->memory_length) == 0 && memcmp(a->picture, b->picture, a->picture_length * sizeof *a->picture) == 0;
}

/* random numbers, the same for ever for the same seed (xorshift) */
static inline uint32_t random_word(uint64_t *seed) {
    *seed ^= *seed << 13;
    *seed ^= *seed >> 7;
    *seed ^= *seed << 17;
    return (uint32_t)(*seed >> 16);
}

/* a read or a write that is likely to lead somewhere, on a memory of some bytes */
struct access random_access(uint64_t *seed, size_t memory_length);

#endif
