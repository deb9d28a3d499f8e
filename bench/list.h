/* What the crate bench_list exports, for measuring alone: the proved read and write with the state by value, and a list of accesses after one test. */
#ifndef LIST_H
#define LIST_H

#include "reefstencil.h"

struct bench_answer {
    uint32_t status, word, known, changed;
    struct pm_state state;
};

struct bench_answer bench_read(struct pm_state s, uint32_t target, uint32_t offset, uint32_t enables, const uint8_t *memory, size_t memory_length,
    const uint32_t *picture, size_t picture_length);

struct bench_answer bench_write(struct pm_state s, uint32_t target, uint32_t offset, uint32_t enables, uint32_t word, uint8_t *memory,
    size_t memory_length, uint32_t *picture, size_t picture_length);

/* As plain_run in plain.h, which has the layout of list and answers; but the state is tested, once, at the start: 1 where it is none, and nothing is altered
 * then. */
uint32_t bench_run(uint32_t width, uint32_t height, uint32_t fitted, uint32_t *once, uint32_t *values, uint32_t *knowns, uint32_t *palette, uint8_t *dac,
    const uint32_t *list, size_t list_length, uint32_t *answers, size_t answers_length, uint8_t *memory, size_t memory_length, uint32_t *picture,
    size_t picture_length);

#endif
