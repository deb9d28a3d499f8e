/* The same rules by hand in plain C, to measure the proved model against and to compare it with. The functions have the shape of the library's: the state is
 * the header's struct, lent by pointer and altered in place, and every access tests it (refusal 1). */
#ifndef PLAIN_H
#define PLAIN_H

#include "reefstencil.h"

/* The status; s is set in every case. */
uint32_t plain_open(struct pm_state *s, uint32_t width, uint32_t height, uint8_t *memory, size_t memory_length, uint32_t *picture, size_t picture_length);

struct pm_reply plain_read(struct pm_state *s, uint32_t target, uint32_t offset, uint32_t enables, const uint8_t *memory, size_t memory_length,
    const uint32_t *picture, size_t picture_length);

struct pm_wrote plain_write(struct pm_state *s, uint32_t target, uint32_t offset, uint32_t enables, uint32_t word, uint8_t *memory, size_t memory_length,
    uint32_t *picture, size_t picture_length);

struct pm_reply plain_look(const struct pm_state *s, uint32_t target, uint32_t offset, uint32_t enables, const uint8_t *memory, size_t memory_length,
    const uint32_t *picture, size_t picture_length);

/* The same for a caller who is sure that s is a state: nothing tests it. Refusals 2 to 7 are as above. */
struct pm_reply plain_sure_read(struct pm_state *s, uint32_t target, uint32_t offset, uint32_t enables, const uint8_t *memory, size_t memory_length,
    const uint32_t *picture, size_t picture_length);

struct pm_wrote plain_sure_write(struct pm_state *s, uint32_t target, uint32_t offset, uint32_t enables, uint32_t word, uint8_t *memory,
    size_t memory_length, uint32_t *picture, size_t picture_length);

/* Reads and writes one after the other, for a caller who is sure of s. The list has five words an access: target, offset, kind (0 a read, any other number a
 * write), enables, word. Of n accesses the answers are n statuses, then n words, n masks of known bits and n counts of changed dots; what a read or a write
 * does not have is 0. Gives 0, or 2 where the list is no multiple of five words or answers has not four words an access: then nothing is done. */
#define PLAIN_LIST_WORDS 5
#define PLAIN_ANSWER_WORDS 4
uint32_t plain_run(struct pm_state *s, const uint32_t *list, size_t list_length, uint32_t *answers, size_t answers_length, uint8_t *memory,
    size_t memory_length, uint32_t *picture, size_t picture_length);

#endif
