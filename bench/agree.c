/* Do the proved model and the plain one agree? Random openings, reads, writes and looks on panels of many sizes, with altered pictures, altered states and
 * wrong lengths. After each the answers, states, memories and pictures are compared, whole, and then with what was there before: what is refused alters
 * nothing, a look neither, and a read only the RAMDAC's bytes, and these only where it read palette data.
 *   agree [SEED [ACCESSES]]      ACCESSES on each panel */
#include "world.h"
#include <stdio.h>
#include <stdlib.h>

static const struct {
    uint32_t width, height, fitted;
} panels[] = {
    { 4, 1, 16 }, { 1, 1, 8 }, { 1, 7, 64 }, { 7, 5, 64 }, { 8, 8, 64 }, { 5, 9, 24 }, { 16, 16, 256 }, { 33, 9, 1024 }, { 64, 3, 4096 }, { 3, 200, 512 }
};

/* a buffer has this much more than the panel asks for, so that a longer length is true as well */
#define MORE_BYTES 8
#define MORE_DOTS 1

static unsigned statuses[10];
static unsigned long looks;

static int show(const char *what, unsigned panel, unsigned long i, const struct access *a, const struct answer *p, const struct answer *q) {
    printf("agree: %s: panel %u, access %lu: %c target %x offset %x enables %x word %08x\n", what, panel, i, "rwl"[a->kind], (unsigned)a->target,
        (unsigned)a->offset, (unsigned)a->enables, (unsigned)a->word);
    printf("  proved %u %08x %08x %u\n  plain  %u %08x %08x %u\n", (unsigned)p->status, (unsigned)p->word, (unsigned)p->known, (unsigned)p->changed,
        (unsigned)q->status, (unsigned)q->word, (unsigned)q->known, (unsigned)q->changed);
    return 1;
}

/* with the two bytes behind the fields, which an assignment need not take along .. */
static void copy_bytes(struct pm_state *to, const struct pm_state *from) { memcpy(to, from, sizeof *to); }

static int same_bytes(const struct pm_state *a, const struct pm_state *b) { return memcmp(a, b, sizeof *a) == 0; }

/* .. and these two alone */
static int same_rest(const struct pm_state *a, const struct pm_state *b) {
    return memcmp((const uint8_t *)a + STATE_BYTES, (const uint8_t *)b + STATE_BYTES, sizeof *a - STATE_BYTES) == 0;
}

static void scribble(uint64_t *seed, void *place, size_t n) {
    for (size_t i = 0; i < n; i++) ((uint8_t *)place)[i] = (uint8_t)random_word(seed);
}

static int room_for(struct world *w, size_t memory_length, size_t picture_length) {
    w->memory_length = memory_length;
    w->picture_length = picture_length;
    w->memory = malloc(memory_length);
    w->picture = malloc(picture_length * sizeof *w->picture);
    return w->memory && w->picture;
}

/* the lengths of both are the same */
static void copy_world(struct world *to, const struct world *from) {
    copy_bytes(&to->state, &from->state);
    memcpy(to->memory, from->memory, from->memory_length);
    memcpy(to->picture, from->picture, from->picture_length * sizeof *from->picture);
}

/* with a state of 0 by 0 dots every read, write and look is refused as 1 */
static int all_refused(uint64_t *seed, struct world *w) {
    struct pm_state before;
    copy_bytes(&before, &w->state);
    struct access a = random_access(seed, w->memory_length);
    for (unsigned kind = READ; kind <= LOOK; kind++) {
        a.kind = (enum kind)kind;
        struct answer r = ask_proved(w, &a);
        if (r.status != PM_NO_STATE || r.word || r.known || r.changed || !same_bytes(&w->state, &before)) return 0;
    }
    return 1;
}

/* Openings, most of them refused, of states with anything in them. p and q are alike and stay so; was is like them, and stays as it is. */
static int try_openings(uint64_t *seed, struct world *p, struct world *q, const struct world *was) {
    static const uint32_t sides[] = { 0, 1, 2, 8, 1023, 1024, 1025, 0xFFFFFFFF };
    for (unsigned i = 0; i < 300; i++) {
        struct world a = *p, b = *q;
        uint32_t w = sides[random_word(seed) % 8], h = sides[random_word(seed) % 8];
        a.memory_length = random_word(seed) % (uint32_t)(p->memory_length + 1);
        if (random_word(seed) % 4) a.memory_length &= ~(size_t)7;
        a.picture_length = random_word(seed) % 2 ? (size_t)w * h : random_word(seed) % 65;
        if (a.picture_length > p->picture_length) a.picture_length = p->picture_length;
        b.memory_length = a.memory_length;
        b.picture_length = a.picture_length;
        struct pm_state before;
        scribble(seed, &before, sizeof before);
        copy_bytes(&a.state, &before);
        copy_bytes(&b.state, &before);
        uint32_t x = open_proved(&a, w, h), y = open_plain(&b, w, h);
        int bad = x != y || !same_states(&a.state, &b.state) || !same_rest(&a.state, &before) || !same_buffers(p, q);
        if (x == PM_DONE) {
            bad |= a.state.width != w || a.state.height != h || a.state.fitted != a.memory_length || memcmp(p->memory, was->memory, p->memory_length) != 0;
            for (size_t k = 0; k < a.picture_length; k++) bad |= a.picture[k] != PM_DOT_OFF;
            memcpy(p->picture, was->picture, p->picture_length * sizeof *p->picture);
            memcpy(q->picture, was->picture, q->picture_length * sizeof *q->picture);
        } else {
            bad |= a.state.width || a.state.height || a.state.fitted || !same_buffers(p, was) || !all_refused(seed, &a) || !same_buffers(p, was);
        }
        if (bad || x > 9) {
            printf("agree: openings differ, or a refused one is not as it should be: %u by %u, memory %lu, picture %lu: %u and %u\n", (unsigned)w,
                (unsigned)h, (unsigned long)a.memory_length, (unsigned long)a.picture_length, (unsigned)x, (unsigned)y);
            return 1;
        }
        statuses[x]++;
    }
    return 0;
}

static uint32_t dots_between(const struct world *a, const struct world *b) {
    uint32_t n = 0;
    for (size_t i = 0; i < a->picture_length; i++) n += a->picture[i] != b->picture[i];
    return n;
}

/* what one access may not do, whatever the plain model says; NULL where it did none of it */
static const char *forbidden(const struct access *a, const struct answer *r, const struct world *now, const struct world *was) {
    if (r->status != PM_DONE && (r->word || r->known || r->changed)) return "a refused access has an answer";
    if ((r->word & ~r->known) != 0) return "a bit is set that is not known";
    if (r->changed != dots_between(now, was)) return "the count of changed dots is not how many changed";
    if (!same_rest(&now->state, &was->state)) return "the two bytes behind the state are written";
    if ((r->status != PM_DONE || a->kind == LOOK) && !same_bytes(&now->state, &was->state)) return "a look or a refused access altered the state";
    if ((r->status != PM_DONE || a->kind != WRITE) && !same_buffers(now, was)) return "a read, a look or a refused access altered memory or picture";
    if (a->kind == READ) {
        int data = a->target == PM_REGION_0 && a->offset == 0x4008;
        if (memcmp(&now->state, &was->state, data ? offsetof(struct pm_state, dac) : sizeof now->state) != 0) return "a read altered more than it may";
    }
    return NULL;
}

/* one access of both, with a part of the state, a dot or a length altered now and then */
static int try_access(unsigned n, unsigned long i, uint64_t *seed, struct world *p, struct world *q, struct world *was) {
    size_t bytes = panels[n].fitted, dots = (size_t)panels[n].width * panels[n].height;
    struct access a = random_access(seed, bytes);
    if (random_word(seed) % 4 == 0) a.kind = LOOK;
    looks += a.kind == LOOK;
    uint32_t odd = random_word(seed) % 256;
    struct pm_state kept;
    copy_bytes(&kept, &p->state);
    if (odd < 8) { /* one bit of the state: anywhere, or in the few bytes of sizes and RAMDAC */
        size_t at = random_word(seed) % STATE_BYTES, few = random_word(seed) % 22;
        if (odd < 4) at = few < 16 ? few : offsetof(struct pm_state, dac) + few - 16;
        uint8_t bit = (uint8_t)(1u << random_word(seed) % 8);
        ((uint8_t *)&p->state)[at] ^= bit;
        ((uint8_t *)&q->state)[at] ^= bit;
    } else if (odd < 16) { /* somebody else draws */
        size_t at = random_word(seed) % dots;
        p->picture[at] = q->picture[at] = random_word(seed);
    }
    copy_world(was, p);
    /* the lengths that the panel asks for, or one that is wrong; the buffers have more */
    p->memory_length = bytes;
    p->picture_length = dots;
    if (odd == 16) p->memory_length -= MORE_BYTES;
    if (odd == 17) p->memory_length += MORE_BYTES;
    if (odd == 18) p->picture_length -= MORE_DOTS;
    if (odd == 19) p->picture_length += MORE_DOTS;
    q->memory_length = p->memory_length;
    q->picture_length = p->picture_length;
    struct answer r = ask_proved(p, &a), t = ask_plain(q, &a);
    p->memory_length = q->memory_length = was->memory_length;
    p->picture_length = q->picture_length = was->picture_length;
    int bad = 0;
    if (!same_answers(&r, &t)) bad |= show("answers differ", n, i, &a, &r, &t);
    if (!same_states(&p->state, &q->state)) bad |= show("states differ", n, i, &a, &r, &t);
    if (!same_buffers(p, q)) bad |= show("buffers differ", n, i, &a, &r, &t);
    const char *done = forbidden(&a, &r, p, was);
    if (done) bad |= show(done, n, i, &a, &r, &t);
    if (r.status > 7)
        bad |= show("no such status", n, i, &a, &r, &t);
    else
        statuses[r.status]++;
    if (r.status == PM_NO_STATE || r.status == PM_WRONG_LENGTH) {
        copy_bytes(&p->state, &kept);
        copy_bytes(&q->state, &kept);
    }
    return bad;
}

static int try_panel(unsigned n, uint64_t *seed, unsigned long count) {
    struct world p, q, was; /* of the proved model, of the plain one, and as both were before the last access */
    size_t bytes = panels[n].fitted, dots = (size_t)panels[n].width * panels[n].height;
    if (!room_for(&p, bytes + MORE_BYTES, dots + MORE_DOTS) || !room_for(&q, bytes + MORE_BYTES, dots + MORE_DOTS) ||
        !room_for(&was, bytes + MORE_BYTES, dots + MORE_DOTS)) {
        puts("agree: no memory");
        return 1;
    }
    int bad = 0;
    for (unsigned long i = 0; i < count && !bad; i++) {
        if (i % 5000 == 0) { /* afresh */
            scribble(seed, &p.state, sizeof p.state);
            scribble(seed, p.memory, p.memory_length);
            for (size_t k = 0; k < p.picture_length; k++) p.picture[k] = 7;
            copy_world(&q, &p);
            copy_world(&was, &p);
            bad |= try_openings(seed, &p, &q, &was);
            p.memory_length = q.memory_length = bytes;
            p.picture_length = q.picture_length = dots;
            uint32_t x = open_proved(&p, panels[n].width, panels[n].height), y = open_plain(&q, panels[n].width, panels[n].height);
            p.memory_length = q.memory_length = was.memory_length;
            p.picture_length = q.picture_length = was.picture_length;
            if (x != 0 || y != 0 || !same_states(&p.state, &q.state) || !same_buffers(&p, &q)) {
                printf("agree: openings differ: panel %u: %u and %u\n", n, (unsigned)x, (unsigned)y);
                bad = 1;
            }
        }
        bad |= try_access(n, i, seed, &p, &q, &was);
    }
    free(p.memory), free(q.memory), free(was.memory), free(p.picture), free(q.picture), free(was.picture);
    return bad;
}

int main(int argc, char **argv) {
    uint64_t seed = argc > 1 ? strtoul(argv[1], NULL, 10) : 1;
    unsigned long count = argc > 2 ? strtoul(argv[2], NULL, 10) : 20000;
    seed = seed * 0x9E3779B97F4A7C15u + 1;
    if (pm_abi() != PM_ABI || pm_state_size() != PM_STATE_SIZE) {
        puts("agree: the library is of another edition than the header");
        return 1;
    }
    unsigned n = sizeof panels / sizeof *panels;
    for (unsigned i = 0; i < n; i++)
        if (try_panel(i, &seed, count)) return 1;
    printf("agree: %lu accesses on %u panels, %lu of them looks, all alike; by status:", count * n, n, looks);
    for (unsigned i = 0; i < 10; i++) printf(" %u", statuses[i]);
    putchar('\n');
    return 0;
}
