/* What an access costs: the proved model beside the plain one, on the same work. Both do each case in turn, several times; the best time of each counts.
 * Every answer is compared, and state, memory and picture at the end of each turn. Ends with 1 where they differ.
 *   bench [TURNS [WORD]]      only the cases whose name has WORD in it
 * With BENCH_LIST defined (with_list.c) there are three more cases, which need the library of crate bench_list. */
#define _POSIX_C_SOURCE 199309L /* clock_gettime */
#include "world.h"
#include <stdio.h>
#include <stdlib.h>
#include <time.h>

#define MOST 100000
static struct access work[MOST];
static struct answer proved_answers[MOST], plain_answers[MOST];
static struct world proved, plain;
static unsigned wrong;
static unsigned turns = 9;
static const char *only = "";

static double now_ns(void) {
    struct timespec t;
    clock_gettime(CLOCK_MONOTONIC, &t);
    return (double)t.tv_sec * 1e9 + (double)t.tv_nsec;
}

static struct access write_of(uint32_t target, uint32_t offset, uint32_t enables, uint32_t word) {
    struct access a = { target, offset, WRITE, enables, word };
    return a;
}

static struct access read_of(uint32_t target, uint32_t offset) {
    struct access a = { target, offset, READ, 15, 0 };
    return a;
}

static struct access look_of(uint32_t target, uint32_t offset) {
    struct access a = { target, offset, LOOK, 15, 0 };
    return a;
}

static void differ(const char *what, const char *where) {
    if (wrong++ < 20) printf("bench: %s differ: %s\n", what, where);
}

static void both(struct access a) {
    struct answer p = ask_proved(&proved, &a), q = ask_plain(&plain, &a);
    if (!same_answers(&p, &q) || p.status != PM_DONE) differ("answers", "setting up");
}

static void both_index(uint32_t index, uint32_t byte) {
    both(write_of(PM_REGION_0, 0x4000, 15, index));
    both(write_of(PM_REGION_0, 0x4050, 15, byte));
}

/* A panel that shows memory from byte 0 on in CI8, where `shown`, with 256 entries stored where `loaded`. 0 where there is no room for it. */
static int set_up(uint32_t width, uint32_t height, uint32_t fitted, uint32_t stride, int shown, int loaded) {
    free(proved.memory), free(proved.picture), free(plain.memory), free(plain.picture);
    proved.memory_length = plain.memory_length = fitted;
    proved.picture_length = plain.picture_length = (size_t)width * height;
    proved.memory = calloc(fitted, 1), plain.memory = calloc(fitted, 1);
    proved.picture = calloc(proved.picture_length, 4), plain.picture = calloc(plain.picture_length, 4);
    if (!proved.memory || !proved.picture || !plain.memory || !plain.picture) {
        differ("buffers", "no memory");
        return 0;
    }
    uint64_t seed = 88172645463325252u;
    for (size_t i = 0; i < fitted; i++) proved.memory[i] = plain.memory[i] = (uint8_t)random_word(&seed);
    if (open_proved(&proved, width, height) || open_plain(&plain, width, height)) differ("openings", "setting up");
    both_index(0x1E, 2); /* palette components of eight bits */
    if (loaded) {
        both(write_of(PM_REGION_0, 0x4000, 15, 0));
        for (uint32_t i = 0; i < 768; i++) both(write_of(PM_REGION_0, 0x4008, 15, random_word(&seed)));
    }
    both(write_of(PM_REGION_0, 0x3000, 15, 0));
    both(write_of(PM_REGION_0, 0x3008, 15, stride));
    if (shown) both_index(0x18, 0x10); /* RDColorMode: CI8 */
    return 1;
}

/* of an access, in nanoseconds; 0 where the case was not asked for */
struct times {
    double proved, plain;
};

static int wanted(const char *name) { return strstr(name, only) != NULL; }

static void print_times(const char *name, struct times t, double changed) {
    printf("%-54s %10.1f %10.1f %7.2f %13.2f\n", name, t.proved, t.plain, t.proved / t.plain, changed);
}

static int varies(const struct access *a) {
    return a->kind == WRITE && (a->target == PM_APERTURE_ONE || (a->target == PM_REGION_0 && a->offset == 0x4008));
}

/* one turn of the first n of work */
typedef void turn(unsigned n);

static void by_library(unsigned n) {
    for (unsigned i = 0; i < n; i++) proved_answers[i] = ask_proved(&proved, &work[i]);
}

static void by_plain(unsigned n) {
    for (unsigned i = 0; i < n; i++) plain_answers[i] = ask_plain(&plain, &work[i]);
}

static void keep_best(double *best, double time) {
    if (*best == 0 || time < *best) *best = time;
}

/* The best time of an access in the first n of work. Who comes first changes from turn to turn. What is written is other bytes in every turn, so that as many
 * dots change. */
static struct times measure_by(turn *by_proved, const char *name, unsigned n) {
    struct times best = { 0, 0 };
    uint32_t changed = 0;
    if (!wanted(name)) return best;
    for (unsigned t = 0; t < turns; t++) {
        for (unsigned half = 0; half < 2; half++) {
            int is_proved = half == t % 2;
            double start = now_ns();
            (is_proved ? by_proved : by_plain)(n);
            keep_best(is_proved ? &best.proved : &best.plain, now_ns() - start);
        }
        changed = 0;
        for (unsigned i = 0; i < n; i++) {
            changed += proved_answers[i].changed;
            if (!same_answers(&proved_answers[i], &plain_answers[i])) {
                differ("answers", name);
                i = n;
            }
        }
        if (!same_states(&proved.state, &plain.state)) differ("states", name);
        if (!same_buffers(&proved, &plain)) differ("memory or picture", name);
        if (t + 1 < turns)
            for (unsigned i = 0; i < n; i++)
                if (varies(&work[i])) work[i].word ^= 0x5A5A5A5A;
    }
    best.proved /= n;
    best.plain /= n;
    print_times(name, best, (double)changed / n);
    return best;
}

static struct times measure(const char *name, unsigned n) { return measure_by(by_library, name, n); }

/* ---- the cases ---- */

/* registers whose writes show nothing; the first, an aperture's mode, is only read here */
static const uint32_t some[8] = { 0x50, 0xC8, 0x1080, 0x10C0, 0x3010, 0x3058, 0x3080, 0x4078 };

static void read_registers(unsigned n) {
    for (unsigned i = 0; i < n; i++) work[i] = read_of(PM_REGION_0, some[i % 8]);
}

static void write_registers(unsigned n) {
    for (unsigned i = 0; i < n; i++) work[i] = write_of(PM_REGION_0, some[1 + i % 7], 15, i * 0x01010101);
}

static void register_accesses(void) {
    if (!set_up(4, 1, 16, 1, 1, 1)) return;
    read_registers(20000);
    measure("register read", 20000);
    for (unsigned i = 0; i < 20000; i++) work[i] = look_of(PM_REGION_0, some[i % 8]);
    measure("register look", 20000);
    write_registers(20000);
    measure("register write that shows nothing", 20000);
}

/* reads and writes in turn, refused as 5 (no register), 6 (a clock's byte is not read, FramebufferWriteMask not written) and 4 (no multiple of four) */
static void refused_accesses(void) {
    if (!set_up(4, 1, 16, 1, 1, 1)) return;
    both(write_of(PM_REGION_0, 0x4000, 15, 0x20));
    const struct access six[6] = {
        read_of(PM_REGION_0, 0x60), write_of(PM_REGION_0, 0x60, 15, 1), read_of(PM_REGION_0, 0x4050), write_of(PM_REGION_0, 0x1140, 15, 1),
        read_of(PM_REGION_0, 0x3012), write_of(PM_REGION_0, 0x3012, 15, 1)
    };
    static const uint32_t statuses[6] = {
        PM_NOTHING_HERE, PM_NOTHING_HERE, PM_NO_DIRECTION, PM_NO_DIRECTION, PM_UNALIGNED, PM_UNALIGNED
    };
    for (unsigned i = 0; i < 6; i++)
        if (ask_plain(&plain, &six[i]).status != statuses[i]) differ("refusals", "setting up");
    for (unsigned i = 0; i < 24000; i++) work[i] = six[i % 6];
    measure("refused access", 24000);
}

/* writes that show in four dots, and reads */
static void whole_words(const char *write_name, const char *read_name) {
    for (unsigned i = 0; i < 100000; i++) work[i] = write_of(PM_APERTURE_ONE, i * 4 % (1024 * 1024), 15, i * 0x01030507u);
    measure(write_name, 100000);
    for (unsigned i = 0; i < 100000; i++) work[i] = read_of(PM_APERTURE_ONE, i * 4 % (1024 * 1024));
    measure(read_name, 100000);
}

static void aperture_accesses(void) {
    if (!set_up(4, 1, 16, 1, 1, 1)) return;
    /* each write changes the byte of one lane, and each byte has a colour of its own */
    for (unsigned i = 0; i < 100000; i++) work[i] = write_of(PM_APERTURE_ONE, 0, 1u << i % 4, (i / 4 % 255 + 1) * 0x01010101u);
    struct times small = measure("aperture write, one dot, 4 by 1", 100000);
    if (!set_up(1024, 1024, 1024 * 1024, 128, 1, 1)) return;
    for (unsigned i = 0; i < 100000; i++) work[i] = write_of(PM_APERTURE_ONE, i * 40 % (1024 * 1024), 1u << i % 4, i * 0x01010101u);
    struct times large = measure("aperture write, one dot, 1,024 by 1,024", 100000);
    if (small.plain > 0 && large.plain > 0)
        printf("  large panel to small panel: proved %.2f, plain %.2f\n", large.proved / small.proved, large.plain / small.plain);
    whole_words("aperture write, four dots, 1,024 by 1,024", "aperture read, 1,024 by 1,024");
    both(write_of(PM_REGION_0, 0x50, 15, 1));
    whole_words("aperture write, four dots, byte swapped", "aperture read, byte swapped");
    both(write_of(PM_REGION_0, 0x50, 15, 2));
    whole_words("aperture write, four dots, half-word swapped", "aperture read, half-word swapped");
}

static void load_palette(void) {
    uint64_t seed = 99;
    work[0] = write_of(PM_REGION_0, 0x4000, 15, 0);
    for (unsigned i = 1; i <= 768; i++) work[i] = write_of(PM_REGION_0, 0x4008, 15, random_word(&seed));
}

static void palette_loads(void) {
    if (!set_up(640, 480, 640 * 480, 80, 0, 0)) return;
    load_palette();
    measure("palette load, 256 entries, 640 by 480, colour mode off", 769);
    both_index(0x1E, 0);
    measure("palette load, 256 entries, colour mode off, six bits", 769);
    if (!set_up(640, 480, 640 * 480, 80, 1, 0)) return;
    load_palette();
    measure("palette load, 256 entries, 640 by 480", 769);
}

static void full_redraws(void) {
    if (!set_up(1024, 1024, 1024 * 1024 + 1024, 128, 1, 1)) return;
    for (unsigned i = 0; i < 20; i++) work[i] = write_of(PM_REGION_0, 0x3000, 15, (i + 1) % 2);
    measure("full redraw (ScreenBase), 1,024 by 1,024", 20);
    both_index(0x18, 0x10);
    for (unsigned i = 0; i < 20; i++) work[i] = write_of(PM_REGION_0, 0x4050, 15, i % 2 ? 0x10 : 0);
    measure("full redraw (colour mode), 1,024 by 1,024", 20);
}

static void mixed_accesses(void) {
    uint64_t seed = 4711;
    if (!set_up(64, 48, 8192, 8, 1, 1)) return;
    for (unsigned i = 0; i < 50000; i++) work[i] = random_access(&seed, 8192);
    measure("mixed accesses, 64 by 48", 50000);
    if (!set_up(320, 200, 65536, 40, 1, 1)) return;
    for (unsigned i = 0; i < 20000; i++) work[i] = random_access(&seed, 65536);
    measure("mixed accesses, 320 by 200", 20000);
}

#ifdef BENCH_LIST
#include "list.h"

/* ---- the state by value, against the plain model by reference ---- */

static struct answer read_value(struct world *w, const struct access *a) {
    struct bench_answer r = bench_read(w->state, a->target, a->offset, a->enables, w->memory, w->memory_length, w->picture, w->picture_length);
    struct answer n = { r.status, r.word, r.known, r.changed };
    w->state = r.state;
    return n;
}

static struct answer write_value(struct world *w, const struct access *a) {
    struct bench_answer r = bench_write(w->state, a->target, a->offset, a->enables, a->word, w->memory, w->memory_length, w->picture, w->picture_length);
    struct answer n = { r.status, r.word, r.known, r.changed };
    w->state = r.state;
    return n;
}

static void by_value(unsigned n) {
    for (unsigned i = 0; i < n; i++) proved_answers[i] = work[i].kind == WRITE ? write_value(&proved, &work[i]) : read_value(&proved, &work[i]);
}

static void register_values(void) {
    if (!set_up(4, 1, 16, 1, 1, 1)) return;
    read_registers(20000);
    measure_by(by_value, "register read, state by value", 20000);
    write_registers(20000);
    measure_by(by_value, "register write that shows nothing, state by value", 20000);
}

/* ---- a list after one test, against the plain model that tests nothing ---- */

#define LISTED 1000
#define LIST_LENGTH (LISTED * PLAIN_LIST_WORDS)
#define ANSWERS_LENGTH (LISTED * PLAIN_ANSWER_WORDS)
static uint32_t lists[2][LIST_LENGTH]; /* for the colour mode off, and on */
static uint32_t proved_list[ANSWERS_LENGTH], plain_list[ANSWERS_LENGTH];

static uint32_t run_proved(const uint32_t *list, size_t list_length, size_t answers_length) {
    struct pm_state *s = &proved.state;
    return bench_run(s->width, s->height, s->fitted, &s->once, s->values, s->knowns, s->palette, (uint8_t *)&s->dac, list, list_length, proved_list,
        answers_length, proved.memory, proved.memory_length, proved.picture, proved.picture_length);
}

static uint32_t run_plain(const uint32_t *list, size_t list_length, size_t answers_length) {
    return plain_run(&plain.state, list, list_length, plain_list, answers_length, plain.memory, plain.memory_length, plain.picture, plain.picture_length);
}

/* One access more; what does not fit is left out. */
static unsigned put(uint32_t *list, unsigned n, struct access a) {
    if (n == LISTED) return n;
    list += n * PLAIN_LIST_WORDS;
    list[0] = a.target, list[1] = a.offset, list[2] = a.kind, list[3] = a.enables, list[4] = a.word;
    return n + 1;
}

/* Of 64 parts: register reads 18, header reads 2, register writes that show nothing 14, aperture reads 12, aperture writes that show in one dot 8 (in none
 * with the colour mode off), aperture writes beyond the panel 4, RAMDAC address writes 5, refused accesses 1. With the colour mode off each address write is
 * followed by three of palette data: an entry written, or one in eight read. The panel is 64 by 48 and shows the first 3,072 of 4,096 bytes. */
static void fill_list(uint32_t *list, int shown) {
    uint64_t seed = shown ? 88172645463325252u : 1181783497276652981u; /* two lists that have no write in common */
    for (unsigned n = 0; n < LISTED;) {
        uint32_t part = random_word(&seed) % 64, r = random_word(&seed), word = random_word(&seed);
        if (part < 18)
            n = put(list, n, read_of(PM_REGION_0, some[r % 8]));
        else if (part < 20)
            n = put(list, n, read_of(PM_CONFIGURATION, r % 16 * 4));
        else if (part < 34)
            n = put(list, n, write_of(PM_REGION_0, some[1 + r % 7], 15, word));
        else if (part < 46)
            n = put(list, n, read_of(PM_APERTURE_ONE, r % 1024 * 4));
        else if (part < 54)
            n = put(list, n, write_of(PM_APERTURE_ONE, r % 768 * 4, 1u << (r >> 16) % 4, word));
        else if (part < 58)
            n = put(list, n, write_of(PM_APERTURE_ONE, 3072 + r % 256 * 4, 15, word));
        else if (part < 63) {
            int reads = r % 8 == 0;
            n = put(list, n, write_of(PM_REGION_0, reads ? 0x4018 : 0x4000, 15, word % 256));
            for (unsigned i = 0; i < 3 && !shown; i++)
                n = put(list, n, reads ? read_of(PM_REGION_0, 0x4008) : write_of(PM_REGION_0, 0x4008, 15, random_word(&seed)));
        } else if (r % 3 == 0)
            n = put(list, n, read_of(PM_REGION_0, 0x60));
        else
            n = put(list, n, r % 3 == 1 ? write_of(PM_REGION_0, 0x1140, 15, word) : read_of(PM_REGION_0, 0x3012));
    }
}

/* the refusals of a list, which alter nothing */
static void refused_lists(const char *name) {
    struct pm_state kept = proved.state;
    memset(proved_list, 0x5A, sizeof proved_list);
    memset(plain_list, 0x5A, sizeof plain_list);
    if (run_proved(lists[0], LIST_LENGTH - 1, ANSWERS_LENGTH) != 2 || run_plain(lists[0], LIST_LENGTH - 1, ANSWERS_LENGTH) != 2 ||
        run_proved(lists[0], LIST_LENGTH, ANSWERS_LENGTH - 4) != 2 || run_plain(lists[0], LIST_LENGTH, ANSWERS_LENGTH - 4) != 2)
        differ("refusals of a wrong length", name);
    if (run_proved(lists[0], 0, 0) != 0 || run_plain(lists[0], 0, 0) != 0) differ("empty lists", name);
    proved.state.dac.component = 3;
    if (run_proved(lists[0], LIST_LENGTH, ANSWERS_LENGTH) != 1 || proved.state.dac.component != 3) differ("refusals of what is not a state", name);
    proved.state.dac.component = kept.dac.component;
    if (memcmp(proved_list, plain_list, sizeof proved_list) != 0 || proved_list[0] != 0x5A5A5A5A || !same_states(&proved.state, &kept) ||
        !same_states(&proved.state, &plain.state) || !same_buffers(&proved, &plain))
        differ("what refused lists left", name);
}

/* Each turn has 20 calls with each list. Who comes first changes, since the second finds the list in the cache. The colour mode is set outside the time. */
static void listed_accesses(void) {
    static const char name[] = "list of 1,000 accesses after one test";
    enum { CALLS = 40 };
    struct times best = { 0, 0 };
    uint32_t changed = 0;
    if (!wanted(name) || !set_up(64, 48, 4096, 8, 0, 1)) return;
    for (int shown = 0; shown < 2; shown++) fill_list(lists[shown], shown);
    refused_lists(name);
    for (unsigned t = 0; t < turns; t++) {
        struct times sum = { 0, 0 };
        changed = 0;
        for (unsigned c = 0; c < CALLS; c++) {
            uint32_t *list = lists[c % 2];
            both_index(0x18, c % 2 ? 0x10 : 0);
            for (unsigned half = 0; half < 2; half++) {
                int is_proved = half == c / 2 % 2;
                double start = now_ns();
                uint32_t status = (is_proved ? run_proved : run_plain)(list, LIST_LENGTH, ANSWERS_LENGTH);
                *(is_proved ? &sum.proved : &sum.plain) += now_ns() - start;
                if (status != 0) differ("lengths or states", name);
            }
            if (memcmp(proved_list, plain_list, sizeof proved_list) != 0) differ("answers", name);
            if (!same_states(&proved.state, &plain.state)) differ("states", name);
            if (!same_buffers(&proved, &plain)) differ("memory or picture", name);
            unsigned refused = 0;
            for (unsigned i = 0; i < LISTED; i++) {
                uint32_t *a = list + i * PLAIN_LIST_WORDS;
                struct access asked = { a[0], a[1], a[2] ? WRITE : READ, a[3], a[4] };
                refused += proved_list[i] != PM_DONE;
                changed += proved_list[3 * LISTED + i];
                if (varies(&asked)) a[4] ^= 0x5A5A5A5A;
            }
            if (refused < 1 || refused > LISTED / 20) differ("refused accesses and those of the list", name);
        }
        keep_best(&best.proved, sum.proved);
        keep_best(&best.plain, sum.plain);
    }
    best.proved /= CALLS * LISTED;
    best.plain /= CALLS * LISTED;
    print_times(name, best, (double)changed / (CALLS * LISTED));
}
#endif

int main(int argc, char **argv) {
    if (argc > 1) turns = (unsigned)strtoul(argv[1], NULL, 10);
    if (argc > 2) only = argv[2];
    if (turns < 1) turns = 1;
    printf("%-54s %10s %10s %7s %13s\n", "nanoseconds an access", "proved", "plain C", "ratio", "dots changed");
    register_accesses();
    refused_accesses();
    aperture_accesses();
    palette_loads();
    full_redraws();
    mixed_accesses();
#ifdef BENCH_LIST
    register_values();
    listed_accesses();
#endif
    printf("bench: %s\n", wrong ? "the two models DIFFER" : "every answer, state, memory and picture alike");
    return wrong != 0;
}
