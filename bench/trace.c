/* The trace program of 01 over both models: reads a trace, prints the proved model's answers, and ends with 1 at the first line where the plain model's differ.
 *   trace [WIDTH HEIGHT BYTES]      without a panel 4 by 1 with 16 bytes */
#include "world.h"
#include <stdio.h>
#include <stdlib.h>

#define LONGEST 64

/* one to eight hexadecimal digits; where they end, or NULL */
static const char *hex(const char *p, uint32_t *out) {
    uint32_t v = 0;
    int n = 0;
    for (;; p++, n++) {
        int d;
        if (*p >= '0' && *p <= '9') d = *p - '0';
        else if (*p >= 'a' && *p <= 'f') d = *p - 'a' + 10;
        else if (*p >= 'A' && *p <= 'F') d = *p - 'A' + 10;
        else break;
        if (n == 8) return NULL;
        v = v * 16 + (uint32_t)d;
    }
    *out = v;
    return n ? p : NULL;
}

/* `r TARGET OFFSET ENABLES` or `w TARGET OFFSET ENABLES WORD`, each parted by one space; 1 where the line has that form */
static int parse(const char *p, struct access *a) {
    if (*p != 'r' && *p != 'w') return 0;
    a->kind = *p++ == 'w' ? WRITE : READ;
    a->word = 0;
    if (*p++ != ' ' || *p < '0' || *p > '9') return 0;
    a->target = (uint32_t)(*p++ - '0');
    if (*p++ != ' ' || !(p = hex(p, &a->offset))) return 0;
    if (*p++ != ' ' || !(p = hex(p, &a->enables))) return 0;
    if (a->kind == WRITE && (*p++ != ' ' || !(p = hex(p, &a->word)))) return 0;
    return *p == 0;
}

/* a line without its newline, 0 where there is none; its length may pass LONGEST, and a byte of zero makes it bad too */
static int next_line(char *line, size_t *length) {
    int c = getchar();
    *length = 0;
    if (c == EOF) return 0;
    for (; c != EOF && c != '\n'; c = getchar()) {
        if (*length < LONGEST) line[*length] = c ? (char)c : '?';
        ++*length;
    }
    line[*length < LONGEST ? *length : LONGEST] = 0;
    return 1;
}

int main(int argc, char **argv) {
    uint32_t width = argc > 3 ? (uint32_t)strtoul(argv[1], NULL, 10) : 4, height = argc > 3 ? (uint32_t)strtoul(argv[2], NULL, 10) : 1;
    size_t bytes = argc > 3 ? strtoul(argv[3], NULL, 10) : 16, dots = (size_t)width * height;
    struct world p = { .memory = calloc(bytes, 1), .picture = calloc(dots, 4), .memory_length = bytes, .picture_length = dots };
    struct world q = { .memory = calloc(bytes, 1), .picture = calloc(dots, 4), .memory_length = bytes, .picture_length = dots };
    if (!p.memory || !p.picture || !q.memory || !q.picture || open_proved(&p, width, height) || open_plain(&q, width, height)) {
        puts("trace: no such panel");
        return 2;
    }
    printf("PERMEDIA2 %ux%u %lu\n", (unsigned)width, (unsigned)height, (unsigned long)bytes);
    char line[LONGEST + 1];
    size_t length;
    while (next_line(line, &length)) {
        struct access a;
        if (length > LONGEST || !parse(line, &a)) {
            puts("bad");
            continue;
        }
        struct answer r = ask_proved(&p, &a), t = ask_plain(&q, &a);
        printf("%u %08x %08x %u\n", (unsigned)r.status, (unsigned)r.word, (unsigned)r.known, (unsigned)r.changed);
        if (!same_answers(&r, &t) || !same_states(&p.state, &q.state) || !same_buffers(&p, &q)) {
            puts("trace: the plain model differs");
            return 1;
        }
    }
    return 0;
}
