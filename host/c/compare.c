/* Holds the proved check and normaliser to the answers of the independent implementation. Standard input has a line for each telegram,
 *
 *     N BYTES CHECK ROOM NORMALISE OUT
 *
 * with bytes in hexadecimal, or `-` for none: what check answers; how many bytes are lent for the normal form, each 0xa5 before; what
 * normalise answers; and what those bytes hold afterwards. Each telegram is put at an edge of guarded memory, and so is what is lent.
 * A line that comes out otherwise is printed, with what was answered here, and the exit status is then 1.
 */
#define _GNU_SOURCE
#include <inttypes.h>
#include <stdio.h>
#include <stdlib.h>
#include <string.h>

#include "guarded.h"
#include "sinkerpost.h"

enum { LONGEST = 4096 };

struct memory {
    uint8_t *pages;
    size_t size;
};

/* A line, taken apart. */
struct told {
    uint64_t n;
    uint8_t bytes[LONGEST];
    size_t length;
    uint64_t check;
    size_t room;
    uint64_t normalise;
    uint8_t out[LONGEST];
    size_t out_length;
};

static void stop(const char *line)
{
    fprintf(stderr, "compare: not a line of this form: %s\n", line);
    exit(2);
}

static size_t bytes_of(const char *hex, uint8_t *into, const char *line)
{
    size_t digits = strlen(hex);
    if (strcmp(hex, "-") == 0)
        return 0;
    if (digits % 2 != 0 || digits / 2 > LONGEST)
        stop(line);
    for (size_t i = 0; i < digits / 2; i++) {
        unsigned byte;
        if (sscanf(hex + 2 * i, "%2x", &byte) != 1)
            stop(line);
        into[i] = (uint8_t)byte;
    }
    return digits / 2;
}

static void take_apart(const char *line, struct told *t)
{
    static char bytes[2 * LONGEST + 1], out[2 * LONGEST + 1];
    if (sscanf(line, "%" SCNu64 " %8192s %" SCNu64 " %zu %" SCNu64 " %8192s", &t->n, bytes, &t->check, &t->room, &t->normalise, out) != 6)
        stop(line);
    t->length = bytes_of(bytes, t->bytes, line);
    t->out_length = bytes_of(out, t->out, line);
    if (t->out_length != t->room)
        stop(line);
}

/* Whether both answers, and all that was lent, are as told. */
static int alike(const struct told *t, struct memory in, struct memory lent, enum guard guard, const char *line)
{
    uint8_t *bytes = at_edge(in.pages, in.size, t->length, guard);
    uint8_t *out = at_edge(lent.pages, lent.size, t->room, guard);
    memcpy(bytes, t->bytes, t->length);
    memset(out, 0xa5, t->room);
    uint64_t check = sinkerpost_check(bytes, t->length, t->n);
    uint64_t normalise = sinkerpost_normalise(bytes, t->length, t->n, out, t->room);
    if (check == t->check && normalise == t->normalise && memcmp(out, t->out, t->room) == 0 && memcmp(bytes, t->bytes, t->length) == 0)
        return 1;
    printf("different: %s  here: check %" PRIu64 ", normalise %" PRIu64 ", out ", line, check, normalise);
    for (size_t i = 0; i < t->room; i++)
        printf("%02x", out[i]);
    printf("\n");
    return 0;
}

int main(void)
{
    static struct told t;
    struct memory in, lent;
    in.pages = guarded_pages(&in.size);
    lent.pages = guarded_pages(&lent.size);
    uint64_t telegrams = 0, different = 0, by_number[64] = {0};
    char *line = NULL;
    size_t capacity = 0;
    while (getline(&line, &capacity, stdin) > 0) {
        take_apart(line, &t);
        different += !alike(&t, in, lent, telegrams % 2 == 0 ? GUARD_BEHIND : GUARD_BEFORE, line);
        by_number[SINKERPOST_NUMBER(t.check) % 64]++;
        telegrams++;
    }
    free(line);
    printf("%" PRIu64 " telegrams, %" PRIu64 " different; accepted %" PRIu64 "; refused", telegrams, different, by_number[0]);
    for (int k = 1; k <= SINKERPOST_TRAILING; k++)
        printf(" %d: %" PRIu64, k, by_number[k]);
    printf("\n");
    return different != 0;
}
