/* The largest stack that check and normalise use: each runs on a painted stack. Standard input is as for
 * compare.c; the deepest mark over all telegrams is printed.
 */
#define _GNU_SOURCE
#include <inttypes.h>
#include <stdio.h>
#include <stdlib.h>
#include <string.h>

#include "painted.h"
#include "sinkerpost.h"

static uint8_t bytes[4096], out[104];
static size_t length;
static uint64_t n;

static void check(void)
{
    (void)sinkerpost_check(bytes, length, n);
}

static void normalise(void)
{
    (void)sinkerpost_normalise(bytes, length, n, out, sizeof out);
}

int main(void)
{
    size_t base = used(nothing), checking = 0, normalising = 0;
    char *line = NULL;
    size_t capacity = 0;
    while (getline(&line, &capacity, stdin) > 0) {
        static char hex[8193];
        if (sscanf(line, "%" SCNu64 " %8192s", &n, hex) != 2)
            return 2;
        length = strcmp(hex, "-") == 0 ? 0 : strlen(hex) / 2;
        for (size_t i = 0; i < length; i++) {
            unsigned byte;
            sscanf(hex + 2 * i, "%2x", &byte);
            bytes[i] = (uint8_t)byte;
        }
        checking = larger(checking, used(check));
        normalising = larger(normalising, used(normalise));
    }
    free(line);
    printf("stack: check %zu bytes, normalise %zu bytes\n", checking - base, normalising - base);
    return 0;
}
