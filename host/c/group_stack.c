/* The largest stack that the message of a group uses, over groups one a line, each telegram as HEX:n; other lines are passed over. */
#define _GNU_SOURCE
#include <inttypes.h>
#include <stdio.h>
#include <stdlib.h>

#include "painted.h"
#include "sinkerpost.h"

static uint8_t bytes[2048], pigs[SINKERPOST_PACKETS], numbers[SINKERPOST_PACKETS];
static size_t length, sizes[16], telegrams;

static void message(void)
{
    (void)sinkerpost_group(bytes, length, sizes, telegrams, pigs, sizeof pigs, numbers, sizeof numbers);
}

/* Takes the telegrams of a line; 0 if one is not HEX:n, or there are too many. */
static int taken(char *line)
{
    length = telegrams = 0;
    for (char *word = strtok(line, " \n"); word; word = strtok(NULL, " \n")) {
        char *colon = strchr(word, ':');
        if (!colon || telegrams == 16)
            return 0;
        for (; word + 1 < colon; word += 2) {
            unsigned byte;
            if (length == sizeof bytes || sscanf(word, "%2x", &byte) != 1)
                return 0;
            bytes[length++] = (uint8_t)byte;
        }
        sizes[telegrams++] = strtoull(colon + 1, NULL, 10);
    }
    return 1;
}

int main(void)
{
    size_t base = used(nothing), deepest = 0;
    char *line = NULL;
    size_t capacity = 0;
    while (getline(&line, &capacity, stdin) > 0)
        if (taken(line))
            deepest = larger(deepest, used(message));
    free(line);
    printf("stack: message %zu bytes\n", deepest - base);
    return 0;
}
