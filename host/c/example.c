/* Checks and normalises telegrams from C. Each argument is a telegram, HEX:N; a line is printed for each:
 *
 *     example 90027F8125DFFFC0:58 90027F8125DFFFC0:59
 *     ok 90027F8125DFFFC0
 *     refused 11 58
 *
 * It ends with 0 if all are accepted, with 1 if one is refused, and with 2 if one is not HEX:N or its answer could not be written.
 */
#include <inttypes.h>
#include <stdio.h>
#include <stdlib.h>
#include <string.h>

#include "sinkerpost.h"

static int digit(char c)
{
    if ('0' <= c && c <= '9')
        return c - '0';
    if ('a' <= c && c <= 'f')
        return c - 'a' + 10;
    if ('A' <= c && c <= 'F')
        return c - 'A' + 10;
    return -1;
}

/* A decimal number with no needless zero, below 2^64: whether the text is one and nothing else. */
static int number(const char *text, uint64_t *n)
{
    if (*text == '\0' || (text[0] == '0' && text[1] != '\0'))
        return 0;
    *n = 0;
    for (; *text != '\0'; text++) {
        uint64_t next = (uint64_t)(*text - '0');
        if (*text < '0' || *text > '9' || *n > (UINT64_MAX - next) / 10)
            return 0;
        *n = 10 * *n + next;
    }
    return 1;
}

/* The bytes of HEX:N in memory of just their length, and N; or no memory. */
static uint8_t *parse(const char *text, size_t *length, uint64_t *n)
{
    const char *colon = strchr(text, ':');
    if (colon == NULL || (colon - text) % 2 != 0 || !number(colon + 1, n))
        return NULL;
    *length = (size_t)(colon - text) / 2;
    uint8_t *bytes = malloc(*length > 0 ? *length : 1);
    for (size_t i = 0; bytes != NULL && i < *length; i++) {
        int high = digit(text[2 * i]);
        int low = digit(text[2 * i + 1]);
        if (high < 0 || low < 0) {
            free(bytes);
            return NULL;
        }
        bytes[i] = (uint8_t)(16 * high + low);
    }
    return bytes;
}

/* Prints the answer to an argument; 0 if it is accepted, 1 if refused, 2 if it is none. */
static int answer(const char *text)
{
    size_t length;
    uint64_t n;
    uint8_t *bytes = parse(text, &length, &n);
    uint8_t *out = malloc(SINKERPOST_BYTES);
    if (bytes == NULL || out == NULL) {
        fprintf(stderr, out == NULL ? "example: no memory for '%s'\n" : "example: '%s' is not HEX:N\n", text);
        free(bytes);
        free(out);
        return 2;
    }
    uint64_t r = sinkerpost_normalise(bytes, length, n, out, SINKERPOST_BYTES);
    if (r == SINKERPOST_OK) {
        printf("ok ");
        for (size_t i = 0; i < length; i++)
            printf("%02X", out[i]);
        printf("\n");
    } else {
        printf("refused %" PRIu64 " %" PRIu64 "\n", SINKERPOST_NUMBER(r), SINKERPOST_PLACE(r));
    }
    free(bytes);
    free(out);
    return r == SINKERPOST_OK ? 0 : 1;
}

int main(int count, char **arguments)
{
    int worst = 0;
    if (count < 2) {
        fprintf(stderr, "usage: example HEX:N ..\n");
        return 2;
    }
    for (int i = 1; i < count; i++) {
        int status = answer(arguments[i]);
        if (worst < status)
            worst = status;
    }
    if (fflush(stdout) != 0) {
        perror("example");
        return 2;
    }
    return worst;
}
