/* How much stack a function uses: it runs on a stack of its own that was painted before. */
#ifndef PAINTED_H
#define PAINTED_H

#include <stdint.h>
#include <string.h>
#include <ucontext.h>

enum { STACK = 1 << 16, PAINT = 0x5c };

static uint8_t stack[STACK] __attribute__((aligned(64)));
static ucontext_t here, there;

static void nothing(void) {}

/* How many bytes of the painted stack a function touches. */
static size_t used(void (*function)(void))
{
    memset(stack, PAINT, sizeof stack);
    getcontext(&there);
    there.uc_stack.ss_sp = stack;
    there.uc_stack.ss_size = sizeof stack;
    there.uc_link = &here;
    makecontext(&there, function, 0);
    swapcontext(&here, &there);
    size_t clean = 0;
    while (clean < sizeof stack && stack[clean] == PAINT)
        clean++;
    return sizeof stack - clean;
}

static size_t larger(size_t a, size_t b)
{
    return a < b ? b : a;
}

#endif
