/* How much stack a start call and a next call use: each runs on a painted stack of its own, and what is no longer painted is
 * counted. Prints a line for each kind, with samples that are escaped and samples that are not. */
#include <stdio.h>
#include <stdlib.h>
#include <string.h>
#include <ucontext.h>

#include "../../include/reelpony.h"

enum { STACK = 1 << 20, PAINT = 0xA5, WIDTH = 64, HEIGHT = 48, STRIDE = 96 };

static unsigned char stack[STACK], plane[STRIDE * HEIGHT], out[1 << 16];
static uint32_t session[8], answer;
static uint64_t length;
static uint32_t colour, depth;
static size_t room;
static ucontext_t here, there;

static void start_call(void) {
    answer = reelpony_start(WIDTH, HEIGHT, colour, plane, sizeof plane, STRIDE, depth, plane, sizeof plane, STRIDE, depth,
        plane, sizeof plane, STRIDE, depth, out, room, session, &length);
}

static void next_call(void) {
    answer = reelpony_next(WIDTH, HEIGHT, colour, plane, sizeof plane, STRIDE, depth, plane, sizeof plane, STRIDE, depth,
        plane, sizeof plane, STRIDE, depth, out, room, session, &length);
}

/* The bytes of stack that a call touches. */
static size_t touched(void (*call)(void)) {
    memset(stack, PAINT, sizeof stack);
    getcontext(&there);
    there.uc_stack.ss_sp = stack;
    there.uc_stack.ss_size = sizeof stack;
    there.uc_link = &here;
    makecontext(&there, call, 0);
    swapcontext(&here, &there);
    if (answer != 0) {
        printf("refused with %u\n", answer);
        exit(1);
    }
    size_t clean = 0;
    while (clean < sizeof stack && stack[clean] == PAINT) clean++;
    return sizeof stack - clean;
}

int main(void) {
    printf("bytes of stack        start    next\n");
    for (colour = 0; colour < 2; colour++)
        for (depth = 8; depth <= 12; depth += 4)
            for (int zeros = 0; zeros < 2; zeros++) {
                memset(plane, zeros ? 0 : 0x10, sizeof plane);
                room = sizeof out; /* the exact length next, so that it is counted first */
                size_t first = touched(start_call);
                room = (size_t)length;
                size_t counted = touched(start_call);
                room = sizeof out;
                size_t next = touched(next_call);
                printf("%-6s %2u %-9s  %7zu %7zu\n", colour ? "colour" : "mono", depth, zeros ? "zeros" : "no zeros",
                    first > counted ? first : counted, next);
            }
    return 0;
}
