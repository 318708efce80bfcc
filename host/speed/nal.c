/* Times escaping, unescaping and the start-code scan of crate nal_unit beside memcpy, on 64 MB of three contents, and prints a table:
 * GB/s of payload, and the ratio to memcpy of the same content in the same run. The best of several passes counts. */
#include <stdint.h>
#include <stdio.h>
#include <stdlib.h>
#include <string.h>
#include <time.h>

size_t nal_speed_escape(const uint8_t *payload, size_t payload_len, uint8_t *out, size_t out_len);
size_t nal_speed_unescape(const uint8_t *ebsp, size_t ebsp_len, uint8_t *out, size_t out_len);
size_t nal_speed_next_code(const uint8_t *s, size_t len, size_t from);

enum { SIZE = 64 << 20, ROOM = SIZE + SIZE / 2, PASSES = 7 };

static uint8_t *payload, *escaped, *back;
static size_t escaped_len;

static double now(void) {
    struct timespec t;
    clock_gettime(CLOCK_MONOTONIC, &t);
    return t.tv_sec + t.tv_nsec * 1e-9;
}

/* 0: bytes 1 to 255; 1: one byte in a hundred is 0; 2: zeros */
static void fill(int content) {
    uint32_t x = 12345;
    for (size_t i = 0; i < SIZE; i++) {
        x = x * 1664525u + 1013904223u;
        payload[i] = content == 2 ? 0 : 1 + (x >> 8) % 255;
        if (content == 1 && (x >> 16) % 100 == 0) payload[i] = 0;
    }
}

static void copying(void) { memcpy(back, payload, SIZE); }
static void escaping(void) { escaped_len = nal_speed_escape(payload, SIZE, escaped, ROOM); }
static void unescaping(void) {
    if (nal_speed_unescape(escaped, escaped_len, back, ROOM) != SIZE) { fputs("unescaping: wrong length\n", stderr); exit(1); }
}
static void scanning(void) {
    if (nal_speed_next_code(escaped, escaped_len, 0) != escaped_len) { fputs("scan: a start code in an escape\n", stderr); exit(1); }
}

static double best(void (*work)(void)) {
    double least = 1e9;
    for (int i = 0; i < PASSES; i++) {
        double begun = now();
        work();
        double took = now() - begun;
        if (took < least) least = took;
    }
    return SIZE / least / 1e9;
}

int main(void) {
    static const char *contents[] = {"bytes 1 to 255", "1 % zeros", "all zeros"};
    payload = malloc(SIZE), escaped = malloc(ROOM), back = malloc(ROOM);
    if (!payload || !escaped || !back) { fputs("no memory\n", stderr); return 1; }
    memset(escaped, 1, ROOM), memset(back, 1, ROOM);
    printf("| GB/s of payload (ratio to memcpy) | memcpy | escape | unescape | start-code scan |\n|---|---|---|---|---|\n");
    for (int content = 0; content < 3; content++) {
        fill(content);
        double m = best(copying), e = best(escaping), s = best(scanning), u = best(unescaping);
        if (memcmp(payload, back, SIZE)) { fputs("unescaping: other bytes\n", stderr); return 1; }
        printf("| %s | %.1f | %.1f (%.2f) | %.1f (%.2f) | %.1f (%.2f) |\n", contents[content], m, e, e / m, u, u / m, s, s / m);
    }
    return 0;
}
