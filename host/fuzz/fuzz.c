/* Calls reelpony_read with arbitrary bytes, states and planes, and looks for a touch outside of what is lent.
 *
 * Usage: fuzz [SECONDS [SEED [CASE]]]
 *
 * Every lent buffer has its exact length and stands, by turns, at the end of a page before one that can't be touched, at the begin
 * of a page behind such a one, or in memory of malloc, which AddressSanitizer watches in this file and in the functions of the C
 * library. The library itself is not instrumented: there the pages count, and bytes around each buffer that must stay. A take or a
 * plane of no bytes is NULL by turns.
 * With CASE, only that one is made. Status 0: nothing was touched; 1: something was, or an answer can't be. */
#define _GNU_SOURCE
#include <signal.h>
#include <stdio.h>
#include <stdlib.h>
#include <string.h>
#include <sys/mman.h>
#include <time.h>
#include <unistd.h>

#include "../../include/reelpony.h"

enum { PAGE = 4096, ROOM = 4 * PAGE, MARGIN = 64, CANARY = 0xC5, BUFFERS = 6, CASES_A_LOOK = 64 };

static uint64_t seed = 1, number_of_case, noise;

/* A number below n, at least 1: the seed and the case decide it. */
static uint64_t below(uint64_t n) {
    noise ^= noise >> 12, noise ^= noise << 25, noise ^= noise >> 27;
    return (noise * 0x2545F4914F6CDD1Du >> 32) * n >> 32;
}

static void begin_case(void) {
    noise = (seed ^ number_of_case << 20) * 0x9E3779B97F4A7C15u | 1;
    for (int i = 0; i < 8; i++) below(2);
}

static void fail(const char *what) {
    printf("FAILED: %s\nagain: fuzz 1 %llu %llu\n", what, (unsigned long long)seed, (unsigned long long)number_of_case);
    exit(1);
}

/* A lent buffer: where it stands (nowhere if it is NULL), its length, what it held before the call, and in how many cases it was NULL. */
struct lent {
    const char *name;
    uint8_t *pages, *bytes;
    size_t length;
    int by_malloc;
    uint64_t nulls;
    uint8_t before[ROOM];
};

static struct lent lents[BUFFERS] = {
    {.name = "take"}, {.name = "y"}, {.name = "cb"}, {.name = "cr"}, {.name = "reader"}, {.name = "answer"}};

/* A touch of a page that isn't lent. */
static void on_fault(int sig, siginfo_t *info, void *context) {
    (void)sig, (void)context;
    const uint8_t *at = info->si_addr;
    const char *name = "elsewhere";
    long place = 0;
    if ((uintptr_t)at < PAGE) name = "NULL", place = (long)(uintptr_t)at;
    for (int i = 0; i < BUFFERS; i++)
        if (lents[i].pages && at >= lents[i].pages && at < lents[i].pages + ROOM + 2 * PAGE)
            name = lents[i].name, place = (long)(at - lents[i].bytes);
    char text[200];
    int length = snprintf(text, sizeof text, "FAILED: a fault at byte %ld of %s\nagain: fuzz 1 %llu %llu\n", place, name,
        (unsigned long long)seed, (unsigned long long)number_of_case);
    if (write(1, text, (size_t)length) < 0) _exit(2);
    _exit(1);
}

/* Its own pages for each buffer, one that can't be touched on either side. */
static void make_pages(struct lent *l) {
    l->pages = mmap(NULL, ROOM + 2 * PAGE, PROT_READ | PROT_WRITE, MAP_PRIVATE | MAP_ANONYMOUS, -1, 0);
    if (l->pages == MAP_FAILED || mprotect(l->pages, PAGE, PROT_NONE) || mprotect(l->pages + PAGE + ROOM, PAGE, PROT_NONE)) {
        perror("fuzz: pages");
        exit(2);
    }
}

/* Gives the buffer a length and a place, with canaries where there is room around it. */
static void place(struct lent *l, size_t length) {
    l->length = length;
    l->by_malloc = below(4) == 0;
    if (length == 0 && below(2)) {
        l->bytes = NULL;
        l->nulls++;
        return;
    }
    if (l->by_malloc) {
        l->bytes = malloc(length);
        if (!l->bytes) exit(2);
        return;
    }
    uint8_t *begin = l->pages + PAGE, *end = begin + ROOM;
    l->bytes = below(3) ? end - length : begin;
    for (uint8_t *p = l->bytes - MARGIN; p < l->bytes; p++) if (p >= begin) *p = CANARY;
    for (uint8_t *p = l->bytes + length; p < l->bytes + length + MARGIN && p < end; p++) *p = CANARY;
}

static void check_canaries(const struct lent *l) {
    if (l->by_malloc || !l->bytes) return;
    const uint8_t *begin = l->pages + PAGE, *end = begin + ROOM;
    for (const uint8_t *p = l->bytes - MARGIN; p < l->bytes; p++)
        if (p >= begin && *p != CANARY) fail("a byte before a buffer was changed");
    for (const uint8_t *p = l->bytes + l->length; p < l->bytes + l->length + MARGIN && p < end; p++)
        if (*p != CANARY) fail("a byte behind a buffer was changed");
}

static void remember(struct lent *l) {
    if (l->length) memcpy(l->before, l->bytes, l->length);
}

static int changed(const struct lent *l) {
    return l->length && memcmp(l->before, l->bytes, l->length) != 0;
}

/* What the case's takes are written for. */
static uint32_t width, height, colour, depth;

static uint8_t built[ROOM];
static size_t built_len;

static void put(const uint8_t *bytes, size_t length) {
    if (length > sizeof built - built_len) length = sizeof built - built_len;
    memcpy(built + built_len, bytes, length);
    built_len += length;
}

#define PUT(...) put((const uint8_t[]){__VA_ARGS__}, sizeof((const uint8_t[]){__VA_ARGS__}))

/* A take of one picture, by the writer; answers its length. */
static size_t written(uint8_t *out, size_t room) {
    static uint8_t plane[64 * 96];
    static const uint64_t one_in[] = {1, 2, 8, 400};
    uint64_t some = one_in[below(4)];
    for (size_t i = 0; i < sizeof plane; i++) plane[i] = below(some) ? 0 : (uint8_t)below(256);
    uint32_t session[8] = {0};
    uint64_t length = 0;
    uint32_t number = reelpony_start(width, height, colour, plane, sizeof plane, 96, depth, plane, sizeof plane, 96, depth,
        plane, sizeof plane, 96, depth, out, room, session, &length);
    if (number) fail("the writer refuses");
    return (size_t)length;
}

/* Bytes in which a reader finds all sorts of things. */
static void build(void) {
    static uint8_t take[ROOM];
    size_t length = written(take, sizeof take);
    built_len = 0;
    for (uint64_t n = below(6); n > 0 && built_len < ROOM / 2; n--) {
        size_t from = below(length), some = below(length - from + 1);
        switch (below(12)) {
        case 0: case 1: case 2: put(take, length); break;
        case 3: put(take + from, some); break;
        case 4: PUT(0, 0, 1); break;
        case 5: PUT(0, 0, 3); break;
        case 6: PUT(0, 0, 1, 0x67, 0x64, 0, 0x0A, 0xF3, 0xDC, 0x9B, 1); break;
        case 7: PUT(0, 0, 1, 0x68, 0xCE, 0x38, 0x80); break;
        case 8: PUT(0, 0, 1, 0x25, 0x88, 0x84, 0x28, 0x68); break;
        case 9: PUT(0, 0, 0); break;
        default: for (uint64_t i = below(20); i > 0; i--) PUT((uint8_t)below(256)); break;
        }
    }
    if (built_len && below(2)) for (uint64_t i = below(4); i > 0; i--) built[below(built_len)] = (uint8_t)below(below(2) ? 4 : 256);
    if (built_len && below(4) == 0) built_len -= below(built_len < 9 ? built_len : 9);
}

/* A state that a take leaves, or one of little or no sense. */
static void draw_state(uint64_t s[8]) {
    static const uint64_t odd[] = {0, 1, 2, 3, 8, 12, 16, 16384, 16385, 1ull << 32, 1ull << 63, UINT64_MAX};
    s[0] = below(2) ? 0 : below(8) ? below(built_len + 4) : odd[below(12)];
    s[1] = s[6] = 1;
    s[2] = width, s[3] = height, s[4] = colour, s[5] = depth, s[7] = odd[below(12)];
    if (below(4) == 0) memset(s + 1, 0, 6 * sizeof *s);
    if (below(3) == 0) for (uint64_t i = below(4); i > 0; i--) s[1 + below(6)] = odd[below(12)];
}

/* The bytes of a plane's visible rows. */
static size_t tight(int chroma) {
    size_t part = chroma ? 2 : 1;
    return width / part * depth / 8 * (height / part);
}

static uint64_t answers[5], calls;

/* One call on the buffers as they stand; answers whether the place was moved. */
static int call(void) {
    struct lent *take = &lents[0], *y = &lents[1], *cb = &lents[2], *cr = &lents[3], *reader = &lents[4], *answer = &lents[5];
    for (int i = 0; i < BUFFERS; i++) remember(&lents[i]);
    uint64_t *state = (uint64_t *)(void *)reader->bytes, *words = (uint64_t *)(void *)answer->bytes, before[8];
    memcpy(before, state, sizeof before);
    uint32_t number = reelpony_read(take->bytes, take->length, y->bytes, y->length, cb->bytes, cb->length, cr->bytes, cr->length,
        state, words);
    calls++;
    for (int i = 0; i < BUFFERS; i++) check_canaries(&lents[i]);
    if (changed(take)) fail("the take was changed");
    if (words[0] > REELPONY_REFUSAL || number != words[6] || (number != 0) != (words[0] == REELPONY_REFUSAL)) fail("an answer that can't be");
    if (number != 0 && (number < 10 || number > 19)) fail("a refusal that can't be");
    if (state[7] != before[7]) fail("the spare number was changed");
    int stays = words[0] == REELPONY_END || number == REELPONY_REFUSED_PLANES;
    if (stays && state[0] != before[0]) fail("the place was moved");
    if (!stays && (state[0] <= before[0] || state[0] > take->length)) fail("the place was not moved on");
    if (words[0] != REELPONY_END && words[1] > take->length) fail("an offset outside of the take");
    for (int i = 1; words[0] != REELPONY_PICTURE && i < 4; i++)
        if (changed(&lents[i])) fail("a plane was changed without a picture");
    answers[words[0]]++;
    return !stays;
}

/* A take, a state and planes, read to the end or until 19 keeps the place. */
static void one_case(void) {
    begin_case();
    colour = (uint32_t)below(2), depth = below(2) ? 12 : 8;
    width = 4 * (1 + (uint32_t)below(8)), height = 2 * (1 + (uint32_t)below(16));
    if (!colour && depth == 8) width -= (uint32_t)below(4);
    build();
    place(&lents[0], built_len);
    if (built_len) memcpy(lents[0].bytes, built, built_len);
    for (int i = 1; i < 4; i++) {
        size_t length = i > 1 && !colour ? below(3) : tight(i > 1);
        if (below(8) == 0 && length) length -= below(2) ? 1 : below(length);
        if (below(8) == 0) length += below(20);
        if (below(16) == 0) length = 0;
        place(&lents[i], length);
        for (size_t k = 0; k < length; k++) lents[i].bytes[k] = (uint8_t)(k * 151 ^ number_of_case);
    }
    for (int i = 4; i < BUFFERS; i++) place(&lents[i], 64);
    draw_state((uint64_t *)(void *)lents[4].bytes);
    memset(lents[5].bytes, 0xEE, 64);
    while (call()) {}
    for (int i = 0; i < BUFFERS; i++) if (lents[i].by_malloc) free(lents[i].bytes);
}

/* Faults are told by on_fault, with the case. */
const char *__asan_default_options(void) { return "handle_segv=0:handle_sigbus=0:exitcode=1"; }

static double now(void) {
    struct timespec t;
    clock_gettime(CLOCK_MONOTONIC, &t);
    return t.tv_sec + t.tv_nsec * 1e-9;
}

int main(int argc, char **argv) {
    double seconds = argc > 1 ? atof(argv[1]) : 8;
    if (argc > 2) seed = strtoull(argv[2], NULL, 10);
    for (int i = 0; i < BUFFERS; i++) make_pages(&lents[i]);
    struct sigaction action = {.sa_sigaction = on_fault, .sa_flags = SA_SIGINFO};
    sigaction(SIGSEGV, &action, NULL);
    sigaction(SIGBUS, &action, NULL);
    setvbuf(stdout, NULL, _IOLBF, 0);
    if (argc > 3) {
        number_of_case = strtoull(argv[3], NULL, 10);
        one_case();
    } else {
        double end = now() + seconds;
        for (; number_of_case % CASES_A_LOOK || now() < end; number_of_case++) one_case();
        for (int i = 0; i < 5; i++) if (answers[i] == 0) fail("an answer was never met");
        for (int i = 0; i < 4; i++) if (lents[i].nulls == 0) fail("a take or a plane was never NULL");
    }
    uint64_t nulls = 0;
    for (int i = 0; i < 4; i++) nulls += lents[i].nulls;
    printf("seed %llu: %llu cases, %llu calls: %llu end, %llu SPS, %llu PPS, %llu picture, %llu refused; %llu times NULL was lent\nok\n",
        (unsigned long long)seed, (unsigned long long)number_of_case, (unsigned long long)calls, (unsigned long long)answers[REELPONY_END],
        (unsigned long long)answers[REELPONY_SPS], (unsigned long long)answers[REELPONY_PPS], (unsigned long long)answers[REELPONY_PICTURE],
        (unsigned long long)answers[REELPONY_REFUSAL], (unsigned long long)nulls);
    return 0;
}
