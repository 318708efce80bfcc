/* Tests of include/reelpony.h and of the library through it: the constants, texts and version; the header's own examples, which `run` takes out of its first
 * comment; NULL with a length of 0 in every call that allows it; buffers of the exact length; reelpony_room; what End leaves; which states hold nothing.
 *
 * It compiles as C and as C++. `run` builds it with both, and once more with the address and undefined behaviour sanitizers. These see what this file and
 * the C library do: the objects of libreelpony.a are not instrumented. A touch of NULL is a fault in every build; what the library touches right outside
 * of a buffer, or reads though nothing wrote it, is seen where `run` has valgrind, since every buffer here is one of malloc's, of the exact length.
 *
 * Status 0: all holds. 1: something doesn't, and a line says what. */
#include <stdio.h>
#include <stdlib.h>
#include <string.h>

#include "../../include/reelpony.h"

static int checks, failures;

static void check(int holds, const char *what, int line) {
    checks++;
    if (holds) return;
    printf("FAILED: calls.c, line %d: %s\n", line, what);
    failures++;
}

#define CHECK(...) check((__VA_ARGS__), #__VA_ARGS__, __LINE__)

/* A buffer of exactly that many bytes. Of none it is a pointer all the same, behind the last byte of another block, so that any touch is one too many. */
struct buffer {
    uint8_t *block, *bytes;
    size_t length;
};

static struct buffer buffer_of(size_t length, int value) {
    struct buffer b;
    b.block = (uint8_t *)malloc(length ? length : 1);
    if (!b.block) exit(2);
    b.bytes = length ? b.block : b.block + 1;
    b.length = length;
    memset(b.block, value, length ? length : 1);
    return b;
}

static int all(const struct buffer *b, size_t from, int value) {
    for (size_t i = from; i < b->length; i++) if (b->bytes[i] != value) return 0;
    return 1;
}

static int equal(const struct buffer *a, const struct buffer *b) {
    return a->length == b->length && (a->length == 0 || memcmp(a->bytes, b->bytes, a->length) == 0);
}

/* ---- The header's names ---- */

static void names(void) {
    char version[40];
    snprintf(version, sizeof version, "%d.%d.%d", REELPONY_VERSION_MAJOR, REELPONY_VERSION_MINOR, REELPONY_VERSION_PATCH);
    CHECK(strcmp(version, REELPONY_VERSION) == 0);

    CHECK(REELPONY_END == 0 && REELPONY_SPS == 1 && REELPONY_PPS == 2 && REELPONY_PICTURE == 3 && REELPONY_REFUSAL == 4);
    CHECK(REELPONY_ACCEPTED == 0 && REELPONY_REFUSED_SIZE == 1 && REELPONY_REFUSED_OUTPUT == 9 && REELPONY_REFUSED_STRAY == 10);
    CHECK(REELPONY_REFUSED_PLANES == 19 && REELPONY_REFUSED_NOT_A_CODE == 22 && REELPONY_REFUSED_FORMAT == 99);

    /* Each number of the header has a text of its own, and all others share one. */
    const char *unknown = reelpony_refusal_text(23);
    CHECK(strcmp(reelpony_refusal_text(0), "accepted") == 0);
    CHECK(strcmp(reelpony_refusal_text(17), "the picture is cut short") == 0);
    for (uint32_t a = 0; a < 300; a++) {
        const char *text = reelpony_refusal_text(a);
        int listed = a <= 22 || a == 99;
        CHECK(text[0] != 0 && (strcmp(text, unknown) != 0) == listed);
        for (uint32_t b = 0; listed && b < a; b++) CHECK(strcmp(text, reelpony_refusal_text(b)) != 0);
    }
    CHECK(strcmp(reelpony_refusal_text(UINT32_MAX), unknown) == 0);
}

/* ---- Pictures and takes ---- */

/* What a call of the writer is lent, but for output and session. */
struct shot {
    uint32_t width, height, colour, depth;
    const uint8_t *plane[3];
    size_t len[3], stride[3];
};

/* What it answers and leaves. */
struct written {
    uint32_t number, session[8];
    uint64_t length;
};

static struct written write_one(int next, const struct shot *s, uint8_t *out, size_t out_len, const uint32_t session[8]) {
    struct written w;
    memcpy(w.session, session, sizeof w.session);
    w.length = UINT64_MAX;
    uint32_t (*call)(uint32_t, uint32_t, uint32_t, const uint8_t *, size_t, size_t, uint32_t, const uint8_t *, size_t, size_t, uint32_t, const uint8_t *,
        size_t, size_t, uint32_t, uint8_t *, size_t, uint32_t *, uint64_t *) = next ? reelpony_next : reelpony_start;
    w.number = call(s->width, s->height, s->colour, s->plane[0], s->len[0], s->stride[0], s->depth, s->plane[1], s->len[1], s->stride[1], s->depth,
        s->plane[2], s->len[2], s->stride[2], s->depth, out, out_len, w.session, &w.length);
    return w;
}

/* The bytes of a plane's padded row, and its padded rows. */
static size_t padded_row(const struct shot *s, int plane) { return (size_t)(s->width + 15) / 16 * (plane ? 8 : 16) * s->depth / 8; }
static size_t padded_rows(const struct shot *s, int plane) { return (size_t)(s->height + 15) / 16 * (plane ? 8 : 16); }

/* A shot of exact planes, which `planes` gets: every row is its stride, no byte is too many. */
static struct shot shot_of(uint32_t width, uint32_t height, uint32_t colour, uint32_t depth, int value, struct buffer planes[3]) {
    struct shot s;
    s.width = width, s.height = height, s.colour = colour, s.depth = depth;
    for (int i = 0; i < 3; i++) {
        s.stride[i] = padded_row(&s, i);
        planes[i] = buffer_of(s.stride[i] * padded_rows(&s, i), value);
        s.plane[i] = planes[i].bytes, s.len[i] = planes[i].length;
    }
    return s;
}

static void free_all(struct buffer *buffers, int count) {
    for (int i = 0; i < count; i++) free(buffers[i].block);
}

/* A take of that many pictures, of its exact length; `ends` gets the length after each of them. */
static struct buffer take_of(uint32_t width, uint32_t height, uint32_t colour, uint32_t depth, int pictures, size_t *ends) {
    struct buffer planes[3], take = buffer_of(0, 0);
    struct shot s = shot_of(width, height, colour, depth, 0x40, planes);
    uint32_t session[8] = {0};
    for (int i = 0; i < pictures; i++) {
        struct written needed = write_one(i > 0, &s, NULL, 0, session);
        CHECK(needed.number == REELPONY_REFUSED_OUTPUT);
        struct buffer longer = buffer_of(take.length + needed.length, 0);
        if (take.length) memcpy(longer.bytes, take.bytes, take.length);
        struct written w = write_one(i > 0, &s, longer.bytes + take.length, needed.length, session);
        CHECK(w.number == REELPONY_ACCEPTED && w.length == needed.length);
        memcpy(session, w.session, sizeof session);
        free(take.block);
        take = longer;
        ends[i] = take.length;
    }
    free_all(planes, 3);
    return take;
}

/* ---- The header's examples ---- */

static void write_by_the_header(uint32_t width, uint32_t height, const uint8_t *y, size_t y_len, size_t y_stride, FILE *file) {
#include "header_example_1.inc"
    free(out);
}

static int shown;
static uint64_t sum;

static void show(uint8_t *plane[3], const size_t len[3]) {
    shown++;
    for (uint64_t i = 0, place = 1; i < 3; i++, place *= 1000) if (len[i]) sum += place * plane[i][len[i] - 1];
}

static void read_by_the_header(const uint8_t *take, size_t take_len) {
#include "header_example_2.inc"
}

/* The loop begins with planes of no bytes, which are too short for any picture; it has to end, and to have shown every picture. `run` stops it if it doesn't. */
static void examples(void) {
    FILE *file = tmpfile();
    if (!file) exit(2);
    struct buffer planes[3];
    struct shot s = shot_of(30, 20, 0, 8, 0x55, planes);
    write_by_the_header(s.width, s.height, s.plane[0], s.len[0], s.stride[0], file);
    struct buffer take = buffer_of((size_t)ftell(file), 0);
    rewind(file);
    CHECK(take.length > 600 && fread(take.bytes, 1, take.length, file) == take.length);
    fclose(file);
    shown = 0, sum = 0;
    read_by_the_header(take.bytes, take.length);
    CHECK(shown == 1 && sum == 0x55);
    free(take.block);
    free_all(planes, 3);

    for (uint32_t colour = 0; colour < 2; colour++)
        for (uint32_t depth = 8; depth <= 12; depth += 4) {
            size_t ends[3];
            take = take_of(36, 20, colour, depth, 3, ends);
            shown = 0, sum = 0;
            read_by_the_header(take.bytes, take.length);
            CHECK(shown == 3 && sum == 3 * (colour ? 0x40 * 1001001ull : 0x40ull));
            free(take.block);
        }
    read_by_the_header(NULL, 0);
}

/* ---- NULL with a length of 0 ---- */

/* Every choice of planes and output that are not lent, once as NULL and once as another pointer: the same answer, and the one that the header lists. */
static void null_written(int next, uint32_t colour, uint32_t depth, int lent, int strides) {
    struct buffer planes[3], none = buffer_of(0, 0), out[2];
    struct shot s = shot_of(32, 18, colour, depth, 0, planes);
    const uint32_t session[8] = {32, 18, colour, depth, 0, 0, 0, 0};
    uint64_t room = reelpony_room(32, 18, colour, depth);
    struct written w[2], whole;
    for (int i = 0; i < 2; i++) out[i] = buffer_of(room, 0xAB);
    whole = write_one(next, &s, out[0].bytes, room, session);
    memset(out[0].bytes, 0xAB, room);

    for (int i = 0; i < 3 && !strides; i++) s.stride[i] = 0;
    for (int i = 0; i < 2; i++) {
        struct shot t = s;
        for (int k = 0; k < 3; k++) if (!(lent >> k & 1)) t.plane[k] = i ? none.bytes : NULL, t.len[k] = 0;
        w[i] = write_one(next, &t, lent & 8 ? out[i].bytes : i ? none.bytes : NULL, lent & 8 ? room : 0, session);
    }
    int known = colour < 2 && (depth == 8 || depth == 12), planes_lent = colour ? (lent & 7) == 7 : lent & 1;
    uint32_t number = !known ? 99 : !strides ? 7 : !planes_lent ? 8 : !(lent & 8) ? 9 : 0;
    CHECK(w[0].number == number && w[0].length == (number == 0 || number == 9 ? whole.length : 0));
    CHECK(w[1].number == w[0].number && w[1].length == w[0].length && memcmp(w[0].session, w[1].session, sizeof session) == 0);
    CHECK(memcmp(w[0].session, session, sizeof session) == 0);
    CHECK(equal(&out[0], &out[1]) && all(&out[0], number == 0 ? w[0].length : 0, 0xAB));
    if (known) CHECK(whole.number == 0 && whole.length > 0 && whole.length <= room);
    free_all(planes, 3), free_all(out, 2), free_all(&none, 1);
}

/* One reading of a take, to the end or to a refusal with 19, which keeps the place: every answer and state. */
struct reading {
    uint64_t answers[8][8], readers[8][8];
    uint32_t numbers[8];
    int calls;
};

static struct reading read_all(const uint8_t *take, size_t take_len, uint8_t *const plane[3], const size_t len[3], uint64_t place) {
    struct reading r;
    uint64_t reader[8] = {0}, answer[8];
    memset(&r, 0, sizeof r);
    reader[REELPONY_PLACE] = place;
    while (r.calls < 8) {
        memset(answer, 0xEE, sizeof answer);
        uint32_t number = reelpony_read(take, take_len, plane[0], len[0], plane[1], len[1], plane[2], len[2], reader, answer);
        memcpy(r.answers[r.calls], answer, sizeof answer);
        memcpy(r.readers[r.calls], reader, sizeof reader);
        r.numbers[r.calls++] = number;
        if (answer[REELPONY_KIND] == REELPONY_END || number == REELPONY_REFUSED_PLANES) break;
    }
    return r;
}

/* Every choice of planes that are not lent, of the reader. */
static void null_read(uint32_t colour, uint32_t depth, int lent) {
    size_t end;
    struct buffer take = take_of(32, 18, colour, depth, 1, &end), none = buffer_of(0, 0), planes[2][3];
    struct reading r[2];
    uint64_t held[8] = {0, 1, 32, 18, colour, depth, 1, 0};
    for (int i = 0; i < 2; i++) {
        uint8_t *plane[3];
        size_t len[3];
        for (uint32_t k = 0; k < 3; k++) {
            planes[i][k] = buffer_of(reelpony_plane_len(held, k), 0xAB);
            int is = lent >> k & 1;
            plane[k] = is ? planes[i][k].bytes : i ? none.bytes : NULL;
            len[k] = is ? planes[i][k].length : 0;
        }
        r[i] = read_all(take.bytes, take.length, plane, len, 0);
    }
    CHECK(memcmp(&r[0], &r[1], sizeof r[0]) == 0);
    for (int k = 0; k < 3; k++) CHECK(equal(&planes[0][k], &planes[1][k]));
    int shows = colour ? lent == 7 : lent & 1;
    CHECK(r[0].calls == (shows ? 4 : 3));
    CHECK(r[0].answers[0][REELPONY_KIND] == REELPONY_SPS && r[0].answers[1][REELPONY_KIND] == REELPONY_PPS);
    CHECK(r[0].answers[2][REELPONY_KIND] == (shows ? REELPONY_PICTURE : REELPONY_REFUSAL) && r[0].numbers[2] == (shows ? 0 : 19));
    for (int k = 0; k < 3; k++) CHECK(shows && k <= (colour ? 2 : 0) ? planes[0][k].bytes[0] == 0x40 : all(&planes[0][k], 0, 0xAB));
    free_all(&take, 1), free_all(&none, 1), free_all(planes[0], 3), free_all(planes[1], 3);
}

/* A take of no bytes, at any place, with planes or without: End, and the place is kept. */
static void null_take(uint64_t place) {
    struct buffer none = buffer_of(0, 0), y = buffer_of(16, 0xAB);
    uint8_t *const nulls[3] = {NULL, NULL, NULL}, *const some[3] = {y.bytes, none.bytes, none.bytes};
    const size_t zeros[3] = {0, 0, 0}, lens[3] = {16, 0, 0};
    struct reading r[3];
    r[0] = read_all(NULL, 0, nulls, zeros, place);
    r[1] = read_all(none.bytes, 0, some, lens, place);
    r[2] = read_all(NULL, 0, some, lens, place);
    CHECK(memcmp(&r[0], &r[1], sizeof r[0]) == 0 && memcmp(&r[0], &r[2], sizeof r[0]) == 0);
    CHECK(r[0].calls == 1 && r[0].numbers[0] == 0 && r[0].answers[0][REELPONY_KIND] == REELPONY_END && r[0].readers[0][REELPONY_PLACE] == place);
    CHECK(all(&y, 0, 0xAB));
    free_all(&none, 1), free_all(&y, 1);
}

/* The pieces: what each answers about nothing, as NULL and as another pointer. */
static void null_pieces(void) {
    struct buffer none = buffer_of(0, 0), three = buffer_of(3, 0x11), out = buffer_of(3, 0xAB);
    uint8_t *pointers[2];
    pointers[0] = NULL, pointers[1] = none.bytes;
    for (int i = 0; i < 2; i++)
        for (int k = 0; k < 2; k++) {
            uint8_t *p = pointers[i], *q = pointers[k];
            uint64_t length = 77;
            CHECK(reelpony_escape(p, 0, q, 0, &length) == 0 && length == 0);
            length = 77;
            CHECK(reelpony_unescape(p, 0, q, 0, &length) == 0 && length == 0);
            length = 77;
            CHECK(reelpony_escape(p, 0, out.bytes, 3, &length) == 0 && length == 0);
            length = 77;
            CHECK(reelpony_unescape(p, 0, out.bytes, 3, &length) == 0 && length == 0);
            length = 77;
            CHECK(reelpony_escape(three.bytes, 3, q, 0, &length) == 21 && length == 0);
            length = 77;
            CHECK(reelpony_unescape(three.bytes, 3, q, 0, &length) == 21 && length == 0);
        }
    CHECK(all(&out, 0, 0xAB) && all(&three, 0, 0x11));

    const uint64_t places[] = {0, 1, 8, UINT64_MAX - 1, UINT64_MAX};
    for (int i = 0; i < 2; i++)
        for (int k = 0; k < 5; k++) {
            uint8_t *p = pointers[i];
            uint64_t behind = 77;
            uint32_t x = 5;
            int32_t signed_x = -5;
            CHECK(reelpony_write_ue(p, 0, places[k], 0, &behind) == 21 && behind == places[k]);
            behind = 77;
            CHECK(reelpony_write_ue(p, 0, places[k], UINT32_MAX, &behind) == 20 && behind == places[k]);
            behind = 77;
            CHECK(reelpony_write_se(p, 0, places[k], -1, &behind) == 21 && behind == places[k]);
            behind = 77;
            CHECK(reelpony_write_se(p, 0, places[k], INT32_MIN, &behind) == 20 && behind == places[k]);
            behind = 77;
            CHECK(reelpony_read_ue(p, 0, places[k], &x, &behind) == 22 && behind == places[k] && x == 5);
            behind = 77;
            CHECK(reelpony_read_se(p, 0, places[k], &signed_x, &behind) == 22 && behind == places[k] && signed_x == -5);
        }
    free_all(&none, 1), free_all(&three, 1), free_all(&out, 1);
}

static void nulls(void) {
    const uint32_t depths[] = {8, 10, 12};
    for (int next = 0; next < 2; next++)
        for (uint32_t colour = 0; colour < 3; colour++)
            for (int d = 0; d < 3; d++)
                for (int lent = 0; lent < 16; lent++)
                    for (int strides = 0; strides < 2; strides++) null_written(next, colour, depths[d], lent, strides);
    for (uint32_t colour = 0; colour < 2; colour++)
        for (int d = 0; d < 3; d += 2)
            for (int lent = 0; lent < 8; lent++) null_read(colour, depths[d], lent);
    null_take(0), null_take(1), null_take(UINT64_MAX);
    null_pieces();
}

/* ---- The exact length ---- */

static void exact_pieces(void) {
    const uint8_t plain[] = {0, 0, 0, 0, 1, 9}, escaped[] = {0, 0, 3, 0, 0, 3, 1, 9};
    struct buffer from = buffer_of(6, 0), to = buffer_of(8, 0xAB), back = buffer_of(6, 0xAB), less = buffer_of(7, 0xAB), least = buffer_of(5, 0xAB);
    memcpy(from.bytes, plain, 6);
    uint64_t length = 77;
    CHECK(reelpony_escape(from.bytes, 6, to.bytes, 8, &length) == 0 && length == 8 && memcmp(to.bytes, escaped, 8) == 0);
    CHECK(reelpony_escape(from.bytes, 6, less.bytes, 7, &length) == 21 && length == 0 && all(&less, 0, 0xAB));
    CHECK(reelpony_unescape(to.bytes, 8, back.bytes, 6, &length) == 0 && length == 6 && memcmp(back.bytes, plain, 6) == 0);
    CHECK(reelpony_unescape(to.bytes, 8, least.bytes, 5, &length) == 21 && length == 0 && all(&least, 0, 0xAB));
    CHECK(reelpony_unescape(from.bytes, 6, to.bytes, 8, &length) == 12 && length == 0 && memcmp(to.bytes, escaped, 8) == 0);
    free_all(&from, 1), free_all(&to, 1), free_all(&back, 1), free_all(&less, 1), free_all(&least, 1);

    /* Codes that end at a buffer's last bit, and one bit behind it: of 0 (a bit), of 5 and -2 (five bits), of 65534 (31 bits). */
    for (size_t n = 1; n < 9; n++) {
        struct buffer b = buffer_of(n, 0);
        uint64_t bits = 8 * n, behind = 77;
        uint32_t x = 5;
        int32_t signed_x = 5;
        CHECK(reelpony_write_ue(b.bytes, n, bits - 1, 0, &behind) == 0 && behind == bits && b.bytes[n - 1] == 1);
        CHECK(reelpony_read_ue(b.bytes, n, bits - 1, &x, &behind) == 0 && behind == bits && x == 0);
        CHECK(reelpony_write_ue(b.bytes, n, bits, 0, &behind) == 21 && behind == bits);
        CHECK(reelpony_read_ue(b.bytes, n, bits, &x, &behind) == 22 && behind == bits && x == 0);
        CHECK(reelpony_write_se(b.bytes, n, bits - 5, -2, &behind) == 0 && behind == bits);
        CHECK(reelpony_read_se(b.bytes, n, bits - 5, &signed_x, &behind) == 0 && behind == bits && signed_x == -2);
        CHECK(reelpony_write_se(b.bytes, n, bits - 4, -2, &behind) == 21 && behind == bits - 4);
        if (n >= 4) {
            CHECK(reelpony_write_ue(b.bytes, n, bits - 31, 65534, &behind) == 0 && behind == bits);
            CHECK(reelpony_read_ue(b.bytes, n, bits - 31, &x, &behind) == 0 && behind == bits && x == 65534);
        }
        memset(b.bytes, 0, n);
        CHECK(reelpony_read_ue(b.bytes, n, 0, &x, &behind) == 22 && behind == 0);
        free_all(&b, 1);
    }
}

/* Pictures of all kinds and of sizes around a macroblock's, with planes and output of the exact length, written and read back. */
static void exact_pictures(void) {
    for (uint32_t colour = 0; colour < 2; colour++)
        for (uint32_t depth = 8; depth <= 12; depth += 4)
            for (uint32_t width = 4; width <= 52; width += 16)
                for (uint32_t height = 2; height <= 34; height += 16)
                    for (int value = 0; value < 2; value++) {
                        struct buffer planes[3], back[3];
                        struct shot s = shot_of(width, height, colour, depth, value, planes);
                        const uint32_t session[8] = {0, 0, 0, 0, 0, 0, 0, 0};
                        uint64_t needed = write_one(0, &s, NULL, 0, session).length;
                        struct buffer out = buffer_of(needed, 0xAB);
                        struct written w = write_one(0, &s, out.bytes, needed - 1, session);
                        CHECK(w.number == REELPONY_REFUSED_OUTPUT && w.length == needed && all(&out, 0, 0xAB));
                        w = write_one(0, &s, out.bytes, needed, session);
                        CHECK(w.number == REELPONY_ACCEPTED && w.length == needed && out.bytes[needed - 1] == 0x80);

                        uint64_t held[8] = {0, 1, width, height, colour, depth, 1, 0};
                        uint8_t *plane[3];
                        size_t len[3];
                        for (uint32_t k = 0; k < 3; k++) {
                            back[k] = buffer_of(reelpony_plane_len(held, k), 0xAB);
                            plane[k] = back[k].bytes, len[k] = back[k].length;
                        }
                        struct reading r = read_all(out.bytes, needed, plane, len, 0);
                        CHECK(r.calls == 4 && r.answers[2][REELPONY_KIND] == REELPONY_PICTURE);
                        for (int k = 0; k < 3; k++) CHECK(all(&back[k], 0, value));
                        CHECK(len[0] > 0 && (len[1] > 0) == (colour == 1) && len[1] == len[2]);
                        free_all(planes, 3), free_all(back, 3), free_all(&out, 1);
                    }
}

/* ---- reelpony_room ---- */

static void rooms(void) {
    const uint32_t sizes[] = {0, 1, 2, 3, 4, 5, 15, 16, 17, 18, 33, 16382, 16383, 16384, 16385, 65536, UINT32_MAX};
    const uint32_t depths[] = {0, 7, 8, 9, 10, 12, 16, UINT32_MAX}, colours[] = {0, 1, 2, 3, UINT32_MAX};
    const uint32_t session[8] = {0, 0, 0, 0, 0, 0, 0, 0};
    for (size_t w = 0; w < sizeof sizes / sizeof *sizes; w++)
        for (size_t h = 0; h < sizeof sizes / sizeof *sizes; h++)
            for (size_t c = 0; c < sizeof colours / sizeof *colours; c++)
                for (size_t d = 0; d < sizeof depths / sizeof *depths; d++) {
                    struct shot s;
                    memset(&s, 0, sizeof s);
                    s.width = sizes[w], s.height = sizes[h], s.colour = colours[c], s.depth = depths[d];
                    uint32_t number = write_one(0, &s, NULL, 0, session).number;
                    uint64_t room = reelpony_room(s.width, s.height, s.colour, s.depth);
                    CHECK(number == 99 || (number >= 1 && number <= 5) ? room == 0 : number == 7 && room > 0);
                    if (room == 0 || s.width > 40 || s.height > 40) continue;
                    /* Black is the longest: every second zero is followed by an inserted byte. */
                    struct buffer planes[3], out = buffer_of(room, 0xAB);
                    s = shot_of(s.width, s.height, s.colour, s.depth, 0, planes);
                    uint32_t held[8] = {s.width, s.height, s.colour, s.depth, 0, 0, 0, 0};
                    for (int next = 0; next < 2; next++) {
                        struct written a = write_one(next, &s, out.bytes, room, held);
                        CHECK(a.number == REELPONY_ACCEPTED && a.length <= room && all(&out, a.length, 0xAB));
                        memset(out.bytes, 0xAB, room);
                    }
                    free_all(planes, 3), free_all(&out, 1);
                }

    /* More than the samples and half as much again: the framing, and what stands between macroblocks, counts too. */
    struct buffer planes[3];
    struct shot s = shot_of(640, 480, 0, 8, 0, planes);
    CHECK(write_one(0, &s, NULL, 0, session).length == 463230 && reelpony_room(640, 480, 0, 8) >= 463230);
    free_all(planes, 3);
}

/* ---- The reader's numbers ---- */

/* Every kind of answer, with its numbers by their names. */
static void kinds(void) {
    size_t end;
    struct buffer take = take_of(36, 20, 1, 12, 1, &end), more = buffer_of(take.length + 5, 0x77), planes[3];
    memcpy(more.bytes, take.bytes, take.length);
    memcpy(more.bytes + take.length, "\0\0\1\x0C\x80", 5);
    uint64_t held[8] = {0, 1, 36, 20, 1, 12, 1, 0};
    uint8_t *plane[3];
    size_t len[3];
    for (uint32_t k = 0; k < 3; k++) {
        planes[k] = buffer_of(reelpony_plane_len(held, k), 0);
        plane[k] = planes[k].bytes, len[k] = planes[k].length;
    }
    CHECK(len[0] == 36 * 12 / 8 * 20 && len[1] == 18 * 12 / 8 * 10 && len[2] == len[1] && reelpony_plane_len(held, 3) == 0);
    struct reading r = read_all(more.bytes, more.length, plane, len, 0);
    const uint64_t want[] = {REELPONY_SPS, REELPONY_PPS, REELPONY_PICTURE, REELPONY_REFUSAL, REELPONY_END};
    CHECK(r.calls == 5);
    for (int i = 0; i < 5; i++) CHECK(r.answers[i][REELPONY_KIND] == want[i]);
    const uint64_t *sps = r.answers[0], *reader = r.readers[1];
    CHECK(sps[REELPONY_OFFSET] == 4 && sps[REELPONY_WIDTH] == 36 && sps[REELPONY_HEIGHT] == 20 && sps[REELPONY_COLOUR] == 1 && sps[REELPONY_DEPTH] == 12);
    CHECK(reader[REELPONY_SPS_HELD] == 1 && reader[REELPONY_PPS_HELD] == 1 && reader[REELPONY_WIDTH] == 36 && reader[REELPONY_HEIGHT] == 20);
    CHECK(reader[REELPONY_COLOUR] == 1 && reader[REELPONY_DEPTH] == 12 && r.readers[0][REELPONY_PPS_HELD] == 0);
    CHECK(r.answers[3][REELPONY_NUMBER] == REELPONY_REFUSED_HEADER && r.answers[3][REELPONY_OFFSET] == take.length + 3);
    CHECK(r.readers[4][REELPONY_PLACE] == more.length);
    free_all(&take, 1), free_all(&more, 1), free_all(planes, 3);
}

/* Reads to End with a part of the take, then with all of it; answers how many pictures came, and the last refusal. */
static int pictures_in_two(const struct buffer *take, size_t part, uint32_t *refusal) {
    struct buffer y = buffer_of(32 * 18, 0);
    uint64_t reader[8] = {0}, answer[8] = {0};
    int pictures = 0;
    *refusal = 0;
    for (int turn = 0; turn < 2; turn++)
        for (int calls = 0; calls < 20; calls++) {
            uint32_t number = reelpony_read(take->bytes, turn ? take->length : part, y.bytes, y.length, NULL, 0, NULL, 0, reader, answer);
            if (number) *refusal = number;
            pictures += answer[REELPONY_KIND] == REELPONY_PICTURE;
            if (answer[REELPONY_KIND] == REELPONY_END) break;
        }
    free_all(&y, 1);
    return pictures;
}

/* End lets the reading go on where the bytes ended with a unit. Where a unit or a start code was cut, its picture is lost and the rest is refused with 10. */
static void ends(void) {
    size_t behind[3];
    uint32_t refusal;
    struct buffer take = take_of(32, 18, 0, 8, 3, behind);
    for (int i = 0; i < 3; i++) CHECK(pictures_in_two(&take, behind[i], &refusal) == 3 && refusal == 0);
    CHECK(pictures_in_two(&take, 0, &refusal) == 3 && refusal == 0);
    CHECK(pictures_in_two(&take, behind[0] - 1, &refusal) == 2 && refusal == REELPONY_REFUSED_STRAY);
    CHECK(pictures_in_two(&take, behind[0] + 3, &refusal) == 2 && refusal == REELPONY_REFUSED_STRAY);
    CHECK(pictures_in_two(&take, behind[0] + 4, &refusal) == 2 && refusal == REELPONY_REFUSED_STRAY);
    CHECK(pictures_in_two(&take, behind[0] + 100, &refusal) == 2 && refusal == REELPONY_REFUSED_STRAY);
    free_all(&take, 1);
}

/* States that count as holding nothing: 16 for a picture, and planes of no length. */
static void states(void) {
    const uint64_t holds[][8] = {{0, 1, 32, 18, 0, 8, 1, 0}, {0, 1, 32, 18, 0, 8, 1, 99}};
    const uint64_t nothing[][8] = {{0, 2, 32, 18, 0, 8, 1, 0}, {0, 1, 32, 18, 0, 8, 2, 0}, {0, 1, 0, 18, 0, 8, 1, 0}, {0, 1, 32, 16385, 0, 8, 1, 0},
        {0, 1, 32, 18, 2, 8, 1, 0}, {0, 1, 32, 18, 0, 10, 1, 0}, {0, 1, 33, 18, 0, 12, 1, 0}, {0, 1, 32, 17, 1, 8, 1, 0}, {0, 1, 34, 18, 1, 12, 1, 0},
        {0, 1, (1ull << 32) + 32, 18, 0, 8, 1, 0}, {0, 0, 32, 18, 0, 8, 1, 0}};
    size_t end;
    struct buffer take = take_of(32, 18, 0, 8, 1, &end), y = buffer_of(32 * 18, 0);
    size_t picture = 0;
    while (memcmp(take.bytes + picture, "\0\0\0\1\x25", 5) != 0) picture++;
    for (size_t i = 0; i < sizeof holds / sizeof *holds + sizeof nothing / sizeof *nothing; i++) {
        int is = i < sizeof holds / sizeof *holds;
        uint64_t reader[8], answer[8] = {0};
        memcpy(reader, is ? holds[i] : nothing[i - sizeof holds / sizeof *holds], sizeof reader);
        CHECK(reelpony_plane_len(reader, 0) == (is ? 32u * 18 : 0u));
        reader[REELPONY_PLACE] = picture;
        CHECK(reelpony_read(take.bytes, take.length, y.bytes, y.length, NULL, 0, NULL, 0, reader, answer) == (is ? 0u : 16u));
        CHECK(answer[REELPONY_KIND] == (is ? REELPONY_PICTURE : REELPONY_REFUSAL));
    }
    /* With [1] 0 the size is not looked at, and a PPS alone is held: an SPS makes it whole. */
    uint64_t reader[8] = {0, 0, 7, 7, 7, 7, 1, 0}, answer[8] = {0};
    CHECK(reelpony_read(take.bytes, take.length, NULL, 0, NULL, 0, NULL, 0, reader, answer) == 0 && answer[REELPONY_KIND] == REELPONY_SPS);
    CHECK(reader[REELPONY_PPS_HELD] == 1 && reader[REELPONY_WIDTH] == 32);
    free_all(&take, 1), free_all(&y, 1);
}

int main(void) {
    names();
    examples();
    nulls();
    exact_pieces();
    exact_pictures();
    rooms();
    kinds();
    ends();
    states();
    if (failures) {
        printf("%d of %d checks FAILED\n", failures, checks);
        return 1;
    }
    printf("header %s: %d checks, all hold\n", REELPONY_VERSION, checks);
    return 0;
}
