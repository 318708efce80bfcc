/* Writes a take of five pictures, cuts one copy, damages another, and reads all three back.
 *
 * Usage: take [FILE]        FILE gets the whole take; any H.264 player shows it
 *
 * Prints a table of what the reader answers. Status 0: every answer and every sample is what it must be; 1: something is not. */
#include <stdio.h>
#include <stdlib.h>
#include <string.h>

#include "../../include/reelpony.h"

/* 4:2:0 colour of 8 bits. The planes that are written have whole macroblocks: 48 rows of 64 bytes, and 24 rows of 32. What is read has the visible rows. */
enum { WIDTH = 60, HEIGHT = 46, Y_STRIDE = 64, C_STRIDE = 32, Y_ROWS = 48, C_ROWS = 24, PICTURES = 5 };

struct picture {
    uint8_t y[Y_STRIDE * Y_ROWS], cb[C_STRIDE * C_ROWS], cr[C_STRIDE * C_ROWS];
};

/* A take: its bytes, and where each picture's unit begins. */
struct take {
    uint8_t *bytes;
    size_t length, begins[PICTURES];
};

/* What must come of a take: the refusal met in place of each picture, 0 where the picture comes back, -1 where nothing is left of it. */
typedef int expected[PICTURES];

static int failures;

static void check(int holds, const char *what) {
    if (holds) return;
    printf("  FAILED: %s\n", what);
    failures++;
}

/* A slope that moves from picture to picture, with black in it, so that something has to be escaped. */
static void draw(struct picture *p, int turn) {
    for (int row = 0; row < Y_ROWS; row++)
        for (int i = 0; i < Y_STRIDE; i++) p->y[row * Y_STRIDE + i] = (row + turn) % 8 == 0 ? 0 : (uint8_t)(3 * row + 2 * i + 20 * turn);
    for (int row = 0; row < C_ROWS; row++)
        for (int i = 0; i < C_STRIDE; i++) {
            p->cb[row * C_STRIDE + i] = (uint8_t)(100 + i + turn);
            p->cr[row * C_STRIDE + i] = (uint8_t)(160 - row - turn);
        }
}

/* Memory of that many bytes, all 0, with the first `kept` of the old. */
static uint8_t *grown(uint8_t *old, size_t kept, size_t length) {
    uint8_t *bytes = calloc(length, 1);
    if (length && !bytes) exit(2);
    if (kept) memcpy(bytes, old, kept);
    free(old);
    return bytes;
}

/* Appends a picture to the take. With the room that any picture of the size and kind fits in, no call is refused as too short. */
static void append(struct take *take, const struct picture *p, uint32_t session[8], int first) {
    uint32_t (*call)(uint32_t, uint32_t, uint32_t, const uint8_t *, size_t, size_t, uint32_t, const uint8_t *, size_t, size_t, uint32_t, const uint8_t *,
        size_t, size_t, uint32_t, uint8_t *, size_t, uint32_t *, uint64_t *) = first ? reelpony_start : reelpony_next;
    uint64_t room = reelpony_room(WIDTH, HEIGHT, 1, 8), length = 0;
    take->bytes = grown(take->bytes, take->length, take->length + room);
    uint32_t number = call(WIDTH, HEIGHT, 1, p->y, sizeof p->y, Y_STRIDE, 8, p->cb, sizeof p->cb, C_STRIDE, 8, p->cr, sizeof p->cr, C_STRIDE, 8,
        take->bytes + take->length, room, session, &length);
    if (number != REELPONY_ACCEPTED) printf("refused, %u: %s\n", number, reelpony_refusal_text(number));
    check(number == REELPONY_ACCEPTED && length <= room, "a picture is written into the room for it");
    take->length += length;
}

/* Whether tight rows are the visible part of a plane. */
static int same(const uint8_t *tight, const uint8_t *plane, int width, int height, int stride) {
    for (int row = 0; row < height; row++)
        if (memcmp(tight + row * width, plane + row * stride, (size_t)width) != 0) return 0;
    return 1;
}

/* Reads a take to its end, prints a line for each answer, and compares. `begins` are the pictures' places in this copy. */
static void read_back(const char *title, const uint8_t *bytes, size_t length, const size_t begins[PICTURES], const struct picture *pictures,
    const expected expect) {
    uint64_t reader[8] = {0}, answer[8] = {0};
    uint8_t *plane[3] = {NULL, NULL, NULL};
    size_t len[3] = {0, 0, 0};
    int met[PICTURES], lent = 0;
    for (int i = 0; i < PICTURES; i++) met[i] = -1;

    printf("\n%s, %zu bytes\n  %8s  %s\n", title, length, "offset", "what");
    for (;;) {
        uint64_t place = reader[REELPONY_PLACE];
        uint32_t number = reelpony_read(bytes, length, plane[0], len[0], plane[1], len[1], plane[2], len[2], reader, answer);
        if (answer[REELPONY_KIND] == REELPONY_END) break;
        size_t offset = answer[REELPONY_OFFSET];
        int which = 0;
        while (which < PICTURES && begins[which] != offset) which++;
        printf("  %8zu  ", offset);
        if (number == REELPONY_REFUSED_PLANES) {
            /* The place is kept. What the picture needs is lent, and the next call reads it. */
            for (uint32_t i = 0; i < 3; i++) {
                len[i] = reelpony_plane_len(reader, i);
                plane[i] = grown(plane[i], 0, len[i]);
            }
            printf("planes of %zu, %zu and %zu bytes are lent\n", len[0], len[1], len[2]);
            check(lent++ == 0 && reader[REELPONY_PLACE] == place, "planes are lent once, and the place is kept");
            if (lent > 1) break;
            continue;
        }
        switch (answer[REELPONY_KIND]) {
        case REELPONY_SPS:
            printf("SPS: %u x %u, %s, %u bits\n", (unsigned)answer[REELPONY_WIDTH], (unsigned)answer[REELPONY_HEIGHT],
                answer[REELPONY_COLOUR] ? "colour" : "mono", (unsigned)answer[REELPONY_DEPTH]);
            check(answer[REELPONY_WIDTH] == WIDTH && answer[REELPONY_HEIGHT] == HEIGHT && answer[REELPONY_COLOUR] == 1 && answer[REELPONY_DEPTH] == 8,
                "the SPS says the size and kind");
            break;
        case REELPONY_PPS: printf("PPS\n"); break;
        case REELPONY_PICTURE:
            check(which < PICTURES, "a picture stands where one was written");
            if (which == PICTURES) break;
            const struct picture *p = &pictures[which];
            int equal = same(plane[0], p->y, WIDTH, HEIGHT, Y_STRIDE) && same(plane[1], p->cb, WIDTH / 2, HEIGHT / 2, C_STRIDE) &&
                same(plane[2], p->cr, WIDTH / 2, HEIGHT / 2, C_STRIDE);
            printf("picture %d, %s\n", which + 1, equal ? "every sample as it was" : "SAMPLES DIFFER");
            check(equal, "a picture that is read has the samples that were written");
            met[which] = 0;
            break;
        default:
            printf("refused, %u: %s\n", number, reelpony_refusal_text(number));
            check(number == answer[REELPONY_NUMBER] && number != 0, "the refusal's number is answered twice");
            if (which < PICTURES) met[which] = (int)number;
        }
    }
    check(reader[REELPONY_PLACE] == length, "the reader goes to the end");
    int saved = 0;
    for (int i = 0; i < PICTURES; i++) {
        check(met[i] == expect[i], "each picture comes back, or is refused with the number that its damage gives");
        saved += met[i] == 0;
    }
    printf("  %d of %d pictures are saved\n", saved, PICTURES);
    for (int i = 0; i < 3; i++) free(plane[i]);
}

int main(int argc, char **argv) {
    static struct picture pictures[PICTURES];
    struct take take = {0};
    uint32_t session[8] = {0};
    for (int i = 0; i < PICTURES; i++) {
        draw(&pictures[i], i);
        append(&take, &pictures[i], session, i == 0);
    }
    if (failures) return 1;

    /* A picture's unit begins with 25 behind a start code, which stands nowhere inside a unit. */
    size_t at = 0;
    for (int i = 0; i < PICTURES; i++) {
        while (at + 5 < take.length && memcmp(take.bytes + at, "\0\0\0\1\x25", 5) != 0) at++;
        take.begins[i] = at += 4;
    }
    read_back("the whole take", take.bytes, take.length, take.begins, pictures, (expected){0, 0, 0, 0, 0});

    /* As where a disk was full or a cable pulled: the fourth picture is cut, nothing is left of the fifth. */
    read_back("the take cut in the fourth picture", take.bytes, take.begins[3] + 1000, take.begins, pictures, (expected){0, 0, 0, 17, -1});

    /* A byte of the second picture is lost, so that all behind it moves; the fourth gets a block of zeros. */
    uint8_t *damaged = calloc(take.length, 1);
    if (!damaged) return 2;
    size_t lost = take.begins[1] + 700, length = take.length - 1;
    memcpy(damaged, take.bytes, lost);
    memcpy(damaged + lost, take.bytes + lost + 1, length - lost);
    size_t begins[PICTURES];
    for (int i = 0; i < PICTURES; i++) begins[i] = take.begins[i] - (i > 1);
    memset(damaged + begins[3] + 2000, 0, 512);
    read_back("the take with a byte of the second picture missing and the fourth partly wiped", damaged, length, begins, pictures,
        (expected){0, 17, 0, 12, 0});
    free(damaged);

    if (argc > 1) {
        FILE *file = fopen(argv[1], "wb");
        int written = file && fwrite(take.bytes, 1, take.length, file) == take.length;
        if (file && fclose(file) != 0) written = 0;
        check(written, "the file is written");
    }
    free(take.bytes);
    if (failures) {
        printf("\n%d FAILED\n", failures);
        return 1;
    }
    printf("\nall as it must be\n");
    return 0;
}
