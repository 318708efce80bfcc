/* The shortest use from C: pictures written into a take, and the take read back. README.md has the lines between the marks; `run` compares them. */
#include <stdio.h>
#include <stdlib.h>
#include <string.h>

#include "../../include/reelpony.h"

static uint8_t y[640 * 480];
static int shown, equal;

static void show(uint8_t *plane[3], const size_t len[3]) {
    printf("a picture of %zu, %zu and %zu bytes, whose first sample is %u\n", len[0], len[1], len[2], plane[0][0]);
    shown++;
    equal += len[0] == sizeof y && memcmp(plane[0], y, sizeof y) == 0;
}

int main(void) {
    const size_t y_len = sizeof y;
    FILE *file = tmpfile();
    if (!file) return 2;
    for (size_t i = 0; i < sizeof y; i++) y[i] = (uint8_t)(i / 640 + 16);

    /* README.md, writing: */
    uint32_t session[8] = {0};
    uint64_t length = 0, room = reelpony_room(640, 480, 0, 8);
    uint8_t *out = calloc(room, 1);                    /* long enough for any picture of that size and kind */
    if (!out) exit(2);
    uint32_t number = reelpony_start(640, 480, 0, y, y_len, 640, 8, NULL, 0, 0, 8, NULL, 0, 0, 8, out, room, session, &length);
    if (number == 0) fwrite(out, 1, length, file);     /* SPS, PPS and the first picture */
    number = reelpony_next(640, 480, 0, y, y_len, 640, 8, NULL, 0, 0, 8, NULL, 0, 0, 8, out, room, session, &length);
    if (number == 0) fwrite(out, 1, length, file);     /* one more, in the session that the first call left */
    /* to here. */

    size_t take_len = (size_t)ftell(file);
    uint8_t *take = calloc(take_len, 1);
    if (!take) return 2;
    rewind(file);
    if (fread(take, 1, take_len, file) != take_len) return 2;

    /* README.md, reading: */
    uint64_t reader[8] = {0}, answer[8] = {0};
    uint8_t *plane[3] = {NULL, NULL, NULL};            /* nothing is lent before it is known how much */
    size_t len[3] = {0, 0, 0};
    do {
        number = reelpony_read(take, take_len, plane[0], len[0], plane[1], len[1], plane[2], len[2], reader, answer);
        for (uint32_t i = 0; number == REELPONY_REFUSED_PLANES && i < 3; i++) {
            free(plane[i]);                            /* too short: lend as much as the picture needs, and it is read next */
            len[i] = reelpony_plane_len(reader, i);
            plane[i] = calloc(len[i], 1);
            if (len[i] && !plane[i]) exit(2);
        }
        if (answer[0] == REELPONY_PICTURE) show(plane, len);
        if (number != 0 && number != REELPONY_REFUSED_PLANES)
            printf("at byte %llu: %s\n", (unsigned long long)answer[1], reelpony_refusal_text(number));
    } while (answer[0] != REELPONY_END);
    /* to here. */

    for (int i = 0; i < 3; i++) free(plane[i]);
    free(take), free(out), fclose(file);
    return shown == 2 && equal == 2 ? 0 : 1;
}
