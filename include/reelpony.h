/* reelpony.h: pictures into an H.264 byte stream, uncompressed (I_PCM), and back.
 *
 * The library is target/staticlib/libreelpony.a, made by `host/prove-library` at the repository's root, for x86-64.
 * It allocates nothing, keeps nothing between calls, and touches nothing but what is lent to it.
 *
 * A take is the bytes of an accepted reelpony_start, then those of each accepted reelpony_next, one behind the other in a file.
 * An output of reelpony_room bytes is long enough for either call:
 *
 *     uint64_t room = reelpony_room(width, height, 0, 8), length = 0;
 *     uint8_t *out = (uint8_t *)calloc(room, 1);
 *     uint32_t session[8] = {0};
 *     if (room && !out) exit(2);
 *     uint32_t number = reelpony_start(width, height, 0, y, y_len, y_stride, 8, NULL, 0, 0, 8, NULL, 0, 0, 8, out, room, session, &length);
 *     if (number == REELPONY_ACCEPTED) fwrite(out, 1, length, file);
 *     else fprintf(stderr, "%s\n", reelpony_refusal_text(number));
 *
 * It is read by calls of reelpony_read until one answers End. Refusal 19 says that the planes are too short for the picture, and keeps the
 * place: lend as much as reelpony_plane_len says, and the next call reads it. Without that the loop would not end.
 *
 *     uint64_t reader[8] = {0}, answer[8] = {0};
 *     uint8_t *plane[3] = {NULL, NULL, NULL};
 *     size_t len[3] = {0, 0, 0};
 *     do {
 *         uint32_t number = reelpony_read(take, take_len, plane[0], len[0], plane[1], len[1], plane[2], len[2], reader, answer);
 *         if (number == REELPONY_REFUSED_PLANES) {
 *             for (uint32_t i = 0; i < 3; i++) {
 *                 free(plane[i]);
 *                 len[i] = reelpony_plane_len(reader, i);
 *                 plane[i] = (uint8_t *)calloc(len[i], 1);
 *                 if (len[i] && !plane[i]) exit(2);
 *             }
 *         } else if (number) {
 *             fprintf(stderr, "at byte %llu: %s\n", (unsigned long long)answer[REELPONY_OFFSET], reelpony_refusal_text(number));
 *         }
 *         if (answer[REELPONY_KIND] == REELPONY_PICTURE) show(plane, len);
 *     } while (answer[REELPONY_KIND] != REELPONY_END);
 *     for (uint32_t i = 0; i < 3; i++) free(plane[i]);
 */
#ifndef REELPONY_H
#define REELPONY_H

#include <stddef.h>
#include <stdint.h>

#ifdef __cplusplus
extern "C" {
#endif

/* The version of this header, and of the library that it is for. */
#define REELPONY_VERSION "0.1.0"
#define REELPONY_VERSION_MAJOR 0
#define REELPONY_VERSION_MINOR 1
#define REELPONY_VERSION_PATCH 0

/* What an answer of reelpony_read is. */
enum {
    REELPONY_END = 0,
    REELPONY_SPS = 1,
    REELPONY_PPS = 2,
    REELPONY_PICTURE = 3,
    REELPONY_REFUSAL = 4
};

/* Where the numbers of a reader and of an answer stand among its eight. */
enum {
    REELPONY_PLACE = 0, REELPONY_SPS_HELD = 1, REELPONY_PPS_HELD = 6,                    /* of a reader */
    REELPONY_KIND = 0, REELPONY_OFFSET = 1, REELPONY_NUMBER = 6,                         /* of an answer */
    REELPONY_WIDTH = 2, REELPONY_HEIGHT = 3, REELPONY_COLOUR = 4, REELPONY_DEPTH = 5     /* of either */
};

/* The numbers that the calls answer. What each refusal says exactly is listed with the calls. */
enum {
    REELPONY_ACCEPTED = 0,
    REELPONY_REFUSED_SIZE = 1,
    REELPONY_REFUSED_DEPTHS = 2,
    REELPONY_REFUSED_COLOUR12_WIDTH = 3,
    REELPONY_REFUSED_ODD_WIDTH = 4,
    REELPONY_REFUSED_ODD_HEIGHT = 5,
    REELPONY_REFUSED_OTHER_THAN_SESSION = 6,
    REELPONY_REFUSED_STRIDE = 7,
    REELPONY_REFUSED_ROWS = 8,
    REELPONY_REFUSED_OUTPUT = 9,
    REELPONY_REFUSED_STRAY = 10,
    REELPONY_REFUSED_EMPTY = 11,
    REELPONY_REFUSED_ESCAPING = 12,
    REELPONY_REFUSED_HEADER = 13,
    REELPONY_REFUSED_PARAMETER_SET = 14,
    REELPONY_REFUSED_OTHER_THAN_HELD = 15,
    REELPONY_REFUSED_NOTHING_HELD = 16,
    REELPONY_REFUSED_PICTURE_SHORT = 17,
    REELPONY_REFUSED_PICTURE_FORM = 18,
    REELPONY_REFUSED_PLANES = 19,
    REELPONY_REFUSED_NO_CODE = 20,
    REELPONY_REFUSED_NO_ROOM = 21,
    REELPONY_REFUSED_NOT_A_CODE = 22,
    REELPONY_REFUSED_FORMAT = 99
};

/* A text for a person, of each number that the calls answer; one text for all others. */
static inline const char *reelpony_refusal_text(uint32_t number) {
    switch (number) {
    case REELPONY_ACCEPTED: return "accepted";
    case REELPONY_REFUSED_SIZE: return "the width and the height must be from 1 to 16,384";
    case REELPONY_REFUSED_DEPTHS: return "the three planes must have the same depth";
    case REELPONY_REFUSED_COLOUR12_WIDTH: return "colour of 12 bits needs a width that is a multiple of 4";
    case REELPONY_REFUSED_ODD_WIDTH: return "only monochrome of 8 bits can have an odd width";
    case REELPONY_REFUSED_ODD_HEIGHT: return "colour needs an even height";
    case REELPONY_REFUSED_OTHER_THAN_SESSION: return "the picture's width, height, colour or depth is not that of the take";
    case REELPONY_REFUSED_STRIDE: return "a plane's stride is shorter than its row, padded to macroblocks";
    case REELPONY_REFUSED_ROWS: return "a plane has fewer whole rows than its height, padded to macroblocks";
    case REELPONY_REFUSED_OUTPUT: return "the output is too short";
    case REELPONY_REFUSED_STRAY: return "the bytes belong to no unit, since no start code stands before them";
    case REELPONY_REFUSED_EMPTY: return "there is nothing behind the start code";
    case REELPONY_REFUSED_ESCAPING: return "two zeros are followed by what escaping never leaves there";
    case REELPONY_REFUSED_HEADER: return "the unit is neither a parameter set nor a picture";
    case REELPONY_REFUSED_PARAMETER_SET: return "the parameter set is not one that the writer writes";
    case REELPONY_REFUSED_OTHER_THAN_HELD: return "the sequence parameter set is not the one that the take began with";
    case REELPONY_REFUSED_NOTHING_HELD: return "a picture came before both parameter sets";
    case REELPONY_REFUSED_PICTURE_SHORT: return "the picture is cut short";
    case REELPONY_REFUSED_PICTURE_FORM: return "the picture is too long or not of the writer's form";
    case REELPONY_REFUSED_PLANES: return "a plane is shorter than the picture's visible rows";
    case REELPONY_REFUSED_NO_CODE: return "the number has no code";
    case REELPONY_REFUSED_NO_ROOM: return "the buffer is too short";
    case REELPONY_REFUSED_NOT_A_CODE: return "there is no whole code at the place";
    case REELPONY_REFUSED_FORMAT: return "the colour must be 0 or 1 and the depth 8 or 12";
    default: return "the library refused with a number that the header doesn't list";
    }
}

/* Pointers, in every call:
 *
 * A pointer that comes with a length (y, cb, cr, out, take, payload, buffer) may be NULL where the length is 0: nothing is lent then. No other pointer
 * may be null. What a call writes to must not overlap anything else that is lent to it; what it only reads may. All that is lent has been given values
 * before, whatever they are: the proofs are about bytes and numbers, and memory that was never written has none.
 */

/* What is lent, in both calls of the writer:
 *
 * width, height   the visible picture, 1 to 16,384 each.
 * colour          0: monochrome, Y alone. 1: 4:2:0 colour, Y, Cb and Cr.
 * y, cb, cr       the planes, each with its length in bytes, its stride (bytes from a row's begin to the next one's) and its depth,
 *                 8 or 12 bits a sample. 12-bit rows are packed, two samples in three bytes, most significant bits first.
 *                 A plane holds whole macroblocks: Y is padded to multiples of 16 samples both ways, Cb and Cr (half as wide, half
 *                 as high) to multiples of 8. The padding is written too and cropped by the player. Every row, the last one too,
 *                 has `stride` bytes.
 *                 Monochrome reads neither cb nor cr, nor their lengths, strides and depths.
 * out             where the bytes go, from its first one on; out_len is the room. Bytes behind the length written stay as they were.
 * session         what the take's calls have in common: width, height, colour, depth, then 0. An accepted start call fills it, and
 *                 a next call wants it back as the accepted call before left it.
 * length          0 accepted: the length written. Refusal 9: the length needed. Any other refusal: 0.
 *
 * The answer is 0, accepted, or the number of a refusal, which leaves the output and the session as they were. Tested in this order:
 *
 *  99   the colour is neither 0 nor 1, or a depth that is looked at is neither 8 nor 12
 *   1   the width or the height is 0 or over 16,384
 *   2   colour, and the three depths differ
 *   3   colour of 12 bits, and the width is no multiple of 4
 *   4   the width is odd, unless it is monochrome of 8 bits
 *   5   colour, and the height is odd
 *   6   next call: the width, height, colour or depth is not the session's
 *   7   a plane's stride is shorter than its padded row
 *   8   a plane has fewer whole rows of `stride` bytes than its padded height
 *   9   the output is shorter than the length needed, which `length` tells
 *
 * 7 and 8 are tested for Y, then Cb, then Cr, 7 before 8 in each.
 */

/* Begins a take: writes the parameter sets and the first picture, and fills the session. */
uint32_t reelpony_start(uint32_t width, uint32_t height, uint32_t colour,
    const uint8_t *y, size_t y_len, size_t y_stride, uint32_t y_depth,
    const uint8_t *cb, size_t cb_len, size_t cb_stride, uint32_t cb_depth,
    const uint8_t *cr, size_t cr_len, size_t cr_stride, uint32_t cr_depth,
    uint8_t *out, size_t out_len, uint32_t session[8], uint64_t *length);

/* Writes one more picture of the session's take. */
uint32_t reelpony_next(uint32_t width, uint32_t height, uint32_t colour,
    const uint8_t *y, size_t y_len, size_t y_stride, uint32_t y_depth,
    const uint8_t *cb, size_t cb_len, size_t cb_stride, uint32_t cb_depth,
    const uint8_t *cr, size_t cr_len, size_t cr_stride, uint32_t cr_depth,
    uint8_t *out, size_t out_len, uint32_t session[8], uint64_t *length);

/* A length of out with which neither call is refused with 9, whatever the samples, and neither goes over the picture first to count its bytes. The pictures
 * have this size and colour, and all their planes this depth. 0 where the calls refuse that with 99 or 1 to 5. */
uint64_t reelpony_room(uint32_t width, uint32_t height, uint32_t colour, uint32_t depth);

/* Answers one thing about the bytes from the reader's place on: a unit, bytes that belong to none, or the end.
 *
 * take        the bytes of a file, or of a part of one; any bytes. A start code is 00 00 01; a unit runs to the next one or the end, less its
 *             trailing zeros. Zeros before a start code or the end are skipped.
 * y, cb, cr   the planes that a picture is written to, each with its length in bytes: visible rows alone, one behind the other, from the first byte on.
 *             Bytes behind them stay as they were. Monochrome touches neither cb nor cr. Every answer but a picture leaves all three as they were.
 * reader      where the reading stands: [0] the place; [1] whether a sequence parameter set (SPS) is held, 0 or 1, and its [2] width, [3] height,
 *             [4] colour, [5] depth; [6] whether a picture parameter set (PPS) is held, 0 or 1; [7] is spare. All zero: a reading that has not begun.
 *             Any numbers are taken. The whole state counts as holding nothing, neither SPS nor PPS, where a flag is neither 0 nor 1, or where [1] is 1
 *             and [2] to [5] are a size and kind that reelpony_start refuses; where [1] is 0 they are not looked at.
 *             The place moves behind what was answered; only an SPS or a PPS changes [1] to [6]; [7] never changes.
 * answer      [0] what it is: 0 End, 1 SPS, 2 PPS, 3 picture, 4 refusal; [1] the offset where its bytes begin, behind the start code (for 10, the
 *             place); of an SPS [2] width, [3] height, [4] colour, [5] depth; [6] the refusal's number; [7] is spare. What an answer doesn't have is 0.
 *
 * The result is the refusal's number, or 0. Tested in this order; a refusal moves on, so the next call goes on behind it, but 19 keeps the place:
 *
 *  10   bytes from the place to the next start code or the end, not all zero
 *  11   the unit is empty
 *  12   it holds 00 00 00, 00 00 02, or 00 00 03 with a byte over 03 behind
 *  13   its first byte is not 67, 68 or 25
 *  14   a parameter set that is none of those that reelpony_start writes
 *  15   an SPS unlike the one held
 *  16   a picture while SPS or PPS is missing
 *  17   a picture's payload is shorter than its exact length
 *  18   it is longer, or a header, alignment, macroblock header or last byte differs
 *  19   a lent plane that the kind uses is shorter than reelpony_plane_len says; the call can be repeated with a longer one
 *
 * End keeps the place. The reading can go on from there when more bytes stand behind the same ones, but only if those ended at a unit's end, as the bytes of
 * an accepted call do. A unit that they cut has been judged as it stood, and a start code that they cut has been passed as zeros: the place is behind that
 * part, and the rest is refused with 10. So lend a growing file up to where a unit ends. */
uint32_t reelpony_read(const uint8_t *take, size_t take_len,
    uint8_t *y, size_t y_len, uint8_t *cb, size_t cb_len, uint8_t *cr, size_t cr_len,
    uint64_t reader[8], uint64_t answer[8]);

/* The length that a plane (0 Y, 1 Cb, 2 Cr) must have for a picture while this reader's SPS is held. 0 where the kind has no such plane, or none is held. */
uint64_t reelpony_plane_len(const uint64_t reader[8], uint32_t plane);

/* The pieces of writing and reading. The answer is 0, accepted, or the number of a refusal, which leaves the output, the buffer and x as they were.
 *
 *  12   unescaping: the bytes hold 00 00 00, 00 00 01, 00 00 02, or 00 00 03 with a byte over 03 behind
 *  20   no code exists for the number: 2^32 - 1 unsigned, -2^31 signed
 *  21   no room in the output or the buffer
 *  22   no whole code stands at the place read, or it has more than 31 leading zeros
 *
 * 12 is tested before 21, and 20 before 21.
 */

/* Escapes a payload into out, from its first byte on: after two zero bytes of payload counted since the last inserted byte, a byte of 03 or less gets 03
 * put before it. length: the length written, at most half as much again as the payload; on refusal 0. Bytes behind it stay as they were. Refusal: 21. */
uint32_t reelpony_escape(const uint8_t *payload, size_t payload_len, uint8_t *out, size_t out_len, uint64_t *length);

/* Takes the payload out of escaped bytes (without start code and header) into out, from its first byte on. length: the length written, never more than
 * payload_len; on refusal 0. Bytes behind it stay as they were. A 00 00 03 at the end gives two zeros. Refusals: 12, 21. */
uint32_t reelpony_unescape(const uint8_t *payload, size_t payload_len, uint8_t *out, size_t out_len, uint64_t *length);

/* Writes the unsigned Exp-Golomb code of x, 0 to 2^32 - 2, at a bit place of the buffer: 0 is the first byte's most significant bit. No other bit is
 * touched. behind: the place behind the code; on refusal the place given. Refusals: 20, 21. */
uint32_t reelpony_write_ue(uint8_t *buffer, size_t buffer_len, uint64_t place, uint32_t x, uint64_t *behind);

/* The same of the signed code of x, -(2^31 - 1) to 2^31 - 1. */
uint32_t reelpony_write_se(uint8_t *buffer, size_t buffer_len, uint64_t place, int32_t x, uint64_t *behind);

/* Reads the unsigned Exp-Golomb code at a bit place of the payload. x: its number; on refusal as it was. behind: the place behind the code; on refusal the
 * place given. Refusal: 22. */
uint32_t reelpony_read_ue(const uint8_t *payload, size_t payload_len, uint64_t place, uint32_t *x, uint64_t *behind);

/* The same of the signed code there. */
uint32_t reelpony_read_se(const uint8_t *payload, size_t payload_len, uint64_t place, int32_t *x, uint64_t *behind);

#ifdef __cplusplus
}
#endif

#endif
