/* The shift report picker for C: link libexports.a (`bindings/archive` writes it).
 *
 * A call carries out a whole run: it opens a picker of a size over an objective and a matroid with
 * their settings, carries out the calls in turn, and writes an answer to each. What the calls do is
 * told in docs/SPEC.md.
 *
 * Calls and answers are bytes, numbers little-endian. A frame is 17 bytes: frame u32, marks u64,
 * look u8, lane u8, tail u8, head u8, side u8.
 *
 *   byte  call       takes                            its answer
 *   1     offer      the frame                        refusal u8, outcome u8, place u8, gain u32,
 *                                                     gain it lost to u32, the frame that left
 *   2     text       length u32, the bytes            refusal u8, records offered u32, record u32,
 *                                                     line u8, byte u32
 *   3     look-up    place u32                        refusal u8, gain u32, the frame
 *   4     counts     nothing                          size u32, kept u32, took u32, seen u32,
 *                                                     gain u64, told u64
 *   5     print-out  room u32                         refusal u8, length u32, then room bytes: the
 *                                                     buffer's own, the digest over their front
 *   6     clear      nothing                          nothing
 *
 * The outcomes of an offer are 0 empty, 1 kept, 2 swapped, 3 light, 4 barred. What does not apply
 * is 0. A text stopped at a fault answers 0 records offered, and where the fault is.
 *
 * Every pointer is to be valid for its length, not NULL even where the length is 0, and the answers
 * may not overlap what is read.
 */
#ifndef FOGETSU_H
#define FOGETSU_H

#include <stddef.h>
#include <stdint.h>

#ifdef __cplusplus
extern "C" {
#endif

/* How many bytes each call and each answer takes, beside a text's bytes and a print-out's room. */
enum {
    FOGETSU_OFFER_CALL = 18, FOGETSU_OFFER_ANSWER = 28,
    FOGETSU_TEXT_CALL = 5, FOGETSU_TEXT_ANSWER = 14,
    FOGETSU_LOOK_UP_CALL = 5, FOGETSU_LOOK_UP_ANSWER = 22,
    FOGETSU_COUNTS_CALL = 1, FOGETSU_COUNTS_ANSWER = 32,
    FOGETSU_PRINT_OUT_CALL = 5, FOGETSU_PRINT_OUT_ANSWER = 5,
    FOGETSU_CLEAR_CALL = 1, FOGETSU_CLEAR_ANSWER = 0
};

/* The byte that a call begins with. */
enum {
    FOGETSU_OFFER = 1, FOGETSU_TEXT = 2, FOGETSU_LOOK_UP = 3,
    FOGETSU_COUNTS = 4, FOGETSU_PRINT_OUT = 5, FOGETSU_CLEAR = 6
};

/* The longest text, and more than any digest is long. */
enum { FOGETSU_LONGEST_TEXT = 65536, FOGETSU_LONGEST_DIGEST = 6000 };

/* What a run returns. A refusal of 0: it was carried out, and so many bytes of answers stand at the
 * front of the buffer, with the bytes behind them as they were. Otherwise nothing was carried out and
 * the buffer is as it was; the refusal is that of docs/SPEC.md, 13 where the bytes are not calls, or
 * 14 where the buffer is shorter than the answers due. The setting is the argument at fault, counted
 * from 1 with a list and its length as one (0 for 13 and 14); a laminar matroid's caps and parents
 * are told by the caps. The index is that of the number in it. */
static inline unsigned fogetsu_refusal(uint64_t returned) { return returned & 255; }
static inline unsigned fogetsu_setting(uint64_t returned) { return returned >> 8 & 255; }
static inline uint64_t fogetsu_index(uint64_t returned) { return returned >> 16; }
static inline uint64_t fogetsu_length(uint64_t returned) { return returned >> 16; }

/* Coverage over a partition matroid. */
uint64_t fogetsu_coverage_partition(
    uint32_t size,
    const uint32_t *weights, size_t weights_length,
    const uint32_t *caps, size_t caps_length,
    const uint8_t *calls, size_t calls_length,
    uint8_t *answers, size_t answers_length);

/* The sum of coverage under the cap `cap` and facility location over `table`; the laminar matroid of
 * `caps` and `parents`, truncated to `most`. */
uint64_t fogetsu_capped_facility_laminar(
    uint32_t size,
    const uint32_t *weights, size_t weights_length,
    uint32_t cap,
    const uint16_t *table, size_t table_length,
    uint32_t most,
    const uint32_t *caps, size_t caps_length,
    const uint32_t *parents, size_t parents_length,
    const uint8_t *calls, size_t calls_length,
    uint8_t *answers, size_t answers_length);

/* The sum of concave counts and coverage; the graphic matroid for side 0 and a partition matroid for
 * side 1. */
uint64_t fogetsu_concave_graphic(
    uint32_t size,
    const uint32_t *steps, size_t steps_length,
    const uint32_t *weights, size_t weights_length,
    const uint32_t *caps, size_t caps_length,
    const uint8_t *calls, size_t calls_length,
    uint8_t *answers, size_t answers_length);

#ifdef __cplusplus
}
#endif

#endif
