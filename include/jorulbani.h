/*
 * Jorulbani: a proved analyser of relay wiring, for C (C99 or later) and C++.
 *
 * The functions are in target/staticlib/libexports.a, made by `tools/build`: x86-64 code for Linux, position-independent. It
 * wants memcpy and memset of the C library and nothing else, keeps nothing between calls, and may be called from several threads at
 * once.
 *
 * A wiring file (the network form) comes as bytes in memory, and the answer is written into memory that the caller lends. Nothing
 * has to be checked beforehand: every byte string is accepted, or refused with a number and a place. What is asked is only what C
 * itself asks:
 *
 *   - as many bytes as a length says can be read at its pointer, which may be NULL where that length is 0;
 *   - at `out` they can be written too, and `out` overlaps neither `file` nor `setting`;
 *   - the calling thread has the stack that a call needs: see docs/BENCHMARKS.md.
 *
 * An answer of jorulbani_analyse or jorulbani_direct below 2^32 says that the file was accepted, and is a length. Any other is a
 * refusal:
 *
 *     number = answer >> 32            place = answer & 0xffffffff
 *
 *     No.  Cause                                                                    Place
 *      1   file ends inside or before a count or entry                              start of that count or entry
 *      2   count above its limit                                                    the count
 *      3   coil number not above the one before                                     that number
 *      4   kind not 1, 2 or 3                                                       the kind
 *      5   reference not defined there, or second argument of not is not 0          that number
 *      6   switch end is not a vertex                                               that number
 *      7   bytes after the switches                                                 first such byte
 *      8   unused
 *      9   result room too small                                                    0
 *     10   setting's length is not the number of variables                          0
 *     11   setting byte not 0 or 1                                                  its index
 *     12   direct answer's room below the vertex count                              0
 *
 * Places of 1 to 7 are byte offsets into the file, that of 11 is an index into the setting. The file is read from the front and the
 * first fault wins.
 *
 * Example:
 *
 *     #include <stdio.h>
 *     #include "jorulbani.h"
 *
 *     static uint8_t result[JORULBANI_RESULT_ROOM];
 *
 *     int analyse(const uint8_t *file, size_t file_len)
 *     {
 *         uint64_t answer = jorulbani_analyse(file, file_len, result, sizeof result);
 *
 *         if (jorulbani_number(answer) != 0) {
 *             fprintf(stderr, "refused %u at %u\n", jorulbani_number(answer), jorulbani_place(answer));
 *             return 1;
 *         }
 *         fwrite(result, 1, (size_t)answer, stdout);
 *         return 0;
 *     }
 */
#ifndef JORULBANI_H
#define JORULBANI_H

#include <stddef.h>
#include <stdint.h>

#ifdef __cplusplus
extern "C" {
#endif

/* Bytes that are proved to be enough for every result: with such an `out`, refusal 9 does not occur. */
#define JORULBANI_RESULT_ROOM 63548

/* Bytes that are enough for every direct answer: with such an `out`, refusal 12 does not occur. */
#define JORULBANI_ANSWER_ROOM 24

/* Bytes that jorulbani_list wants: with fewer it writes nothing. */
#define JORULBANI_LISTING_ROOM 262144

/* The number of a refusal, 1 to 7 or 9 to 12, or 0 where the answer is a length. */
static inline uint32_t jorulbani_number(uint64_t answer)
{
    return (uint32_t)(answer >> 32);
}

/* The place of a refusal. */
static inline uint32_t jorulbani_place(uint64_t answer)
{
    return (uint32_t)(answer & 0xffffffff);
}

/*
 * Analyses a wiring file. Accepted: puts the result form at the front of `out`, answers its length, and leaves the bytes of `out`
 * behind it as they came. Refused, 1 to 7 and 9: leaves all of `out` as it came.
 */
uint64_t jorulbani_analyse(const uint8_t *file, size_t file_len, uint8_t *out, size_t out_len);

/*
 * Says for one setting of the coils which vertices are joined to a live source. `setting` has a byte, 0 or 1, for each variable in
 * the file's order. Accepted: puts a byte, 1 or 0, for each vertex at the front of `out`, answers the number of vertices, and leaves
 * the bytes of `out` behind them as they came. Refused, 1 to 7 and 10 to 12: leaves all of `out` as it came.
 */
uint64_t jorulbani_direct(const uint8_t *file, size_t file_len, const uint8_t *setting, size_t setting_len, uint8_t *out,
                          size_t out_len);

/*
 * Lists the analysis of a wiring file as text: each line ends with a line feed, and no zero byte follows the last. Puts the text at
 * the front of `out`, answers its length, and leaves the bytes of `out` behind it as they came. The text of a refused file is the one
 * line `refused NUMBER at PLACE`, with a number of 1 to 7, so the answer is always a length and never a refusal. Where `out_len` is
 * below JORULBANI_LISTING_ROOM it answers 0 and leaves all of `out` as it came.
 */
uint64_t jorulbani_list(const uint8_t *file, size_t file_len, uint8_t *out, size_t out_len);

#ifdef __cplusplus
}
#endif

#endif
