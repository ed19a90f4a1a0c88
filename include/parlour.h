/* The run of a step file, for a C host. README.md says what a step file and an answer are.
 *
 * Link with librunner.a (x86-64 Linux): a copy of out/librunner_c.a, which `rt lib` in crates/runner_c makes. The library keeps nothing between calls and
 * allocates nothing. Of the C library it calls memcpy and memset alone. The step files of tests/steps took 13 KB of stack at most (measured, no proved bound).
 */
#ifndef PARLOUR_H
#define PARLOUR_H

#include <stddef.h>
#include <stdint.h>

/* The number of a run, parlour_number(r): */
#define PARLOUR_DONE 0      /* every step has its answer */
#define PARLOUR_BAD_STEP 10 /* an unknown kind or a cut body ended the run; the last answer is 10 and the offset of the kind byte */
#define PARLOUR_TOO_LONG 11 /* the file is above PARLOUR_MOST_BYTES; nothing is written */
#define PARLOUR_NO_ROOM 12  /* the buffer is shorter than 5 bytes for each answer; nothing is written. It goes before 10 */

#define PARLOUR_MOST_BYTES 8192
#define PARLOUR_ANSWER_BYTES 5 /* number, then value in 4 bytes, little-endian. A file of n bytes gives at most n answers */

#ifdef __cplusplus
extern "C" {
#endif

/* Runs steps_len bytes of a step file, from the closed state, and writes the answers from the start of the buffer on. Bytes past the last answer stay.
 * Returns 65,536 times the run's number plus the answers written.
 *
 * For the caller to see to: the two buffers do not overlap; steps points to steps_len bytes that can be read and answers to answers_len bytes that can be
 * written; neither pointer is null, also where its length is 0; nobody else writes the buffers during the call.
 */
uint64_t parlour_run(const uint8_t *steps, size_t steps_len, uint8_t *answers, size_t answers_len);

static inline unsigned parlour_number(uint64_t r) { return (unsigned)(r / 65536); }
static inline size_t parlour_answers(uint64_t r) { return (size_t)(r % 65536); }

#ifdef __cplusplus
}
#endif

#endif
