/* Sebdyqul as a library: one finished report or one refusal number for a job of three texts; and the clean copy of a moves text.
 *
 * Link with libsebdyqul.a (`rt lib` in crates/sebdyqul writes it to out/ there), on x86-64 Linux. Of the C library it
 * needs memcpy and memset alone. The functions keep nothing between calls and allocate nothing, so that calls may run at the same time
 * on buffers of their own.
 *
 * Proved of both (crates/sebdyqul): for all bytes of the texts and all lengths they do what document 01 says, with those requests of
 * document 02 that docs/REQUESTS.md lists. Nothing checks the caller: each pointer leads to as many elements as the length after it
 * says (those without a length to one), is not null (any address does for a length of 0) and is aligned for its type, and none of those
 * that are written to overlaps another or a text.
 */
#ifndef SEBDYQUL_H
#define SEBDYQUL_H

#include <stddef.h>
#include <stdint.h>

#ifdef __cplusplus
extern "C" {
#endif

/* Lengths that are enough for every job. Of a job with n states, m move lines and k nodes in its formula the results (lower, upper,
 * verdicts and order) need n elements each, the words 2 * m, the vectors 10 * n + 512 and the marks 17 * n, or k * n where that is less;
 * a job that is lent less than it needs is refused with 15. */
#define SEBDYQUL_RESULTS 512
#define SEBDYQUL_WORDS 8192
#define SEBDYQUL_VECTORS 5632
#define SEBDYQUL_MARKS 8704

/* A length that is enough for every copy; no copy is longer than the moves text that it is made of. */
#define SEBDYQUL_COPY 61440

/* What a byte of `verdicts` says. */
enum sebdyqul_verdict { SEBDYQUL_NO = 0, SEBDYQUL_YES = 1, SEBDYQUL_UNDECIDED = 2 };

/* Checks a job: a moves text, a labels text and a formula, as bytes. The lines of the moves text may stand in any order, and the rates of
 * a pair of states that stands on several lines are added together.
 *
 * Answers 0 where the job is accepted. Then `lower`, `upper` (billionths) and `verdicts` hold the report in their first n elements, `order`
 * holds in its first n the state numbers, the worst first: by falling lower end, equal ones by rising number. `*depth` is the depth that the
 * report's lines show (0 where the outermost node is no until; of one between two times, `V`, the sum over its two phases), and the named
 * lengths of `words`, `vectors` and `marks` hold 0; nothing beyond them has changed.
 *
 * Answers with the number of the refusal, 1 to 16 but never 7 or 8, otherwise; 16, where the first time of a `V` exceeds the second, is
 * tested after 13 and before 14. Then nothing has changed. */
uint64_t sebdyqul_check(
    const uint8_t *moves, size_t moves_length,
    const uint8_t *labels, size_t labels_length,
    const uint8_t *formula, size_t formula_length,
    uint32_t *lower, size_t lower_length,
    uint32_t *upper, size_t upper_length,
    uint8_t *verdicts, size_t verdicts_length,
    uint16_t *order, size_t order_length,
    uint64_t *words, size_t words_length,
    uint64_t *vectors, size_t vectors_length,
    uint8_t *marks, size_t marks_length,
    uint64_t *depth);

/* Makes the clean copy of a moves text: the same moves with a line for each pair of states, moves to the own state too, rising by `from` and,
 * for equal `from`, by `to`. A job with the copy gets the report that it gets with the moves, and two accepted moves texts over the same
 * labels have equal copies exactly when every pair of states has the same rate in both.
 *
 * Answers 0 where the texts are accepted and the copy fits: it stands at the front of `copy` and nothing beyond it has changed, and `*length`
 * is its length. Answers otherwise with the number of the refusal, 1 to 6 or 9 as a job is refused with it (1 is put to these two texts
 * alone), or 17, tested last, where the copy is longer than `copy_length`. Then nothing has changed, `*length` included. */
uint64_t sebdyqul_copy(
    const uint8_t *moves, size_t moves_length,
    const uint8_t *labels, size_t labels_length,
    uint8_t *copy, size_t copy_length,
    uint64_t *length);

#ifdef __cplusplus
}
#endif

#endif
