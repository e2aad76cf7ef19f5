/* The loop of doubles.c in Arb's balls of 64 bits: each number with a bound of its error, so that the last ones hold the exact quotients.
 *
 * usage: balls products|dot FOLDER HOURS MILLISECONDS
 * With `products` each move takes a product and a sum, as in doubles.c; with `dot` a row is one call of Arb's dot product, which is its
 * quickest way to such a sum.
 *
 * Prints the least time of the loop in nanoseconds, then for each state the least and the greatest whole billionth inside its ball's ends
 * (the lower end rounded up, the upper one down): the ball meets an interval of whole billionths exactly where the first is at most the
 * interval's upper end and the second at least its lower end. */
#include "clock.h"
#include "sheet.h"

#ifdef BENCH_ARB_IN_FLINT
#include <flint/arb.h>
#else
#include <arb.h>
#endif
#include <stdio.h>
#include <stdlib.h>
#include <string.h>

enum { BITS = 64 };

/* The chain in rows of chances, and the vectors of the loop; as in doubles.c. */
struct loop {
    int states;
    int depth;
    int begin[STATES + 1];
    int to[MOVES];
    int start[STATES];
    arb_struct load;
    arb_struct chance[MOVES];
    arb_struct stay[STATES];
    arb_struct vectors[2][STATES];
    arb_struct sums[STATES];
    void (*row)(const struct loop *loop, int s, const arb_struct *values, arb_t x);
};

/* A ball that holds x / y. */
static void set_fraction(arb_t ball, long x, long y) {
    arb_set_si(ball, x);
    arb_div_si(ball, ball, y, BITS);
}

/* Lays out the chances of the moves and of staying put. All balls of `loop` are 0 at first: its bytes are, which is how Arb stores 0. */
static void prepare(struct loop *loop, const struct sheet *sheet, long hours) {
    int moves = 0;
    loop->states = sheet->states;
    loop->depth = sheet_depth(sheet, hours);
    set_fraction(&loop->load, sheet->top * hours, 1000000);
    for (int s = 0; s < sheet->states; s++) {
        loop->start[s] = sheet->dead[s];
        set_fraction(&loop->stay[s], sheet->dead[s] ? sheet->top : sheet->top - sheet->exit[s], sheet->top);
        loop->begin[s] = moves;
        for (int j = sheet->begin[s]; !sheet->dead[s] && j < sheet->begin[s + 1]; j++) {
            loop->to[moves] = sheet->to[j];
            set_fraction(&loop->chance[moves++], sheet->rate[j], sheet->top);
        }
    }
    loop->begin[sheet->states] = moves;
}

/* Adds the row of state s to x: a product and a sum for each move. */
static void row_by_products(const struct loop *loop, int s, const arb_struct *values, arb_t x) {
    for (int j = loop->begin[s]; j < loop->begin[s + 1]; j++)
        arb_addmul(x, &loop->chance[j], &values[loop->to[j]], BITS);
}

/* The same by Arb's dot product. It wants its numbers side by side: they are copied as they stand in memory, which will do for reading. */
static void row_by_dot(const struct loop *loop, int s, const arb_struct *values, arb_t x) {
    static arb_struct beside[STATES];
    int begin = loop->begin[s], count = loop->begin[s + 1] - begin;
    for (int i = 0; i < count; i++)
        beside[i] = values[loop->to[begin + i]];
    arb_dot(x, x, 0, &loop->chance[begin], 1, beside, 1, count, BITS);
}

/* One step of all states from `values` to `next`, and each next value added to its sum with the step's weight. */
static void step(struct loop *loop, const arb_struct *values, arb_struct *next, const arb_t weight) {
    for (int s = 0; s < loop->states; s++) {
        arb_struct *x = &next[s];
        arb_mul(x, &loop->stay[s], &values[s], BITS);
        loop->row(loop, s, values, x);
        arb_addmul(&loop->sums[s], weight, x, BITS);
    }
}

/* The measured work: the sums over steps 0 to the depth, over the total of the weights. */
static void run(void *data) {
    struct loop *loop = data;
    arb_t weight, total;
    arb_init(weight);
    arb_init(total);
    arb_one(weight);
    arb_one(total);
    for (int s = 0; s < loop->states; s++) {
        arb_set_si(&loop->vectors[0][s], loop->start[s]);
        arb_set_si(&loop->sums[s], loop->start[s]);
    }
    for (int k = 1; k <= loop->depth; k++) {
        arb_mul(weight, weight, &loop->load, BITS);
        arb_div_si(weight, weight, k, BITS);
        arb_add(total, total, weight, BITS);
        step(loop, loop->vectors[(k + 1) % 2], loop->vectors[k % 2], weight);
    }
    for (int s = 0; s < loop->states; s++)
        arb_div(&loop->sums[s], &loop->sums[s], total, BITS);
    arb_clear(weight);
    arb_clear(total);
}

/* Prints an end of a ball in billionths, rounded by `round`; every operation but that is exact. */
static void print_end(const arf_t end, void (*round)(arf_t, const arf_t), char after) {
    arf_t x;
    arf_init(x);
    arf_mul_si(x, end, 1000000000, ARF_PREC_EXACT, ARF_RND_DOWN);
    round(x, x);
    printf("%ld%c", arf_get_si(x, ARF_RND_DOWN), after);
    arf_clear(x);
}

/* Prints the two whole billionths of a ball, from its middle and radius without rounding. */
static void print_ball(const arb_t ball) {
    arf_t radius, end;
    arf_init(radius);
    arf_init(end);
    arf_set_mag(radius, arb_radref(ball));
    arf_sub(end, arb_midref(ball), radius, ARF_PREC_EXACT, ARF_RND_DOWN);
    print_end(end, arf_ceil, ' ');
    arf_add(end, arb_midref(ball), radius, ARF_PREC_EXACT, ARF_RND_DOWN);
    print_end(end, arf_floor, '\n');
    arf_clear(radius);
    arf_clear(end);
}

/* Prepares the loop, takes its time and prints the balls. */
int main(int count, char **words) {
    static struct sheet sheet;
    static struct loop loop;
    if (count != 5) {
        fprintf(stderr, "usage: balls products|dot FOLDER HOURS MILLISECONDS\n");
        return 2;
    }
    loop.row = strcmp(words[1], "dot") == 0 ? row_by_dot : row_by_products;
    sheet_read(&sheet, words[2]);
    prepare(&loop, &sheet, atol(words[3]));
    printf("%.0f\n", least_ns(run, &loop, atof(words[4])));
    for (int s = 0; s < loop.states; s++)
        print_ball(&loop.sums[s]);
    return 0;
}
