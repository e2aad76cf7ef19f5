/* The textbook uniformisation of `U last tt dead` or `V first last tt dead` in doubles: what the engine is measured against. It promises
 * nothing on its errors.
 *
 * usage: doubles FOLDER [FIRST] LAST MILLISECONDS
 * Prints the least time of the loops in nanoseconds, then the quotient of each state at the depth, or at the pair of depths. */
#include "clock.h"
#include "sheet.h"

#include <stdio.h>
#include <stdlib.h>

/* A phase: the chain in rows of chances, and the vectors of its loop. In an until a dead state keeps its value: it stays with chance 1 and its
 * row is empty. */
struct loop {
    int states;
    int depth;
    double load;
    int begin[STATES + 1];
    int to[MOVES];
    double chance[MOVES];
    double stay[STATES];
    double start[STATES];
    double vectors[2][STATES];
    double sums[STATES];
};

/* Until is the later phase alone; between two times the earlier one starts from its quotients. */
struct loops {
    struct loop later, earlier;
    int phases;
};

/* Lays out the chances of the moves and of staying put; where `held` the dead states keep their values. */
static void prepare(struct loop *loop, const struct sheet *sheet, long hours, int held) {
    double q = (double)sheet->top;
    int moves = 0;
    loop->states = sheet->states;
    loop->depth = sheet_depth(sheet, hours);
    loop->load = q * (double)hours / 1e6;
    for (int s = 0; s < sheet->states; s++) {
        int kept = held && sheet->dead[s];
        loop->start[s] = sheet->dead[s];
        loop->stay[s] = kept ? 1 : (q - (double)sheet->exit[s]) / q;
        loop->begin[s] = moves;
        for (int j = sheet->begin[s]; !kept && j < sheet->begin[s + 1]; j++) {
            loop->to[moves] = sheet->to[j];
            loop->chance[moves++] = (double)sheet->rate[j] / q;
        }
    }
    loop->begin[sheet->states] = moves;
}

/* One step of all states from `values` to `next`, and each next value added to its sum with the step's weight. */
static void step(struct loop *loop, const double *restrict values, double *restrict next, double weight) {
    const int *restrict begin = loop->begin;
    const int *restrict to = loop->to;
    const double *restrict chance = loop->chance;
    const double *restrict stay = loop->stay;
    double *restrict sums = loop->sums;
    int states = loop->states;
    int j = 0;
    for (int s = 0; s < states; s++) {
        double x = stay[s] * values[s];
        for (int end = begin[s + 1]; j < end; j++)
            x += chance[j] * values[to[j]];
        next[s] = x;
        sums[s] += weight * x;
    }
}

/* One phase: the sums over steps 0 to the depth, over the total of the weights. Not put into its caller, so that both phases have the same code. */
__attribute__((noinline)) static void run_phase(struct loop *loop) {
    double weight = 1, total = 1;
    for (int s = 0; s < loop->states; s++)
        loop->vectors[0][s] = loop->sums[s] = loop->start[s];
    for (int k = 1; k <= loop->depth; k++) {
        weight = weight * loop->load / k;
        total += weight;
        step(loop, loop->vectors[(k + 1) % 2], loop->vectors[k % 2], weight);
    }
    for (int s = 0; s < loop->states; s++)
        loop->sums[s] /= total;
}

/* The measured work. The first operand, `tt`, holds everywhere, so that the earlier phase starts from all of the later one's quotients. */
static void run(void *data) {
    struct loops *loops = data;
    run_phase(&loops->later);
    if (loops->phases == 2) {
        for (int s = 0; s < loops->later.states; s++)
            loops->earlier.start[s] = loops->later.sums[s];
        run_phase(&loops->earlier);
    }
}

/* Prepares the loops, takes their time and prints the quotients. */
int main(int count, char **words) {
    static struct sheet sheet;
    static struct loops loops;
    if (count != 4 && count != 5) {
        fprintf(stderr, "usage: doubles FOLDER [FIRST] LAST MILLISECONDS\n");
        return 2;
    }
    loops.phases = count - 3;
    long first = loops.phases == 2 ? atol(words[2]) : 0, last = atol(words[count - 2]);
    sheet_read(&sheet, words[1]);
    prepare(&loops.later, &sheet, last - first, 1);
    prepare(&loops.earlier, &sheet, first, 0);
    printf("%.0f\n", least_ns(run, &loops, atof(words[count - 1])));
    for (int s = 0; s < sheet.states; s++)
        printf("%.17g\n", (loops.phases == 2 ? &loops.earlier : &loops.later)->sums[s]);
    return 0;
}
