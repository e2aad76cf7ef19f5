/* Several formulas put to one sheet by turns, in the same buffers, so that what disturbs one of them disturbs the others as much.
 *
 * usage: turns FOLDER MILLISECONDS FORMULA..
 * Prints a line for each formula: the least time of its job in nanoseconds, and the verdicts of all states as digits. */
#include "clock.h"
#include "lending.h"

enum { FORMULAS = 8 };

/* A formula, the least time of its job, and the verdicts that it got. */
struct asked {
    struct text formula;
    double least;
    uint8_t verdicts[SEBDYQUL_RESULTS];
};

/* One turn: the job with a formula. */
static void take(struct job *job, struct asked *asked) {
    job->formula = asked->formula;
    double begun = now_ns();
    run(job);
    double took = now_ns() - begun;
    if (took < asked->least)
        asked->least = took;
}

/* Prints the time and the verdicts of a formula, whose job is run once more for these. */
static void print_asked(struct job *job, struct asked *asked) {
    take(job, asked);
    if (job->answer != 0) {
        fprintf(stderr, "turns: answered %d\n", (int)job->answer);
        exit(2);
    }
    printf("%.0f ", asked->least);
    for (int s = 0; s < states_of(&job->labels); s++)
        printf("%d", job->verdicts[s]);
    printf("\n");
}

/* Reads the sheet, takes turns for so many milliseconds and prints what was taken. */
int main(int count, char **words) {
    static struct job job;
    static struct asked asked[FORMULAS];
    if (count < 4 || count - 3 > FORMULAS) {
        fprintf(stderr, "usage: turns FOLDER MILLISECONDS FORMULA..\n");
        return 2;
    }
    read_sheet(&job, words[1]);
    for (int i = 0; i < count - 3; i++) {
        set_formula(&asked[i].formula, words[3 + i]);
        asked[i].least = 1e18;
    }
    double end = now_ns() + 1e6 * atof(words[2]);
    while (now_ns() < end)
        for (int i = 0; i < count - 3; i++)
            take(&job, &asked[i]);
    for (int i = 0; i < count - 3; i++)
        print_asked(&job, &asked[i]);
    return 0;
}
