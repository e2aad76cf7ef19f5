/* One formula put to several sheets by turns, in the same buffers, so that what disturbs one of them disturbs the others as much; in each turn the
 * moves are copied too.
 *
 * usage: lines MILLISECONDS FORMULA FOLDER..
 * Prints a line for each folder: the least times of its job and of its copy in nanoseconds, the copy's length, the depth, then the two ends of each
 * state in billionths. */
#include "clock.h"
#include "lending.h"

enum { SHEETS = 8 };

/* The texts of a folder, the least times, and the length of the copy. */
struct typed {
    struct text moves, labels;
    double job, copy;
    uint64_t length;
};

/* Keeps a time where it is the least. */
static void keep(double *least, double took) {
    if (took < *least)
        *least = took;
}

/* Ends the program where a call was refused. */
static void need(uint64_t answer, const char *what) {
    if (answer != 0) {
        fprintf(stderr, "lines: a %s answered %d\n", what, (int)answer);
        exit(2);
    }
}

/* One turn: the job, then the copy, with the texts of a folder. */
static void take(struct job *job, struct typed *typed) {
    static uint8_t copy[SEBDYQUL_COPY];
    job->moves = typed->moves;
    job->labels = typed->labels;
    double begun = now_ns();
    run(job);
    keep(&typed->job, now_ns() - begun);
    need(job->answer, "job");
    begun = now_ns();
    uint64_t answer = sebdyqul_copy(job->moves.bytes, job->moves.length, job->labels.bytes, job->labels.length, copy, sizeof copy, &typed->length);
    keep(&typed->copy, now_ns() - begun);
    need(answer, "copy");
}

/* Prints what was taken of a folder, whose job is run once more for its report. */
static void print_typed(struct job *job, struct typed *typed) {
    take(job, typed);
    printf("%.0f %.0f %d %d", typed->job, typed->copy, (int)typed->length, (int)job->depth);
    for (int s = 0; s < states_of(&job->labels); s++)
        printf(" %u %u", (unsigned)job->lower[s], (unsigned)job->upper[s]);
    printf("\n");
}

/* Reads the sheets, takes turns for so many milliseconds and prints what was taken. */
int main(int count, char **words) {
    static struct job job;
    static struct typed typed[SHEETS];
    int sheets = count - 3;
    if (sheets < 1 || sheets > SHEETS) {
        fprintf(stderr, "usage: lines MILLISECONDS FORMULA FOLDER..\n");
        return 2;
    }
    set_formula(&job.formula, words[2]);
    for (int i = 0; i < sheets; i++) {
        read_text(&typed[i].moves, words[3 + i], "moves.txt");
        read_text(&typed[i].labels, words[3 + i], "labels.txt");
        typed[i].job = typed[i].copy = 1e18;
    }
    double end = now_ns() + 1e6 * atof(words[1]);
    while (now_ns() < end)
        for (int i = 0; i < sheets; i++)
            take(&job, &typed[i]);
    for (int i = 0; i < sheets; i++)
        print_typed(&job, &typed[i]);
    return 0;
}
