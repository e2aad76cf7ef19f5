/* A whole job by the library: three texts in, a report out.
 *
 * usage: job FOLDER FORMULA MILLISECONDS
 * Prints the least time of a job in nanoseconds, its depth, the order of the states, then the two ends of each state in billionths. The texts
 * are in memory before the time is taken; reading them as texts is part of it.
 *
 * With BENCH_SHORT defined it lends no order buffer, so that the job is refused with 15, and prints the time of that. */
#include "clock.h"
#include "lending.h"

#ifdef BENCH_SHORT
enum { ANSWER = 15 };
#else
enum { ANSWER = 0 };
#endif

/* Prints the depth, the order and the ends of an accepted job. */
static void print_report(const struct job *job) {
    int states = states_of(&job->labels);
    printf("%d\n", (int)job->depth);
    for (int place = 0; place < states; place++)
        printf(place + 1 < states ? "%d " : "%d\n", (int)job->order[place]);
    for (int s = 0; s < states; s++)
        printf("%u %u\n", (unsigned)job->lower[s], (unsigned)job->upper[s]);
}

/* Reads the texts, takes the time of the job and prints its report. */
int main(int count, char **words) {
    static struct job job;
    if (count != 4) {
        fprintf(stderr, "usage: job FOLDER FORMULA MILLISECONDS\n");
        return 2;
    }
    read_sheet(&job, words[1]);
    set_formula(&job.formula, words[2]);
    double least = least_ns(run, &job, atof(words[3]));
    if (job.answer != ANSWER) {
        fprintf(stderr, "job: answered %d\n", (int)job.answer);
        return 2;
    }
    printf("%.0f\n", least);
    if (job.answer == 0)
        print_report(&job);
    return 0;
}
