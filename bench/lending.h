/* A job with the buffers that it lends, enough for every sheet, for the programs that take the times of jobs. */
#ifndef BENCH_LENDING_H
#define BENCH_LENDING_H

#include "../library/sebdyqul.h"

#include <stdio.h>
#include <stdlib.h>

enum { TEXT = 61440 };

/* How long an order buffer is lent. */
#ifdef BENCH_SHORT
enum { ORDER = 0 };
#else
enum { ORDER = SEBDYQUL_RESULTS };
#endif

/* A text and its bytes. */
struct text {
    size_t length;
    uint8_t bytes[TEXT];
};

/* A job with the buffers that it lends, and what it answered. */
struct job {
    struct text moves, labels, formula;
    uint32_t lower[SEBDYQUL_RESULTS], upper[SEBDYQUL_RESULTS];
    uint8_t verdicts[SEBDYQUL_RESULTS];
    uint16_t order[SEBDYQUL_RESULTS];
    uint64_t words[SEBDYQUL_WORDS], vectors[SEBDYQUL_VECTORS];
    uint8_t marks[SEBDYQUL_MARKS];
    uint64_t depth, answer;
};

/* Reads a file of the folder. */
static inline void read_text(struct text *text, const char *folder, const char *name) {
    char path[4096];
    snprintf(path, sizeof path, "%s/%s", folder, name);
    FILE *file = fopen(path, "rb");
    if (file == NULL) {
        perror(path);
        exit(2);
    }
    text->length = fread(text->bytes, 1, TEXT, file);
    fclose(file);
}

/* Reads the two texts of a folder's sheet. */
static inline void read_sheet(struct job *job, const char *folder) {
    read_text(&job->moves, folder, "moves.txt");
    read_text(&job->labels, folder, "labels.txt");
}

/* The formula is a word of the command; its line feed is added here. */
static inline void set_formula(struct text *text, const char *formula) {
    int length = snprintf((char *)text->bytes, TEXT, "%s\n", formula);
    text->length = (size_t)length;
}

/* The measured work. */
static inline void run(void *data) {
    struct job *job = data;
    job->answer = sebdyqul_check(
        job->moves.bytes, job->moves.length, job->labels.bytes, job->labels.length, job->formula.bytes, job->formula.length,
        job->lower, SEBDYQUL_RESULTS, job->upper, SEBDYQUL_RESULTS, job->verdicts, SEBDYQUL_RESULTS, job->order, ORDER,
        job->words, SEBDYQUL_WORDS, job->vectors, SEBDYQUL_VECTORS, job->marks, SEBDYQUL_MARKS, &job->depth);
}

/* The number of states: the lines of the labels but the first. */
static inline int states_of(const struct text *labels) {
    int lines = 0;
    for (size_t i = 0; i < labels->length; i++)
        lines += labels->bytes[i] == '\n';
    return lines - 1;
}

#endif
