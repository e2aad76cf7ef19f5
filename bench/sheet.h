/* A bench sheet as plain numbers, for the two loops that the engine is compared with. */
#ifndef BENCH_SHEET_H
#define BENCH_SHEET_H

enum { STATES = 512, MOVES = 4096 };

/* The moves in rows: those out of state s are begin[s] to begin[s + 1] - 1. `dead` is 1 where the label of that name holds. */
struct sheet {
    int states;
    int moves;
    int dead[STATES];
    int begin[STATES + 1];
    int to[MOVES];
    long rate[MOVES];
    long exit[STATES];
    long top; /* the greatest exit rate, q */
};

/* Reads moves.txt and labels.txt of a folder; ends the program with a message where they are not as the bench writes them. */
void sheet_read(struct sheet *sheet, const char *folder);

/* The depth of a phase over so many hours. */
int sheet_depth(const struct sheet *sheet, long hours);

#endif
