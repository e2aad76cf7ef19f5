/* Reads a bench sheet. The texts are those that sheets.py has written, so that they are not tested here as the checker tests them. */
#include "sheet.h"

#include <stdio.h>
#include <stdlib.h>
#include <string.h>

/* Ends the program. */
static void fail(const char *why, const char *what) {
    fprintf(stderr, "%s: %s\n", what, why);
    exit(2);
}

/* Opens a text of the folder and passes its first line, which has to be the one given. */
static FILE *open_text(const char *folder, const char *name, const char *first) {
    char path[4096], line[64];
    snprintf(path, sizeof path, "%s/%s", folder, name);
    FILE *text = fopen(path, "r");
    if (text == NULL)
        fail("cannot be opened", path);
    if (fgets(line, sizeof line, text) == NULL || strcmp(line, first) != 0)
        fail("another first line than expected", path);
    return text;
}

/* The states and where they are dead. */
static void read_labels(struct sheet *sheet, const char *folder) {
    FILE *text = open_text(folder, "labels.txt", "state,up,dead\n");
    int state, up, dead;
    while (fscanf(text, "%d,%d,%d\n", &state, &up, &dead) == 3) {
        if (sheet->states == STATES)
            fail("too many states", folder);
        sheet->dead[sheet->states++] = dead;
    }
    fclose(text);
}

/* The moves, which come in the order of their rows, and the exit rates. */
static void read_moves(struct sheet *sheet, const char *folder) {
    FILE *text = open_text(folder, "moves.txt", "from,to,rate\n");
    int from, to;
    long rate;
    while (fscanf(text, "%d,%d,%ld\n", &from, &to, &rate) == 3) {
        if (sheet->moves == MOVES || from < 0 || from >= sheet->states || to < 0 || to >= sheet->states)
            fail("too many moves, or one to no state", folder);
        sheet->to[sheet->moves] = to;
        sheet->rate[sheet->moves++] = rate;
        sheet->exit[from] += rate;
        sheet->begin[from + 1] = sheet->moves;
    }
    fclose(text);
}

/* Reads both texts; then the rows without moves are closed and q is found. */
void sheet_read(struct sheet *sheet, const char *folder) {
    memset(sheet, 0, sizeof *sheet);
    read_labels(sheet, folder);
    read_moves(sheet, folder);
    for (int s = 0; s < sheet->states; s++) {
        if (sheet->begin[s + 1] < sheet->begin[s]) /* no moves out of s */
            sheet->begin[s + 1] = sheet->begin[s];
        if (sheet->exit[s] > sheet->top)
            sheet->top = sheet->exit[s];
    }
    if (sheet->top == 0)
        fail("no moves", folder);
}

/* Twice the load, rounded up, and 40. */
int sheet_depth(const struct sheet *sheet, long hours) {
    return (int)(2 * ((sheet->top * hours + 999999) / 1000000) + 40);
}
