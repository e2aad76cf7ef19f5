/* Checks the sheet in a folder with the static library and prints what the program prints: the report, or `refused` and the number.
 * With --copy it prints the clean copy of the moves in the place of a report.
 *
 * library/README.md has the command that builds it.
 */
#include <inttypes.h>
#include <stdio.h>
#include <string.h>

#include "sebdyqul.h"

/* One byte over the limit of moves and labels: a text that fills this is refused, however much of it was left out. */
#define TEXT_BYTES 61441
#define PATH_BYTES 4096

struct text {
    uint8_t bytes[TEXT_BYTES];
    size_t length;
};

/* The three texts, and all that is lent: enough for every job. */
static struct text moves, labels, formula;
static uint32_t lower[SEBDYQUL_RESULTS], upper[SEBDYQUL_RESULTS];
static uint16_t order[SEBDYQUL_RESULTS];
static uint8_t verdicts[SEBDYQUL_RESULTS], marks[SEBDYQUL_MARKS];
static uint64_t words[SEBDYQUL_WORDS], vectors[SEBDYQUL_VECTORS];
static uint8_t copy[SEBDYQUL_COPY];

/* Reads a file of the folder; one that cannot be opened counts as empty. */
static void read_text(struct text *text, const char *folder, const char *name)
{
    char path[PATH_BYTES];
    int length = snprintf(path, sizeof path, "%s/%s", folder, name);
    text->length = 0;
    if (length < 0 || (size_t)length >= sizeof path)
        return;
    FILE *file = fopen(path, "rb");
    if (file == NULL)
        return;
    text->length = fread(text->bytes, 1, sizeof text->bytes, file);
    if (ferror(file))
        text->length = 0;
    fclose(file);
}

/* The states of an accepted job: the lines of its labels text, without the first. */
static size_t states(void)
{
    size_t lines = 0;
    for (size_t at = 0; at < labels.length; at++)
        lines += labels.bytes[at] == '\n';
    return lines - 1;
}

/* Prints the line of names. */
static void print_names(void)
{
    puts("state,lower,upper,depth,verdict");
}

/* Prints the line of a state. */
static void print_row(size_t state, uint64_t depth)
{
    static const char *const said[] = {[SEBDYQUL_NO] = "no", [SEBDYQUL_YES] = "yes", [SEBDYQUL_UNDECIDED] = "undecided"};
    printf("%zu,%" PRIu32 ",%" PRIu32 ",%" PRIu64 ",%s\n", state, lower[state], upper[state], depth, said[verdicts[state]]);
}

/* Prints the report that the lent buffers hold: every state in turn, then the worst first. */
static void print_report(uint64_t depth)
{
    size_t count = states();
    print_names();
    for (size_t state = 0; state < count; state++)
        print_row(state, depth);
    print_names();
    for (size_t place = 0; place < count; place++)
        print_row(order[place], depth);
}

/* Checks the job and prints its report where it is accepted; answers with the number of its refusal. */
static uint64_t check(void)
{
    uint64_t depth = 0;
    uint64_t number = sebdyqul_check(
        moves.bytes, moves.length, labels.bytes, labels.length, formula.bytes, formula.length,
        lower, SEBDYQUL_RESULTS, upper, SEBDYQUL_RESULTS, verdicts, SEBDYQUL_RESULTS, order, SEBDYQUL_RESULTS,
        words, SEBDYQUL_WORDS, vectors, SEBDYQUL_VECTORS, marks, SEBDYQUL_MARKS, &depth);
    if (number == 0)
        print_report(depth);
    return number;
}

/* Copies the moves and prints the copy where they are accepted; answers with the number of the refusal. */
static uint64_t copy_moves(void)
{
    uint64_t length = 0;
    uint64_t number = sebdyqul_copy(moves.bytes, moves.length, labels.bytes, labels.length, copy, SEBDYQUL_COPY, &length);
    if (number == 0)
        fwrite(copy, 1, length, stdout);
    return number;
}

int main(int count, char **arguments)
{
    int copies = count == 3 && strcmp(arguments[1], "--copy") == 0;
    if (count != 2 + copies) {
        fputs("usage: example-c [--copy] FOLDER\n", stderr);
        return 2;
    }
    const char *folder = arguments[1 + copies];
    read_text(&moves, folder, "moves.txt");
    read_text(&labels, folder, "labels.txt");
    read_text(&formula, folder, "formula.txt");
    uint64_t number = copies ? copy_moves() : check();
    if (number != 0)
        printf("refused\n%" PRIu64 "\n", number);
    return fflush(stdout) == 0 ? 0 : 1;
}
