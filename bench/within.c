/* Runs a program within a stack limit and says what memory it took.
 *
 * usage: within STACK_KB PROGRAM
 * The program runs in the same folder with no environment and writes to the same standard output. What it took is written to the standard
 * error output: its greatest resident memory in KB, and its exit status (or 128 and the signal that ended it).
 *
 * It is a program of its own because the system counts the memory of the process that starts a program as the program's: that process
 * has to be smaller than what it measures. */
#include <stdio.h>
#include <stdlib.h>
#include <sys/resource.h>
#include <sys/wait.h>
#include <unistd.h>

/* In the new process: sets the limit and becomes the program. */
static void become(const char *program, long stack_kb) {
    struct rlimit limit = {(rlim_t)stack_kb * 1024, (rlim_t)stack_kb * 1024};
    char *words[] = {(char *)program, NULL};
    char *environment[] = {NULL};
    if (setrlimit(RLIMIT_STACK, &limit) == 0)
        execve(program, words, environment);
    _exit(127);
}

/* Starts the program, waits for its end and says what it took. */
int main(int count, char **words) {
    if (count != 3) {
        fprintf(stderr, "usage: within STACK_KB PROGRAM\n");
        return 2;
    }
    pid_t child = fork();
    if (child == 0)
        become(words[2], atol(words[1]));
    int status = 0;
    struct rusage used;
    if (child < 0 || wait4(child, &status, 0, &used) != child) {
        perror("within");
        return 2;
    }
    fprintf(stderr, "%ld %d\n", used.ru_maxrss, WIFEXITED(status) ? WEXITSTATUS(status) : 128 + WTERMSIG(status));
    return 0;
}
