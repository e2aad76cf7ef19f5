/* Which blocks of a library's code have run, without any instrumentation by its compiler.
 *
 * The first byte of each block is replaced by a breakpoint. The first time that the block is reached its trap is caught here: the byte is
 * put back, the block is counted, and the instruction runs. So each block costs one trap ever, and code that was seen runs at full speed.
 */
#define _GNU_SOURCE
#include <signal.h>
#include <stdint.h>
#include <stdlib.h>
#include <string.h>
#include <sys/mman.h>
#include <ucontext.h>
#include <unistd.h>

#define BREAKPOINT 0xCC
#define MOST_BYTES (1 << 20)

static uint8_t *code;                   /* the watched part of the code, from its first block to its last */
static size_t code_bytes;
static uint8_t original[MOST_BYTES];    /* its bytes without breakpoints */
static volatile size_t blocks_seen;

/* The handler of the trap. A trap that is none of ours ends the process. */
static void reached(int number, siginfo_t *info, void *context)
{
    (void)number;
    (void)info;
    greg_t *next = &((ucontext_t *)context)->uc_mcontext.gregs[REG_RIP];
    size_t at = (size_t)((uint8_t *)*next - 1 - code);
    if (at >= code_bytes || original[at] == BREAKPOINT || code[at] != BREAKPOINT)
        abort();
    code[at] = original[at];
    blocks_seen++;
    *next -= 1;
}

/* Makes the pages of the watched part writable. */
static int open_pages(void)
{
    uintptr_t page = (uintptr_t)sysconf(_SC_PAGESIZE);
    uintptr_t first = (uintptr_t)code / page * page;
    return mprotect((void *)first, (uintptr_t)code + code_bytes - first, PROT_READ | PROT_WRITE | PROT_EXEC);
}

/* Puts a breakpoint at each of these addresses, which rise. Answers 0, or -1 where that cannot be done. */
int coverage_watch(uint8_t *const *blocks, size_t count)
{
    struct sigaction action = {.sa_sigaction = reached, .sa_flags = SA_SIGINFO};
    code = blocks[0];
    code_bytes = (size_t)(blocks[count - 1] - code) + 1;
    if (code_bytes > MOST_BYTES || open_pages() != 0 || sigaction(SIGTRAP, &action, NULL) != 0)
        return -1;
    memcpy(original, code, code_bytes);
    for (size_t at = 0; at < count; at++)
        *blocks[at] = BREAKPOINT;
    return 0;
}

/* How many blocks have run. */
size_t coverage_seen(void)
{
    return blocks_seen;
}

/* Whether the block at an address has run. */
int coverage_has(const uint8_t *block)
{
    return *block != BREAKPOINT;
}
