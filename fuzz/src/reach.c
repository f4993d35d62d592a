#define _GNU_SOURCE
#include "reach.h"
#include "call.h"
#include "exports.h"
#include "finding.h"

#include <signal.h>
#include <string.h>
#include <sys/mman.h>
#include <ucontext.h>
#include <unistd.h>

// The exports have no counters of their own. A trap stands at the first byte of each block of their machine code; the
// first time that a block is reached the byte is put back, and the block counts. So the code that runs is the archive's
// own, byte for byte, and a block costs one signal in a whole run.
#define MOST_BLOCKS 8192
#define OUTCOMES 32768
__attribute__((section("__libfuzzer_extra_counters"))) static uint8_t block_counter[MOST_BLOCKS];
__attribute__((section("__libfuzzer_extra_counters"))) static uint8_t outcome_counter[OUTCOMES];

#define TRAP 0xcc
#define PAGE ((uintptr_t)4096)

static struct {
    uint8_t *at;
    uint8_t byte;
    uint8_t done;
} blocks[MOST_BLOCKS];
static int block_count;
static char table[4096];

static int block_at(const uint8_t *at)
{
    int low = 0, high = block_count;
    while (low < high) {
        int middle = (low + high) / 2;
        if (blocks[middle].at < at)
            low = middle + 1;
        else
            high = middle;
    }
    return low < block_count && blocks[low].at == at ? low : -1;
}

static void on_trap(int signal, siginfo_t *info, void *context)
{
    (void)signal;
    (void)info;
    greg_t *ip = &((ucontext_t *)context)->uc_mcontext.gregs[REG_RIP];
    int b = block_at((uint8_t *)*ip - 1);
    if (b < 0)
        finding("a trap that is none of ours");
    *blocks[b].at = blocks[b].byte;
    blocks[b].done = 1;
    block_counter[b] = 1;
    *ip -= 1;
}

static void set_trap(long offset)
{
    require(block_count < MOST_BLOCKS, "too many blocks");
    uint8_t *at = (uint8_t *)cuzhantir_read + offset;
    uintptr_t page = (uintptr_t)at & ~(PAGE - 1);
    require(mprotect((void *)page, 2 * PAGE, PROT_READ | PROT_WRITE | PROT_EXEC) == 0, "the code cannot be written");
    blocks[block_count].at = at;
    blocks[block_count].byte = *at;
    block_count++;
    *at = TRAP;
}

// For each block its distance from the start and whether it was reached, and how deep the stack went.
static void tell_reached(void)
{
    const char *name = getenv("FUZZ_REACHED");
    FILE *f = name ? fopen(name, "a") : NULL;
    if (f == NULL)
        return;
    for (int b = 0; b < block_count; b++)
        fprintf(f, "%td %d\n", blocks[b].at - (uint8_t *)cuzhantir_read, blocks[b].done);
    fprintf(f, "stack %zu\n", deepest_stack());
    fclose(f);
}

void watch_blocks(void)
{
    ssize_t n = readlink("/proc/self/exe", table, sizeof table - sizeof ".blocks");
    require(n > 0, "no name of its own");
    strcpy(table + n, ".blocks");
    FILE *f = fopen(table, "r");
    require(f != NULL, "no table of blocks beside the program");
    struct sigaction action = {.sa_sigaction = on_trap, .sa_flags = SA_SIGINFO | SA_ONSTACK};
    require(sigaction(SIGTRAP, &action, NULL) == 0, "no signal");
    long offset;
    while (fscanf(f, "%ld", &offset) == 1)
        set_trap(offset);
    fclose(f);
    atexit(tell_reached);
}

void reached(uint32_t kind, uint64_t value)
{
    uint64_t h = (value + 1) * UINT64_C(0x9e3779b97f4a7c15) + kind * UINT64_C(0xc2b2ae3d27d4eb4f);
    outcome_counter[(h >> 40) % OUTCOMES] = 1;
}

uint32_t magnitude(uint64_t n)
{
    return n == 0 ? 0 : 64 - (uint32_t)__builtin_clzll(n);
}
