#define _GNU_SOURCE
#include "call.h"
#include "finding.h"

#include <signal.h>
#include <string.h>
#include <sys/mman.h>

#define PAGE ((size_t)4096)
#define STACK_BYTES (64 * PAGE)
#define UNTOUCHED UINT64_C(0x7e57ed57ac4b0a5e)
#define IN_REGISTERS ((size_t)6)

// What call_words found afterwards: the bits in which the kept registers differ, and the flags.
uint64_t call_differences;
uint64_t call_flags;
uint64_t call_own_stack;

// rdi the function, rsi six words for registers, rdx the words for the stack, rcx their number (even), r8 the stack's top.
uint64_t call_words(void *function, const uint64_t *registers, const uint64_t *stack, size_t count, void *top);
__asm__(".text\n"
        ".globl call_words\n"
        ".type call_words, @function\n"
        "call_words:\n"
        "  push %rbp\n"
        "  push %rbx\n"
        "  push %r12\n"
        "  push %r13\n"
        "  push %r14\n"
        "  push %r15\n"
        "  mov %rsp, call_own_stack(%rip)\n"
        "  mov %r8, %rsp\n"
        "  mov %rdi, %r11\n"
        "1: test %rcx, %rcx\n"
        "  jz 2f\n"
        "  push -8(%rdx,%rcx,8)\n"
        "  dec %rcx\n"
        "  jmp 1b\n"
        "2: mov %rsi, %rax\n"
        "  mov 0(%rax), %rdi\n"
        "  mov 8(%rax), %rsi\n"
        "  mov 16(%rax), %rdx\n"
        "  mov 24(%rax), %rcx\n"
        "  mov 32(%rax), %r8\n"
        "  mov 40(%rax), %r9\n"
        "  movabs $0xb0b1b2b3b4b5b6b7, %rbx\n"
        "  movabs $0xc0c1c2c3c4c5c6c7, %rbp\n"
        "  movabs $0xd0d1d2d3d4d5d6d7, %r12\n"
        "  movabs $0xe0e1e2e3e4e5e6e7, %r13\n"
        "  movabs $0xf0f1f2f3f4f5f6f7, %r14\n"
        "  movabs $0xa0a1a2a3a4a5a6a7, %r15\n"
        "  call *%r11\n"
        "  movabs $0xb0b1b2b3b4b5b6b7, %r11\n"
        "  xor %r11, %rbx\n"
        "  movabs $0xc0c1c2c3c4c5c6c7, %r11\n"
        "  xor %r11, %rbp\n"
        "  movabs $0xd0d1d2d3d4d5d6d7, %r11\n"
        "  xor %r11, %r12\n"
        "  movabs $0xe0e1e2e3e4e5e6e7, %r11\n"
        "  xor %r11, %r13\n"
        "  movabs $0xf0f1f2f3f4f5f6f7, %r11\n"
        "  xor %r11, %r14\n"
        "  movabs $0xa0a1a2a3a4a5a6a7, %r11\n"
        "  xor %r11, %r15\n"
        "  or %rbp, %rbx\n"
        "  or %r12, %rbx\n"
        "  or %r13, %rbx\n"
        "  or %r14, %rbx\n"
        "  or %r15, %rbx\n"
        "  mov %rbx, call_differences(%rip)\n"
        "  pushfq\n"
        "  pop %rcx\n"
        "  mov %rcx, call_flags(%rip)\n"
        "  cld\n"
        "  mov call_own_stack(%rip), %rsp\n"
        "  pop %r15\n"
        "  pop %r14\n"
        "  pop %r13\n"
        "  pop %r12\n"
        "  pop %rbx\n"
        "  pop %rbp\n"
        "  ret\n"
        ".size call_words, . - call_words\n");

static uint64_t *stack_low, *stack_deepest, *stack_top;

// libFuzzer's clock would put its frame on the stack of the call, and count in its depth.
static void keep_clock_away(void)
{
    struct sigaction clock;
    require(sigaction(SIGALRM, NULL, &clock) == 0, "no signal");
    clock.sa_flags |= SA_ONSTACK;
    require(sigaction(SIGALRM, &clock, NULL) == 0, "no signal");
}

static void make_stack(void)
{
    keep_clock_away();
    uint8_t *p = mmap(NULL, STACK_BYTES + 2 * PAGE, PROT_NONE, MAP_PRIVATE | MAP_ANONYMOUS, -1, 0);
    require(p != MAP_FAILED && mprotect(p + PAGE, STACK_BYTES, PROT_READ | PROT_WRITE) == 0, "no stack");
    stack_low = (uint64_t *)(p + PAGE);
    stack_top = stack_deepest = (uint64_t *)(p + PAGE + STACK_BYTES);
    for (uint64_t *w = stack_low; w < stack_top; w++)
        *w = UNTOUCHED;
}

// Whether anything was written to the page below the deepest word so far.
static int went_deeper(void)
{
    const uint8_t *below = (const uint8_t *)stack_deepest - PAGE;
    return below >= (const uint8_t *)stack_low && memcmp(below, stack_low, PAGE) != 0;
}

static void go_down(void)
{
    uint64_t *w = stack_deepest - PAGE / sizeof *w;
    while (*w == UNTOUCHED)
        w++;
    stack_deepest = w;
}

// The lowest word that was written is how deep the stack went. A call that leaves a whole page untouched on its way down is
// taken to have stopped there; the page below the stack traps all the same.
static void note_depth(void)
{
    while (went_deeper())
        go_down();
}

size_t deepest_stack(void)
{
    return (size_t)(stack_top - stack_deepest) * sizeof(uint64_t);
}

static void add(struct words *w, uint64_t word)
{
    require(w->count < sizeof w->word / sizeof w->word[0], "too many words in a call");
    w->word[w->count++] = word;
}

void add_list(struct words *w, const void *list, size_t length)
{
    add(w, (uint64_t)list);
    add(w, length);
}

void add_u32(struct words *w, uint32_t number)
{
    add(w, UINT64_C(0xdeadbeef00000000) | number);
}

void add_u64(struct words *w, uint64_t number)
{
    add(w, number);
}

uint32_t call(void *function, const struct words *w)
{
    if (stack_low == NULL)
        make_stack();
    struct words all = *w;
    while (all.count < IN_REGISTERS || all.count % 2 != 0)
        add(&all, UINT64_C(0x0bad0bad0bad0bad));
    uint64_t r = call_words(function, all.word, all.word + IN_REGISTERS, all.count - IN_REGISTERS, stack_top);
    if (call_differences != 0)
        finding("a register that a callee has to keep was changed");
    if (call_flags & 0x400)
        finding("the direction flag is set");
    note_depth();
    return (uint32_t)r;
}
