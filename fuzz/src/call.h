// Calls of the exports as the C convention of x86-64 allows them to be made, and no friendlier.
//
// - They run on a stack of their own, with a page below that traps.
// - The registers that a callee has to keep hold a pattern, and are compared afterwards.
// - A number of 32 bits is handed over with garbage in the upper half of its word.
#ifndef CALL_H
#define CALL_H

#include <stddef.h>
#include <stdint.h>

// The words of a call, in order of the parameters.
struct words {
    uint64_t word[20];
    size_t count;
};

void add_list(struct words *w, const void *list, size_t length);
void add_u32(struct words *w, uint32_t number);
void add_u64(struct words *w, uint64_t number);

// Makes the call, and gives the lower half of what it answers.
uint32_t call(void *function, const struct words *w);

// The most bytes of stack that a call has taken so far.
size_t deepest_stack(void);

#endif
