// What libFuzzer is told of as new: blocks of the exports' machine code, and outcomes.
#ifndef REACH_H
#define REACH_H

#include <stdint.h>

// Reads the table of blocks beside the program, PROGRAM.blocks, and puts a trap at each.
void watch_blocks(void);

// An outcome of some kind, with a value.
void reached(uint32_t kind, uint64_t value);

// How many bits a number takes: its magnitude.
uint32_t magnitude(uint64_t n);

#endif
