// Document 01's refusals in words.
#ifndef DEMO_CAUSES_H
#define DEMO_CAUSES_H

#include <stdint.h>
#include <stdio.h>

// "27, a mapping names no component, or neither direct use nor its own column, mapping 1"
void print_refusal(FILE *to, uint64_t number, uint64_t place);

#endif
