// How a finding is told: a line, and the end of the program, at which libFuzzer keeps the input.
#ifndef FINDING_H
#define FINDING_H

#include <stdio.h>
#include <stdlib.h>

#define finding(...) (fprintf(stderr, "finding: " __VA_ARGS__), fputc('\n', stderr), abort())

// What the harness itself needs. It is no finding about the exports.
#define require(ok, what) ((ok) ? (void)0 : (fprintf(stderr, "the harness: %s\n", what), _Exit(3)))

#endif
