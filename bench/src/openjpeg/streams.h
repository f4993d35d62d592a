/* OpenJPEG's streams over memory. */
#ifndef BENCH_STREAMS_H
#define BENCH_STREAMS_H

#include "opj_includes.h"

/* Bytes that a stream reads or writes, and where it stands. Writing needs room for what is written, not for what is
   skipped. */
struct memory {
    OPJ_BYTE *bytes;
    OPJ_SIZE_T length;
    OPJ_SIZE_T place;
};

/* A stream that reads the whole of `memory`, its length known from the start. The buffer is as long as the file, or as
   OpenJPEG's own for longer ones; the oracle gives the crate the same. */
opj_stream_private_t *memory_reader(struct memory *memory);

/* A stream that writes to `memory`, with OpenJPEG's own length of a buffer. */
opj_stream_private_t *memory_writer(struct memory *memory);

#endif
