/*
 * The box layer of JP2 files (JPEG 2000, ISO/IEC 15444-1 Annex I), from C and C++.
 *
 * Four entries, of which each takes lists and numbers and keeps nothing:
 *
 *   cuzhantir_read      reads a file's boxes up to its codestream and gives the header record as 44 numbers
 *   cuzhantir_finish    finishes a decoded picture with such a reading: palette looked up, planes in colour order
 *   cuzhantir_picture   both in one step
 *   cuzhantir_write     writes all boxes before a codestream, and the header of the codestream's own box
 *
 * Link target/staticlib/libcuzhantir.a (x86-64, Linux), which `tools/rt-once staticlib cuzhantir` proves and writes.
 *
 * The answer. Each entry returns 0 when it did its work, else one number of `enum cuzhantir_number`, the refusal. The same
 * number, and the place that goes with it, are in the list `reading` or `answer`. The place is one of these:
 *
 *   box offset     where the header of the box at fault starts, counted from the file's first byte
 *   index          the lowest definition, channel, mapping or component at fault, counted from 0
 *   needed length  how many elements the list at fault would have to have
 *   0              where none is named
 *
 * Editions. Finishing goes by one of two editions of the rules, and the parameter `edition2` says which: 0 is edition 1, any
 * other number is edition 2 (enum cuzhantir_edition). They differ in two things. In edition 2 a finished plane has the mark
 * that its own channel's definition gives, and where there are definitions channel 0 has to be defined too
 * (CUZHANTIR_CHANNEL_UNDEFINED). All else is the same: which channel is on which plane, the other 12 numbers of each record,
 * the samples, and every other refusal. Reading and writing have no editions.
 *
 * Hand in the whole file. Boxes may come in almost any order and behind large ones, and the file's length is part of what
 * is read: the first part of a file can be answered differently, also with 0. A file that ends before a codestream, such as
 * an empty one, is not refused. Reading returns 0 for it and says CUZHANTIR_READING_ENDED, which a caller has to test.
 *
 * No entry trusts its caller. Whatever bytes and numbers the lists hold, an entry returns, and reads and writes inside
 * them only; this is proved of the source. A refusal changes no destination: of all lists it changes only `reading` or
 * `answer`, and not even this one where it is too short.
 *
 * What nothing checks is the lists themselves. A list is a pointer and the number of its elements (not of its bytes).
 * The caller sees to it that
 *
 *   - the pointer is valid for that number of elements: to be read, and to be written where it has no `const`;
 *   - it is aligned as its type asks;
 *   - a list that is written overlaps no other list of the call; lists that are only read may overlap each other;
 *   - no other thread writes a list of the call, or reads one that the call writes, until it returns;
 *   - a list of length 0 may have any pointer, NULL too: nothing is read or written through it.
 *
 * How much room a destination needs: call with length 0 (and NULL). The answer is CUZHANTIR_DESTINATION_TOO_SHORT with the
 * needed length as its place: of `records` first, then of `planes` once `records` is long enough. Elements behind what
 * was written stay as they were.
 *
 * Threads. The library has no state: no variable outlives a call, nothing is allocated, and nothing but memset is called.
 * Any number of threads may call at once, with lists of their own.
 *
 * Stack. cuzhantir_finish and cuzhantir_picture work in lists on the stack. How long these are depends on the number of
 * channels: the columns of a mapped palette, else the components. CUZHANTIR_STACK_FINISH_64 bounds what the two take for at
 * most 64 channels, CUZHANTIR_STACK_FINISH for any number, and CUZHANTIR_STACK_READ what the other entries take;
 * include/test/stack.c measures them.
 */
#ifndef CUZHANTIR_JP2_H
#define CUZHANTIR_JP2_H

#include <stddef.h>
#include <stdint.h>

#ifdef __cplusplus
extern "C" {
#endif

/* Bytes of stack: the most for finishing, for finishing with at most 64 channels, and for reading and writing. */
#define CUZHANTIR_STACK_FINISH 163840
#define CUZHANTIR_STACK_FINISH_64 24576
#define CUZHANTIR_STACK_READ 8192

/*
 * Causes of a refusal, with the meaning of its place. 1 to 24 come from a file, 25 to 30 from finishing, 29 to 34
 * from writing.
 *
 * 29 is a record or plane outside its list; over 16384 records or 4294967294 samples; a palette, mapping or definition
 * list outside the file, or one that its reader would refuse; or a list that is no reading.
 */
enum cuzhantir_number {
  CUZHANTIR_DONE = 0,                     /* no refusal */
  CUZHANTIR_FILE_TOO_LONG = 1,            /* the file has over 4294967295 bytes; 0 */
  CUZHANTIR_CODESTREAM_BEFORE_HEADER = 2, /* a codestream, and neither a jp2h nor a skipped box before it; box offset */
  CUZHANTIR_LENGTH_BELOW_HEADER = 3,      /* a box is shorter than its own header; box offset */
  CUZHANTIR_CONTENT_PAST_FILE = 4,        /* a box that is read reaches past the file; box offset */
  CUZHANTIR_BOX_BEFORE_SIGNATURE = 5,     /* another box stands before the signature; box offset */
  CUZHANTIR_BOX_BEFORE_FILE_TYPE = 6,     /* another box stands before the file type; box offset */
  CUZHANTIR_SIGNATURE_WRONG = 7,          /* jP: not first, not of 4 bytes, or not 0x0d0a870a; box offset */
  CUZHANTIR_FILE_TYPE_WRONG = 8,          /* ftyp: not second, under 8 bytes, or the rest not in fours; box offset */
  CUZHANTIR_HEADER_BEFORE_FILE_TYPE = 9,  /* a jp2h, and no file type before it; box offset */
  CUZHANTIR_CHILD_HEADER_WRONG = 10, /* in jp2h: a header cut short, a length of 0, or of 2^32 and more; the child's offset */
  CUZHANTIR_CHILD_LENGTH_WRONG = 11, /* in jp2h: a length below its header, or past the end of jp2h; the child's offset */
  CUZHANTIR_IHDR_MISSING = 12,       /* a jp2h without an ihdr; the offset of jp2h */
  CUZHANTIR_IHDR_LENGTH_WRONG = 13,  /* ihdr is not of 14 bytes; the child's offset, as for all up to 24 */
  CUZHANTIR_IHDR_ZERO = 14,          /* ihdr: a height, width or count of 0 */
  CUZHANTIR_IHDR_TOO_MANY = 15,      /* ihdr: over 16384 components */
  CUZHANTIR_COLR_TOO_SHORT = 16,     /* colr: under 3 bytes, or method 1 with under 4 bytes left */
  CUZHANTIR_BPCC_LENGTH_WRONG = 17,  /* bpcc has not one byte a component */
  CUZHANTIR_SECOND_LIST = 18,        /* a second pclr, cmap or cdef */
  CUZHANTIR_PCLR_COUNT_WRONG = 19,   /* pclr: no entries, over 1024 of them, or no columns */
  CUZHANTIR_PCLR_TOO_SHORT = 20,     /* pclr: under 3 bytes, or widths or entries cut short */
  CUZHANTIR_CMAP_BEFORE_PCLR = 21,   /* a cmap, and no palette before it */
  CUZHANTIR_CMAP_TOO_SHORT = 22,     /* cmap has not one mapping a column */
  CUZHANTIR_CDEF_TOO_SHORT = 23,     /* cdef: under 2 bytes, or definitions cut short */
  CUZHANTIR_CDEF_EMPTY = 24,         /* cdef: a count of 0 */
  CUZHANTIR_DEFINITION_OUTSIDE = 25, /* a definition names a channel or a colour that is not there; its index */
  CUZHANTIR_CHANNEL_UNDEFINED = 26,  /* no definition of a channel, from 1 up in edition 1, from 0 up in 2; the channel */
  CUZHANTIR_MAPPING_WRONG = 27,      /* no such component, or neither direct use nor its own column; the mapping's index */
  CUZHANTIR_COMPONENT_WITHOUT_SAMPLES = 28, /* the palette maps a component that has no samples; the mapping's index */
  CUZHANTIR_OUTSIDE_LIST = 29,              /* something lies outside its list or file, see above; 0 */
  CUZHANTIR_DESTINATION_TOO_SHORT = 30,     /* or over 4294967294 samples are needed; needed length */
  CUZHANTIR_WRITE_COUNT_WRONG = 31,         /* writing: not 1 to 16384 components; 0 */
  CUZHANTIR_WRITE_DEPTH_WRONG = 32, /* writing: a precision not 1 to 38, or a sign not 0 or 1; the component's index */
  CUZHANTIR_WRITE_ZERO = 33,        /* writing: a height or width of 0; 0 */
  CUZHANTIR_WRITE_TOO_LONG = 34     /* writing: a profile over 16777215 bytes, or a codestream over 4261412863; 0 */
};

/* What a reading came to: number CUZHANTIR_READING_KIND. */
enum cuzhantir_reading_kind {
  CUZHANTIR_READING_CODESTREAM = 0, /* the value is the offset of the codestream, after its box's header */
  CUZHANTIR_READING_ENDED = 1,      /* the file ended before a codestream, which is no refusal; the record is what was read */
  CUZHANTIR_READING_REFUSED = 2     /* the value is the number, and the place goes with it; the record is all 0 */
};

/*
 * The numbers of a reading. A list of the file stays in it: a place, counted from the file's first byte, and a count, 0
 * where there is none. A field that no box gave is 0. The state has a bit for each of signature (1), file type (2),
 * header (4) and codestream (8), and all 31 low bits after a box that is skipped.
 */
enum cuzhantir_reading {
  CUZHANTIR_READING_KIND = 0,        /* enum cuzhantir_reading_kind */
  CUZHANTIR_READING_VALUE = 1,       /* the codestream's offset, or the number of a refusal */
  CUZHANTIR_READING_PLACE = 2,       /* the place of a refusal */
  CUZHANTIR_READING_H = 3,           /* ihdr: height */
  CUZHANTIR_READING_W = 4,           /* ihdr: width */
  CUZHANTIR_READING_NUMCOMPS = 5,    /* ihdr: how many components; 0 until an ihdr is read */
  CUZHANTIR_READING_BPC = 6,         /* ihdr: bits less 1, and the sign as the top bit; 255 where components differ */
  CUZHANTIR_READING_C = 7,           /* ihdr: compression */
  CUZHANTIR_READING_UNKC = 8,        /* ihdr: whether the colour space is unknown */
  CUZHANTIR_READING_IPR = 9,         /* ihdr: whether there is a box on rights */
  CUZHANTIR_READING_METH = 10,       /* colr: 1 enumerated, 2 profile; any other number where no colour is held */
  CUZHANTIR_READING_PRECEDENCE = 11, /* colr */
  CUZHANTIR_READING_APPROX = 12,     /* colr */
  CUZHANTIR_READING_ENUMCS = 13, /* colr: 16 sRGB, 17 grey, 18 sYCC, 14 CIELab, or any other number */
  CUZHANTIR_READING_LAB_0 = 14,  /* colr: nine numbers of CIELab */
  CUZHANTIR_READING_LAB_1 = 15,
  CUZHANTIR_READING_LAB_2 = 16,
  CUZHANTIR_READING_LAB_3 = 17,
  CUZHANTIR_READING_LAB_4 = 18,
  CUZHANTIR_READING_LAB_5 = 19,
  CUZHANTIR_READING_LAB_6 = 20,
  CUZHANTIR_READING_LAB_7 = 21,
  CUZHANTIR_READING_LAB_8 = 22,
  CUZHANTIR_READING_LAB_COUNT = 23,  /* how many of them count: 8 or 9, and 0 where the colour is another */
  CUZHANTIR_READING_HELD = 24,       /* 1 once a colr of method 1 or 2 was read; later ones are skipped */
  CUZHANTIR_READING_BRAND = 25,      /* ftyp */
  CUZHANTIR_READING_MINVERSION = 26, /* ftyp */
  CUZHANTIR_READING_CL_PLACE = 27,   /* ftyp: the compatibility list, 4 bytes each */
  CUZHANTIR_READING_CL_COUNT = 28,
  CUZHANTIR_READING_BPCC_PLACE = 29, /* bpcc: a byte a component, as BPC */
  CUZHANTIR_READING_BPCC_COUNT = 30,
  CUZHANTIR_READING_ICC_PLACE = 31, /* colr: the bytes of a profile */
  CUZHANTIR_READING_ICC_COUNT = 32,
  CUZHANTIR_READING_PCLR_PLACE = 33,   /* pclr: a byte a column, as BPC; the entries follow, row by row */
  CUZHANTIR_READING_PCLR_ENTRIES = 34, /* rows */
  CUZHANTIR_READING_PCLR_COLUMNS = 35, /* 0: no palette */
  CUZHANTIR_READING_CMAP_PLACE = 36,   /* cmap: see cuzhantir_mapping_at */
  CUZHANTIR_READING_CMAP_COUNT = 37,
  CUZHANTIR_READING_CDEF_PLACE = 38, /* cdef: see cuzhantir_definition_at */
  CUZHANTIR_READING_CDEF_COUNT = 39,
  CUZHANTIR_READING_STATE = 40,    /* which boxes came, see above */
  CUZHANTIR_READING_IMGSTATE = 41, /* in jp2h: all 31 low bits after a box that is skipped */
  CUZHANTIR_READING_HASJP2H = 42,  /* 1 once a jp2h was read */
  CUZHANTIR_READING_HASIHDR = 43,  /* 1 once an ihdr was read, in jp2h or outside */
  CUZHANTIR_READING_LENGTH = 44    /* how many numbers a reading has */
};

/* What finishing or writing came to: number CUZHANTIR_ANSWER_KIND. */
enum cuzhantir_answer_kind {
  CUZHANTIR_ANSWER_DONE = 0,
  CUZHANTIR_ANSWER_REFUSED = 1
};

/* The numbers of an answer. */
enum cuzhantir_answer {
  CUZHANTIR_ANSWER_KIND = 0,   /* enum cuzhantir_answer_kind */
  CUZHANTIR_ANSWER_NUMBER = 1, /* enum cuzhantir_number, also what the entry returned */
  CUZHANTIR_ANSWER_PLACE = 2,  /* box offset, index or needed length */
  CUZHANTIR_ANSWER_COUNT = 3,  /* finished planes, or written bytes; 0 after a refusal */
  CUZHANTIR_ANSWER_LENGTH = 4  /* how many numbers an answer has */
};

/*
 * The numbers of a component, and of a finished plane: the fields of opj_image_comp in their order. The sample at row y,
 * column x is at data + y * w + x of the list of samples.
 *
 * The mark. For writing, a component with any mark but 0 is the opacity of the picture (see cuzhantir_write). Of a plane that
 * was finished by edition 2 with the file's definitions it is the typ of its channel's last definition: 1 or 2 is opacity. Of
 * one that was finished by edition 1 it does not say whether the plane is opacity: go by the definitions, as cuzhantir_finish
 * describes. Without definitions, or where they are ignored, a plane has the mark of its component.
 */
enum cuzhantir_component {
  CUZHANTIR_COMPONENT_DX = 0,
  CUZHANTIR_COMPONENT_DY = 1,
  CUZHANTIR_COMPONENT_W = 2, /* columns */
  CUZHANTIR_COMPONENT_H = 3, /* rows */
  CUZHANTIR_COMPONENT_X0 = 4,
  CUZHANTIR_COMPONENT_Y0 = 5,
  CUZHANTIR_COMPONENT_PREC = 6, /* bits of a sample */
  CUZHANTIR_COMPONENT_BPP = 7,
  CUZHANTIR_COMPONENT_SGND = 8, /* 1: samples have a sign */
  CUZHANTIR_COMPONENT_RESNO_DECODED = 9,
  CUZHANTIR_COMPONENT_FACTOR = 10,
  CUZHANTIR_COMPONENT_DATA = 11,  /* the first sample's index, or CUZHANTIR_NO_SAMPLES */
  CUZHANTIR_COMPONENT_ALPHA = 12, /* the mark, see above */
  CUZHANTIR_COMPONENT_LENGTH = 13 /* how many numbers a component has */
};

/*
 * The editions of the rules by which a picture is finished. Any number but 0 picks edition 2; no number is refused.
 */
enum cuzhantir_edition {
  CUZHANTIR_EDITION_1 = 0, /* the crate's behaviour, and that of installed cameras */
  CUZHANTIR_EDITION_2 = 1  /* each plane has its own channel's mark, and channel 0 has to be defined */
};

/* Data of a component that has no samples. */
#define CUZHANTIR_NO_SAMPLES 4294967295u

/* The colour spaces that cuzhantir_write knows; any other number, such as 0, is written as EnumCS 0. */
enum cuzhantir_space {
  CUZHANTIR_SPACE_SRGB = 1, /* EnumCS 16 */
  CUZHANTIR_SPACE_GREY = 2, /* EnumCS 17 */
  CUZHANTIR_SPACE_SYCC = 3  /* EnumCS 18 */
};

/* Bytes of one element of the lists that stay in the file. */
enum cuzhantir_bytes {
  CUZHANTIR_CL_BYTES = 4,   /* one number */
  CUZHANTIR_CMAP_BYTES = 4, /* component (2 bytes), type (1), column (1) */
  CUZHANTIR_CDEF_BYTES = 6  /* channel, typ, asoc (2 each) */
};

/*
 * Reads the boxes of a file up to its codestream. `reading` gets 44 numbers (enum cuzhantir_reading); a longer list keeps
 * the rest, and a shorter one is left alone: CUZHANTIR_DESTINATION_TOO_SHORT. The codestream itself is not looked at.
 * Returns 0 for CUZHANTIR_READING_CODESTREAM and CUZHANTIR_READING_ENDED, else the number of the refusal, 1 to 24. A
 * codestream may be reached without an ihdr, where another box was skipped before: CUZHANTIR_READING_NUMCOMPS is then 0.
 *
 * A file that was broken off, of which the whole reaches its codestream, gives the numbers of the whole once the header of
 * the codestream's box is there. Before that it gives CUZHANTIR_READING_ENDED, with the record of the boxes that are wholly
 * there (its state may have the 31 low bits besides), or CUZHANTIR_CONTENT_PAST_FILE at the box that is cut; and no other number.
 */
uint32_t cuzhantir_read(const uint8_t *file, size_t file_len, uint64_t *reading, size_t reading_len);

/*
 * Finishes a picture: looks samples up in the file's palette, packs all channels and puts their records in the order of the
 * file's definitions. Where the file has a palette and mappings, there is a channel for each column of the palette, with the
 * column's precision and sign, also where a mapping uses a component directly; else each component is a channel.
 *
 * Which plane is which. The channel that a definition calls colour k (typ 0, asoc k) is on plane k - 1, counted from 0,
 * where the definitions name no channel and no colour twice. Without definitions channel c is on plane c. Samples are packed
 * in the order of the channels and only records are moved, so a plane's data tells its channel, and the channel's definition
 * tells what the plane is (cuzhantir_definition_at; include/test/show_order.c does so). All this is the same in both editions.
 *
 * The marks of finished planes, where there are definitions. In edition 2 a plane's mark is the typ of its own channel's
 * definition, of the last one where there are several. So it says what the plane is, and where the definitions name no channel
 * and no colour twice it does not depend on their order. In edition 1 do not go by the marks: each definition sets a mark, and
 * a later one may set it again after the record has moved. With the definitions (0, 1, 0), (1, 0, 1), opacity and then a colour,
 * channel 1 is on plane 0 and channel 0 on plane 1. Their marks are 0 and 1 in edition 2, and 0 and 0 in edition 1; with the two
 * definitions in the other order they are 0 and 1 in both.
 *
 * file, reading   the file, and what cuzhantir_read gave for it, of which palette, mappings and definitions are looked at.
 *                 A refused reading is answered with its own number and place. A list that is no reading (shorter than 44
 *                 numbers, or with a kind, a number of a refusal or a size of the palette that no reading has), and a
 *                 reading whose lists do not lie in the file, are CUZHANTIR_OUTSIDE_LIST. Nothing tests that the reading
 *                 is of this file. One that ended before a codestream is taken too, with what was read: with that of an
 *                 empty file the components are copied
 * ignore          not 0: palette, mappings and definitions count for nothing, and the components are copied, marks included;
 *                 then both editions give the same
 * edition2        enum cuzhantir_edition: 0 for edition 1, any other number for edition 2
 * comps, count    13 numbers for each of `count` components (enum cuzhantir_component); further numbers are not looked at
 * samples         the samples of all components
 * records         gets 13 numbers a plane, in plane order
 * planes          gets the samples, packed in channel order; a record's data says where those of its plane start
 * answer          gets 4 numbers (enum cuzhantir_answer); a shorter list, and then every other too, is left alone:
 *                 CUZHANTIR_DESTINATION_TOO_SHORT
 */
uint32_t cuzhantir_finish(const uint8_t *file, size_t file_len, const uint64_t *reading, size_t reading_len,
                          uint32_t ignore, uint32_t edition2, const uint32_t *comps, size_t comps_len, uint32_t count,
                          const int32_t *samples, size_t samples_len, uint32_t *records, size_t records_len,
                          int32_t *planes, size_t planes_len, uint64_t *answer, size_t answer_len);

/*
 * Reads a file and finishes its picture: cuzhantir_read and cuzhantir_finish in one step, with the same answer. A file that
 * ends before a codestream is finished with what was read of it, and 0 is returned; cuzhantir_read tells the two apart.
 */
uint32_t cuzhantir_picture(const uint8_t *file, size_t file_len, uint32_t ignore, uint32_t edition2,
                           const uint32_t *comps, size_t comps_len, uint32_t count, const int32_t *samples,
                           size_t samples_len, uint32_t *records, size_t records_len, int32_t *planes,
                           size_t planes_len, uint64_t *answer, size_t answer_len);

/*
 * Writes signature, file type, jp2h (ihdr; bpcc where precisions differ; colr; cdef, see below) and the header of the
 * codestream's box. The codestream itself goes behind them.
 *
 * A cdef is written where all of this holds: exactly one component has a mark that is not 0; the colour space is
 * CUZHANTIR_SPACE_SRGB, CUZHANTIR_SPACE_GREY or CUZHANTIR_SPACE_SYCC; the marked component comes after the colours (three,
 * one, three); and there is no profile. It then defines the colours in their order, that component as the opacity of the
 * whole picture, whatever its mark, and any other component as not told. In all other cases the marks are not written, and
 * this is no refusal: the file then does not tell which component is opacity. Nor are the signs of components after the
 * first written where all precisions are equal.
 *
 * comps, count    as for finishing; only precision, sign and mark are looked at
 * x0, y0, x1, y1  the corners of the picture's area: width x1 - x0 and height y1 - y0, wrapping at 2^32
 * space           enum cuzhantir_space, or any other number
 * profile         an ICC profile, of any bytes; length 0 for none. A file with a profile has neither the colour space nor a
 *                 cdef: opacity is lost
 * codestream      how many bytes the codestream has, its box's header not among them
 * d               gets the bytes
 * answer          as for finishing; its last number is how many bytes were written, which is also the codestream's offset
 */
uint32_t cuzhantir_write(const uint32_t *comps, size_t comps_len, uint32_t count, uint32_t x0, uint32_t y0, uint32_t x1,
                         uint32_t y1, uint32_t space, const uint8_t *profile, size_t profile_len, uint64_t codestream,
                         uint8_t *d, size_t d_len, uint64_t *answer, size_t answer_len);

/* A definition of the file. */
struct cuzhantir_definition {
  uint32_t channel;
  uint32_t typ;  /* 0 colour, 1 opacity, 2 opacity that was multiplied in, 65535 not told; or any other number */
  uint32_t asoc; /* 0 the whole picture, 65535 none, else the colour's number, from 1; colour k is for plane k - 1 */
};

/* A mapping of the file as it is. Finishing takes all for palette mappings, each to its own column, where there
   is one component and one of the mappings after the first is direct. */
struct cuzhantir_mapping {
  uint32_t component;
  uint32_t type;   /* 0 direct use, 1 the palette */
  uint32_t column; /* the palette's column */
};

/* The number of 2 bytes at an index that the caller has tested. */
static inline uint32_t cuzhantir_two(const uint8_t *file, size_t at) {
  uint32_t high = file[at];
  return high * 256u + file[at + 1];
}

/* The place of element n of a list with a place and a count, of elements of a given size in bytes. It is 0, a place that no
   list has, where the list has no such element or the element does not lie in the file. */
static inline size_t cuzhantir_element(size_t file_len, uint64_t place, uint64_t count, uint64_t n, uint64_t bytes) {
  if (n >= count || place > file_len || n >= (file_len - place) / bytes) {
    return 0;
  }
  return place + n * bytes;
}

/* Gives definition n, counted from 0, of a file that was read; 1 for given, 0 where there is none. A refused reading has none
   either: test the reading's kind before this is taken for a file without definitions. */
static inline int cuzhantir_definition_at(const uint8_t *file, size_t file_len, const uint64_t *reading, uint64_t n,
                                          struct cuzhantir_definition *given) {
  size_t at = cuzhantir_element(file_len, reading[CUZHANTIR_READING_CDEF_PLACE], reading[CUZHANTIR_READING_CDEF_COUNT],
                                n, CUZHANTIR_CDEF_BYTES);
  if (at == 0) {
    return 0;
  }
  given->channel = cuzhantir_two(file, at);
  given->typ = cuzhantir_two(file, at + 2);
  given->asoc = cuzhantir_two(file, at + 4);
  return 1;
}

/* Gives mapping n, counted from 0, of a file that was read; 1 for given, 0 where there is none. */
static inline int cuzhantir_mapping_at(const uint8_t *file, size_t file_len, const uint64_t *reading, uint64_t n,
                                       struct cuzhantir_mapping *given) {
  size_t at = cuzhantir_element(file_len, reading[CUZHANTIR_READING_CMAP_PLACE], reading[CUZHANTIR_READING_CMAP_COUNT],
                                n, CUZHANTIR_CMAP_BYTES);
  if (at == 0) {
    return 0;
  }
  given->component = cuzhantir_two(file, at);
  given->type = file[at + 2];
  given->column = file[at + 3];
  return 1;
}

/* The cause of a number in words; "no such number" for one that no entry answers. */
static inline const char *cuzhantir_cause(uint64_t number) {
  switch (number) {
  case CUZHANTIR_DONE:
    return "no refusal";
  case CUZHANTIR_FILE_TOO_LONG:
    return "the file has over 4294967295 bytes";
  case CUZHANTIR_CODESTREAM_BEFORE_HEADER:
    return "a codestream without a jp2h before it";
  case CUZHANTIR_LENGTH_BELOW_HEADER:
    return "a box is shorter than its own header";
  case CUZHANTIR_CONTENT_PAST_FILE:
    return "a box reaches past the file";
  case CUZHANTIR_BOX_BEFORE_SIGNATURE:
    return "a box stands before the signature";
  case CUZHANTIR_BOX_BEFORE_FILE_TYPE:
    return "a box stands before the file type";
  case CUZHANTIR_SIGNATURE_WRONG:
    return "jP is not first, not of 4 bytes or not the signature";
  case CUZHANTIR_FILE_TYPE_WRONG:
    return "ftyp is not second, under 8 bytes or not in fours";
  case CUZHANTIR_HEADER_BEFORE_FILE_TYPE:
    return "a jp2h without a file type before it";
  case CUZHANTIR_CHILD_HEADER_WRONG:
    return "in jp2h a box header is cut, of length 0 or of 2^32 and more";
  case CUZHANTIR_CHILD_LENGTH_WRONG:
    return "in jp2h a box is shorter than its header or reaches past jp2h";
  case CUZHANTIR_IHDR_MISSING:
    return "jp2h has no ihdr";
  case CUZHANTIR_IHDR_LENGTH_WRONG:
    return "ihdr is not of 14 bytes";
  case CUZHANTIR_IHDR_ZERO:
    return "ihdr has a height, width or count of 0";
  case CUZHANTIR_IHDR_TOO_MANY:
    return "ihdr has over 16384 components";
  case CUZHANTIR_COLR_TOO_SHORT:
    return "colr is too short";
  case CUZHANTIR_BPCC_LENGTH_WRONG:
    return "bpcc has not one byte a component";
  case CUZHANTIR_SECOND_LIST:
    return "a second pclr, cmap or cdef";
  case CUZHANTIR_PCLR_COUNT_WRONG:
    return "pclr has no entries, over 1024 of them or no columns";
  case CUZHANTIR_PCLR_TOO_SHORT:
    return "pclr is too short";
  case CUZHANTIR_CMAP_BEFORE_PCLR:
    return "a cmap without a palette before it";
  case CUZHANTIR_CMAP_TOO_SHORT:
    return "cmap has not one mapping a column";
  case CUZHANTIR_CDEF_TOO_SHORT:
    return "cdef is too short";
  case CUZHANTIR_CDEF_EMPTY:
    return "cdef has no definitions";
  case CUZHANTIR_DEFINITION_OUTSIDE:
    return "a definition names a channel or a colour that is not there";
  case CUZHANTIR_CHANNEL_UNDEFINED:
    return "a channel has no definition";
  case CUZHANTIR_MAPPING_WRONG:
    return "a mapping names no component, or neither direct use nor its own column";
  case CUZHANTIR_COMPONENT_WITHOUT_SAMPLES:
    return "the palette maps a component without samples";
  case CUZHANTIR_OUTSIDE_LIST:
    return "a record, plane or list lies outside its list or file";
  case CUZHANTIR_DESTINATION_TOO_SHORT:
    return "a destination is too short";
  case CUZHANTIR_WRITE_COUNT_WRONG:
    return "writing takes 1 to 16384 components";
  case CUZHANTIR_WRITE_DEPTH_WRONG:
    return "writing takes precisions of 1 to 38 and signs of 0 or 1";
  case CUZHANTIR_WRITE_ZERO:
    return "writing takes no height or width of 0";
  case CUZHANTIR_WRITE_TOO_LONG:
    return "the profile has over 16777215 bytes or the codestream over 4261412863";
  default:
    return "no such number";
  }
}

#ifdef __cplusplus
}
#endif

#endif
