// What libFuzzer hands over, taken apart.
#ifndef INPUT_H
#define INPUT_H

#include <stddef.h>
#include <stdint.h>

struct input {
    const uint8_t *at;
    size_t left;
};

// Numbers with the lowest byte first; 0 where the input has ended.
uint8_t take_u8(struct input *in);
uint16_t take_u16(struct input *in);
uint32_t take_u32(struct input *in);

// A part of the input of so many bytes, or what is left.
struct input take_part(struct input *in, size_t bytes);

// One of a list of lengths next to which something changes: below, at and above a length.
uint64_t near(uint64_t length, uint8_t choice);

// A count of components: mostly few, and now and then next to the most that there may be, or to 2^32. For 0 it is the
// usual one.
uint32_t take_count(struct input *in, uint32_t usual);

#endif
