#include "input.h"

static uint32_t take_number(struct input *in, unsigned bytes)
{
    uint32_t n = 0;
    for (unsigned i = 0; i < bytes && in->left > 0; i++) {
        n |= (uint32_t)*in->at++ << 8 * i;
        in->left--;
    }
    return n;
}

uint8_t take_u8(struct input *in)
{
    return (uint8_t)take_number(in, 1);
}

uint16_t take_u16(struct input *in)
{
    return (uint16_t)take_number(in, 2);
}

uint32_t take_u32(struct input *in)
{
    return take_number(in, 4);
}

struct input take_part(struct input *in, size_t bytes)
{
    struct input part = {in->at, bytes < in->left ? bytes : in->left};
    in->at += part.left;
    in->left -= part.left;
    return part;
}

uint64_t near(uint64_t length, uint8_t choice)
{
    switch (choice % 8) {
    case 0: return length;
    case 1: return length == 0 ? 0 : length - 1;
    case 2: return length + 1;
    case 3: return 0;
    case 4: return length / 2;
    case 5: return length + 17;
    case 6: return choice / 8;
    default: return length + choice / 8;
    }
}

uint32_t take_count(struct input *in, uint32_t usual)
{
    uint32_t low = take_u8(in);
    switch (take_u8(in)) {
    case 255: return 0xffffff00u | low;
    case 254: return 16384 + (low & 3);
    case 253: return 16384 - (low & 3);
    case 252: return 256 - 4 + (low & 7);
    case 251: return 0;
    default: return (low & 31) == 0 ? usual : low & 31;
    }
}
