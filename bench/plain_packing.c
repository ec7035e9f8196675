/* Packing and unpacking as one would write them in C: the same answers, the same output bytes, nothing proved. For
   bench/packing only. */
#include <stddef.h>
#include <stdint.h>

enum {
    MOST_WORDS = 1048576,
    MOST_CODES = 8
};

/* The bits of a code: none if there is one word, else as many as the highest code has in binary. */
static unsigned width(uint32_t words)
{
    return words == 1 ? 0 : 32 - (unsigned)__builtin_clz(words - 1);
}

int32_t plain_pack(uint32_t words, const uint32_t *codes, size_t n, uint8_t *out, size_t out_len)
{
    uint32_t line = 0; /* the last `held` bits are not written yet: at most 7 before a code and 27 with it */
    unsigned bits, held = 0;
    size_t size, at = 0;

    if (words < 1 || words > MOST_WORDS)
        return -9;
    if (n < 1 || n > MOST_CODES)
        return -12;
    for (size_t i = 0; i < n; i++)
        if (codes[i] >= words)
            return -15;
    bits = width(words);
    size = (n * bits + 7) / 8;
    if (out_len < size)
        return -16;
    for (size_t i = 0; i < n; i++) {
        line = line << bits | codes[i];
        held += bits;
        while (held >= 8) {
            held -= 8;
            out[at++] = (uint8_t)(line >> held);
        }
    }
    if (held > 0)
        out[at] = (uint8_t)(line << (8 - held));
    return (int32_t)size;
}

/* Of these four the compiler makes one; a loop it would leave as it is. */
static void put_number(uint8_t *at, uint32_t value)
{
    at[0] = (uint8_t)value;
    at[1] = (uint8_t)(value >> 8);
    at[2] = (uint8_t)(value >> 16);
    at[3] = (uint8_t)(value >> 24);
}

int32_t plain_unpack(uint32_t words, uint32_t n, const uint8_t *packed, size_t packed_len, uint8_t *out, size_t out_len)
{
    uint32_t codes[MOST_CODES]; /* a refusal leaves the output as it was, so codes are written when all are known */
    uint32_t line = 0, mask;    /* the last `held` bits are not taken yet: at most 27 */
    unsigned bits, held = 0;
    size_t at = 0;

    if (words < 1 || words > MOST_WORDS)
        return -9;
    if (n < 1 || n > MOST_CODES)
        return -12;
    bits = width(words);
    if (packed_len != (n * bits + 7) / 8)
        return -14;
    mask = ((uint32_t)1 << bits) - 1;
    for (uint32_t i = 0; i < n; i++) {
        while (held < bits) {
            line = line << 8 | packed[at++];
            held += 8;
        }
        held -= bits;
        codes[i] = line >> held & mask;
    }
    if (line & (((uint32_t)1 << held) - 1))
        return -14;
    for (uint32_t i = 0; i < n; i++)
        if (codes[i] >= words)
            return -15;
    if (out_len < 4 * (size_t)n)
        return -16;
    for (uint32_t i = 0; i < n; i++)
        put_number(out + 4 * i, codes[i]);
    return (int32_t)n;
}
