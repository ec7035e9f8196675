/* Packing and unpacking: their arguments, and what holds of their answers. */
#ifndef FUZZ_PACKING_H
#define FUZZ_PACKING_H

#include "call.h"

static size_t packed_bits(uint32_t words)
{
    size_t bits = 0;
    while (bits < 32 && (words - 1) >> bits != 0)
        bits++;
    return bits;
}

static uint32_t draw_words(void)
{
    return once_in(6) ? edge() : once_in(4) ? 1u << below(21) : between(1, 1u << below(21));
}

static uint32_t draw_count(void)
{
    return once_in(8) ? once_in(3) ? 0 : between(9, 300) : between(1, 8);
}

static void test_pack(void)
{
    static struct bytes codes, packed;
    uint32_t words = draw_words(), count = draw_count();
    bool all_below = true;
    codes.length = 0;
    for (uint32_t k = 0; k < count; k++) {
        uint32_t code = once_in(40) ? edge() : once_in(20) ? words : below(words);
        all_below = all_below && code < words;
        put_number(&codes, code & 65535);
        put_number(&codes, code >> 16);
    }
    size_t need = (count * packed_bits(words) + 7) / 8;
    struct call call = {PACK, &codes, 0, words, 0, 0, around(need)};
    int32_t answer = twice(&call);
    int due = words == 0 || words > WUNDALETH_MOST_WORDS  ? -9
              : count < 1 || count > WUNDALETH_MOST_HITS ? -12
              : !all_below                               ? -15
              : call.out < need                          ? -16
                                                         : 0;
    must(refusal(answer) == due, "neither packed bytes nor the refusal that is due");
    if (answer < 0)
        return;
    must((size_t)answer == need, "not as many bytes as n codes take");
    memcpy(packed.at, first_written, packed.length = (size_t)answer);
    call = (struct call){UNPACK, &packed, count, words, 0, 0, 4 * count};
    must(once(&call, first_written) == (int32_t)count, "packed codes are not unpacked");
    must(memcmp(first_written, codes.at, codes.length) == 0, "unpacked codes are not those packed");
}

static void test_unpack(void)
{
    static struct bytes packed, codes;
    uint32_t words = draw_words(), n = once_in(16) ? edge() : draw_count();
    size_t bits = packed_bits(words) * (n <= 300 ? n : 8), need = (bits + 7) / 8;
    fill(packed.at, packed.length = once_in(8) ? around(need) : need);
    if (need > 0 && packed.length == need && !once_in(8))
        packed.at[need - 1] &= (uint8_t)(255u << (8 * need - bits));
    if (once_in(2))
        for (size_t k = 0; k < packed.length; k++)
            packed.at[k] &= (uint8_t)(once_in(3) ? next() : 0);
    bool fits = packed.length == need && (need == 0 || (packed.at[need - 1] & ((1u << (8 * need - bits)) - 1)) == 0);
    struct call call = {UNPACK, &packed, n, words, 0, 0, around(n <= 300 ? 4 * n : 32)};
    int32_t answer = twice(&call);
    int due = words == 0 || words > WUNDALETH_MOST_WORDS ? -9
              : n < 1 || n > WUNDALETH_MOST_HITS         ? -12
              : !fits                                    ? -14
                                                         : 0;
    must(due != 0 ? answer == due : answer == -15 || answer == (call.out < 4 * n ? -16 : (int32_t)n),
         "neither n nor the refusal that is due");
    if (answer < 0 || answer > 8)
        return;
    memcpy(codes.at, first_written, codes.length = 4 * (size_t)answer);
    for (int32_t k = 0; k < answer; k++)
        must(number(codes.at + 4 * k) < words, "an unpacked code is not below W");
    call = (struct call){PACK, &codes, 0, words, 0, 0, need};
    must(once(&call, first_written) == (int32_t)need, "unpacked codes are not packed");
    must(memcmp(first_written, packed.at, need) == 0, "codes packed again are other bytes");
}

#endif
