/* Random numbers by a fixed rule (splitmix64), so that seed and round make a round again. */
#ifndef FUZZ_RANDOM_H
#define FUZZ_RANDOM_H

#include <stdbool.h>
#include <stdint.h>
#include <string.h>

static uint64_t state;

static uint64_t next(void)
{
    uint64_t mixed = state += 0x9e3779b97f4a7c15;
    mixed = (mixed ^ mixed >> 30) * 0xbf58476d1ce4e5b9;
    mixed = (mixed ^ mixed >> 27) * 0x94d049bb133111eb;
    return mixed ^ mixed >> 31;
}

static uint32_t below(uint32_t bound)
{
    return (uint32_t)((next() >> 32) * bound >> 32);
}

static uint32_t between(uint32_t low, uint32_t high)
{
    return low + below(high - low + 1);
}

static bool once_in(uint32_t times)
{
    return below(times) == 0;
}

static void fill(uint8_t *at, size_t length)
{
    while (length > 0) {
        uint64_t random = next();
        size_t part = length < sizeof random ? length : sizeof random;
        memcpy(at, &random, part);
        at += part;
        length -= part;
    }
}

static uint32_t edge(void)
{
    static const uint32_t edges[] = {
        0, 1, 2, 3, 4, 5, 7, 8, 9, 31, 32, 33, 34, 63, 64, 65, 126, 127, 128, 255, 256, 257, 399, 400, 401, 1000, 1001,
        3999, 4000, 32767, 32768, 65535, 1048575, 1048576, 1048577, 0x7fffffff, 0x80000000, 0xffffffff,
    };
    return edges[below(sizeof edges / sizeof *edges)];
}

/* A size next to what is needed, or any. */
static size_t around(size_t need)
{
    switch (below(6)) {
    case 0:
        return need > 0 ? need - 1 : 0;
    case 1:
        return need + 1;
    case 2:
        return below((uint32_t)need + 1);
    case 3:
        return need + below(40);
    default:
        return need;
    }
}

#endif
