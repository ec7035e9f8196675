/* Buffers that are lent to a call, just as long as it is told. */
#ifndef FUZZ_BUFFERS_H
#define FUZZ_BUFFERS_H

#include "findings.h"
#include "random.h"

#include <stdlib.h>
#include <sys/mman.h>

enum role { VOICE, LEXICON, GIVEN, WORK, FURTHER, OUT, ROLES };
enum { PAINTED = 64, PAINT = 0xa5 };

/* Bytes between two pages that may not be touched. */
static struct {
    uint8_t *low;
    size_t size;
} arenas[ROLES];

/* A lent buffer, what it held, and where it comes from. */
struct lent {
    enum role role;
    uint8_t *at, *held;
    size_t length;
    bool is_heap;
};

static uint8_t held_work[72 << 10], held_further[272 << 10], held_out[OUTPUT];

static void reserve(void)
{
    static const size_t least[ROLES] = {IMAGE, IMAGE, IMAGE + PAINTED, sizeof held_work, sizeof held_further, OUTPUT};
    size_t page = (size_t)sysconf(_SC_PAGESIZE);
    for (int role = 0; role < ROLES; role++) {
        size_t size = (least[role] + page - 1) / page * page;
        uint8_t *all = mmap(NULL, size + 2 * page, PROT_NONE, MAP_PRIVATE | MAP_ANONYMOUS, -1, 0);
        if (all == MAP_FAILED || mprotect(all + page, size, PROT_READ | PROT_WRITE) != 0)
            exit(2);
        arenas[role].low = all + page;
        arenas[role].size = size;
    }
}

/* Where the arena's unused bytes next to the buffer begin; they are painted. */
static uint8_t *beside(const struct lent *lent)
{
    return lent->at == arenas[lent->role].low ? lent->at + lent->length : lent->at - PAINTED;
}

static struct lent lend(enum role role, uint8_t *held, size_t length)
{
    struct lent lent = {role, NULL, held, length, once_in(4)};
    if (lent.is_heap)
        lent.at = malloc(length);
    else
        lent.at = arenas[role].low + (once_in(3) ? 0 : arenas[role].size - length);
    if (lent.at == NULL)
        exit(2);
    if (length > 0)
        memcpy(lent.at, held, length);
    if (!lent.is_heap)
        memset(beside(&lent), PAINT, PAINTED);
    return lent;
}

/* True if the lent bytes from this one on are as they were. */
static bool kept(const struct lent *lent, size_t from)
{
    return lent->length <= from || memcmp(lent->at + from, lent->held + from, lent->length - from) == 0;
}

static void give_back(const struct lent *lent)
{
    if (lent->is_heap) {
        free(lent->at);
        return;
    }
    for (int k = 0; k < PAINTED; k++)
        if (beside(lent)[k] != PAINT) {
            found("a byte beside a buffer was written");
            return;
        }
}

#endif
