/* The nine functions, and what a run counts and finds. */
#ifndef FUZZ_FINDINGS_H
#define FUZZ_FINDINGS_H

#include <signal.h>
#include <stdbool.h>
#include <stdint.h>
#include <stdio.h>
#include <unistd.h>

enum function { CHECK, WORD_TO_CODE, WORDS_TO_CODES, CODE_TO_WORD, LIST, CANONICAL, DECODE, PACK, UNPACK, FUNCTIONS };

#define UP_TO_10 0x7fe
#define BIT(k) (1 << (k))

/* Which refusals a function can give, how many bytes it writes for each one that it answers, whether it is given images
 * and a work space, and whether a further one too. */
static const struct {
    const char *name;
    unsigned refusals, unit;
    bool has_images, has_further;
} functions[FUNCTIONS] = {
    {"check", UP_TO_10, 0, true, false},
    {"word to code", UP_TO_10 | BIT(13), 0, true, false},
    {"words to codes", UP_TO_10 | BIT(16) | BIT(19), 8, true, false},
    {"code to word", UP_TO_10 | BIT(15) | BIT(16), 1, true, false},
    {"list", UP_TO_10 | BIT(16), 1, true, false},
    {"canonical", UP_TO_10 | BIT(16) | BIT(17) | BIT(18), 1, true, true},
    {"decode", UP_TO_10 | BIT(11) | BIT(12) | BIT(16), 8, true, false},
    {"pack", BIT(9) | BIT(12) | BIT(15) | BIT(16), 1, false, false},
    {"unpack", BIT(9) | BIT(12) | BIT(14) | BIT(15) | BIT(16), 4, false, false},
};

enum { HIGHEST_SCORE = 65501233, NODES = 400, REFUSALS = 19 };
enum { IMAGE = 40 << 10, OUTPUT = 700 << 10, LISTED = 3000 };

/* So many findings are printed, and end the run. */
enum { SHOWN = 20 };

static unsigned long long counts[FUNCTIONS][REFUSALS + 1], findings;

/* Accepted voice models by their links: of one letter, where both forms are the same; else with one link, and with one
 * for each letter. Hits that were held to the sum of their links, canonical images that were read back, and items that
 * were looked up, with those that are words. */
static unsigned long long one_letter, one_link, link_for_each, added_up, read_back, looked_up_items, words_of_items;
static unsigned long long seed, first_round, round_now;
static enum function called;

static void found(const char *what)
{
    if (++findings <= SHOWN)
        printf("FOUND in %s: %s (again: tests/fuzz plain 0 %llu %llu)\n", functions[called].name, what, seed,
               round_now);
}

static void must(bool is_true, const char *what)
{
    if (!is_true)
        found(what);
}

static void print_counts(void)
{
    printf("rounds %llu\n%-15s%12s%12s", round_now - first_round, "", "calls", "answered");
    for (int k = 1; k <= REFUSALS; k++)
        printf("%9d", -k);
    for (int f = 0; f < FUNCTIONS; f++) {
        unsigned long long calls = 0;
        for (int k = 0; k <= REFUSALS; k++)
            calls += counts[f][k];
        printf("\n%-15s%12llu%12llu", functions[f].name, calls, counts[f][0]);
        for (int k = 1; k <= REFUSALS; k++)
            if (functions[f].refusals & BIT(k))
                printf("%9llu", counts[f][k]);
            else
                printf("%9s", "");
    }
    printf("\naccepted voice models: %llu with one letter; with more, ", one_letter);
    printf("%llu with one link and %llu with a link for each\n", one_link, link_for_each);
    printf("hits held to the sum of their links: %llu\ncanonical images read back: %llu\n", added_up, read_back);
    printf("items looked up: %llu, of them words: %llu\nfindings %llu\n", looked_up_items, words_of_items, findings);
    fflush(stdout);
}

static void stopped(int which)
{
    found(which == SIGALRM ? "the call does not end"
                           : "a byte outside the buffers was touched, or the call stopped the program");
    print_counts();
    _exit(1);
}

#endif
