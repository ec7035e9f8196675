/* Do two builds hold one list? A complete program for a server that hands out lexicons: the canonical image of each,
 * and a comparison byte by byte. examples/c/run builds it. */
#include "wundaleth.h"

#include <stdio.h>
#include <string.h>

/* The letters a, i, n, t with one state each and one symbol. What the scores are does not matter here. */
static const uint8_t voice[] = {
    4, 'a', 1, 'i', 1, 'n', 1, 't', 1, 4, 0, 0, 0, 0, 0, 0, 0, 0, 0, 0, 0, 0, 0, 0, 0, 0, 0, /* letters, states */
    1, 0, 0, 1, 0, 0, 0, 0, 0, 0, 0, 0,                                                     /* links, symbols */
};
/* The words an, at, i, in, it twice; in the second build the root leads to i before a. The third lacks the word i. */
static const uint8_t builds[3][36] = {
    {4, 0, 0, 1, 2, 3, 2, 0, 1, 0, 2, 0, 2, 0, 3, 0, 4, 0, 3, 0, 5, 0, 3, 0, 4, 0, 1, 0, 5, 0, 1, 0, 5, 0, 0, 0},
    {4, 0, 0, 1, 2, 3, 2, 0, 2, 0, 1, 0, 2, 0, 3, 0, 4, 0, 3, 0, 5, 0, 3, 0, 4, 0, 1, 0, 5, 0, 1, 0, 5, 0, 0, 0},
    {4, 0, 0, 1, 2, 3, 2, 0, 1, 0, 2, 0, 2, 0, 3, 0, 4, 0, 2, 0, 3, 0, 4, 0, 1, 0, 5, 0, 1, 0, 5, 0, 0, 0},
};
static const size_t sizes[3] = {36, 36, 34};

static uint8_t work[WUNDALETH_WORK_BYTES], further[WUNDALETH_FURTHER_BYTES];
static uint8_t images[3][WUNDALETH_CANONICAL_BYTES];

int main(void)
{
    static const uint8_t an[] = {'a', 'n'};
    int32_t length[3], code, k;

    for (k = 0; k < 3; k++) {
        code = wundaleth_word_to_code(voice, sizeof voice, builds[k], sizes[k], an, sizeof an, work, sizeof work);
        length[k] = wundaleth_canonical(voice, sizeof voice, builds[k], sizes[k], work, sizeof work, further,
                                        sizeof further, images[k], sizeof images[k]);
        printf("build %d: an has code %d, canonical image of %d bytes\n", (int)k, (int)code, (int)length[k]);
        if (length[k] < 0)
            return 1;
        code = wundaleth_word_to_code(voice, sizeof voice, images[k], (size_t)length[k], an, sizeof an, work,
                                      sizeof work);
        printf("  in it, an has code %d\n", (int)code);
    }
    for (k = 1; k < 3; k++) {
        int same = length[0] == length[k] && memcmp(images[0], images[k], (size_t)length[0]) == 0;
        printf("builds 0 and %d: %s\n", (int)k, same ? "one list" : "two lists");
    }
    return 0;
}
