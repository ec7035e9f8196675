/* Which word was heard? A complete program: two images, one check, one decoding, a word's code, a refusal.
 * examples/c/run builds it. */
#include "wundaleth.h"

#include <stdio.h>

/* The images of the scope paper's small lexicon, as docs/FORMAT.md explains them. On a terminal they are files. Numbers
 * are little-endian: 255, 255 is -1. */
static const uint8_t voice[] = {
    4, 'a', 1, 'i', 1, 'n', 1, 't', 1,                                    /* L letters: print byte, number of states */
    4, 0, 255, 255, 0, 0, 255, 255, 0, 0, 255, 255, 0, 0, 255, 255, 0, 0, /* S states: loop -1, step 0 */
    1, 254, 255,                                                          /* links: one for all letters, -2 */
    4,                                                                    /* K symbols; then the emissions of */
    0, 0, 246, 255, 246, 255, 246, 255, 246, 255, 0, 0, 246, 255, 246, 255, /* a and i: 0 at the own symbol, else -10 */
    246, 255, 246, 255, 0, 0, 246, 255, 246, 255, 246, 255, 246, 255, 0, 0, /* n and t */
};
static const uint8_t lexicon[] = {
    4, 0, 0, 1, 2, 3,                         /* N nodes, and their letters by index: 1 a, 2 i, 3 n, 4 t */
    2, 0, 1, 0, 2, 0,                         /* successors of the root 0: two, 1 and 2 */
    2, 0, 3, 0, 4, 0, 3, 0, 5, 0, 3, 0, 4, 0, /* of 1: two, 3 and 4; of 2: three, 5 (the sink), 3 and 4 */
    1, 0, 5, 0, 1, 0, 5, 0,                   /* of 3: one, the sink; of 4: one, the sink */
    0, 0,                                     /* reserve */
};
enum { N = 3 };
static uint8_t work[WUNDALETH_WORK_BYTES]; /* lent to every call: may hold anything before it, is zero after it */
static uint8_t hits[N * WUNDALETH_HIT_BYTES], word[WUNDALETH_MOST_LETTERS];

int main(void)
{
    static const uint8_t heard[] = {0, 2}, noise[] = {0, 4}; /* frames; with K = 4 the symbols are 0 to 3 */
    int32_t words, count, length, answer, i;

    words = wundaleth_check(voice, sizeof voice, lexicon, sizeof lexicon, work, sizeof work);
    printf("%d words\n", (int)words);
    if (words < 0) /* a refusal, its number made negative; images that are accepted here are accepted in every call */
        return 1;
    count = wundaleth_decode(voice, sizeof voice, lexicon, sizeof lexicon, heard, sizeof heard, N, work, sizeof work,
                             hits, sizeof hits);
    for (i = 0; i < count; i++) {
        struct wundaleth_hit hit = wundaleth_hit_at(hits, (size_t)i);
        length = wundaleth_code_to_word(voice, sizeof voice, lexicon, sizeof lexicon, hit.code, work, sizeof work, word,
                                        sizeof word);
        printf("code %u score %d word %.*s\n", (unsigned)hit.code, (int)hit.score, (int)length, (const char *)word);
    }
    answer = wundaleth_word_to_code(voice, sizeof voice, lexicon, sizeof lexicon, (const uint8_t *)"an", 2, work,
                                    sizeof work);
    printf("an has code %d\n", (int)answer);
    answer = wundaleth_decode(voice, sizeof voice, lexicon, sizeof lexicon, noise, sizeof noise, N, work, sizeof work,
                              hits, sizeof hits);
    printf("a symbol not below K: %d\n", (int)answer);
    return answer == -WUNDALETH_FRAMES ? 0 : 1;
}
