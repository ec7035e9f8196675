/* Which codes has a stock list? A complete program for a host: the whole list in one call, with a word that is not
 * there, and how a refusal comes. examples/c/run builds it. */
#include "wundaleth.h"

#include <stdio.h>
#include <string.h>

/* The letters a, i, n, t with one state each and one symbol. What the scores are does not matter here. */
static const uint8_t voice[] = {
    4, 'a', 1, 'i', 1, 'n', 1, 't', 1, 4, 0, 0, 0, 0, 0, 0, 0, 0, 0, 0, 0, 0, 0, 0, 0, 0, 0, /* letters, states */
    1, 0, 0, 1, 0, 0, 0, 0, 0, 0, 0, 0,                                                     /* links, symbols */
};
/* The words an, at, i, in, it, as docs/FORMAT.md explains them. */
static const uint8_t lexicon[] = {
    4, 0, 0, 1, 2, 3, 2, 0, 1, 0, 2, 0, 2, 0, 3, 0, 4, 0, 3, 0, 5, 0, 3, 0, 4, 0, 1, 0, 5, 0, 1, 0, 5, 0, 0, 0,
};
static const char *const stock[] = {"it", "nut", "an", "i"};
enum { ITEMS = sizeof stock / sizeof *stock };

static uint8_t work[WUNDALETH_WORK_BYTES];
static uint8_t items[ITEMS * (1 + WUNDALETH_MOST_LETTERS)], answers[ITEMS * WUNDALETH_ANSWER_BYTES];

int main(void)
{
    size_t length = 0, i;
    int32_t count;

    for (i = 0; i < ITEMS; i++) { /* a length byte, and the word's print bytes */
        size_t letters = strlen(stock[i]);
        items[length] = (uint8_t)letters;
        memcpy(items + length + 1, stock[i], letters);
        length += 1 + letters;
    }
    count = wundaleth_words_to_codes(voice, sizeof voice, lexicon, sizeof lexicon, items, length, work, sizeof work,
                                     answers, sizeof answers);
    if (count < 0) { /* a refusal of the whole list, its number made negative */
        printf("refused: %d\n", (int)count);
        return 1;
    }
    printf("%d items\n", (int)count);
    for (i = 0; i < (size_t)count; i++) {
        struct wundaleth_answer answer = wundaleth_answer_at(answers, i);
        if (answer.refusal == 0)
            printf("%s has code %u\n", stock[i], (unsigned)answer.code);
        else /* of this item alone, and never another number than WUNDALETH_NO_WORD */
            printf("%s: refusal %u\n", stock[i], (unsigned)answer.refusal);
    }
    count = wundaleth_words_to_codes(voice, sizeof voice, lexicon, sizeof lexicon, items, length - 1, work, sizeof work,
                                     answers, sizeof answers);
    printf("an item that runs past the end: %d\n", (int)count);
    return count == -WUNDALETH_ITEMS ? 0 : 1;
}
