/* Word to code, of one word and of a list, and code to word as one would write them in C, with checking and without.
   For bench/codes and bench/stock; bench/instructions and bench/stack take the words to look up from it. */
#include "plain_judge.h"

enum {
    MOST_ITEMS = 1000,
    RESULT = 8 /* bytes of an item's result: u32 refusal or 0, u32 code or 0 */
};

static unsigned print_byte(const struct graph *graph, const uint8_t *voice, unsigned node)
{
    return voice[1 + 2 * graph->letters[node - 1]];
}

/* The code of the rest of a word, counted from this vertex, or -1 if it is not spelled from here. No word is spelled twice,
   so no vertex is entered twice with the same rest. */
static int32_t find(const struct graph *graph, const uint8_t *voice, unsigned vertex, const uint8_t *rest, size_t left)
{
    uint32_t before = 0;
    unsigned sink = graph->nodes + 1;

    for (unsigned k = 0; k < graph->count[vertex]; k++) {
        unsigned to = successor(graph, vertex, k);
        if (to == sink) {
            if (left == 0)
                return (int32_t)before;
        } else if (left > 0 && print_byte(graph, voice, to) == rest[0]) {
            int32_t code = find(graph, voice, to, rest + 1, left - 1);
            if (code >= 0)
                return (int32_t)before + code;
        }
        before += graph->paths[to];
    }
    return -1;
}

/* The search ends by itself for the empty word, which the root does not spell, and for words that are too long. */
static int32_t word_to_code(const struct graph *graph, const uint8_t *voice, const uint8_t *word, size_t word_len)
{
    int32_t code = find(graph, voice, 0, word, word_len);

    return code < 0 ? -13 : code;
}

static int32_t code_to_word(const struct graph *graph, const uint8_t *voice, uint32_t code, uint8_t *out, size_t out_len)
{
    uint8_t word[MOST_LETTERS];
    size_t length = 0;
    unsigned vertex = 0, sink = graph->nodes + 1;

    if (code >= graph->paths[0])
        return -15;
    for (;;) {
        unsigned k = 0, to = successor(graph, vertex, 0);
        while (code >= graph->paths[to]) {
            code -= graph->paths[to];
            to = successor(graph, vertex, ++k);
        }
        if (to == sink)
            break;
        word[length++] = (uint8_t)print_byte(graph, voice, to);
        vertex = to;
    }
    if (out_len < length)
        return -16;
    memcpy(out, word, length);
    return (int32_t)length;
}

/* How many items there are, each a length byte and that many letters, or the refusal. */
static int32_t count_items(struct reader items)
{
    int32_t count = 0;

    for (; items.at < items.end; items.at += 1 + items.at[0])
        if (count++ == MOST_ITEMS || is_short(&items, 1 + items.at[0]))
            return -19;
    return count;
}

static void put_number(uint8_t *at, uint32_t value)
{
    for (unsigned k = 0; k < 4; k++)
        at[k] = (uint8_t)(value >> 8 * k);
}

static int32_t words_to_codes(const struct graph *graph, const uint8_t *voice, struct reader items, uint8_t *out,
                              size_t out_len)
{
    int32_t count = count_items(items);

    if (count > 0 && out_len < (size_t)RESULT * (size_t)count)
        return -16;
    for (int32_t k = 0; k < count; k++) {
        int32_t code = word_to_code(graph, voice, items.at + 1, items.at[0]);
        put_number(out, code < 0 ? (uint32_t)-code : 0);
        put_number(out + 4, code < 0 ? 0 : (uint32_t)code);
        items.at += 1 + items.at[0];
        out += RESULT;
    }
    return count;
}

struct wanted {
    enum { CHECK, KEEP, CODE, CODES, WORD } what;
    const uint8_t *word;
    size_t word_len;
    struct reader items;
    uint32_t code;
    uint8_t *out;
    size_t out_len;
};

/* The lookups alone are done in a lexicon that was checked and kept. */
static struct graph kept;

/* Checking, and what is wanted beside. */
static int32_t call(struct reader voice, struct reader lexicon, const struct wanted *wanted, uint8_t *work, size_t work_len)
{
    struct graph graph;
    int32_t answer;

    if (work_len < WORK_SPACE)
        return -1;
    answer = judge(voice, lexicon, work, &graph);
    if (answer > 0 && wanted->what == CODE)
        answer = word_to_code(&graph, voice.at, wanted->word, wanted->word_len);
    else if (answer > 0 && wanted->what == CODES)
        answer = words_to_codes(&graph, voice.at, wanted->items, wanted->out, wanted->out_len);
    else if (answer > 0 && wanted->what == WORD)
        answer = code_to_word(&graph, voice.at, wanted->code, wanted->out, wanted->out_len);
    else if (answer > 0 && wanted->what == KEEP)
        kept = graph;
    memset(work, 0, WORK_SPACE);
    return answer;
}

static struct reader reader_of(const uint8_t *bytes, size_t length)
{
    struct reader reader = {bytes, bytes + length};

    return reader;
}

int32_t plain_check(const uint8_t *voice, size_t voice_len, const uint8_t *lexicon, size_t lexicon_len, uint8_t *work,
                    size_t work_len)
{
    struct wanted wanted = {.what = CHECK};

    return call(reader_of(voice, voice_len), reader_of(lexicon, lexicon_len), &wanted, work, work_len);
}

int32_t plain_word_to_code(const uint8_t *voice, size_t voice_len, const uint8_t *lexicon, size_t lexicon_len,
                           const uint8_t *word, size_t word_len, uint8_t *work, size_t work_len)
{
    struct wanted wanted = {.what = CODE, .word = word, .word_len = word_len};

    return call(reader_of(voice, voice_len), reader_of(lexicon, lexicon_len), &wanted, work, work_len);
}

int32_t plain_words_to_codes(const uint8_t *voice, size_t voice_len, const uint8_t *lexicon, size_t lexicon_len,
                             const uint8_t *items, size_t items_len, uint8_t *work, size_t work_len, uint8_t *out,
                             size_t out_len)
{
    struct wanted wanted = {.what = CODES, .items = reader_of(items, items_len), .out = out, .out_len = out_len};

    return call(reader_of(voice, voice_len), reader_of(lexicon, lexicon_len), &wanted, work, work_len);
}

int32_t plain_code_to_word(const uint8_t *voice, size_t voice_len, const uint8_t *lexicon, size_t lexicon_len, uint32_t code,
                           uint8_t *work, size_t work_len, uint8_t *out, size_t out_len)
{
    struct wanted wanted = {.what = WORD, .code = code, .out = out, .out_len = out_len};

    return call(reader_of(voice, voice_len), reader_of(lexicon, lexicon_len), &wanted, work, work_len);
}

int32_t plain_keep(const uint8_t *voice, size_t voice_len, const uint8_t *lexicon, size_t lexicon_len, uint8_t *work,
                   size_t work_len)
{
    struct wanted wanted = {.what = KEEP};

    return call(reader_of(voice, voice_len), reader_of(lexicon, lexicon_len), &wanted, work, work_len);
}

int32_t plain_find_code(const uint8_t *voice, const uint8_t *word, size_t word_len)
{
    return word_to_code(&kept, voice, word, word_len);
}

int32_t plain_find_word(const uint8_t *voice, uint32_t code, uint8_t *out, size_t out_len)
{
    return code_to_word(&kept, voice, code, out, out_len);
}
