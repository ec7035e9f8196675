/* Decoding word by word: for each word of the lexicon its own best state path, from the first frame on. It checks
   nothing and is for bench/decode only. */
#include <stddef.h>
#include <stdint.h>

enum { MOST_VERTICES = 402, MOST_LETTERS = 32, MOST_SPOTS = 4 * MOST_LETTERS, MOST_HITS = 8, MOST_STATES = 256 };

#define IMPOSSIBLE (-32768)
#define NO_SCORE INT32_MIN

struct voice {
    uint8_t states[64];
    uint16_t first[64]; /* the first state of each letter */
    int32_t loop[MOST_STATES], step[MOST_STATES];
    int32_t link[64]; /* of leaving each letter */
    unsigned symbols;
    const uint8_t *emissions;
};

struct hit {
    int32_t score;
    uint32_t code;
};

struct search {
    struct voice voice;
    unsigned nodes, n, listed;
    const uint8_t *letters; /* of node v at v - 1 */
    const uint8_t *list[MOST_VERTICES];
    const uint8_t *frames;
    size_t frames_len;
    uint8_t word[MOST_LETTERS];
    uint32_t code;
    struct hit hits[MOST_HITS];
};

static unsigned number(const uint8_t *bytes)
{
    return bytes[0] | (unsigned)bytes[1] << 8;
}

static int32_t score_at(const uint8_t *bytes)
{
    return (int16_t)number(bytes);
}

static void read_voice(struct voice *voice, const uint8_t *at)
{
    unsigned letters = *at++, sum = 0, links;

    for (unsigned k = 0; k < letters; k++, at += 2) {
        voice->first[k] = (uint16_t)sum;
        voice->states[k] = at[1];
        sum += at[1];
    }
    at += 2;
    for (unsigned s = 0; s < sum; s++, at += 4) {
        voice->loop[s] = score_at(at);
        voice->step[s] = score_at(at + 2);
    }
    links = *at++;
    for (unsigned k = 0; k < letters; k++)
        voice->link[k] = score_at(links == 1 ? at : at + 2 * k);
    at += 2 * links;
    voice->symbols = *at++;
    voice->emissions = at;
}

static int32_t sum(int32_t score, int32_t more)
{
    return score == NO_SCORE || more == IMPOSSIBLE ? NO_SCORE : score + more;
}

/* The states of the word one after the other, and the score of the move into each from the one before. */
static unsigned spots_of(const struct search *search, unsigned length, uint16_t *state, int32_t *enter)
{
    const struct voice *voice = &search->voice;
    unsigned spots = 0;
    int32_t link = NO_SCORE;

    for (unsigned k = 0; k < length; k++) {
        unsigned letter = search->word[k];
        for (unsigned s = 0; s < voice->states[letter]; s++, spots++) {
            state[spots] = (uint16_t)(voice->first[letter] + s);
            enter[spots] = s == 0 ? link : voice->step[state[spots] - 1];
        }
        link = voice->link[letter];
    }
    return spots;
}

static int32_t true_score(const struct search *search, unsigned length)
{
    const struct voice *voice = &search->voice;
    uint16_t state[MOST_SPOTS];
    int32_t enter[MOST_SPOTS], best[MOST_SPOTS];
    unsigned spots = spots_of(search, length, state, enter);

    for (unsigned k = 0; k < spots; k++)
        best[k] = NO_SCORE;
    for (size_t t = 0; t < search->frames_len; t++) {
        const uint8_t *emissions = voice->emissions + 2 * search->frames[t];
        for (unsigned k = spots; k-- > 0;) {
            int32_t stays = sum(best[k], voice->loop[state[k]]);
            int32_t enters = k > 0 ? sum(best[k - 1], enter[k]) : t == 0 ? 0 : NO_SCORE;
            int32_t better = stays > enters ? stays : enters;
            best[k] = sum(better, score_at(emissions + 2 * voice->symbols * state[k]));
        }
    }
    return best[spots - 1];
}

/* Codes rise, so of equal scores the earlier one stays ahead. */
static void list_hit(struct search *search, int32_t score)
{
    unsigned at = search->listed;

    if (at == search->n && search->hits[at - 1].score >= score)
        return;
    if (at < search->n)
        search->listed++;
    else
        at--;
    for (; at > 0 && search->hits[at - 1].score < score; at--)
        search->hits[at] = search->hits[at - 1];
    search->hits[at].score = score;
    search->hits[at].code = search->code;
}

static void walk(struct search *search, unsigned vertex, unsigned length)
{
    const uint8_t *list = search->list[vertex];

    for (unsigned k = 0; k < number(list); k++) {
        unsigned to = number(list + 2 + 2 * k);
        if (to <= search->nodes) {
            search->word[length] = search->letters[to - 1];
            walk(search, to, length + 1);
        } else {
            int32_t score = true_score(search, length);
            if (score != NO_SCORE)
                list_hit(search, score);
            search->code++;
        }
    }
}

int32_t word_by_word(const uint8_t *voice, size_t voice_len, const uint8_t *lexicon, size_t lexicon_len,
                     const uint8_t *frames, size_t frames_len, uint32_t n, uint8_t *work, size_t work_len, uint8_t *out,
                     size_t out_len)
{
    static struct search search;
    const uint8_t *at;

    (void)voice_len, (void)lexicon_len, (void)work, (void)work_len, (void)out_len;
    read_voice(&search.voice, voice);
    search.nodes = number(lexicon);
    search.letters = lexicon + 2;
    search.n = n;
    search.listed = 0;
    search.code = 0;
    search.frames = frames;
    search.frames_len = frames_len;
    at = lexicon + 2 + search.nodes;
    for (unsigned vertex = 0; vertex <= search.nodes; vertex++) {
        search.list[vertex] = at;
        at += 2 + 2 * number(at);
    }
    walk(&search, 0, 0);
    for (unsigned k = 0; k < search.listed; k++) {
        uint32_t score = (uint32_t)search.hits[k].score, code = search.hits[k].code;
        for (unsigned i = 0; i < 4; i++) {
            out[8 * k + i] = (uint8_t)(score >> 8 * i);
            out[8 * k + 4 + i] = (uint8_t)(code >> 8 * i);
        }
    }
    return (int32_t)search.listed;
}
