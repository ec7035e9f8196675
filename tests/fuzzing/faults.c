/* Libraries with one fault each, to show that tests/fuzz finds it: the linker leads each call here (--wrap), and the
 * fault is added to what the library does. -DFAULT=k chooses it. */
#include "../../include/wundaleth.h"

#include <stdbool.h>
#include <string.h>

/* The library's own function, and the one that is called in its place, of the type that the header gives it. */
#define WRAPPED(name) extern __typeof__(wundaleth_##name) __real_wundaleth_##name, __wrap_wundaleth_##name

WRAPPED(check);
WRAPPED(word_to_code);
WRAPPED(words_to_codes);
WRAPPED(code_to_word);
WRAPPED(list);
WRAPPED(canonical);
WRAPPED(decode);
WRAPPED(pack);
WRAPPED(unpack);

int32_t __wrap_wundaleth_check(const uint8_t *voice, size_t voice_length, const uint8_t *lexicon,
                               size_t lexicon_length, uint8_t *work, size_t work_length)
{
    int32_t answer = __real_wundaleth_check(voice, voice_length, lexicon, lexicon_length, work, work_length);
    if (FAULT == 1 && answer == -10)
        work[63999] = 1;
    if (FAULT == 2 && work_length > 64000)
        work[64000] = 0;
    if (FAULT == 3 && answer > 1000)
        ((uint8_t *)lexicon)[lexicon_length - 1] = 1;
    if (FAULT == 4 && answer == -6)
        return 5;
    return answer;
}

int32_t __wrap_wundaleth_word_to_code(const uint8_t *voice, size_t voice_length, const uint8_t *lexicon,
                                      size_t lexicon_length, const uint8_t *word, size_t word_length, uint8_t *work,
                                      size_t work_length)
{
    /* the length is cut off at 8 bits */
    if (FAULT == 5)
        word_length &= 255;
    int32_t answer = __real_wundaleth_word_to_code(voice, voice_length, lexicon, lexicon_length, word, word_length,
                                                   work, work_length);
    if (FAULT == 6 && answer > 300)
        return answer ^ 1;
    /* the byte after the word is read */
    if (FAULT == 7 && answer == -13)
        (void)((const volatile uint8_t *)word)[word_length];
    return answer;
}

/* What is written for an item. */
static void put_answer(uint8_t *at, uint32_t refusal, uint32_t code)
{
    for (int k = 0; k < 4; k++) {
        at[k] = (uint8_t)(refusal >> 8 * k);
        at[4 + k] = (uint8_t)(code >> 8 * k);
    }
}

/* Makes answers wrong, item by item. */
static void spoil(const uint8_t *items, uint8_t *out, int32_t count)
{
    const uint8_t *last = items;
    bool is_stopped = false;
    for (int32_t k = 0; k < count; k++) {
        struct wundaleth_answer item = wundaleth_answer_at(out, (size_t)k), before = item;
        if (k > 0)
            before = wundaleth_answer_at(out, (size_t)k - 1);
        /* an item that is no word keeps the code of the item before */
        if (FAULT == 25 && item.refusal != 0)
            put_answer(out + 8 * k, item.refusal, before.code);
        /* a word that is not there stops the following ones */
        is_stopped = is_stopped || item.refusal != 0;
        if (FAULT == 26 && is_stopped)
            put_answer(out + 8 * k, 13, 0);
        /* the same word is not found again */
        if (FAULT == 27 && k > 0 && *last == *items && memcmp(last, items, 1u + *items) == 0)
            put_answer(out + 8 * k, 13, 0);
        /* an item of 32 letters is too long */
        if (FAULT == 28 && *items == 32)
            put_answer(out + 8 * k, 13, 0);
        last = items;
        items += 1 + *items;
    }
}

int32_t __wrap_wundaleth_words_to_codes(const uint8_t *voice, size_t voice_length, const uint8_t *lexicon,
                                        size_t lexicon_length, const uint8_t *items, size_t items_length,
                                        uint8_t *work, size_t work_length, uint8_t *out, size_t out_length)
{
    static uint8_t held[8000];
    memcpy(held, out, out_length < sizeof held ? out_length : sizeof held);
    int32_t answer = __real_wundaleth_words_to_codes(voice, voice_length, lexicon, lexicon_length, items, items_length,
                                                     work, work_length, out, out_length);
    spoil(items, out, answer);
    if (FAULT == 29 && answer == 1000) {
        memcpy(out, held, sizeof held);
        return -19;
    }
    /* the byte after the answers is written */
    if (FAULT == 30 && answer > 0 && out_length > 8 * (size_t)answer)
        out[8 * answer] = 0;
    if (FAULT == 31 && answer == -19 && out_length < 8)
        return -16;
    /* an item of more than 32 letters is refused, where it is the only one */
    if (FAULT == 32 && answer == 1 && items[0] > 32) {
        memcpy(out, held, 8);
        return -19;
    }
    return answer;
}

int32_t __wrap_wundaleth_code_to_word(const uint8_t *voice, size_t voice_length, const uint8_t *lexicon,
                                      size_t lexicon_length, uint32_t code, uint8_t *work, size_t work_length,
                                      uint8_t *out, size_t out_length)
{
    int32_t answer = __real_wundaleth_code_to_word(voice, voice_length, lexicon, lexicon_length, code, work,
                                                   work_length, out, out_length);
    /* a zero byte ends the word, and may lie behind the output */
    if (FAULT == 8 && answer > 0)
        out[answer] = 0;
    if (FAULT == 9 && answer == -15 && out_length == 0)
        return -16;
    return answer;
}

int32_t __wrap_wundaleth_list(const uint8_t *voice, size_t voice_length, const uint8_t *lexicon, size_t lexicon_length,
                              uint8_t *work, size_t work_length, uint8_t *out, size_t out_length)
{
    int32_t answer = __real_wundaleth_list(voice, voice_length, lexicon, lexicon_length, work, work_length, out,
                                           out_length);
    if (FAULT == 10 && answer == -16 && out_length > 0)
        out[0] = 0;
    return answer;
}

int32_t __wrap_wundaleth_canonical(const uint8_t *voice, size_t voice_length, const uint8_t *lexicon,
                                   size_t lexicon_length, uint8_t *work, size_t work_length, uint8_t *further,
                                   size_t further_length, uint8_t *out, size_t out_length)
{
    int32_t answer = __real_wundaleth_canonical(voice, voice_length, lexicon, lexicon_length, work, work_length,
                                                further, further_length, out, out_length);
    if (FAULT == 19 && answer == -17)
        further[262143] = 1;
    if (FAULT == 20 && answer == -1 && further_length > 0)
        further[0] = 0;
    /* a lexicon of the right length is taken as its own canonical image */
    if (FAULT == 21 && answer > 0 && lexicon_length == (size_t)answer)
        memcpy(out, lexicon, lexicon_length);
    /* the root's first two letters are swapped */
    size_t list = answer > 0 ? 2 + out[0] + 256u * out[1] : 0;
    if (FAULT == 22 && answer > 0 && out[list] > 1) {
        uint8_t first[2] = {out[list + 2], out[list + 3]};
        memcpy(out + list + 2, out + list + 4, 2);
        memcpy(out + list + 4, first, 2);
    }
    if (FAULT == 23 && (answer == -17 || answer == -18) && out_length < 20)
        return -16;
    if (FAULT == 24 && answer == -17)
        return -18;
    return answer;
}

/* The first link is taken for all letters: the voice model with that one alone. Answers its length. */
static size_t first_link(const uint8_t *voice, size_t length, uint8_t *changed)
{
    size_t states = 1 + 2 * (size_t)voice[0], links = states + 2 + 4 * (voice[states] + 256u * voice[states + 1]);
    size_t rest = links + 1 + 2 * (size_t)voice[links];
    memcpy(changed, voice, links + 3);
    changed[links] = 1;
    memcpy(changed + links + 3, voice + rest, length - rest);
    return links + 3 + length - rest;
}

/* The hit's word ends in a letter whose link is impossible. */
static bool ends_there(const uint8_t *voice, const uint8_t *word, int32_t length)
{
    size_t states = 1 + 2 * (size_t)voice[0], links = states + 2 + 4 * (voice[states] + 256u * voice[states + 1]);
    size_t letter = 0;
    while (voice[1 + 2 * letter] != word[length - 1])
        letter++;
    const uint8_t *link = voice + links + 1 + (voice[links] == 1 ? 0 : 2 * letter);
    return link[0] == 0 && link[1] == 128;
}

int32_t __wrap_wundaleth_decode(const uint8_t *voice, size_t voice_length, const uint8_t *lexicon,
                                size_t lexicon_length, const uint8_t *frames, size_t frames_length, uint32_t n,
                                uint8_t *work, size_t work_length, uint8_t *out, size_t out_length)
{
    static uint8_t changed[40 << 10];
    uint8_t word[32], held[64], old = work_length > 0 ? work[0] : 0;
    memcpy(held, out, out_length < 64 ? out_length : 64);
    int32_t answer = __real_wundaleth_decode(voice, voice_length, lexicon, lexicon_length, frames, frames_length, n,
                                             work, work_length, out, out_length);
    if (FAULT == 17 && answer > 0) {
        size_t length = first_link(voice, voice_length, changed);
        answer = __real_wundaleth_decode(changed, length, lexicon, lexicon_length, frames, frames_length, n, work,
                                         work_length, out, out_length);
    }
    /* a word is no hit if its last letter cannot be left */
    for (int32_t k = 0; FAULT == 18 && k < answer;) {
        struct wundaleth_hit hit = wundaleth_hit_at(out, (size_t)k);
        int32_t length = __real_wundaleth_code_to_word(voice, voice_length, lexicon, lexicon_length, hit.code, work,
                                                       work_length, word, 32);
        if (ends_there(voice, word, length)) {
            answer--;
            memmove(out + 8 * k, out + 8 * k + 8, 8 * (size_t)(answer - k));
            memcpy(out + 8 * answer, held + 8 * answer, 8);
        } else
            k++;
    }
    /* the hits depend on what the work space held */
    if (FAULT == 11 && answer > 0 && old < 8)
        out[0] ^= 1;
    /* the last two hits are swapped */
    for (int k = 0; FAULT == 12 && answer > 1 && k < 8; k++) {
        uint8_t *one = out + 8 * (answer - 2) + k, byte = *one;
        *one = one[8];
        one[8] = byte;
    }
    if (FAULT == 13 && frames_length == 1000 && answer >= 0)
        return -11;
    /* the byte before the output is written */
    if (FAULT == 14 && answer == 8)
        out[-1] = 0;
    return answer;
}

int32_t __wrap_wundaleth_pack(uint32_t words, const uint32_t *codes, size_t codes_length, uint8_t *out,
                              size_t out_length)
{
    int32_t answer = __real_wundaleth_pack(words, codes, codes_length, out, out_length);
    if (FAULT == 15 && answer > 0 && words == 1u << 20)
        out[answer - 1] ^= 128;
    return answer;
}

int32_t __wrap_wundaleth_unpack(uint32_t words, uint32_t n, const uint8_t *packed, size_t packed_length, uint8_t *out,
                                size_t out_length)
{
    int32_t answer = __real_wundaleth_unpack(words, n, packed, packed_length, out, out_length);
    if (FAULT == 16 && answer == -15)
        return __real_wundaleth_unpack(1u << 20, n, packed, packed_length, out, out_length);
    return answer;
}
