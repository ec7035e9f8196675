/* The calls that are given images: their arguments, and what holds of their answers. */
#ifndef FUZZ_WITH_IMAGES_H
#define FUZZ_WITH_IMAGES_H

#include "graph.h"
#include "images.h"

static size_t work_bytes(void)
{
    static const uint32_t sizes[] = {0, 1, 63999, 64001, 64008, 70000};
    if (!once_in(8))
        return WUNDALETH_WORK_BYTES;
    return once_in(4) ? below(70001) : sizes[below(6)];
}

static size_t further_bytes(void)
{
    static const uint32_t sizes[] = {0, 1, 64000, 262143, 262145, 262152, 270000};
    if (!once_in(8))
        return WUNDALETH_FURTHER_BYTES;
    return once_in(4) ? below(270001) : sizes[below(7)];
}

static struct call with_images(enum function which, struct bytes *given, uint32_t number, size_t out)
{
    size_t further = functions[which].has_further ? WUNDALETH_FURTHER_BYTES : 0;
    struct call call = {which, given, number, 0, WUNDALETH_WORK_BYTES, further, out};
    return call;
}

/* The word of a code that is below W, and back. */
static int32_t spelled(uint32_t code, struct bytes *word)
{
    struct call call = with_images(CODE_TO_WORD, NULL, code, WUNDALETH_MOST_LETTERS);
    int32_t length = once(&call, word->at);
    must(length >= 1 && length <= WUNDALETH_MOST_LETTERS, "a code below W has no word of 1 to 32 letters");
    word->length = length > 0 && length <= WUNDALETH_MOST_LETTERS ? (size_t)length : 0;
    call = with_images(WORD_TO_CODE, word, 0, 0);
    must(once(&call, NULL) == (int32_t)code, "the word of a code has another code");
    return length;
}

/* The listing of this round's images, if they are accepted and not too many words for it; else of length 0. */
static uint8_t listing[OUTPUT];
static size_t listing_length;

static void test_check(void)
{
    struct call call = with_images(CHECK, NULL, 0, 0);
    verdict = twice(&call);
    must(verdict != 0 && verdict <= WUNDALETH_MOST_WORDS, "W is out of its range");
    must(!voice_is_whole || (verdict != -2 && verdict != -3), "a voice model is refused as it was drawn");
    if (verdict > 0) {
        uint32_t letters = voice.at[0], links = voice.at[links_at()];
        must(links == 1 || links == letters, "a number of links is accepted that is neither 1 nor L");
        *(letters == 1 ? &one_letter : links == 1 ? &one_link : &link_for_each) += 1;
    }
    call.work = work_bytes();
    int32_t answer = once(&call, NULL);
    must(answer == -1 || answer == verdict, "W or the refusal depends on the work space");
}

static void test_lines(void)
{
    static struct bytes word;
    uint32_t code = 0, chosen = below((uint32_t)verdict);
    for (size_t from = 0; from < listing_length; code++) {
        size_t end = from;
        while (end < listing_length && listing[end] != 10)
            end++;
        must(end < listing_length && end > from && end - from <= WUNDALETH_MOST_LETTERS,
             "a line of the listing is no word");
        if (code == chosen) {
            size_t length = (size_t)spelled(code, &word);
            called = LIST;
            must(length == end - from && memcmp(word.at, listing + from, length) == 0,
                 "a line of the listing is not its code's word");
        }
        from = end + 1;
    }
    must(code == (uint32_t)verdict, "the listing has not W lines");
}

static void test_list(void)
{
    struct call call = with_images(LIST, NULL, 0, below(200));
    listing_length = 0;
    if (verdict > 0 && verdict <= LISTED) {
        call.out = 33 * (size_t)verdict;
        int32_t answer = twice(&call);
        must(answer > 0, "no listing in 33 x W bytes");
        if (answer <= 0)
            return;
        memcpy(listing, first_written, listing_length = (size_t)answer);
        test_lines();
        call.out = around(listing_length);
    }
    call.work = work_bytes();
    int32_t answer = once(&call, first_written);
    if (listing_length > 0 && answer != -1) {
        must(answer == (call.out < listing_length ? -16 : (int32_t)listing_length),
             "16 does not fit the listing's length");
        if (answer > 0)
            must(memcmp(first_written, listing, listing_length) == 0, "the listing depends on the output's size");
    }
}

/* The code of a word by the listing, or -13. */
static int32_t looked_up(const struct bytes *word)
{
    int32_t code = 0;
    for (size_t from = 0; from < listing_length; code++) {
        const uint8_t *end = memchr(listing + from, 10, listing_length - from);
        size_t length = end == NULL ? 0 : (size_t)(end - listing) - from;
        if (length == word->length && memcmp(listing + from, word->at, length) == 0)
            return code;
        from += length + 1;
    }
    return -13;
}

static void draw_word(struct bytes *word)
{
    word->length = 0;
    if (verdict > 0 && !once_in(4))
        spelled(below((uint32_t)verdict), word);
    else
        fill(word->at, word->length = once_in(4) ? below(600) : below(36));
    if (once_in(2))
        return;
    if (once_in(8)) {
        /* a length that is the word's if it is cut off at 8 bits */
        fill(word->at + word->length, 256);
        word->length += 256;
    } else if (once_in(2) && word->length > 0)
        word->at[below((uint32_t)word->length)] =
            once_in(3) ? (uint8_t)next() : voice.at[1 + 2 * below(voice.length > 8 ? 4 : 1)];
    else if (once_in(2) && word->length > 0)
        word->length--;
    else
        put(word, once_in(4) ? 10 : between(33, 126));
}

static void test_word_to_code(void)
{
    static struct bytes word, back;
    draw_word(&word);
    struct call call = with_images(WORD_TO_CODE, &word, 0, 0);
    call.work = work_bytes();
    int32_t answer = twice(&call);
    if (verdict < 0 || answer == -1)
        return;
    must(answer == -13 || (answer >= 0 && answer < verdict), "a code not below W");
    read_graph();
    must(answer == code_by_graph(word.at, word.length), "the code is not that of the word's path");
    if (listing_length > 0)
        must(answer == looked_up(&word), "the code is not the word's line in the listing");
    if (answer >= 0) {
        spelled((uint32_t)answer, &back);
        must(back.length == word.length && memcmp(back.at, word.at, word.length) == 0,
             "the code of a word has another word");
    }
}

static void test_code_to_word(void)
{
    static struct bytes word;
    uint32_t code = edge();
    word.length = 32;
    if (verdict > 0 && !once_in(4))
        code = (uint32_t)around((size_t)verdict);
    bool is_code = verdict > 0 && code < (uint32_t)verdict;
    if (is_code)
        spelled(code, &word);
    struct call call = with_images(CODE_TO_WORD, NULL, code, around(word.length));
    call.work = work_bytes();
    int32_t answer = twice(&call);
    if (verdict < 0 || answer == -1)
        return;
    int32_t due = !is_code ? -15 : call.out < word.length ? -16 : (int32_t)word.length;
    must(answer == due, "neither the word nor the refusal that is due");
    if (answer > 0)
        must(memcmp(first_written, word.at, word.length) == 0, "the word depends on the output's size");
}

/* K of an accepted voice model. */
static uint32_t symbols(void)
{
    return voice.at[symbols_at()];
}

static void draw_frames(struct bytes *frames)
{
    uint32_t bound = verdict > 0 ? symbols() : 4;
    frames->length = once_in(12) ? below(3) * 999 + below(3) : between(1, 24);
    if (frames->length > 900 && lexicon.length > 400 && !once_in(8))
        frames->length = 40;
    for (size_t k = 0; k < frames->length; k++)
        frames->at[k] = (uint8_t)below(bound);
    if (once_in(8) && frames->length > 0)
        frames->at[below((uint32_t)frames->length)] = (uint8_t)(once_in(2) ? bound : next());
}

/* The refusal that is due for accepted images, or 0. */
static int due_in_decoding(const struct call *call)
{
    uint32_t bound = symbols();
    if (call->given->length == 0 || call->given->length > WUNDALETH_MOST_FRAMES)
        return -11;
    for (size_t k = 0; k < call->given->length; k++)
        if (call->given->at[k] >= bound)
            return -11;
    if (call->number < 1 || call->number > WUNDALETH_MOST_HITS)
        return -12;
    return call->out < WUNDALETH_HIT_BYTES * (size_t)call->number ? -16 : 0;
}

static void test_hits(const uint8_t *hits, int32_t count)
{
    static struct bytes word;
    for (int32_t k = 0; k < count; k++) {
        struct wundaleth_hit hit = wundaleth_hit_at(hits, (size_t)k);
        must(hit.score >= -HIGHEST_SCORE && hit.score <= HIGHEST_SCORE, "a score out of its range");
        must(hit.code < (uint32_t)verdict, "a hit's code is not below W");
        if (hit.code < (uint32_t)verdict)
            spelled(hit.code, &word);
        called = DECODE;
        for (int32_t i = 0; i < k; i++) {
            struct wundaleth_hit before = wundaleth_hit_at(hits, (size_t)i);
            must(before.score > hit.score || (before.score == hit.score && before.code < hit.code),
                 "hits are not by falling score and rising code");
            must(before.code != hit.code, "a word is listed twice");
        }
    }
}

/* Adds up the links of a word's letters, all but the last. False if one of them is impossible. */
static bool add_links(const struct bytes *word, int32_t *sum)
{
    size_t links = links_at();
    *sum = 0;
    for (size_t k = 0; k + 1 < word->length; k++) {
        size_t letter = 0;
        while (letter < voice.at[0] && voice.at[1 + 2 * letter] != word->at[k])
            letter++;
        const uint8_t *at = voice.at + links + 1 + (voice.at[links] == 1 ? 0 : 2 * letter);
        int32_t link = at[0] + 256 * at[1] - (at[1] < 128 ? 0 : 65536);
        if (link == -32768)
            return false;
        *sum += link;
    }
    return true;
}

/* Every state path of a word leaves each of its letters but the last once. So a word's score is what it is if all links
 * are 0, and its links beside. Both lists are for n = 8; the one without links has them in the other form. */
static void test_links(struct bytes *frames, const uint8_t *hits, int32_t count)
{
    static struct bytes kept, word;
    static uint8_t without[64];
    struct call call = with_images(DECODE, frames, 8, 64);
    kept = voice;
    uint32_t links = voice.at[links_at()] == 1 ? voice.at[0] : 1;
    put_links(links, links, false);
    int32_t all = once(&call, without), listed = 0;
    voice = kept;
    for (int32_t k = 0; k < all; k++) {
        struct wundaleth_hit plain = wundaleth_hit_at(without, (size_t)k);
        int32_t sum;
        spelled(plain.code, &word);
        called = DECODE;
        bool possible = add_links(&word, &sum), is_listed = false;
        for (int32_t i = 0; i < count; i++) {
            struct wundaleth_hit hit = wundaleth_hit_at(hits, (size_t)i);
            if (hit.code != plain.code)
                continue;
            is_listed = true;
            listed++;
            must(possible, "a hit leaves a letter that cannot be left");
            must(!possible || hit.score == plain.score + sum, "a score is not the sum of its links and the rest");
        }
        must(is_listed || !possible || verdict > 8, "a word is missing that has its links and the rest");
    }
    must(listed == count || verdict > 8, "a word is listed that has no score without its links");
    added_up += (unsigned)listed;
}

static void test_decode(void)
{
    static struct bytes frames;
    static uint8_t hits[64];
    draw_frames(&frames);
    uint32_t n = once_in(8) ? edge() : between(1, 8);
    struct call call = with_images(DECODE, &frames, n, around(n <= 9 ? 8 * n : 64));
    call.work = work_bytes();
    int32_t answer = twice(&call);
    if (verdict < 0 || answer == -1)
        return;
    must(refusal(answer) == due_in_decoding(&call), "neither hits nor the refusal that is due");
    if (answer < 0 || answer > (int32_t)n) {
        must(answer < 0, "more than n hits");
        return;
    }
    memcpy(hits, first_written, 8 * (size_t)answer);
    test_hits(hits, answer);
    /* the list for n is the beginning of the list for 8 */
    call = with_images(DECODE, &frames, 8, 64);
    int32_t all = once(&call, first_written);
    must(all >= answer && (answer == (int32_t)n || all == answer), "n = 8 has not the hits that a smaller n has");
    must(memcmp(hits, first_written, 8 * (size_t)answer) == 0, "n = 8 has other hits than a smaller n");
    if (all >= 0 && all <= 8) {
        memcpy(hits, first_written, 8 * (size_t)all);
        test_links(&frames, hits, all);
    }
}

#endif
