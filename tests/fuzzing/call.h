/* One call, and what holds of every call. */
#ifndef FUZZ_CALL_H
#define FUZZ_CALL_H

#include "../../include/wundaleth.h"
#include "buffers.h"

struct bytes {
    size_t length;
    uint8_t at[IMAGE];
};

static void put(struct bytes *bytes, uint32_t value)
{
    if (bytes->length < IMAGE)
        bytes->at[bytes->length++] = (uint8_t)value;
}

static void put_number(struct bytes *bytes, uint32_t value)
{
    put(bytes, value & 255);
    put(bytes, value >> 8);
}

/* `given` is the word, the items, the frames, the codes or the packed bytes; `number` the code or n; `words` the W of
 * packing; `work`, `further` and `out` are how long these buffers are. */
struct call {
    enum function which;
    struct bytes *given;
    uint32_t number, words;
    size_t work, further, out;
};

static struct bytes voice, lexicon;

/* What wundaleth_check answers for the two images of this round: W or a refusal. */
static int32_t verdict;

/* Four bytes of an output, the lowest first. */
static uint32_t number(const uint8_t *at)
{
    return at[0] | (uint32_t)at[1] << 8 | (uint32_t)at[2] << 16 | (uint32_t)at[3] << 24;
}

static int32_t made(const struct call *call, const struct lent *lent)
{
    const uint8_t *v = lent[VOICE].at, *l = lent[LEXICON].at, *given = lent[GIVEN].at;
    size_t v_length = lent[VOICE].length, l_length = lent[LEXICON].length, given_length = lent[GIVEN].length;
    uint8_t *work = lent[WORK].at, *further = lent[FURTHER].at, *out = lent[OUT].at;
    switch (call->which) {
    case CHECK:
        return wundaleth_check(v, v_length, l, l_length, work, call->work);
    case WORD_TO_CODE:
        return wundaleth_word_to_code(v, v_length, l, l_length, given, given_length, work, call->work);
    case WORDS_TO_CODES:
        return wundaleth_words_to_codes(v, v_length, l, l_length, given, given_length, work, call->work, out,
                                        call->out);
    case CODE_TO_WORD:
        return wundaleth_code_to_word(v, v_length, l, l_length, call->number, work, call->work, out, call->out);
    case LIST:
        return wundaleth_list(v, v_length, l, l_length, work, call->work, out, call->out);
    case CANONICAL:
        return wundaleth_canonical(v, v_length, l, l_length, work, call->work, further, call->further, out, call->out);
    case DECODE:
        return wundaleth_decode(v, v_length, l, l_length, given, given_length, call->number, work, call->work, out,
                                call->out);
    case PACK:
        return wundaleth_pack(call->words, (const uint32_t *)(const void *)given, given_length / 4, out, call->out);
    default:
        return wundaleth_unpack(call->words, call->number, given, given_length, out, call->out);
    }
}

static bool is_zero(const uint8_t *at, size_t length)
{
    return at[0] == 0 && memcmp(at, at + 1, length - 1) == 0;
}

/* What holds of the work space and of the further one, of which a call needs so many bytes. */
static void test_space(const struct lent *space, size_t need, int32_t answer)
{
    if (answer == -1)
        must(kept(space, 0), "refusal 1 changed a work space");
    else if (space->length >= need) {
        must(is_zero(space->at, need), "a work space is not zero");
        must(kept(space, need), "work bytes after those that the call needs changed");
    }
}

static void test_work(const struct call *call, const struct lent *lent, int32_t answer)
{
    bool has_further = functions[called].has_further, is_short = call->work < WUNDALETH_WORK_BYTES;
    is_short = is_short || (has_further && call->further < WUNDALETH_FURTHER_BYTES);
    must((answer == -1) == is_short, "refusal 1 does not fit the work spaces");
    test_space(&lent[WORK], WUNDALETH_WORK_BYTES, answer);
    if (has_further)
        test_space(&lent[FURTHER], WUNDALETH_FURTHER_BYTES, answer);
    if (call->which != CHECK && answer != -1)
        must(verdict < 0 ? answer == verdict : answer >= 0 || answer < -10, "the images' verdict is not that of check");
}

/* Makes a call with buffers full of old bytes, and tests it. The bytes written are put into `written`, if there is
 * one. */
static int32_t once(const struct call *call, uint8_t *written)
{
    static struct bytes nothing;
    struct lent lent[ROLES];
    size_t length = 0;
    fill(held_work, call->work);
    fill(held_further, call->further);
    fill(held_out, call->out);
    lent[VOICE] = lend(VOICE, voice.at, voice.length);
    lent[LEXICON] = lend(LEXICON, lexicon.at, lexicon.length);
    struct bytes *given = call->given != NULL ? call->given : &nothing;
    lent[GIVEN] = lend(GIVEN, given->at, given->length);
    lent[WORK] = lend(WORK, held_work, call->work);
    lent[FURTHER] = lend(FURTHER, held_further, call->further);
    lent[OUT] = lend(OUT, held_out, call->out);

    called = call->which;
    int32_t answer = made(call, lent);

    if (answer >= 0) {
        counts[called][0]++;
        length = functions[called].unit * (size_t)answer;
        must(length <= call->out, "more bytes are answered than the output has");
        length = length <= call->out ? length : 0;
    } else if (answer < -REFUSALS || !(functions[called].refusals & BIT(-answer)))
        found("a refusal that this call cannot give");
    else
        counts[called][-answer]++;
    must(kept(&lent[OUT], length), answer < 0 ? "a refusal changed the output" : "bytes after those written changed");
    must(kept(&lent[VOICE], 0) && kept(&lent[LEXICON], 0) && kept(&lent[GIVEN], 0), "an input changed");
    if (functions[called].has_images)
        test_work(call, lent, answer);
    if (written != NULL && length > 0)
        memcpy(written, lent[OUT].at, length);
    for (int role = 0; role < ROLES; role++)
        give_back(&lent[role]);
    return answer;
}

static uint8_t first_written[OUTPUT], second_written[OUTPUT];

/* Makes a call twice, with other old bytes and at other addresses: the answers are equal. The bytes are in
 * first_written. */
static int32_t twice(const struct call *call)
{
    int32_t answer = once(call, first_written);
    must(once(call, second_written) == answer, "two equal calls answered differently");
    if (answer > 0)
        must(memcmp(first_written, second_written, functions[called].unit * (size_t)answer) == 0,
             "two equal calls wrote different bytes");
    return answer;
}

/* The number of a refusal made negative, or 0. */
static int refusal(int32_t answer)
{
    return answer < 0 ? answer : 0;
}

#endif
