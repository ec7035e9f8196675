/* How much stack a call takes. A thread with a stack of its own paints all of it that lies below the call, calls, and looks
   how far down the paint is gone. */
#include "../include/wundaleth.h"

#include <pthread.h>

enum { STACK = 1 << 20, PAINT = 0xa5 };

enum which { CHECK, WORD_TO_CODE, WORDS_TO_CODES, CODE_TO_WORD, LIST, DECODE, CANONICAL };

/* A call, its answer, and the bytes of stack that it took. stack.rs has the same fields. */
struct call {
    uint32_t which;
    uint32_t code;
    const uint8_t *voice, *lexicon, *word, *items;
    size_t voice_len, lexicon_len, word_len, items_len;
    uint8_t *work, *further, *out;
    size_t work_len, further_len, out_len;
    int32_t answer;
    size_t used;
};

/* symbol 0, fifty times */
static const uint8_t frames[50];

static uint8_t stack[STACK] __attribute__((aligned(4096)));

/* Where the stack of a function begins that is called from here: the address after its return address. */
static __attribute__((noinline)) uint8_t *begin_of_call(void)
{
    return (uint8_t *)__builtin_frame_address(0) + 2 * sizeof(void *);
}

static int32_t made(const struct call *c)
{
    switch (c->which) {
    case WORD_TO_CODE:
        return wundaleth_word_to_code(c->voice, c->voice_len, c->lexicon, c->lexicon_len, c->word, c->word_len, c->work,
                                      c->work_len);
    case WORDS_TO_CODES:
        return wundaleth_words_to_codes(c->voice, c->voice_len, c->lexicon, c->lexicon_len, c->items, c->items_len,
                                        c->work, c->work_len, c->out, c->out_len);
    case CODE_TO_WORD:
        return wundaleth_code_to_word(c->voice, c->voice_len, c->lexicon, c->lexicon_len, c->code, c->work, c->work_len,
                                      c->out, c->out_len);
    case LIST:
        return wundaleth_list(c->voice, c->voice_len, c->lexicon, c->lexicon_len, c->work, c->work_len, c->out, c->out_len);
    case DECODE:
        return wundaleth_decode(c->voice, c->voice_len, c->lexicon, c->lexicon_len, frames, sizeof frames, 8, c->work,
                                c->work_len, c->out, c->out_len);
    case CANONICAL:
        return wundaleth_canonical(c->voice, c->voice_len, c->lexicon, c->lexicon_len, c->work, c->work_len, c->further,
                                   c->further_len, c->out, c->out_len);
    default:
        return wundaleth_check(c->voice, c->voice_len, c->lexicon, c->lexicon_len, c->work, c->work_len);
    }
}

static void *measure(void *argument)
{
    struct call *call = argument;
    uint8_t *begin = begin_of_call();
    volatile uint8_t *at;

    for (at = begin; at-- > stack;)
        *at = PAINT;
    call->answer = made(call);
    for (at = stack; at < begin && *at == PAINT; at++)
        ;
    call->used = (size_t)(begin - at);
    return NULL;
}

/* Makes the call. The bytes of stack have the return address and this file's own switch in them; they stay 0 if there was no
   thread to be had. */
void stack_of(struct call *call)
{
    pthread_attr_t attributes;
    pthread_t thread;

    call->used = 0;
    if (pthread_attr_init(&attributes) != 0 || pthread_attr_setstack(&attributes, stack, STACK) != 0)
        return;
    if (pthread_create(&thread, &attributes, measure, call) == 0)
        pthread_join(thread, NULL);
}
