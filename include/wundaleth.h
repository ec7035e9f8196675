/* Wundaleth: a word decoder for voice terminals, for C (C99 and later) and C++. Link libwundaleth.a beside it.
 *
 * Arguments. Bytes, and codes to pack, are passed as a pointer and their number. A pointer is never null, not even
 * where the number is 0. The buffers of one call do not overlap. Nothing is written but the work spaces and the
 * output.
 *
 * Images. docs/FORMAT.md has the voice model and the lexicon byte by byte, and which refusal each rule of theirs
 * gives. Every call with a lexicon checks both images anew; none has to be checked before. A voice model has one link
 * score for all letters, or since 1.1 one for each letter, which counts where that letter is left.
 *
 * Answers. A call answers a value, 0 or above, or a refusal's number made negative: -WUNDALETH_LEXICON_LENGTH is -4,
 * so compare with the constant made negative. Of the refusals that apply the first is answered, in the order in which
 * the call's comment names them; since 1.2 that is not always the lowest number (wundaleth_canonical tests 17 and 18
 * before 16, and wundaleth_words_to_codes, since 1.3, 19 before 16). Within one image the fields are read in order, so
 * that 2 and 3, and 4 and 5, follow the first bad field.
 *
 * Work space. Every call with a lexicon is lent at least WUNDALETH_WORK_BYTES bytes, and wundaleth_canonical a further
 * WUNDALETH_FURTHER_BYTES; they may hold anything. Refusal 1 leaves all buffers as they were. After every other call
 * that is lent a work space, refused or not, its first 64,000 bytes are zero and later ones unchanged; of a further
 * work space the first 262,144.
 *
 * Side by side. Calls keep no state: all that a call knows is in its arguments. Any number of calls may run at the
 * same time, each with work spaces and an output of its own; images, frames, words, items and codes are only read and
 * may be shared.
 *
 * What it needs. The library is compiled for x86-64 Linux. Of the C library it needs memcpy and memset, and nothing
 * else: no heap, no files, no locale. A call takes less than 16 KiB of stack, some 15.7 KB at most (decoding, listing
 * and wundaleth_canonical), as bench/stack measures it.
 *
 * Codes belong to one lexicon image: two builds of one list may give a word two codes. Send a code only with the
 * image that it was made from. Canonical images (wundaleth_canonical) are equal byte by byte exactly if they hold the
 * same words, under one voice model, so that two sides that hold equal canonical images have the same codes.
 */
#ifndef WUNDALETH_H
#define WUNDALETH_H

#include <stddef.h>
#include <stdint.h>

#ifdef __cplusplus
extern "C" {
#endif

/* The version of this interface. */
#define WUNDALETH_VERSION_MAJOR 1
#define WUNDALETH_VERSION_MINOR 3
#define WUNDALETH_VERSION_PATCH 0

/* Sizes. */
#define WUNDALETH_WORK_BYTES 64000   /* the work space that a call with a lexicon needs */
#define WUNDALETH_FURTHER_BYTES 262144 /* the further work space that wundaleth_canonical needs */
#define WUNDALETH_CANONICAL_BYTES 6006 /* of a canonical image, at most: room for any */
#define WUNDALETH_MOST_WORDS 1048576 /* W of an accepted lexicon, at most */
#define WUNDALETH_MOST_LETTERS 32    /* of a word, each a print byte: room for any word */
#define WUNDALETH_MOST_ITEMS 1000    /* of one list of words to look up */
#define WUNDALETH_ANSWER_BYTES 8     /* an item's answer in the output of wundaleth_words_to_codes: refusal, code */
#define WUNDALETH_MOST_FRAMES 1000   /* of one decoding */
#define WUNDALETH_MOST_HITS 8        /* n of one decoding, and the codes of one packing or unpacking */
#define WUNDALETH_HIT_BYTES 8        /* a hit in the output of decoding: score, then code */

/* The refusals and their numbers. */
enum wundaleth_refusal {
    WUNDALETH_WORK_SPACE = 1,     /* work space under 64,000 bytes, in any call with a lexicon; further under 262,144 */
    WUNDALETH_VOICE_LENGTH = 2,   /* voice model ends inside a field, or has bytes after its last */
    WUNDALETH_VOICE_RANGE = 3,    /* voice model field out of its range */
    WUNDALETH_LEXICON_LENGTH = 4, /* lexicon ends inside a field, or has bytes after its last */
    WUNDALETH_LEXICON_RANGE = 5,  /* lexicon field out of its range */
    WUNDALETH_ORPHAN = 6,         /* a node that is nobody's successor */
    WUNDALETH_PLACES = 7,         /* more than 1,000 places; a place is one state of one node */
    WUNDALETH_LONG_WORD = 8,      /* a word of more than 32 letters */
    WUNDALETH_WORD_COUNT = 9,     /* W above 1,048,576, counted or given; where W is given, as in packing, also 0 */
    WUNDALETH_SAME_LETTERS = 10,  /* two different full paths with the same letters */
    WUNDALETH_FRAMES = 11,        /* no frame or more than 1,000, or a symbol not below K, the number of symbols */
    WUNDALETH_COUNT = 12,         /* n, or the number of codes to pack or unpack, not 1 to 8 */
    WUNDALETH_NO_WORD = 13,       /* the bytes given spell no word here; the empty word too */
    WUNDALETH_PACKED = 14,        /* packed bytes of the wrong length, or a padding bit set */
    WUNDALETH_CODE = 15,          /* a code not below W */
    WUNDALETH_OUTPUT = 16,        /* output under 8 x n (hits), 8 x items, 4 x n (unpacked), or the answer's bytes */
    WUNDALETH_WORD_LIST = 17,     /* over 2,000 words, or over 16,000 letters in all: too many for a canonical image */
    WUNDALETH_CANONICAL_IMAGE = 18, /* a canonical image of more than 400 nodes, 4,000 arcs or 1,000 places */
    WUNDALETH_ITEMS = 19          /* an item that runs past the end of its list, or over 1,000 items */
};

/* Checks a voice model and a lexicon. Answers W, the number of words, 1 to 1,048,576, or refuses with 1 to 10. */
int32_t wundaleth_check(const uint8_t *voice, size_t voice_length, const uint8_t *lexicon, size_t lexicon_length,
                        uint8_t *work, size_t work_length);

/* Output, in the calls below. A refusal leaves the output unchanged. A value comes with its bytes at the output's
 * start, and the bytes after those written keep their values. */

/* The code of a word, given as its print bytes. Answers the code, 0 to W - 1, or refuses with 1 to 10 or 13. */
int32_t wundaleth_word_to_code(const uint8_t *voice, size_t voice_length, const uint8_t *lexicon,
                               size_t lexicon_length, const uint8_t *word, size_t word_length, uint8_t *work,
                               size_t work_length);

/* The codes of a list of words, each answered as wundaleth_word_to_code answers for it alone. An item is a length byte
 * and so many bytes, any; items stand one after the other to the end of the list. Writes an answer for each item, in
 * order, in 8 bytes, uint32_t refusal and uint32_t code, both little-endian: 0 and the code, or 13 and 0 where the item
 * spells no word here, the item of length 0 and items of more than 32 letters among them; wundaleth_answer_at below
 * reads one. The output needs no alignment. A word that is not there does not stop the following ones. Answers the
 * number of items, 0 to 1,000, found or not, or refuses with 1 to 10, 19 or 16, tested in this order. */
int32_t wundaleth_words_to_codes(const uint8_t *voice, size_t voice_length, const uint8_t *lexicon,
                                 size_t lexicon_length, const uint8_t *items, size_t items_length, uint8_t *work,
                                 size_t work_length, uint8_t *out, size_t out_length);

/* Writes the word of a code as its print bytes, with nothing after them. Answers the bytes written, 1 to 32, or
 * refuses with 1 to 10, 15 or 16. */
int32_t wundaleth_code_to_word(const uint8_t *voice, size_t voice_length, const uint8_t *lexicon,
                               size_t lexicon_length, uint32_t code, uint8_t *work, size_t work_length, uint8_t *out,
                               size_t out_length);

/* Writes every word, each followed by byte 10, in the order of the codes 0 to W - 1. Answers the bytes written, at
 * most 33 x W, or refuses with 1 to 10 or 16. */
int32_t wundaleth_list(const uint8_t *voice, size_t voice_length, const uint8_t *lexicon, size_t lexicon_length,
                       uint8_t *work, size_t work_length, uint8_t *out, size_t out_length);

/* Writes the canonical image of the lexicon: a lexicon image of the same words, which depends on nothing but the voice
 * model and the set of words. Two nodes are one if their letter and the set of their continuations agree; a vertex
 * that leads to the sink does so first, then come its letters in rising index, each at most once; nodes are numbered
 * by their longest continuation, longest first, and equals by the dictionary-first prefix that reaches them;
 * dictionary order is by letter index. Codes in it are dictionary ranks, from 0, a word before its extensions. Answers
 * the bytes written, at most WUNDALETH_CANONICAL_BYTES, or refuses with 1 to 10, 17, 18 or 16, tested in this order; 1
 * is for either space. A canonical image is accepted under the same voice model, is its own canonical image, and 17
 * and 18 do not apply to it. */
int32_t wundaleth_canonical(const uint8_t *voice, size_t voice_length, const uint8_t *lexicon, size_t lexicon_length,
                            uint8_t *work, size_t work_length, uint8_t *further, size_t further_length, uint8_t *out,
                            size_t out_length);

/* Decodes frames, one symbol a byte, frames_length of them, against the lexicon, and writes the hits, the best first:
 * at most n, 1 to 8, each in 8 bytes, int32_t score and uint32_t code, both little-endian; wundaleth_hit_at below
 * reads one. The output needs no alignment, but 8 x n bytes, however many hits are found. Answers how many, 0 to n,
 * or refuses with 1 to 12 or 16. The list is complete and exact: of all words that have a permitted state path the n
 * with the highest scores, equal scores by rising code; fewer than n are all that have one. */
int32_t wundaleth_decode(const uint8_t *voice, size_t voice_length, const uint8_t *lexicon, size_t lexicon_length,
                         const uint8_t *frames, size_t frames_length, uint32_t n, uint8_t *work, size_t work_length,
                         uint8_t *out, size_t out_length);

/* Packing and unpacking are given no image but W, as `words`: the W that wundaleth_check answered for the image that
 * the codes belong to. A code takes b bits: 0 if W is 1, else the length of W - 1 in binary, at most 20. n codes take
 * n x b / 8 bytes, rounded up, at most 20. */

/* Packs 1 to 8 codes. `codes` is aligned as C aligns uint32_t, and codes_length is the number of codes, not of bytes.
 * Answers the bytes written, 0 if W is 1, or refuses with 9, 12, 15 or 16. */
int32_t wundaleth_pack(uint32_t words, const uint32_t *codes, size_t codes_length, uint8_t *out, size_t out_length);

/* Unpacks n codes, 1 to 8, and writes each as 4 bytes, the lowest first (little-endian); the output needs no
 * alignment. packed_length is exactly what n codes take. Answers n, or refuses with 9, 12, 14, 15 or 16. */
int32_t wundaleth_unpack(uint32_t words, uint32_t n, const uint8_t *packed, size_t packed_length, uint8_t *out,
                         size_t out_length);

/* The answer to an item: 0 and the word's code, or the number of its refusal and 0. */
struct wundaleth_answer {
    uint32_t refusal;
    uint32_t code;
};

/* Reads the answer to item i, from 0 and below the number that wundaleth_words_to_codes answered, in the output that it
 * left. */
static inline struct wundaleth_answer wundaleth_answer_at(const uint8_t *out, size_t i)
{
    const uint8_t *at = out + WUNDALETH_ANSWER_BYTES * i;
    const uint32_t r0 = at[0], r1 = at[1], r2 = at[2], r3 = at[3];
    const uint32_t c0 = at[4], c1 = at[5], c2 = at[6], c3 = at[7];
    struct wundaleth_answer answer;

    answer.refusal = r3 << 24 | r2 << 16 | r1 << 8 | r0;
    answer.code = c3 << 24 | c2 << 16 | c1 << 8 | c0;
    return answer;
}

/* A hit: a word's true score and its code. */
struct wundaleth_hit {
    int32_t score;
    uint32_t code;
};

/* Reads hit i, from 0 and below the number that wundaleth_decode answered, in the output that it left. */
static inline struct wundaleth_hit wundaleth_hit_at(const uint8_t *out, size_t i)
{
    const uint8_t *at = out + WUNDALETH_HIT_BYTES * i;
    /* the score's highest byte has the sign; taken as -128 to 127 it leaves every sum within int32_t */
    const int32_t s0 = at[0], s1 = at[1], s2 = at[2], s3 = at[3] < 128 ? at[3] : at[3] - 256;
    const uint32_t c0 = at[4], c1 = at[5], c2 = at[6], c3 = at[7];
    struct wundaleth_hit hit;

    hit.score = s3 * 16777216 + s2 * 65536 + s1 * 256 + s0;
    hit.code = c3 << 24 | c2 << 16 | c1 << 8 | c0;
    return hit;
}

#ifdef __cplusplus
}
#endif

#endif
