/* The canonical image: what holds of it, with no reference beside it. */
#ifndef FUZZ_CANONICAL_H
#define FUZZ_CANONICAL_H

#include "with_images.h"

/* The most words, and letters in all, of a canonical image. */
enum { MOST_LISTED = 2000, MOST_LISTED_LETTERS = 16000 };

/* Lines end in byte 10, which is below every print byte: so a word comes before its extensions. */
static int by_letters(const void *one, const void *other)
{
    const uint8_t *a = *(const uint8_t *const *)one, *b = *(const uint8_t *const *)other;
    while (*a == *b && *a != 10) {
        a++;
        b++;
    }
    return *a - *b;
}

/* The listing of a canonical image has the lines of the lexicon's listing, strictly rising. */
static void test_dictionary(const uint8_t *sorted, size_t length)
{
    static const uint8_t *lines[LISTED];
    size_t count = 0, at = 0;
    for (size_t from = 0; from < listing_length && count < LISTED; from++)
        if (from == 0 || listing[from - 1] == 10)
            lines[count++] = listing + from;
    qsort(lines, count, sizeof *lines, by_letters);
    bool is_same = length == listing_length, rises = true;
    for (size_t k = 0; k < count && is_same; k++) {
        size_t line = (size_t)((const uint8_t *)memchr(lines[k], 10, IMAGE) - lines[k]) + 1;
        rises = rises && (k == 0 || by_letters(&lines[k - 1], &lines[k]) < 0);
        is_same = at + line <= length && memcmp(sorted + at, lines[k], line) == 0;
        at += line;
    }
    must(rises && is_same && at == length, "the canonical image does not list the words in dictionary order");
}

/* No vertex leads to one letter twice. Then the canonical image is not larger. */
static bool has_each_letter_once(void)
{
    for (uint32_t vertex = 0; vertex <= graph.nodes; vertex++) {
        bool is_there[256] = {false};
        for (uint32_t k = 0; k < graph.vertices[vertex].count; k++) {
            uint32_t letter = graph.vertices[successor(vertex, k)].letter;
            if (is_there[letter])
                return false;
            is_there[letter] = true;
        }
    }
    return true;
}

/* Puts the successors of each vertex into another order: the words stay. */
static void turn_lists(void)
{
    for (uint32_t vertex = 0; vertex <= graph.nodes; vertex++)
        for (uint32_t k = 0; k < graph.vertices[vertex].count; k++) {
            uint8_t *one = graph.vertices[vertex].list + 2 * k, *other = one, kept[2];
            other += 2 * below(graph.vertices[vertex].count - k);
            memcpy(kept, one, 2);
            memmove(one, other, 2);
            memcpy(other, kept, 2);
        }
}

static uint32_t meet(uint32_t vertex, uint32_t met)
{
    graph.vertices[vertex].met = ++met;
    for (uint32_t k = 0; k < graph.vertices[vertex].count; k++)
        if (graph.vertices[successor(vertex, k)].met == 0)
            met = meet(successor(vertex, k), met);
    return met;
}

/* Two nodes with one letter and the same successors have the same continuations. */
static bool are_one(uint32_t node, uint32_t other)
{
    uint32_t count = graph.vertices[node].count;
    return graph.vertices[node].letter == graph.vertices[other].letter && count == graph.vertices[other].count &&
           memcmp(graph.vertices[node].list, graph.vertices[other].list, 2 * count) == 0;
}

/* What makes an image canonical, besides its words: the sink first and then rising letters; no two nodes that are one;
 * numbers by falling length of the longest continuation, and equals by their first prefix. With the lists in order, a
 * walk meets nodes in dictionary order of these. */
static void test_form(void)
{
    bool rises = true, is_small = true, is_numbered = true;
    read_graph();
    for (uint32_t vertex = graph.nodes + 1; vertex-- > 0;)
        for (uint32_t k = 0; k < graph.vertices[vertex].count; k++) {
            uint32_t next = successor(vertex, k), more = graph.vertices[next].longest + (next <= graph.nodes);
            if (graph.vertices[vertex].longest < more)
                graph.vertices[vertex].longest = more;
            rises = rises && (k == 0 || graph.vertices[successor(vertex, k - 1)].letter < graph.vertices[next].letter);
        }
    meet(0, 0);
    for (uint32_t node = 1; node <= graph.nodes; node++) {
        uint32_t longest = graph.vertices[node].longest, before = graph.vertices[node - 1].longest;
        is_numbered = is_numbered && (node == 1 || before > longest ||
                                      (before == longest && graph.vertices[node - 1].met < graph.vertices[node].met));
        for (uint32_t other = 1; other < node; other++)
            is_small = is_small && !are_one(node, other);
    }
    must(rises, "a list is not the sink and then rising letters");
    must(is_small, "two nodes are one");
    must(is_numbered, "nodes are not by their longest continuation and first prefix");
}

/* The letters of all words together, where the listing is there. */
static size_t all_letters(void)
{
    return listing_length - (size_t)verdict;
}

/* The image that was written for the lexicon of this round stands in its place: it holds the same words and is its own
 * canonical image. */
static void test_image(const struct bytes *image)
{
    static struct bytes word;
    static uint8_t sorted[OUTPUT];
    struct call call = with_images(CHECK, NULL, 0, 0);
    bool is_accepted = once(&call, NULL) == verdict;
    called = CANONICAL;
    must(is_accepted, "a canonical image has another W");
    if (!is_accepted)
        return;
    test_form();
    call = with_images(CANONICAL, NULL, 0, image->length);
    must(once(&call, first_written) == (int32_t)image->length && memcmp(first_written, image->at, image->length) == 0,
         "a canonical image is not its own");
    call = with_images(LIST, NULL, 0, listing_length);
    int32_t answer = once(&call, sorted);
    called = CANONICAL;
    test_dictionary(sorted, answer > 0 ? (size_t)answer : 0);
    spelled(below((uint32_t)verdict), &word);
    read_back++;
}

/* What the canonical image is cannot be known here, but what holds of it: 17 follows from the listing; 18 is never
 * given to few letters, or where no vertex leads to a letter twice. */
static void test_canonical(void)
{
    static struct bytes image, kept;
    struct call call = with_images(CANONICAL, NULL, 0, IMAGE);
    int32_t answer = twice(&call);
    image.length = 0;
    if (verdict > 0) {
        read_graph();
        bool too_many = verdict > MOST_LISTED || all_letters() > MOST_LISTED_LETTERS;
        must((answer == -17) == too_many, "17 does not fit the words and their letters");
        must(answer != -18 || (all_letters() > 250 && !has_each_letter_once()), "18 for a small canonical image");
        must(answer > 0 || answer == -17 || answer == -18, "neither an image nor the refusal that is due");
    }
    kept = lexicon;
    if (answer > 0 && verdict > 0) {
        memcpy(image.at, first_written, image.length = (size_t)answer);
        must(image.length <= lexicon.length || !has_each_letter_once(), "a canonical image is larger for no reason");
        lexicon = image;
        test_image(&image);
        lexicon = kept;
        read_graph();
        turn_lists();
    }
    call.out = around(image.length);
    call.work = work_bytes();
    call.further = further_bytes();
    int32_t again = once(&call, first_written);
    if (again != -1)
        must(again == (answer > 0 && call.out < image.length ? -16 : answer),
             "the answer depends on the lists' order, or 16 does not fit the image's length");
    if (again > 0)
        must(memcmp(first_written, image.at, image.length) == 0,
             "the image depends on the lists' order or the output's size");
    lexicon = kept;
}

#endif
