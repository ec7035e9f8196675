/* Words to codes: lists of items, and what holds of their answers. Each item is looked up in the graph too. */
#ifndef FUZZ_ITEMS_H
#define FUZZ_ITEMS_H

#include "with_images.h"

/* A letter of the model, or any byte. */
static uint32_t any_letter(void)
{
    return verdict > 0 && !once_in(4) ? voice.at[1 + 2 * below(voice.at[0])] : below(256);
}

/* A word, a word with one byte changed, more or less, a word filled up to a length at an edge or to one that is its own
 * if cut off at 5, 6 or 7 bits, or any bytes. */
static void draw_item(struct bytes *item)
{
    if (verdict > 0 && !once_in(8))
        walk(item);
    else
        fill(item->at, item->length = once_in(6) ? below(256) : below(40));
    if (once_in(2))
        return;
    size_t own = item->length, lengths[] = {31, 32, 33, 34, 255, own + 32, own + 64, own + 128};
    size_t length = once_in(2) ? lengths[below(8)] : own + 1;
    if (once_in(6))
        item->length = 0;
    else if (once_in(2) && item->length > 0)
        item->at[below((uint32_t)item->length)] = (uint8_t)any_letter();
    else if (once_in(2) && item->length > 0)
        item->length--;
    else
        while (item->length < length && item->length < 255)
            put(item, any_letter());
}

static void put_item(struct bytes *list, const uint8_t *item, size_t length)
{
    put(list, (uint32_t)length);
    for (size_t k = 0; k < length; k++)
        put(list, item[k]);
}

/* One damage to a list: cut, a byte changed, a byte added, or any bytes in its place. */
static void damage_items(struct bytes *list)
{
    if (once_in(8))
        fill(list->at, list->length = below(once_in(4) ? 3000 : 40));
    else if (once_in(3))
        list->length = list->length == 0 || once_in(2) ? below((uint32_t)list->length + 1) : list->length - 1;
    else if (once_in(2) && list->length > 0)
        list->at[below((uint32_t)list->length)] = (uint8_t)(once_in(2) ? edge() : next());
    else
        put(list, once_in(2) ? edge() : below(40));
}

static void draw_items(struct bytes *list)
{
    static struct bytes item;
    uint32_t count = once_in(60) ? between(998, 1003) : once_in(4) ? below(100) : below(12);
    list->length = 0;
    for (uint32_t k = 0; k < count; k++) {
        /* now and then the one before once more */
        if (k == 0 || !once_in(6))
            draw_item(&item);
        put_item(list, item.at, item.length);
    }
    if (once_in(6))
        damage_items(list);
}

/* Where each item of a list begins, with its length byte. */
static size_t begins[IMAGE];

/* Answers how many items a list has, or -19. */
static int32_t read_items(const struct bytes *list)
{
    size_t at = 0;
    int32_t count = 0;
    while (at < list->length) {
        begins[count++] = at;
        at += 1 + (size_t)list->at[at];
    }
    return at > list->length || count > WUNDALETH_MOST_ITEMS ? -19 : count;
}

/* True if an item is answered so, as word to code answers for a word. */
static bool is_answered(struct wundaleth_answer item, int32_t code)
{
    return code < 0 ? item.refusal == (uint32_t)-code && item.code == 0
                    : item.refusal == 0 && item.code == (uint32_t)code;
}

/* Every item is answered by the graph; about two of a list are looked up by themselves, and two in the listing. */
static void test_items(const struct bytes *list, const uint8_t *answers, int32_t count)
{
    static struct bytes word;
    for (int32_t k = 0; k < count; k++) {
        struct wundaleth_answer item = wundaleth_answer_at(answers, (size_t)k);
        const uint8_t *at = list->at + begins[k];
        int32_t code = code_by_graph(at + 1, *at);
        must(is_answered(item, code), "an item has not the code of its path");
        looked_up_items++;
        words_of_items += code >= 0;
        memcpy(word.at, at + 1, word.length = *at);
        if (below((uint32_t)count) < 2) {
            struct call call = with_images(WORD_TO_CODE, &word, 0, 0);
            code = once(&call, NULL);
            called = WORDS_TO_CODES;
            must(is_answered(item, code), "an item is answered otherwise than by itself");
        }
        if (below((uint32_t)count) < 2 && listing_length > 0)
            must(is_answered(item, looked_up(&word)), "an item is not answered as the listing has it");
    }
}

/* The items from the last to the first have the same answers from the last to the first. */
static void test_backwards(const struct bytes *list, const uint8_t *answers, int32_t count)
{
    static struct bytes turned;
    turned.length = 0;
    for (int32_t k = count; k-- > 0;)
        put_item(&turned, list->at + begins[k] + 1, list->at[begins[k]]);
    struct call call = with_images(WORDS_TO_CODES, &turned, 0, 8 * (size_t)count);
    must(once(&call, first_written) == count, "a list read backwards has another number of items");
    for (int32_t k = 0; k < count; k++)
        must(memcmp(answers + 8 * k, first_written + 8 * (count - 1 - k), 8) == 0,
             "an item's answer depends on those before it");
}

static void test_words_to_codes(void)
{
    static struct bytes list;
    static uint8_t answers[8 * WUNDALETH_MOST_ITEMS];
    if (verdict > 0)
        read_graph();
    draw_items(&list);
    int32_t count = read_items(&list);
    size_t need = 8 * (size_t)(count < 0 ? (int32_t)below(20) : count);
    struct call call = with_images(WORDS_TO_CODES, &list, 0, around(need));
    call.work = work_bytes();
    int32_t answer = twice(&call);
    if (verdict < 0 || answer == -1)
        return;
    int32_t due = count >= 0 && call.out < need ? -16 : count;
    must(answer == due, "neither the number of items nor the refusal that is due");
    if (answer != due || answer < 1)
        return;
    memcpy(answers, first_written, need);
    test_items(&list, answers, count);
    test_backwards(&list, answers, count);
}

#endif
