/* Images: the small lexicon, random ones that are mostly accepted, and damage to them. */
#ifndef FUZZ_IMAGES_H
#define FUZZ_IMAGES_H

#include "call.h"

static uint32_t score(void)
{
    static const int scores[] = {-32768, -32767, -1, 0, 1, 32767};
    switch (below(3)) {
    case 0:
        return (uint16_t)scores[below(6)];
    case 1:
        return (uint16_t)(below(41) - 20);
    default:
        return (uint16_t)next();
    }
}

static void draw_voice(uint32_t letters, uint32_t most_states, uint32_t symbols)
{
    uint32_t states[64], all = 0, print_byte = 33 + below(94 - letters + 1);
    voice.length = 0;
    put(&voice, letters);
    for (uint32_t k = 0; k < letters; k++) {
        put(&voice, print_byte);
        states[k] = between(1, most_states);
        put(&voice, states[k]);
        all += states[k];
        print_byte += 1 + below((126 - print_byte) / (letters - k));
    }
    put_number(&voice, all);
    for (uint32_t k = 0; k < letters; k++)
        for (uint32_t s = 1; s <= states[k]; s++) {
            put_number(&voice, score());
            put_number(&voice, s == states[k] ? 0 : score());
        }
    uint32_t links = once_in(2) ? 1 : letters;
    put(&voice, links);
    for (uint32_t k = 0; k < links; k++)
        put_number(&voice, score());
    put(&voice, symbols);
    for (uint32_t k = 0; k < all * symbols; k++)
        put_number(&voice, score());
}

/* Each vertex and its successors so far. A list has no letter twice, so that no word is spelled twice, unless that is
 * wanted. */
static struct {
    uint32_t letter, depth, count, list[66];
} vertices[NODES + 1];

/* What graphs are drawn: how long words get, once in how many times a node does not follow the last one, up to how many
 * further arcs lead to a node. */
static struct {
    uint32_t nodes, letters, longest, branch, more;
    bool twice_too, is_fan, is_run;
} shape;

static bool takes(uint32_t vertex, uint32_t node)
{
    if (vertices[vertex].count > 64 || vertices[vertex].depth >= shape.longest)
        return false;
    for (uint32_t k = 0; k < vertices[vertex].count; k++) {
        uint32_t other = vertices[vertex].list[k];
        if (other == node || (!shape.twice_too && vertices[other].letter == vertices[node].letter))
            return false;
    }
    return true;
}

static void join(uint32_t vertex, uint32_t node)
{
    vertices[vertex].list[vertices[vertex].count++] = node;
    if (vertices[node].depth <= vertices[vertex].depth)
        vertices[node].depth = vertices[vertex].depth + 1;
}

/* Answers N, which is less than wanted where nodes find no place. */
static uint32_t draw_graph(void)
{
    uint32_t n = 0;
    memset(vertices, 0, sizeof vertices);
    for (uint32_t tries = 0; n < shape.nodes && tries < 4 * shape.nodes; tries++) {
        uint32_t node = n + 1, from = once_in(shape.branch) ? below(node) : n;
        vertices[node].letter = below(shape.letters);
        if (!takes(from, node))
            continue;
        n = node;
        join(from, node);
        for (uint32_t k = below(shape.more + 1); k > 0; k--) {
            from = below(node);
            if (takes(from, node))
                join(from, node);
        }
    }
    return n;
}

/* A graph that may be smaller than the canonical one. Up to five ways have the same letters but the last; each of the
 * beginnings, which have letters of their own, leads to some of the ways. By letters the ways are one, so the canonical
 * image needs them once for each beginning. Answers N. */
static uint32_t draw_fan(void)
{
    uint32_t ways = between(2, 5), sets = (1u << ways) - 1, beginnings = between(sets / 2, sets);
    uint32_t length = between(1, 30), step = 1 + below(sets), n = beginnings;
    memset(vertices, 0, sizeof vertices);
    for (uint32_t way = 0; way < ways; way++)
        for (uint32_t k = 0; k <= length; k++) {
            vertices[++n].letter = k == length ? way : shape.letters - 1 - k % 3;
            if (k > 0)
                join(n - 1, n);
        }
    for (uint32_t node = 1; node <= beginnings; node++) {
        uint32_t set = node == 1 ? sets : 1 + node * step % sets;
        vertices[node].letter = node;
        join(0, node);
        for (uint32_t way = 0; way < ways; way++)
            if (set >> way & 1)
                join(node, beginnings + 1 + way * (length + 1));
    }
    return n;
}

/* A row of nodes of one letter, into which the root leads at many places; at some of them another letter follows, at
 * each place its own. Of the ways into the row one has the right number of letters. Answers N. */
static uint32_t draw_run(void)
{
    uint32_t length = between(2, 31), n = length, other = 0;
    memset(vertices, 0, sizeof vertices);
    for (uint32_t node = 1; node <= length; node++) {
        if (node > 1)
            join(node - 1, node);
        if (node == 1 || !once_in(4))
            join(0, node);
        if (node == length || once_in(4)) {
            vertices[++n].letter = ++other;
            join(node, n);
        }
    }
    return n;
}

static void draw_lexicon(void)
{
    uint32_t n = shape.is_fan ? draw_fan() : shape.is_run ? draw_run() : draw_graph();
    bool is_graph = !shape.is_fan && !shape.is_run;
    lexicon.length = 0;
    put_number(&lexicon, n);
    for (uint32_t node = 1; node <= n; node++)
        put(&lexicon, vertices[node].letter);
    for (uint32_t vertex = 0; vertex <= n; vertex++) {
        uint32_t count = vertices[vertex].count, *list = vertices[vertex].list;
        if (count == 0 || (vertex > 0 && is_graph && once_in(3)))
            list[count++] = n + 1;
        put_number(&lexicon, count);
        for (; count > 0; count--) {
            uint32_t place = below(count);
            put_number(&lexicon, list[place]);
            list[place] = list[count - 1];
        }
    }
    put_number(&lexicon, 0);
}

/* The small lexicon of the scope paper: an, at, i, in, it. Its link is -2, for all letters or stored for each. */
static void small(void)
{
    uint32_t links = once_in(2) ? 1 : 4;
    static const uint8_t arcs[] = {4, 0, 0, 1, 2, 3, 2, 0, 1, 0, 2, 0, 2, 0, 3, 0, 4, 0,
                                   3, 0, 5, 0, 3, 0, 4, 0, 1, 0, 5, 0, 1, 0, 5, 0, 0, 0};
    memcpy(lexicon.at, arcs, lexicon.length = sizeof arcs);
    voice.length = 0;
    put(&voice, 4);
    for (int k = 0; k < 4; k++) {
        put(&voice, (uint32_t)"aint"[k]);
        put(&voice, 1);
    }
    put_number(&voice, 4);
    for (int k = 0; k < 4; k++) {
        put_number(&voice, 65535);
        put_number(&voice, 0);
    }
    put(&voice, links);
    for (uint32_t k = 0; k < links; k++)
        put_number(&voice, 65534);
    put(&voice, 4);
    for (int k = 0; k < 16; k++)
        put_number(&voice, k % 5 == 0 ? 0 : 65526);
}

/* Where the links of a whole voice model begin, with their count. */
static size_t links_at(void)
{
    size_t states = 1 + 2 * (size_t)voice.at[0];
    return states + 2 + 4 * (voice.at[states] + 256u * voice.at[states + 1]);
}

/* Where K stands in a whole voice model: behind the links, however many they are. */
static size_t symbols_at(void)
{
    return links_at() + 1 + 2 * (size_t)voice.at[links_at()];
}

/* Puts other links into a whole voice model: this count, and so many scores, drawn or 0. */
static void put_links(uint32_t count, uint32_t scores, bool drawn)
{
    static struct bytes old;
    size_t rest = symbols_at();
    old = voice;
    voice.length = links_at();
    put(&voice, count);
    for (uint32_t k = 0; k < scores; k++)
        put_number(&voice, drawn ? score() : 0);
    for (; rest < old.length; rest++)
        put(&voice, old.at[rest]);
}

/* Another count of links, with as many scores or about as many. */
static void damage_links(void)
{
    uint32_t letters = voice.at[0], counts[] = {0, 1, 2, letters - 1, letters, letters + 1, 255};
    uint32_t count = counts[below(7)];
    put_links(count, once_in(2) ? count : (uint32_t)around(count), true);
}

/* Where a field of a whole image begins, and its size: in a voice model a count, a print byte, a number of states, a
 * step, a link or K. */
static size_t voice_field(size_t *size)
{
    size_t letters = voice.at[0], states = 1 + 2 * letters, links = links_at();
    size_t link = links + 1 + 2 * below(voice.at[links]);
    size_t fields[] = {0, 1 + below(2 * (uint32_t)letters), states, states + 4, links - 2, link, links, symbols_at()};
    uint32_t which = below(8);
    *size = which >= 2 && which <= 5 ? 2 : 1;
    return fields[which];
}

static size_t lexicon_field(size_t *size)
{
    size_t nodes = lexicon.at[0] + 256u * lexicon.at[1], numbers = (lexicon.length - 2 - nodes) / 2;
    *size = 2;
    if (once_in(8))
        return 0;
    if (once_in(4)) {
        *size = 1;
        return 2 + below((uint32_t)nodes);
    }
    return 2 + nodes + 2 * below((uint32_t)numbers);
}

/* A field of a whole image with another value: an edge, or one more, or one less. */
static void damage_field(struct bytes *image)
{
    size_t size, at = image == &voice ? voice_field(&size) : lexicon_field(&size);
    uint32_t value = image->at[at] + (size == 2 ? 256u * image->at[at + 1] : 0);
    value = once_in(3) ? edge() : once_in(2) ? value + 1 : value - 1;
    image->at[at] = (uint8_t)value;
    if (size == 2)
        image->at[at + 1] = (uint8_t)(value >> 8);
}

static void damage_bytes(struct bytes *image)
{
    size_t at = below((uint32_t)image->length);
    switch (below(6)) {
    case 0:
        image->at[at] ^= (uint8_t)(1u << below(8));
        break;
    case 1:
        image->at[at] = (uint8_t)edge();
        break;
    case 2:
        image->length = once_in(2) ? at : image->length - 1;
        break;
    case 3:
        for (uint32_t more = between(1, 3); more > 0; more--)
            put(image, once_in(2) ? 0 : below(256));
        break;
    case 4:
        memmove(image->at + at, image->at + at + 1, image->length - at - 1);
        image->length--;
        break;
    default:
        fill(image->at + at, image->length - at < 4 ? 1 : between(1, 4));
    }
}

static void damage(struct bytes *image)
{
    if (once_in(12))
        fill(image->at, image->length = below(once_in(4) ? 3000 : 40));
    else if (image == &voice && once_in(6))
        damage_links();
    else if (once_in(2))
        damage_field(image);
    else
        damage_bytes(image);
}

/* The voice model is as it was drawn. */
static bool voice_is_whole;

static void draw_images(void)
{
    if (once_in(6)) {
        small();
    } else {
        shape.letters = once_in(8) ? between(1, 64) : between(1, 8);
        shape.nodes = once_in(12) ? between(150, NODES) : once_in(4) ? between(1, 60) : between(1, 12);
        shape.longest = once_in(4) ? 33 : 32;
        shape.branch = once_in(4) ? 20 : 1;
        shape.more = once_in(8) ? 9 : below(3);
        shape.twice_too = once_in(8);
        shape.is_fan = once_in(12);
        shape.is_run = once_in(16);
        if (shape.is_fan || shape.is_run)
            shape.letters = between(40, 64);
        draw_voice(shape.letters, between(1, 4), once_in(12) ? between(1, 64) : between(1, 4));
        draw_lexicon();
    }
    voice_is_whole = !once_in(4);
    if (!voice_is_whole)
        damage(&voice);
    if (once_in(4))
        damage(&lexicon);
}

#endif
