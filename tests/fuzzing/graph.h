/* The graph of an accepted lexicon, read, and words looked up in it. */
#ifndef FUZZ_GRAPH_H
#define FUZZ_GRAPH_H

#include "call.h"

/* An accepted lexicon, read: N, and for each vertex its letter (0 is the sink's, and of no node), its successors, its
 * paths to the sink, its longest continuation, and when it is first met on a walk that takes the lists in their
 * order. */
static struct {
    uint32_t nodes;
    struct {
        uint32_t letter, count, paths, longest, met;
        uint8_t *list;
    } vertices[NODES + 2];
} graph;

static uint32_t successor(uint32_t vertex, uint32_t k)
{
    const uint8_t *at = graph.vertices[vertex].list + 2 * k;
    return at[0] + 256u * at[1];
}

static void read_graph(void)
{
    uint8_t *at = lexicon.at;
    memset(&graph, 0, sizeof graph);
    graph.nodes = at[0] + 256u * at[1];
    for (uint32_t node = 1; node <= graph.nodes; node++)
        graph.vertices[node].letter = 1u + at[1 + node];
    at += 2 + graph.nodes;
    for (uint32_t vertex = 0; vertex <= graph.nodes; vertex++) {
        graph.vertices[vertex].count = at[0] + 256u * at[1];
        graph.vertices[vertex].list = at + 2;
        at += 2 + 2 * graph.vertices[vertex].count;
    }
    graph.vertices[graph.nodes + 1].paths = 1;
    for (uint32_t vertex = graph.nodes + 1; vertex-- > 0;)
        for (uint32_t k = 0; k < graph.vertices[vertex].count; k++)
            graph.vertices[vertex].paths += graph.vertices[successor(vertex, k)].paths;
}

static uint8_t print_byte(uint32_t node)
{
    return voice.at[2 * graph.vertices[node].letter - 1];
}

/* Any word of the graph, by a walk from the root. */
static void walk(struct bytes *word)
{
    uint32_t vertex = successor(0, below(graph.vertices[0].count));
    for (word->length = 0; vertex <= graph.nodes; vertex = successor(vertex, below(graph.vertices[vertex].count)))
        put(word, print_byte(vertex));
}

/* For each vertex the sum of the increments on the way that spells a word's beginning, or -1 where none does. No word
 * is spelled twice, so that no two ways to a vertex have the same letters. */
static int32_t sums[NODES + 2];

/* Goes on from all vertices at once: to the nodes with this print byte, or, at the word's end, to the sink. */
static void go_on(bool is_end, uint8_t byte)
{
    int32_t after[NODES + 2];
    memset(after, 255, sizeof after);
    for (uint32_t vertex = 0; vertex <= graph.nodes; vertex++) {
        int32_t sum = sums[vertex];
        for (uint32_t k = 0; sum >= 0 && k < graph.vertices[vertex].count; k++) {
            uint32_t next = successor(vertex, k);
            if (is_end ? next > graph.nodes : next <= graph.nodes && print_byte(next) == byte)
                after[next] = sum;
            sum += (int32_t)graph.vertices[next].paths;
        }
    }
    memcpy(sums, after, sizeof sums);
}

/* The code of a word by the graph, or -13. No way is tried after another: all go on in step. */
static int32_t code_by_graph(const uint8_t *word, size_t length)
{
    if (length > WUNDALETH_MOST_LETTERS)
        return -13;
    memset(sums, 255, sizeof sums);
    sums[0] = 0;
    for (size_t k = 0; k < length; k++)
        go_on(false, word[k]);
    go_on(true, 0);
    return sums[graph.nodes + 1] >= 0 ? sums[graph.nodes + 1] : -13;
}

#endif
