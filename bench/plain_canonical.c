/* The canonical image as one would write it in C: the words spelled by a walk over the graph, sorted, and added one by
   one to a minimal graph, whose finished nodes are found again by hashing (incremental minimisation of sorted words;
   Daciuk, Mihov, Watson and Watson, 2000). It checks nothing of the images, but does what the call is for beside that:
   it refuses 17, 18 and 16, writes the image, and leaves the lent further work space zero. For bench/canonical only. */
#include <stddef.h>
#include <stdint.h>
#include <string.h>

enum {
    FURTHER_BYTES = 262144,
    MOST_WORDS = 2000,
    MOST_TOTAL = 16000, /* letters of all words */
    MOST_LETTERS = 32,  /* of a word */
    MOST_NODES = 400,
    MOST_ARCS = 4000,
    MOST_PLACES = 1000,
    ALPHABET = 64,
    HASHED = 1024, /* above twice the nodes, so that a search ends soon */
    SINK = MOST_NODES
};

/* Letters are kept one higher and followed by zeros, so that memcmp has the dictionary's order: a word stands before
   its extensions. */
struct word {
    uint8_t letters[MOST_LETTERS];
    uint8_t length;
};

/* A vertex of the word that was added last. Its arcs may still become more. */
struct open {
    unsigned letter, height, count;
    uint16_t arcs[ALPHABET + 1];
};

struct node {
    uint8_t letter, height; /* the height is the length of its longest continuation */
    uint16_t count, first;
    uint16_t number; /* its number in the image, 0 as long as the node is not reached */
};

struct builder {
    struct word words[MOST_WORDS];
    const struct word *row[MOST_WORDS], *other[MOST_WORDS];
    unsigned word_count, total;
    struct open path[MOST_LETTERS + 1];
    struct node nodes[MOST_NODES + 1];
    uint16_t arcs[MOST_ARCS];
    unsigned node_count, arc_count;
    uint16_t table[HASHED]; /* one more than a node, or 0 */
    uint16_t reached[MOST_NODES], by_number[MOST_NODES + 1];
    unsigned reached_count;
};

/* The lexicon that is read: where each vertex's list begins. */
struct graph {
    unsigned nodes;
    const uint8_t *letters; /* of node v at v - 1 */
    const uint8_t *list[MOST_NODES + 1];
};

static unsigned number(const uint8_t *bytes)
{
    return bytes[0] | (unsigned)bytes[1] << 8;
}

static uint8_t *put(uint8_t *at, unsigned value)
{
    at[0] = (uint8_t)value;
    at[1] = (uint8_t)(value >> 8);
    return at + 2;
}

static void read_lexicon(struct graph *graph, const uint8_t *at)
{
    graph->nodes = number(at);
    graph->letters = at + 2;
    at += 2 + graph->nodes;
    for (unsigned vertex = 0; vertex <= graph->nodes; vertex++) {
        graph->list[vertex] = at;
        at += 2 + 2 * number(at);
    }
}

/* Adds all words that go through this vertex, with the letters so far. Not 0 if they are too many. */
static int spell(struct builder *b, const struct graph *graph, unsigned vertex, struct word *so_far)
{
    const uint8_t *list = graph->list[vertex];

    for (unsigned count = number(list); count > 0; count--) {
        unsigned to = number(list += 2);
        if (to > graph->nodes) {
            if (b->word_count == MOST_WORDS)
                return 1;
            b->words[b->word_count++] = *so_far;
            b->total += so_far->length;
        } else {
            so_far->letters[so_far->length++] = (uint8_t)(graph->letters[to - 1] + 1);
            if (spell(b, graph, to, so_far))
                return 1;
            so_far->letters[--so_far->length] = 0;
        }
    }
    return 0;
}

static int stands_before(const struct word *a, const struct word *b)
{
    return memcmp(a->letters, b->letters, MOST_LETTERS) < 0;
}

/* Merges halves. Where they are in order already, as in lists that are stored sorted, nothing moves. */
static void sort(const struct word **row, const struct word **other, unsigned count)
{
    unsigned half = count / 2, i = 0, j = half, k = 0;

    if (count < 2)
        return;
    sort(row, other, half);
    sort(row + half, other, count - half);
    if (stands_before(row[half - 1], row[half]))
        return;
    memcpy(other, row, half * sizeof *row);
    while (i < half && j < count)
        row[k++] = stands_before(row[j], other[i]) ? row[j++] : other[i++];
    memcpy(row + k, other + i, (half - i) * sizeof *row);
}

static unsigned hash(const struct open *vertex)
{
    uint32_t sum = vertex->letter;

    for (unsigned k = 0; k < vertex->count; k++)
        sum = (sum ^ vertex->arcs[k]) * 0x9e3779b1u;
    return sum >> 22;
}

static int is_node(const struct builder *b, const struct node *node, const struct open *vertex)
{
    return node->letter == vertex->letter && node->count == vertex->count
           && memcmp(b->arcs + node->first, vertex->arcs, vertex->count * sizeof *vertex->arcs) == 0;
}

/* The node that this vertex is, a new one if there is none yet; MOST_NODES if there is no room. */
static unsigned find(struct builder *b, const struct open *vertex)
{
    unsigned at = hash(vertex);
    struct node *node = b->nodes + b->node_count;

    for (; b->table[at] != 0; at = (at + 1) % HASHED)
        if (is_node(b, b->nodes + b->table[at] - 1, vertex))
            return b->table[at] - 1u;
    if (b->node_count == MOST_NODES)
        return MOST_NODES;
    node->letter = (uint8_t)vertex->letter;
    node->height = (uint8_t)vertex->height;
    node->count = (uint16_t)vertex->count;
    node->first = (uint16_t)b->arc_count;
    memcpy(b->arcs + b->arc_count, vertex->arcs, vertex->count * sizeof *vertex->arcs);
    b->arc_count += vertex->count;
    b->table[at] = (uint16_t)++b->node_count;
    return b->node_count - 1;
}

/* Finishes the vertices of the last word below this depth. Not 0 if the nodes are too many. */
static int finish(struct builder *b, unsigned depth, unsigned last_depth)
{
    for (; last_depth > depth; last_depth--) {
        struct open *vertex = b->path + last_depth, *above = vertex - 1;
        unsigned node = find(b, vertex);
        if (node == MOST_NODES)
            return 1;
        above->arcs[above->count++] = (uint16_t)node;
        if (above->height <= vertex->height)
            above->height = vertex->height + 1;
    }
    return 0;
}

static unsigned shared_letters(const struct word *a, const struct word *b)
{
    unsigned k = 0;

    while (k < a->length && a->letters[k] == b->letters[k])
        k++;
    return k;
}

/* Adds the sorted words, and leaves the root open. Not 0 if the nodes are too many. */
static int add_words(struct builder *b)
{
    unsigned depth = 0;

    for (unsigned i = 0; i < b->word_count; i++) {
        const struct word *word = b->row[i];
        unsigned shared = i > 0 ? shared_letters(b->row[i - 1], word) : 0;
        if (finish(b, shared, depth))
            return 1;
        for (depth = shared; depth < word->length;) {
            unsigned letter = word->letters[depth] - 1u;
            struct open *vertex = b->path + ++depth;
            vertex->letter = letter;
            vertex->height = 0;
            vertex->count = 0;
        }
        b->path[depth].arcs[b->path[depth].count++] = SINK;
    }
    return finish(b, 0, depth);
}

/* Puts down the nodes in the order in which the dictionary reaches them. What is behind a node that was reached before
   was reached then. */
static void reach(struct builder *b, const uint16_t *arcs, unsigned count)
{
    for (unsigned k = 0; k < count; k++) {
        struct node *node = b->nodes + arcs[k];
        if (arcs[k] == SINK || node->number != 0)
            continue;
        node->number = 1;
        b->reached[b->reached_count++] = arcs[k];
        reach(b, b->arcs + node->first, node->count);
    }
}

/* Numbers by falling height, and nodes of one height as they were reached. */
static void give_numbers(struct builder *b)
{
    unsigned next[MOST_LETTERS + 1] = {0}, sum = 1;

    reach(b, b->path[0].arcs, b->path[0].count);
    for (unsigned k = 0; k < b->node_count; k++)
        next[b->nodes[k].height]++;
    for (unsigned height = MOST_LETTERS + 1; height-- > 0;) {
        unsigned count = next[height];
        next[height] = sum;
        sum += count;
    }
    for (unsigned k = 0; k < b->node_count; k++) {
        struct node *node = b->nodes + b->reached[k];
        node->number = (uint16_t)next[node->height]++;
        b->by_number[node->number] = b->reached[k];
    }
    b->nodes[SINK].number = (uint16_t)(b->node_count + 1);
}

static uint8_t *put_list(const struct builder *b, uint8_t *at, const uint16_t *arcs, unsigned count)
{
    at = put(at, count);
    for (unsigned k = 0; k < count; k++)
        at = put(at, b->nodes[arcs[k]].number);
    return at;
}

static void write_image(const struct builder *b, uint8_t *at)
{
    at = put(at, b->node_count);
    for (unsigned k = 1; k <= b->node_count; k++)
        *at++ = b->nodes[b->by_number[k]].letter;
    at = put_list(b, at, b->path[0].arcs, b->path[0].count);
    for (unsigned k = 1; k <= b->node_count; k++) {
        const struct node *node = b->nodes + b->by_number[k];
        at = put_list(b, at, b->arcs + node->first, node->count);
    }
    put(at, 0);
}

static unsigned places(const struct builder *b, const uint8_t *voice)
{
    unsigned sum = 0;

    for (unsigned k = 0; k < b->node_count; k++)
        sum += voice[2 + 2 * b->nodes[k].letter];
    return sum;
}

static int32_t build(struct builder *b, const uint8_t *voice, const uint8_t *lexicon, uint8_t *out, size_t out_len)
{
    struct graph graph;
    struct word empty = {{0}, 0};
    size_t length;

    memset(b->table, 0, sizeof b->table);
    for (unsigned k = 0; k < MOST_NODES; k++)
        b->nodes[k].number = 0;
    b->word_count = b->total = b->node_count = b->arc_count = b->reached_count = 0;
    b->path[0].count = 0;
    read_lexicon(&graph, lexicon);
    if (spell(b, &graph, 0, &empty) || b->total > MOST_TOTAL)
        return -17;
    for (unsigned i = 0; i < b->word_count; i++)
        b->row[i] = b->words + i;
    sort(b->row, b->other, b->word_count);
    if (add_words(b) || places(b, voice) > MOST_PLACES)
        return -18;
    give_numbers(b);
    length = 2 + b->node_count + 2 * (b->node_count + 1 + b->path[0].count + b->arc_count) + 2;
    if (out_len < length)
        return -16;
    write_image(b, out);
    return (int32_t)length;
}

/* The further work space begins at an address that any type may have. */
int32_t plain_canonical(const uint8_t *voice, const uint8_t *lexicon, uint8_t *further, uint8_t *out, size_t out_len)
{
    int32_t answer = build((struct builder *)(void *)further, voice, lexicon, out, out_len);

    memset(further, 0, FURTHER_BYTES);
    return answer;
}

/* The builder lies in the further work space. */
typedef char builder_fits[sizeof(struct builder) <= FURTHER_BYTES ? 1 : -1];
