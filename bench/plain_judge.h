/* The parts of checking as one would write them in C: nothing proved. For plain_check.c and plain_codes.c, each of which
   calls `judge` in one place, so that the compiler makes one function of it all. */
#include <stddef.h>
#include <stdint.h>
#include <string.h>

enum {
    WORK_SPACE = 64000,
    MOST_NODES = 400,
    MOST_VERTICES = MOST_NODES + 2,
    MOST_ARCS = 4000,
    MOST_PLACES = 1000,
    MOST_LETTERS = 32,
    MOST_WORDS = 1048576,
    ROW = 56 /* bytes of one row of the table of pairs: a bit for each vertex, rounded up to whole words */
};

struct reader {
    const uint8_t *at, *end;
};

struct voice {
    unsigned letters, sum;
    uint8_t states[64];
};

struct graph {
    unsigned nodes, arcs;
    const uint8_t *letters; /* of node v at v - 1 */
    unsigned count[MOST_VERTICES];
    const uint8_t *list[MOST_VERTICES]; /* successors, two bytes each */
    uint16_t seen[MOST_VERTICES];       /* one more than the last vertex that named this one */
    uint32_t paths[MOST_VERTICES];      /* to the sink, at most one more than MOST_WORDS */
};

static unsigned number(const uint8_t *bytes)
{
    return bytes[0] | (unsigned)bytes[1] << 8;
}

static unsigned successor(const struct graph *graph, unsigned vertex, unsigned k)
{
    return number(graph->list[vertex] + 2 * k);
}

static int is_short(const struct reader *reader, ptrdiff_t size)
{
    return reader->end - reader->at < size;
}

static int judge_letters(struct reader *reader, struct voice *voice)
{
    unsigned last = 32;

    if (is_short(reader, 1))
        return 2;
    voice->letters = *reader->at++;
    if (voice->letters < 1 || voice->letters > 64)
        return 3;
    voice->sum = 0;
    for (unsigned k = 0; k < voice->letters; k++) {
        if (is_short(reader, 1))
            return 2;
        if (*reader->at <= last || *reader->at > 126)
            return 3;
        last = *reader->at++;
        if (is_short(reader, 1))
            return 2;
        if (*reader->at < 1 || *reader->at > 4)
            return 3;
        voice->states[k] = *reader->at;
        voice->sum += *reader->at++;
    }
    return 0;
}

static int judge_moves(struct reader *reader, const struct voice *voice)
{
    if (is_short(reader, 2))
        return 2;
    if (number(reader->at) != voice->sum)
        return 3;
    reader->at += 2;
    for (unsigned k = 0; k < voice->letters; k++) {
        for (unsigned state = 1; state <= voice->states[k]; state++) {
            if (is_short(reader, 4))
                return 2;
            if (state == voice->states[k] && number(reader->at + 2) != 0)
                return 3;
            reader->at += 4;
        }
    }
    return 0;
}

/* 0, 2 or 3. */
static int judge_voice(struct reader reader, struct voice *voice)
{
    unsigned links, symbols;
    int refusal = judge_letters(&reader, voice);

    if (refusal == 0)
        refusal = judge_moves(&reader, voice);
    if (refusal != 0)
        return refusal;
    if (is_short(&reader, 1))
        return 2;
    links = *reader.at++;
    if (links != 1 && links != voice->letters)
        return 3;
    if (is_short(&reader, 2 * links + 1))
        return 2;
    reader.at += 2 * links;
    symbols = *reader.at++;
    if (symbols < 1 || symbols > 64)
        return 3;
    return (size_t)(reader.end - reader.at) == (size_t)2 * voice->sum * symbols ? 0 : 2;
}

static int judge_nodes(struct reader *reader, unsigned letters, struct graph *graph)
{
    if (is_short(reader, 2))
        return 4;
    graph->nodes = number(reader->at);
    if (graph->nodes < 1 || graph->nodes > MOST_NODES)
        return 5;
    reader->at += 2;
    graph->letters = reader->at;
    for (unsigned k = 0; k < graph->nodes; k++) {
        if (is_short(reader, 1))
            return 4;
        if (*reader->at++ >= letters)
            return 5;
    }
    return 0;
}

static int judge_list(struct reader *reader, struct graph *graph, unsigned vertex)
{
    unsigned count, nodes = graph->nodes;

    if (is_short(reader, 2))
        return 4;
    count = number(reader->at);
    graph->arcs += count;
    if (count < 1 || count > nodes + 1 || graph->arcs > MOST_ARCS)
        return 5;
    reader->at += 2;
    graph->count[vertex] = count;
    graph->list[vertex] = reader->at;
    for (unsigned k = 0; k < count; k++) {
        unsigned to;
        if (is_short(reader, 2))
            return 4;
        to = number(reader->at);
        if (to <= vertex || to > nodes + (vertex > 0) || graph->seen[to] == vertex + 1)
            return 5;
        graph->seen[to] = (uint16_t)(vertex + 1);
        reader->at += 2;
    }
    return 0;
}

/* 0, 4 or 5. */
static int judge_lexicon(struct reader reader, unsigned letters, struct graph *graph)
{
    int refusal = judge_nodes(&reader, letters, graph);

    graph->arcs = 0;
    memset(graph->seen, 0, sizeof graph->seen);
    for (unsigned vertex = 0; refusal == 0 && vertex <= graph->nodes; vertex++)
        refusal = judge_list(&reader, graph, vertex);
    if (refusal != 0)
        return refusal;
    if (is_short(&reader, 2))
        return 4;
    if (number(reader.at) != 0)
        return 5;
    return is_short(&reader, 3) ? 0 : 4;
}

/* W or a refusal made negative: 6 to 9. */
static int32_t count_words(struct graph *graph, const uint8_t *states)
{
    uint32_t *paths = graph->paths;
    uint16_t longest[MOST_VERTICES];
    unsigned places = 0, sink = graph->nodes + 1;

    for (unsigned node = 1; node < sink; node++) {
        if (graph->seen[node] == 0)
            return -6;
        places += states[graph->letters[node - 1]];
    }
    if (places > MOST_PLACES)
        return -7;
    paths[sink] = 1;
    longest[sink] = 0;
    for (unsigned vertex = sink; vertex-- > 0;) {
        uint32_t sum = 0;
        unsigned most = 0;
        for (unsigned k = 0; k < graph->count[vertex]; k++) {
            unsigned to = successor(graph, vertex, k);
            if (longest[to] > most)
                most = longest[to];
            sum += paths[to];
            if (sum > MOST_WORDS)
                sum = MOST_WORDS + 1;
        }
        paths[vertex] = sum;
        longest[vertex] = (uint16_t)(most + (vertex > 0));
    }
    if (longest[0] > MOST_LETTERS)
        return -8;
    return paths[0] > MOST_WORDS ? -9 : (int32_t)paths[0];
}

static unsigned bit(const uint8_t *row, unsigned k)
{
    return row[k / 8] >> k % 8 & 1;
}

static void set_bit(uint8_t *row, unsigned k)
{
    row[k / 8] |= (uint8_t)(1 << k % 8);
}

/* Marks all y that spell something that a successor of u spells too. */
static void mark(const struct graph *graph, const uint8_t *table, unsigned u, uint8_t *marked)
{
    memset(marked, 0, ROW);
    for (unsigned k = 0; k < graph->count[u]; k++) {
        const uint8_t *row = table + (size_t)ROW * successor(graph, u, k);
        for (unsigned i = 0; i < ROW; i++)
            marked[i] |= row[i];
    }
}

static int has_marked(const struct graph *graph, const uint8_t *marked, unsigned v)
{
    for (unsigned k = 0; k < graph->count[v]; k++)
        if (bit(marked, successor(graph, v, k)))
            return 1;
    return 0;
}

/* Number 10. Row u of the table has the v that spell something that u spells too. Two full paths with the same letters
   part at a vertex of which two successors are such a pair. */
static int spells_twice(const struct graph *graph, uint8_t *table)
{
    unsigned sink = graph->nodes + 1;
    uint8_t marked[ROW];

    memset(table, 0, (size_t)ROW * (sink + 1));
    for (unsigned u = sink - 1; u > 0; u--) {
        mark(graph, table, u, marked);
        if (has_marked(graph, marked, u))
            return 1;
        for (unsigned k = 0; k < graph->count[u]; k++)
            set_bit(marked, successor(graph, u, k));
        for (unsigned v = u + 1; v < sink; v++) {
            if (graph->letters[v - 1] == graph->letters[u - 1] && has_marked(graph, marked, v)) {
                set_bit(table + (size_t)ROW * u, v);
                set_bit(table + (size_t)ROW * v, u);
            }
        }
    }
    mark(graph, table, 0, marked);
    return has_marked(graph, marked, 0);
}

static int32_t judge(struct reader voice_bytes, struct reader lexicon_bytes, uint8_t *work, struct graph *graph)
{
    struct voice voice;
    int32_t words;
    int refusal = judge_voice(voice_bytes, &voice);

    if (refusal == 0)
        refusal = judge_lexicon(lexicon_bytes, voice.letters, graph);
    if (refusal != 0)
        return -refusal;
    words = count_words(graph, voice.states);
    return words > 0 && spells_twice(graph, work) ? -10 : words;
}
