// Determinising and minimising by Debian's OpenFst (libfst-dev) behind C functions. For bench/canonical only.
#include <cstdint>
#include <fst/determinize.h>
#include <fst/minimize.h>
#include <fst/vector-fst.h>

using Acceptor = fst::StdVectorFst;

static unsigned number(const uint8_t *bytes) { return bytes[0] | static_cast<unsigned>(bytes[1]) << 8; }

static void join(Acceptor *acceptor, int from, unsigned letter, int to) {
  // label 0 would be no letter
  const int label = static_cast<int>(letter) + 1;
  acceptor->AddArc(from, fst::StdArc(label, label, fst::StdArc::Weight::One(), to));
}

// The states left. They go by what may follow alone, where a lexicon's nodes go by their letter too.
static size_t smallest(const Acceptor &acceptor) {
  Acceptor result;
  fst::Determinize(acceptor, &result);
  fst::Minimize(&result);
  return static_cast<size_t>(result.NumStates());
}

// Of a lexicon's graph: a vertex is a state, which is final if the vertex leads to the sink.
extern "C" size_t openfst_of_graph(const uint8_t *lexicon) {
  const unsigned nodes = number(lexicon);
  const uint8_t *letters = lexicon + 2, *list = letters + nodes;
  Acceptor acceptor;
  for (unsigned vertex = 0; vertex <= nodes; vertex++)
    acceptor.AddState();
  acceptor.SetStart(0);
  for (unsigned vertex = 0; vertex <= nodes; vertex++) {
    unsigned count = number(list);
    for (list += 2; count > 0; count--, list += 2) {
      const unsigned to = number(list);
      if (to > nodes)
        acceptor.SetFinal(static_cast<int>(vertex), fst::StdArc::Weight::One());
      else
        join(&acceptor, static_cast<int>(vertex), letters[to - 1], static_cast<int>(to));
    }
  }
  return smallest(acceptor);
}

// Of words, each a path of its own. Each is its length and its letters.
extern "C" size_t openfst_of_words(const uint8_t *words, size_t count) {
  Acceptor acceptor;
  acceptor.SetStart(acceptor.AddState());
  for (; count > 0; count--) {
    int state = acceptor.Start();
    for (unsigned left = *words++; left > 0; left--) {
      const int next = acceptor.AddState();
      join(&acceptor, state, *words++, next);
      state = next;
    }
    acceptor.SetFinal(state, fst::StdArc::Weight::One());
  }
  return smallest(acceptor);
}
