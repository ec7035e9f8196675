// Debian's marisa trie (libmarisa-dev) behind C functions: one trie at a time. For bench/codes only.
#include <cstdint>
#include <cstring>
#include <marisa.h>

static marisa::Keyset words;
static marisa::Trie trie;
static marisa::Agent agent;

extern "C" void marisa_clear() {
  words.reset();
  trie.clear();
}

extern "C" void marisa_add(const uint8_t *word, size_t length) {
  words.push_back(reinterpret_cast<const char *>(word), length);
}

// Bytes of the trie.
extern "C" size_t marisa_build() {
  trie.build(words);
  return trie.io_size();
}

// The word's number, or -1. These numbers are marisa's own, not the lexicon's codes.
extern "C" int64_t marisa_find_code(const uint8_t *word, size_t length) {
  agent.set_query(reinterpret_cast<const char *>(word), length);
  return trie.lookup(agent) ? static_cast<int64_t>(agent.key().id()) : -1;
}

// The length of the word of this number.
extern "C" size_t marisa_find_word(size_t number, uint8_t *out) {
  agent.set_query(number);
  trie.reverse_lookup(agent);
  std::memcpy(out, agent.key().ptr(), agent.key().length());
  return agent.key().length();
}
