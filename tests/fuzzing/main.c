/* Random calls of the C interface, each held to what has to be true of any call, with no reference beside it.
 * tests/fuzz builds and runs it.
 *
 * A round draws two images (the small lexicon, or random ones, then damaged or not) and makes calls with them, and
 * calls of packing and unpacking. Buffers are just as long as the call is told. They lie against a page that may not be
 * touched, behind them or before them, so that a byte outside ends the run, or they come from malloc, for valgrind and
 * the sanitizers to watch. Seed and round make a round again.
 */
#define _GNU_SOURCE
#include "canonical.h"
#include "items.h"
#include "packing.h"

#include <time.h>

static void make_round(void)
{
    state = seed;
    state = next() ^ round_now;
    alarm(300);
    draw_images();
    test_check();
    test_list();
    test_canonical();
    for (int k = 0; k < 3; k++) {
        test_word_to_code();
        test_words_to_codes();
        test_code_to_word();
        test_decode();
        test_pack();
        test_unpack();
    }
}

int main(int count, char **words)
{
    long seconds = count > 1 ? atol(words[1]) : 10;
    time_t end = time(NULL) + seconds;
    seed = count > 2 ? strtoull(words[2], NULL, 10) : 20240501;
    round_now = first_round = count > 3 ? strtoull(words[3], NULL, 10) : 0;
    printf("seed %llu, %ld s\n", seed, seconds);
    fflush(stdout);
    reserve();
    signal(SIGSEGV, stopped);
    signal(SIGBUS, stopped);
    signal(SIGILL, stopped);
    signal(SIGFPE, stopped);
    signal(SIGALRM, stopped);
    do {
        make_round();
        round_now++;
    } while (time(NULL) < end && findings < SHOWN);
    print_counts();
    return findings == 0 ? 0 : 1;
}
