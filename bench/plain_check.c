/* Checking as one would write it in C: the same answers, the same work bytes, nothing proved. For bench/check only. */
#include "plain_judge.h"

int32_t plain_check(const uint8_t *voice, size_t voice_len, const uint8_t *lexicon, size_t lexicon_len, uint8_t *work,
                    size_t work_len)
{
    struct reader voice_bytes = {voice, voice + voice_len};
    struct reader lexicon_bytes = {lexicon, lexicon + lexicon_len};
    struct graph graph;
    int32_t answer;

    if (work_len < WORK_SPACE)
        return -1;
    answer = judge(voice_bytes, lexicon_bytes, work, &graph);
    memset(work, 0, WORK_SPACE);
    return answer;
}
