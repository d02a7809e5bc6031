/* Calls the library from C: prints the report for trace A, all latencies 5. The line that ./library prints compiles it, with this
 * file in the place of program.c.
 */
#include "cantuvesh.h"

#include <inttypes.h>
#include <stdio.h>

static const char trace[] =
    "-3 -21 0.000010 0 0 3 2 8 1 1\n"
    "-4 -21 0.000012 0 0 0\n"
    "-4 -52 0.000009 1 0 3 2 8 1 0\n"
    "-3 -21 0.000011 1 0 3 2 8 2 0\n"
    "-4 -51 0.000013 0 0 3 2 8 2 1\n";

static uint32_t latencies[CANTUVESH_LATENCIES];
static int64_t times[CANTUVESH_TIMES];
static uint8_t room[CANTUVESH_TRACE_LIMIT];

int main(void)
{
    static const char *const verdicts[] = {"", "consistent", "corrected", "nothing to judge"};

    for (size_t pair = 0; pair < CANTUVESH_LATENCIES; pair++)
        latencies[pair] = 5;

    struct cantuvesh_asked asked = {
        .choice = CANTUVESH_STRICT, .levels = CANTUVESH_LEVELS_OFF, .statistics = CANTUVESH_STATISTICS_OFF, .share = 0};
    struct cantuvesh_answer answer = cantuvesh_judge(
        (const uint8_t *)trace, sizeof trace - 1,
        latencies, CANTUVESH_LATENCIES,
        asked,
        times, CANTUVESH_TIMES,
        false,
        room, sizeof room);

    if (answer.number != 0) {
        printf("refused %" PRIu64 " line %" PRIu64 " column %" PRIu64 "\n", answer.number, answer.line, answer.column);
        return 1;
    }
    printf("verdict %s\n", verdicts[answer.verdict]);
    printf("listed %" PRIu64 "\n", answer.listed);
    printf("passed %" PRIu64 "\n", answer.passed);
    printf("matched %" PRIu64 "\n", answer.matched);
    printf("unreceived %" PRIu64 "\n", answer.unreceived);
    printf("rounds %" PRIu64 "\n", answer.rounds);
    return 0;
}
