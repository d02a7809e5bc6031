/* How much stack one call uses: a thread whose stack was painted beforehand makes the call, and the deepest byte that lost its paint
 * tells. The difference to a thread that does nothing is printed, in bytes: of judging the longest chain, written too, of merging two
 * traces of 2,048 records, and of listing the messages of that chain and the chain itself. reference/stack compiles and runs it.
 */
#include "cantuvesh.h"

#include <inttypes.h>
#include <pthread.h>
#include <stdio.h>
#include <stdlib.h>
#include <string.h>

enum { STACK = 4 << 20, PAINT = 0xA5 };

static char trace[CANTUVESH_TRACE_LIMIT];
static size_t trace_len;
static uint32_t latencies[CANTUVESH_LATENCIES];
static int64_t times[CANTUVESH_TIMES];
static uint8_t room[CANTUVESH_ROOM];
static const struct cantuvesh_asked asked = {
    .choice = CANTUVESH_STRICT, .levels = CANTUVESH_LEVELS_OFF, .statistics = CANTUVESH_STATISTICS_OFF, .share = 500};
static struct cantuvesh_answer answer;

static char nodes[2][CANTUVESH_TRACE_LIMIT];
static size_t node_len[2];
static uint8_t merged_room[2 * CANTUVESH_TRACE_LIMIT];
static struct cantuvesh_merged merged;

static struct cantuvesh_message messages[CANTUVESH_TIMES / 2];
static uint64_t links[CANTUVESH_TIMES];
static struct cantuvesh_filled listed, linked;

static void *judge(void *unused)
{
    answer = cantuvesh_judge((const uint8_t *)trace, trace_len, latencies, CANTUVESH_LATENCIES, asked,
                             times, CANTUVESH_TIMES, true, room, sizeof room);
    return unused;
}

static void *merge(void *unused)
{
    merged = cantuvesh_merge((const uint8_t *)nodes[0], node_len[0], (const uint8_t *)nodes[1], node_len[1],
                             CANTUVESH_STRICT, merged_room, sizeof merged_room);
    return unused;
}

static void *list_messages(void *unused)
{
    listed = cantuvesh_messages((const uint8_t *)trace, trace_len, latencies, CANTUVESH_LATENCIES, asked,
                                messages, CANTUVESH_TIMES / 2);
    return unused;
}

static void *list_chain(void *unused)
{
    linked = cantuvesh_chain((const uint8_t *)trace, trace_len, latencies, CANTUVESH_LATENCIES, asked,
                             CANTUVESH_TIMES - 1, links, CANTUVESH_TIMES);
    return unused;
}

static void *nothing(void *unused)
{
    return unused;
}

/* The bytes between the top of the stack and the deepest one written. */
static size_t depth_of(void *(*work)(void *))
{
    unsigned char *stack = aligned_alloc(4096, STACK);
    pthread_attr_t attributes;
    pthread_t thread;
    size_t untouched = 0;

    memset(stack, PAINT, STACK);
    if (pthread_attr_init(&attributes) || pthread_attr_setstack(&attributes, stack, STACK)
        || pthread_create(&thread, &attributes, work, NULL) || pthread_join(thread, NULL))
        exit(1);
    while (stack[untouched] == PAINT)
        untouched++;
    free(stack);
    return STACK - untouched;
}

/* A message handed on from processor to processor, every clock at 0: as many rounds as 2,048 records can need. */
static void make_chain(void)
{
    for (int hop = 0; hop < CANTUVESH_TIMES / 2; hop++) {
        int from = hop % 64, to = (hop + 1) % 64;
        trace_len += sprintf(trace + trace_len, "-3 -21 0.000000 %d 0 3 2 0 0 %d\n", from, to);
        trace_len += sprintf(trace + trace_len, "-4 -52 0.000000 %d 0 3 2 0 0 %d\n", to, from);
    }
}

/* The records of one processor on either node, their times by turns. */
static void make_nodes(void)
{
    for (int place = 0; place < 2 * CANTUVESH_TIMES; place++) {
        int node = place % 2;
        node_len[node] += sprintf(nodes[node] + node_len[node], "0 0 0.%06d %d 0 0\n", place, node);
    }
}

int main(void)
{
    for (size_t pair = 0; pair < CANTUVESH_LATENCIES; pair++)
        latencies[pair] = 5;
    make_chain();
    make_nodes();
    size_t idle = depth_of(nothing);
    size_t judging = depth_of(judge);
    size_t merging = depth_of(merge);
    size_t listing = depth_of(list_messages);
    size_t linking = depth_of(list_chain);
    printf("number %" PRIu64 ", listed %" PRIu64 ", rounds %" PRIu64 ", written %" PRIu64 "\n",
           answer.number, answer.listed, answer.rounds, answer.written);
    printf("%zu bytes of stack\n", judging - idle);
    printf("merging: number %" PRIu64 ", written %" PRIu64 "\n", merged.number, merged.written);
    printf("%zu bytes of stack\n", merging - idle);
    printf("messages: number %" PRIu64 ", filled %" PRIu64 "\n", listed.number, listed.filled);
    printf("%zu bytes of stack\n", listing - idle);
    printf("a chain: number %" PRIu64 ", filled %" PRIu64 "\n", linked.number, linked.filled);
    printf("%zu bytes of stack\n", linking - idle);
    return 0;
}
