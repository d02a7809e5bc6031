/* Cantuvesh: a proved reader and corrector of PICL event traces, as a library.
 *
 * ./library makes it for x86-64, as lib/libcantuvesh.a and lib/libcantuvesh.so beside
 * include/cantuvesh.h, and prints the line that compiles a program with it. It needs no set-up, keeps
 * nothing between calls, allocates nothing and may be called from several threads at once, each with
 * times, room and lists of its own. To judge takes some 180,000 bytes of the calling thread's stack
 * (171,960 as reference/stack measured it: at 2,048 records, the written trace wanted, and with the
 * registers that the loader keeps where it binds a function at its first use), to merge some 90,000
 * (83,288), to list the messages some 210,000 (202,424), and a chain of 2,048 records some 370,000
 * (360,960).
 */
#ifndef CANTUVESH_H
#define CANTUVESH_H

#include <stdbool.h>
#include <stddef.h>
#include <stdint.h>

#ifdef __cplusplus
extern "C" {
#endif

#define CANTUVESH_VERSION "0.9.0"

/* The sizes of a call. Each of two traces that are merged has the limits of a trace by itself. */
#define CANTUVESH_TRACE_LIMIT 65536     /* the most bytes that a trace may have */
#define CANTUVESH_PROCESSORS 64         /* processors are 0 to 63 */
#define CANTUVESH_LATENCIES 4096        /* the exact number of lent latencies */
#define CANTUVESH_LATENCY_LIMIT 1000000 /* the highest latency, in microseconds */
#define CANTUVESH_SHARE_LIMIT 1000      /* the highest share of a gap, in thousandths: all of it */
#define CANTUVESH_TIMES 2048            /* the exact number of lent times; the most listed records */
#define CANTUVESH_ROOM 81920            /* so many bytes of room are enough for every written trace */

/* What `asked.choice`, and the choice of a merging, may be. */
#define CANTUVESH_STRICT 1  /* an unlisted line is refused */
#define CANTUVESH_LENIENT 2 /* an unlisted line is passed over */

/* What `asked.levels` may be. */
#define CANTUVESH_LEVELS_OFF 0 /* no levels are expected, and the three numbers are not looked at */
#define CANTUVESH_LEVELS_ON 1  /* each processor's last mark has to tell the three numbers (17) */

/* What `asked.statistics` may be. */
#define CANTUVESH_STATISTICS_OFF 0 /* statistics records are read, and what they tell is not compared */
#define CANTUVESH_STATISTICS_ON 1  /* what they tell has to agree with the records before them (19) */

/* What the caller names beside the trace and the table. Nothing in it has a default here, but C sets
 * what an initializer leaves out to 0, which is refused as a choice, is off as a switch and as a share
 * keeps nothing: name all four.
 *
 * Tracing levels are told by marks: records of type -2 and event -904 with three data under descriptor
 * 2. No other record counts. The three expected levels stand in the order of these data and may be any
 * numbers; one that no field can hold is never met.
 *
 * Statistics are records of type -101, -102 and -103, listed whatever their event is. Behind the data
 * count, which counts pairs, stand "%d%lf" in quotes for -101, or "%d%d", and then the pairs: an event,
 * and what is told of it. Those with event -1 are compared with their processor's records before them in
 * the file, at their original times, for each listed event that they name:
 *
 *     -101  its time: the exits' times less the entries', to within one microsecond for each entry; where
 *           entries and exits are not equally many, and a time of -1.000000, it is not compared
 *     -102  its count: entries and marks
 *     -103  its volume: of -21 the lengths that were sent by its entries, of -51 and -52 those that were
 *           received by its exits; of other events it is not compared
 *
 * A count or volume of -1 is not compared.
 *
 * The share is how much is kept, in thousandths, of the gap between a listed record and the one before it
 * on its processor, statistics among them. Where a receive moves, what follows it on its processor is
 * squeezed: at share 0 records that were apart may come to one time. At 500 each lies behind the one before
 * it by half of the microseconds that were between their original times at least, rounded down for each gap
 * by itself: 3 of 7, and 0 of 1. At 1,000 no gap shrinks. A trace whose times need not move at share 0 has
 * these times at every share. Others come to no earlier times at a higher share, or to none (15): two
 * messages that wait for each other have times only where nothing is kept between them.
 */
struct cantuvesh_asked {
    uint32_t choice;     /* what to do with an unlisted line: CANTUVESH_STRICT or CANTUVESH_LENIENT */
    uint32_t levels;     /* whether levels are expected: CANTUVESH_LEVELS_OFF or CANTUVESH_LEVELS_ON */
    int64_t picl;        /* the expected level of PICL events */
    int64_t user;        /* the expected level of user events */
    int64_t trace;       /* the expected level of trace events */
    uint32_t statistics; /* whether statistics are compared: one of the two above; from 0.8.0 on */
    uint32_t share;      /* how much of each gap is kept: 0 to CANTUVESH_SHARE_LIMIT; from 0.9.0 on */
};

/* Messages are records with three data under descriptor 2: the length in bytes, the type, and the
 * processor that it goes to or comes from.
 *
 *     send     the entry (-3) of send0, -21, or of sendbegin0, -27
 *     receive  the exit (-4) of recv0, -51 or -52, of recvstatus0 that found it complete, -58, or of
 *              recvend0, -60 or -61
 *
 * The k-th receive at a processor from another, of one type, belongs to the k-th send from that one to
 * it, of that type, both counted in file order and whichever of these events they are. It may take
 * fewer bytes than were sent, but no more (14). All other records of -21, -27 to -31, -51, -52 and -57
 * to -61 are listed and no messages; what is left of -21 to -80 is refused (8).
 */

/* What `verdict` may be in an accepted answer; 0 in a refusal. */
#define CANTUVESH_CONSISTENT 1       /* messages matched, and no time had to move */
#define CANTUVESH_CORRECTED 2        /* messages matched, and some time moved */
#define CANTUVESH_NOTHING_TO_JUDGE 3 /* no message matched */

/* The answer. A refusal has its number, line and column, and 0 in all the rest. Only 5 to 10 have a
 * column other than 0. It is where the field that decides begins in its line, counted from 1 in bytes,
 * whatever bytes they are:
 *
 *      5  one past the line's last byte, the LF not counted, where the LF or one of the first six fields
 *         is missing; else the leftmost bad field, be it one too many; else, where a field is missing
 *         behind the six, one past the line's last byte again
 *      6  the timestamp
 *      7  the record type if it is not listed, else the event type
 *      8  the event type
 *      9  the processor if it is outside 0 to 63, else the process
 *     10  the data count if it is not 3, else the descriptor if it is not 2, else the first bad one of
 *         length and processor
 */
struct cantuvesh_answer {
    uint64_t number;     /* 0 accepted, else the refusal below */
    uint64_t line;       /* the refused line, counted from 1; 0 where no line is meant */
    uint64_t column;     /* the column of the field that decides, counted from 1; 0 where none is meant */
    uint64_t verdict;    /* one of the three above */
    uint64_t listed;     /* listed records: so many of the lent times are written */
    uint64_t passed;     /* lines passed over */
    uint64_t matched;    /* messages, each a receive with its send */
    uint64_t unreceived; /* sends that no receive belongs to */
    uint64_t rounds;     /* the first round of corrections that the next one repeats */
    uint64_t written;    /* bytes of the written trace; 0 if it was not wanted */
};

/* Refusals, the first that holds in this order: 1 to 4; then 5 to 12 line by line, the first bad
 * line deciding; then 17, the smallest processor deciding, at the line of its last listed record; then
 * 19, at the first statistics record in file order that calls for it; then the first receive in file
 * order that calls for 13 or 14; then 15; then 16. Of a merging: 1; then 4 to
 * 12 of the first trace; then 4 to 12 of the second; then 18; then 16. No others are asked there. Of a list
 * of messages, or a chain: those of judging up to 15; then, of a chain, 22; then 16.
 *
 *    1  the choice is neither 1 (strict) nor 2 (lenient), or the levels' or the statistics' switch is
 *       neither 0 (off) nor 1 (on)
 *    2  the table or the lent times have the wrong length, or the share is above 1,000
 *    3  a latency is above 1,000,000
 *    4  the trace is longer than 65,536 bytes
 *    5  the form of the line, or of a field of it other than the timestamp, is bad (bad data too)
 *    6  the form of the timestamp is bad
 *    7  the record type or the event type is not listed, and the choice is strict
 *    8  the event is a message event that is not handled, under either choice
 *    9  a listed record's processor is outside 0 to 63, or its process is not 0
 *   10  a send or a receive is without its three good data
 *   11  the time is below the last listed one of its processor
 *   12  there is a listed record number 2,049
 *   13  the receive has no matching send
 *   14  the receive's length is above its send's
 *   15  no times exist: a ring of waits adds up to more than 0, or a time would be beyond the format's end
 *   16  the trace to be written, corrected or merged, is longer than the room, or the list to be
 *       filled is too short
 *   17  a processor with listed records has no tracing-level mark that counts, or its last one is not
 *       what is expected
 *   18  both of the traces to be merged hold a listed record of the same processor
 *   19  a statistics record tells another time, count or volume of an event than its processor's records
 *       before it give
 *   22  there is no such listed record: the place is not below their number, or none stands on the asked
 *       line
 */

/* Judges one trace.
 *
 * trace, trace_len
 *     The bytes of the trace, each line ended by LF, the last one too. Any bytes may be lent, and any
 *     number of them: what is no good trace is refused.
 * latencies, latencies_len
 *     The least time that a message takes, in microseconds: the entry at 64 * sender + receiver. They
 *     are CANTUVESH_LATENCIES, none above CANTUVESH_LATENCY_LIMIT, whether a message uses it or not.
 * asked
 *     What the caller names, by value: in asked.choice CANTUVESH_STRICT or CANTUVESH_LENIENT, in
 *     asked.levels CANTUVESH_LEVELS_OFF or CANTUVESH_LEVELS_ON and, where they are on, in asked.picl,
 *     asked.user and asked.trace what the last mark of each processor with listed records has to tell;
 *     in asked.statistics CANTUVESH_STATISTICS_OFF or CANTUVESH_STATISTICS_ON; in asked.share 0 to
 *     CANTUVESH_SHARE_LIMIT.
 * times, times_len
 *     Where an accepted trace's corrected times go, in microseconds and in file order of the listed
 *     records: times[0] to times[listed - 1] of CANTUVESH_TIMES places. All later ones are left as
 *     they were, and every one if the trace is refused.
 * wanted
 *     Whether the written trace is wanted: the trace's bytes with the timestamp of each listed record
 *     replaced by its corrected time. Pass true or false, no other bits.
 * room, room_len
 *     Where the written trace goes, at its start: room[0] to room[written - 1]. It may be shorter
 *     than the trace, or longer by at most 8 bytes for each listed record, so CANTUVESH_ROOM bytes are
 *     always enough. All later places are left as they were, and every place if the trace is refused
 *     or the written one is not wanted.
 *
 * No length is asked of the caller beyond what it says: a wrong one is refused (2, 4, 16). But every
 * pointer must be one to so many places as its length says, and not NULL even where that is 0;
 * latencies and times must be aligned as their types are, bytes may stand anywhere; and times and
 * room may overlap neither each other nor trace and latencies.
 */
struct cantuvesh_answer cantuvesh_judge(
    const uint8_t *trace, size_t trace_len,
    const uint32_t *latencies, size_t latencies_len,
    struct cantuvesh_asked asked,
    int64_t *times, size_t times_len,
    bool wanted,
    uint8_t *room, size_t room_len);

/* The answer of a merging. A refusal has its number and, for 4 to 12, its trace, with the line and the
 * column that it has there, and 0 in all the rest; two traces that are merged have `written` alone. From
 * 0.6.0 on.
 */
struct cantuvesh_merged {
    uint64_t number;  /* 0 merged, else the refusal above */
    uint64_t which;   /* the trace that 4 to 12 mean, 1 or 2; 0 for all else */
    uint64_t line;    /* the refused line of that trace, counted from 1; 0 where no line is meant */
    uint64_t column;  /* the column of the field that decides, counted from 1; 0 where none is meant */
    uint64_t written; /* bytes of the merged trace: as many as both have together */
};

/* Merges two traces, as of nodes that write one file each.
 *
 * At each step, of the two lines at the heads, the one with the smaller timestamp goes next, the first
 * trace's where equal; lines that are passed over go by their timestamps, too. So every line appears
 * once, as it is, and each trace's own order stays; the merged trace is sorted by time only as far as
 * both were. It may pass the limits of a trace, of bytes or of listed records: that is for who reads it
 * (4, 12), and so are messages, clocks and levels.
 *
 * first, first_len; second, second_len
 *     The bytes of the two traces, as cantuvesh_judge takes one. Each has to be good by itself (4 to 12),
 *     and no processor may have listed records in both (18); lines that are passed over may be of any.
 * choice
 *     CANTUVESH_STRICT or CANTUVESH_LENIENT, for both.
 * room, room_len
 *     Where the merged trace goes, at its start: room[0] to room[written - 1]. first_len + second_len
 *     bytes are always enough, and no fewer are. All later places are left as they were, and every
 *     place if the traces are refused.
 *
 * As above, any lengths may be lent, no pointer may be NULL, and bytes may stand anywhere. The room may
 * overlap neither trace; the two may overlap, or be the same.
 */
struct cantuvesh_merged cantuvesh_merge(
    const uint8_t *first, size_t first_len,
    const uint8_t *second, size_t second_len,
    uint32_t choice,
    uint8_t *room, size_t room_len);

/* The answer of a call that fills a list. A refusal has its number, line and column, as an answer of judging
 * has them, and `filled` 0; where a list is filled, `filled` stands alone. From 0.7.0 on.
 */
struct cantuvesh_filled {
    uint64_t number; /* 0 filled, else the refusal above */
    uint64_t line;   /* the refused line, counted from 1; 0 where no line is meant */
    uint64_t column; /* the column of the field that decides, counted from 1; 0 where none is meant */
    uint64_t filled; /* places of the list that are filled, from its first on */
};

/* A message: the places of its two records. Places count the listed records from 0 in file order, as those
 * of the lent times do; lines that are passed over have none.
 */
struct cantuvesh_message {
    uint64_t send;
    uint64_t receive;
};

/* Lists the messages of one trace: one for each receive, in file order of the receives.
 *
 * trace, trace_len; latencies, latencies_len; asked
 *     As cantuvesh_judge takes them. What that refuses from 1 to 15, by 17 and by 19, is refused here, too,
 *     with the same line and column; no times are lent, so 2 means the table or the share.
 * list, list_len
 *     Where the messages go: list[0] to list[filled - 1]. A list that is too short is refused (16); half of
 *     CANTUVESH_TIMES are always enough, and without a message an empty list is. All later places are left
 *     as they were, and every place if the call is refused.
 *
 * As above, any lengths may be lent, and no pointer may be NULL even where its length is 0; latencies and
 * list must be aligned as their types are, and the list may overlap neither trace nor latencies.
 */
struct cantuvesh_filled cantuvesh_messages(
    const uint8_t *trace, size_t trace_len,
    const uint32_t *latencies, size_t latencies_len,
    struct cantuvesh_asked asked,
    struct cantuvesh_message *list, size_t list_len);

/* Tells why one record's time moved: the chain of records from it back to one that is still at its original
 * time.
 *
 * Each step goes to the record before on the same processor, if that plus the gap that is kept between them
 * is its time, or from a receive to its send, if that plus the latency is. So the time of the last record in
 * the chain, and the latencies and kept gaps on the way, add up to the time of the first, and no record
 * occurs twice. It is a chain with the fewest steps, and of those, at the first step where two differ, the
 * one that goes to the record before on the processor. A record that has not moved is alone in its chain.
 *
 * trace, trace_len; latencies, latencies_len; asked
 *     As above.
 * place
 *     The place of the asked record. One that is not below the number of listed records is refused (22),
 *     before 16.
 * list, list_len
 *     Where the chain goes, with both of its ends: list[0], which is `place`, to list[filled - 1]. A list
 *     that is too short is refused (16); CANTUVESH_TIMES places are always enough. All later places are left
 *     as they were, and every place if the call is refused.
 *
 * What is said above of lengths, pointers and overlaps holds here, too.
 */
struct cantuvesh_filled cantuvesh_chain(
    const uint8_t *trace, size_t trace_len,
    const uint32_t *latencies, size_t latencies_len,
    struct cantuvesh_asked asked,
    uint64_t place,
    uint64_t *list, size_t list_len);

#ifdef __cplusplus
}
#endif

#endif
