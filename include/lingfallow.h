/* Lingfallow: worst-case delays of the message flows of a plan, a writer of plans and a conversion of stored ones, for
 * C99 and C++ on x86-64 Linux.
 *
 * For lingfallow_analyse link with libanalyser.a, for lingfallow_write with libwriter.a, for lingfallow_convert with
 * libconverter.a; `bash -c '. tests/common/build.sh && build_archives'` writes them to target/staticlib/. None needs
 * another, and a program may link them all. docs/FORMAT.md has the formats with examples, plans/ has plans in commented
 * hex, and examples/analyse.c, examples/write.c and examples/convert.c are programs to start from.
 */
#ifndef LINGFALLOW_H
#define LINGFALLOW_H

#include <stddef.h>
#include <stdint.h>

#ifdef __cplusplus
extern "C" {
#endif

/* The version; CHANGELOG.md says what each one changed for a caller. */
#define LINGFALLOW_VERSION_MAJOR 0
#define LINGFALLOW_VERSION_MINOR 8
#define LINGFALLOW_VERSION_PATCH 0

/* Sizes in bytes, and the most flows of a plan. */
#define LINGFALLOW_MOST_FLOWS 64
#define LINGFALLOW_LONGEST_PLAN 1485   /* no longer plan is accepted: a platform, 64 flows and the end record */
#define LINGFALLOW_DECIDING_BYTES 2048 /* of any input the first 2,048 bytes decide: further ones change nothing */
#define LINGFALLOW_LONGEST_REPLY 1027  /* a buffer of this size has room for every reply, and never meets refusal 11 */
#define LINGFALLOW_FLOW_RECORD 16      /* a flow's record in the reply */

/* The plan: a platform record, 0 to 64 flow records, then the end record 7F 00 00, then nothing. Numbers are unsigned,
 * most significant byte first. The platform's record starts at 0; with a length of 6 the record of flow k, counted from
 * 0, starts at 9 + 23k, and a plan of n flows has 12 + 23n bytes. With a length of 7, for a chip that sends the
 * priority in flits of its own, all behind that record stands one byte later: 10 + 23k, and 13 + 23n bytes.
 *
 *   the platform                                     a flow
 *   offset  size  meaning                            offset  size  meaning
 *        0     1  tag: 01 hex                             0     1  tag: 02 hex
 *        1     2  length of what follows: 6 or 7          1     2  length of what follows: 20
 *        3     1  columns                                 3     2  id, which no other flow has
 *        4     1  rows                                    5     2  priority, which no other flow has; 1 is the highest
 *        5     1  link cycles                             7     1  source: row x columns + column
 *        6     1  routing cycles                          8     1  destination, not the source
 *        7     1  buffer flits                            9     2  flits
 *        8     1  method                                 11     4  period, in clock cycles
 *        9     1  priority flits, if the length is 7     15     4  deadline, in clock cycles from the tick
 *                                                        19     4  jitter: cycles from the tick to the release, at most
 *
 * Allowed values: from LEAST to MOST; from 0 where no LEAST stands. Source and destination are below columns x rows,
 * and a deadline is at most its period. The priority flits count with each flow's own in its unloaded latency; a record
 * of length 6 has none.
 */
#define LINGFALLOW_LEAST_COLUMNS 1
#define LINGFALLOW_MOST_COLUMNS 8
#define LINGFALLOW_LEAST_ROWS 1
#define LINGFALLOW_MOST_ROWS 8
#define LINGFALLOW_LEAST_LINK_CYCLES 1
#define LINGFALLOW_MOST_LINK_CYCLES 16
#define LINGFALLOW_MOST_ROUTING_CYCLES 16
#define LINGFALLOW_LEAST_BUFFER_FLITS 1
#define LINGFALLOW_MOST_BUFFER_FLITS 64
#define LINGFALLOW_MOST_METHOD 3
#define LINGFALLOW_LEAST_PRIORITY_FLITS 1
#define LINGFALLOW_MOST_PRIORITY_FLITS 8
#define LINGFALLOW_MOST_ID 65534
#define LINGFALLOW_LEAST_PRIORITY 1
#define LINGFALLOW_MOST_PRIORITY 65535
#define LINGFALLOW_LEAST_FLITS 1
#define LINGFALLOW_MOST_FLITS 65535
#define LINGFALLOW_LEAST_PERIOD 1
#define LINGFALLOW_MOST_PERIOD 1000000000
#define LINGFALLOW_LEAST_DEADLINE 1
#define LINGFALLOW_MOST_JITTER 1000000000

/* Methods. 0 asks for the house default, which is IBN: the reply is that of method 3, and a plan keeps its 0. Before
 * 0.8.0 it was XLWX, the reply that of method 2: lingfallow_convert keeps the figures of a plan that was stored then.
 */
#define LINGFALLOW_METHOD_DEFAULT 0
#define LINGFALLOW_METHOD_SB 1
#define LINGFALLOW_METHOD_XLWX 2
#define LINGFALLOW_METHOD_IBN 3

/* The reply: one record for each flow, in plan order, then the end record 7F 00 00: 16n + 3 bytes for n flows. Numbers
 * are unsigned, most significant byte first. The record of flow k, counted from 0, starts at 16k:
 *
 *   offset  size  meaning
 *        0     1  tag: 81 hex
 *        1     2  length of what follows: 13
 *        3     2  id of the flow
 *        5     1  verdict: 0 bounded, 1 late, 2 waits
 *        6     2  named flow: if it waits, the id of its unbounded direct flow of highest priority; otherwise FFFF hex
 *        8     4  bound: if it is bounded, its worst-case response time in clock cycles; otherwise 0
 *       12     4  rounds: how often the recurrence was applied; 0 if it waits, or if its unloaded latency alone is late
 *
 * A deadline runs from the tick, a bound from the packet's release, which is up to the flow's jitter after the tick. So
 * a flow is bounded only if its bound plus its jitter is at most its deadline; it is late with 0 rounds if it does not
 * wait and its unloaded latency plus its jitter is above its deadline, as with any jitter not below the deadline.
 */
#define LINGFALLOW_BOUNDED 0
#define LINGFALLOW_LATE 1
#define LINGFALLOW_WAITS 2

/* What a call returns. */
struct lingfallow_returned {
    uint8_t number; /* 0: accepted; else refused, with a number of the table below */
    size_t value;   /* accepted: the length of the reply or plan written, 0 of a conversion; refused: the place */
};

/* The numbers of refusals: when each is given, and whose place in the plan's bytes is told with it. 5 is free.
 *
 * Within a record they are looked for in the order 1 (the record's first 3 bytes), 2, 4, 3, 1 (its body), 6, then field
 * by field (20 to 26, or 30 to 36, 38, 37), 9, 7, 8. The first record in fault decides; then comes 10, then 11. No
 * refusal is given otherwise.
 */
enum lingfallow_refusal {
    LINGFALLOW_ACCEPTED = 0,
    LINGFALLOW_REFUSED_CUT = 1,                   /* under 3 bytes for a record, or its body is cut: its start */
    LINGFALLOW_REFUSED_UNKNOWN_TAG = 2,           /* unknown tag: the tag */
    LINGFALLOW_REFUSED_LENGTH = 3,                /* length is not the tag's: the length */
    LINGFALLOW_REFUSED_PLATFORM_PLACE = 4,        /* first record no platform, or a later one is: the tag */
    LINGFALLOW_REFUSED_FLOW_65 = 6,               /* a 65th flow: its tag */
    LINGFALLOW_REFUSED_ID_TAKEN = 7,              /* id equal to an earlier flow's: the id */
    LINGFALLOW_REFUSED_PRIORITY_TAKEN = 8,        /* priority equal to an earlier flow's: the priority */
    LINGFALLOW_REFUSED_SOURCE_IS_DESTINATION = 9, /* source equals destination: the destination */
    LINGFALLOW_REFUSED_AFTER_END = 10,            /* a byte after the end record: that byte */
    LINGFALLOW_REFUSED_NO_ROOM = 11,              /* the reply's buffer, or the written plan's, is too short: 0 */
    /* A field outside its values: that field. Of the platform .. */
    LINGFALLOW_REFUSED_COLUMNS = 20,
    LINGFALLOW_REFUSED_ROWS = 21,
    LINGFALLOW_REFUSED_LINK_CYCLES = 22,
    LINGFALLOW_REFUSED_ROUTING_CYCLES = 23,
    LINGFALLOW_REFUSED_BUFFER_FLITS = 24,
    LINGFALLOW_REFUSED_METHOD = 25,
    LINGFALLOW_REFUSED_PRIORITY_FLITS = 26,
    /* .. and of a flow. */
    LINGFALLOW_REFUSED_ID = 30,
    LINGFALLOW_REFUSED_PRIORITY = 31,
    LINGFALLOW_REFUSED_SOURCE = 32,
    LINGFALLOW_REFUSED_DESTINATION = 33,
    LINGFALLOW_REFUSED_FLITS = 34,
    LINGFALLOW_REFUSED_PERIOD = 35,
    LINGFALLOW_REFUSED_DEADLINE_ZERO = 36,
    LINGFALLOW_REFUSED_JITTER = 37,
    LINGFALLOW_REFUSED_DEADLINE_ABOVE_PERIOD = 38
};

/* Analyses the plan in the plan_length bytes at plan, and writes its reply into the reply_length bytes at reply.
 *
 * Accepted: number is 0 and value is the reply's length, 16n + 3 for a plan of n flows. The first value bytes at reply
 * hold the reply of the layout above; every further byte of the buffer holds what it held before.
 *
 * Refused: number is one of enum lingfallow_refusal and value its place, an offset into the plan's bytes, or 0 for 11,
 * which is given if reply_length is below 16n + 3. The whole buffer holds what it held before.
 *
 * It asks nothing of the bytes and nothing of the two lengths: every input is accepted or refused as above. What it
 * returns and writes depends on the plan's bytes and on reply_length alone. It always ends; its time grows with the
 * rounds, which for each flow are at most 2 + the sum over its direct flows j of
 * (deadline - jitter - unloaded latency) / period of j, each rounded up, where less than 0 counts as 0. A plan of two
 * flows can take hundreds of millions of rounds, which are seconds (docs/PERFORMANCE.md).
 *
 * Of the pointers it asks that plan points to plan_length bytes that may be read, reply to reply_length bytes that may
 * be written, that the two do not overlap, and that nothing else writes to either during the call. Through the pointer
 * of a buffer of length 0, which may be null, nothing is read or written.
 *
 * What it returns, what the buffer holds, the ceiling of the rounds and that it ends are proved of the Rattle code
 * (crates/analyser/specs/Analysed.antt). Seen in the archive and tested, not proved (tests/examples.sh): null pointers
 * do as said; it has no data that changes and takes nothing from a heap, so that calls with buffers of their own may
 * run side by side; it calls memcpy and memset, which the program must have, and no other function; a call takes under
 * 48 KiB of stack.
 */
struct lingfallow_returned lingfallow_analyse(const uint8_t *plan, size_t plan_length, uint8_t *reply,
                                              size_t reply_length);

/* A plan as numbers. Each number has the width that its field has in the plan's bytes, so that none is cut; the values
 * that are allowed are those above, and 0 for no priority flits. */
struct lingfallow_platform {
    uint8_t columns;
    uint8_t rows;
    uint8_t link;           /* cycles over a link */
    uint8_t routing;        /* cycles in a router */
    uint8_t buffer;         /* flits of a buffer */
    uint8_t method;         /* LINGFALLOW_METHOD_SB, .. */
    uint8_t priority_flits; /* flits that carry the priority; 0: none, and the record has a length of 6 */
};

struct lingfallow_flow {
    uint16_t id;
    uint16_t priority;
    uint8_t source;
    uint8_t destination;
    uint16_t flits;
    uint32_t period;
    uint32_t deadline;
    uint32_t jitter;
};

struct lingfallow_plan {
    struct lingfallow_platform platform;
    struct lingfallow_flow flows[LINGFALLOW_MOST_FLOWS];
    size_t count; /* the plan's flows are the first so many; what stands behind them changes nothing */
};

/* Writes the bytes of the plan into the length bytes at bytes: the platform record, the flows' records in their order
 * and the end record: for n flows 12 + 23n bytes if priority_flits is 0, else 13 + 23n, at most
 * LINGFALLOW_LONGEST_PLAN.
 *
 * Accepted: number is 0 and value is the plan's length. The first value bytes hold the plan; every further byte of the
 * buffer holds what it held before. Read again, these bytes give the same platform and the same flows in the same
 * order: method 0 stays 0.
 *
 * Refused: number and value are those that lingfallow_analyse gives for the bytes as they would have been written (7,
 * 8, 9 or 20 to 38, at a place in those bytes; 26 at 9 for priority_flits above 8); then 11 at 0, if length is below
 * the plan's. The whole buffer holds what it held before. A count above 64 says that there are flows which the array
 * has no places for: number is 6 and value 1,481, or 1,482 with priority flits, the place of flow 65, unless the
 * platform or one of the first 64 flows is in fault.
 *
 * It asks nothing of the numbers and nothing of the length. Of the pointer it asks that it points to length bytes that
 * may be written, and that nothing else writes to them during the call; of length 0 it may be null. The plan is passed
 * by value, so that the call has a copy of its own.
 *
 * What it returns, what the buffer holds and that it ends are proved of the Rattle code
 * (crates/writer/specs/Written.antt). Seen in the archive and tested, not proved (tests/examples.sh): no data that
 * changes, no heap, memcpy and memset alone are called, and under 16 KiB of stack.
 */
struct lingfallow_returned lingfallow_write(struct lingfallow_plan plan, uint8_t *bytes, size_t length);

/* Converts the plan in the plan_length bytes at plan, where it stands, so that it keeps the figures that it was
 * approved with before 0.8.0: method 0, which was XLWX then, becomes 2, which is XLWX still.
 *
 * Accepted: number is 0 and value is 0, whether a byte changed or not. If the byte at offset 8, the method,
 * was 0, it is 2 now, in a platform record of length 6 as of 7; if it was 1, 2 or 3 it stays. Every other byte holds
 * what it held before. So what is left is accepted too, and to convert it again changes nothing.
 *
 * Refused: number and value are those that lingfallow_analyse gives for these bytes, and never 11, which is a reply
 * buffer's. Every byte holds what it held before.
 *
 * A plan does not tell when it was approved. One whose 0 asks for IBN would be made to ask for XLWX: convert the plans
 * that were stored before 0.8.0, and no later ones.
 *
 * It asks nothing of the bytes and nothing of the length, works out no figure and always ends. Of the pointer it asks
 * that it points to plan_length bytes that may be read and written, and that nothing else uses them during the call; of
 * length 0 it may be null.
 *
 * What it returns, what the bytes hold and that it ends are proved of the Rattle code
 * (crates/converter/specs/Converted.antt). Seen in the archive and tested, not proved (tests/examples.sh): a null
 * pointer does as said; no data that changes, no heap, no function is called, neither memcpy nor memset, and under
 * 1 KiB of stack.
 */
struct lingfallow_returned lingfallow_convert(uint8_t *plan, size_t plan_length);

#ifdef __cplusplus
}
#endif

#endif
