/* Reads a plan from standard input and prints each flow's verdict, or the refusal. Exit status: 0 accepted, 1 refused,
 * 2 if standard input could not be read or standard output not be written.
 *
 *     bash -c '. tests/common/build.sh && build_archives'
 *     gcc -std=c11 -Iinclude examples/analyse.c target/staticlib/libanalyser.a -o target/analyse
 *     target/analyse < plans/P.plan
 */
#include <inttypes.h>
#include <stdio.h>

#include "lingfallow.h"

/* A number of the reply: unsigned, most significant byte first. */
static uint32_t number_at(const uint8_t *bytes, size_t width) {
    uint32_t number = 0;
    for (size_t i = 0; i < width; i++) {
        number = number << 8 | bytes[i];
    }
    return number;
}

/* The offsets are those of the record's layout in lingfallow.h. */
static void print_flow(const uint8_t *record) {
    uint32_t id = number_at(record + 3, 2);
    uint32_t verdict = number_at(record + 5, 1);
    uint32_t named_flow = number_at(record + 6, 2);
    uint32_t bound = number_at(record + 8, 4);
    uint32_t rounds = number_at(record + 12, 4);
    switch (verdict) {
    case LINGFALLOW_BOUNDED:
        printf("%" PRIu32 " bounded %" PRIu32 " rounds %" PRIu32 "\n", id, bound, rounds);
        break;
    case LINGFALLOW_LATE:
        printf("%" PRIu32 " late rounds %" PRIu32 "\n", id, rounds);
        break;
    case LINGFALLOW_WAITS:
        printf("%" PRIu32 " waits %" PRIu32 "\n", id, named_flow);
        break;
    }
}

/* The end record is shorter than a flow's, so the last whole record of 16 bytes is the last flow's. */
static void print_reply(const uint8_t *reply, size_t length) {
    for (size_t at = 0; at + LINGFALLOW_FLOW_RECORD <= length; at += LINGFALLOW_FLOW_RECORD) {
        print_flow(reply + at);
    }
}

int main(void) {
    uint8_t plan[LINGFALLOW_DECIDING_BYTES];
    uint8_t reply[LINGFALLOW_LONGEST_REPLY];
    size_t plan_length = fread(plan, 1, sizeof plan, stdin);
    if (ferror(stdin)) {
        perror("analyse: standard input");
        return 2;
    }
    struct lingfallow_returned returned = lingfallow_analyse(plan, plan_length, reply, sizeof reply);
    if (returned.number == LINGFALLOW_ACCEPTED) {
        print_reply(reply, returned.value);
    } else {
        printf("refused %u at %zu\n", (unsigned)returned.number, returned.value);
    }
    if (fflush(stdout) != 0 || ferror(stdout)) {
        perror("analyse: standard output");
        return 2;
    }
    return returned.number == LINGFALLOW_ACCEPTED ? 0 : 1;
}
