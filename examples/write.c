/* Writes plan P, from its numbers, to standard output. Exit status: 0 written, 1 refused, 2 if standard
 * output could not be written.
 *
 *     bash -c '. tests/common/build.sh && build_archives'
 *     gcc -std=c11 -Iinclude examples/write.c target/staticlib/libwriter.a -o target/write
 *     target/write | cmp - plans/P.plan
 */
#include <stdio.h>

#include "lingfallow.h"

/* A mesh of 6 x 1 with links of 1 cycle, routers of 0, buffers of 10 flits and no priority flits. */
static const struct lingfallow_plan p = {
    .platform = {.columns = 6, .rows = 1, .link = 1, .routing = 0, .buffer = 10, .method = LINGFALLOW_METHOD_IBN,
                 .priority_flits = 0},
    .flows =
        {
            {.id = 2, .priority = 1, .source = 4, .destination = 5, .flits = 60,
             .period = 200, .deadline = 200, .jitter = 0},
            {.id = 3, .priority = 2, .source = 0, .destination = 5, .flits = 198,
             .period = 4000, .deadline = 4000, .jitter = 0},
            {.id = 5, .priority = 3, .source = 1, .destination = 4, .flits = 128,
             .period = 6000, .deadline = 6000, .jitter = 0},
        },
    .count = 3,
};

int main(void) {
    uint8_t bytes[LINGFALLOW_LONGEST_PLAN];
    struct lingfallow_returned returned = lingfallow_write(p, bytes, sizeof bytes);
    if (returned.number != LINGFALLOW_ACCEPTED) {
        fprintf(stderr, "refused %u at %zu\n", (unsigned)returned.number, returned.value);
        return 1;
    }
    if (fwrite(bytes, 1, returned.value, stdout) != returned.value || fflush(stdout) != 0) {
        perror("write: standard output");
        return 2;
    }
    return 0;
}
