/* One call, for callgrind to count: call SUBJECT PLAN. Prints the number and value that are returned. */
#include <string.h>

#include "subjects.h"

int main(int count, char **words) {
    static uint8_t bytes[ROOM], reply[LINGFALLOW_LONGEST_REPLY];
    for (int s = 0; count == 3 && s < SUBJECTS; s++) {
        if (strcmp(words[1], subjects[s].name) == 0) {
            size_t length = load_plan(words[2], bytes);
            struct lingfallow_returned r = subjects[s].analyse(bytes, length, reply, sizeof reply);
            printf("%u %zu\n", r.number, r.value);
            return 0;
        }
    }
    fprintf(stderr, "usage: call SUBJECT PLAN\n");
    return 2;
}
