/* Times the subjects: compare PLAN... All must agree on random plans, and on each of these. Of each it prints the path,
 * the flows, the bounded flows, the rounds of all flows, and the nanoseconds of each subject.
 */
#define _POSIX_C_SOURCE 200809L
#include <string.h>
#include <time.h>

#include "random_plans.h"
#include "subjects.h"

enum { RANDOM_PLANS = 20000, HELD = 0xA5, SAMPLE = 100000, TURNS_FEWEST = 7, TURNS_MOST = 400 };
static const double LONGEST = 1.5e9; /* nanoseconds for one plan, unless the fewest turns take longer */

static unsigned outcomes[UINT8_MAX + 1]; /* how often each number was returned, 0 for acceptance */

/* Each subject must return, and leave in the buffer, what the product does. */
static void agree(const char *name, const uint8_t *bytes, size_t length, size_t reply_length) {
    uint8_t replies[SUBJECTS][ROOM];
    struct lingfallow_returned all[SUBJECTS];
    memset(replies, HELD, sizeof replies);
    for (int s = 0; s < SUBJECTS; s++) {
        all[s] = subjects[s].analyse(bytes, length, replies[s], reply_length);
        if (all[s].number != all[0].number || all[s].value != all[0].value ||
            memcmp(replies[s], replies[0], ROOM) != 0) {
            fprintf(stderr, "compare: %s disagrees on %s: %u %zu, not %u %zu\n", subjects[s].name, name, all[s].number,
                    all[s].value, all[0].number, all[0].value);
            exit(1);
        }
    }
    outcomes[all[0].number]++;
}

static void agree_on_random_plans(void) {
    uint64_t seed = 1;
    uint8_t bytes[RANDOM_ROOM];
    for (int k = 0; k < RANDOM_PLANS; k++) {
        char name[32];
        size_t length = random_plan(&seed, bytes);
        snprintf(name, sizeof name, "random plan %d", k);
        agree(name, bytes, length, draw(&seed, 4) ? LINGFALLOW_LONGEST_REPLY : draw(&seed, 400));
    }
}

static uint64_t now(void) {
    struct timespec t;
    clock_gettime(CLOCK_THREAD_CPUTIME_ID, &t);
    return (uint64_t)t.tv_sec * 1000000000 + (uint64_t)t.tv_nsec;
}

static double sample(const struct subject *s, const uint8_t *bytes, size_t length, unsigned calls) {
    static uint8_t reply[LINGFALLOW_LONGEST_REPLY];
    uint64_t start = now();
    for (unsigned k = 0; k < calls; k++) {
        s->analyse(bytes, length, reply, sizeof reply);
    }
    return (double)(now() - start) / calls;
}

/* The least of many samples, taken in turns, so that all subjects meet the same machine. */
static void time_all(const uint8_t *bytes, size_t length, double least[SUBJECTS]) {
    unsigned calls[SUBJECTS];
    double spent = 0;
    for (int s = 0; s < SUBJECTS; s++) {
        least[s] = sample(&subjects[s], bytes, length, 1);
        calls[s] = 1 + (unsigned)(SAMPLE / least[s]);
    }
    for (int turn = 0; turn < TURNS_FEWEST || (turn < TURNS_MOST && spent < LONGEST); turn++) {
        for (int s = 0; s < SUBJECTS; s++) {
            double one = sample(&subjects[s], bytes, length, calls[s]);
            least[s] = one < least[s] ? one : least[s];
            spent += one * calls[s];
        }
    }
}

/* What the reply says of the work done. */
static void print_work(const uint8_t *bytes, size_t length) {
    uint8_t reply[LINGFALLOW_LONGEST_REPLY];
    size_t flows = lingfallow_analyse(bytes, length, reply, sizeof reply).value / LINGFALLOW_FLOW_RECORD, bounded = 0;
    uint64_t rounds = 0;
    for (size_t k = 0; k < flows; k++) {
        const uint8_t *record = reply + LINGFALLOW_FLOW_RECORD * k;
        bounded += record[5] == LINGFALLOW_BOUNDED;
        rounds += (uint64_t)record[12] << 24 | record[13] << 16 | record[14] << 8 | record[15];
    }
    printf(" %zu %zu %llu", flows, bounded, (unsigned long long)rounds);
}

int main(int count, char **words) {
    static uint8_t bytes[ROOM];
    agree_on_random_plans();
    for (int k = 1; k < count; k++) {
        double least[SUBJECTS];
        size_t length = load_plan(words[k], bytes);
        agree(words[k], bytes, length, LINGFALLOW_LONGEST_REPLY);
        time_all(bytes, length, least);
        printf("%s", words[k]);
        print_work(bytes, length);
        for (int s = 0; s < SUBJECTS; s++) {
            printf(" %.0f", least[s]);
        }
        printf("\n");
    }
    fprintf(stderr, "compare: %d subjects agree on %d plans and %d random ones; accepted %u", SUBJECTS, count - 1,
            RANDOM_PLANS, outcomes[0]);
    for (int number = 1; number <= UINT8_MAX; number++) {
        if (outcomes[number] != 0) fprintf(stderr, ", refused %d: %u", number, outcomes[number]);
    }
    fprintf(stderr, "\n");
    return 0;
}
