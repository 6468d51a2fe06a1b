/* The calls of memset and memcpy in one call of the library: copies PLAN. Link with --wrap=memset --wrap=memcpy. */
#include "subjects.h"

enum { MOST_SIZES = 64 };

struct tally {
    const char *name;
    size_t size, calls;
};

static struct tally tallies[MOST_SIZES];
static size_t kinds;
static int counting;

void *__real_memset(void *to, int byte, size_t size);
void *__real_memcpy(void *to, const void *from, size_t size);
void *__wrap_memset(void *to, int byte, size_t size);
void *__wrap_memcpy(void *to, const void *from, size_t size);

static void count(const char *name, size_t size) {
    size_t k = 0;
    if (!counting) return;
    while (k < kinds && (tallies[k].name != name || tallies[k].size != size)) {
        k++;
    }
    if (k == MOST_SIZES) exit(2);
    if (k == kinds) tallies[kinds++] = (struct tally){name, size, 0};
    tallies[k].calls++;
}

void *__wrap_memset(void *to, int byte, size_t size) {
    static const char name[] = "memset";
    count(name, size);
    return __real_memset(to, byte, size);
}

void *__wrap_memcpy(void *to, const void *from, size_t size) {
    static const char name[] = "memcpy";
    count(name, size);
    return __real_memcpy(to, from, size);
}

int main(int words, char **word) {
    static uint8_t bytes[ROOM], reply[LINGFALLOW_LONGEST_REPLY];
    if (words != 2) return 2;
    size_t length = load_plan(word[1], bytes);
    counting = 1;
    lingfallow_analyse(bytes, length, reply, sizeof reply);
    counting = 0;
    for (size_t k = 0; k < kinds; k++) {
        printf("%s %s of %zu x %zu", k == 0 ? "" : ",", tallies[k].name, tallies[k].size, tallies[k].calls);
    }
    printf("\n");
    return 0;
}
