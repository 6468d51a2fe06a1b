/* The program `bounds` of document 01, over plain_analyse. */
#include <string.h>
#include <unistd.h>

#include "plain.h"

enum { TEXT_ROOM = 128 + 64 * 48 };

static uint8_t plan[LINGFALLOW_DECIDING_BYTES], reply[LINGFALLOW_LONGEST_REPLY];
static char text[TEXT_ROOM];

static size_t read_all(void) {
    size_t length = 0;
    while (length < sizeof plan) {
        ssize_t more = read(STDIN_FILENO, plan + length, sizeof plan - length);
        if (more <= 0) break;
        length += (size_t)more;
    }
    return length;
}

static void write_all(const char *from, size_t length) {
    while (length > 0) {
        ssize_t written = write(STDOUT_FILENO, from, length);
        if (written <= 0) return;
        from += written;
        length -= (size_t)written;
    }
}

/* Writes a fixed word and a number behind it, and returns the place behind them. */
static inline char *put_item(char *out, const char *word, size_t length, uint64_t number) {
    char digits[20];
    size_t first = sizeof digits;
    memcpy(out, word, length);
    do {
        digits[--first] = (char)('0' + number % 10);
        number /= 10;
    } while (number > 0);
    memcpy(out + length, digits + first, sizeof digits - first);
    return out + length + (sizeof digits - first);
}

#define PUT(out, word, number) put_item(out, word, sizeof(word) - 1, number)

static inline uint32_t number_at(const uint8_t *bytes, size_t width) {
    uint32_t number = 0;
    for (size_t k = 0; k < width; k++) {
        number = number << 8 | bytes[k];
    }
    return number;
}

static char *put_mesh(char *out, const uint8_t *platform) {
    out = PUT(out, "mesh ", platform[3]);
    out = PUT(out, "x", platform[4]);
    out = PUT(out, " link ", platform[5]);
    out = PUT(out, " route ", platform[6]);
    out = PUT(out, " buffer ", platform[7]);
    out = PUT(out, " method ", platform[8] == 0 ? HOUSE_DEFAULT : platform[8]);
    *out = '\n';
    return out + 1;
}

static char *put_flow(char *out, const uint8_t *record) {
    uint32_t bound = number_at(record + 8, 4), rounds = number_at(record + 12, 4);
    out = PUT(out, "", number_at(record + 3, 2));
    if (record[5] == LINGFALLOW_BOUNDED) {
        out = PUT(out, " bounded ", bound);
        out = PUT(out, " rounds ", rounds);
    } else if (record[5] == LINGFALLOW_LATE) {
        out = PUT(out, " late rounds ", rounds);
    } else {
        out = PUT(out, " waits ", number_at(record + 6, 2));
    }
    *out = '\n';
    return out + 1;
}

static char *put_refusal(char *out, uint8_t number, size_t place) {
    out = PUT(out, "refused ", number);
    out = PUT(out, " at ", place);
    *out = '\n';
    return out + 1;
}

int main(void) {
    char *end = text;
    struct lingfallow_returned r = plain_analyse(plan, read_all(), reply, sizeof reply);
    if (r.number != 0) {
        end = put_refusal(end, r.number, r.value);
    } else {
        end = put_mesh(end, plan);
        for (size_t at = 0; at + LINGFALLOW_FLOW_RECORD < r.value; at += LINGFALLOW_FLOW_RECORD) {
            end = put_flow(end, reply + at);
        }
    }
    write_all(text, (size_t)(end - text));
    return 0;
}
