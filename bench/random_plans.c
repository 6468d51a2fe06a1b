/* Plans of all sizes with values in and around their limits; deadlines are short, so that rounds are few. */
#include "random_plans.h"

#include <string.h>

enum { MOST_FLOWS = 65, HEADER = 3, PLATFORM_BODY = 6, LONGER_BODY = 7, FLOW_SIZE = 23 };
enum { SHORTEST_BITS = 6, LONGEST_BITS = 20 };

uint32_t draw(uint64_t *seed, uint32_t limit) {
    *seed ^= *seed << 13;
    *seed ^= *seed >> 7;
    *seed ^= *seed << 17;
    return (uint32_t)((*seed >> 32) * limit >> 32);
}

static void put_number(uint8_t *out, size_t width, uint32_t value) {
    for (size_t k = width; k-- > 0; value >>= 8) {
        out[k] = (uint8_t)value;
    }
}

static void put_header(uint8_t *out, uint8_t tag, uint32_t length) {
    out[0] = tag;
    put_number(out + 1, 2, length);
}

/* With priority flits in about half of the plans. Returns the record's size. */
static size_t put_platform(uint64_t *seed, uint8_t *out) {
    static const uint8_t lowest[LONGER_BODY] = {1, 1, 1, 0, 1, 0, 1}, values[LONGER_BODY] = {8, 8, 16, 17, 64, 4, 8};
    uint32_t body = draw(seed, 2) ? LONGER_BODY : PLATFORM_BODY;
    put_header(out, 0x01, body);
    for (size_t k = 0; k < body; k++) {
        out[HEADER + k] = (uint8_t)(lowest[k] + draw(seed, values[k]));
    }
    return HEADER + body;
}

/* A place of its own in both sequences makes ids and priorities distinct. */
static void put_flow(uint64_t *seed, uint8_t *out, uint32_t nodes, uint32_t place) {
    uint32_t period = 1 + draw(seed, (uint32_t)1 << (SHORTEST_BITS + draw(seed, LONGEST_BITS - SHORTEST_BITS)));
    uint32_t source = draw(seed, nodes), away = nodes > 1 ? 1 + draw(seed, nodes - 1) : 0;
    put_header(out, 0x02, 20);
    put_number(out + 3, 2, place * 1021 % 65535);
    put_number(out + 5, 2, 1 + place * 40503 % 65535);
    out[7] = (uint8_t)source;
    out[8] = (uint8_t)((source + away) % nodes);
    put_number(out + 9, 2, 1 + draw(seed, 1 + period / 16 % 65535));
    put_number(out + 11, 4, period);
    put_number(out + 15, 4, draw(seed, 2) ? period : 1 + draw(seed, period));
    put_number(out + 19, 4, draw(seed, 3) ? 0 : draw(seed, 2 * period));
}

/* A changed byte or tag, an id or a priority taken from the first flow, a flow's field all zeros or all ones, bytes cut
 * off, the platform's length or its last field another, or bytes behind the end.
 */
static size_t damage(uint64_t *seed, uint8_t *bytes, size_t length, size_t start, uint32_t flows) {
    static const uint8_t tags[4] = {0x01, 0x02, 0x7F, 0x03};
    static const uint8_t fields[9] = {3, 5, 7, 8, 9, 11, 15, 19, 23};
    uint32_t any = draw(seed, (uint32_t)length), flow = draw(seed, flows + 1);
    uint8_t *record = bytes + start + FLOW_SIZE * flow;
    const uint8_t *field = fields + draw(seed, 8);
    switch (draw(seed, 10)) {
    case 0:
        bytes[any] = (uint8_t)draw(seed, 256);
        return length;
    case 1:
        bytes[any] ^= (uint8_t)(1 << draw(seed, 8));
        return length;
    case 2:
        (draw(seed, 4) ? record : bytes)[0] = tags[draw(seed, 4)];
        return length;
    case 3:
        memmove(record + 3, bytes + start + 3, 2);
        return length;
    case 4:
        memmove(record + 5, bytes + start + 5, 2);
        return length;
    case 5:
        memset(record + field[0], draw(seed, 2) ? 0 : 0xFF, field[1] - field[0]);
        return length;
    case 6:
        return any;
    case 7:
        bytes[2] = (uint8_t)(PLATFORM_BODY - 1 + draw(seed, 4));
        return length;
    case 8:
        bytes[start - 1] = (uint8_t)draw(seed, 12);
        return length;
    default:
        return length + draw(seed, 4);
    }
}

size_t random_plan(uint64_t *seed, uint8_t bytes[RANDOM_ROOM]) {
    uint32_t flows = draw(seed, 8) ? draw(seed, 24) : draw(seed, MOST_FLOWS + 1);
    memset(bytes, 0, RANDOM_ROOM);
    size_t start = put_platform(seed, bytes), length = start;
    for (uint32_t k = 1; k <= flows; k++, length += FLOW_SIZE) {
        put_flow(seed, bytes + length, (uint32_t)bytes[3] * bytes[4], k);
    }
    put_header(bytes + length, 0x7F, 0);
    length += HEADER;
    return draw(seed, 2) ? length : damage(seed, bytes, length, start, flows);
}
