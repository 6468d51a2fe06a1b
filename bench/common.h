/* What both programs in C share: reading a plan, solving one recurrence, writing an answer. */
#ifndef COMMON_H
#define COMMON_H

#include <stdbool.h>
#include <string.h>

#include "plain.h"

enum { MOST_FLOWS = 64, MOST_CYCLES = 1000000000, SIDE = 8 };
enum { PLATFORM_TAG = 0x01, FLOW_TAG = 0x02, END_TAG = 0x7F, ANSWER_TAG = 0x81 };
enum { HEADER = 3, PLATFORM_BODY = 6, LONGER_BODY = 7, FLOW_BODY = 20, ANSWER_BODY = 13, NO_FLOW = 0xFFFF };
enum { FLOW_SIZE = HEADER + FLOW_BODY };
enum { SB = 1, XLWX = 2, IBN = 3 };

/* Ids and priorities as read. What pads them is no legal value, so that searches may run on to a multiple of 8. */
struct reading {
    size_t count;
    uint16_t id[MOST_FLOWS], priority[MOST_FLOWS];
};

/* A direct flow in a recurrence: its packets in a window x are (x + shift) / period, rounded down. */
struct term {
    uint32_t shift, period, weight;
};

/* What third flows bring to a pair of flows. */
struct loads {
    uint32_t up, down;
};

static inline uint32_t two_at(const uint8_t *bytes) { return (uint32_t)bytes[0] << 8 | bytes[1]; }

static inline uint32_t four_at(const uint8_t *bytes) { return two_at(bytes) << 16 | two_at(bytes + 2); }

static inline void put_two(uint8_t *out, uint32_t value) {
    out[0] = (uint8_t)(value >> 8);
    out[1] = (uint8_t)value;
}

static inline void put_four(uint8_t *out, uint32_t value) {
    put_two(out, value >> 16);
    put_two(out + 2, value);
}

static struct lingfallow_returned returned(uint8_t number, size_t value) {
    return (struct lingfallow_returned){number, value};
}

/* ---- reading */

/* The length of a platform's body that tells so: one of two. */
static inline size_t platform_body(const uint8_t *record) {
    return two_at(record + 1) == LONGER_BODY ? LONGER_BODY : PLATFORM_BODY;
}

/* Where the flows of an accepted plan start, and its priority flits: the seventh byte where there is one. */
static inline size_t flows_at(const uint8_t *plan) { return HEADER + platform_body(plan); }

static inline uint32_t priority_flits(const uint8_t *plan) {
    return platform_body(plan) == LONGER_BODY ? plan[HEADER + PLATFORM_BODY] : 0;
}

/* 20 to 26: the number and the offset of the platform's first field outside its values, or 0. */
static struct lingfallow_returned platform_fault(const uint8_t *record) {
    static const uint8_t lowest[LONGER_BODY] = {1, 1, 1, 0, 1, 0, 1}, highest[LONGER_BODY] = {8, 8, 16, 16, 64, 3, 8};
    for (uint8_t k = 0; k < platform_body(record); k++) {
        uint8_t value = record[HEADER + k];
        if (value < lowest[k] || value > highest[k]) {
            return returned((uint8_t)(20 + k), HEADER + k);
        }
    }
    return returned(0, 0);
}

/* 30 to 38: the number and the offset of the flow's first field outside its values, or 0. */
static inline struct lingfallow_returned flow_fault(const uint8_t *record, uint32_t nodes) {
    uint32_t period = four_at(record + 11), deadline = four_at(record + 15);
    if (two_at(record + 3) == NO_FLOW) return returned(30, 3);
    if (two_at(record + 5) == 0) return returned(31, 5);
    if (record[7] >= nodes) return returned(32, 7);
    if (record[8] >= nodes) return returned(33, 8);
    if (two_at(record + 9) == 0) return returned(34, 9);
    if (period - 1 >= MOST_CYCLES) return returned(35, 11);
    if (deadline - 1 >= period) return returned(deadline == 0 ? 36 : 38, 15);
    if (four_at(record + 19) > MOST_CYCLES) return returned(37, 19);
    return returned(0, 0);
}

static inline bool stands_in(const uint16_t *values, size_t count, uint16_t value) {
    uint16_t found = 0;
    for (size_t i = 0; i < (count + 7) / 8 * 8; i++) {
        found |= values[i] == value;
    }
    return found;
}

/* 1, 2, 4, 3, 1: what is asked of every record's header. */
static inline uint8_t header_fault(const uint8_t *bytes, size_t length, size_t at) {
    size_t left = length - at;
    if (left < HEADER) return 1;
    uint8_t tag = bytes[at];
    if (tag != PLATFORM_TAG && tag != FLOW_TAG && tag != END_TAG) return 2;
    if ((at == 0) != (tag == PLATFORM_TAG)) return 4;
    size_t body = tag == FLOW_TAG ? FLOW_BODY : tag == PLATFORM_TAG ? platform_body(bytes) : 0;
    if (two_at(bytes + at + 1) != body) return 3;
    return left - HEADER < body;
}

/* 6, its fields, 9, 7, 8: a flow behind its header; it is kept. */
static inline struct lingfallow_returned read_flow(const uint8_t *bytes, size_t at, struct reading *r) {
    const uint8_t *record = bytes + at;
    if (r->count == MOST_FLOWS) return returned(6, at);
    struct lingfallow_returned field = flow_fault(record, (uint32_t)bytes[3] * bytes[4]);
    if (field.number != 0) return returned(field.number, at + field.value);
    if (record[7] == record[8]) return returned(9, at + 8);
    uint16_t id = (uint16_t)two_at(record + 3), priority = (uint16_t)two_at(record + 5);
    if (stands_in(r->id, r->count, id)) return returned(7, at + 3);
    if (stands_in(r->priority, r->count, priority)) return returned(8, at + 5);
    r->id[r->count] = id;
    r->priority[r->count++] = priority;
    return returned(0, 0);
}

static struct lingfallow_returned read_plan(const uint8_t *bytes, size_t length, struct reading *r) {
    for (size_t at = 0;;) {
        uint8_t number = header_fault(bytes, length, at);
        if (number != 0) return returned(number, number == 3 ? at + 1 : at);
        if (bytes[at] == FLOW_TAG) {
            struct lingfallow_returned flow = read_flow(bytes, at, r);
            if (flow.number != 0) return flow;
            at += FLOW_SIZE;
        } else if (bytes[at] == PLATFORM_TAG) {
            struct lingfallow_returned field = platform_fault(bytes);
            if (field.number != 0) return field;
            at = flows_at(bytes);
        } else if (at + HEADER < length) {
            return returned(10, at + HEADER);
        } else {
            return returned(0, 0);
        }
    }
}

/* ---- verdicts and rounds */

/* What a bound is held against: the deadline less the flow's own jitter. */
static inline uint32_t limit_of(uint32_t deadline, uint32_t jitter) {
    return jitter < deadline ? deadline - jitter : 0;
}

/* Replaces x by the right side until it stays as it is or passes the limit. A sum of shift and x fits 32 bits. */
static inline bool settle(uint32_t c, uint32_t limit, const struct term *terms, size_t n, uint32_t *bound,
                          uint32_t *rounds) {
    *rounds = 0;
    if (c > limit) return false;
    uint32_t x = c, replaced = 0;
    uint64_t right;
    for (;;) {
        right = c;
        for (size_t j = 0; j < n; j++) {
            right += (uint64_t)((x + terms[j].shift) / terms[j].period) * terms[j].weight;
        }
        replaced++;
        if (right == x || right > limit) break;
        x = (uint32_t)right;
    }
    *bound = x;
    *rounds = replaced;
    return right == x;
}

/* ---- the reply */

static inline void put_answer(uint8_t *out, uint32_t id, uint8_t verdict, uint32_t named, uint32_t bound,
                              uint32_t rounds) {
    out[0] = ANSWER_TAG;
    put_two(out + 1, ANSWER_BODY);
    put_two(out + 3, id);
    out[5] = verdict;
    put_two(out + 6, named);
    put_four(out + 8, bound);
    put_four(out + 12, rounds);
}

/* Writes the answers to an accepted plan's flows. */
typedef void engine(const uint8_t *plan, const struct reading *r, uint8_t *reply);

/* From a plan's bytes to its reply. */
static inline struct lingfallow_returned analyse_with(engine *answer_plan, const uint8_t *plan, size_t plan_length,
                                                      uint8_t *reply, size_t reply_length) {
    struct reading r = {0};
    memset(r.id, 0xFF, sizeof r.id);
    struct lingfallow_returned outcome = read_plan(plan, plan_length, &r);
    if (outcome.number != 0) return outcome;
    size_t size = LINGFALLOW_FLOW_RECORD * r.count + HEADER;
    if (reply_length < size) return returned(11, 0);
    answer_plan(plan, &r, reply);
    reply[size - 3] = END_TAG;
    reply[size - 2] = reply[size - 1] = 0;
    return returned(0, size);
}

#endif
