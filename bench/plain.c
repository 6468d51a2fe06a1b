/* Document 01 in plain C11, in the fastest form: shared links from rows and columns, sets of flows as bits. For
 * little-endian machines. Inside, the flows stand in order of priority: flow 0 is the highest, and the direct flows of
 * flow i stand below i.
 */
#include "common.h"

/* The hops of a route lie on two lines. A line is a row or a column in one direction; it has 8 places to itself. */
struct routes {
    uint8_t source[MOST_FLOWS], destination[MOST_FLOWS];
    uint8_t row_from[MOST_FLOWS], row_to[MOST_FLOWS];
    uint8_t column_from[MOST_FLOWS], column_to[MOST_FLOWS];
    uint8_t turn[MOST_FLOWS], exit[MOST_FLOWS]; /* places on the route: first hop along the column, ejection link */
};

/* The hits of k on j at [j][k]; for XLWX times the latency of k. */
struct work {
    unsigned method, cap; /* the cap is for one shared link */
    uint8_t shared[MOST_FLOWS][MOST_FLOWS], first[MOST_FLOWS][MOST_FLOWS];
    uint64_t direct[MOST_FLOWS], unbounded;
    uint32_t latency[MOST_FLOWS], period[MOST_FLOWS], limit[MOST_FLOWS], jitter[MOST_FLOWS];
    uint32_t bound[MOST_FLOWS], hits[MOST_FLOWS][MOST_FLOWS];
};

/* The place in the plan of the flow of each rank: a flow's rank is the number of flows above it. */
static void order_by_priority(const struct reading *r, uint8_t order[MOST_FLOWS]) {
    for (size_t i = 0; i < r->count; i++) {
        uint16_t above = 0, priority = r->priority[i];
        for (size_t j = 0; j < (r->count + 7) / 8 * 8; j++) {
            above += (uint16_t)(r->priority[j] - 1) < (uint16_t)(priority - 1);
        }
        order[above] = (uint8_t)i;
    }
}

/* ---- routes and shared links */

static inline uint8_t larger(uint8_t a, uint8_t b) { return a > b ? a : b; }

static inline uint8_t smaller(uint8_t a, uint8_t b) { return a < b ? a : b; }

/* Where places of a row or a column stand on the line that leads from one to the other. */
static inline void put_line(uint8_t *from, uint8_t *to, unsigned line, unsigned u, unsigned v) {
    unsigned start = SIDE * 2 * line;
    *from = (uint8_t)(v < u ? start + 2 * SIDE - 1 - u : start + u);
    *to = (uint8_t)(v < u ? start + 2 * SIDE - 1 - v : start + v);
}

static inline void put_route(struct routes *r, size_t i, unsigned columns, unsigned source, unsigned destination) {
    unsigned row = source / columns, column = source % columns;
    unsigned row_to = destination / columns, column_to = destination % columns;
    r->source[i] = (uint8_t)source;
    r->destination[i] = (uint8_t)destination;
    put_line(&r->row_from[i], &r->row_to[i], row, column, column_to);
    put_line(&r->column_from[i], &r->column_to[i], column_to, row, row_to);
    r->turn[i] = (uint8_t)(1 + r->row_to[i] - r->row_from[i]);
    r->exit[i] = (uint8_t)(r->turn[i] + r->column_to[i] - r->column_from[i]);
}

/* What the route of flow i shares with each: intervals on lines, sixteen flows at a time. */
static void pair_row(const struct routes *r, size_t i, size_t count, uint8_t *restrict shared,
                     uint8_t *restrict first) {
    const uint8_t source = r->source[i], destination = r->destination[i], turn = r->turn[i], exit = r->exit[i];
    const uint8_t row_from = r->row_from[i], row_to = r->row_to[i];
    const uint8_t column_from = r->column_from[i], column_to = r->column_to[i];
    for (size_t j = 0; j < (count + 15) / 16 * 16; j++) {
        uint8_t row = larger(r->row_from[j], row_from), column = larger(r->column_from[j], column_from);
        uint8_t on_row = (uint8_t)(larger(smaller(r->row_to[j], row_to), row) - row);
        uint8_t on_column = (uint8_t)(larger(smaller(r->column_to[j], column_to), column) - column);
        uint8_t at_source = r->source[j] == source, at_exit = r->destination[j] == destination;
        uint8_t place = at_exit ? exit : 0;
        place = on_column ? (uint8_t)(turn + (column - column_from)) : place;
        place = on_row ? (uint8_t)(1 + (row - row_from)) : place;
        first[j] = at_source ? 0 : place;
        shared[j] = (uint8_t)(at_source + on_row + on_column + at_exit);
    }
}

static void pair_table(struct work *w, const struct routes *r, size_t count) {
    for (size_t i = 0; i < count; i++) {
        pair_row(r, i, count, w->shared[i], w->first[i]);
    }
}

/* ---- who delays whom, and by how much */

/* Eight cells of a row become eight bits. A cell is at most 16: adding 127 carries into its highest bit alone. */
static inline uint64_t sharing(const uint8_t *shared) {
    uint64_t eight;
    memcpy(&eight, shared, sizeof eight);
    eight = (eight + 0x7F7F7F7F7F7F7F7F) >> 7 & 0x0101010101010101;
    return eight * 0x0102040810204080 >> 56;
}

/* Bit j: flow j is direct for flow i. */
static inline uint64_t direct_flows(const uint8_t *shared, size_t i) {
    uint64_t set = 0;
    for (size_t j = 0; j < i; j += 8) {
        set |= sharing(shared + j) << j;
    }
    return set & (((uint64_t)1 << i) - 1);
}

static inline size_t lowest(uint64_t set) { return (size_t)__builtin_ctzll(set); }

/* The hits on flow i, once its bound is known: they depend on no third flow. SB asks for none. */
static inline void hits_on(struct work *w, size_t i) {
    if (w->method == SB) return;
    for (uint64_t set = w->direct[i]; set != 0; set &= set - 1) {
        size_t k = lowest(set);
        uint32_t hits = (w->bound[i] + w->jitter[k] + w->period[k] - 1) / w->period[k];
        w->hits[i][k] = w->method == XLWX ? hits * w->latency[k] : hits;
    }
}

static inline struct loads xlwx_loads(const struct work *w, size_t i, size_t j) {
    uint32_t up = 0, all = 0;
    uint8_t place = w->first[j][i];
    for (uint64_t set = w->direct[j] & ~w->direct[i]; set != 0; set &= set - 1) {
        size_t k = lowest(set);
        uint32_t load = w->hits[j][k];
        all += load;
        up += w->first[j][k] < place ? load : 0;
    }
    return (struct loads){up, all - up};
}

/* IBN asks nothing of upstream flows. */
static inline struct loads ibn_loads(const struct work *w, size_t i, size_t j) {
    uint32_t down = 0, cap = w->cap * w->shared[i][j];
    uint8_t place = w->first[j][i];
    for (uint64_t set = w->direct[j] & ~w->direct[i]; set != 0; set &= set - 1) {
        size_t k = lowest(set);
        uint32_t cost = w->latency[k] < cap ? w->latency[k] : cap;
        down += w->first[j][k] < place ? 0 : w->hits[j][k] * cost;
    }
    return (struct loads){0, down};
}

/* The part of direct flow j in the recurrence of flow i. */
static inline struct term term_of(const struct work *w, size_t i, size_t j) {
    uint32_t allowance = w->bound[j] - w->latency[j];
    struct loads l = {0, 0};
    if (w->method == XLWX) {
        l = xlwx_loads(w, i, j);
        allowance = l.up;
    } else if (w->method == IBN) {
        l = ibn_loads(w, i, j);
    }
    uint32_t shift = w->jitter[j] + allowance + (w->period[j] - 1);
    return (struct term){shift, w->period[j], w->latency[j] + l.down};
}

/* Answers flow i from the answers to all above it, into its record. */
static inline void answer(struct work *w, size_t i, const struct reading *r, const uint8_t *order, uint8_t *out) {
    struct term terms[MOST_FLOWS];
    uint64_t held_up = w->direct[i] & w->unbounded;
    uint32_t id = r->id[order[i]], rounds;
    if (held_up != 0) {
        w->unbounded |= (uint64_t)1 << i;
        put_answer(out, id, LINGFALLOW_WAITS, r->id[order[lowest(held_up)]], 0, 0);
        return;
    }
    size_t n = 0;
    for (uint64_t set = w->direct[i]; set != 0; set &= set - 1) {
        terms[n++] = term_of(w, i, lowest(set));
    }
    if (settle(w->latency[i], w->limit[i], terms, n, &w->bound[i], &rounds)) {
        hits_on(w, i);
        put_answer(out, id, LINGFALLOW_BOUNDED, NO_FLOW, w->bound[i], rounds);
    } else {
        w->unbounded |= (uint64_t)1 << i;
        put_answer(out, id, LINGFALLOW_LATE, NO_FLOW, 0, rounds);
    }
}

/* Takes the flows in order of priority. An accepted plan's records stand at known places. */
static void take_flows(struct work *w, struct routes *routes, const uint8_t *bytes, size_t count,
                       const uint8_t *order) {
    uint32_t columns = bytes[3], link = bytes[5], routing = bytes[6], more_flits = priority_flits(bytes);
    const uint8_t *flows = bytes + flows_at(bytes);
    for (size_t i = 0; i < count; i++) {
        const uint8_t *record = flows + FLOW_SIZE * order[i];
        put_route(routes, i, columns, record[7], record[8]);
        w->latency[i] = link * (two_at(record + 9) + more_flits + routes->exit[i]) + routing * routes->exit[i];
        w->period[i] = four_at(record + 11);
        w->jitter[i] = four_at(record + 19);
        w->limit[i] = limit_of(four_at(record + 15), w->jitter[i]);
    }
}

static void analyse_plan(const uint8_t *bytes, const struct reading *r, uint8_t *reply) {
    struct work w;
    struct routes routes = {0};
    uint8_t order[MOST_FLOWS];
    w.method = bytes[8] == 0 ? HOUSE_DEFAULT : bytes[8];
    w.cap = (unsigned)bytes[7] * bytes[5];
    w.unbounded = 0;
    order_by_priority(r, order);
    take_flows(&w, &routes, bytes, r->count, order);
    pair_table(&w, &routes, r->count);
    for (size_t i = 0; i < r->count; i++) {
        w.direct[i] = direct_flows(w.shared[i], i);
        answer(&w, i, r, order, reply + LINGFALLOW_FLOW_RECORD * order[i]);
    }
}

struct lingfallow_returned plain_analyse(const uint8_t *plan, size_t plan_length, uint8_t *reply, size_t reply_length) {
    return analyse_with(analyse_plan, plan, plan_length, reply, reply_length);
}
