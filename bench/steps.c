/* Document 01 in plain C11, flow after flow: every search and every sum goes over all flows in plan order, as the
 * product's did before it listed direct flows; the pair table is an array of arrays, and shared links are worked out
 * from rows and columns.
 */
#include "common.h"

struct flow {
    uint16_t id, priority;
    uint8_t source, destination;
    uint32_t flits, period, deadline, jitter;
};

struct pair {
    uint8_t count, first;
};

struct answer {
    uint8_t verdict;
    uint16_t named;
    uint32_t bound, rounds;
};

struct work {
    unsigned columns, link, routing, buffer, method, priority_flits;
    size_t count;
    struct flow flows[MOST_FLOWS];
    struct pair table[MOST_FLOWS][MOST_FLOWS];
    uint32_t latency[MOST_FLOWS], hits[MOST_FLOWS][MOST_FLOWS];
    struct answer answers[MOST_FLOWS];
};

/* ---- shared links */

/* The ends of a route. */
struct ends {
    int row, column, row_to, column_to;
};

static struct ends ends_of(int columns, const struct flow *f) {
    return (struct ends){f->source / columns, f->source % columns, f->destination / columns, f->destination % columns};
}

static inline int distance(int u, int v) { return u < v ? v - u : u - v; }

static inline int smaller(int a, int b) { return a < b ? a : b; }

static inline int larger(int a, int b) { return a > b ? a : b; }

/* How many hops of a line two flows share that go from u to v and from s to t; the first one's hops before them. */
static inline int shared_hops(int u, int v, int s, int t, int *before) {
    if (u < v && s < t) {
        int start = larger(u, s);
        *before = start - u;
        return larger(smaller(v, t) - start, 0);
    }
    if (u > v && s > t) {
        int start = smaller(u, s);
        *before = u - start;
        return larger(start - larger(v, t), 0);
    }
    return 0;
}

static inline struct pair shared_links(struct ends a, struct ends b) {
    int row = 0, column = 0, row_before = 0, column_before = 0, turn = 1 + distance(a.column, a.column_to);
    if (a.row != b.row && a.column_to != b.column_to) return (struct pair){0, 0};
    if (a.row == b.row) row = shared_hops(a.column, a.column_to, b.column, b.column_to, &row_before);
    if (a.column_to == b.column_to) column = shared_hops(a.row, a.row_to, b.row, b.row_to, &column_before);
    int entry = a.row == b.row && a.column == b.column, exit = a.row_to == b.row_to && a.column_to == b.column_to;
    int count = entry + row + column + exit, first = 0;
    if (count > 0 && entry == 0) {
        first = row ? 1 + row_before : column ? turn + column_before : turn + distance(a.row, a.row_to);
    }
    return (struct pair){(uint8_t)count, (uint8_t)first};
}

static void pair_table(struct work *w) {
    struct ends ends[MOST_FLOWS];
    for (size_t i = 0; i < w->count; i++) {
        ends[i] = ends_of((int)w->columns, &w->flows[i]);
    }
    for (size_t i = 0; i < w->count; i++) {
        for (size_t j = 0; j < w->count; j++) {
            w->table[i][j] = shared_links(ends[i], ends[j]);
        }
    }
}

/* ---- who delays whom, and by how much */

static inline bool is_direct(const struct work *w, size_t i, size_t j) {
    return w->flows[j].priority < w->flows[i].priority && w->table[i][j].count > 0;
}

static void latencies(struct work *w) {
    for (size_t i = 0; i < w->count; i++) {
        unsigned hops = w->table[i][i].count - 1u;
        w->latency[i] = w->link * (w->flows[i].flits + w->priority_flits + hops) + w->routing * hops;
    }
}

/* The hits on flow i, once its bound is known: they depend on no third flow. */
static void hits_on(struct work *w, size_t i) {
    for (size_t k = 0; k < w->count; k++) {
        const struct flow *f = &w->flows[k];
        w->hits[i][k] = is_direct(w, i, k) ? (w->answers[i].bound + f->jitter + f->period - 1) / f->period : 0;
    }
}

/* The hits of the upstream flows at their latencies, and of the downstream flows at no more than the cap. */
static inline struct loads third_loads(const struct work *w, size_t i, size_t j, uint32_t cap) {
    struct loads l = {0, 0};
    uint8_t place = w->table[j][i].first;
    for (size_t k = 0; k < w->count; k++) {
        if (w->hits[j][k] == 0 || w->table[i][k].count > 0) continue;
        if (w->table[j][k].first < place) {
            l.up += w->hits[j][k] * w->latency[k];
        } else {
            l.down += w->hits[j][k] * (w->latency[k] < cap ? w->latency[k] : cap);
        }
    }
    return l;
}

/* The part of direct flow j in the recurrence of flow i. */
static inline struct term term_of(const struct work *w, size_t i, size_t j) {
    uint32_t allowance = w->answers[j].bound - w->latency[j];
    struct loads l = {0, 0};
    if (w->method == XLWX) {
        l = third_loads(w, i, j, UINT32_MAX);
        allowance = l.up;
    } else if (w->method == IBN) {
        l = third_loads(w, i, j, w->buffer * w->link * w->table[i][j].count);
    }
    const struct flow *f = &w->flows[j];
    return (struct term){f->jitter + allowance + (f->period - 1), f->period, w->latency[j] + l.down};
}

/* ---- verdicts */

/* The flow of highest priority below `last`, or count. */
static size_t next_flow(const struct work *w, unsigned last) {
    size_t best = w->count;
    for (size_t k = 0; k < w->count; k++) {
        if (w->flows[k].priority <= last) continue;
        if (best == w->count || w->flows[k].priority < w->flows[best].priority) best = k;
    }
    return best;
}

/* The unbounded direct flow of highest priority, or count. */
static size_t waits_on(const struct work *w, size_t i) {
    size_t best = w->count;
    for (size_t k = 0; k < w->count; k++) {
        if (!is_direct(w, i, k) || w->answers[k].verdict == LINGFALLOW_BOUNDED) continue;
        if (best == w->count || w->flows[k].priority < w->flows[best].priority) best = k;
    }
    return best;
}

static struct answer judge(const struct work *w, size_t i) {
    struct term terms[MOST_FLOWS];
    size_t n = 0, held_up = waits_on(w, i);
    if (held_up < w->count) return (struct answer){LINGFALLOW_WAITS, w->flows[held_up].id, 0, 0};
    for (size_t j = 0; j < w->count; j++) {
        if (is_direct(w, i, j)) terms[n++] = term_of(w, i, j);
    }
    uint32_t bound, rounds, limit = limit_of(w->flows[i].deadline, w->flows[i].jitter);
    if (settle(w->latency[i], limit, terms, n, &bound, &rounds)) {
        return (struct answer){LINGFALLOW_BOUNDED, NO_FLOW, bound, rounds};
    }
    return (struct answer){LINGFALLOW_LATE, NO_FLOW, 0, rounds};
}

/* ---- from a plan's bytes to its reply */

static void take_plan(struct work *w, const uint8_t *bytes, const struct reading *r) {
    w->columns = bytes[3];
    w->link = bytes[5];
    w->routing = bytes[6];
    w->buffer = bytes[7];
    w->method = bytes[8] == 0 ? HOUSE_DEFAULT : bytes[8];
    w->priority_flits = priority_flits(bytes);
    w->count = r->count;
    for (size_t i = 0; i < r->count; i++) {
        const uint8_t *f = bytes + flows_at(bytes) + FLOW_SIZE * i;
        w->flows[i] = (struct flow){r->id[i],         r->priority[i],  f[7],           f[8], two_at(f + 9),
                                    four_at(f + 11), four_at(f + 15), four_at(f + 19)};
    }
}

static void analyse_plan(const uint8_t *bytes, const struct reading *r, uint8_t *reply) {
    struct work w;
    take_plan(&w, bytes, r);
    pair_table(&w);
    latencies(&w);
    for (size_t i = next_flow(&w, 0); i < w.count; i = next_flow(&w, w.flows[i].priority)) {
        w.answers[i] = judge(&w, i);
        if (w.answers[i].verdict == LINGFALLOW_BOUNDED) hits_on(&w, i);
    }
    for (size_t i = 0; i < w.count; i++) {
        const struct answer *a = &w.answers[i];
        put_answer(reply + LINGFALLOW_FLOW_RECORD * i, w.flows[i].id, a->verdict, a->named, a->bound, a->rounds);
    }
}

struct lingfallow_returned steps_analyse(const uint8_t *plan, size_t plan_length, uint8_t *reply, size_t reply_length) {
    return analyse_with(analyse_plan, plan, plan_length, reply, reply_length);
}
