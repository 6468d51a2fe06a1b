#!/usr/bin/env python3
"""The plans that crates/cases reads, and what it must print of each: the outcome, the plan's values, the answers.

A second analysis after documents 01 and 02, by the authors of the first, with no code of it and other ways where there are any: routes are lists of node
pairs, a side is told by all places and not by the first, and a bound is searched for number by number where that is short.

    tests/cases.py            compares crates/cases/data/plans and crates/cases/stdout with what it works out
    tests/cases.py --write    writes the two files
"""
import random
import struct
import sys
from pathlib import Path

from common.routes import route

ROOT = Path(__file__).resolve().parent.parent / "crates" / "cases"
SEED = 20261115
BILLION = 1_000_000_000


def u(width, value):
    return value.to_bytes(width, "big")


# ---- a reader of its own: it splits the bytes into records first and looks at each by a list of rules

PLATFORM, FLOW, END = 0x01, 0x02, 0x7F
LENGTHS = {PLATFORM: (6, 7), FLOW: (20,), END: (0,)}
FLOW_LAYOUT = ">HHBBHIII"


class Refusal(Exception):
    pass


def need(fine, number, place):
    if not fine:
        raise Refusal(number, place)


def header(data, at, first, flows):
    need(len(data) - at >= 3, 1, at)
    tag = data[at]
    need(tag in LENGTHS, 2, at)
    need((tag == PLATFORM) == first, 4, at)
    size = int.from_bytes(data[at + 1:at + 3], "big")
    need(size in LENGTHS[tag], 3, at + 1)
    need(at + 3 + size <= len(data), 1, at)
    need(not (tag == FLOW and flows == 64), 6, at)
    return tag, data[at + 3:at + 3 + size]


def platform_of(body, at):
    limits = [(1, 8), (1, 8), (1, 16), (0, 16), (1, 64), (0, 3), (1, 8)]
    for k, value in enumerate(body):
        low, high = limits[k]
        need(low <= value <= high, 20 + k, at + 3 + k)
    return [*body, 0][:7]  # a six-byte record means zero priority flits


def flow_of(body, at, platform, flows):
    values = struct.unpack(FLOW_LAYOUT, body)
    ident, priority, source, destination, flits, period, deadline, jitter = values
    nodes = platform[0] * platform[1]
    need(ident <= 65534, 30, at + 3)
    need(priority >= 1, 31, at + 5)
    need(source < nodes, 32, at + 7)
    need(destination < nodes, 33, at + 8)
    need(flits >= 1, 34, at + 9)
    need(1 <= period <= BILLION, 35, at + 11)
    need(deadline != 0, 36, at + 15)
    need(deadline <= period, 38, at + 15)
    need(jitter <= BILLION, 37, at + 19)
    need(source != destination, 9, at + 8)
    need(ident not in [f[0] for f in flows], 7, at + 3)
    need(priority not in [f[1] for f in flows], 8, at + 5)
    return list(values)


def read(data):
    at, platform, flows = 0, None, []
    while True:
        tag, body = header(data, at, at == 0, len(flows))
        if tag == PLATFORM:
            platform = platform_of(body, at)
        elif tag == FLOW:
            flows.append(flow_of(body, at, platform, flows))
        else:
            need(len(data) == at + 3, 10, at + 3)
            return platform, flows
        at += 3 + len(body)


# ---- an analysis of its own

def up(a, b):
    return -(-a // b)


class Analysis:
    def __init__(self, platform, flows):
        self.columns, self.rows, self.link, self.routing, self.buffer, method, self.priority_flits = platform
        self.method = 3 if method == 0 else method
        self.flows = {f[0]: f for f in flows}
        self.routes = {f[0]: route(self.columns, f[2], f[3]) for f in flows}
        self.answers = {}
        for ident in sorted(self.flows, key=lambda i: self.flows[i][1]):
            self.answers[ident] = self.answer(ident)

    def shared(self, a, b):
        return [link for link in self.routes[a] if link in self.routes[b]]

    def direct(self, i):
        return [j for j in self.flows if self.flows[j][1] < self.flows[i][1] and self.shared(i, j)]

    def latency(self, i):
        length = len(self.routes[i])
        return self.link * (self.flows[i][4] + self.priority_flits + length - 1) + self.routing * (length - 1)

    def sides(self, i, j):
        """The flows that are direct for j and not for i: upstream and downstream for (i, j)."""
        upstream, downstream = [], []
        mine = [self.routes[j].index(link) for link in self.shared(j, i)]
        for k in set(self.direct(j)) - set(self.direct(i)):
            theirs = [self.routes[j].index(link) for link in self.shared(j, k)]
            if max(theirs) < min(mine):
                upstream.append(k)
            else:
                assert max(mine) < min(theirs)
                downstream.append(k)
        return upstream, downstream

    def term(self, i, j):
        """Jitter and allowance, period and weight of j in the recurrence of i."""
        bound, flow = self.answers[j][2], self.flows[j]
        upstream, downstream = self.sides(i, j)

        def hits(k):
            return up(bound + self.flows[k][7], self.flows[k][5])

        held = self.buffer * self.link * len(self.shared(i, j))
        if self.method == 1:
            allowance, weight = bound - self.latency(j), self.latency(j)
        elif self.method == 2:
            allowance = sum(hits(k) * self.latency(k) for k in upstream)
            weight = self.latency(j) + sum(hits(k) * self.latency(k) for k in downstream)
        else:
            allowance = bound - self.latency(j)
            weight = self.latency(j) + sum(hits(k) * min(self.latency(k), held) for k in downstream)
        assert weight <= bound <= flow[5] and allowance <= bound
        return flow[7] + allowance, flow[5], weight

    def answer(self, i):
        """Verdict, named flow, bound, rounds."""
        stuck = [j for j in self.direct(i) if self.answers[j][0] != 0]
        if stuck:
            return 2, min(stuck, key=lambda j: self.flows[j][1]), 0, 0
        terms = [self.term(i, j) for j in self.direct(i)]
        latency, limit = self.latency(i), self.flows[i][6] - self.flows[i][7]  # below 0 for a jitter above the deadline

        def right_side(x):
            return latency + sum(up(x + shift, period) * weight for shift, period, weight in terms)

        rounds, x, bound = 0, latency, None
        while x <= limit and bound is None:
            rounds, new = rounds + 1, right_side(x)
            if new == x:
                bound = x
            x = new
        if limit <= 3000:
            assert bound == next((y for y in range(limit + 1) if right_side(y) == y), None)
        return (1, 65535, 0, rounds) if bound is None else (0, 65535, bound, rounds)


def line(data):
    try:
        platform, flows = read(data)
        numbers = [0, 0] + platform + [v for f in flows for v in f]
        answers = Analysis(platform, flows).answers
        numbers += [v for f in flows for v in (f[0], *answers[f[0]])]
    except Refusal as refusal:
        numbers = list(refusal.args) + [0] * 7
    return "".join(f"{n} " for n in numbers) + "\n"


# ---- the plans

def record(tag, body):
    return u(1, tag) + u(2, len(body)) + body


def platform(columns=6, rows=1, link=1, routing=0, buffer=10, method=3):
    return record(PLATFORM, bytes([columns, rows, link, routing, buffer, method]))


def flow(ident, priority, source, destination, flits=1, period=9, deadline=9, jitter=0):
    return record(FLOW, struct.pack(FLOW_LAYOUT, ident, priority, source, destination, flits, period, deadline, jitter))


END_RECORD = record(END, b"")
P = platform() + flow(2, 1, 4, 5, 60, 200, 200) + flow(3, 2, 0, 5, 198, 4000, 4000) + flow(5, 3, 1, 4, 128, 6000, 6000) + END_RECORD
P_STARTS = [0, 9, 32, 55, 78]


def many(n, last=None):
    flows = [flow(k, k + 1, k % 6, (k + 1) % 6) for k in range(n)]
    if last is not None:
        flows[-1] = last
    return platform() + b"".join(flows) + END_RECORD


def changed(data, *changes):
    data = bytearray(data)
    for at, new in changes:
        data[at:at + len(new)] = new
    return bytes(data)


def with_jitters(data, jitters):
    """The plan with these jitters, in plan order."""
    return changed(data, *((9 + 23 * place + 19, u(4, jitter)) for place, jitter in enumerate(jitters)))


def with_seventh(data, flits):
    """The plan, whose platform record has six bytes, with a seventh."""
    assert data[:3] == b"\x01\0\6"
    return changed(data[:9], (2, b"\7")) + bytes([flits]) + data[9:]


def with_more_flits(data, more):
    """The plan with so many flits more in each flow."""
    places = range(9 + 9, len(data) - 3, 23)
    return changed(data, *((at, u(2, int.from_bytes(data[at:at + 2], "big") + more)) for at in places))


def framing_cases():
    yield P
    yield platform() + END_RECORD
    for n in range(len(P)):
        yield P[:n]
    for at in P_STARTS:
        for tag in (0x00, 0x03, 0x7E, 0x80, 0xFF):
            yield changed(P, (at, u(1, tag)))
        for size in (1, 5, 7, 19, 21, 256, 65535):
            yield changed(P, (at + 1, u(2, size)))
        yield P[at:]
        yield P[:at] + P
    for tail in (b"\0", b"\x7f", END_RECORD, P, b"\0" * 300):
        yield P + tail
        yield platform() + END_RECORD + tail
    for n in (1, 63, 64, 65, 66):
        yield many(n)
    yield many(64)[:-1]
    yield many(64) + b"\0"
    yield many(65)[:1481 + 22]
    yield many(65, flow(2, 99, 0, 1))
    yield many(65, flow(200, 1, 9, 9, 0, 0, 0))


def field_cases():
    platform_fields = [(3, 1, 8), (4, 1, 8), (5, 1, 16), (6, 0, 16), (7, 1, 64), (8, 0, 3)]
    for at, low, high in platform_fields:
        for value in {max(low - 1, 0), low, high, high + 1, 255}:
            yield changed(P, (at, u(1, value)))
    for start in P_STARTS[1:4]:
        for offset, width, values in [
            (3, 2, (0, 7, 65534, 65535)), (5, 2, (0, 7, 65535)), (7, 1, (0, 2, 5, 6, 255)), (8, 1, (0, 2, 5, 6, 255)),
            (9, 2, (0, 1, 65535)), (11, 4, (0, 1, 199, BILLION, BILLION + 1, 2**32 - 1)),
            (15, 4, (0, 1, 200, 201, 4000, 4001, 6001, 2**32 - 1)), (19, 4, (0, BILLION, BILLION + 1, 2**32 - 1)),
        ]:
            for value in values:
                yield changed(P, (start + offset, u(width, value)))


def clash_cases():
    for later in (32, 55):
        for earlier in P_STARTS[1:P_STARTS.index(later)]:
            ident, priority = P[earlier + 3:earlier + 5], P[earlier + 5:earlier + 7]
            yield changed(P, (later + 3, ident))
            yield changed(P, (later + 5, priority))
            yield changed(P, (later + 3, ident), (later + 5, priority))
            yield changed(P, (later + 3, ident), (later + 8, P[later + 7:later + 8]))
            yield changed(P, (later + 5, priority), (later + 19, b"\xff"))
            yield changed(P, (later + 3, ident), (later, b"\x05"))
            yield changed(P, (later + 3, ident), (later + 1, b"\x05"))
            yield changed(P, (later + 3, ident))[:later + 20]
            yield changed(P, (later + 3, ident), (7, b"\x41"))


# ---- published figures

def answers_of(data):
    return {ident: answer for ident, answer in Analysis(*read(data)).answers.items()}


def figures():
    """Document 01's "Figures to meet", with document 02's L6 for method 0: the change to P, the flow, its verdict, named flow, bound and rounds."""
    none = 65535
    slow = [(32 + 11, u(4, 400)), (32 + 15, u(4, 400))]
    yield [(8, b"\1")], 5, (0, none, 336, 2)
    yield [(8, b"\2")], 5, (0, none, 460, 2)
    yield [(8, b"\0")], 5, (0, none, 396, 2)
    yield [], 2, (0, none, 62, 1)
    yield [], 3, (0, none, 328, 2)
    yield [], 5, (0, none, 396, 2)
    yield [(7, b"\2")], 5, (0, none, 348, 2)
    yield [(32 + 15, u(4, 328))], 3, (0, none, 328, 2)
    yield [(32 + 15, u(4, 327))], 3, (1, none, 0, 1)
    yield [(32 + 15, u(4, 327))], 5, (2, 3, 0, 0)
    yield [(8, b"\1"), *slow], 5, (0, none, 540, 3)
    yield [(8, b"\2"), *slow], 5, (0, none, 788, 3)
    yield [(8, b"\3"), *slow], 5, (0, none, 660, 3)
    yield [(8, b"\1"), (55 + 15, u(4, 335))], 5, (1, none, 0, 1)
    yield [(55 + 15, u(4, 131))], 5, (1, none, 0, 0)
    for method in range(4):
        yield [(8, bytes([method])), (9 + 7, b"\0\1")], 5, (0, none, 336, 2)


def tick_figures():
    """Document 02's L3: jitters for the flows 2, 3 and 5 of P, and their verdict, named flow, bound and rounds."""
    none = 65535
    two, three, five = (0, none, 62, 1), (0, none, 328, 2), (0, none, 396, 2)
    waits = (2, 3, 0, 0)

    def late(rounds):
        return 1, none, 0, rounds

    yield (138, 0, 0), (two, (0, none, 390, 3), (0, none, 426, 2))  # 62 + 138 is the deadline
    yield (139, 0, 0), (late(0), (2, 2, 0, 0), waits)
    yield (0, 3672, 0), (two, three, (0, none, 660, 3))  # 328 + 3672 is the deadline
    yield (0, 3673, 0), (two, late(1), waits)
    yield (0, 3796, 0), (two, late(1), waits)  # 204 + 3796 is the deadline
    yield (0, 3797, 0), (two, late(0), waits)
    yield (0, 0, 5604), (two, three, five)  # 396 + 5604 is the deadline
    yield (0, 0, 5605), (two, three, late(1))
    for jitter in (6000, 6001, BILLION):  # the deadline, and above it
        yield (0, 0, jitter), (two, three, late(0))
        yield (0, 4000, jitter), (two, late(0), waits)


def paper_tables():
    """Tables II and IV of Indrusiak, Burns and Nikolic, on a line; in the last flow's deadline there is room for its bound."""
    first = [flow(6, 1, 0, 1, 12, 1000, 1000), flow(7, 2, 1, 2, 50, 208, 208), flow(8, 3, 0, 2, 100, 257, 257), flow(9, 4, 1, 2, 50, 1000, 1000)]
    for method, bounds in [(1, (14, 52, 169, 362)), (2, (14, 52, 169, 207)), (3, (14, 52, 169, 362))]:
        yield platform(columns=3, method=method) + b"".join(first) + END_RECORD, bounds
    second = [flow(1, 1, 0, 2, 27, 150, 100), flow(2, 2, 5, 6, 28, 150, 100), flow(3, 3, 1, 6, 144, 400, 300), flow(4, 4, 5, 6, 98, 600, 550), flow(5, 5, 2, 5, 96, 600, 600)]
    for method, buffer, bounds in [(1, 10, (30, 30, 270, 520, 250)), (2, 10, (30, 30, 270, 340, 310)), (3, 10, (30, 30, 270, 520, 520)), (3, 2, (30, 30, 270, 520, 262))]:
        yield platform(columns=7, buffer=buffer, method=method) + b"".join(second) + END_RECORD, bounds


def apart():
    """No two numbers of the mesh line equal, and a flow of each verdict."""
    flows = [flow(11, 2, 0, 4, 10, 500, 450, 20), flow(12, 1, 3, 9, 6, 300, 200, 10), flow(13, 5, 1, 13, 15, 1000, 900, 40), flow(14, 6, 8, 13, 9, 400, 95, 6), flow(15, 9, 7, 13, 5, 800, 700, 3)]
    return platform(5, 3, 2, 4, 7, 1) + b"".join(flows) + END_RECORD


def crossing(method, jitter):
    """Flows 1 and 2 upstream and flows 4 and 3 downstream of flow 7 for flow 9, where each operand counts: jitter of flow 7."""
    flows = [
        flow(7, 9, 0, 5, 12, 1190, 1140, jitter), flow(3, 6, 11, 5, 13, 170, 160, 28), flow(1, 2, 0, 2, 4, 360, 350, 57), flow(4, 5, 4, 11, 3, 350, 340, 56),
        flow(9, 12, 2, 10, 22, 9000, 8000, 31), flow(8, 1, 10, 11, 3, 170, 165, 24), flow(2, 7, 1, 2, 1, 160, 150, 44), flow(5, 4, 2, 3, 5, 440, 430, 1),
    ]
    return platform(6, 4, 2, 5, 7, method) + b"".join(flows) + END_RECORD


def apart_figures():
    """Plans that tell apart what P does not, worked out by hand: flows with their verdict, named flow, bound and rounds."""
    none = 65535
    yield apart(), {11: (0, none, 80, 2), 12: (0, none, 30, 1), 13: (0, none, 110, 2), 14: (1, none, 0, 1), 15: (2, 14, 0, 0)}
    for method, jitter, seven, nine in [
        (1, 820, (274, 4), (162, 2)), (1, 821, (274, 4), (228, 3)), (2, 844, (294, 4), (269, 2)),
        (2, 845, (294, 4), (466, 4)), (3, 558, (398, 6), (300, 2)), (3, 559, (398, 6), (528, 4)),
    ]:
        yield crossing(method, jitter), {7: (0, none, *seven), 9: (0, none, *nine)}


def node_cases():
    """The last node of 5 x 3, and one that is none: P's one row cannot tell columns x rows from columns."""
    for place in range(5):
        for offset in (7, 8):
            for node in (14, 15):
                yield changed(apart(), (9 + 23 * place + offset, u(1, node)))


def published_cases():
    for changes, ident, expected in figures():
        data = changed(P, *changes)
        assert answers_of(data)[ident] == expected, (changes, ident, answers_of(data)[ident])
        yield data
    for jitters, expected in tick_figures():
        data = with_jitters(P, jitters)
        assert tuple(answers_of(data).values()) == expected, (jitters, answers_of(data), expected)
        yield data
    for data, expected in apart_figures():
        assert answers_of(data) | expected == answers_of(data), (answers_of(data), expected)
        yield data
    for data, bounds in paper_tables():
        assert tuple(answer[2] for answer in answers_of(data).values()) == bounds, (answers_of(data), bounds)
        yield data


def busy_cases():
    """Random plans whose flows meet often: a small mesh, short periods, some jitter."""
    chance = random.Random(SEED + 1)
    for _ in range(300):
        columns, rows = chance.choice(((4, 1), (3, 3), (2, 4), (4, 4), (8, 8)))
        flows, count = [], chance.randint(2, 12)
        priorities = chance.sample(range(1, 40), count)
        for k in range(count):
            ends = chance.sample(range(columns * rows), 2)
            period = chance.randint(50, 3000)
            flows.append(flow(k, priorities[k], ends[0], ends[1], chance.randint(1, 40), period, chance.randint(period // 2, period), chance.choice((0, 0, chance.randint(0, 2000)))))
        yield platform(columns, rows, chance.randint(1, 4), chance.randint(0, 3), chance.randint(1, 12), chance.randint(0, 3)) + b"".join(flows) + END_RECORD


def tick_cases():
    """Random plans with jitters that leave room, and one flow's about what its deadline leaves, by its bound or its unloaded latency."""
    chance = random.Random(SEED + 2)
    for data in busy_cases():
        _, flows = read(data)
        jitters = [chance.choice((0, chance.randint(0, f[5] // 3))) for f in flows]
        before = Analysis(*read(with_jitters(data, jitters)))
        busiest = max(range(len(flows)), key=lambda k: before.answers[flows[k][0]][3])
        place = chance.choice((busiest, chance.randrange(len(flows))))
        ident, deadline = flows[place][0], flows[place][6]
        taken = chance.choice((before.answers[ident][2], before.latency(ident), 0))
        jitters[place] = max(deadline - taken + chance.randint(-1, 1), 0)
        yield with_jitters(data, jitters)


def random_cases():
    chance = random.Random(SEED)
    for _ in range(400):
        columns, rows = chance.randint(1, 8), chance.randint(1, 8)
        nodes = max(columns * rows, 2)
        flows = []
        for k in range(chance.randint(0, 9)):
            ends = chance.sample(range(nodes), 2)
            period = chance.randint(1, BILLION)
            flows.append(flow(10 * k + chance.randint(0, 11), 5 * k + chance.randint(1, 6), ends[0], ends[1], chance.randint(1, 65535), period, chance.randint(1, period), chance.randint(0, BILLION)))
        data = platform(columns, rows, chance.randint(1, 16), chance.randint(0, 16), chance.randint(1, 64), chance.randint(0, 3)) + b"".join(flows) + END_RECORD
        for _ in range(chance.randint(0, 2)):
            data = changed(data, (chance.randrange(len(data)), bytes([chance.choice((0, 1, 2, 0x7F, 0xFF, chance.randrange(256)))])))
        yield data


def priority_flit_figures():
    """Document 02's L7: method and seventh byte of P, and the bound and rounds of its flows 2, 3 and 5, worked out by hand."""
    yield 3, 1, ((63, 1), (331, 2), (398, 2))
    yield 3, 2, ((64, 1), (334, 2), (400, 2))
    yield 3, 8, ((70, 1), (352, 2), (412, 2))
    yield 1, 2, ((64, 1), (334, 2), (340, 2))
    yield 2, 2, ((64, 1), (334, 2), (468, 2))
    yield 0, 2, ((64, 1), (334, 2), (400, 2))


def outcome_of(data):
    try:
        read(data)
        return 0, 0
    except Refusal as refusal:
        return refusal.args


def seventh_byte_cases():
    """The byte's values, each method with it, the record's length over the same bytes, and 65,535 flits with the most priority flits."""
    for flits in (0, 9, 255):
        assert outcome_of(with_seventh(P, flits)) == (26, 9)
        yield with_seventh(P, flits)
        yield with_seventh(changed(P, (8, b"\4")), flits)  # 25 comes first
        yield with_seventh(changed(P, (9, b"\5")), flits)  # and an unknown tag behind the record later
        yield with_seventh(platform() + END_RECORD, flits)
    for method, flits, expected in priority_flit_figures():
        data = with_seventh(changed(P, (8, bytes([method]))), flits)
        assert tuple(answer[2:] for answer in answers_of(data).values()) == expected, (method, flits, answers_of(data))
        yield data
    for size in (0, 5, 6, 7, 8, 263, 1792):
        yield changed(with_seventh(P, 2), (1, u(2, size)))
        yield changed(with_seventh(P, 0), (1, u(2, size)))
    data = platform(8, 8, 16, 16, 64, 3) + flow(1, 1, 0, 63, 65535, BILLION, BILLION) + END_RECORD
    assert answers_of(with_seventh(data, 8)) == {1: (0, 65535, 16 * (65535 + 8 + 15) + 16 * 15, 1)}
    yield with_seventh(data, 8)


def moved_cases():
    """The plans of before with a seventh byte: the same is refused, and behind the platform's fields one byte later."""
    yield with_seventh(P, 2)[:9]
    for data in (*framing_cases(), *field_cases(), *clash_cases(), *node_cases()):
        if len(data) >= 9 and data[:3] == P[:3]:
            number, place = outcome_of(data)
            assert outcome_of(with_seventh(data, 2)) == (number, place if place < 9 else place + 1)
            yield with_seventh(data, 2)
    assert len(with_seventh(many(64), 2)) == 1485
    assert outcome_of(with_seventh(many(65), 2)) == (6, 1482)


def alike_cases():
    """Random plans in pairs: so many priority flits, and as many flits more in each flow. The answers are equal."""
    chance = random.Random(SEED + 3)
    for data in [*tick_cases()][::4]:
        flits = chance.randint(1, 8)
        pair = with_seventh(data, flits), with_more_flits(data, flits)
        assert answers_of(pair[0]) == answers_of(pair[1])
        yield from pair


def damaged_cases():
    """Random plans with a seventh byte in and around its values, some damaged besides."""
    chance = random.Random(SEED + 4)
    for data in [*random_cases()][::4]:
        if len(data) >= 9 and data[:3] == P[:3]:
            yield with_seventh(data, chance.choice((0, 1, 8, 9, chance.randint(1, 8), chance.randrange(256))))


def main():
    plans = [*framing_cases(), *field_cases(), *clash_cases(), *node_cases(), *published_cases(), *busy_cases(), *random_cases(), *tick_cases()]
    plans += [*seventh_byte_cases(), *moved_cases(), *alike_cases(), *damaged_cases()]
    lines = [line(data) for data in plans]
    seen = {int(text.split()[0]) for text in lines}
    outcomes = {*range(5), *range(6, 11), *range(20, 27), *range(30, 39)}
    if seen != outcomes:
        sys.exit(f"cases: no plan for outcome {sorted(outcomes - seen)}, or an outcome of no document: {sorted(seen - outcomes)}")
    files = {ROOT / "data" / "plans": b"".join(u(2, len(data)) + data for data in plans), ROOT / "stdout": "".join(lines).encode()}
    for path, content in files.items():
        if "--write" in sys.argv:
            path.write_bytes(content)
        elif not path.exists() or path.read_bytes() != content:
            sys.exit(f"cases: {path} is not what documents 01 and 02 give")
    print(f"cases: {len(plans)} plans, seed {SEED}")


main()
