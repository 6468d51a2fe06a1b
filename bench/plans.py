#!/usr/bin/env python3
"""Writes the plans that the benchmark measures: plans.py FOLDER. Each run writes the same bytes."""
import os
import random
import struct
import sys

SEED = 20
FLOWS = 64
SIDE = 8
IBN = 3
LONGEST = 1_000_000_000  # the longest period and deadline
METHODS = {1: "sb", 2: "xlwx", 3: "ibn"}
SIZES = (8, 16, 32)  # the plans that show how the cost grows are parts of crowded-ibn


def platform(columns, rows, link, routing, buffer, method, *priority_flits):
    body = (columns, rows, link, routing, buffer, method, *priority_flits)
    return struct.pack(f">BH{len(body)}B", 1, len(body), *body)


def flow(id, priority, source, destination, flits, period, deadline, jitter):
    body = (id, priority, source, destination, flits, period, deadline, jitter)
    return struct.pack(">BHHHBBHIII", 2, 20, *body)


def plan(mesh, flows):
    return mesh + b"".join(flows) + struct.pack(">BH", 0x7F, 0)


def plan_p(*priority_flits):
    flows = (
        flow(2, 1, 4, 5, 60, 200, 200, 0),
        flow(3, 2, 0, 5, 198, 4000, 4000, 0),
        flow(5, 3, 1, 4, 128, 6000, 6000, 0),
    )
    return plan(platform(6, 1, 1, 0, 10, IBN, *priority_flits), flows)


def any_two_nodes(draw):
    return draw.sample(range(SIDE * SIDE), 2)


def from_the_first_row(draw):
    return draw.randrange(SIDE), draw.randrange(SIDE, SIDE * SIDE)


def random_flows(ends, load):
    """The shorter a period, the higher the priority, as planners do it; load: the most that a flow asks of a link."""
    draw = random.Random(SEED)
    periods = sorted(int(2 ** draw.uniform(13, 18)) for _ in range(FLOWS))
    priorities = sorted(draw.sample(range(1, 65536), FLOWS))
    ids = draw.sample(range(65535), FLOWS)
    flows = []
    for period, priority, id in zip(periods, priorities, ids):
        source, destination = ends(draw)
        flits = int(period * draw.uniform(load / 4, load))
        jitter = draw.randrange(period // 8)
        flows.append(flow(id, priority, source, destination, flits, period, period, jitter))
    draw.shuffle(flows)
    return flows


def square(method, flows):
    return plan(platform(SIDE, SIDE, 1, 1, 4, method), flows)


def many_rounds():
    """The higher flow takes all of the link, so that each round adds one period of 100 until the deadline is passed."""
    flows = (
        flow(1, 1, 0, 1, 98, 100, 100, 0),
        flow(2, 2, 0, 1, 98, LONGEST, LONGEST, 0),
    )
    return plan(platform(2, 1, 1, 0, 1, IBN), flows)


def many_terms():
    """The same with seven direct flows, one for each hop of a row; each takes a seventh of its link."""
    flows = [flow(c, 1 + c, c, c + 1, 98, 700, 700, 0) for c in range(7)]
    flows.append(flow(7, 8, 0, 7, 98, LONGEST, LONGEST, 0))
    return plan(platform(8, 1, 1, 0, 1, IBN), flows)


def plans():
    spread = random_flows(any_two_nodes, 0.14)
    crowded = random_flows(from_the_first_row, 0.02)
    yield "P", plan_p()
    yield "P-flits-2", plan_p(2)
    for method, name in METHODS.items():
        yield f"full-{name}", square(method, spread)
    for method, name in METHODS.items():
        yield f"crowded-{name}", square(method, crowded)
    for size in SIZES:
        yield f"grown-{size:02}", square(IBN, crowded[:size])
    yield "rounds", many_rounds()
    yield "rounds-7", many_terms()


def main(folder):
    os.makedirs(folder, exist_ok=True)
    for name, data in plans():
        with open(os.path.join(folder, name + ".plan"), "wb") as out:
            out.write(data)
        print(name)


if __name__ == "__main__":
    main(sys.argv[1])
