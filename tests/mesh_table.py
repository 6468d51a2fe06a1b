#!/usr/bin/env python3
"""Works out what the program mesh_table prints, from document 01 ("Routes and shared links") and not from its code.

Rerun it from the repository's root:
    python3 tests/mesh_table.py             compares crates/mesh_table/stdout with what is worked out here; prints 'ok'
    python3 tests/mesh_table.py --print     prints what is worked out here

A line is for one mesh: how many ordered pairs of routes there are (source and destination differ), the sum of their
counts of shared links, the sum of their first places, and a hash of both numbers of each pair in order.
"""
import sys
from pathlib import Path

from common.routes import route

MESHES = [(3, 4), (6, 1), (1, 6), (2, 2)]


def kept(first, second):
    places = [place for place, link in enumerate(first) if link in second]
    others = [second.index(first[place]) for place in places]
    # one unbroken run on each route, in the same order on both
    assert all(run == list(range(run[0], run[0] + len(run))) for run in (places, others) if run)
    return len(places), places[0] if places else 0


def line(columns, rows):
    nodes = range(columns * rows)
    routes = [route(columns, s, d) for s in nodes for d in nodes if s != d]
    assert all(3 <= len(r) <= 16 and len(set(r)) == len(r) for r in routes)
    pairs = counts = places = value = 0
    for first in routes:
        for second in routes:
            count, place = kept(first, second)
            pairs, counts, places = pairs + 1, counts + count, places + place
            value = (value * 289 + count * 17 + place) % 4294967291
    return f"{columns} by {rows} pairs {pairs} counts {counts} places {places} hash {value}\n"


def main():
    expected = "".join(line(columns, rows) for columns, rows in MESHES)
    if "--print" in sys.argv[1:]:
        sys.stdout.write(expected)
        return 0
    stored = (Path(__file__).resolve().parent.parent / "crates/mesh_table/stdout").read_text()
    if stored != expected:
        sys.stdout.write(f"crates/mesh_table/stdout differs from what document 01 gives:\n{expected}")
        return 1
    print("ok")
    return 0


sys.exit(main())
