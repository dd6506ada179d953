#!/usr/bin/env python3
"""The seven pairs that are measured, in the formats of document 01, the four pairs of graphs that are joined, and the two angle sheets.

    python3 outside/bench/inputs.py [FOLDER]

writes NAME.graph and NAME.schema to the folder (target/bench/inputs, if none is given) for each NAME:

- bench: one sensor, one run and 90 angles, with the schema of the lamp bench.
- ceilings: conforms, with as many nodes, edges, properties, schema nodes, schema edges and schema properties as are accepted.
- worst: conforms, and takes longer than any other pair that was found in which no edge has several places; see worst().
- rule4: ceilings, and the last node has one edge too many of the last schema edge, so that only the last look of rule 4 finds it.
- several: worst, with every edge placed by two schema edges. It takes longer than any other pair that was found; see worst(), too.
- faulty: ceilings, and every node and every edge is at fault: 5,120 violations; see faulty().
- numbers: ceilings, and every number of edges is wrong, out of nodes and into them: 4,096 violations.

NAME.first.graph and NAME.second.graph, which are joined, for these:

- benches: two graphs of the lamp bench, with 90 angles each.
- halves: two graphs of half the ceilings, so that the joined one has as many nodes, edges, properties and text bytes as are accepted.
- texts: two graphs of 64 nodes with a Text each, of half the text that is accepted.
- rows: two graphs of 32 nodes with 256 properties each, half the property rows that are accepted.

And NAME.csv for these:

- good: the sheet of ninety angles in examples/sheet.
- most: the longest sheet that is good: 180 angles, each with as many digits as it may have.
"""
import random
import struct
import sys
from itertools import combinations
from pathlib import Path

BOOLEAN, INTEGER, REAL, DATE, TEXT = 1, 2, 3, 4, 5
MANDATORY, OPTIONAL = 0, 1
CLOSED, ANY = 0, 4294967295
NODES, EDGES, ROWS, TEXT_BYTES = 1024, 4096, 16384, 262144
SCHEMA_NODES, SCHEMA_EDGES, LISTED = 32, 64, 1024
LABELS, NAMES = 64, 256


# ---- the two formats

def graph(nodes, edges):
    """nodes: (labels, record); edges: (labels, source, target, record). A record is a dict from names to (kind, value); a Text's value is bytes."""
    heads, rows, text = [], [], bytearray()
    for *fields, record in [*nodes, *edges]:
        heads.append(struct.pack("<Q" + "I" * (len(fields) + 1), *fields, len(rows), len(record)))
        for name, (kind, value) in sorted(record.items()):
            length = 0
            if kind == TEXT:
                length, at = len(value), len(text)
                text += value
                value = at
            bits = struct.pack("<d", value) if kind == REAL else (value % 2**64).to_bytes(8, "little")
            rows.append(struct.pack("<HBBI", name, kind, 0, length) + bits)
    body = b"".join(heads + rows) + text
    return body + struct.pack("<IIIIHHI", len(nodes), len(edges), len(rows), len(text), LABELS, NAMES, len(body)) + b"GPH1"


def schema(nodes, edges):
    """nodes: (labels, shape); edges: (labels, source, target, source interval, target interval, shape). A shape is a dict from names to (type, flag)."""
    heads, rows = [], []

    def run(shape):
        first = len(rows)
        rows.extend(struct.pack("<HBB", name, *listed) for name, listed in sorted(shape.items()))
        return struct.pack("<IHH", first, len(shape), CLOSED)

    for labels, shape in nodes:
        heads.append(struct.pack("<Q", labels) + run(shape))
    for labels, source, target, into, out, shape in edges:
        heads.append(struct.pack("<QII", labels, source, target) + run(shape) + struct.pack("<IIII", *into, *out))
    body = b"".join(heads + rows)
    return body + struct.pack("<HHIHHI", len(nodes), len(edges), len(rows), LABELS, NAMES, len(body)) + b"SCH1"


# ---- the pairs

def bench():
    sensor, run, angle, of, at = (1 << k for k in range(5))
    serial, date, remark, degrees, coefficient = range(5)
    nodes = [(sensor, {serial: (TEXT, b"LB-0042")}), (run, {date: (DATE, 20260314)})]
    nodes += [(angle, {degrees: (INTEGER, d), coefficient: (REAL, 1 + d / 100)}) for d in range(90)]
    edges = [(of, 1, 0, {})] + [(at, 1, 2 + d, {}) for d in range(90)]
    types = [
        (sensor, {serial: (TEXT, MANDATORY)}),
        (run, {date: (DATE, MANDATORY), remark: (TEXT, OPTIONAL)}),
        (angle, {degrees: (INTEGER, MANDATORY), coefficient: (REAL, MANDATORY)}),
    ]
    between = [(of, 1, 0, (0, ANY), (1, 1), {}), (at, 1, 2, (1, 1), (2, 180), {})]
    return graph(nodes, edges), schema(types, between)


def shape_of(count, place):
    """A shape of so many properties, every fourth one mandatory; the kinds differ from place to place."""
    return {3 * k + place % 3: (1 + (place + k) % 5, OPTIONAL if k % 4 else MANDATORY) for k in range(count)}


def record_of(shape, count, i):
    """A record of so many properties that fits the shape: the mandatory ones, and then optional ones."""
    values = {
        BOOLEAN: i % 2,
        INTEGER: -i,
        REAL: i / 7,
        DATE: 20260101 + i % 28,
        TEXT: b"reading %d" % i,
    }
    chosen = sorted(shape, key=lambda name: (shape[name][1], name))[:count]
    return {name: (shape[name][0], values[shape[name][0]]) for name in chosen}


def at_ceilings():
    """32 kinds of nodes and 64 of edges, each with its own label set; every node has two edges of each of its kinds, out and in."""
    types = [(1 << j, shape_of(8, j)) for j in range(SCHEMA_NODES)]  # 8 * 32 + 12 * 64 is LISTED
    between = []
    for s in range(SCHEMA_EDGES):
        labels = 1 << 32 + s if s < 32 else 1 << s | 1 << 32 + (s + 1) % 32
        # the last schema edge bounds only what is too many, so that the edge that rule4 moves breaks nothing where it is missed
        into = (0 if s == SCHEMA_EDGES - 1 else 2, 2)
        between.append([labels, s % 32, (5 * s + 4) % 32, into, (2, 2), shape_of(12, s)])
    nodes = [[types[i % 32][0], record_of(types[i % 32][1], 4, i)] for i in range(NODES)]  # 4 * 1,024 + 3 * 4,096 is ROWS
    edges = []
    for e in range(EDGES):
        s, k = e % SCHEMA_EDGES, e // SCHEMA_EDGES
        labels, source, target, _, _, shape = between[s]
        edges.append([labels, source + 32 * (k % 32), target + 32 * (k * 5 % 32), record_of(shape, 3, e)])
    return nodes, edges, types, between


def ceilings():
    nodes, edges, types, between = at_ceilings()
    return graph(nodes, edges), schema(types, between)


def rule4():
    nodes, edges, types, between = at_ceilings()
    edges[SCHEMA_EDGES - 1][2] = NODES - 1
    return graph(nodes, edges), schema(types, between)


def numbers():
    """Two edges are too many or too few wherever they are."""
    nodes, edges, types, between = at_ceilings()
    for s, edge in enumerate(between):
        edge[3] = edge[4] = (3, 9) if s % 2 else (0, 1)
    return graph(nodes, edges), schema(types, between)


def faulty():
    """Of four nodes one has no label set of the schema, and the others break (b), (c) and (d). Of four edges one has no label set of the schema, one breaks (c), and
    two fit a schema edge, but not their ends, since no node fits anything. There are as many rows as before."""
    nodes, edges, types, between = at_ceilings()
    unlisted = NAMES - 1
    for i, node in enumerate(nodes):
        record, first = node[1], min(node[1])
        if i % 4 == 0:
            node[0] |= 1 << LABELS - 1
        elif i % 4 == 1:
            del record[first]
        elif i % 4 == 2:
            record[unlisted] = (BOOLEAN, 1)
        else:
            record[first] = (INTEGER, i) if record[first][0] == BOOLEAN else (BOOLEAN, 1)
    for e, edge in enumerate(edges):
        record = edge[3]
        if e % 4 == 0:
            edge[0] |= 1
        elif e % 4 == 1:
            del record[max(record)]
            record[unlisted] = (BOOLEAN, 1)
    return graph(nodes, edges), schema(types, between)


def worst(places=1):
    """All labels are equal, so that labels spare no record test, and every node fits every schema node, so that the masks spare none either.

    A record test of p rows against q listed ones reads p + q rows at most. Summed over all pairs that is SCHEMA_EDGES ROWS + EDGES LISTED, however
    the rows are shared out. Rule 1 goes once through the nodes, and rule 2 through the edges for each schema edge; so all rows are given to the edges,
    evenly, since each test has its own cost besides. Every edge fits the last schema edge alone and fails at the others by the type of its last row, so
    that rule 2 searches to the end, and each test goes to the end of both lists. The other rows of an edge have names that are drawn for it, so that a
    processor cannot foresee which of the two names ahead is the lower one. Dates are the values that are dearest to judge.

    With two places the last two schema edges are alike, and every edge fits both. Who keeps one place for an edge then has to test it again at every look
    of rules 3 and 4. These take schema edge after schema edge, so that the edge is another one in each test, and a processor cannot learn its names.
    """
    *others, last = range(LISTED // SCHEMA_EDGES)
    shape = {**{name: (DATE, OPTIONAL) for name in others}, last: (DATE, MANDATORY)}
    other = {**shape, last: (INTEGER, MANDATORY)}
    free = (0, ANY)
    types = [(1, {})] * SCHEMA_NODES
    between = [(1, s % 32, (s + 1) % 32, free, free, other) for s in range(SCHEMA_EDGES - places)]
    between += [(1, 31, 31, (0, 65535), (0, 65535), shape)] * places
    draws, choices = random.Random(5), list(combinations(others, ROWS // EDGES - 1))
    records = [{name: (DATE, 20241231) for name in (*choices[int(draws.random() * len(choices))], last)} for _ in range(EDGES)]
    nodes = [(1, {})] * NODES
    edges = [(1, e % NODES, 7 * e % NODES, records[e]) for e in range(EDGES)]
    return graph(nodes, edges), schema(types, between)


# ---- the graphs that are joined

def fill_text(objects):
    """Makes the Texts longer, all by as much, until they have half the text bytes that are accepted."""
    texts = [(record, name) for *_, record in objects for name, (kind, _) in sorted(record.items()) if kind == TEXT]
    for i, (record, name) in enumerate(texts):
        end, start = (TEXT_BYTES // 2 * k // len(texts) for k in (i + 1, i))
        record[name] = (TEXT, record[name][1].ljust(end - start, b"."))


def half(part):
    """The kinds of nodes and edges are those of at_ceilings(). The values of the second part are other ones."""
    _, _, types, between = at_ceilings()
    nodes = [(types[i % 32][0], record_of(types[i % 32][1], 4, i + part * NODES // 2)) for i in range(NODES // 2)]
    edges = []
    for e in range(EDGES // 2):
        labels, source, target, _, _, shape = between[e % SCHEMA_EDGES]
        k = e // SCHEMA_EDGES
        edges.append((labels, source + 32 * (k % 16), target + 32 * (k * 5 % 16), record_of(shape, 3, e + part * EDGES // 2)))
    fill_text(nodes + edges)
    return graph(nodes, edges)


def texts(part):
    nodes = [(1, {0: (TEXT, b"node %d of %d" % (i, part))}) for i in range(64)]
    fill_text(nodes)
    return graph(nodes, [])


def rows(part):
    """All five kinds, in an order that differs from node to node."""
    shapes = [{name: (1 + (name + i) % 5, OPTIONAL) for name in range(NAMES)} for i in range(ROWS // 2 // NAMES)]
    return graph([(1, record_of(shape, NAMES, i + 100 * part)) for i, shape in enumerate(shapes)], [])


def most():
    """3,825 bytes; the digits differ from line to line."""
    lines = ["LX-204/17".ljust(32, "x") + ";2026-03-14"]
    lines += [f"-{820 + i};-{100000 + 4973 * i},{999999 - 5003 * i:06}" for i in range(180)]
    sheet = "".join(line + "\r\n" for line in lines).encode("ascii")
    assert len(sheet) == 45 + 180 * 21
    return sheet


def main():
    root = Path(__file__).resolve().parents[2]
    folder = Path(sys.argv[1] if len(sys.argv) > 1 else root / "target/bench/inputs")
    folder.mkdir(parents=True, exist_ok=True)
    pairs = {"bench": bench(), "ceilings": ceilings(), "worst": worst(), "rule4": rule4(), "several": worst(places=2), "faulty": faulty(), "numbers": numbers()}
    for name, pair in pairs.items():
        for part, data in zip(("graph", "schema"), pair):
            (folder / f"{name}.{part}").write_bytes(data)
    joined = {"benches": lambda part: bench()[0], "halves": half, "texts": texts, "rows": rows}
    for name, make in joined.items():
        for part, which in enumerate(("first", "second")):
            (folder / f"{name}.{which}.graph").write_bytes(make(part))
    (folder / "good.csv").write_bytes((root / "examples/sheet/good.csv").read_bytes())
    (folder / "most.csv").write_bytes(most())


if __name__ == "__main__":
    main()
