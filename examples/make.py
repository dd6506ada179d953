#!/usr/bin/env python3
"""The example files: graphs and schemas, described here in the words of document 01 and packed into its binary formats, and angle sheets.

    python3 examples/make.py            writes them
    python3 examples/make.py --check    fails where one is not what would be written

It writes crates/cases/data/ (the files, and nothing else stands there), crates/cases/args (the pairs, for the program `cases`),
crates/cases/stdout (what the program has to print), what the other programs are run on and have to print, examples/sheet/ (the angle sheets, and nothing else stands there but their graphs and
schema), examples/join/ (graphs that are joined, and what becomes of them, and nothing else), examples/bench/ and examples/layout/ (the files whose bytes stand in crates/layout/specs) and examples/README.md (tables for people).

The answers in EXAMPLES, SHEETS and JOINS are owed to documents 01 and 02 and not to a program: the ones that 01 gives, and for the others what its
text says. The fifth number is the property that request 2 of 02 asks for: a name with 22 and 24, 0 with every other code. What is owed to a
sheet is as request 4 has it, and what is owed to two graphs that are joined as request 7 has it. FURTHER has the violations behind the first one, in 01's order, as request 6 lists them.
"""
import struct
import sys
from copy import deepcopy
from pathlib import Path

ROOT = Path(__file__).resolve().parent.parent
DATA = "crates/cases/data"
SHEET_DATA = "examples/sheet"
LAYOUT_DATA = "examples/layout"
JOIN_DATA = "examples/join"

# ---- the two formats: the fields of each row and of the trailer in their order, with their widths in bits

GRAPH = {
    "node": {"labels": 64, "first": 32, "count": 32},
    "edge": {"labels": 64, "source": 32, "target": 32, "first": 32, "count": 32},
    "property": {"name": 16, "kind": 8, "zero": 8, "length": 32, "value": 64},
    "trailer": {"nodes": 32, "edges": 32, "properties": 32, "text": 32, "labels": 16, "names": 16, "back": 32},
    "mark": "47 50 48 31",
}
SCHEMA = {
    "node": {"labels": 64, "first": 32, "count": 16, "open": 16},
    "edge": {"labels": 64, "source": 32, "target": 32, "first": 32, "count": 16, "open": 16,
             "source_minimum": 32, "source_maximum": 32, "target_minimum": 32, "target_maximum": 32},
    "property": {"name": 16, "type": 8, "flag": 8},
    "trailer": {"nodes": 16, "edges": 16, "properties": 32, "labels": 16, "names": 16, "back": 32},
    "mark": "53 43 48 31",
}
LABELS = ["Sensor", "Run", "Angle", "OF", "AT"]
NAMES = ["serial", "date", "remark", "degrees", "coefficient"]
KINDS = {"Boolean": 1, "Integer": 2, "Real": 3, "Date": 4, "Text": 5}
ANY = 4294967295


def number(register, word):
    """A label's or a name's number in the register, or the number that the word is."""
    return int(word) if word.isdigit() else register.index(word)


class File:
    """The rows of a file, each as its fields by name. The trailer's counts and back are those of the rows, unless `trailer` says otherwise."""

    def __init__(self, form, row_of, nodes, edges):
        self.form, self.rows, self.text, self.trailer = form, {"node": [], "edge": [], "property": []}, b"", {}
        for table, objects in (("node", nodes), ("edge", edges)):
            for fields, properties in objects:
                self.rows[table].append({**fields, "first": len(self.rows["property"]), "count": len(properties)})
                for name, value in sorted((number(NAMES, word), value) for word, value in properties.items()):
                    self.rows["property"].append({"name": name, **row_of(self, value)})

    def packed(self):
        pack = lambda table, row: b"".join(row[field].to_bytes(bits // 8, "little") for field, bits in self.form[table].items())
        body = b"".join(pack(table, row) for table, rows in self.rows.items() for row in rows) + self.text
        counts = {table: len(rows) for table, rows in zip(("nodes", "edges", "properties"), self.rows.values())}
        trailer = {**counts, "text": len(self.text), "labels": len(LABELS), "names": len(NAMES), "back": len(body), **self.trailer}
        return body + pack("trailer", trailer) + bytes.fromhex(self.form["mark"])


def but(file, table, place, **fields):
    """The file with other fields in one row."""
    file = deepcopy(file)
    file.rows[table][place].update(fields)
    return file


def trailer(file, **fields):
    """The file with other numbers in its trailer."""
    file = deepcopy(file)
    file.trailer.update(fields)
    return file


def row_more(file):
    """The file with its last property row once more, in no run."""
    file = deepcopy(file)
    file.rows["property"].append(file.rows["property"][-1])
    return file


# ---- how graphs and schemas are written down here

class Date(int):
    """year x 10,000 + month x 100 + day"""


def label_set(labels):
    return sum(1 << number(LABELS, label) for label in labels.split())


def value_row(file, value):
    """A property row's fields for a bool, an int, a float, a Date or a str (a Text, put at the end of the text bytes)."""
    kind, length, bits = "Integer", 0, value
    if isinstance(value, bool):
        kind = "Boolean"
    elif isinstance(value, Date):
        kind = "Date"
    elif isinstance(value, float):
        kind, bits = "Real", int.from_bytes(struct.pack("<d", value), "little")
    elif isinstance(value, str):
        kind, length, bits = "Text", len(value), len(file.text)
        file.text += value.encode("ascii")
    return {"kind": KINDS[kind], "zero": 0, "length": length, "value": bits % 2**64}


def listed_row(file, words):
    """A schema property row's fields for a type: 'Text' is mandatory, 'Text optional' is not."""
    kind, *optional = words.split()
    return {"type": KINDS[kind], "flag": len(optional)}


def node(labels, **properties):
    return {"labels": label_set(labels)}, properties


def edge(labels, source, target, **properties):
    return {"labels": label_set(labels), "source": source, "target": target}, properties


def schema_node(labels, **listed):
    return {"labels": label_set(labels), "open": 0}, listed


def schema_edge(labels, ends, source, target, **listed):
    bounds = dict(zip(("source_minimum", "source_maximum", "target_minimum", "target_maximum"), source + target))
    return {"labels": label_set(labels), "source": ends[0], "target": ends[1], "open": 0, **bounds}, listed


def graph(nodes, edges):
    return File(GRAPH, value_row, nodes, edges)


def schema(nodes, edges):
    return File(SCHEMA, listed_row, nodes, edges)


# ---- "Schema S, all closed"; "Graph G"

SCHEMA_NODES = [
    schema_node("Sensor", serial="Text"),
    schema_node("Run", date="Date", remark="Text optional"),
    schema_node("Angle", degrees="Integer", coefficient="Real"),
]
SCHEMA_EDGES = [
    schema_edge("OF", ends=(1, 0), source=(0, ANY), target=(1, 1)),
    schema_edge("AT", ends=(1, 2), source=(1, 1), target=(2, 3)),
]
S = schema(SCHEMA_NODES, SCHEMA_EDGES)

NODES = SENSOR, RUN, ANGLE, ANGLE_45 = [
    node("Sensor", serial="LB-0042"),
    node("Run", date=Date(20260314)),
    node("Angle", degrees=0, coefficient=1.0),
    node("Angle", degrees=45, coefficient=1.05),
]
EDGES = OF, AT_2, AT_3 = [edge("OF", 1, 0), edge("AT", 1, 2), edge("AT", 1, 3)]
G = graph(NODES, EDGES)


# G with another node 1, with another node 3, with more nodes, with other edges
def with_run(**properties):
    return graph([SENSOR, node("Run", **properties), ANGLE, ANGLE_45], EDGES)


def with_angle(**properties):
    return graph([SENSOR, RUN, ANGLE, node("Angle", **properties)], EDGES)


def with_nodes(*more):
    return graph(NODES + list(more), EDGES)


def with_edges(*edges):
    return graph(NODES, list(edges))


G_BYTES, S_BYTES = G.packed(), S.packed()

# Two files that say what S and G leave at 0: labels up to 63, names up to 255, numbers of more than one byte, edges with properties, an open schema edge,
# every kind of value. They are no pair of the table; crates/layout/specs/WideFiles.antt has their bytes.
WIDE_GRAPH = trailer(graph([
    node("0 9 33 63", **{"0": True, "1": -2, "2": -0.75}),
    node("62", **{"4": "." * 258, "255": "ABC"}),
], [
    edge("8 40", 1, 0, **{"3": Date(20240229), "5": False}),
    edge("9", 0, 1, **{"1": 0x0102030405060708}),
]), labels=64, names=256)
WIDE_SCHEMA = trailer(schema([
    schema_node("0 9 33 63", **{"0": "Boolean", "1": "Integer optional", "2": "Real"}),
    schema_node("62", **{"4": "Text optional", "255": "Text"}),
], [
    schema_edge("8 40", ends=(1, 0), source=(258, 772), target=(1286, 1800), **{"3": "Date", "5": "Boolean optional"}),
    schema_edge("9", ends=(0, 1), source=(3, ANY), target=(65534, 65535), **{"1": "Integer"}),
]), labels=64, names=256)
WIDE_SCHEMA = but(but(WIDE_SCHEMA, "node", 0, open=1), "edge", 0, open=1)
P5 = with_angle(remark="second reading", degrees=45, coefficient=1.05)
BAD_DATE = with_run(date=Date(20230229))
NOT_THERE = None

# The schemas of "Which property": two schema nodes {Run}, of which the second asks for a lower name; an AT with properties; and two of them, of
# which the second asks for a lower name.
ANGLES = schema_node("Angle", degrees="Integer", coefficient="Real")
TWO_RUNS = schema([ANGLES, schema_node("Run", date="Date", remark="Text"), schema_node("Run", serial="Text", date="Date")], [])
LISTED_AT = schema(SCHEMA_NODES, [
    SCHEMA_EDGES[0],
    schema_edge("AT", ends=(1, 2), source=(1, 1), target=(2, 3), date="Date", remark="Text optional", degrees="Integer"),
])
TWO_ATS = schema(SCHEMA_NODES, [
    SCHEMA_EDGES[0],
    schema_edge("AT", ends=(1, 2), source=(1, 1), target=(2, 3), degrees="Integer"),
    schema_edge("AT", ends=(1, 2), source=(1, 1), target=(2, 3), date="Date"),
])


# G with a good AT to node 2, and with these properties on the other
def with_at(**properties):
    return with_edges(OF, edge("AT", 1, 2, date=Date(20260314), degrees=0), edge("AT", 1, 3, **properties))


# The schemas of "Traps on the bench", as in crates/meaning/specs/Traps.antt.
ANY_NUMBER = (0, ANY)
DATED = schema_node("Run", date="Date")
TWO_RECORDS = schema([DATED, ANGLES], [
    schema_edge("AT", (0, 1), ANY_NUMBER, (1, 1), degrees="Integer"),
    schema_edge("AT", (0, 1), ANY_NUMBER, ANY_NUMBER),
])
TWO_ENDS = schema([DATED, schema_node("Sensor", serial="Text"), ANGLES], [
    schema_edge("AT", (0, 1), ANY_NUMBER, (0, 1)),
    schema_edge("AT", (0, 2), ANY_NUMBER, ANY_NUMBER),
])
LOOPS = schema([DATED], [schema_edge("AT", (0, 0), (1, 1), (1, 1))])
SEVERAL = schema([DATED, schema_node("Run", date="Date optional")], [
    schema_edge("AT", (0, 0), ANY_NUMBER, (1, 1)),
    schema_edge("OF", (1, 1), ANY_NUMBER, (1, 1)),
])
LOOP_AT, LOOP_OF = edge("AT", 0, 0), edge("OF", 0, 0)

# Two runs of one sensor in one export, and each code that a violation has, once. The OF is there twice for the first run, and has a remark for
# the second; an AT of the second run goes to node 4, an angle of the first, and not to node 7. Then the same with all of that mended.
ANGLE_60, RUN_2, ANGLE_2, ANGLE_2_45 = [
    node("Angle", degrees=60, coefficient=1.12),
    node("Run", date=Date(20260315)),
    node("Angle", degrees=0, coefficient=1.0),
    node("Angle", degrees=45, coefficient=1.06),
]
BAD_EXPORT = graph(
    [SENSOR, RUN, ANGLE, node("Angle", degrees=45), ANGLE_60, node("Sensor Angle", degrees=75, coefficient=1.31), RUN_2, ANGLE_2, ANGLE_2_45],
    [OF, AT_2, AT_3, edge("AT", 1, 4), edge("OF AT", 1, 5), edge("OF", 6, 0, remark="spare socket"), edge("AT", 6, 4), edge("AT", 6, 8), OF])
MENDED_EXPORT = graph(
    [SENSOR, RUN, ANGLE, ANGLE_45, ANGLE_60, node("Angle", degrees=75, coefficient=1.31), RUN_2, ANGLE_2, ANGLE_2_45],
    [OF, AT_2, AT_3, edge("AT", 1, 4), edge("AT", 1, 5), edge("OF", 6, 0), edge("AT", 6, 7), edge("AT", 6, 8)])

# The decimal comma of document 00. A sheet has a column for each angle, 0, 45 and 60 degrees, and under them the coefficients 1.0, 1,05 and 1.12.
# Split at its commas, the line is four cells: 1.0 and 1 and 05 and 1.12. From the second on, each stands under the wrong angle; the last has none.
def with_angles(*coefficients):
    angles = [node("Angle", degrees=d, coefficient=c) for d, c in zip((0, 45, 60), coefficients)]
    return graph([SENSOR, RUN] + angles, EDGES + [edge("AT", 1, 4)])


# The ceilings of the trailers' counts.
GRAPH_MOST = {"nodes": 1024, "edges": 4096, "properties": 16384, "text": 262144, "labels": 64, "names": 256}
SCHEMA_MOST = {"nodes": 32, "edges": 64, "properties": 1024, "labels": 64, "names": 256}
COUNTED = {"nodes": "nodes", "edges": "edges", "properties": "property rows", "text": "text bytes", "labels": "labels", "names": "names"}

# ---- the table: under each heading the name of an example, what it is, its graph, its schema, and what the pair is answered

EXAMPLES = {
    "The lamp bench examples of document 01": [
        ("P1", "G", G, S, "0 0 0 0 0"),
        ("P2", "empty graph", graph([], []), S, "0 0 0 0 0"),
        ("P3", "node 2 labelled Sensor and Angle",
         graph([SENSOR, RUN, node("Sensor Angle", degrees=0, coefficient=1.0), ANGLE_45], EDGES), S, "21 2 0 0 0"),
        ("P4", "node 3 without coefficient", with_angle(degrees=45), S, "22 3 2 1 4"),
        ("P5", "node 3 with a remark too", P5, S, "22 3 2 2 2"),
        ("P6", "node 3's coefficient an Integer", with_angle(degrees=45, coefficient=1), S, "22 3 2 3 4"),
        ("P7", "edge 1 turned round", with_edges(OF, edge("AT", 2, 1), AT_3), S, "25 1 1 1 0"),
        ("P8", "edge 1 ends at node 0", with_edges(OF, edge("AT", 1, 0), AT_3), S, "25 1 1 2 0"),
        ("P9", "edge 2 left out", with_edges(OF, AT_2), S, "31 1 1 1 0"),
        ("P10", "a second OF from 1 to 0", with_edges(OF, AT_2, AT_3, OF), S, "32 1 0 2 0"),
        ("P11", "a fifth node, an Angle, without edges", with_nodes(node("Angle", degrees=60, coefficient=1.12)), S, "33 4 1 0 0"),
        ("P12", "a second AT from 1 to 3", with_edges(OF, AT_2, AT_3, AT_3), S, "34 3 1 2 0"),
        ("of-and-at", "edge 0 labelled OF and AT", with_edges(edge("OF AT", 1, 0), AT_2, AT_3), S, "23 0 0 0 0"),
        ("four-angles", "four angles",
         graph(NODES + [node("Angle", degrees=60, coefficient=1.12), node("Angle", degrees=75, coefficient=1.31)],
               EDGES + [edge("AT", 1, 4), edge("AT", 1, 5)]), S, "32 1 1 4 0"),
        ("edge-from-4", "edge 1 from node 4", but(G, "edge", 1, source=4), S, "7 1 0 0 0"),
        ("interval", "target interval 3 to 2 on schema edge 1", G, but(S, "edge", 1, target_minimum=3, target_maximum=2), "14 1 0 0 0"),
        ("full", "one run in full", bytes(16) + bytes.fromhex("01") + bytes(15) + bytes(4) + bytes.fromhex("10 00 00 00 47 50 48 31"),
         bytes(16) + bytes.fromhex("53 43 48 31"), "21 0 0 0 0"),
    ],
    "Further pairs of accepted files": [
        ("preface", "G with a preface of 7 bytes", b"preface" + G_BYTES, S, "0 0 0 0 0"),
        ("schema-preface", "S with a preface of 7 bytes", G, b"preface" + S_BYTES, "0 0 0 0 0"),
        ("longest", "G with a preface, 40,000 bytes in all, which the small program takes", G_BYTES.rjust(40000, b"\0"), S, "0 0 0 0 0"),
        ("schema-longest", "S with a preface, 16,384 bytes in all", G, S_BYTES.rjust(16384, b"\0"), "0 0 0 0 0"),
        ("counts", "G with label count 64 and name count 256, which need not agree with those of S",
         trailer(G, labels=64, names=256), S, "0 0 0 0 0"),
        ("label-63", "label count 64, and node 2 has label 63 too",
         trailer(but(G, "node", 2, labels=label_set("Angle") + 2**63), labels=64), S, "21 2 0 0 0"),
        ("remark", "node 1 with a remark of length 0, its offset T", with_run(date=Date(20260314), remark=""), S, "0 0 0 0 0"),
        ("remark-boolean", "node 1 with a remark that is a Boolean", with_run(date=Date(20260314), remark=True), S, "22 1 1 3 2"),
        ("edge-remark", "edge 0 with a remark", with_edges(edge("OF", 1, 0, remark="spare socket"), AT_2, AT_3), S, "24 0 0 2 2"),
        ("negative", "node 3 with degrees -45 and coefficient negative zero", with_angle(degrees=-45, coefficient=-0.0), S, "0 0 0 0 0"),
        ("leap", "29 February 2024", with_run(date=Date(20240229)), S, "0 0 0 0 0"),
        ("leap-2000", "29 February 2000: 100 divides the year, and 400 does, too", with_run(date=Date(20000229)), S, "0 0 0 0 0"),
        ("open", "P5's graph, and schema node 2 is open", P5, but(S, "node", 2, open=1), "0 0 0 0 0"),
        ("greatest", "source interval 65,535 to 65,535 on schema edge 0",
         G, but(S, "edge", 0, source_minimum=65535, source_maximum=65535), "33 0 0 1 0"),
    ],
    "Which property": [
        ("two-missing", "node 3 without degrees and coefficient: the lowest is told", with_angle(), S, "22 3 2 1 3"),
        ("missing-serial", "node 0 without serial: its zeros are a node, a schema node and a name",
         graph([node("Sensor"), RUN, ANGLE, ANGLE_45], EDGES), S, "22 0 0 1 0"),
        ("optional-missing", "node 1 without date and remark, where date is optional and remark mandatory: date is not asked for",
         with_run(), but(but(S, "property", 1, flag=1), "property", 2, flag=0), "22 1 1 1 2"),
        ("missing-unlisted", "node 3 with a remark, without coefficient: (b) is told, not the lower name that breaks (c)",
         with_angle(remark="second reading", degrees=45), S, "22 3 2 1 4"),
        ("all-three", "node 3 with a remark, degrees a Real, without coefficient: (b) is broken by 4, (c) by 2, (d) by 3",
         with_angle(remark="second reading", degrees=45.0), S, "22 3 2 1 4"),
        ("two-unlisted", "node 3 with a serial and a remark too: the lowest is told, which is name 0",
         with_angle(serial="LB-0042", remark="second reading", degrees=45, coefficient=1.05), S, "22 3 2 2 0"),
        ("highest-name", "name count 256, and node 1 has name 255 too",
         trailer(but(with_run(date=Date(20260314), remark="second reading"), "property", 2, name=255), names=256), S, "22 1 1 2 255"),
        ("unlisted-typed", "node 1 with degrees too, its date a Text: (c) is told, not the lower name that breaks (d)",
         with_run(date="2026-03-14", degrees=45), S, "22 1 1 2 3"),
        ("two-typed", "node 3's degrees a Real and its coefficient an Integer: the lowest is told",
         with_angle(degrees=45.0, coefficient=1), S, "22 3 2 3 3"),
        ("open-typed", "node 3 with a remark too, its coefficient an Integer, and schema node 2 is open: (c) asks nothing there, (d) does",
         with_angle(remark="second reading", degrees=45, coefficient=1), but(S, "node", 2, open=1), "22 3 2 3 4"),
        ("two-schema-nodes", "a Run without remark and serial, where schema node 1 asks for the one and 2 for the other: told at the lowest",
         graph([ANGLE, RUN], []), TWO_RUNS, "22 1 1 1 2"),
        ("edge-listed", "schema edge 1 lists date Date, remark Text optional, degrees Integer, and both ATs have date and degrees",
         with_at(date=Date(20260314), degrees=45), LISTED_AT, "0 0 0 0 0"),
        ("edge-two-missing", "the same, edge 2 without date and degrees: the lowest is told", with_at(), LISTED_AT, "24 2 1 1 1"),
        ("edge-missing", "the same, edge 2 without degrees: the lower name, remark, is not asked for",
         with_at(date=Date(20260314)), LISTED_AT, "24 2 1 1 3"),
        ("edge-two-unlisted", "the same, edge 2 with a serial and a coefficient too: the lowest is told",
         with_at(serial="LB-0042", date=Date(20260314), degrees=45, coefficient=1.05), LISTED_AT, "24 2 1 2 0"),
        ("edge-two-typed", "the same, edge 2's date an Integer and its degrees a Real: the lowest is told",
         with_at(date=20260314, degrees=45.0), LISTED_AT, "24 2 1 3 1"),
        ("edge-open-typed", "the same, edge 2 with a serial too, its degrees a Real, and schema edge 1 is open",
         with_at(serial="LB-0042", date=Date(20260314), degrees=45.0), but(LISTED_AT, "edge", 1, open=1), "24 2 1 3 3"),
        ("two-schema-edges", "G, where schema edge 1, an AT, asks for degrees and schema edge 2, an AT too, for a date: told at the lowest",
         G, TWO_ATS, "24 1 1 1 3"),
        ("end-and-record", "the same, edge 1 with a date and to node 0: schema edge 1 misfits by its record, 2 by an end alone, and 25 names no property",
         with_edges(OF, edge("AT", 1, 0, date=Date(20260314)), AT_3), TWO_ATS, "25 1 2 2 0"),
    ],
    "Traps on the bench": [
        ("misfit-record", "the second AT has no degrees, and isn't counted at schema edge 0",
         graph([RUN, ANGLE], [edge("AT", 0, 1, degrees=0), edge("AT", 0, 1)]), TWO_RECORDS, "0 0 0 0 0"),
        ("misfit-end", "two ATs that end at an Angle aren't counted at schema edge 0",
         graph([RUN, SENSOR, ANGLE], [edge("AT", 0, 1), edge("AT", 0, 2), edge("AT", 0, 2)]), TWO_ENDS, "0 0 0 0 0"),
        ("loop", "a loop counts once out and once in", graph([RUN], [LOOP_AT]), LOOPS, "0 0 0 0 0"),
        ("two-loops", "two loops", graph([RUN], [LOOP_AT, LOOP_AT]), LOOPS, "32 0 0 2 0"),
        ("no-loop", "no loop", graph([RUN], []), LOOPS, "31 0 0 0 0"),
        ("several", "a Run that fits two schema nodes meets the rules of both", graph([RUN], [LOOP_AT, LOOP_OF]), SEVERAL, "0 0 0 0 0"),
        ("several-no-of", "it owes the second's OF", graph([RUN], [LOOP_AT]), SEVERAL, "31 0 1 0 0"),
        ("several-no-at", "and the first's AT", graph([RUN], [LOOP_OF]), SEVERAL, "31 0 0 0 0"),
        ("undated", "a Run without a date fits the second alone", graph([node("Run")], [LOOP_OF]), SEVERAL, "0 0 0 0 0"),
    ],
    "The decimal comma of document 00": [
        ("comma", "1.0,1,05,1.12 cut at commas: 45 and 60 degrees have the Integers 1 and 5", with_angles(1.0, 1, 5), S, "22 3 2 3 4"),
        ("comma-remark", "45,1,05 cut at commas, its third cell a remark: (c) is told before (d)",
         with_angle(degrees=45, coefficient=1, remark="05"), S, "22 3 2 2 2"),
        ("comma-unseen", "as comma, but every coefficient is made a Real, 1.0, 1.0 and 5.0: no rule can see it",
         with_angles(1.0, 1.0, 5.0), S, "0 0 0 0 0"),
    ],
    "All the faults at once": [
        ("no-date", "node 1 without date: one entry is missing, and everything at the run is at fault", with_run(), S, "22 1 1 1 1"),
        ("bad-export", "two runs in one export, and each code that a violation has, once", BAD_EXPORT, S, "22 3 2 1 4"),
        ("mended-export", "the same with all nine mended: what could not be counted before is now too many", MENDED_EXPORT, S, "32 1 1 4 0"),
    ],
    "Graph files that are refused": [
        ("absent", "a graph that is not there", NOT_THERE, S, "2 0 0 0 0"),
        ("short", "27 bytes: a graph trailer without its first byte", G_BYTES[-27:], S, "2 0 0 0 0"),
        ("too-long", "G with a preface, 40,001 bytes in all, more than the small program takes", G_BYTES.rjust(40001, b"\0"), S, "2 0 0 0 0"),
        ("mark", "one byte of the mark changed", G_BYTES[:-1] + b"0", S, "3 0 0 0 0"),
        *[(f"too-many-{count}", f"the trailer counts {most + 1:,} {COUNTED[count]}", trailer(G, **{count: most + 1}), S, "4 0 0 0 0")
          for count, most in GRAPH_MOST.items()],
        ("back", "back is one less than the body size", trailer(G, back=len(G_BYTES) - 28 - 1), S, "5 0 0 0 0"),
        ("cut", "G without its first byte: back is more than the bytes before the trailer", G_BYTES[1:], S, "5 0 0 0 0"),
        ("node-label", "node 2 has label 5, the label count", but(G, "node", 2, labels=label_set("Angle") + 2**5), S, "6 2 0 0 0"),
        ("node-start", "node 1's run starts at 0", but(G, "node", 1, first=0), S, "6 1 0 0 0"),
        ("node-empty-run", "a fifth node without properties, whose empty run starts at 0, not at 6",
         but(with_nodes(node("Angle")), "node", 4, first=0), S, "6 4 0 0 0"),
        ("node-past", "node 3's run has a row more than there are", but(G, "node", 3, count=3), S, "6 3 0 0 0"),
        ("node-wrap", "node 3's run has 4,294,967,295 rows: sums do not wrap", but(G, "node", 3, count=4294967295), S, "6 3 0 0 0"),
        ("node-and-edge", "node 3 has label 5, the label count, and edge 0 is from node 4: 6 is tried before 7",
         but(but(G, "node", 3, labels=label_set("Angle") + 2**5), "edge", 0, source=4), S, "6 3 0 0 0"),
        ("edge-label", "edge 0 has label 63", but(G, "edge", 0, labels=label_set("OF") + 2**63), S, "7 0 0 0 0"),
        ("edge-to-4", "edge 2 to node 4", but(G, "edge", 2, target=4), S, "7 2 0 0 0"),
        ("edge-empty-run", "edge 1's empty run starts at 0, not at 6", but(G, "edge", 1, first=0), S, "7 1 0 0 0"),
        ("edge-past", "edge 2's run has a row more than there are", but(G, "edge", 2, count=1), S, "7 2 0 0 0"),
        ("two-edges", "edges 1 and 2 from node 4: the lowest is told", but(but(G, "edge", 1, source=4), "edge", 2, source=4), S, "7 1 0 0 0"),
        ("no-run", "a seventh property row, in no run", row_more(G), S, "8 6 0 0 0"),
        ("name", "node 3's coefficient has name 5, the name count", but(G, "property", 5, name=5), S, "8 5 0 0 0"),
        ("name-again", "node 3 has degrees twice: the name does not rise", but(G, "property", 5, name=3), S, "8 5 0 0 0"),
        ("name-falls", "node 3 has degrees, then a date: the name falls", but(G, "property", 5, name=1), S, "8 5 0 0 0"),
        ("kind-0", "the date has kind 0", but(G, "property", 1, kind=0), S, "8 1 0 0 0"),
        ("kind-6", "the date has kind 6", but(G, "property", 1, kind=6), S, "8 1 0 0 0"),
        ("zero", "the zero byte of node 2's degrees is 1", but(G, "property", 2, zero=1), S, "8 2 0 0 0"),
        ("length", "the date has length 1", but(G, "property", 1, length=1), S, "8 1 0 0 0"),
        ("boolean-2", "node 1 with a remark that is a Boolean, its value 2",
         but(with_run(date=Date(20260314), remark=True), "property", 2, value=2), S, "8 2 0 0 0"),
        ("infinite", "node 3's coefficient is infinite", with_angle(degrees=45, coefficient=float("inf")), S, "8 5 0 0 0"),
        ("nan", "node 3's coefficient is NaN", with_angle(degrees=45, coefficient=float("nan")), S, "8 5 0 0 0"),
        ("february-29", "29 February 2023", BAD_DATE, S, "8 1 0 0 0"),
        ("leap-1900", "29 February 1900: 100 divides the year, and 400 does not", with_run(date=Date(19000229)), S, "8 1 0 0 0"),
        ("leap-2100", "29 February 2100: likewise", with_run(date=Date(21000229)), S, "8 1 0 0 0"),
        ("april-31", "31 April 2026", with_run(date=Date(20260431)), S, "8 1 0 0 0"),
        ("day-0", "day 0 of March 2026", with_run(date=Date(20260300)), S, "8 1 0 0 0"),
        ("month-13", "14 of month 13 of 2026", with_run(date=Date(20261314)), S, "8 1 0 0 0"),
        ("year-0", "14 March of year 0", with_run(date=Date(314)), S, "8 1 0 0 0"),
        ("year-10000", "14 March 10000", with_run(date=Date(100000314)), S, "8 1 0 0 0"),
        ("text-past", "the serial has 8 bytes of 7 text bytes", but(G, "property", 0, length=8), S, "8 0 0 0 0"),
        ("text-offset", "the serial has length 0, its offset T + 1", but(G, "property", 0, length=0, value=8), S, "8 0 0 0 0"),
        ("text-wrap", "the serial's offset is 2^64 - 7: sums do not wrap", but(G, "property", 0, value=2**64 - 7), S, "8 0 0 0 0"),
        ("both", "29 February 2023, and a schema that is not there: 8 is tried before 9", BAD_DATE, NOT_THERE, "8 1 0 0 0"),
    ],
    "Schema files that are refused": [
        ("schema-absent", "a schema that is not there", G, NOT_THERE, "9 0 0 0 0"),
        ("schema-short", "19 bytes: a schema trailer without its first byte", G, S_BYTES[-19:], "9 0 0 0 0"),
        ("schema-too-long", "S with a preface, 16,385 bytes in all", G, S_BYTES.rjust(16385, b"\0"), "9 0 0 0 0"),
        ("schema-mark", "one byte of the mark changed", G, S_BYTES[:-1] + b"0", "10 0 0 0 0"),
        *[(f"schema-too-many-{count}", f"the trailer counts {most + 1:,} {COUNTED[count]}", G, trailer(S, **{count: most + 1}), "11 0 0 0 0")
          for count, most in SCHEMA_MOST.items()],
        ("schema-back", "S with a preface of 7 bytes, and back is one more than the body size",
         G, b"preface" + trailer(S, back=len(S_BYTES) - 20 + 1).packed(), "12 0 0 0 0"),
        ("schema-cut", "S without its first byte: back is more than the bytes before the trailer", G, S_BYTES[1:], "12 0 0 0 0"),
        ("schema-node-label", "schema node 2 has label 5, the label count", G, but(S, "node", 2, labels=label_set("Angle") + 2**5), "13 2 0 0 0"),
        ("schema-node-start", "schema node 1's run starts at 0", G, but(S, "node", 1, first=0), "13 1 0 0 0"),
        ("schema-node-empty-run", "a fourth schema node without properties, whose empty run starts at 0, not at 5",
         G, but(schema(SCHEMA_NODES + [schema_node("Run")], SCHEMA_EDGES), "node", 3, first=0), "13 3 0 0 0"),
        ("schema-node-past", "schema node 2's run has 65,535 rows", G, but(S, "node", 2, count=65535), "13 2 0 0 0"),
        ("schema-node-open", "schema node 0's open is 2", G, but(S, "node", 0, open=2), "13 0 0 0 0"),
        ("schema-edge-label", "schema edge 0 has label 5, the label count", G, but(S, "edge", 0, labels=label_set("OF") + 2**5), "14 0 0 0 0"),
        ("schema-edge-from-3", "schema edge 0 from schema node 3", G, but(S, "edge", 0, source=3), "14 0 0 0 0"),
        ("schema-edge-to-3", "schema edge 1 to schema node 3", G, but(S, "edge", 1, target=3), "14 1 0 0 0"),
        ("schema-edge-empty-run", "schema edge 1's empty run starts at 0, not at 5", G, but(S, "edge", 1, first=0), "14 1 0 0 0"),
        ("schema-edge-past", "schema edge 1's run has a row more than there are", G, but(S, "edge", 1, count=1), "14 1 0 0 0"),
        ("schema-edge-open", "schema edge 1's open is 2", G, but(S, "edge", 1, open=2), "14 1 0 0 0"),
        ("minimum", "source interval 65,536 to any on schema edge 0", G, but(S, "edge", 0, source_minimum=65536), "14 0 0 0 0"),
        ("maximum", "source interval 1 to 65,536 on schema edge 1", G, but(S, "edge", 1, source_maximum=65536), "14 1 0 0 0"),
        ("schema-no-run", "a sixth schema property, in no run", G, row_more(S), "15 5 0 0 0"),
        ("schema-name", "schema node 2's coefficient has name 5, the name count", G, but(S, "property", 4, name=5), "15 4 0 0 0"),
        ("schema-name-again", "schema node 2 lists degrees twice: the name does not rise", G, but(S, "property", 4, name=3), "15 4 0 0 0"),
        ("type-0", "the date has type 0", G, but(S, "property", 1, type=0), "15 1 0 0 0"),
        ("type-6", "the date has type 6", G, but(S, "property", 1, type=6), "15 1 0 0 0"),
        ("flag-2", "the remark's flag is 2", G, but(S, "property", 2, flag=2), "15 2 0 0 0"),
    ],
}

# ---- the list of request 6: of each example that breaks a rule more than once, the violations behind the first

# node 2 or 3, an Angle, fits no schema node: so the AT to it ends at nothing that fits, and the run has an angle too few
NODE_2_MISFITS = ["25 1 1 2 0", "31 1 1 1 0"]
NODE_3_MISFITS = ["25 2 1 2 0", "31 1 1 1 0"]
# node 1, the Run, fits none: so no edge starts at anything that fits, and no run has the angles
NODE_1_MISFITS = ["25 0 0 1 0", "25 1 1 1 0", "25 2 1 1 0", "33 2 1 0 0", "33 3 1 0 0"]
# edge 1 or 2, an AT, is not counted: so the run has an angle too few, and the angle no run
EDGE_1_UNCOUNTED = ["31 1 1 1 0", "33 2 1 0 0"]
EDGE_2_UNCOUNTED = ["31 1 1 1 0", "33 3 1 0 0"]
# edge 0, the OF, is not counted: so the run has no sensor
EDGE_0_UNCOUNTED = ["31 1 0 0 0"]
# no AT is counted at schema edge 1 or at 2
NO_AT_COUNTED = ["31 1 1 0 0", "31 1 2 0 0", "33 2 1 0 0", "33 3 1 0 0", "33 2 2 0 0", "33 3 2 0 0"]

FURTHER = {
    "P3": NODE_2_MISFITS,
    "P4": NODE_3_MISFITS,
    "P5": NODE_3_MISFITS,
    "P6": NODE_3_MISFITS,
    "P7": EDGE_1_UNCOUNTED,
    "P8": EDGE_1_UNCOUNTED,
    "P9": ["33 3 1 0 0"],
    "of-and-at": EDGE_0_UNCOUNTED,
    "label-63": NODE_2_MISFITS,
    "remark-boolean": NODE_1_MISFITS,
    "edge-remark": EDGE_0_UNCOUNTED,
    "two-missing": NODE_3_MISFITS,
    "missing-serial": ["25 0 0 2 0", "31 1 0 0 0"],
    "optional-missing": NODE_1_MISFITS,
    "missing-unlisted": NODE_3_MISFITS,
    "all-three": NODE_3_MISFITS,
    "two-unlisted": NODE_3_MISFITS,
    "highest-name": NODE_1_MISFITS,
    "unlisted-typed": NODE_1_MISFITS,
    "two-typed": NODE_3_MISFITS,
    "open-typed": NODE_3_MISFITS,
    "edge-two-missing": EDGE_2_UNCOUNTED,
    "edge-missing": EDGE_2_UNCOUNTED,
    "edge-two-unlisted": EDGE_2_UNCOUNTED,
    "edge-two-typed": EDGE_2_UNCOUNTED,
    "edge-open-typed": EDGE_2_UNCOUNTED,
    "two-schema-edges": ["24 2 1 1 3", *NO_AT_COUNTED],
    "end-and-record": ["24 2 1 1 3", *NO_AT_COUNTED],
    "two-loops": ["34 0 0 2 0"],
    "no-loop": ["33 0 0 0 0"],
    "comma": ["22 4 2 3 4", "25 2 1 2 0", "25 3 1 2 0", "31 1 1 1 0"],
    "comma-remark": NODE_3_MISFITS,
    "no-date": NODE_1_MISFITS,
    "bad-export": ["21 5 0 0 0", "25 2 1 2 0", "23 4 0 0 0", "24 5 0 2 2", "32 1 0 2 0", "31 6 0 0 0", "34 4 1 2 0", "33 7 1 0 0"],
}

# ---- the angle sheets of request 4

SERIAL, DAY = "LX-204/17", "2026-03-14"
LINE_45 = 62  # where the reading at 45 degrees stands

# G's readings and that of the decimal comma at 60 degrees, and the two where the lamp stands in the sensor's plane
READ = {-90: "-0", 0: "1", 45: "1,05", 60: "1,12", 90: "0"}


def reading(place, degrees):
    """A coefficient with some digits after the comma: 1 and more towards the side, below 0 from behind. Reckoned in whole numbers, so that every
    machine makes the same sheet."""
    away = abs(degrees)
    minus, millionths, digits = ("", 1000000 + 11 * away**3 // 20, 1 + place % 6) if away < 90 else ("-", 13700 * (away - 90) + 59, 2 + place % 5)
    whole = (millionths + 10**(6 - digits) // 2) // 10**(6 - digits)
    return READ.get(degrees, f"{minus}{whole // 10**digits},{whole % 10**digits:0{digits}}")


NINETY = [(degrees, reading(place, degrees)) for place, degrees in enumerate(range(-135, 135, 3))]


def sheet(angles, first=f"{SERIAL};{DAY}", end="\n"):
    return "".join(line + end for line in [first, *(f"{degrees};{coefficient}" for degrees, coefficient in angles)])


GOOD = sheet(NINETY)


def sheet_graph(angles):
    """The graph that a sheet with these angles becomes."""
    def real(coefficient):
        whole, _, fraction = coefficient.lstrip("-").partition(",")
        quotient = float(int(whole + fraction)) / float(10**len(fraction))
        return -quotient if coefficient.startswith("-") else quotient

    nodes = [node("Sensor", serial=SERIAL), node("Run", date=Date(DAY.replace("-", "")))]
    nodes += [node("Angle", degrees=degrees, coefficient=real(coefficient)) for degrees, coefficient in angles]
    return graph(nodes, [OF] + [edge("AT", 1, 2 + i) for i in range(len(angles))])


def line_45(line):
    """The good sheet with another line at 45 degrees."""
    lines = GOOD.splitlines(keepends=True)
    assert lines[LINE_45 - 1] == "45;1,05\n"
    lines[LINE_45 - 1] = line
    return "".join(lines)


# the schema that asks for ninety angles
S_90 = schema(SCHEMA_NODES, [SCHEMA_EDGES[0], schema_edge("AT", ends=(1, 2), source=(1, 1), target=(90, 90))])

# The name of a sheet, what it is, the sheet; then the refusal, or its graph's name, the graph, and what the checker answers it with S_90.
SHEETS = [
    ("good", "90 angles, -135 to 132 degrees; coefficients with 0 to 6 digits after the comma, some below 0, one -0", GOOD,
     ("good", sheet_graph(NINETY), "0 0 0 0 0")),
    ("crlf", "the same with CR LF at every end", sheet(NINETY, end="\r\n"), ("good", sheet_graph(NINETY), "0 0 0 0 0")),
    ("89", "the same without its last angle: a good sheet, and the checker counts", sheet(NINETY[:-1]),
     ("89", sheet_graph(NINETY[:-1]), "31 1 1 89 0")),
    ("no-angle", "the first line alone: a good sheet, and the checker counts", sheet([]), ("no-angle", sheet_graph([]), "31 1 1 0 0")),
    ("comma", "the decimal comma at 45 degrees became a semicolon: 45;1;05", line_45("45;1;05\n"), f"52 {LINE_45}"),
    ("point", "a decimal point at 45 degrees: 45;1.05", line_45("45;1.05\n"), f"52 {LINE_45}"),
    ("blank", "a blank behind 45 degrees' coefficient", line_45("45;1,05 \n"), f"52 {LINE_45}"),
    ("empty-line", "an empty line behind the last angle", GOOD + "\n", "52 92"),
    ("no-end", "the last line has no end", GOOD[:-1], "52 91"),
    ("two", "lines 62 and 67 have a semicolon for the comma: the lowest is told", line_45("45;1;05\n").replace("\n60;1,12", "\n60;1;12"),
     f"52 {LINE_45}"),
    ("181", "181 angles: the last stands in line 182", sheet([(degrees, "1") for degrees in range(181)]), "52 182"),
    ("heading", "a heading above the first line", "serial;date\n" + GOOD, "51 1"),
    ("leap-2100", "29 February 2100, which is no day", sheet(NINETY, first=f"{SERIAL};2100-02-29"), "51 1"),
    ("day-first", "the date as 14.03.2026", sheet(NINETY, first=f"{SERIAL};14.03.2026"), "51 1"),
    ("empty", "no byte at all: the first line is missing", "", "51 1"),
]

# ---- the joins of request 7

def joined(first, second):
    """Two graphs as one, by their rows: each object takes its own property rows along, and a run starts where the rows have come to then."""
    file = graph([], [])
    file.text = first.text + second.text
    greater = lambda field, own: max(part.trailer.get(field, own) for part in (first, second))
    file.trailer = {"labels": greater("labels", len(LABELS)), "names": greater("names", len(NAMES))}
    for table in ("node", "edge"):
        for part, nodes, text in ((first, 0, 0), (second, len(first.rows["node"]), len(first.text))):
            for row in part.rows[table]:
                run = part.rows["property"][row["first"]:row["first"] + row["count"]]
                ends = {end: row[end] + nodes for end in ("source", "target") if end in row}
                file.rows[table].append({**row, **ends, "first": len(file.rows["property"])})
                file.rows["property"] += [{**one, "value": one["value"] + text} if one["kind"] == KINDS["Text"] else one for one in run]
    return file


# The first bench's graph is G. The second has another sensor, a remark, and three angles; in `faulty` the last but one lacks its coefficient, and so the AT to it
# ends at nothing that fits.
SECOND_EDGES = [*EDGES, edge("AT", 1, 4)]
SECOND_NODES = [
    node("Sensor", serial="LX-204/17"),
    node("Run", date=Date(20260316), remark="second turntable"),
    node("Angle", degrees=30, coefficient=1.02),
    node("Angle", degrees=60, coefficient=1.12),
    node("Angle", degrees=75, coefficient=1.31),
]
SECOND = graph(SECOND_NODES, SECOND_EDGES)
FAULTY = graph([*SECOND_NODES[:3], node("Angle", degrees=60), SECOND_NODES[4]], SECOND_EDGES)
EMPTY = graph([], [])
# as many nodes as are accepted: sensors without a run, which S allows
FULL = graph([node("Sensor", serial="")] * 1024, [])
# Texts on nodes and on edges, so that the text of the nodes and that of the edges stand apart in both; the last Text is empty and stands at the end of the text
NOTED = graph([SENSOR, node("Run", date=Date(20260314), remark="before")],
              [edge("OF", 1, 0, serial="notch 4"), edge("OF", 1, 0, date=Date(20260315), remark="", degrees=7)])

JOIN_GRAPHS = {
    "first": G, "second": SECOND, "faulty": FAULTY, "empty": EMPTY, "full": FULL, "noted": NOTED, "wide": WIDE_GRAPH,
    "preface": b"second turntable\n" + SECOND.packed(), "mark": SECOND.packed()[:-1] + b"2", "edge": but(SECOND, "edge", 3, target=5),
    "date": but(SECOND, "property", 1, value=20260229),
}
FAULTY_LIST = ["22 3 2 1 4", "25 2 1 2 0"]
WIDE_LIST = ["21 0 0 0 0", "21 1 0 0 0", "23 0 0 0 0", "23 1 0 0 0"]

# The two graphs, what they are, and then the refusal, or the name of the joined graph and every violation that it has of S, in 01's order.
JOINS = [
    ("first", "second", "both conform", ("joined", [])),
    ("second", "first", "the other way round: now `second.graph` keeps its numbers", ("turned", [])),
    ("first", "preface", "a preface is left out", ("joined", [])),
    ("preface", "first", "also that of the first", ("turned", [])),
    ("first", "first", "a graph with itself", ("twice", [])),
    ("first", "faulty", "node 3 of the second is node 7, and its edge 2 is edge 5", ("behind", ["22 7 2 1 4", "25 5 1 2 0"])),
    ("faulty", "first", "all of the first keeps its numbers", ("before", FAULTY_LIST)),
    ("faulty", "faulty", "rule by rule, and in each the first graph's violations before the second's",
     ("both", ["22 3 2 1 4", "22 8 2 1 4", "25 2 1 2 0", "25 6 1 2 0"])),
    ("first", "empty", "nothing is added", ("alone", [])),
    ("empty", "preface", "the second without its preface", ("bare", [])),
    ("empty", "empty", "no rows at all", ("nothing", [])),
    ("empty", "full", "as many nodes as are accepted", ("full", [])),
    ("noted", "noted", "edges with properties: their rows come behind those of all nodes, and their text does not",
     ("noted-twice", ["24 0 0 2 0", "24 1 0 2 1", "24 2 0 2 0", "24 3 0 2 1", "31 1 0 0 0", "31 3 0 0 0", "31 1 1 0 0", "31 3 1 0 0"])),
    ("wide", "first", "64 labels and 256 names, as in the first", ("wide-first", WIDE_LIST)),
    ("first", "wide", "64 labels and 256 names, as in the second", ("first-wide", ["21 4 0 0 0", "21 5 0 0 0", "23 3 0 0 0", "23 4 0 0 0"])),
    ("wide", "wide", "all kinds of values: only the offsets of Texts move",
     ("wide-twice", ["21 0 0 0 0", "21 1 0 0 0", "21 2 0 0 0", "21 3 0 0 0", "23 0 0 0 0", "23 1 0 0 0", "23 2 0 0 0", "23 3 0 0 0"])),
    ("mark", "second", "the first has another mark", "3 0"),
    ("second", "mark", "the second has", "3 1"),
    ("edge", "second", "edge 3 of the first ends at no node: its place is not told", "7 0"),
    ("second", "edge", "edge 3 of the second does", "7 1"),
    ("date", "edge", "29 February 2026 in the first: it is told before the second, whatever the codes are", "8 0"),
    ("edge", "date", "the same the other way round", "7 0"),
    ("full", "first", "1,028 nodes are too many", "44 0"),
    ("full", "full", "2,048 nodes are too many", "44 0"),
    ("full", "date", "a bad graph is told before too many nodes", "8 1"),
]

README = """# Examples

Pairs of a graph file and a schema file, and the five numbers that each pair is answered: code, place, schema place, count, property.
`python3 examples/make.py` writes this page and the files, which stand in `crates/cases/data/`. The program `cases` runs every pair in each
run of the gate and has to print these numbers. So has the C example, `outside/c/check.c`, but for `too-long`: it takes longer graphs than the
small program. `docs/CODES.md` says what the numbers mean.

Labels: {labels}. Names: {names}.
Schema S and graph G are those of document 01. G's values: serial LB-0042, date 14 March 2026, degrees 0 and 45, coefficient 1.0 and 1.05.
Where nothing else is said, an example is G, or S, with the one change that its line names.
"""

LISTS_README = """## Every violation

What `check_all` lists of the pairs above that have more than one violation: all violations, the first one among them, in document 01's order.
Every other pair has the one violation that its answer tells, or none. `outside/c/run.sh` holds `check --all` to this page, which is what
`./answer --all` runs, and `outside/faults/run.sh` the program `graphfaults`.

| example | how many | the list |
|---|---:|---|"""

SHEETS_README = """## Angle sheets

Sheets of one run, and what `read_sheet` gives for each: 0 and the length of the graph file, or the refusal and the line at fault, counted from 1.
They stand in `{folder}/`, with the graph files that the good ones become, byte for byte, and with a `schema.bin`: schema S, but with 90 to
90 angles. The program `sheetgraph` takes a sheet on standard input:

    cd {folder} && sheetgraph < good.csv | graphcheck

Where nothing else is said, a sheet is `good.csv` with the one change that its line names. The last column has what the checker answers the graph.

| sheet | what it is | code and number | graph and answer |
|---|---|---|---|"""


JOINS_README = """## Joins

Two graphs, and what `join_graphs` gives for them: 0 and the length of the joined graph file, or the refusal and which graph it is of, 0 for the first and 1 for the second. They stand in
`{folder}/`, with the joined graphs, byte for byte. `first` is G, `second` another bench's graph; where nothing else is said, a graph that is refused is `second` with the one change that the line
names. The last column has every violation that the joined graph has of schema S. `outside/c/run.sh` holds `outside/c/join.c` to this page.

| first | second | what it is | code and number | joined graph and its violations |
|---|---|---|---|---|"""


def join_files(page):
    """The graphs that are joined and what becomes of them, by their paths; their lines go to the page."""
    bytes_of = lambda file: file if isinstance(file, bytes) else file.packed()
    made = {f"{JOIN_DATA}/{name}.graph": bytes_of(file) for name, file in JOIN_GRAPHS.items()}
    page.append(JOINS_README.format(folder=JOIN_DATA))
    for first, second, what, owed in JOINS:
        gives, then = owed, "none"
        if not isinstance(owed, str):
            name, violations = owed
            content = joined(*(SECOND if word == "preface" else JOIN_GRAPHS[word] for word in (first, second))).packed()
            assert made.setdefault(f"{JOIN_DATA}/{name}.graph", content) == content, f"two graphs have the name {name}"
            gives, then = f"0 {len(content)}", f"`{name}.graph`: {', '.join(violations) or 'none'}"
        page.append(f"| `{first}.graph` | `{second}.graph` | {what} | {gives} | {then} |")
    return made


def files():
    """Every file that is written, by its path, as bytes."""
    names = {G_BYTES: "G.graph", S_BYTES: "S.schema"}
    words, lines, page = [], [], []

    def named(name, file):
        """The name of a file: G, S, or that of the first example with these bytes."""
        if file is NOT_THERE:
            return "not-there"
        return names.setdefault(file if isinstance(file, bytes) else file.packed(), name)

    numbered = lambda words: ", ".join(f"{i} {word}" for i, word in enumerate(words))
    page.append(README.format(labels=numbered(LABELS), names=numbered(NAMES)))
    for heading, examples in EXAMPLES.items():
        page.append(f"## {heading}\n\n| example | what it is | graph | schema | answer |\n|---|---|---|---|---|")
        for name, what, graph_file, schema_file, answer in examples:
            pair = [named(f"{name}.graph", graph_file), named(f"{name}.schema", schema_file)]
            words += pair
            lines.append(answer)
            page.append(f"| {name} | {what} | `{pair[0]}` | `{pair[1]}` | {answer} |")
        page.append("")
    answers = {name: answer for examples in EXAMPLES.values() for name, _, _, _, answer in examples}
    lists = {name: [answers[name], *further] for name, further in FURTHER.items()}
    assert all(int(line.split()[0]) > 20 for listed in lists.values() for line in listed), "a list has a violation in each place"
    page.append(LISTS_README)
    page += [f"| {name} | {len(listed)} | {', '.join(listed)} |" for name, listed in lists.items()]
    page.append("")
    sheets = {f"{SHEET_DATA}/schema.bin": S_90.packed()}
    page.append(SHEETS_README.format(folder=SHEET_DATA))
    for name, what, content, owed in SHEETS:
        sheets[f"{SHEET_DATA}/{name}.csv"] = content.encode("ascii")
        gives, then = owed, "none"
        if not isinstance(owed, str):
            graph_name, made, answer = owed
            sheets[f"{SHEET_DATA}/{graph_name}.graph"] = made.packed()
            gives, then = f"0 {len(made.packed())}", f"`{graph_name}.graph`: {answer}"
        page.append(f"| `{name}.csv` | {what} | {gives} | {then} |")
    page.append("")
    joins = join_files(page)
    text = lambda lines: ("\n".join(lines).rstrip("\n") + "\n").encode("ascii")
    data = {f"{DATA}/{name}": content for content, name in names.items()}
    assert len(data) == len(names), "two files have one name"
    example = lambda wanted: next(example for examples in EXAMPLES.values() for example in examples if example[0] == wanted)
    full, bad = example("full"), example("bad-export")
    bench = {"examples/bench/G.graph": G_BYTES, "examples/bench/schema.bin": S_BYTES}
    wide = {f"{LAYOUT_DATA}/wide.graph": WIDE_GRAPH.packed(), f"{LAYOUT_DATA}/wide.schema": WIDE_SCHEMA.packed()}
    small = {**bench, **wide, "crates/graphcheck/stdin": full[2], "crates/graphcheck/data/schema.bin": full[3], "crates/graphcheck/stdout": text([full[4]])}
    small |= {"crates/graphfaults/stdin": bad[2].packed(), "crates/graphfaults/data/schema.bin": bad[3].packed(),
              "crates/graphfaults/stdout": text(lists["bad-export"])}
    small |= {f"crates/sheetgraph/{stream}": sheets[f"{SHEET_DATA}/good.{kind}"] for stream, kind in (("stdin", "csv"), ("stdout", "graph"))}
    return {**data, **sheets, **joins, **small, "crates/cases/args": text(words), "crates/cases/stdout": text(lines), "examples/README.md": text(page)}


def main():
    made = files()
    there = {str(path.relative_to(ROOT)) for folder in (DATA, SHEET_DATA, LAYOUT_DATA, JOIN_DATA) for path in (ROOT / folder).glob("*")}
    left_over = sorted(there - made.keys())
    if sys.argv[1:] == ["--check"]:
        stale = left_over + [path for path, content in made.items() if not (ROOT / path).is_file() or (ROOT / path).read_bytes() != content]
        for path in stale:
            print(f"{path} is not what python3 examples/make.py writes")
    else:
        stale = []
        for path in left_over:
            (ROOT / path).unlink()
        for path, content in made.items():
            (ROOT / path).parent.mkdir(parents=True, exist_ok=True)
            (ROOT / path).write_bytes(content)
    print(f"examples: {sum(map(len, EXAMPLES.values()))} pairs, {len(SHEETS)} sheets, {len(JOINS)} joins, {len(made)} files: {'stale' if stale else 'good'}")
    return 1 if stale else 0


sys.exit(main())
