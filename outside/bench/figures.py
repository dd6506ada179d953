#!/usr/bin/env python3
"""The tables and the plot of a measurement that outside/bench/run.sh made.

    python3 outside/bench/figures.py [--bound B FUNCTION PROGRAM PAIR..].. [--beside B FUNCTION OTHER PAIR..].. [--stack BYTES] [--machine FILE] [--native FILE] [--svg FILE]
        [--document FILE] MEASUREMENT

prints the tables as Markdown, writes the plot and puts the tables into the document. It fails where ours takes more than B times as long as the
program at the function, by least times, on one of the pairs, or on any if none is named; where ours takes more than B times as long at the function as
at the other; and where it takes more than so many bytes of stack.

The plain C is measured as two compilers make it. `c` is the faster of the two on a pair, by least times, and `free` the faster of the two of free.c.

In the document a table stands between the lines <!-- measured: NAME --> and <!-- end -->, NAME being check, details, listing, writing, finding,
reading, joining or machine.
"""
import argparse
import json
import math
import re
import sys
from pathlib import Path

SHOWN = {"ours": "ours", "c": "C", "before": "C before", "free": "C, free", "second": "second program", "sql": "SQL"}
COMPILED = {"c": ("gcc", "clang"), "free": ("gcc_free", "clang_free")}


def time(ns):
    if ns is None:
        return "not asked"
    for unit, size in (("s", 1e9), ("ms", 1e6), ("µs", 1e3)):
        if ns >= size:
            return f"{ns / size:.3g} {unit}"
    return f"{ns:.3g} ns"


def ratio(value):
    if value is None:
        return "not asked"
    return f"{value:.2f}" if value < 10 else f"{value:.1f}" if value < 100 else f"{value:,.0f}"


def named(pair, function, program):
    """The program's name in the measurement: of several builds the fastest."""
    told = pair[function]
    builds = [name for name in COMPILED.get(program, (program,)) if name in told]
    return min(builds, key=lambda name: told[name]["least_ns"], default=program)


def measured(pair, function, program, what="median_ns"):
    told = pair[function].get(named(pair, function, program))
    return told and told[what]


def to(pair, function, program, other, what="median_ns"):
    told = measured(pair, function, program, what)
    return told and told / measured(pair, function, other, what)


def least(pair, function, other):
    return to(pair, function, "ours", other, "least_ns")


def speed(size, ns):
    millions = size / ns * 1e3
    return f"{millions:.3g} million" if millions < 1000 else f"{millions / 1000:.3g} billion"


def stacks(pair, function):
    return [f"{measured(pair, function, program, 'stack'):,}" for program in ("ours", "c")]


def table(head, rows):
    lines = [head, ["---"] + ["---:"] * (len(head) - 1), *rows]
    return "\n".join("| " + " | ".join(line) + " |" for line in lines).replace("| --- |", "|---|").replace(" ---: |", "---:|") + "\n"


# ---- the tables

def times(pairs):
    rows = []
    for pair in pairs:
        ours, c, *others = (time(measured(pair, "check", program)) for program in SHOWN)
        rows.append([f"`{pair['name']}`", ours, c, named(pair, "check", "c"), *others,
                     f"**{ratio(to(pair, 'check', 'ours', 'c'))}**", f"**{ratio(to(pair, 'check', 'ours', 'before'))}**"])
    return table(["pair", "ours", "C", "by", "C before", "C, free", "second", "SQL", "ours / C", "ours / C before"], rows)


def details(pairs):
    rows = []
    for pair in pairs:
        ns, size = measured(pair, "check", "ours"), pair["graph_bytes"] + pair["schema_bytes"]
        rows.append([f"`{pair['name']}`", " ".join(map(str, pair["answer"])), f"{size:,}", f"{pair['looks']:,}", f"{ns / pair['looks']:,.4g}",
                     speed(size, ns), *stacks(pair, "check"), time(pair["sql_load_ns"]), ratio(least(pair, "check", "c")),
                     ratio(least(pair, "check", "before"))])
    return table(["pair", "answer", "bytes", "looks", "ns a look", "bytes a second", "stack: ours", "stack: C", "load for SQL",
                  "ours / C, least times", "ours / C before, least times"], rows)


def beside(pair, function, other, what="least_ns"):
    """Ours at one function as a multiple of ours at the other."""
    return measured(pair, function, "ours", what) / measured(pair, other, "ours", what)


def listing(pairs):
    rows = []
    for pair in pairs:
        ours, c, second = (measured(pair, "check_all", program) for program in ("ours", "c", "second"))
        rows.append([f"`{pair['name']}`", f"{pair['violations']:,}", time(ours), time(c), named(pair, "check_all", "c"), time(second), f"**{ratio(ours / c)}**",
                     ratio(beside(pair, "check_all", "check")) if "check" in pair else "", *stacks(pair, "check_all"), ratio(least(pair, "check_all", "c"))])
    return table(["pair", "violations", "ours", "C", "by", "second", "ours / C", "ours / our `check`, least times", "stack: ours", "stack: C", "ours / C, least times"], rows)


def of_one(pairs, function, size, what="graph"):
    """A function that takes a graph or a sheet alone, or two graphs; `size` names the bytes that it goes through or writes."""
    rows = []
    for pair in pairs:
        if function not in pair:
            continue
        ours, c, second = (measured(pair, function, program) for program in ("ours", "c", "second"))
        rows.append([f"`{pair['name']}`", f"{pair[size]:,}", time(ours), time(c), named(pair, function, "c"), time(second), f"**{ratio(ours / c)}**",
                     ratio(second and second / c), speed(pair[size], ours), *stacks(pair, function), ratio(least(pair, function, "c"))])
    return table([what, "bytes", "ours", "C", "by", "second", "ours / C", "second / C", "bytes a second", "stack: ours", "stack: C",
                  "ours / C, least times"], rows)


def natives(pairs):
    rows = []
    for pair in pairs:
        rows.append([f"`{pair['name']}`", *(time(measured(pair, "check", program)) for program in SHOWN if program != "ours"),
                     ratio(to(pair, "check", "second", "c")), ratio(to(pair, "check", "sql", "c"))])
    return table(["pair", "C", "C before", "C, free", "second", "SQL", "second / C", "SQL / C"], rows)


def machine(path, sqlite):
    lines = path.read_text(encoding="utf-8").splitlines() + [f"SQLite\t{sqlite}"]
    return "".join("- {}: {}\n".format(*line.split("\t")) for line in lines)


# ---- the document

def put_into(document, blocks):
    """Puts each block between its two lines. A block that the document does not name is left out."""
    def block(m):
        if m[2] not in blocks:
            sys.exit(f"figures: {document} wants '{m[2]}', and nothing of that name was measured")
        return f"{m[1]}\n{blocks[m[2]]}\n<!-- end -->"

    text = document.read_text(encoding="utf-8")
    document.write_text(re.sub(r"(<!-- measured: (\w+) -->\n).*?<!-- end -->", block, text, flags=re.S), encoding="utf-8")


# ---- the plot

COLOURS = {"ours": "#1668a8", "second": "#c77700", "sql": "#7b4b94"}
LEFT, RIGHT, TOP, BAR, GAP, PAIR_GAP, WIDTH = 110, 70, 92, 15, 3, 20, 780
LEAST = 0.5
EMULATED = "full colour: x86-64 code under emulation; pale: the machine's own code"


def bars_of(pair, native):
    """(program, whether native, ratio) from top to bottom."""
    bars = [("ours", False, to(pair, "check", "ours", "c"))]
    for program in ("second", "sql"):
        bars.append((program, False, to(pair, "check", program, "c")))
        if native:
            bars.append((program, True, to(native, "check", program, "c")))
    return [bar for bar in bars if bar[2]]


def plot(pairs, natives_by_name, emulated):
    groups = [(pair["name"], bars_of(pair, natives_by_name.get(pair["name"]))) for pair in pairs]
    most = 10 ** math.ceil(math.log10(max(r for _, bars in groups for *_, r in bars) * 1.2))
    x = lambda r: LEFT + (WIDTH - LEFT - RIGHT) * math.log(r / LEAST) / math.log(most / LEAST)
    height = TOP + sum(len(bars) * (BAR + GAP) + PAIR_GAP for _, bars in groups) + 44
    out = [f'<svg xmlns="http://www.w3.org/2000/svg" viewBox="0 0 {WIDTH} {height}" width="{WIDTH}" height="{height}" '
           'font-family="Helvetica, Arial, sans-serif" font-size="12" fill="#222" role="img">',
           "<title>Time for a check, as a multiple of plain C</title>",
           "<desc>For each pair of files a bar for the proved checker, the second program and SQL; the line at 1 is plain C.</desc>",
           f'<rect width="{WIDTH}" height="{height}" fill="white"/>',
           '<text x="16" y="26" font-size="16" font-weight="bold">Time for a check, as a multiple of plain C</text>',
           f'<text x="16" y="44" fill="#555">logarithmic; shorter is faster; {EMULATED if emulated else "x86-64"}</text>']
    keys = [("ours", False), ("second", False)] + [("second", True)] * emulated + [("sql", False)] + [("sql", True)] * emulated
    at = 16
    for program, light in keys:
        name = SHOWN[program] + (", native" if light else "")
        out.append(f'<rect x="{at}" y="56" width="12" height="12" {paint(program, light)}/><text x="{at + 17}" y="66">{name}</text>')
        at += 40 + 7 * len(name)
    tick = 1
    while tick <= most:
        heavy = tick == 1
        out.append(f'<line x1="{x(tick):.1f}" x2="{x(tick):.1f}" y1="{TOP - 8}" y2="{height - 34}" stroke="{"#222" if heavy else "#ddd"}"/>')
        out.append(f'<text x="{x(tick):.1f}" y="{height - 18}" text-anchor="middle">{"1 (C)" if heavy else f"{tick:,}"}</text>')
        tick *= 10
    y = TOP
    for name, bars in groups:
        middle = y + len(bars) * (BAR + GAP) / 2
        out.append(f'<text x="{LEFT - 26}" y="{middle + 3:.1f}" text-anchor="end" font-weight="bold">{name}</text>')
        for program, light, r in bars:
            from_x, to_x = sorted((x(1), x(r)))
            out.append(f'<rect x="{from_x:.1f}" y="{y}" width="{max(to_x - from_x, 1):.1f}" height="{BAR}" {paint(program, light)}/>')
            out.append(f'<text x="{to_x + 5:.1f}" y="{y + BAR - 3}">{ratio(r)}</text>')
            y += BAR + GAP
        y += PAIR_GAP
    return "\n".join(out + ["</svg>"]) + "\n"


def paint(program, light):
    colour = COLOURS[program]
    return f'fill="{colour}" fill-opacity="0.25" stroke="{colour}"' if light else f'fill="{colour}" stroke="{colour}"'


# ---- the bounds

def broken(inputs, bounds, besides, stack):
    """What ours takes too much of, a line for each."""
    for bound, function, other, *names in besides:
        for pair in inputs:
            if pair["name"] in names and beside(pair, function, other) > float(bound):
                yield f"{function} on {pair['name']}: ours takes {ratio(beside(pair, function, other))} of the time of our {other}, by least times, and {bound} is the bound"
    for bound, function, program, *names in bounds:
        measured = {pair["name"] for pair in inputs if function in pair}
        if not measured or not set(names) <= measured:
            yield f"a bound on {function} names {', '.join(names) or 'all pairs'}, and measured are {', '.join(sorted(measured)) or 'none'}"
        for pair in inputs:
            if function in pair and (not names or pair["name"] in names) and least(pair, function, program) > float(bound):
                yield (f"{function} on {pair['name']}: ours takes {ratio(least(pair, function, program))} of the time of {SHOWN[program]}, by least "
                       f"times, and {bound} is the bound")
    for pair in inputs:
        for function in pair:
            told = pair[function].get("ours") if isinstance(pair[function], dict) else None
            if stack and told and told["stack"] > stack:
                yield f"{function} on {pair['name']}: ours takes {told['stack']:,} bytes of stack, and {stack:,} is the bound"


# ----

def main():
    words = argparse.ArgumentParser()
    words.add_argument("--bound", nargs="+", action="append", default=[])
    words.add_argument("--beside", nargs="+", action="append", default=[])
    words.add_argument("--stack", type=int)
    words.add_argument("--machine", type=Path)
    words.add_argument("--native", type=Path)
    words.add_argument("--svg", type=Path)
    words.add_argument("--document", type=Path)
    words.add_argument("measurement", type=Path)
    words = words.parse_args()

    told = json.loads(words.measurement.read_text(encoding="utf-8"))
    inputs = told["inputs"]
    pairs = [p for p in inputs if "check" in p]
    native = json.loads(words.native.read_text(encoding="utf-8"))["inputs"] if words.native and words.native.exists() else []
    native = [p for p in native if "check" in p]
    blocks = {"check": times(pairs), "listing": listing([p for p in inputs if "check_all" in p]), "writing": of_one(pairs, "write_graph", "written_bytes"),
              "finding": of_one(pairs, "find_tables", "graph_bytes"),
              "reading": of_one(inputs, "read_sheet", "sheet_bytes", "sheet"),
              "joining": of_one(inputs, "join_graphs", "joined_bytes", "graphs")}
    if words.machine:
        blocks["details"] = details(pairs)
        blocks["machine"] = machine(words.machine, told["sqlite"])
    if native:
        blocks["native"] = natives(native)
    for name, block in blocks.items():
        print(f"{name}:\n\n{block}")
    if words.svg:
        words.svg.write_text(plot(pairs, {p["name"]: p for p in native}, bool(native)), encoding="utf-8")
    if words.document:
        put_into(words.document, blocks)

    wrong = list(broken(inputs, words.bound, words.beside, words.stack))
    for line in wrong:
        print(f"bench: {line}", file=sys.stderr)
    return 1 if wrong else 0


sys.exit(main())
