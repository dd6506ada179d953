#!/usr/bin/env python3
"""Holds the documents to the tree. Run from anywhere: python3 .ci/docs.py

It fails, with one line for each error, where
- a reference in a table of docs/TRACE.md or docs/PROMISES.md names a file that is not there, or a name that the file does not declare;
- columns 2 to 6 of TRACE, or columns 3 and 4 of PROMISES, have something in backticks that is no reference;
- a row of TRACE is missing, stands twice, or is not in the list ROWS below;
- a public function has no row in PROMISES, or a row names no public function, no theorem (and no 'listed exception:'), or fewer than two
  must-fail edits;
- a must-fail edit stands in neither document;
- a reference in docs/PROOFS.md names something that is not there;
- a code of include/havirozan.h does not stand in docs/CODES.md, or an example or a sheet there is not answered, or listed, as examples/README.md says;
- the record test reads a row, or changes a count of rows read, anywhere but where the next row of a run comes ahead, or has a second count for a run;
- what a contract or a definition cites stands in proofs: a `ghost use` of a crate's src/, or a `use` of its specs/, names a module of proofs/;
- a function has more than eight parameters, or a line of a contract more than 200 characters;
- the bytes of a file that stand in crates/layout/specs/BenchFiles.antt or WideFiles.antt, or in crates/join/specs/Samples.antt, are not the file's;
- the table of specs lines in docs/MAP.md is not what --lines prints.

A reference is CRATE/specs/FILE.antt:NAME, CRATE/proofs/FILE.antt:NAME, CRATE/src/FILE.rt:NAME, CRATE/must-fail/NAME.edit, or a path from
the root. CRATE stands under crates/.

    python3 .ci/docs.py --lines     prints the table of specs lines
"""
import re
import sys
from pathlib import Path

ROOT = Path(__file__).resolve().parent.parent
CRATES = ROOT / "crates"
TRACE, PROMISES, MAP = "docs/TRACE.md", "docs/PROMISES.md", "docs/MAP.md"
MOST_PARAMETERS, MOST_CONTRACT = 8, 200
BYTES = [f"crates/{name}.antt" for name in ("layout/specs/BenchFiles", "layout/specs/WideFiles", "join/specs/Samples")]
PROOFS, CODES, HEADER, EXAMPLES = "docs/PROOFS.md", "docs/CODES.md", "include/havirozan.h", "examples/README.md"

ROWS = (
    [f"demand {n}" for n in (1, 2, 3)]
    + [f"code {n}" for n in (*range(1, 16), 0, *range(21, 26), *range(31, 35))]
    + [f"rule {n}" for n in (1, 2, 3, 4)]
    + ["fits (b)", "fits (c)", "fits (d)", "labels equal", "parallel edges", "loop", "several schema nodes", "first violation"]
    + [f"kind {n}" for n in (1, 2, 3, 4, 5)]
    + ["preface", "graph body", "schema body", "trailer", "back", "runs", "names rise", "low byte first", "graph ceilings", "schema ceilings", "interval ceilings"]
    + ["form: " + f for f in (
        "month table", "counters", "one division (02)", "exported check", "value enum", "nested loops with a label", "table maker (02)",
        "list reader (02)", "lent records (02)", "enum answers")]
    + ["trap: " + t for t in (
        "look-here counting", "contains these labels", "optional as loosening", "opening as loosening", "counting by label alone",
        "a run start trusted")]
    + [f"P{n}" for n in range(1, 13)]
    + ["run only: 23 0 0 0 0", "run only: 32 1 1 4 0", "run only: 7 1 0 0 0", "run only: 14 1 0 0 0", "one run in full"]
    + ["every public function", "no second result", "shut out: refuses all", "shut out: one answer", "shut out: rule 1 alone",
       "shut out: invented count", "C entry", "small program"]
    + ["request 1: " + t for t in (
        "code 41", "code 42", "code and number", "written, then read", "always accepted", "read, then written", "where tables lie")]
    + ["request 2: " + t for t in (
        "the lowest name", "missing mandatory", "unlisted", "wrongly typed", "by the letter", "the fifth number", "0 for all other codes", "20 bytes",
        "all its numbers", "demands 1 and 2")]
    + ["request 3: " + t for t in ("leap", "good and bad days", "the old place", "the calendar")]
    + ["request 4: " + t for t in (
        "lines", "serial", "date", "degrees", "coefficient", "angle lines", "one reading", "code 51", "code 52", "then 42", "the graph", "counts", "as in Ask 1",
        "one division", "the small program")]
    + ["request 5: " + t for t in ("every row once", "names rise in both", "one walk is enough", "the promise stays", "every caller stays")]
    + ["request 6: " + t for t in (
        "a lent list", "each told", "every violation exactly once", "in 01's order", "the first ones", "code, place and total", "records kept", "the first record",
        "refusals", "the small program")]
    + ["request 7: " + t for t in (
        "one file of two", "nodes after nodes", "edges likewise", "ends renumbered", "property runs", "text and offsets", "greater counts", "no preface",
        "accepted", "conforms exactly if both did", "whose fault", "2 to 8 and which", "code 44", "then 42", "three graphs")]
)

errors = []


def error(doc, line, text):
    errors.append(f"{doc}:{line}: {text}")


# ---- the tree

# `data NAME ..`, `record NAME ..`; `NAME : ..` or `NAME NAME : ..`, a signature, a field or a constructor
DECLARATION = re.compile(r"^ *(?:(?:abbrev|unfoldable|pub) )*(?:(?:data|record) ([^\s{]\S*)|(?!let |--)((?:[^\s(){}:=.;→]+ )+):)(?= |$)", re.M)


def declared(path):
    """The names that a file of antt or Rattle declares."""
    text = path.read_text(encoding="utf-8")
    if path.suffix == ".rt":
        return set(re.findall(r"\b(?:fn|const|struct|enum)\s+(\w+)", re.sub(r"//.*", "", text)))
    return {name for m in DECLARATION.finditer(text) for name in (m[1] or m[2]).split()}


def public_functions():
    """CRATE::NAME, or CRATE::TYPE::NAME for a method, of every public function; a trait's function is public wherever the trait is."""
    found = set()
    for path in sorted(CRATES.glob("*/src/**/*.rt")):
        owner = path.relative_to(CRATES).parts[0]
        inside, of_trait = owner, None
        for line in path.read_text(encoding="utf-8").splitlines():
            if m := re.match(r"impl(?:<[^>]*>)?\s+([\w:]+(?:<[^>]*>)?\s+for\s+)?(\w+)", line):
                inside, of_trait = f"{owner}::{m[2]}", m[1]
            elif line == "}":
                inside, of_trait = owner, None
            if m := re.match(r'\s*pub\s+(?:extern\s+"C"\s+)?fn\s+(\w+)' if not of_trait else r"    fn\s+(\w+)", line):
                found.add(f"{inside}::{m[1]}")
    return found


def lines_table():
    """The lines of specs/ by crate: all of them, and those that are no comment, not blank and no `use`."""
    rows, sums = [], [0, 0]
    for crate in sorted(p for p in CRATES.iterdir() if any(p.glob("specs/**/*.antt"))):
        lines = [l.strip() for f in crate.glob("specs/**/*.antt") for l in f.read_text(encoding="utf-8").splitlines()]
        counts = [len(lines), sum(1 for l in lines if l and not l.startswith(("--", "use ")))]
        rows.append(f"| `{crate.name}` | {counts[0]} | {counts[1]} |")
        sums = [a + b for a, b in zip(sums, counts)]
    head = ["| crate | lines of specs | without comments, blank and `use` lines |", "|---|---:|---:|"]
    return "\n".join(head + rows + [f"| all | {sums[0]} | {sums[1]} |"])


# ---- the documents

def text_of(doc):
    if (ROOT / doc).is_file():
        return (ROOT / doc).read_text(encoding="utf-8")
    error(doc, 1, "is missing")
    return ""


def table_rows(doc, columns):
    """(line number, cells) of each row of the document's tables."""
    for number, line in enumerate(text_of(doc).splitlines(), 1):
        if not line.startswith("|") or re.match(r"\|\s*(:?-+|01 says|function)\s*:?\|", line):
            continue
        cells = [c.strip() for c in line.strip().strip("|").split("|")]
        if len(cells) == columns:
            yield number, cells
        else:
            error(doc, number, f"{len(cells)} columns, not {columns}")


IN_CRATE = re.compile(r"\w+/(?:(?:specs|proofs)/[\w/+]+\.antt:(?P<antt>\S+)|src/[\w/]+\.rt:(?P<rt>\w+)|must-fail/\w+\.edit)")
FROM_ROOT = re.compile(r"(?!crates/|.*\.\.)[\w.-]+(?:/[\w.-]+)+")


def check_reference(doc, line, ref):
    """Whether `ref` is a reference to something that is there."""
    m = IN_CRATE.fullmatch(ref)
    if not m and not FROM_ROOT.fullmatch(ref):
        return error(doc, line, f"`{ref}` is no reference")
    path = Path("crates" if m else "", ref.partition(":")[0])
    name = m and (m["antt"] or m["rt"])
    if not (ROOT / path).exists():
        return error(doc, line, f"`{ref}`: there is no {path}")
    if name and name not in declared(ROOT / path):
        return error(doc, line, f"`{ref}`: {path} does not declare {name}")
    return True


def references(doc, line, cells, strict):
    """The good references in the cells. In the cells from `strict` on everything in backticks has to be one."""
    quoted = [(i, q) for i, cell in enumerate(cells) for q in re.findall(r"`([^`]*)`", cell)]
    return [q for i, q in quoted if (i >= strict or re.match(r"[\w.-]+/", q)) and check_reference(doc, line, q)]


def check_trace():
    seen, refs = {}, []
    for line, cells in table_rows(TRACE, 6):
        m = re.match(r"\*\*(.+?)\*\*", cells[0])
        row = m[1] if m else cells[0]
        if row not in ROWS:
            error(TRACE, line, f"row '{row}' is not in the list of .ci/docs.py")
        if row in seen:
            error(TRACE, line, f"row '{row}' stands twice, first in line {seen[row]}")
        seen.setdefault(row, line)
        for i, cell in enumerate(cells):
            if not cell:
                error(TRACE, line, f"row '{row}': column {i + 1} is empty")
        refs += references(TRACE, line, cells, 1)
    for row in ROWS:
        if row not in seen:
            error(TRACE, 1, f"row '{row}' is missing")
    return refs, len(seen)


def check_promises():
    functions, seen, refs = public_functions(), set(), []
    for line, cells in table_rows(PROMISES, 4):
        function = cells[0].strip("`")
        if function not in functions:
            error(PROMISES, line, f"{function} is no public function")
        if function in seen:
            error(PROMISES, line, f"{function} stands twice")
        seen.add(function)
        found = references(PROMISES, line, cells, 2)
        in_column = lambda i, part: {r for r in found if part in r and f"`{r}`" in cells[i]}
        if not in_column(2, "/proofs/") and "listed exception:" not in cells[2]:
            error(PROMISES, line, f"{function}: no theorem that there is no second result, and no 'listed exception:'")
        if len(in_column(3, "/must-fail/")) < 2:
            error(PROMISES, line, f"{function}: fewer than two must-fail edits")
        refs += found
    for function in sorted(functions - seen):
        error(PROMISES, 1, f"public function {function} has no row")
    return refs, len(seen)


def check_proofs():
    """The references of PROOFS stand in its text."""
    for line, text in enumerate(text_of(PROOFS).splitlines(), 1):
        for quoted in re.findall(r"`([^`]*)`", text):
            if IN_CRATE.fullmatch(quoted):
                check_reference(PROOFS, line, quoted)


def check_lists(text):
    """CODES says of a graph 'FILE lists NUMBERS, NUMBERS', or 'FILE lists these' with a table whose first column they are, what EXAMPLES says."""
    examples = text_of(EXAMPLES)
    names = {m[2]: m[1] for m in re.finditer(r"^\| (\S+) \| [^|]* \| `(\S+)` \| `S\.schema` \| [\d ]+ \|$", examples, re.M)}
    lists = {name: listed.split(", ") for name, listed in re.findall(r"^\| (\S+) \| \d+ \| ([\d, ]+) \|$", examples, re.M)}
    said = 0
    for m in re.finditer(r"`([\w-]+\.graph)`\s+with\s+`S\.schema`\s+lists\s+(these\b|(?:`[\d ]+`,?\s*)+)(.*?)(?=\n\n[^|]|\Z)", text, re.S):
        numbers = re.findall(r"^\| `([\d ]+)` \|", m[3], re.M) if m[2] == "these" else re.findall(r"`([\d ]+)`", m[2])
        said += 1
        if lists.get(names.get(m[1])) != numbers:
            error(CODES, text.count("\n", 0, m.start()) + 1, f"{m[1]} is listed {lists.get(names.get(m[1]))}, not {numbers}")
    if said != len(re.findall(r"`\s+lists\s", text)):
        error(CODES, 1, "a list is said in other words than FILE with S.schema lists NUMBERS")


def check_codes():
    """CODES has every code of the header, and says of each example and sheet 'FILE gives NUMBERS', 'FILE, SCHEMA: NUMBERS' what EXAMPLES says."""
    text = text_of(CODES)
    check_lists(text)
    codes = text_of(HEADER).partition("the codes")[2].partition("what count says")[0]
    for code in re.findall(r"#define \w+ (\d+)U", codes):
        if not re.search(rf"^### Codes? (\d+ and )?{code}\b|^\| {code} \| `{code} ", text, re.M):
            error(CODES, 1, f"code {code} is missing")
    owed = {(m[1], m[2]): m[3] for m in re.finditer(r"\| `(\S+)` \| `(\S+)` \| ([\d ]+) \|$", text_of(EXAMPLES), re.M)}
    sheets = dict(re.findall(r"^\| `(\S+\.csv)` \| [^|]* \| (\d+ \d+) \|", text_of(EXAMPLES), re.M))
    for line, words in enumerate(text.splitlines(), 1):
        for sheet, numbers in re.findall(r"`([\w-]+\.csv)` gives `([\d ]+)`", words):
            if sheets.get(sheet) != numbers:
                error(CODES, line, f"{sheet} is answered {sheets.get(sheet)}, not {numbers}")
        said = [(g, "S.schema", n) for g, n in re.findall(r"`([\w-]+\.graph)`(?: with `S\.schema`)? gives `([\d ]+)`", words)]
        said += re.findall(r"`([\w-]+\.graph)`, `([\w-]+\.schema)`: `([\d ]+)`", words)
        for graph, schema, numbers in said:
            if owed.get((graph, schema)) != numbers:
                error(CODES, line, f"{graph} with {schema} is answered {owed.get((graph, schema))}, not {numbers}")


def without_clauses(code):
    """The code without what contracts say, and without what is brought in for them: `rows.now` there reads nothing."""
    kept, at = [], 0
    for m in re.finditer(r"^\s*(?:requires\b|ensures\b|ghost \w+:)[^{\n]*\{|^\s*ghost use [^;]*;", code, re.M):
        if m.start() < at:
            continue
        kept.append(code[at:m.start()])
        at, depth = m.end(), m[0].endswith("{")
        while depth and at < len(code):
            depth += (code[at] == "{") - (code[at] == "}")
            at += 1
    return "".join(kept) + code[at:]


def check_reads():
    """In records only `at` reads a row, only `next` calls it, and counts: so what is promised of the counts is promised of the rows."""
    path, test = "crates/records/src/run.rt", "crates/records/src/lib.rt"
    run, text = (without_clauses(re.sub(r"//.*", "", text_of(name))) for name in (path, test))
    cut = "rows: &table[width * head.first..],"
    if run.count(cut) != 1:
        error(path, 1, "a run is to be cut out of its table once, in `new`")
    run = run.replace(cut, "")
    reads, calls, counts = r"\b[a-z]\w*::\w+\(|\b(?:rows|table|text)[.\[]", r"\bat\(", r"\bread\s*[-+*/%]?=(?!=)"
    for what, where, found, there in (
        ("reads", "at", r"little::u32_at\(", reads),
        ("calls", "next", r"Row::at\(", rf"(?<!fn ){calls}"),
        ("counts", "next", r"self\.read \+= 1;", counts),
    ):
        inside = re.search(rf"^    (?:pub\(crate\) )?fn {where}\(.*?^    }}", run, re.M | re.S)
        if not inside or len(re.findall(there, run)) != 1 or not re.search(found, inside[0]):
            error(path, 1, f"a row is to be read in `at` and counted in `next`, and nowhere else: see what {what} it")
    if re.search(rf"{reads}|{calls}|\.read\b", text):
        error(test, 1, "a row is to be read by `next` alone")
    if "#[derive(Drop)]\npub(crate) struct Run<" not in run or re.search(r"impl\b.*\bClone\b", run):
        error(path, 1, "a run is to have one count: `Run` is not to be copied")
    if re.findall(r"\bRun::new\(([^)]*)\)", text) != ["o.rows, 16, o.head", "s.rows, 4, s.head"]:
        error(test, 1, "each run is to be made once")
    made = r"\b(?:Run|Self)\s*\{|\b(?:Run|Self)::new\("
    if re.findall(made, run) != ["Run {"] or len(re.findall(made, text)) != 2:
        error(path, 1, "a run is to be made by `new` alone, and `new` called in the record test alone")
    named = r"\bRun\b"
    if len(re.findall(named, text)) != 3 or len(re.findall(named, run)) != 4:
        error(path, 1, "`Run` is named where it is made and in no other place, so that no other name for it hides a second one")
    if {f.name for f in CRATES.glob("records/src/**/*.rt")} != {"lib.rt", "run.rt"}:
        error(path, 1, "rows are read in these two files alone")


def parameters_from(code, at):
    """How many parameters a list has that starts at `at`, behind its bracket: each has a colon outside all inner brackets."""
    depth, outside = 1, ""
    for c in code[at:]:
        depth += (c in "([{<") - (c in ")]}>")
        if depth == 0:
            break
        outside += c if depth == 1 else ""
    return len(re.findall(r"(?<!:):(?!:)", outside))


def check_contracts():
    """What a contract cites stands in specs/, and contracts and lists of parameters are short enough to be read."""
    for path in sorted([*CRATES.glob("*/src/**/*.rt"), *CRATES.glob("*/specs/**/*.antt")]):
        doc, text = path.relative_to(ROOT), path.read_text(encoding="utf-8")
        code = re.sub(r"//.*" if path.suffix == ".rt" else r"--.*", "", text)
        line_of = lambda m: code.count("\n", 0, m.start()) + 1
        for m in re.finditer(r"(?:\w+\.)*\w+\.proofs\b[\w.+-]*", code):
            error(doc, line_of(m), f"{m[0].rstrip('.')} is a module of proofs, and what is cited here has to stand in specs")
        for m in re.finditer(r"\bfn\s+(\w+)[^(]*\(", code):
            parameters = parameters_from(code, m.end())
            if parameters > MOST_PARAMETERS:
                error(doc, line_of(m), f"{m[1]} has {parameters} parameters, and {MOST_PARAMETERS} are the most")
        for number, line in enumerate(text.splitlines(), 1):
            if re.match(r"\s*(requires|ensures)\b", line) and len(line) > MOST_CONTRACT:
                error(doc, number, f"a contract's line of {len(line)} characters, and {MOST_CONTRACT} are the most")


def bytes_said(text, known):
    """The bytes that a definition says: lists in hex, bytes that repeat and names, one after another, or `set NAME PLACE BYTE`. No bytes if it says
    something else."""
    if m := re.fullmatch(r"set (\w+) (\d+) (0x[0-9A-F]{2})", text):
        said, place = known.get(m[1], b""), int(m[2])
        return said[:place] + bytes([int(m[3], 16)]) + said[place + 1:]
    said = b""
    for part in text.split(" ++ "):
        if m := re.fullmatch(r"replicate (\d+) 0x([0-9A-F]{2})", part):
            said += bytes.fromhex(m[2]) * int(m[1])
        elif part in known or re.fullmatch(r"\((0x[0-9A-F]{2} ∷ )+\[\]\)", part):
            said += known.get(part) or bytes(int(byte, 16) for byte in re.findall(r"0x\w+", part))
        else:
            return b""
    return said


def check_bytes(doc):
    """Each list of bytes in the document is the file that the line above it names."""
    text, known = text_of(doc), {}
    for m in re.finditer(r"^(?:-- (\S+?)(?::.*)?\n)?(?:abbrev )?(?:pub )?(\w+) : List ℕ\n\2 =(.*\n(?: .*\n)*)", text, re.M):
        path, name, line = m[1], m[2], text.count("\n", 0, m.start(2)) + 1
        known[name] = bytes_said(" ".join(re.sub(r"--.*", "", m[3]).split()), known)
        if not path or not (ROOT / path).is_file():
            error(doc, line, f"{name}: the line above names no file")
        elif known[name] != (ROOT / path).read_bytes():
            error(doc, line, f"{name} has not the bytes of {path}")
    if not known or len(known) != text.count(" : List ℕ"):
        error(doc, 1, "has a list of bytes that is not understood here, or none")


def main():
    if sys.argv[1:] == ["--lines"]:
        print(lines_table())
        return 0
    trace_refs, rows = check_trace()
    promise_refs, promises = check_promises()
    check_proofs()
    check_codes()
    check_reads()
    check_contracts()
    for doc in BYTES:
        check_bytes(doc)
    refs = trace_refs + promise_refs
    for edit in sorted(CRATES.glob("*/must-fail/*.edit")):
        name = str(edit.relative_to(CRATES))
        if name not in refs:
            error(TRACE, 1, f"{name} stands neither here nor in {PROMISES}")
    if lines_table() not in text_of(MAP):
        error(MAP, 1, "the table of specs lines is stale: python3 .ci/docs.py --lines prints it")
    print("\n".join(errors) if errors else f"docs: {len(refs)} references, {rows} rows, {promises} promises: good")
    return 1 if errors else 0


sys.exit(main())
