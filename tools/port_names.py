#!/usr/bin/env python3
"""Respells the repository's own definitions and lemmas as today's Rattle spells them: snake case for every word that is no type.

usage: python3 tools/port_names.py     at the top of the repository, once, after the kit's port.py

`schemaOf` becomes `schema_of`, `first-is` becomes `first_is`. Types, modules and what is imported from the kit keep their names; functions,
exported names, strings, inputs and outputs are not touched. It stops where two names of a file would fall together.
"""
import collections
import glob
import os
import re
import sys

OWN = {os.path.basename(c) for c in glob.glob("crates/*")}
WORD = re.compile(r"[^\s(){}\[\],;.λ\"`]+")
MADE = re.compile(r"^(Need|InvT|MeasureT|Inv)-|^(field|arg)-?\d+$")
OPERATORS = re.compile(r"[^A-Za-z0-9_'\-]")
# names that fall together with others of the same file or hide a parameter: what they are called instead
APART = {
    w: snake_cased + "_lem"
    for w, snake_cased in (
        (w, w.replace("-", "_"))
        for w in "joined-file first-wide wide-first noted-twice row-in year-days leap-row with-edge head-of sheet-graph angle-rows month-in".split()
    )
}
# of the kit's script, in one crate: it had turned the lemma, and not the definition
IN_SHEET = {"node_row": "node_row_lem", "edge_row": "edge_row_lem"}


def snake(word):
    if word in APART:
        return APART[word]
    if not re.match(r"[a-z]", word) or OPERATORS.search(word):
        return word
    if re.search(r"[-_][A-Z]", word):
        return word
    w = re.sub(r"(?<=[a-z0-9])(?=[A-Z])", "_", word)
    return w.replace("-", "_").lower()


def is_own(path):
    m = re.match(r"Rattle\.(\w+)\.", path)
    return bool(m) and m.group(1) in OWN


def uses(text):
    """Each `use` line of a file: its path, and the names that it brings."""
    for m in re.finditer(r"^[ \t]*(?:pub |ghost )*use ([^\s{]+?)(?:\.\{([^}]*)\}| as [^\s;]+)?;?$", text, re.M):
        names = []
        for n in (m.group(2) or "").split(","):
            n = n.strip()
            if n:
                names.append(n.split(" as "))
        yield m.group(1), names


def kept_of(text):
    """The names that a file has from the kit: they keep their spelling."""
    kept = set()
    for path, names in uses(text):
        if not is_own(path + "."):
            for n in names:
                kept.add(n[0].strip())
    return kept


def turn(part, kept):
    def one(m):
        w = m.group(0)
        if w in kept or MADE.match(w):
            return w
        before = part[max(0, m.start() - 4):m.start()]
        if before.endswith("tie."):
            return w
        return snake(w)

    return WORD.sub(one, part)


def in_comment(part, kept, own):
    part = re.sub(r"`([^`]*)`", lambda m: "`" + turn(m.group(1), kept) + "`", part)
    return WORD.sub(lambda m: snake(m.group(0)) if m.group(0) in own and re.search("[A-Z]", m.group(0)) else m.group(0), part)


def antt(text, own):
    kept = kept_of(text)
    out = []
    for line in text.split("\n"):
        m = re.search(r"(?:^|\s)--(?:\s|$)", line)
        cut = m.start() if m else len(line)
        code, comment = line[:cut], line[cut:]
        bits = re.split(r'("[^"]*")', code)
        code = "".join(b if b.startswith('"') else turn(b, kept) for b in bits)
        out.append(code + in_comment(comment, kept, own))
    return "\n".join(out)


CLAUSE = re.compile(r"^\s*(ghost use |requires|ensures|ghost |invariant|decreases)")


def rt(text, own):
    kept = kept_of(text)
    out = []
    for line in text.split("\n"):
        if line.lstrip().startswith("//"):
            out.append(in_comment(line, kept, own))
        elif CLAUSE.match(line):
            out.append(turn(line, kept))
        else:
            out.append(line)
    return "\n".join(out)


def in_sheet(path, text):
    if "crates/sheet/" in path:
        for old, new in IN_SHEET.items():
            text = re.sub(rf"(?<![\w'.-]){old}(?![\w'-])", new, text)
    return text


def defined(text):
    """What a .antt file defines: names at the left of a colon, at the top or in a module, record or data of it."""
    for line in text.split("\n"):
        m = re.match(r"\s*(?:unfoldable |abbrev |pub |private )*(?:data |record |module )?([^\s:(){}\[\],.]+)(?: \(.*\)| \{.*\})* :(?: |$)", line)
        if m:
            yield m.group(1)


def main():
    files = sorted(glob.glob("crates/*/specs/**/*.antt", recursive=True) + glob.glob("crates/*/proofs/**/*.antt", recursive=True))
    sources = sorted(glob.glob("crates/*/src/**/*.rt", recursive=True))
    edits = sorted(glob.glob("crates/*/must-fail/*.edit"))
    texts = {p: in_sheet(p, open(p, encoding="utf-8").read()) for p in files + sources + edits}
    own = {n for p in files for n in defined(texts[p])}
    bad = []
    for p in files + sources:
        names = collections.defaultdict(set)
        kept = kept_of(texts[p])
        for n in defined(texts[p]) if p.endswith(".antt") else ():
            names[n if n in kept else snake(n)].add(n)
        for path, got in uses(texts[p]):
            for n in got:
                n = n[-1].strip()
                names[n if not is_own(path + ".") else snake(n)].add(n)
        for s, froms in names.items():
            if len(froms) > 1:
                bad.append(f"{p}: {' and '.join(sorted(froms))} would both be {s}")
        if p.endswith(".rt"):
            params = set(re.findall(r"\b([a-z_0-9]+): ", texts[p]))
            for path, got in uses(texts[p]):
                for n in got:
                    n = n[-1].strip()
                    if is_own(path + ".") and snake(n) != n and snake(n) in params:
                        bad.append(f"{p}: {n} would be {snake(n)}, a parameter")
    if "--list" in sys.argv:
        print("\n".join(bad))
        return 0
    if bad:
        print("\n".join(bad))
        return 1
    for p in files:
        open(p, "w", encoding="utf-8").write(antt(texts[p], own))
    for p in sources:
        open(p, "w", encoding="utf-8").write(rt(texts[p], own))
    for p in edits:
        kept = set()
        m = re.search(r"^file: (.*)$", texts[p], re.M)
        target = os.path.join(os.path.dirname(os.path.dirname(p)), m.group(1).strip())
        if os.path.exists(target):
            kept = kept_of(texts.get(target, ""))
        out = []
        for line in texts[p].split("\n"):
            m = re.match(r"(old: |new: )(.*)$", line)
            if m and (target.endswith(".antt") or CLAUSE.match(m.group(2))):
                line = m.group(1) + turn(m.group(2), kept)
            elif m and target.endswith(".rt"):
                line = m.group(1) + WORD.sub(lambda k: snake(k.group(0)) if re.search("[a-z][A-Z]", k.group(0)) else k.group(0), m.group(2))
            out.append(line)
        open(p, "w", encoding="utf-8").write("\n".join(out))
    return 0


if __name__ == "__main__":
    sys.exit(main())
