#!/usr/bin/env python3
"""Runs every command block of README.md as a reader would, one after the other in one shell, in a fresh clone. Run from anywhere: python3 .ci/readme.py

- A block that is fenced as `sh` is run. The block fenced as `text` that follows it is what it has to print, all of it, in the order in which a terminal shows it. Where
  no such block follows, the last command has to end with status 0.
- A block that is fenced as `c` has to be the file outside/c/conforms.c, or lines of outside/c/faults.c, one after the other. The blocks compile both.
- `bash .ci/run` alone is not run: it is the gate, which runs this.
- No command may stand in README.md outside such a block: an indented block, or one that is fenced in another way, fails.
- At the end `git status` of the clone has to be clean: what a reader is told to do changes no file of the repository and leaves none in it.

The clone has the commit that is checked out, and of target/ the archive that was proved, with its stamp, so that it is not proved again: the scripts see by the stamp whether it is the same. Programs and what
the scripts make are not taken over: a block that uses them has to make them.
Programs are for x86-64. On another machine gcc and the programs of rt are wrapped, so that the same blocks compile for x86-64 and run by qemu-user.
"""
import os
import re
import shutil
import subprocess
import sys
import tempfile
from pathlib import Path

ROOT = Path(__file__).resolve().parent.parent
WHOLE, PART = "outside/c/conforms.c", "outside/c/faults.c"
GATE = "bash .ci/run"
MOST_SECONDS = 1800

# a program for x86-64 stands beside a script of its name that runs it
WRAPPED = """#!/bin/sh
exec qemu-x86_64 -L /usr/x86_64-linux-gnu "$0.x86-64" "$@"
"""
GCC = """#!/bin/bash
out=a.out before=
for word in "$@"; do [ "$before" != -o ] || out=$word; before=$word; done
x86_64-linux-gnu-gcc -static "$@" || exit
case $out in *.o | *.so*) exit ;; esac
mv "$out" "$out.x86-64" && cp {wrapped} "$out"
"""
RT = """#!/bin/bash
{rt} "$@"
status=$?
for program in out/*; do
    case $program in *.*) continue ;; esac
    [ -f "$program" ] || continue
    case $(head -c 4 "$program" | tail -c 3) in ELF) mv "$program" "$program.x86-64" && cp {wrapped} "$program" ;; esac
done
exit $status
"""

errors = []


def blocks(text):
    """(line, kind, lines) of each fenced block; an indented block is an error."""
    found, inside = [], None
    for number, line in enumerate(text.splitlines(), 1):
        fence = re.match(r"```(\w*)$", line)
        if fence and inside is None:
            inside = (number, fence[1], [])
        elif fence:
            found.append(inside)
            inside = None
        elif inside is not None:
            inside[2].append(line)
        elif re.match(r" {4}|\t|\s*(```|~~~|<pre)", line):
            errors.append(f"README.md:{number}: a block that nobody runs: fence it as sh, text or c")
    if inside is not None:
        errors.append(f"README.md:{inside[0]}: this block has no end")
    return found


def commands(found):
    """(line, commands, what is owed or None) of each block that is run."""
    asked = []
    for number, kind, lines in found:
        body = "\n".join(lines)
        if kind == "sh":
            asked.append([number, body, None])
        elif kind == "text" and asked and asked[-1][2] is None:
            asked[-1][2] = body
        elif kind == "c":
            whole, part = ((ROOT / source).read_text(encoding="utf-8") for source in (WHOLE, PART))
            if body + "\n" != whole and f"\n{body}\n" not in f"\n{part}":
                errors.append(f"README.md:{number}: this block is neither {WHOLE} nor lines of {PART}")
        else:
            errors.append(f"README.md:{number}: a block of kind '{kind}': sh, the text that it prints, or c")
    gates = [a for a in asked if a[1] == GATE]
    if len(gates) != 1:
        errors.append(f"README.md: '{GATE}' stands in {len(gates)} blocks, and not in one of its own")
    return [a for a in asked if a[1] != GATE]


def executable(path, text):
    path.write_text(text, encoding="utf-8")
    path.chmod(0o755)
    return path


def wrappers(folder):
    """A folder of commands that stand before the machine's own, where that is no x86-64."""
    folder.mkdir()
    if os.uname().machine != "x86_64":
        wrapped = executable(folder / "wrapped", WRAPPED)
        executable(folder / "gcc", GCC.format(wrapped=wrapped))
        executable(folder / "rt", RT.format(rt=shutil.which("rt"), wrapped=wrapped))
    return folder


def proved(clone):
    """The archive that was proved."""
    if (ROOT / "target" / "staticlib").is_dir():
        shutil.copytree(ROOT / "target" / "staticlib", clone / "target" / "staticlib", symlinks=True)


def run(asked, room):
    """Runs all blocks in one shell, and returns for each what it printed and its status."""
    clone, script = room / "clone", ["set +e", "git() { command git --no-pager \"$@\"; }"]
    subprocess.run(["git", "clone", "--quiet", str(ROOT), str(clone)], check=True)
    proved(clone)
    for i, (_, body, _) in enumerate(asked):
        script.append(f"{{\n{body}\n}} >{room}/{i}.said 2>&1 </dev/null\necho $? >{room}/{i}.status")
    env = {k: v for k, v in os.environ.items() if not k.startswith("HAVIROZAN_")}
    env["PATH"] = f"{wrappers(room / 'before')}:{env['PATH']}"
    subprocess.run(["bash", "--noprofile", "--norc", "-c", "\n".join(script)], cwd=clone, env=env, timeout=MOST_SECONDS, check=False)
    left = subprocess.run(["git", "status", "--porcelain"], cwd=clone, capture_output=True, text=True, check=True).stdout
    if left:
        errors.append(f"README.md: after its blocks the clone is not clean:\n{left.rstrip()}")
    read = lambda name: (room / name).read_text(encoding="utf-8", errors="replace") if (room / name).is_file() else None
    return [(read(f"{i}.said"), read(f"{i}.status")) for i in range(len(asked))]


def main():
    asked = commands(blocks((ROOT / "README.md").read_text(encoding="utf-8")))
    with tempfile.TemporaryDirectory(prefix="readme-") as room:
        results = run(asked, Path(room))
    for (number, body, owed), (said, status) in zip(asked, results):
        if status is None:
            errors.append(f"README.md:{number}: the shell did not come to the end of this block")
        elif owed is None and status.strip() != "0":
            errors.append(f"README.md:{number}: status {status.strip()}:\n{said.rstrip()}")
        elif owed is not None and said.rstrip() != owed.rstrip():
            errors.append(f"README.md:{number}: this is shown:\n{owed.rstrip()}\nand this was printed:\n{said.rstrip()}")
    print("\n".join(errors) if errors else f"readme: {len(asked)} blocks run in order, each prints what README shows, and the clone is clean")
    return 1 if errors else 0


sys.exit(main())
