#!/usr/bin/env python3
"""Applies each wrong body to the sources, those beside the gate too: a `file:` line names a file of
the crate, and each `old:` text stands in it exactly once, where those before it are applied. Its own
file is MODULE.NAME.edit, MODULE.rt (or .antt) being a file that it changes. It prints a line for each
crate whose edits all are such, and for each edit that isn't. Then it looks for each edit that a table
of docs/PLANTED.md names, as CRATE/MODULE.NAME, among those that the gate tries, for each test, as
CRATE::NAME, in the sources, and for each script. The last line is 'N passed, M failed'.
"""
import os
import re
import sys
from glob import glob


def fault_of(edit, crate):
    """Why an edit can't be applied to a crate, or None."""
    texts, path, old, pairs = {}, None, None, 0
    named = re.fullmatch(r"(\w+)\.\w+\.edit", os.path.basename(edit))
    if not named:
        return "its file isn't MODULE.NAME.edit"
    with open(edit, encoding="utf-8") as file:
        lines = file.read().split("\n")
    for line in lines:
        if line.startswith("file: "):
            path = f"crates/{crate}/{line[len('file: ') :].strip()}"
            if not os.path.isfile(path):
                return f"there is no {path}"
            if path not in texts:
                with open(path, encoding="utf-8") as file:
                    texts[path] = file.read()
        elif line.startswith("old: "):
            old = line[len("old: ") :]
        elif line.startswith("new:"):
            if path is None or not old:
                return "a 'new:' line has no 'file:' or 'old:' line before it"
            times = texts[path].count(old)
            if times != 1:
                return f"stands {times} times in {path}: {old}"
            texts[path] = texts[path].replace(old, line[len("new:") :].removeprefix(" "))
            old, pairs = None, pairs + 1
        elif line:
            return f"a line that isn't understood: {line}"
    if old is not None or pairs == 0:
        return "it has no 'old:' and 'new:' pair, or half of one"
    if named[1] not in {os.path.splitext(os.path.basename(it))[0] for it in texts}:
        return f"it changes no file {named[1]}.rt"
    return None


def named_in_tables():
    """What the tables of docs/PLANTED.md name: edits, tests, scripts, each with whether it is there."""
    with open("docs/PLANTED.md", encoding="utf-8") as file:
        rows = [line for line in file if line.startswith("|")]
    for row in rows:
        for folder, name in re.findall(r"`(\w+)/(\w+\.\w+)`", row):
            path = f"crates/{folder}/must-fail/{name}.edit"
            if folder == "scripts":
                path = f"scripts/{name}"
            yield f"{folder}/{name}", os.path.isfile(path)
        for crate, test in re.findall(r"`(\w+)::(\w+)`", row):
            sources = glob(f"crates/{crate}/src/**/*.rt", recursive=True)
            yield f"{crate}::{test}", any(f"fn {test}(" in open(it).read() for it in sources)


def main():
    os.chdir(os.path.join(os.path.dirname(os.path.abspath(__file__)), ".."))
    faults = {}
    for edit in sorted(glob("crates/*/must-fail/*.edit") + glob("wrong-bodies/*/*.edit")):
        crate = edit.split("/")[1]
        faults.setdefault(crate, []).append((edit, fault_of(edit, crate)))
    passed = failed = 0
    for crate, tried in sorted(faults.items()):
        wrong = [(edit, fault) for edit, fault in tried if fault is not None]
        for edit, fault in wrong:
            print(f"FAILED {edit}: {fault}")
        if not wrong:
            print(f"ok the {len(tried)} edits of {crate}")
        passed += not wrong
        failed += len(wrong)
    named = dict(named_in_tables())
    missing = [it for it, is_there in named.items() if not is_there]
    for it in missing:
        print(f"FAILED docs/PLANTED.md: {it} isn't in the gate")
    if not named:
        print("FAILED docs/PLANTED.md: no table names an edit or a test")
    elif not missing:
        print(f"ok the {len(named)} edits, tests and scripts that the tables of docs/PLANTED.md name")
    passed += bool(named) and not missing
    failed += len(missing) + (not named)
    print(f"{passed} passed, {failed} failed")
    sys.exit(failed > 0)


main()
