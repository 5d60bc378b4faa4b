#!/usr/bin/env python3
"""Compares the pages with what they quote. Of README.md, CALLING.md, docs/ and the crates' pages:

- each block of Rattle code (```rust) stands in one source file of a crate: its items in order, each
  whole, but for their indentation, and all that the block imports is imported there;
- each definition (```antt) stands whole in a file of specs/, but for its line breaks;
- each block of C, Python or cargo's Rust (```c, ```python, ```rs) stands in one file of bindings/ or
  examples/, but for its indentation and the marks of a comment.

It prints a line for each page, and for each quotation that stands nowhere. The last line is
'N passed, M failed'.
"""
import os
import re
import sys
from glob import glob

IMPORT = re.compile(r"(pub )?(ghost )?use (?P<tree>[^;]*);")


def read(path):
    with open(path, encoding="utf-8") as file:
        return file.read()


def blocks(page, language):
    """The blocks of a page: the line that each begins at, and its text."""
    found = re.finditer(rf"^```{language}\n(.*?)^```$", page, re.M | re.S)
    return [(page.count("\n", 0, block.start()) + 1, block[1]) for block in found]


def unindented(text):
    return "\n".join(line.strip() for line in text.strip("\n").split("\n"))


def paths(tree, front=""):
    """The paths that a tree of imports names."""
    tree = tree.strip()
    group = re.fullmatch(r"(.*?)\{(.*)\}", tree, re.S)
    if not group:
        return {front + tree} if tree else set()
    found, part, depth = set(), "", 0
    for char in group[2] + ",":
        depth += (char == "{") - (char == "}")
        if char == "," and depth == 0:
            found |= paths(part, front + group[1])
            part = ""
        else:
            part += char
    return found


def imports(text):
    return {path for found in IMPORT.finditer(text) for path in paths(found["tree"])}


def items(block):
    """The items of a block, without its imports. An item begins after an empty line, in the first
    column."""
    rest = re.sub(rf"^{IMPORT.pattern}\n", "", block, flags=re.M)
    return [unindented(item) for item in re.split(r"\n\n+(?=[^\s}])", rest.strip("\n"))]


def stands(block, sources):
    """Whether one source has a block."""
    wanted, named = items(block), imports(block)
    for text, known in sources:
        at = 0
        for item in wanted:
            at = text.find(f"\n{item}\n", at) + 1
            if at == 0:
                break
        else:
            if named <= known:
                return True
    return False


def bare(text):
    """Lines without their indentation, and without the marks of a comment that is documentation, or of
    a line that it hides."""
    return "\n".join(re.sub(r"^(//!|///) ?(# )?", "", line.strip()).strip()
                     for line in text.replace("\\\\", "\\").strip("\n").split("\n"))


def definitions(text):
    """What begins in the first column, each on one line."""
    found = re.split(r"\n(?=\S)", text.strip("\n"))
    return [" ".join(each.split()) for each in found if each.strip() and not each.startswith("--")]


def faults(page, sources, known, programs):
    """The quotations of a page that stand nowhere, and how many there are in all."""
    code = blocks(page, "rust")
    wrong = [f"line {line}: in no crate" for line, block in code if not stands(block, sources)]
    count = len(code)
    for line, block in blocks(page, "antt"):
        quoted = definitions(block)
        wrong += [f"line {line}: in no specs/: {each}" for each in quoted if each not in known]
        count += len(quoted)
    for language, texts in programs.items():
        code = blocks(page, language)
        wrong += [f"line {line}: in no file of bindings/ or examples/" for line, block in code
                  if not any(f"\n{bare(block)}\n" in text for text in texts)]
        count += len(code)
    return wrong, count


def main():
    os.chdir(os.path.join(os.path.dirname(os.path.abspath(__file__)), ".."))
    texts = [read(path) for path in sorted(glob("crates/*/src/**/*.rt", recursive=True))]
    sources = [(f"\n{unindented(text)}\n", imports(text)) for text in texts]
    specs = [read(path) for path in glob("crates/*/specs/**/*.antt", recursive=True)]
    known = {each for text in specs for each in definitions(text)}
    programs = {language: [f"\n{bare(read(path))}\n" for top in ("bindings", "examples")
                           for path in sorted(glob(f"{top}/**/*.{end}", recursive=True))]
                for language, end in (("c", "c"), ("python", "py"), ("rs", "rs"))}
    passed = failed = 0
    pages = ["README.md", "CALLING.md"] + sorted(glob("docs/*.md") + glob("crates/*/README.md"))
    for name in pages:
        wrong, count = faults(read(name), sources, known, programs)
        for fault in wrong:
            print(f"FAILED {name}: {fault}")
        if count and not wrong:
            print(f"ok {name}: {count} quotations")
        passed += count > 0 and not wrong
        failed += len(wrong)
    print(f"{passed} passed, {failed} failed")
    sys.exit(failed > 0)


main()
