#!/usr/bin/env python3
"""Prints how large the pages, the clauses and the proofs are: the words of README.md, CALLING.md,
docs/ and the crates' pages; of each crate its lines of source and of proofs (without the
definitions of specs/), and how many of its clauses there are, and how many of them have more than
200 characters.

    scripts/sizes.py
"""
import os
import re
import sys
from glob import glob

LONGEST = 200
CLAUSE = re.compile(r"\b(ensures|requires)\b[^{\n]*\{")


def read(path):
    with open(path, encoding="utf-8") as file:
        return file.read()


def words(pattern):
    return sum(len(read(path).split()) for path in glob(pattern))


def lines(folder, ending):
    found = glob(f"{folder}/**/*.{ending}", recursive=True)
    return sum(len(read(path).splitlines()) for path in found)


def clauses(text):
    """The clauses of a source, each on one line."""
    for found in CLAUSE.finditer(text):
        end, depth = found.end(), 1
        while depth and end < len(text):
            depth += (text[end] == "{") - (text[end] == "}")
            end += 1
        yield " ".join(text[found.start() : end].split())


def main():
    pages = {"README.md": words("README.md"), "CALLING.md": words("CALLING.md")}
    for path in sorted(glob("docs/*.md")):
        pages[path] = words(path)
    print("| page | words |\n|---|---|")
    for page, count in pages.items():
        print(f"| {page} | {count} |")
    print(f"| together | {sum(pages.values())} |")
    print(f"| crates' pages | {words('crates/*/README.md')} |\n")

    print("| crate | source | proofs | a line | clauses | long |\n|---|---|---|---|---|---|")
    every = long = 0
    for crate in sorted(os.path.basename(path) for path in glob("crates/*")):
        source, proofs = lines(f"crates/{crate}/src", "rt"), lines(f"crates/{crate}/proofs", "antt")
        sizes = [
            len(clause)
            for path in glob(f"crates/{crate}/src/**/*.rt", recursive=True)
            for clause in clauses(read(path))
        ]
        above = sum(size > LONGEST for size in sizes)
        every, long = every + len(sizes), long + above
        ratio = proofs / max(source, 1)
        print(f"| `{crate}` | {source} | {proofs} | {ratio:.1f} | {len(sizes)} | {above} |")
    print(f"| all | | | | {every} | {long} |")


if __name__ == "__main__":
    if len(sys.argv) > 1:
        sys.exit(__doc__.strip())
    os.chdir(os.path.join(os.path.dirname(os.path.abspath(__file__)), ".."))
    main()
