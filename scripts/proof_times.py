#!/usr/bin/env python3
"""Prints what each function of a crate took to prove, by stages: the seconds between the times at
which the files of the kept work were written. It says something of a crate that was proved from
nothing at one job:

    cd crates/NAME && rm -rf out/incremental && rt check --jobs 1
    scripts/proof_times.py NAME [COUNT]

prints the COUNT dearest functions, 40 where none is given. The lines of `rt check --progress` don't
say it: they charge a function with what its callers begin before it ends.

Of the stages, `Lts` is the function's code with its ways, `Tie` the types that it is used at, `Proof`
and `Answers` the search and what proof files have.
"""
import collections
import os
import re
import sys

STAGES = "Lts Tie Proof Answers Invariants Reads Kinds Statement Layout Met Named".split()


def written(crate):
    """The kept files of a crate with the times at which they were written, in that order."""
    kept = f"crates/{crate}/out/incremental"
    folders = [f"{kept}/{it}" for it in os.listdir(kept)]
    folder = max(folders, key=lambda it: len(os.listdir(it)))
    files = [it for it in os.listdir(folder) if it.endswith(".oantt")]
    return sorted((os.stat(f"{folder}/{it}").st_mtime, it) for it in files)


def owner(file):
    """The function and the stage of a file; other files count together."""
    found = re.match(rf"Rattle-\w+-proofs\.(.*)\.({'|'.join(STAGES)})\.oantt$", file)
    return (found[1], found[2]) if found else ("(definitions, contracts and types)", "all")


def main(words):
    if not words or words[0] in ("-h", "--help"):
        print(__doc__)
        return 0 if words else 1
    os.chdir(os.path.join(os.path.dirname(os.path.abspath(__file__)), ".."))
    files = written(words[0])
    stages = collections.defaultdict(collections.Counter)
    for (before, _), (time, file) in zip(files, files[1:]):
        function, stage = owner(file)
        stages[function][stage] += time - before
    count = int(words[1]) if len(words) > 1 else 40
    dearest = sorted(stages, key=lambda it: -stages[it].total())[:count]
    for function in dearest:
        parts = " ".join(f"{it} {s:.1f}" for it, s in stages[function].most_common(4))
        print(f"{stages[function].total():8.1f}  {function}  {parts}")
    print(f"{files[-1][0] - files[0][0]:8.1f}  all")
    return 0


if __name__ == "__main__":
    sys.exit(main(sys.argv[1:]))
