#!/usr/bin/env python3
"""Prints the instructions an item of each row whose name holds the word, and of the same in Rust, or
of what the row's name says, as callgrind counts them. `bench/run instructions [WORD]` builds the
driver, which this runs.
"""

import pathlib
import subprocess
import sys
import tempfile

DRIVER = pathlib.Path(__file__).parent / "out" / "driver"
TRIGGER = "desc: Trigger: Client Request: "


def counts(folder):
    """The counts that callgrind wrote: of each side and row, by how many items they have more."""
    found = {}
    for file in sorted(folder.iterdir()):
        name, total = None, None
        with file.open() as lines:
            for line in lines:
                if line.startswith(TRIGGER):
                    name = line.removeprefix(TRIGGER).strip().split("\t")
                elif line.startswith("summary:"):
                    total = int(line.split()[1])
                elif line.startswith("fn="):
                    break
        if name and total is not None:
            side, row, items = name
            found.setdefault((row, side), {})[int(items)] = total
    return found


def main(word=""):
    with tempfile.TemporaryDirectory() as folder:
        subprocess.run(
            ["valgrind", "--tool=callgrind", f"--callgrind-out-file={folder}/counts", DRIVER,
             "instructions", word],
            check=True, stderr=subprocess.DEVNULL,
        )
        found = counts(pathlib.Path(folder))
    each = {}
    for (row, side), of in found.items():
        more = max(of)
        each.setdefault(row, {})[side] = (of[more] - of[0]) / more
    print(f"{'workload':<64} {'own':>10} {'Rust':>10} {'beside':>10} {'ratio':>6}")
    for row, sides in each.items():
        other = sides.get("Rust", sides.get("beside"))
        shown = [f"{sides[side]:.1f}" if side in sides else "" for side in ("own", "Rust", "beside")]
        ratio = sides["own"] / other if other else float("nan")
        print(f"{row:<64} {shown[0]:>10} {shown[1]:>10} {shown[2]:>10} {ratio:>6.2f}")


if __name__ == "__main__":
    main(*sys.argv[1:])
