#!/usr/bin/env python3
"""Times the jobs of bench/workloads.txt in two built checkouts, by turns: OLD NEW [SEED].

Each line of the file is NAME CRATE WORD..: the program crates/CRATE/out/CRATE is run with these
words in the folder bench/ of its checkout, and OLD and NEW begin by turns; SEED stands for the
seed, and a last word <FILE for the standard input. It stops where two outputs of a job differ, and
prints both medians of the seconds, and OLD's over NEW's. A job whose program one of both lacks is
passed over, and named.
"""
import os
import statistics
import subprocess
import sys
import time

TURNS = 7


def jobs(path, seed):
    with open(path, encoding="utf-8") as file:
        for line in file:
            if line.strip():
                name, crate, *words = line.split()
                yield name, crate, [str(seed) if word == "SEED" else word for word in words]


def program_of(top, crate):
    return os.path.join(top, "crates", crate, "out", crate)


def start(program, folder, words, output):
    """Starts a program in a folder, which prints to this file or pipe."""
    source = subprocess.DEVNULL
    if words and words[-1].startswith("<"):
        source = open(os.path.join(folder, words[-1][1:]), "rb")
        words = words[:-1]
    return subprocess.Popen([program, *words], cwd=folder, stdin=source, stdout=output)


def run(program, folder, words):
    """The seconds that a program takes in a folder, and what it prints."""
    begun = time.perf_counter()
    process = start(program, folder, words, subprocess.PIPE)
    output, _ = process.communicate()
    if process.returncode != 0:
        sys.exit(f"{program} fails")
    return time.perf_counter() - begun, output


def main():
    if len(sys.argv) not in (3, 4):
        sys.exit("bench/run OLD NEW [SEED]")
    tops = [os.path.abspath(top) for top in sys.argv[1:3]]
    seed = int(sys.argv[3]) if len(sys.argv) == 4 else 1
    here = os.path.dirname(os.path.abspath(__file__))
    print(f"{'job':<12} {'old, s':>8} {'new, s':>8} {'old/new':>8}")
    for name, crate, words in jobs(os.path.join(here, "workloads.txt"), seed):
        lacking = [top for top in tops if not os.path.isfile(program_of(top, crate))]
        if lacking:
            print(f"{name:<12} passed over: no {crate} in {', '.join(lacking)}", flush=True)
            continue
        times = ([], [])
        outputs = set()
        for turn in range(TURNS):
            # The one that begins has the caches as the other left them.
            pairs = list(zip(tops, times))
            for top, taken in pairs if turn % 2 == 0 else reversed(pairs):
                folder = os.path.join(top, "bench")
                seconds, output = run(program_of(top, crate), folder, words)
                taken.append(seconds)
                outputs.add(output)
                if len(outputs) > 1:
                    sys.exit(f"{name}: the outputs differ")
        old, new = map(statistics.median, times)
        print(f"{name:<12} {old:8.3f} {new:8.3f} {old / new:8.2f}", flush=True)


if __name__ == "__main__":
    main()
