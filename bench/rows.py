#!/usr/bin/env python3
"""Times the rows of two builds by turns of less than a millisecond, in one process: WORD, as many
shared libraries of OLD, and as many of NEW. `bench/run rows OLD NEW [WORD]` builds them, each with its
functions in another order, and runs this.

It prints for each row NEW's time over OLD's (the geometric mean over the layouts), the standard error
of that, and for both the least and the most of a layout, over OLD's first. Where two builds answer
differently, it stops.
"""
import ctypes
import math
import statistics
import sys
import time

SLICE = 300_000  # nanoseconds
TURNS = 41


class Build:
    """A shared library, and the places of its rows by their names."""

    def __init__(self, path, word):
        library = ctypes.CDLL(path, mode=ctypes.RTLD_LOCAL)
        library.bench_make_rows.argtypes = [ctypes.c_char_p]
        library.bench_make_rows.restype = ctypes.c_size_t
        library.bench_row_name.argtypes = [ctypes.c_size_t]
        library.bench_row_name.restype = ctypes.c_char_p
        self.run = library.bench_run_row
        self.run.argtypes = [ctypes.c_size_t, ctypes.c_uint64]
        self.run.restype = ctypes.c_uint64
        count = library.bench_make_rows(word.encode())
        self.places = {library.bench_row_name(place).decode(): place for place in range(count)}

    def nanos(self, name, times):
        """The nanoseconds of so many runs, and what they answer."""
        place = self.places[name]
        begun = time.perf_counter_ns()
        answer = self.run(place, times)
        return time.perf_counter_ns() - begun, answer


def times_for(build, name):
    """How many runs take a slice."""
    times = 1
    while build.nanos(name, times)[0] < SLICE and times < 1 << 40:
        times *= 2
    return times


def ratios(builds, name):
    """The time of each build over that of the first: the median of all turns."""
    times = times_for(builds[0], name)
    if len({build.nanos(name, times)[1] for build in builds}) > 1:
        sys.exit(f"{name}: the answers differ")
    taken = [[] for _ in builds]
    for turn in range(TURNS):
        begin = turn * 5 % len(builds)
        places = [*range(begin, len(builds)), *range(begin)]
        for place in places if turn % 2 == 0 else reversed(places):
            taken[place].append(builds[place].nanos(name, times)[0])
    return [statistics.median(own / first for own, first in zip(each, taken[0])) for each in taken]


def compare(builds, name):
    """Prints a row's line, and answers the logarithm of its ratio."""
    found = ratios(builds, name)
    half = len(found) // 2
    sides = [[math.log(ratio) for ratio in side] for side in (found[:half], found[half:])]
    old, new = map(statistics.fmean, sides)
    errors = [statistics.stdev(side) / math.sqrt(half) if half > 1 else 0 for side in sides]
    ratio = math.exp(new - old)
    ends = " ".join(f"{math.exp(end):7.3f}" for side in sides for end in (min(side), max(side)))
    print(f"{name:<64} {ratio:7.3f} {ratio * math.hypot(*errors):7.3f} {ends}", flush=True)
    return new - old


def main(word, *paths):
    builds = [Build(path, word) for path in paths]
    names = [name for name in builds[0].places if all(name in build.places for build in builds)]
    print(f"{'workload':<64} {'new/old':>7} {'error':>7} {'old':>15} {'new':>15}")
    logs = [compare(builds, name) for name in names]
    if logs:
        print(f"geometric mean: {math.exp(statistics.fmean(logs)):.3f} of {len(logs)} rows")


if __name__ == "__main__":
    main(*sys.argv[1:])
