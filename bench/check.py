#!/usr/bin/env python3
"""Times `check` of the built program.

usage: bench/check.py [GD] [--hostile]      GD is the program, by default crates/gd_command/out/gd_command

First ordinary scripts of 0.5 to 4 MiB, beside the speed at which this Python parses the same, written in Python; then
projects of classes as games have them, with their peak memory; and with --hostile the shapes of projects.py that a careless
table or walk would be slow on, each against ordinary code of the same size. Wanted: at least 8 MiB a second on one core with all
rules, a time that grows as the size does (at most 2.3 times for twice the size), at most 120 bytes for each byte of source,
and for each of the shapes at most three times the time of ordinary code.
"""
import ast
import pathlib
import re
import subprocess
import sys
import time

sys.path.insert(0, str(pathlib.Path(__file__).resolve().parent.parent / "tools"))
from program import BUILT, named, project, run
from projects import HOSTILE, MIB, game, ordinary

SIZES = [MIB // 2, MIB, 2 * MIB, 4 * MIB]
RUNS = 5
SPEED, GROWTH, MEMORY, SHAPE = 8.0, 2.3, 120, 3.0

# What a line of the ordinary scripts is in Python.
IN_PYTHON = [
    (r"^extends .*$", "import os"),
    (r"^const ", ""),
    (r"\bvar (\w+) :=", r"\1 ="),
    (r"\bvar (\w+):", r"\1:"),
    (r"^func ", "def "),
    (r"^(\t\t)(0, 1|_):$", lambda line: f"{line[1]}case {line[2].replace(',', ' |')}:"),
    (r"\bfalse\b", "False"),
]


def in_python(text):
    """The same script in Python."""
    for pattern, written in IN_PYTHON:
        text = re.sub(pattern, written, text, flags=re.MULTILINE)
    return text


def least_time(call):
    """The least time of a few calls, in seconds."""
    times = []
    for _ in range(RUNS):
        start = time.perf_counter()
        call()
        times.append(time.perf_counter() - start)
    return min(times)


def size_of(files):
    """The bytes of these files together."""
    return sum(map(len, files.values()))


def timed(program, files, status=0):
    """The least time of a check of these files, which must end with this status."""

    def check(folder):
        found = run(program, ["check"], folder)
        if found.status != status or (status == 0 and found.output):
            sys.exit(f"check answered {found}")

    with project(files) as folder:
        return least_time(lambda: check(folder))


def peak(program, files):
    """The most memory that a check of these files holds, in bytes."""
    with project(files) as folder:
        code = (
            "import resource, subprocess, sys\n"
            "subprocess.run(sys.argv[1:], stdout=subprocess.DEVNULL)\n"
            "print(resource.getrusage(resource.RUSAGE_CHILDREN).ru_maxrss)\n"
        )
        told = subprocess.run([sys.executable, "-c", code, str(program), "check"], cwd=folder, capture_output=True, text=True)
        return int(told.stdout) * 1024


def by_size(program, kind, projects):
    """Prints the speed at each size, and how the time grows."""
    before = None
    for size in SIZES:
        files = projects(size)
        took, much = timed(program, files), size_of(files)
        speed = much / MIB / took
        grown = f", {took / before:.2f} times the time of half the size" if before else ""
        missed = " (wanted: 8)" if speed < SPEED else ""
        missed += f" (wanted: {GROWTH})" if before and took > GROWTH * before else ""
        print(f"{kind}, {much / MIB:.2f} MiB: {took * 1000:.1f} ms, {speed:.1f} MiB/s{grown}{missed}")
        before = took
    return speed


def parsed_by_python(files):
    """The MiB a second at which Python parses these scripts, written in Python."""
    texts = [in_python(data.decode()) for data in files.values()]
    took = least_time(lambda: [ast.parse(text) for text in texts])
    return sum(len(text.encode()) for text in texts) / MIB / took


def hostile(program):
    """Prints the time of each shape against that of ordinary code of the same size."""
    for name, made in HOSTILE.items():
        files = made()
        much = size_of(files)
        took = timed(program, files, 1 if "diagnostics" in name else 0)
        ordinary_time = timed(program, {"main.gd": list(ordinary(MIB // 4).values())[0]}) * much / (MIB // 4)
        missed = f" (wanted: {SHAPE:.0f})" if took > SHAPE * ordinary_time else ""
        print(f"{name}, {much / MIB:.2f} MiB: {took * 1000:.1f} ms, {took / ordinary_time:.2f} times ordinary code{missed}")


def main():
    words = [word for word in sys.argv[1:] if word != "--hostile"]
    program = named(words[0] if words else BUILT)
    speed = by_size(program, "ordinary functions", ordinary)
    python = parsed_by_python(ordinary(SIZES[0]))
    print(f"Python {sys.version.split()[0]} parses the same in Python (ast.parse) at {python:.1f} MiB/s:"
          f" check, at the last size, is {speed / python:.1f} times as fast")
    by_size(program, "classes of a game", game)
    files = game(SIZES[-1])
    bytes_each = peak(program, files) / size_of(files)
    print(f"peak memory at the last size: {bytes_each:.0f} bytes for each byte of source"
          + (f" (wanted: {MEMORY})" if bytes_each > MEMORY else ""))
    if "--hostile" in sys.argv:
        hostile(program)


if __name__ == "__main__":
    main()
