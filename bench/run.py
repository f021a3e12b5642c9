#!/usr/bin/env python3
"""Times `run` of the built program beside other languages.

usage: bench/run.py [GD] [--rounds N] [--only WORK]     GD is the program, by default crates/gd_command/out/gd_command

Each work of peers/ is one program in GDScript, in Lua 5.4 and in Python, which print the same line. They are run one
after the other, N times (5 by default), and of each the least time is taken, from its start to its end; a row has these
times in seconds and gd's over each other one's (below 1: gd is faster). What is not installed is left out. Then come a run
that prints many lines, and the memory of runs that print a few and many: it must not grow with the output. The machine's
load stands above all.
"""
import argparse
import os
import pathlib
import re
import shutil
import subprocess
import sys
import time

sys.path.insert(0, str(pathlib.Path(__file__).resolve().parent.parent / "tools"))
from program import BUILT, named, project

PEERS = pathlib.Path(__file__).resolve().parent / "peers"
TURNS = "1000000000"
LINES = 300_000
# A run that prints so many times as much may hold so much more memory, in bytes.
MORE_MEMORY = 1024 * 1024


def arguments():
    parser = argparse.ArgumentParser(description=__doc__, formatter_class=argparse.RawDescriptionHelpFormatter)
    parser.add_argument("program", metavar="GD", nargs="?", default=str(BUILT))
    parser.add_argument("--rounds", metavar="N", type=int, default=5)
    parser.add_argument("--only", metavar="WORK", default="")
    return parser.parse_args()


def languages(program):
    """The calls of each language that is there, by the ending of its files."""
    lua = shutil.which("lua5.4")
    calls = {"gd": [str(program), "run"], "lua": [lua] if lua else None, "py": [sys.executable]}
    return {ending: call for ending, call in calls.items() if call}


def ended(words, folder):
    """The time of a call, in seconds, and what it printed. Stops where it fails."""
    start = time.perf_counter()
    done = subprocess.run(words, cwd=folder, stdin=subprocess.DEVNULL, stdout=subprocess.PIPE)
    took = time.perf_counter() - start
    if done.returncode:
        sys.exit(f"{' '.join(words)}: status {done.returncode}, {done.stdout[-200:]!r}")
    return took, done.stdout


def least_times(calls, work, rounds):
    """The least time of each language for this work, and what each printed."""
    times, printed = {}, {}
    files = {f"main.{ending}": (PEERS / f"{work}.{ending}").read_bytes() for ending in calls}
    with project(files) as folder:
        for _ in range(rounds):
            for ending, call in calls.items():
                options = ["--turns", TURNS] if ending == "gd" else []
                took, printed[ending] = ended([*call, f"main.{ending}", *options], folder)
                times[ending] = min(took, times.get(ending, took))
    return times, printed


def row(work, calls, rounds):
    """The row of a work, and whether all languages printed the same numbers and words."""
    times, printed = least_times(calls, work, rounds)
    seconds = "".join(f"{times[it]:9.3f}" for it in calls)
    ratios = "".join(f"{times['gd'] / times[it]:9.2f}" for it in calls if it != "gd")
    agree = len({tuple(re.findall(rb"\S+", text)) for text in printed.values()}) == 1
    return f"{work:10}{seconds}{ratios}", agree


def lines_script(lines):
    return {"main.gd": f"func test():\n\tfor n in {lines}:\n\t\tprint(n, \" is a line\")\n".encode()}


def peak(program, lines):
    """The most memory that a run with so many lines holds, in bytes."""
    code = (
        "import resource, subprocess, sys\n"
        "subprocess.run(sys.argv[1:], stdout=subprocess.DEVNULL)\n"
        "print(resource.getrusage(resource.RUSAGE_CHILDREN).ru_maxrss)\n"
    )
    with project(lines_script(lines)) as folder:
        words = [sys.executable, "-c", code, str(program), "run", "main.gd", "--turns", TURNS]
        return int(ended(words, folder)[1]) * 1024


def try_output(program):
    """Times many lines, and says whether memory stays as it is with a few."""
    with project(lines_script(LINES)) as folder:
        took, printed = ended([str(program), "run", "main.gd"], folder)
    print(f"output: {LINES / took / 1e6:.2f} million lines a second, {len(printed) / took / 2**20:.1f} MiB a second")
    few, many = peak(program, LINES // 100), peak(program, LINES)
    print(f"memory: {few / 2**20:.1f} MiB for {LINES // 100} lines, {many / 2**20:.1f} MiB for {LINES}")
    return many - few <= MORE_MEMORY


def main():
    given = arguments()
    program = named(given.program)
    calls = languages(program)
    works = sorted(path.stem for path in PEERS.glob("*.gd") if given.only in path.stem)
    load, processors = os.getloadavg()[0], os.cpu_count()
    print(f"load {load:.1f} on {processors} processors; the least of {given.rounds} times, in seconds")
    heads = [*calls, *(f"gd/{it}" for it in calls if it != "gd")]
    print(f"{'work':10}{''.join(f'{head:>9}' for head in heads)}")
    failed = []
    for work in works:
        line, agree = row(work, calls, given.rounds)
        print(line, flush=True)
        failed += [] if agree else [f"{work}: the answers differ"]
    if not try_output(program):
        failed.append("the memory of a run grows with what it prints")
    sys.exit("\n".join(failed) if failed else 0)


if __name__ == "__main__":
    main()
