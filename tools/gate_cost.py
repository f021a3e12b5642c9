#!/usr/bin/env python3
"""Prints what the gate costs, from nothing: the processor minutes of each crate's proof, tests and must-fail edits.

usage: tools/gate_cost.py [--jobs N] [NAME..]      NAME: a crate, measured with those below it; none: every crate
                                                   --jobs: the jobs of each proof, 1 if left out

`rt ci` proves from nothing what no earlier run passed on the machine, tells no times, and works on several crates at
once. So this takes a copy of crates/, which holds nothing that was kept, and does there what the gate does, crate by
crate, lowest first:

    proof    rt lib, or rt check for a program, over the libraries below, which are built by then
    tests    rt test, begun from nothing, since the gate proves a crate's tests apart from the crate
    edits    rt must-fail --anew

Each figure is the processor time, the user's and the system's, of that command and of all that it started. rt lends
the work that it kept in one copy of the repository to others on the machine. To keep that out, each crate in this copy
has a line of comment that no other has; where a command still begins with kept work or proves nothing, its figure has a
`*` and is too low. The gate's own figures may be a little lower, since the libraries that it builds hold no proofs.

At --jobs 1 proofs and tests take about as many minutes as the table says, and the edits use all processors. This judges
nothing: the gate is `rt ci`.
"""
import argparse
import pathlib
import re
import resource
import shutil
import subprocess
import sys
import tempfile
import time
from typing import NamedTuple

import crates
from program import ROOT

PARTS = ("proof", "tests", "edits")
TEST = re.compile(r"#\s*\[[^]]*\btest\b")
PROVED = re.compile(r"^logic=proved ", re.M)
LENT = "begins with what a check kept in"


class Cost(NamedTuple):
    """Processor minutes, and whether all was done from nothing."""

    minutes: float
    is_whole: bool = True

    def __add__(self, other):
        return Cost(self.minutes + other.minutes, self.is_whole and other.is_whole)

    def __str__(self):
        return f"{self.minutes:.2f}{' ' if self.is_whole else '*'}"


NOTHING = Cost(0.0)


class Failed(Exception):
    """A command did not pass, so there is nothing to measure."""


def spent():
    """The processor seconds of all commands that have ended."""
    used = resource.getrusage(resource.RUSAGE_CHILDREN)
    return used.ru_utime + used.ru_stime


def measured(folder, *words):
    """What an rt command in this folder costs, and what it prints."""
    before = spent()
    how = {"stdin": subprocess.DEVNULL, "stdout": subprocess.PIPE, "stderr": subprocess.STDOUT}
    ran = subprocess.run(["rt", *words], cwd=folder, text=True, errors="replace", **how)
    if ran.returncode:
        told = ran.stdout[-2000:]
        raise Failed(f"rt {' '.join(words)} in {folder.name} ended with status {ran.returncode}:\n{told}")
    return Cost((spent() - before) / 60, LENT not in ran.stdout), ran.stdout


def proved(folder, *words):
    """What an rt command costs that is to prove something."""
    cost, said = measured(folder, *words)
    return cost if PROVED.search(said) else Cost(cost.minutes, False)


def forget(folder):
    """Removes what checks of a crate kept, but for its library. An empty folder there keeps other copies' work out."""
    kept = folder / "out" / "incremental"
    shutil.rmtree(kept, ignore_errors=True)
    kept.mkdir(parents=True)


def has_tests(folder):
    return any(TEST.search(file.read_text(encoding="utf-8")) for file in (folder / "src").rglob("*.rt"))


def costs_of(folder, jobs):
    """What the parts of the gate cost for the crate in this folder."""
    is_program = (folder / "src" / "main.rt").is_file()
    forget(folder)
    proof = proved(folder, "check" if is_program else "lib", *jobs)
    forget(folder)
    tests = proved(folder, "test", *jobs) if has_tests(folder) else NOTHING
    forget(folder)
    has_edits = any((folder / "must-fail").glob("*.edit"))
    edits = measured(folder.parent.parent, "must-fail", "--anew", folder.name)[0] if has_edits else NOTHING
    return proof, tests, edits


def copied(place):
    """A copy of the repository's crates, each with a line of comment that no other copy has."""
    shutil.copytree(ROOT / "crates", place / "crates", ignore=shutil.ignore_patterns("out", "*.log"))
    for name in ("crates.txt", "HANDLES"):
        shutil.copy(ROOT / name, place / name)
    for root_file in [*place.glob("crates/*/src/lib.rt"), *place.glob("crates/*/src/main.rt")]:
        with open(root_file, "a", encoding="utf-8") as file:
            file.write(f"\n// A copy to be measured: {place.name} at {time.time()}.\n")


def row(name, costs, width):
    return f"{name:<{width}}" + "".join(f"{str(it):>9}" for it in [*costs, sum(costs, NOTHING)])


def arguments(cited):
    parser = argparse.ArgumentParser(description=__doc__, formatter_class=argparse.RawDescriptionHelpFormatter)
    parser.add_argument("--jobs", metavar="N", type=int, default=1)
    parser.add_argument("names", metavar="NAME", nargs="*")
    given = parser.parse_args()
    unknown = [name for name in given.names if name not in cited]
    if unknown:
        parser.error(f"crates.txt names no crate {unknown[0]}")
    return given


def main():
    cited = crates.read()
    given = arguments(cited)
    wanted = {it for name in given.names or cited for it in [*crates.below(cited, name), name]}
    width = max(map(len, [*wanted, "crate"])) + 1
    total = [NOTHING] * len(PARTS)
    print(f"{'crate':<{width}}" + "".join(f"{part:>8} " for part in [*PARTS, "total"]), flush=True)
    with tempfile.TemporaryDirectory(prefix="gate-cost-") as place:
        copied(pathlib.Path(place))
        for name in crates.lowest_first(cited, wanted):
            costs = costs_of(pathlib.Path(place, "crates", name), ["--jobs", str(given.jobs)])
            total = [sum(pair, NOTHING) for pair in zip(total, costs)]
            print(row(name, costs, width), flush=True)
    print(row("sum", total, width))
    if not all(cost.is_whole for cost in total):
        print("* not from nothing: rt took work that another copy of the repository kept")


if __name__ == "__main__":
    try:
        main()
    except Failed as error:
        sys.exit(str(error))
