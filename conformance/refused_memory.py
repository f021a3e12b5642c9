#!/usr/bin/env python3
"""Refuses the program's allocations, one after the other, and looks at how it ends.

usage: refused_memory.py GD      GD is the program, e.g. crates/gd_command/out/gd_command

Each call below first runs with memory, and must give the answer that stands beside it. Then, for each allocation of
that run, it runs with that one alone refused, and with that one and all after it. It must answer as with memory, or end
with status 7 and have written the beginning of that answer. The allocations are refused by refuse_allocations.c, which
is loaded before the C library and is built here; without a C compiler nothing is tried. The last line is 'N passed, M
failed'.
"""
import os
import pathlib
import shutil
import subprocess
import sys
import tempfile
from typing import Dict, List, NamedTuple

import cases  # (it also finds program.py)
from program import Answer, Tally, named, project, run

NO_MEMORY = 7
HERE = pathlib.Path(__file__).resolve().parent


class Call(NamedTuple):
    words: List[str]
    # bytes by path
    files: Dict[str, bytes]
    # the answer with memory
    wanted: Answer


FORMS = """\
extends RefCounted
signal hit(damage: int)
enum State { IDLE, RUN = 4 }
var names: Array[String] = ["a", 'b']:
	set(value):
		names = value
	get:
		return names
class Base:
	func turn(left: int, by := 2) -> int: return left * by
class Wheel extends Base:
	func turn(left: int, by := 2) -> int:
		var counts: Dictionary[String, int] = {"k": 1, "m": 2} # twice
		for i in range(left):
			if i is int and not str(i) in counts:
				counts["k"] += (i as int) if by > 2 else -by ** 2
			elif super.turn(1) > 1: pass
		while counts["k"] > 0x1F: counts["k"] -= 1
		var event: Variant = left
		match event:
			1, 2 when by > 1: return 1
			[var first, ..]: return 2
			{"k": 1, ..}: return 3
			_: assert(left > 0, "no")
		return turn(left - 1)
"""
SYNTAX_FAULT = FORMS + "func test():\n\tvar x = = 2\n"
FAULTS = f"a.gd:{SYNTAX_FAULT.count(chr(10))}:10: error S01: syntax\nb.gd:2:10: error L07: float\n"
PRINTS = "func test():\n\tprint(42)\n\tpass\n\tprint(7)\n"
LINES = range(1, 301)
MANY_PRINTS = "func test():\n" + "".join(f"\tprint({number})\n" for number in LINES)
CIRCLE = cases.load(HERE / "check" / "variables-in-a-circle.case")
ROUNDS = cases.load(HERE / "run" / "rounds-of-release.case")
SIGNALS = cases.load(HERE / "run" / "one-shot-connections.case")
STORE = cases.load(HERE / "run" / "three-scripts-of-a-store.case")
SAMPLE = cases.load(HERE / "run" / "samples.case").runs[0]
USAGE = cases.load(HERE / "run" / "words.case").runs[0].wanted

CALLS = [
    Call(["check"], {"good.gd": FORMS.encode()}, Answer(0, b"")),
    Call(["check"], cases.load(HERE / "check" / "a-shop.case").files, Answer(0, b"")),
    Call(["check"], {"a.gd": SYNTAX_FAULT.encode(), "b.gd": b"func f():\n\tvar x = 1.5\n"}, Answer(1, FAULTS.encode())),
    *(Call(run.words, CIRCLE.files, run.wanted) for run in CIRCLE.runs),
    Call(["run", "main.gd"], {"main.gd": PRINTS.encode()}, Answer(0, b"42\n7\n")),
    Call(["run", "main.gd"], {"main.gd": MANY_PRINTS.encode()}, Answer(0, "".join(f"{it}\n" for it in LINES).encode())),
    *(Call(run.words, ROUNDS.files, run.wanted) for run in ROUNDS.runs[:2]),
    *(Call(run.words, SIGNALS.files, run.wanted) for run in SIGNALS.runs),
    *(Call(run.words, STORE.files, run.wanted) for run in STORE.runs),
    Call(SAMPLE.words, {}, SAMPLE.wanted),
    Call(["run"], {}, USAGE),
]


def under(program, words, folder, library, **settings):
    """The answer of a run under these settings of the library."""
    return run(program, words, folder, dict(os.environ, LD_PRELOAD=str(library), **settings))


def with_memory(program, words, folder, library):
    """The answer of a run with memory, and the number of its allocations."""
    with tempfile.TemporaryDirectory() as aside:
        count = pathlib.Path(aside, "count")
        whole = under(program, words, folder, library, COUNT_INTO=str(count))
        return whole, int(count.read_text()) if count.exists() else 0


def is_allowed(found, whole):
    """Whether this is the answer with memory, or its beginning and the status of want of memory."""
    return found == whole or found == Answer(NO_MEMORY, whole.output[:len(found.output)])


def try_call(program, call, library, tally):
    """Runs a call with memory, and with each of its allocations refused."""
    what = " ".join(call.words)
    with project(call.files) as folder:
        whole, number = with_memory(program, call.words, folder, library)
        tally.expect(whole == call.wanted, f"{what}, with memory: {whole}, where wanted is {call.wanted}")
        refused = 0
        for which in range(1, number + 1):
            for setting in ("REFUSE_ONE", "REFUSE_FROM"):
                found = under(program, call.words, folder, library, **{setting: str(which)})
                refused += found.status == NO_MEMORY
                tally.expect(is_allowed(found, whole), f"{what}, {setting}={which} of {number}: {found} for {whole}")
    tally.expect(refused > 0, f"{what}: no run of {number} allocations ended for want of memory")


def main():
    program, tally = named(sys.argv[1]), Tally()
    compiler = shutil.which("cc") or shutil.which("gcc")
    if compiler is None:
        print("refused memory: skipped, since there is no C compiler")
        return
    with tempfile.TemporaryDirectory() as folder:
        library = pathlib.Path(folder, "refuse_allocations.so")
        source = HERE / "refuse_allocations.c"
        subprocess.run([compiler, "-shared", "-fPIC", "-O1", "-o", str(library), str(source)], check=True)
        for call in CALLS:
            try_call(program, call, library, tally)
    tally.end()


if __name__ == "__main__":
    main()
