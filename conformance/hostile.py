#!/usr/bin/env python3
"""Checks inputs that no case file can hold well.

usage: hostile.py GD      GD is the program, e.g. crates/gd_command/out/gd_command

- Each prefix of the script below, as a project by itself. What is known of its answer is wanted: it is clean where the
  tokens of its last line are whole and open nothing, and faulty where it ends inside a string, inside brackets, or
  behind a mark that ends no script. Any other prefix is clean or has one diagnostic. No fault stands before the last
  token of a prefix.
- A script of 1,048,577 bytes is too large, and one of 1,048,576 bytes is read.
- 1,025 scripts are too many.
- The runs of hostile_runs.py end as they should.
The last line is 'N passed, M failed'.
"""
import pathlib
import re
import sys
from typing import NamedTuple, Optional

sys.path.insert(0, str(pathlib.Path(__file__).resolve().parent.parent / "tools"))
from hostile_runs import RUNS
from program import Answer, Tally, answer, named

MIB = 1024 * 1024
DIAGNOSTIC = re.compile(rb"main\.gd:([0-9]+):([0-9]+): error [A-Z][0-9]+: [^\n]+\n")
CLEAN = Answer(0, b"")

# A script without a fault ends behind each of its lines that opens no block and no bracket.
SCRIPT = """\
class_name Store
signal changed(title: String, count: int)
const MAX := 99
enum Kind { TOOL, FOOD = 5, GEM }
var title: String = "rope"
var counts := {"rope": 3, 'bread': MAX}
var kinds: Array[int] = [1, 0x1F,
	Kind.GEM]
var level := 1:
	set(value):
		level = clamp(value, 0, MAX)
static func tell(n: int) -> void: print(n * 2)
func half(n: int): return n / 2
func add(what: String, n := 1):
	if counts.has(what) and n > 0:
		counts[what] += n # more of it
	else:
		counts[what] = n
	changed.emit(what, n)
func test():
	for n in range(3):
		add("item (%d]" % n, n)
	match counts.size():
		0: print("empty")
		2, 3: print('few "of" them')
		_: print("many")
	print(half(MAX), " ", counts, kinds, level)
"""
# No script ends in one of these.
UNENDED = tuple(":=,.+-*/%<>([{&|^@$")
# A token or a part of one, or what stands between tokens. (No string of the script has an escape.)
PIECE = re.compile(r"""#[^\n]*|"[^"]*"?|'[^']*'?|\w+|\s|.""", re.S)
# What may follow the last token of a line.
LINE_END = re.compile(r"[ \t]*(#[^\n]*)?\n")


class Known(NamedTuple):
    """What is known of the answer to a prefix."""

    # the status, or none where either may come
    status: Optional[int]
    # the line and the column before which no fault stands
    least: tuple
    # the whole answer, where it is known
    answer: Optional[Answer] = None


def place(text, offset):
    """The line and the column of a character."""
    return text.count("\n", 0, offset) + 1, offset - (text.rfind("\n", 0, offset) + 1) + 1


def known(length):
    """What is known of the answer to the prefix of the script with this length."""
    prefix = SCRIPT[:length]
    tokens = [it for it in PIECE.finditer(prefix) if not it[0].isspace() and not it[0].startswith("#")]
    if not tokens:
        return Known(0, (1, 1), CLEAN)
    last = tokens[-1]
    line, column = least = place(prefix, last.start())
    quote = last[0][0]
    if quote in "\"'" and (len(last[0]) == 1 or last[0][-1] != quote):
        found = f"main.gd:{line}:{column}: error L04: unterminated string\n"
        return Known(1, least, Answer(1, found.encode()))
    open_brackets = sum((it[0] in "([{") - (it[0] in ")]}") for it in tokens)
    if open_brackets or last[0].endswith(UNENDED):
        return Known(1, least)
    if LINE_END.match(SCRIPT, last.end()):
        return Known(0, least, CLEAN)
    return Known(None, least)


def fits(found, wanted):
    """Whether an answer is one that is known to be right, or may be."""
    if wanted.answer is not None:
        return found == wanted.answer
    if wanted.status is None and found == CLEAN:
        return True
    diagnostic = DIAGNOSTIC.fullmatch(found.output)
    is_placed = diagnostic is not None and (int(diagnostic[1]), int(diagnostic[2])) >= wanted.least
    return is_placed and found.status == 1 and not found.complaint


def try_prefixes(program, tally):
    """Checks each prefix of the script, and says of how many the status is known."""
    counts = {0: 0, 1: 0, None: 0}
    for length in range(len(SCRIPT) + 1):
        wanted = known(length)
        counts[wanted.status] += 1
        found = answer(program, ["check"], {"main.gd": SCRIPT[:length].encode()})
        tally.expect(fits(found, wanted), f"the first {length} characters: {found}, where known is {wanted}")
    print(f"prefixes: {counts[0]} known as clean, {counts[1]} known as faulty, {counts[None]} either")


SIZES = [
    ("a script of the limit", {"big.gd": b"#" * MIB}, CLEAN),
    ("a script above the limit", {"big.gd": b"#" * (MIB + 1)}, Answer(8, b"too large: file big.gd\n")),
    ("a project of the limit", {f"{n}.gd": b"#" * MIB for n in range(4)}, CLEAN),
    ("a project above the limit", {f"{n}.gd": b"#" * MIB for n in range(5)}, Answer(8, b"too large: project\n")),
    ("1,024 scripts", {f"{n}.gd": b"" for n in range(1024)}, CLEAN),
    ("too many scripts", {f"{n}.gd": b"" for n in range(1025)}, Answer(8, b"too large: files\n")),
]


def main():
    program, tally = named(sys.argv[1]), Tally()
    try_prefixes(program, tally)
    for what, files, wanted in SIZES:
        found = answer(program, ["check"], files)
        tally.expect(found == wanted, f"{what}: {found}, where wanted is {wanted}")
    for what, files, words, wanted in RUNS:
        found = answer(program, words, files)
        tally.expect(found == wanted, f"{what}: {found}, where wanted is {wanted}")
    tally.end()


if __name__ == "__main__":
    main()
