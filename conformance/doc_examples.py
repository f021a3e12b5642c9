#!/usr/bin/env python3
"""Runs the examples of docs/, each as a project with the one script main.gd.

usage: doc_examples.py GD      GD is the program, e.g. crates/gd_command/out/gd_command

An example is
- a block between ```gdscript and ```. `check` finds no fault in it, or the one that the next line with text tells, as
  in 'gives `main.gd:2:10: error S02: form left out`'
  (the other blocks of this kind hold a grammar, the steps of a call or an output, and are no scripts);
- such a block where the next line with text is '`gd run main.gd` prints', perhaps with options behind `main.gd`, and
  the next block holds what it prints: it is run too. How the run ends follows from the last line;
- a block of indented lines, a script with the lines below it that `check` prints, with `--warn` where one of them is a
  warning, and with `--marks` where one is a mark;
- a row of a table that begins with a script and such a line.
In the last two <tab>, <space> and <FF> stand for these characters and that byte, <3 tabs> for three tabs, <3 times: x>
for xxx, and <3 lines, each a tab deeper: x> for three lines, the first of them behind one tab. Each script that an
example names by res:// lies beside it, empty. The last line is 'N passed, M failed'.
"""
import pathlib
import re
import sys
from typing import List, NamedTuple

sys.path.insert(0, str(pathlib.Path(__file__).resolve().parent.parent / "tools"))
from program import ROOT, Answer, Tally, answer, named

FENCE = "```"
SCRIPT_FENCE = "```gdscript"
OTHER_FENCES = ("```", "```text")
PRINTED = re.compile(r"main\.gd:\d+:\d+: (error [A-Z]\d+: |warning W\d: |mark$)")
RUNS = re.compile(r"`gd (run main\.gd[^`]*)` prints$")
ENDS = [(re.compile(r"\S+:\d+:\d+: error R\d\d: "), 3), (re.compile(r"out of turns\n$"), 4)]
GIVES = re.compile(r"gives `(main\.gd:[^`]+)`")
ROW = re.compile(r"\| `([^`]+)` \| `(main\.gd:[^`]+)` \|.*")
NEIGHBOUR = re.compile(rb'"res://([^"]+\.gd)"')
LINES = re.compile(r"<(\d+) lines, each a tab deeper: (.*)>")
TOLD = [
    (re.compile(r"<(\d+) times: ([^<>]*)>"), lambda told: int(told[1]) * told[2]),
    (re.compile(r"<(\d+) tabs>"), lambda told: int(told[1]) * "\t"),
]
BYTES = {b"<tab>": b"\t", b"<space>": b" ", b"<FF>": b"\xff"}


class Example(NamedTuple):
    """A script, the words of a call on it, and the answer that is wanted."""

    where: str
    script: bytes
    words: List[str]
    wanted: Answer

    def files(self):
        neighbours = {name.decode(): b"" for name in NEIGHBOUR.findall(self.script)}
        return {**neighbours, "main.gd": self.script}


def checked(where, script, printed):
    """The example of a script with the lines that `check` prints."""
    options = {": warning ": "--warn", ": mark\n": "--marks"}
    words = ["check", *(option for sign, option in options.items() if sign in printed)]
    return Example(where, script, words, Answer(1 if ": error " in printed else 0, printed.encode()))


def ran(where, script, words, printed):
    """The example of a script with the lines that `run` prints."""
    last = printed.splitlines(keepends=True)[-1:]
    status = next((status for end, status in ENDS for line in last if end.match(line)), 0)
    return Example(where, script, words.split(), Answer(status, printed.encode()))


def written(lines):
    """The bytes of a script that is told by these lines."""
    told = []
    for line in lines:
        deeper = LINES.fullmatch(line)
        told += [f"{depth * chr(9)}{deeper[2]}" for depth in range(1, int(deeper[1]) + 1)] if deeper else [line]
    text = "".join(f"{line}\n" for line in told)
    for form, stands_for in TOLD:
        text = form.sub(stands_for, text)
    data = text.encode()
    for name, byte in BYTES.items():
        data = data.replace(name, byte)
    return data


class Fence(NamedTuple):
    """A block between fences."""

    number: int
    head: str
    body: List[str]


def split(page, lines):
    """The blocks between fences, each with the lines below it, and the numbered lines outside."""
    fences, outside, inside = [], [], None
    for number, line in enumerate(lines, 1):
        if inside is None and line.startswith(FENCE):
            inside = Fence(number, line, [])
        elif inside is None:
            outside.append((number, line))
        elif line == FENCE:
            fences.append((inside, lines[number:]))
            inside = None
        else:
            inside.body.append(line)
    if inside is not None:
        sys.exit(f"{page}:{inside.number}: a fence that does not end")
    return fences, outside


def fenced(page, fences):
    """The examples that are blocks between fences."""
    for place, (fence, below) in enumerate(fences):
        if fence.head == SCRIPT_FENCE:
            where, script = f"{page}:{fence.number}", text_of(fence).encode()
            told = next(filter(None, below), "")
            gives, runs = GIVES.match(told), RUNS.match(told)
            yield checked(where, script, f"{gives[1]}\n" if gives else "")
            if runs:
                yield ran(where, script, runs[1], text_of(fences[place + 1][0]))
        elif fence.head not in OTHER_FENCES:
            sys.exit(f"{page}:{fence.number}: a fence of no known kind: {fence.head}")


def text_of(fence):
    """The lines of a block."""
    return "".join(f"{line}\n" for line in fence.body)


def indented(page, lines):
    """The examples that are blocks of indented lines."""
    blocks = [[]]
    for number, line in lines:
        if line.startswith("    "):
            blocks[-1].append((number, line[4:]))
        elif blocks[-1]:
            blocks.append([])
    for block in blocks:
        printed = [line for _, line in block if PRINTED.match(line)]
        if printed:
            script = [line for _, line in block if not PRINTED.match(line)]
            yield checked(f"{page}:{block[0][0]}", written(script), "".join(f"{line}\n" for line in printed))


def rows(page, lines):
    """The examples that are rows of a table."""
    for number, line in lines:
        row = ROW.fullmatch(line)
        if row:
            yield checked(f"{page}:{number}", written([row[1]]), f"{row[2]}\n")


def examples_of(page):
    """The examples of a page of docs/."""
    name = str(page.relative_to(ROOT))
    fences, outside = split(name, page.read_text(encoding="utf-8").split("\n"))
    return [*fenced(name, fences), *indented(name, outside), *rows(name, outside)]


def main():
    program, tally = named(sys.argv[1]), Tally()
    for page in sorted((ROOT / "docs").glob("*.md")):
        for example in examples_of(page):
            found = answer(program, example.words, example.files())
            tally.expect(found == example.wanted, f"{example.where}: {found}, and the page says {example.wanted}")
    tally.end()


if __name__ == "__main__":
    main()
