#!/usr/bin/env python3
"""Runs the projects of examples/.

usage: examples.py GD      GD is the program, e.g. crates/gd_command/out/gd_command

`check` finds no error in a project. Each script NAME.gd beside which a file NAME.out stands is run, and must end with
status 0, having printed the lines of that file behind its first one, which is GDTEST_OK as in the tests of the engine.
The last line is 'N passed, M failed'.
"""
import pathlib
import sys

sys.path.insert(0, str(pathlib.Path(__file__).resolve().parent.parent / "tools"))
from program import ROOT, Answer, Tally, answer, named

HEAD = b"GDTEST_OK\n"


def files_of(folder):
    """The bytes of the scripts of a project, by path."""
    return {str(path.relative_to(folder)): path.read_bytes() for path in sorted(folder.rglob("*.gd"))}


def try_project(program, folder, tally):
    """Checks a project, and runs what it wants to be run."""
    files = files_of(folder)
    checked = answer(program, ["check"], files)
    tally.expect(checked == Answer(0, b""), f"check of {folder.name}: {checked}")
    for expectation in sorted(folder.rglob("*.out")):
        main = str(expectation.with_suffix(".gd").relative_to(folder))
        head, wanted = expectation.read_bytes()[:len(HEAD)], expectation.read_bytes()[len(HEAD):]
        found = answer(program, ["run", main], files)
        tally.expect(head == HEAD and found == Answer(0, wanted), f"run {main} of {folder.name}: {found}")


def main():
    program, tally = named(sys.argv[1]), Tally()
    for folder in sorted(path for path in (ROOT / "examples").iterdir() if path.is_dir()):
        try_project(program, folder, tally)
    tally.end()


if __name__ == "__main__":
    main()
