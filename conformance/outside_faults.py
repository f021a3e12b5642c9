#!/usr/bin/env python3
"""Calls the program where the outside fails: folders that cannot be listed, a script that cannot be read, an output that
takes nothing, or only so many bytes.

usage: outside_faults.py GD      GD is the program, e.g. crates/gd_command/out/gd_command

The rows on rights need the rights of root, under which the program is run as a user who may not read, and those on a
full device need /dev/full; where these are missing the rows are passed over, which is said. The last line is 'N passed, M
failed'.
"""
import os
import pathlib
import resource
import shutil
import subprocess
import sys
import tempfile
from typing import Dict, List, NamedTuple

import cases  # (it also finds program.py)
from program import LIMIT, Answer, Tally, named, project, run

HERE = pathlib.Path(__file__).resolve().parent
NOBODY = 65534
WRITE_FAULT = 6
LIST_FAULT = Answer(5, b"read fault: list\n")
CLEAN = Answer(0, b"")
FAULTY = {"main.gd": b"print(1.5)"}
PRINTS = {"main.gd": b"func test():\n\tprint(42)\n"}


class Listing(NamedTuple):
    what: str
    # a path of the project, as bytes
    path: bytes
    wanted: Answer


LISTINGS = [
    Listing("a name that is not UTF-8", b"\xff.gd", LIST_FAULT),
    Listing("such a name of no script", b"\xff.txt", LIST_FAULT),
    Listing("such a name behind a dot", b".hidden/\xff.gd", CLEAN),
    Listing("32 levels of folders", b"d/" * 32 + b"a.gd", CLEAN),
    Listing("33 levels of folders", b"d/" * 33 + b"a.gd", LIST_FAULT),
    Listing("a path of more than 1,024 bytes", (b"d" * 200 + b"/") * 5 + b"e" * 20 + b".gd", LIST_FAULT),
]


class Unwritten(NamedTuple):
    what: str
    words: List[str]
    files: Dict[str, bytes]
    status: int


UNWRITTEN = [
    Unwritten("a diagnostic", ["check"], FAULTY, WRITE_FAULT),
    Unwritten("a printed line", ["run", "main.gd"], PRINTS, WRITE_FAULT),
    Unwritten("the usage line", ["walk"], {}, WRITE_FAULT),
    Unwritten("nothing to write", ["check"], PRINTS, 0),
]


def try_listings(program, tally):
    """Checks projects with one file at a path that only bytes can name."""
    for row in LISTINGS:
        with project({}) as folder:
            place = os.path.join(os.fsencode(folder), row.path)
            os.makedirs(os.path.dirname(place), exist_ok=True)
            with open(place, "wb"):
                pass
            found = run(program, ["check"], folder)
        tally.expect(found == row.wanted, f"{row.what}: {found}, where wanted is {row.wanted}")


def try_links(program, tally):
    """A link is followed nowhere, so it is no script, and a main script behind one cannot be read."""
    with project({"other/a.gd": b"print(1.5)"}) as folder:
        outside = pathlib.Path(folder, "game")
        outside.mkdir()
        (outside / "link.gd").symlink_to("../other/a.gd")
        (outside / "folder").symlink_to("../other")
        found = run(program, ["check"], outside)
    tally.expect(found == CLEAN, f"links to a file and to a folder: {found}, where wanted is {CLEAN}")


def as_nobody(program, folder):
    """The answer of `check` to a user who may read only what others may."""
    how = {"cwd": folder, "stdin": subprocess.DEVNULL, "capture_output": True, "user": NOBODY, "group": NOBODY, "extra_groups": []}
    ended = subprocess.run([str(program), "check"], timeout=LIMIT, **how)
    return Answer(ended.returncode, ended.stdout, ended.stderr)


def try_rights(program, tally):
    """Checks a project with a script, and one with a folder, that may not be read."""
    try:
        compare_rights(program, tally)
    except PermissionError:
        print("rights: passed over, since the program cannot be run as another user here")


def compare_rights(program, tally):
    """The rows on rights. Raises PermissionError where the program cannot be run as another user."""
    if os.geteuid() != 0:
        raise PermissionError
    unread = Answer(5, b"read fault: b.gd\n")
    for path, wanted in [("a.gd", CLEAN), ("b.gd", unread), ("inner", LIST_FAULT)]:
        with project({"a.gd": b"", "b.gd": b"", "inner/c.gd": b""}) as folder:
            os.chmod(folder, 0o755)
            copied = shutil.copy(program, os.path.join(folder, ".gd_program"))
            os.chmod(copied, 0o755)
            if path != "a.gd":
                os.chmod(os.path.join(folder, path), 0)
            found = as_nobody(copied, folder)
            os.chmod(os.path.join(folder, path), 0o755)
        tally.expect(found == wanted, f"without the right to read {path}: {found}, where wanted is {wanted}")


def status_into(program, row, out):
    """The status of a call whose output goes to this file."""
    with project(row.files) as folder:
        how = {"cwd": folder, "stdin": subprocess.DEVNULL, "stderr": subprocess.DEVNULL}
        return subprocess.run([str(program), *row.words], timeout=LIMIT, stdout=out, **how).returncode


def try_outputs(program, tally):
    """Calls with an output on a full device, and with one that nobody reads."""
    has_full = os.path.exists("/dev/full")
    if not has_full:
        print("full device: passed over, since there is no /dev/full")
    for row in UNWRITTEN:
        if has_full:
            with open("/dev/full", "wb") as full:
                status = status_into(program, row, full)
            tally.expect(status == row.status, f"{row.what} to a full device: status {status}, where wanted is {row.status}")
        reads, writes = os.pipe()
        os.close(reads)
        with open(writes, "wb") as closed:
            status = status_into(program, row, closed)
        tally.expect(status == row.status, f"{row.what} to a closed pipe: status {status}, where wanted is {row.status}")


def with_room(program, words, folder, room):
    """The answer of a run whose output takes this many bytes. Python leaves the signal of a full file ignored, so the write fails."""
    with tempfile.TemporaryFile() as out:
        how = {"cwd": folder, "stdin": subprocess.DEVNULL, "stdout": out, "stderr": subprocess.PIPE, "restore_signals": False}
        limit = lambda: resource.setrlimit(resource.RLIMIT_FSIZE, (room, room))
        ended = subprocess.run([str(program), *words], timeout=LIMIT, preexec_fn=limit, **how)
        out.seek(0)
        return Answer(ended.returncode, out.read(), ended.stderr)


def try_rooms(program, tally):
    """Runs a project with an output of each size up to that of what it prints: what was taken is the beginning of that."""
    store = cases.load(HERE / "run" / "three-scripts-of-a-store.case")
    words, whole = store.runs[0].words, store.runs[0].wanted
    with project(store.files) as folder:
        for room in range(len(whole.output) + 1):
            wanted = whole if room == len(whole.output) else Answer(WRITE_FAULT, whole.output[:room])
            found = with_room(program, words, folder, room)
            tally.expect(found == wanted, f"room for {room} bytes: {found}, where wanted is {wanted}")


def main():
    program, tally = named(sys.argv[1]), Tally()
    try_listings(program, tally)
    try_links(program, tally)
    try_rights(program, tally)
    try_outputs(program, tally)
    try_rooms(program, tally)
    tally.end()


if __name__ == "__main__":
    main()
