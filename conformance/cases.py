"""Reads the case files that run_cases.py runs; its head says their format."""
import pathlib
import re
import shlex
import sys
from typing import Dict, List, NamedTuple

sys.path.insert(0, str(pathlib.Path(__file__).resolve().parent.parent / "tools"))
from program import Answer

ESCAPE = re.compile(r"\\x([0-9a-fA-F]{2})|\\(.)|([^\\]+)", re.S)
NAMED = {"n": b"\n", "r": b"\r", "t": b"\t", "\\": b"\\"}


class Run(NamedTuple):
    words: List[str]
    wanted: Answer


class Case(NamedTuple):
    description: str
    # bytes by path
    files: Dict[str, bytes]
    runs: List[Run]


class Malformed(Exception):
    """A file is no case."""


def unescaped(text):
    """The bytes of a text with escapes."""
    data = bytearray()
    for part in ESCAPE.finditer(text):
        byte, letter, plain = part.groups()
        if byte:
            data.append(int(byte, 16))
        elif letter:
            data += NAMED.get(letter, letter.encode())
        else:
            data += plain.encode()
    return bytes(data)


def lines_of(body):
    """The bytes of lines, each with its line feed."""
    return "".join(f"{line}\n" for line in body).encode()


class Section:
    """A part of a case file: what its head line says, and the lines below it."""

    def __init__(self, kind, head):
        self.kind, self.head, self.body = kind, head, []

    def file(self):
        """The path and the bytes of a file."""
        path, _, how = self.head.rpartition(" ")
        if path and how == "escaped":
            return path, unescaped("".join(self.body))
        if path and how == "raw":
            return path, lines_of(self.body)[:-1]
        return self.head, lines_of(self.body)

    def run(self, status):
        """The run whose output ends here."""
        is_escaped = self.kind == "run escaped"
        output = unescaped("".join(self.body)) if is_escaped else lines_of(self.body)
        return Run(shlex.split(self.head), Answer(status, output))


HEADS = [("file", "== file "), ("run", "== run: "), ("run escaped", "== run escaped: ")]


def begun(line):
    """The section that a line begins, or none."""
    for kind, head in HEADS:
        if line.startswith(head):
            return Section(kind, line[len(head):])
    return None


def load(path):
    """The case in this file. Raises Malformed where a run has no status, or there is no run."""
    description, files, runs, section = [], {}, [], Section("description", "")

    def close():
        if section.kind.startswith("run"):
            raise Malformed(f"the run of {section.head} has no status")
        if section.kind == "file":
            name, data = section.file()
            files[name] = data

    with open(path, encoding="utf-8", newline="") as file:
        lines = file.read().split("\n")
    for line in lines:
        new = begun(line)
        if new:
            close()
            section = new
        elif line.startswith("== status ") and section.kind.startswith("run"):
            runs.append(section.run(int(line[len("== status "):])))
            section = Section("description", "")
        elif section.kind == "description":
            description.append(line)
        else:
            section.body.append(line)
    close()
    if not runs:
        raise Malformed("it has no run")
    return Case("\n".join(description).strip(), files, runs)


def found(places, word=""):
    """The paths of the case files in these files and folders, in order, whose path has the word."""
    for place in map(pathlib.Path, places):
        for path in sorted(place.rglob("*.case")) if place.is_dir() else [place]:
            if word in str(path):
                yield path
