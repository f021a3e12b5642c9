"""How the scripts of conformance/ and bench/ run the program: in a folder of its own, and with a time limit."""
import contextlib
import pathlib
import subprocess
import sys
import tempfile
from typing import NamedTuple, Optional

ROOT = pathlib.Path(__file__).resolve().parent.parent
BUILT = ROOT / "crates" / "gd_command" / "out" / "gd_command"
# The most that a run may take, in seconds.
LIMIT = 120


class Answer(NamedTuple):
    """How a run ended. The program writes all its text to standard output, and so no complaint is ever wanted."""

    # the exit status, -N after the signal N, or None where the run had not ended within the limit
    status: Optional[int]
    output: bytes
    # what came on standard error
    complaint: bytes = b""

    def __str__(self):
        status = f"no end in {LIMIT} s" if self.status is None else f"status {self.status}"
        complaint = f", standard error {shortened(self.complaint)}" if self.complaint else ""
        return f"{status}, {shortened(self.output)}{complaint}"


def shortened(data):
    """The first bytes of an output, to be shown."""
    return repr(data) if len(data) <= 200 else f"{data[:200]!r} and {len(data) - 200} bytes more"


def run(program, words, folder, environment=None):
    """The answer of the program to these words in this folder."""
    how = {"cwd": folder, "env": environment, "stdin": subprocess.DEVNULL, "capture_output": True}
    try:
        ended = subprocess.run([str(program), *words], timeout=LIMIT, **how)
    except subprocess.TimeoutExpired as late:
        return Answer(None, late.stdout or b"", late.stderr or b"")
    return Answer(ended.returncode, ended.stdout, ended.stderr)


@contextlib.contextmanager
def project(files):
    """A new folder that holds these files, bytes by path, and is removed in the end."""
    with tempfile.TemporaryDirectory(prefix="gd-") as folder:
        for path, data in files.items():
            place = pathlib.Path(folder, path)
            place.parent.mkdir(parents=True, exist_ok=True)
            place.write_bytes(data)
        yield folder


def answer(program, words, files):
    """The answer of the program to these words in a project of these files."""
    with project(files) as folder:
        return run(program, words, folder)


def named(word):
    """The program that a script was given by this word. Stops where there is none."""
    program = pathlib.Path(word).resolve()
    if not program.is_file():
        sys.exit(f"there is no program {program}")
    return program


class Tally:
    """Counts what passed and what failed, and says the first of the failures."""

    SHOWN = 10

    def __init__(self):
        self.passed = self.failed = 0

    def expect(self, is_right, what):
        """Counts one try, and says what it was where it is not right."""
        if is_right:
            self.passed += 1
        else:
            self.fail(what)

    def fail(self, what):
        self.failed += 1
        if self.failed <= self.SHOWN:
            print(f"FAILED {what}")

    def end(self):
        """Says the counts, and ends the script, with status 1 where something failed or nothing was tried."""
        if self.passed + self.failed == 0:
            self.fail("nothing was tried")
        print(f"{self.passed} passed, {self.failed} failed")
        sys.exit(1 if self.failed else 0)
