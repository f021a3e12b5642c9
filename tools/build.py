#!/usr/bin/env python3
"""Builds the program `gd` where it is not there, or where a source that it is made from is newer.

usage: tools/build.py

The crates that the program stands on are proved and built by one `rt all check`, which works on several at a time, and
on each once those below it are done. Calls of `rt lib` side by side would gain nothing: each holds all crates below its
own, so one waits for the other. `rt run` then compiles and links the program over what was proved.

What begins and what ends is told on standard error, and all that rt prints goes to crates/gd_command/build.log. The
status is 0 where the program is there and newer than its sources, and else 125, which is no status of the program.
"""
import contextlib
import fcntl
import os
import queue
import re
import shutil
import signal
import subprocess
import sys
import threading
import time

import crates
from program import BUILT, ROOT

PROGRAM = "gd_command"
FOLDER = ROOT / "crates" / PROGRAM
LOG = FOLDER / "build.log"
NOT_BUILT = 125
# What is planned for the proof of one crate, in bytes.
MEMORY = 4 * 1024 ** 3
# After so many seconds without a line it is told again what is going on.
SILENCE = 60
ENDED = re.compile(r"== (\w+)\n")
FAILED = re.compile(r"(\w+): failed \((-?\d+)\)\n")
WAITS = re.compile(r"rt: .*waiting for .*\n")
KILLED = -signal.SIGKILL


def say(text):
    print(f"gd: {text}", file=sys.stderr, flush=True)


def needed():
    """The crates that the program is made from, itself last, and what each crate cites."""
    cited = crates.read()
    return crates.lowest_first(cited, [*crates.below(cited, PROGRAM), PROGRAM]), cited


def changed(place):
    """When a file, or a folder with all in it, was last changed."""
    times = [os.stat(place).st_mtime]
    for at, folders, names in os.walk(place):
        for name in [*folders, *names]:
            # (an editor's file may be gone again)
            with contextlib.suppress(FileNotFoundError):
                times.append(os.stat(os.path.join(at, name)).st_mtime)
    return max(times)


def last_change(names):
    """When a source of these crates was last changed."""
    places = [ROOT / "crates" / name / part for name in names for part in crates.SOURCES]
    return max(map(changed, [ROOT / "crates.txt", *[place for place in places if place.exists()]]))


def at_once():
    """How many crates are worked on at a time: as many as there are processors, and as memory allows."""
    processors = len(os.sched_getaffinity(0))
    with open("/proc/meminfo", encoding="ascii") as file:
        free = 1024 * int(re.search(r"MemAvailable:\s+(\d+)", file.read())[1])
    return max(1, min(processors, free // MEMORY))


def minutes(since):
    return f"{(time.monotonic() - since) / 60:.1f} min"


class Progress:
    """Tells which crates are worked on. rt tells when one ends. That one begins follows from the order that rt keeps:
    it has the first few that have not ended in hand, and begins with one once those below it have ended."""

    def __init__(self, names, cited, lanes):
        self.names, self.lanes, self.start = names, lanes, time.monotonic()
        self.below = {name: set(crates.below(cited, name)) for name in names}
        self.begun, self.ended = [], []

    def begin(self):
        in_hand = [name for name in self.names if name not in self.ended][: self.lanes]
        for name in in_hand:
            if name not in self.begun and self.below[name] <= set(self.ended):
                self.begun.append(name)
                say(f"building {name} ({len(self.begun)} of {len(self.names)})")

    def end(self, name):
        if name in self.names and name not in self.ended:
            self.ended.append(name)
            say(f"done with {name} ({len(self.ended)} of {len(self.names)} after {minutes(self.start)})")
            self.begin()

    def remind(self):
        working = [name for name in self.begun if name not in self.ended]
        what = " and ".join(working) if working else "the program"
        say(f"still building {what} ({len(self.ended)} of {len(self.names)} done after {minutes(self.start)})")


def lines_of(command, log):
    """What a command prints in the program's folder, line by line, each written to the log; none after each minute of
    silence; and its status in the end."""
    said = queue.Queue()
    how = {"stdin": subprocess.DEVNULL, "stdout": subprocess.PIPE, "stderr": subprocess.STDOUT}
    with subprocess.Popen(command, cwd=FOLDER, text=True, errors="replace", **how) as ran:

        def read():
            for line in ran.stdout:
                said.put(line)
            said.put(ran.wait())

        threading.Thread(target=read, daemon=True).start()
        try:
            while True:
                try:
                    line = said.get(timeout=SILENCE)
                except queue.Empty:
                    line = None
                if isinstance(line, str):
                    log.write(line)
                    log.flush()
                yield line
                if isinstance(line, int):
                    return
        finally:
            if ran.poll() is None:
                ran.terminate()


class Outcome:
    """What became of `rt all check`."""

    def __init__(self):
        # its status, those of the crates that failed, and what was printed of each crate ("" for what came before any)
        self.status, self.failed, self.said = None, {}, {"": []}

    def told(self):
        """The last lines that were printed of what failed."""
        return "".join(line for name in self.failed or [""] for line in self.said.get(name, [])[-20:])


def proved(names, cited, lanes, log):
    """Has rt prove and build these crates."""
    progress, outcome, block = Progress(names, cited, lanes), Outcome(), ""
    progress.begin()
    for line in lines_of(["rt", "all", "check", "--jobs", str(lanes)], log):
        if line is None:
            progress.remind()
            continue
        if isinstance(line, int):
            outcome.status = line
            continue
        ended, failed = ENDED.fullmatch(line), FAILED.fullmatch(line)
        if ended:
            block = ended[1]
            progress.end(block)
        elif failed:
            outcome.failed[failed[1]] = int(failed[2])
        elif WAITS.fullmatch(line):
            say(line.rstrip())
        outcome.said.setdefault(block, []).append(line)
    return outcome


def linked(log):
    """Has rt compile and link what was proved, and gives what it printed. rt also runs the program once, without words,
    so its status says nothing: afterwards the program is there or is not."""
    with contextlib.suppress(FileNotFoundError):
        os.remove(BUILT)
    say("compiling and linking the program")
    start, said = time.monotonic(), []
    for line in lines_of(["rt", "run"], log):
        if line is None:
            say(f"still compiling and linking (after {minutes(start)})")
        elif isinstance(line, str):
            said.append(line)
    return said


def built(names, cited, log):
    """Builds the program, and gives whether it could."""
    lanes, start = at_once(), time.monotonic()
    say(f"the program is not there, or older than its sources: building its {len(names)} crates, {lanes} at a time,"
        " which proves each function first")
    outcome = proved(names, cited, lanes, log)
    if lanes > 1 and KILLED in outcome.failed.values():
        say("a proof was killed, most likely for memory: going on with one crate at a time")
        outcome = proved(names, cited, 1, log)
    if outcome.status != 0:
        print(outcome.told(), end="", file=sys.stderr)
        say(f"not proved: {' '.join(outcome.failed) or 'rt gave no verdict'}")
        return False
    said = linked(log)
    if not os.access(BUILT, os.X_OK):
        print("".join(said[-20:]), end="", file=sys.stderr)
        say("the program could not be compiled or linked")
        return False
    say(f"built after {minutes(start)}")
    return True


def main():
    signal.signal(signal.SIGTERM, lambda *_: sys.exit(128 + signal.SIGTERM))
    signal.signal(signal.SIGINT, signal.SIG_DFL)
    names, cited = needed()
    with open(LOG, "a+", encoding="utf-8", errors="replace") as log:
        try:
            fcntl.flock(log, fcntl.LOCK_EX | fcntl.LOCK_NB)
        except BlockingIOError:
            say("another call is building the program; waiting for it")
            fcntl.flock(log, fcntl.LOCK_EX)
        # the time that the program gets, so that a source which changes while this runs is newer
        began = time.time()
        newest = last_change(names)
        began = max(began, newest)
        if not os.access(BUILT, os.X_OK) or os.stat(BUILT).st_mtime < newest:
            if shutil.which("rt") is None:
                say("the program is to be built, and rt is not on PATH: it lies in the kit's folder bin/")
                return NOT_BUILT
            log.truncate(0)
            if not built(names, cited, log):
                say(f"the whole log is {LOG}")
                return NOT_BUILT
        with contextlib.suppress(OSError):
            os.utime(BUILT, (began, began))
    return 0


if __name__ == "__main__":
    try:
        sys.exit(main())
    except OSError as error:
        say(f"the program could not be built: {error}")
        sys.exit(NOT_BUILT)
