"""How a program is run and measured: by time, by its peak of memory, by the pages that it touches first, by instructions and by
allocations."""
import os
import re
import subprocess
import tempfile
from dataclasses import dataclass

ROUNDS = 5
# The library of bench/allocations.c, where it could be built.
LIBRARY = os.environ.get("ALLOCATIONS")


class Failed(Exception):
    """A command did not do what it was asked to do: what is told of it."""


@dataclass
class Ran:
    """Seconds of the processor, the peak of resident bytes, the pages of memory that were touched first, and what was printed."""
    seconds: float
    peak: int
    pages: int
    out: bytes
    told: bytes


def run(words, lines=(), more=None, wanted=0):
    """Runs a command on a script, which is written to a file first; its status has to be 0, or the one that is wanted."""
    with tempfile.TemporaryFile() as script, tempfile.TemporaryFile() as told:
        for line in lines:
            script.write(line.encode() + b"\n")
        script.seek(0)
        environment = {**os.environ, **(more or {})}
        try:
            child = subprocess.Popen(words, stdin=script, stdout=subprocess.PIPE, stderr=told, env=environment)
        except OSError as reason:
            raise SystemExit(f"measure: {words[0]} cannot be run: {reason.strerror}") from None
        out = child.stdout.read()
        _, status, usage = os.wait4(child.pid, 0)
        told.seek(0)
        said = told.read()
        if os.waitstatus_to_exitcode(status) != wanted:
            raise Failed(f"{' '.join(words)} ended with status {os.waitstatus_to_exitcode(status)}: {said[-400:].decode(errors='replace')}")
        return Ran(usage.ru_utime + usage.ru_stime, usage.ru_maxrss * 1024, usage.ru_minflt, out, said)


def counted(words, lines):
    """The pieces of memory that a command asks for, their bytes, and the peak of resident bytes, as LIBRARY counts them."""
    told = run(words, lines, {"LD_PRELOAD": LIBRARY}).told
    found = re.search(rb"allocations (\d+) bytes (\d+) peak (\d+)", told)
    return int(found[1]), int(found[2]), int(found[3]) * 1024


def least(runs, words, lines):
    """The run that took least time. Its peak is what the library tells in one more run, where there is one: what the system tells
    of a child is never less than the peak of the one who started it."""
    found = min(runs, key=lambda ran: ran.seconds)
    if LIBRARY:
        found.peak = counted(words, lines)[2]
    return found


def best(words, script=tuple):
    """The run that took least time, of some; `script` gives the lines anew for each."""
    return least([run(words, script()) for _ in range(ROUNDS)], words, script())


def by_turns(programs, script=tuple):
    """The runs that took least time, of some, of several commands by turns, so that all meet the same machine."""
    rounds = [[run(words, script()) for words in programs] for _ in range(ROUNDS)]
    return [least(runs, words, script()) for words, runs in zip(programs, zip(*rounds))]


def instructions(words, lines):
    """How many instructions the command takes, as callgrind counts them."""
    told = run(["valgrind", "--tool=callgrind", "--callgrind-out-file=/dev/null", *words], lines).told
    return int(re.search(rb"Collected *: *(\d+)", told)[1])
