#!/usr/bin/env python3
"""Runs programs on each row again and again, each time with other requests for memory refused, and judges each run.

usage: bench/refuse.py [ROW..]

A row is a script of crates/tests_rows/data, which stampctl reads: NAME beside NAME.stdout, which it prints, and NAME.status, with which
it ends if not with 0. Four more have no script: dump, of a small file of records, migrate, of that file to a new one, and the words
replay and records of bench. A row is run twice for each request that it makes: with that one refused, and with that one and all after
it, each time in a new folder. Such a run may end as the row does, and leaves the file that the row makes, or with status 1, and has
then printed a beginning of the row's lines and `refused 22 Memory`, and leaves no file. Writes and syncs of real files, where a program
makes any, are failed in the same two ways, and `refused 20 DiskFailed` is then the last line; or `refused 62 NoFile`, where the folder
of a new file cannot be synced.

Each run that ends otherwise is a line on standard output, and each row has one that counts its runs; the last line counts all. The
status is 1 where a run ended otherwise, and 2 where none was made. The programs are crates/stampctl/out/stampctl and
crates/bench/out/bench, which the gate proves and builds, or those that STAMPCTL and BENCH name. The library of bench/refuse.c, which gcc
builds, is preloaded to them."""
import hashlib
import itertools
import os
import pathlib
import re
import resource
import shutil
import subprocess
import sys
import tempfile
import time
from typing import NamedTuple

ROOT = pathlib.Path(__file__).resolve().parent.parent
ROWS = ROOT / "crates" / "tests_rows" / "data"
STAMPCTL = pathlib.Path(os.environ.get("STAMPCTL", ROOT / "crates" / "stampctl" / "out" / "stampctl")).absolute()
BENCH = pathlib.Path(os.environ.get("BENCH", ROOT / "crates" / "bench" / "out" / "bench")).absolute()
SECONDS = 60  # so long may a run take
SHOWN = 100  # so much of a line is shown
TOLD = re.compile(rb"requests (\d+) refused (\d+) calls (\d+) failed (\d+)\n\Z")
# What can be refused, in the order in which the library tells it: how its words begin, and the line with which a program then ends.
KINDS = (("REFUSE", b"refused 22 Memory\n"), ("FAIL", b"refused 20 DiskFailed\n"))
NOT_MADE = b"refused 62 NoFile\n"  # the line where a new file cannot be made
NEW = "new"  # the name of a new file


# A node's file of records: extent 1 is made, and a group of `abc` and `de` is appended.
RECORDS = bytes.fromhex(
    "58524631010000001801000000000000000100000000000000010000100001020301"
    "0000001b020000000000000001000000000200000003616263000000026465"
    "00"
)

# The same in version 2: a block has the 32 bytes of its SHA-256 digest behind it.
MIGRATED = (
    bytes.fromhex(
        "58524632010000001801000000000000000100000000000000010000100001020301"
        "0000005b0200000000000000010000000002"
    )
    + b"".join(len(block).to_bytes(4, "big") + block + hashlib.sha256(block).digest() for block in (b"abc", b"de"))
    + bytes(1)
)


class Row(NamedTuple):
    """A program with its words, what it reads and prints, how it ends, and the bytes of each file that it makes in its folder. So many
    of its first calls make such a file."""
    name: str
    words: list
    script: pathlib.Path
    out: bytes
    status: int
    files: dict = {}
    making: int = 0


class Ran(NamedTuple):
    """A status and what was printed, the bytes of each file in the folder, and of each kind how many there were and how many got nothing.
    A run that was cut short has told no counts, and one that did not end has no status."""
    status: int | None
    out: bytes
    files: dict
    counts: list


def row_of(script):
    status = script.with_name(f"{script.name}.status")
    out = script.with_name(f"{script.name}.stdout").read_bytes()
    return Row(script.name, [STAMPCTL], script, out, int(status.read_text()) if status.exists() else 0)


def rows_of_words(folder):
    """The rows that are no script."""
    file, empty = pathlib.Path(folder, "records"), pathlib.Path(os.devnull)
    file.write_bytes(RECORDS)
    dumped = b"make 1 1 4096 1 2 3\nappend 1 0 5\n"
    replayed = b"taken 1\ntaken 2\ntaken 3\nnext 4\nrefused 21 Damaged\n"
    counted = b"records 2\nrecords 1\nrecords 1\ndamaged\n"
    return [
        Row("dump", [STAMPCTL, "dump", file], empty, dumped, 0),
        Row("migrate", [STAMPCTL, "migrate", file, NEW], empty, b"migrated 2\n", 0, {NEW: MIGRATED}, making=1),
        Row("replay", [BENCH, "replay"], empty, replayed, 1),
        Row("records", [BENCH, "records"], empty, counted, 0),
    ]


def files_of(folder):
    return {path.name: path.read_bytes() for path in pathlib.Path(folder).iterdir()}


def run(library, row, more):
    """Runs the row in a new folder with words for the library, and nothing else in its environment."""
    with open(row.script, "rb") as script, tempfile.TemporaryDirectory() as folder:
        words = {"stdin": script, "env": {"LD_PRELOAD": library, **more}, "cwd": folder, "timeout": SECONDS, "check": False}
        try:
            ran = subprocess.run(row.words, capture_output=True, **words)
        except subprocess.TimeoutExpired as late:
            return Ran(None, late.stdout or b"", files_of(folder), [])
        files = files_of(folder)
    told = TOLD.search(ran.stderr)
    numbers = [int(number) for number in told.groups()] if told else []
    return Ran(ran.returncode, ran.stdout, files, list(zip(numbers[::2], numbers[1::2])))


def ends_as(ran, row):
    return bool(ran.counts) and (ran.status, ran.out, ran.files) == (row.status, row.out, row.files)


def ends_refused(ran, row, line):
    """Whether it printed a beginning of the row's lines and then this one, with status 1, and left no file."""
    front = ran.out.removesuffix(line)
    is_front = row.out.startswith(front) and front[-1:] in (b"", b"\n")
    return bool(ran.counts) and ran.status == 1 and ran.out.endswith(line) and is_front and not ran.files


def told_of(ran, row):
    """How a run ended, with the files that it left, and the first line in which it differs from the row."""
    if ran.status is None:
        end = f"not ended after {SECONDS} s"
    else:
        end = f"status {ran.status}" if ran.counts else f"cut short with status {ran.status}"
    if ran.files or row.files:
        end += "".join(f", the file {name} of {len(held)} bytes" for name, held in ran.files.items()) or ", no file"
    lines = itertools.zip_longest(ran.out.splitlines(), row.out.splitlines(), fillvalue=b"nothing")
    for number, (one, other) in enumerate(lines, 1):
        if one != other:
            start = max(len(os.path.commonprefix([one, other])) - SHOWN // 2, 0)
            shown, wanted = (it[start : start + SHOWN] for it in (one, other))
            return f"{end}, line {number} from byte {start} is {shown!r}, and not {wanted!r}"
    return f"{end}, and counts of {ran.counts}"


def runs_of(row, counts):
    """The words of all runs of a row, with the kind of what each refuses and the line with which it may end."""
    for kind, (word, line) in enumerate(KINDS):
        for number in range(1, counts[kind][0] + 1):
            last = NOT_MADE if word == "FAIL" and number <= row.making else line
            yield kind, last, {f"{word}_ONE": str(number)}
            yield kind, last, {f"{word}_FROM": str(number)}


def seconds():
    """What all runs so far took of the processor."""
    used = resource.getrusage(resource.RUSAGE_CHILDREN)
    return used.ru_utime + used.ru_stime


def sweep(library, row):
    """Runs a row in each way, and tells what ended otherwise and how many runs there were. Answers how many requests and calls it
    makes, how many runs were made, how many of them ended as the row, and how many otherwise."""
    start = seconds()
    plain = run(library, row, {})
    if not ends_as(plain, row):
        print(f"{row.name} with nothing refused: {told_of(plain, row)}")
        return 0, 1, 0, 1
    runs = whole = otherwise = 0
    for kind, line, more in runs_of(row, plain.counts):
        ran = run(library, row, more)
        got_nothing = bool(ran.counts) and ran.counts[kind][1] > 0
        runs += 1
        if got_nothing and ends_as(ran, row):
            whole += 1
        elif not got_nothing or not ends_refused(ran, row, line):
            otherwise += 1
            words = " ".join(f"{name}={value}" for name, value in more.items())
            print(f"{row.name} with {words}: {told_of(ran, row)}", flush=True)
    made = sum(seen for seen, _refused in plain.counts)
    print(f"{row.name}: {told_counts(made, runs, whole, otherwise)}, {seconds() - start:.1f} s of the processor", flush=True)
    return made, runs, whole, otherwise


def told_counts(made, runs, whole, otherwise):
    return f"{made} requests, {runs} runs, {whole} of them to the end, {otherwise} otherwise"


def missing(names, rows):
    """What is not there without which no run is made, or nothing."""
    if len(rows) < len(names):
        return f"not all of these are rows: {' '.join(names)}"
    for program in {row.words[0] for row in rows}:
        if not os.access(program, os.X_OK):
            return f"{program} is no program; ./run.sh --proved builds it, or STAMPCTL and BENCH name others"
    return None if shutil.which("gcc") else "there is no gcc"


def sweep_all(folder, names):
    scripts = sorted(path for path in ROWS.iterdir() if not path.suffix)
    rows = [row for row in [*map(row_of, scripts), *rows_of_words(folder)] if not names or row.name in names]
    why = missing(names, rows)
    if why:
        print(f"bench/refuse.py: {why}", file=sys.stderr)
        return 2
    start = time.monotonic()
    library = f"{folder}/refuse.so"
    subprocess.run(["gcc", "-O2", "-shared", "-fPIC", "-o", library, ROOT / "bench" / "refuse.c"], check=True)
    counts = [sweep(library, row) for row in rows]
    made, runs, whole, otherwise = map(sum, zip(*counts))
    told = told_counts(made, runs, whole, otherwise)
    print(f"{len(rows)} rows, {told}, {seconds():.0f} s of the processor, {time.monotonic() - start:.0f} s")
    return 1 if otherwise else 0


def main(names):
    with tempfile.TemporaryDirectory() as folder:
        return sweep_all(folder, names)


if __name__ == "__main__":
    sys.exit(main(sys.argv[1:]))
