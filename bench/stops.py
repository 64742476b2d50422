#!/usr/bin/env python3
"""Runs rows in which one actor is told to stop in a device call to come, each time another, and judges what comes of it.

usage: bench/stops.py [ROW..]

The rows are those of ROWS, scripts of crates/tests_rows/data. Before each line of a row, each actor is told to stop in its first to
eighth device call from there on, with the bytes of that call and without. After the row's last line it has stopped, comes back, all that
was cut off is heard, each range that the map has is assigned, and by turns the server gives up on what it waits for, and each extent that
is to be sealed is. Of each run are looked at:

- extents: one is sealed at one length, has what was acknowledged up to it, and shows the same groups at each node;
- loads: each is of all transactions that were done by then, by their numbers, and each assignment after the row is followed by its load;
- tables: what users read at the end is what the transactions that were done make of the table, in their order, and any of those that
  were sent, not done, and not refused as soon as they came.

Each run in which one of these does not hold is a line on standard output, and each row has one that counts its runs. The status is 1
where there was such a run, and 2 where none was made. The program is crates/stampctl/out/stampctl, which the gate proves and builds, or
the one that STAMPCTL names."""
import collections
import itertools
import os
import pathlib
import re
import subprocess
import sys
import time
from concurrent.futures import ThreadPoolExecutor

ROOT = pathlib.Path(__file__).resolve().parent.parent
DATA = ROOT / "crates" / "tests_rows" / "data"
STAMPCTL = pathlib.Path(os.environ.get("STAMPCTL", ROOT / "crates" / "stampctl" / "out" / "stampctl")).absolute()
ROWS = ("append-one-place-cut", "load-of-an-unanswered-group", "split-and-merge-with-transactions")
ACTORS = ("n1", "n2", "n3", "m", "p", "s1")
CALLS = range(1, 9)
SEALS = 4  # so often the server gives up and all extents are sealed at the end, as a load may ask for one after another
EXTENTS = range(1, 16)
RANGES = {1: "", 2: "1", 3: "1", 4: "23"}  # and of which others each is made
KEYS = {1: "abxyz", 2: "ab", 3: "xyz", 4: "abxyz"}
SEAL = re.compile(r"user 1 seal \d+")
PACKET = re.compile(r"  (\d+) (\w+) -> (\w+) (\w+) ?(.*)")


def tail(actor, asked):
    """The lines after a row in which this actor was told to stop, and users asked for these seals."""
    yield from (f"stop {actor} 0 drop", f"restart {actor}")
    yield from (f"heal {it}" for it in ACTORS)
    yield from ("settle", "moment 1000")
    yield from (f"assign {it} 1 2000" for it in RANGES)
    yield "settle"
    for _ in range(SEALS):
        yield from asked
        yield from (f"giveup 1 {it} 1 2 3" for it in RANGES)
        yield "settle"
        yield from (f"decide {it}" for it in EXTENTS)
        yield "settle"
    yield from (f"user 1 get 1 {it} {key}" for it in RANGES for key in KEYS[it])
    yield "settle"


def contents(trace):
    """The lines with which users read the sealed extents of a run at each node."""
    sealed = dict(line.split()[1:] for line in trace if line.startswith("sealed "))
    yield from (f"user 1 content {node[1:]} {extent} {length}" for extent, length in sealed.items() for node in ACTORS[:3])
    yield "settle"


def traced(lines):
    """What the program prints of a script's events, packets and observations."""
    text = "".join(f"{line}\n" for line in lines)
    ran = subprocess.run([STAMPCTL, "trace"], input=text, capture_output=True, text=True, timeout=60, check=False)
    return ran.stdout.splitlines() if ran.returncode == 0 else None


def fields_of(text):
    return dict(it.split("=", 1) for it in text.split() if "=" in it)


class Seen:
    """What a run has shown up to some line of its trace."""

    def __init__(self):
        self.sealed, self.acked, self.content = {}, [], {}
        self.sent, self.over, self.done = {}, set(), []  # transactions by their ticket, those that no server took, those done
        self.asked = {}  # the ticket that a packet brings to a server, by the event that delivers it
        self.numbers = collections.defaultdict(int)  # the highest number that is done, by range
        self.tickets = 0
        self.assigned, self.loaded = {}, collections.defaultdict(int)
        self.gets, self.values = {}, {}
        self.event, self.at_end, self.faults = "", False, []

    def fault(self, text):
        self.faults.append(text)

    def take_event(self, words):
        self.event = words
        if words[:2] == ["moment", "1000"]:
            self.at_end = True
        if words[0] == "user":
            if words[2] == "tx":
                self.sent[self.tickets] = (int(words[4]), words[5:])
            if words[2] == "get":
                self.gets[self.tickets] = (int(words[4]), words[5])
            self.tickets += 1

    def take_packet(self, packet, kind, fields):
        ticket = fields.get("request", "")
        number = int(ticket[3:]) if ticket.startswith("u1.") else None
        if kind == "Committed":
            self.done.append(number)
        if kind == "Transact":
            self.asked["deliver", packet] = number
        # one that was taken may stand in the log, also where its user is told later that the server lost the range or its lease
        if kind == "Refused" and number is not None and self.asked.get(tuple(self.event)) == number:
            self.over.add(number)
        if kind == "Assign" and self.at_end:
            self.assigned[int(fields["range"])] = int(fields["generation"])

    def take_seal(self, extent, length):
        if self.sealed.setdefault(extent, length) != length:
            self.fault(f"extent {extent} is sealed at {self.sealed[extent]} and at {length}")

    def take_load(self, range_, generation, number):
        line, owners = {range_}, [range_]
        while owners:
            more = [int(it) for it in RANGES[owners.pop()]]
            line.update(more)
            owners.extend(more)
        if range_ == 4:
            line = {4}
        for it in line:
            if self.numbers[it] >= number:
                self.fault(f"range {range_} loaded with next {number} after {self.numbers[it]} was done in range {it}")
        self.loaded[range_] = max(self.loaded[range_], generation)

    def take(self, line):
        packet = PACKET.fullmatch(line)
        words = line.split()
        if line.startswith("> "):
            self.take_event(words[1:])
        elif packet:
            self.take_packet(packet[1], packet[4], fields_of(packet[5]))
        elif words[0] == "sealed":
            self.take_seal(words[1], int(words[2]))
        elif words[0] == "acked":
            self.acked.append((words[1], int(words[2]) + int(words[3])))
        elif words[0] == "content":
            if self.content.setdefault(words[1], words[3:]) != words[3:]:
                self.fault(f"two nodes show other groups of extent {words[1]}")
        elif words[0] == "done":
            self.numbers[int(words[1])] = max(self.numbers[int(words[1])], int(words[3]))
        elif words[0] == "loaded":
            self.take_load(*map(int, words[1:4]))
        elif words[0] == "user" and words[3] == "value":
            self.values[int(words[2])] = words[4]

    def judge(self):
        """Tells what does not hold at the end."""
        for extent, end in self.acked:
            if end > self.sealed.get(extent, end):
                self.fault(f"extent {extent} is sealed at {self.sealed[extent]} and has an acknowledged append up to {end}")
        for range_, generation in self.assigned.items():
            if self.loaded[range_] < generation:
                self.fault(f"range {range_} is not loaded under generation {generation}")
        for range_ in self.assigned:
            read = {key: self.values.get(ticket) for ticket, (it, key) in self.gets.items() if it == range_}
            if self.loaded[range_] and read not in self.tables(KEYS[range_]):
                self.fault(f"range {range_} has {read}")
        return self.faults

    def tables(self, keys):
        """What users may read under these keys."""
        open_ = [it for it in self.sent if it not in self.done and it not in self.over]
        for some in itertools.chain.from_iterable(itertools.combinations(open_, size) for size in range(len(open_) + 1)):
            table = dict.fromkeys(keys, "none")
            for ticket in sorted([*self.done, *some]):
                for change in self.sent[ticket][1]:
                    key, _, value = change[1:].partition("=")
                    if key in table:
                        table[key] = value.encode().hex() if change[0] == "+" else "none"
            yield table


def faults_of(lines):
    trace = traced(lines)
    if trace and any(SEAL.fullmatch(line) for line in lines):
        trace = traced([*lines, *contents(trace)])
    if trace is None:
        return ["the run did not end"]
    seen = Seen()
    for line in trace:
        seen.take(line)
    return seen.judge()


def runs_of(row):
    """Where an actor is told to stop, and how, and the script."""
    lines = (DATA / row).read_text().splitlines()
    asked = [line for line in lines if SEAL.fullmatch(line)]
    for place in range(1, len(lines)):
        for actor, call, fate in itertools.product(ACTORS, CALLS, ("keep", "drop")):
            told = f"stop {actor} {call} {fate}"
            yield f"{told} before line {place + 1}", [*lines[:place], told, *lines[place:], *tail(actor, asked)]


def sweep(row):
    start = time.monotonic()
    runs = list(runs_of(row))
    with ThreadPoolExecutor(os.cpu_count()) as pool:
        found = list(pool.map(lambda run: faults_of(run[1]), runs))
    bad = [(run[0], faults) for run, faults in zip(runs, found) if faults]
    for where, faults in bad:
        print(f"{row}, {where}: {'; '.join(faults)}")
    print(f"{row}: {len(runs)} runs, {len(bad)} of them wrong, {time.monotonic() - start:.0f} s", flush=True)
    return len(bad)


def main(names):
    rows = [row for row in ROWS if not names or row in names]
    if not rows or len(rows) < len(names):
        print(f"bench/stops.py: the rows are {' '.join(ROWS)}", file=sys.stderr)
        return 2
    if not os.access(STAMPCTL, os.X_OK):
        print(f"bench/stops.py: {STAMPCTL} is no program; ./run.sh --proved builds it, or STAMPCTL names another", file=sys.stderr)
        return 2
    return 1 if sum([sweep(row) for row in rows]) else 0


if __name__ == "__main__":
    sys.exit(main(sys.argv[1:]))
