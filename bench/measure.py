"""Measures stampctl and bench, and prints the tables of docs/BENCH.md.

The first has each figure for a size N and for 2N, their ratio, and the most that the ratio may be. The second has instructions
and allocations for one request, and, where an older stampctl is named, those of the old program over those of the new; the
plain program stands beside both. The third, only beside an older program or the plain one, has times, taken by turns, peaks of
memory, and the pages of memory that are touched first. Times of scripts are seconds of the processor, those that bench tells are
seconds of the clock, and each is the least of several runs. Nothing is tested here but that each run did what it was asked to do,
and that the plain program prints what stampctl prints, where it knows the script.

callgrind counts a copy of 2 KiB and more once a byte, so that rows with large blocks are judged by time and by pages.
"""
import argparse
import os
import shutil
import sys
import tempfile
from functools import partial

import scripts
from running import LIBRARY, ROUNDS, Failed, best, by_turns, counted, instructions, run

words = argparse.ArgumentParser(description=__doc__.splitlines()[0])
words.add_argument("bench")
words.add_argument("stampctl")
words.add_argument("--old-stampctl", help="a stampctl of before, which is measured beside this one")
words.add_argument("--old-bench", help="a bench of before")
words.add_argument("--plain", help="the plain program, where it could be built")
words.add_argument("--only", choices=["sizes", "counts", "times"], help="one table alone")
ARGS = words.parse_args()
KIB = 1024


def program(path, what):
    """The program of a path, which has to be there; none where no path is named."""
    if path is not None and not os.access(path, os.X_OK):
        sys.exit(f"measure: there is no program {path}, which was named as {what}")
    return path and os.path.abspath(path)


BENCH, STAMPCTL = program(ARGS.bench, "bench"), program(ARGS.stampctl, "stampctl")
OLD_BENCH, OLD_STAMPCTL = program(ARGS.old_bench, "the old bench"), program(ARGS.old_stampctl, "the old stampctl")
PLAIN = program(ARGS.plain, "the plain program")


def answers(out, word):
    """How many answers of a kind a script's output tells to its users: lines `user U TICKET WORD ..`."""
    return sum(line.split()[3:4] == [word] for line in out.splitlines())


def did(ran, word, count):
    """The run, if it told so many answers of this kind."""
    told = answers(ran.out, word)
    if told != count:
        raise Failed(f"{told} users were told {word.decode()}, of {count}; the last line is {last_line(ran)}")
    return ran


def last_line(ran):
    return b"".join(ran.out.splitlines()[-1:]).decode(errors="replace")[:160]


def ends_with(ran, last):
    """The run, if this is the last line that it told."""
    if not ran.out.endswith(last.encode() + b"\n"):
        raise Failed(f"the last line is not {last}, but {last_line(ran)}")
    return ran


def print_the_same(what, new, plain):
    """The plain program, where there is one, prints what stampctl prints."""
    if plain is None or new.out == plain.out:
        return
    pairs = enumerate(zip([*new.out.splitlines(), b"no line"], [*plain.out.splitlines(), b"no line"]), 1)
    number, (line, other) = next(pair for pair in pairs if pair[1][0] != pair[1][1])
    raise Failed(f"{what}: line {number} of stampctl is {line[:160]}, and of the plain program {other[:160]}")


def by_plain(what, ran, script):
    """The run of the plain program that took least time, which prints the same; none where there is no such program."""
    plain = PLAIN and best([PLAIN], script)
    print_the_same(what, ran, plain)
    return plain


def beside(what, ran, script):
    """The pages that a run touches first, and its peak over that of the plain program."""
    plain = by_plain(what, ran, script)
    return [ran.pages, plain and ran.peak / plain.peak]


def appended(script, count, payload):
    """Time, deliveries a second and the peak over the payload of appends by a script, and what stands beside the plain program."""
    ran = did(best([STAMPCTL], script), b"appended", count)
    return [ran.seconds, scripts.DELIVERIES_PER_APPEND * count / ran.seconds, ran.peak / payload, *beside("appends", ran, script)]


def shown(script, count):
    """The seconds of a trace and of a drawing of so many appends, and each over those of the run, by turns with it."""
    ran, traced, drawn = by_turns([[STAMPCTL], [STAMPCTL, "trace"], [STAMPCTL, "draw"]], script)
    did(ran, b"appended", count)
    did(traced, b"appended", count)
    ends_with(drawn, "</svg>")
    return [traced.seconds, traced.seconds / ran.seconds, drawn.seconds, drawn.seconds / ran.seconds]


def told_micros(words, told):
    """The least time in seconds that a run of bench tells, behind these words, of some runs."""
    found = []
    for _ in range(ROUNDS):
        out = run([BENCH, *words]).out.split()
        if out[:-1] != told.encode().split() + [b"micros"]:
            raise Failed(f"bench {' '.join(words)} tells {out[-8:]}, and not {told} micros")
        found.append(int(out[-1]) / 1e6)
    return [min(found)]


def node(count):
    ran = best([BENCH, "node", str(count)])
    if ran.out.split()[1:2] != [str(count).encode()]:
        raise Failed(f"bench node {count} tells {last_line(ran)}")
    return [ran.seconds, ran.peak / (count * KIB), ran.pages]


def seals(count):
    script = lambda: scripts.seals_of_extents(count)
    ran = did(best([STAMPCTL], script), b"appended", 64 * count)
    sealed = sum(line.startswith(b"sealed ") and line.endswith(b" 65536") for line in ran.out.splitlines())
    if sealed != count:
        raise Failed(f"{sealed} extents are sealed at 65,536, of {count}")
    return [ran.seconds, ran.peak / (count * 64 * KIB), *beside("seals", ran, script)]


def repeats(script):
    """The seconds that each of some restarts, or of some loads, takes: a script with them over one without."""
    without, more = at_sizes(script, [0, scripts.RESTARTS])
    return (more.seconds - without.seconds) / scripts.RESTARTS, without, more


def last_load(ran, rows, transactions):
    """The run, if its last line tells of the last load, after so many transactions."""
    return ends_with(ran, f"loaded 1 {scripts.RESTARTS + 1} {transactions + 1} {rows}")


def at_sizes(script, sizes):
    """The runs that took least time, of one program over scripts of several sizes."""
    return [best([STAMPCTL], lambda: script(size)) for size in sizes]


def restarts(script, last):
    """The seconds of a restart, after which the actor tells what it told without; `last` is its last line."""
    seconds, without, more = repeats(script)
    if ends_with(more, last).out != without.out:
        raise Failed("after its restarts an actor tells what it did not tell without")
    return [seconds]


def first_replica(count):
    return f"replica 1 1 open {min(count, scripts.APPENDS_PER_STREAM) * KIB} 0"


def transactions(count):
    load, ran, loaded = repeats(lambda loads: scripts.transactions(count, loads=loads))
    did(ran, b"committed", count)
    last_load(loaded, count, count)
    return [ran.seconds, count / ran.seconds, ran.peak / (count * 100), load,
            *beside("transactions", ran, lambda: scripts.transactions(count))]


def large_values(count):
    load, ran, loaded = repeats(lambda loads: scripts.large_values(count, loads))
    last_load(loaded, count, count)
    return [ran.seconds, ran.peak / (count * scripts.LARGE_VALUE), load,
            *beside("large values", ran, lambda: scripts.large_values(count, 0))]


def checkpoints(count):
    """The seconds of a first checkpoint, of a second one after as many writes, of one that combines in its place, of a load after the
    plain one, and of a read of each key."""
    ran = [best([STAMPCTL], lambda: scripts.checkpoints(count, parts)) for parts in range(1, 6)]
    did(ran[4], b"value", count)
    combined = best([STAMPCTL], lambda: scripts.checkpoints(count, 4, second="combine"))
    loads = last_load(best([STAMPCTL], lambda: scripts.checkpoints(count, 4, scripts.RESTARTS)), count, 2 * count)
    return [ran[1].seconds - ran[0].seconds, ran[3].seconds - ran[2].seconds, combined.seconds - ran[2].seconds,
            (loads.seconds - ran[3].seconds) / scripts.RESTARTS, ran[4].seconds - ran[3].seconds,
            *beside("checkpoints", ran[4], lambda: scripts.checkpoints(count, 5))]


def gets_of_ranges(ranges):
    """The seconds of 50 Gets in each of so many ranges that splits made, range by range."""
    without, asked = at_sizes(lambda rounds: scripts.gets_of_ranges(ranges, rounds), [0, 50])
    did(asked, b"value", 50 * ranges)
    return [asked.seconds - without.seconds, *beside("Gets of ranges", asked, lambda: scripts.gets_of_ranges(ranges, 50))]


def loads_behind(since):
    """The seconds of a load of one table of 20,000 keys, after whose checkpoint so many puts came."""
    return [repeats(lambda loads: scripts.loads_behind(20_000, since, loads))[0]]


def dumps(count):
    """The seconds of a dump of so many records of 1 KiB, over those of opening and reading them alone, and the peak over the file."""
    with tempfile.NamedTemporaryFile() as file:
        file.write(scripts.record_file(count))
        file.flush()
        ran = best([STAMPCTL, "dump", file.name])
        if ran.out.count(b"\n") != count or not ran.out.startswith(b"append 1 0 1024\n"):
            raise Failed(f"a dump of {count} records does not tell them; its last line is {last_line(ran)}")
        # where nothing can be written it ends with the first 64 KiB of lines, after all was read
        shell = ["sh", "-c", 'exec "$0" dump "$1" > /dev/full', STAMPCTL, file.name]
        read = min(run(shell, wanted=1).seconds for _ in range(ROUNDS))
        return [ran.seconds, ran.seconds / read, ran.peak / file.tell(), ran.pages]


def splits(keys):
    """The seconds of a split of a range with so many keys."""
    without, split = at_sizes(lambda times: scripts.one_split(keys, times), [0, 1])
    ends_with(split, "split 1 2 3 " + f"k{keys // 2:06}".encode().hex())
    by_plain("a split", split, lambda: scripts.one_split(keys, 1))
    return [split.seconds - without.seconds]


def merges(keys):
    """The seconds of a merge of two ranges with so many keys each."""
    without, merged = at_sizes(lambda times: scripts.one_merge(keys, times), [0, 1])
    ends_with(merged, "merged 2 3 4")
    return [merged.seconds - without.seconds]


def routes(ranges):
    """The seconds of 200,000 routes over so many ranges that splits made."""
    without, routed = at_sizes(lambda times: scripts.many_ranges(ranges, times), [0, 200_000])
    did(routed, b"route", 200_000)
    by_plain("routes", routed, lambda: scripts.many_ranges(ranges, 200_000))
    return [routed.seconds - without.seconds]


TIME = ("time", "s", 2.3)
PAGES = ("pages touched first", "", None)
BESIDE = [PAGES, ("peak over that of the plain program", "", None)]
APPEND_FIGURES = [TIME, ("deliveries a second", "", None), ("peak over payload", "", None), *BESIDE]
# What is measured, N, and of each figure its name, its unit, and the most that the ratio of 2N to N may be, where it has one.
SIZES = [
    ("appends of 1 KiB to one node", 10_000, node, [TIME, ("peak over payload", "", None), PAGES]),
    ("appends of 1 KiB to three nodes, by a script", 10_000,
     lambda n: appended(lambda: scripts.appends(n, scripts.FILLED), n, n * KIB), APPEND_FIGURES),
    ("the same, each word spelled out", 10_000,
     lambda n: appended(lambda: scripts.appends(n, scripts.SPELLED), n, n * KIB), APPEND_FIGURES),
    ("appends of one byte to three nodes", 10_000,
     lambda n: appended(lambda: scripts.appends(n, scripts.BYTE), n, n), APPEND_FIGURES),
    ("appends of one byte to three nodes, as a trace and as a drawing", 10_000,
     lambda n: shown(lambda: scripts.appends(n, scripts.BYTE), n),
     [("time of the trace", "s", 2.3), ("trace over run", "", None), ("time of the drawing", "s", 2.3), ("drawing over run", "", None)]),
    ("groups of 64 blocks of 1 KiB to three nodes", 500,
     lambda n: appended(lambda: scripts.groups(n), n, n * 64 * KIB), APPEND_FIGURES),
    ("appends of 1 KiB to one extent, which 16,384 fill", 8_192,
     lambda n: appended(lambda: scripts.one_extent(n), n, n * KIB), APPEND_FIGURES),
    ("acknowledged appends of one extent whose observations are checked", 8_192,
     lambda n: told_micros(["extent", str(n)], f"extent {n} found none"), [("time", "s", 2.5)]),
    ("acknowledged appends, 64 to an extent, whose observations are checked", 10_000,
     lambda n: told_micros(["check", str(n)], f"check {n} found none"), [("time", "s", 2.5)]),
    ("extents of 64 appends, sealed with a node cut off", 1_000, seals, [TIME, ("peak over payload", "", None), *BESIDE]),
    ("records of 1 KiB at a node's restart", 100_000, lambda n: told_micros(["restart", str(n)], f"taken {n}"), [TIME]),
    ("records of 1 KiB at a node's restart in a script", 10_000,
     lambda n: restarts(lambda times: scripts.node_restarts(n, times), first_replica(n)), [TIME]),
    ("extents at the manager's restart in a script", 2_000,
     lambda n: restarts(lambda times: scripts.manager_restarts(n, times), f"user 1 {2 * n + 1} extended {n + 1}"), [TIME]),
    ("records at the map's restart in a script", 20_000,
     lambda n: restarts(lambda times: scripts.map_restarts(n, times), "user 1 0 route 1 1"), [TIME]),
    ("records of 1 KiB in a record file that is dumped", 100_000, dumps,
     [TIME, ("time over opening and reading", "", None), ("peak over the file", "", None), PAGES]),
    ("extents in each of 100 streams, added and found", 5_000,
     lambda n: told_micros(["streams", str(n)], f"found {100 * n}"), [TIME]),
    ("transactions of one put of 100 bytes on one range", 20_000, transactions,
     [TIME, ("transactions a second", "", None), ("peak over values", "", None), ("time of a load", "s", 2.3), *BESIDE]),
    ("transactions of one put of 5,000 bytes, kept by its place", 1_000, large_values,
     [TIME, ("peak over values", "", None), ("time of a load", "s", 2.3), *BESIDE]),
    ("keys of 100 bytes, a checkpoint, as many writes, and a second one", 20_000, checkpoints,
     [("time of the first checkpoint", "s", 2.3), ("time of the second", "s", 2.3),
      ("time of a second that combines", "s", 2.3), ("time of a load", "s", 2.3),
      ("time of a Get of each key, in order", "s", 2.3), *BESIDE]),
    ("ranges that splits made, and 50 Gets in each, range by range", 100, gets_of_ranges,
     [("time of the Gets", "s", 2.3), *BESIDE]),
    ("puts after a checkpoint of 20,000 keys, and then a load", 10_000, loads_behind, [("time of a load", "s", 2.3)]),
    ("keys of 100 bytes, and a split in their middle", 20_000, splits, [TIME]),
    ("keys of 100 bytes in each of two ranges, and a merge of them", 20_000, merges, [TIME]),
    ("ranges that splits made, and 200,000 routes", 500, routes, [("time of the routes", "s", 1.3)]),
]

# A run of many less one of few, for what one request takes; so many things are brought back, so often.
FEW, MANY = 2_048, 4_096
BACK, TIMES = 512, 4
# A row: its name, the script of so many, the answer that each request gets, and the bytes that each brings.
ROWS = [
    ("append of 1 KiB to three nodes, `1024*a`", lambda n: scripts.appends(n, scripts.FILLED), b"appended", KIB),
    ("append of 1 KiB, the word spelled out", lambda n: scripts.appends(n, scripts.SPELLED), b"appended", KIB),
    ("append of one byte", lambda n: scripts.appends(n, scripts.BYTE), b"appended", 1),
    ("transaction of one put of 100 bytes, batch 64",
     lambda n: scripts.transactions(n, each=scripts.REQUESTS_PER_SETTLE), b"committed", 100),
]
# Rows whose times are taken by turns: the requests of a run, the script of so many, the answer, the bytes of each.
TURNS = [(name, 10_000 if size < KIB else 8_192, script, word, size) for name, script, word, size in ROWS] + [
    ("group of 64 blocks of 1 KiB", 250, scripts.groups, b"appended", 64 * KIB),
    ("append of 1 KiB to one extent, which they fill", 16_384, scripts.one_extent, b"appended", KIB),
    ("put of 5,000 bytes, kept by its place", 1_000, lambda n: scripts.large_values(n, 0), b"committed", scripts.LARGE_VALUE),
]
# What is counted by a run less another: a name, whether bench does it, the words and the lines of the one and of the other, and how
# many more things the one does.
COUNTED = [
    ("group of 64 blocks of 1 KiB to three nodes", False, ([], scripts.groups(128)), ([], scripts.groups(64)), 64),
    ("record of 1 KiB at a node's restart, by bench", True, (["restart", str(MANY)], ()), (["node", str(MANY)], ()), MANY),
    ("append of one extent that is checked, of 4,096", True, (["extent", str(MANY)], ()), (["extent", "0"], ()), MANY),
    ("append of one extent that is checked, of 8,192", True, (["extent", str(2 * MANY)], ()), (["extent", "0"], ()), 2 * MANY),
]
COUNTED += [
    (name, False, ([], script(TIMES)), ([], script(0)), BACK * TIMES)
    for name, script in [
        ("record of 1 KiB at a node's restart in a script", lambda times: scripts.node_restarts(BACK, times)),
        ("extent at the manager's restart in a script", lambda times: scripts.manager_restarts(BACK, times)),
        ("record at the map's restart in a script", lambda times: scripts.map_restarts(BACK, times)),
        ("value of 100 bytes that is loaded", lambda times: scripts.transactions(BACK, loads=times)),
        ("value of 5,000 bytes that is loaded by its place", lambda times: scripts.large_values(BACK, times)),
        ("key of 100 bytes that is loaded after two checkpoints", lambda times: scripts.checkpoints(BACK, 4, times)),
    ]
]
COUNTED += [
    (name, False, ([], scripts.checkpoints(FEW, parts, second=second)), ([], scripts.checkpoints(FEW, parts - 1, second=second)), FEW)
    for name, parts, second in [
        ("key of 100 bytes in a first checkpoint", 2, "plain"),
        ("key of 100 bytes in a second checkpoint", 4, "plain"),
        ("key of 100 bytes in a second checkpoint that combines", 4, "combine"),
        ("Get of each key in order, which reads each page once", 5, "plain"),
    ]
]
# Pairs of which the second is told over the first, too: of each the name, the script of so many Gets or of so many rounds of them,
# two such numbers, and how many more Gets the second one makes.
HELD_GETS = [2_000, 20_000]
RANGES = [2, 200]
PAIRS = [
    [(f"Get through a held page, at {keys:,} keys", partial(scripts.held_gets, keys), 0, FEW, FEW) for keys in HELD_GETS],
    [(f"first Get in each of {ranges} ranges, which reads a page", partial(scripts.gets_of_ranges, ranges), 0, 1, ranges)
     for ranges in RANGES],
    [(f"Get in {ranges} ranges by turns, through held pages", partial(scripts.gets_of_ranges, ranges), 1, 1 + 800 // ranges, 800)
     for ranges in RANGES],
]


def repeated(what, script):
    """A thing that a script does some times or never, as DIFFERENCES has it."""
    return what, partial(script, scripts.RESTARTS), partial(script, 0), scripts.RESTARTS


def of_parts(what, parts, second="plain"):
    """What the last of so many parts of checkpoints of 20,000 keys does."""
    return what, *(partial(scripts.checkpoints, 20_000, n, second=second) for n in (parts, parts - 1)), 1


# What a script does more than another, and whose time is told of one: a name, the two scripts, and how often the one does it.
DIFFERENCES = [
    repeated("restart of a node with 10,000 records of 1 KiB", lambda times: scripts.node_restarts(10_000, times)),
    repeated("restart of the manager with 2,000 extents", lambda times: scripts.manager_restarts(2_000, times)),
    repeated("restart of the map with 20,000 records", lambda times: scripts.map_restarts(20_000, times)),
    repeated("load of 20,000 values of 100 bytes", lambda times: scripts.transactions(20_000, loads=times)),
    repeated("load of 1,000 values by place", lambda times: scripts.large_values(1_000, times)),
    repeated("load of 20,000 keys after two checkpoints", lambda times: scripts.checkpoints(20_000, 4, times)),
    of_parts("first checkpoint of 20,000 keys", 2),
    of_parts("second checkpoint of 20,000 keys", 4),
    of_parts("second checkpoint of 20,000 keys, which combines", 4, "combine"),
    of_parts("Get of each of 20,000 keys, in order", 5),
    ("10,000 Gets through held pages, of 20,000 keys", partial(scripts.held_gets, 20_000, 10_000), partial(scripts.held_gets, 20_000, 0), 1),
    ("10,000 Gets in 200 ranges by turns", partial(scripts.gets_of_ranges, 200, 50), partial(scripts.gets_of_ranges, 200, 0), 1),
]
# What bench measures by itself: the words.
BY_BENCH = [
    ("restart of a node with 100,000 records of 1 KiB, by bench", ["restart", "100000"]),
    ("check of 16,384 appends of one extent", ["extent", "16384"]),
    ("check of 20,000 appends, 64 to an extent", ["check", "20000"]),
]


def figure(value, unit=""):
    if value is None:
        return "-"
    return f"{value:,.0f}" if value >= 1_000 else f"{value:.3g} {unit}".strip()


def over(old, new):
    return "-" if old is None or new is None or min(old, new) <= 0 else f"{old / new:.2f}"


def line(*cells):
    return "| " + " | ".join(str(cell) for cell in cells) + " |"


def sizes():
    yield line("What", "N", "Figure", "at N", "at 2N", "2N over N", "at most")
    yield "|---|---|---|---|---|---|---|"
    for what, count, measure, figures in SIZES:
        once, twice = measure(count), measure(2 * count)
        for (name, unit, most), small, great in zip(figures, once, twice):
            yield line(what, f"{count:,}", name, figure(small, unit), figure(great, unit), over(great, small), most or "-")
    yield record_file()


def record_file():
    """A record file over a real file, over a plain write and two syncs of the same bytes, by turns: the middle of some."""
    ratios = []
    with tempfile.TemporaryDirectory() as folder:
        for turn in range(ROUNDS):
            found = run([BENCH, "file", "500", os.path.join(folder, f"records{turn}")]).out.split()
            ratios.append(int(found[1]) / int(found[3]))
    ratios.sort()
    return line("records of 1 KiB over a real file, over a plain write and two syncs", 500, "time",
                f"{ratios[0]:.2f} to {ratios[-1]:.2f}", "-", f"{ratios[len(ratios) // 2]:.2f}", 1.3)


def of_one(count, program, more, less, things):
    """What one thing takes, by this count: a run less another, over how many more things the one does; None where a program is not
    there, or does not know the words."""
    if program is None:
        return None
    try:
        return (count([program, *more[0]], more[1]) - count([program, *less[0]], less[1])) / things
    except Failed:
        if program in (STAMPCTL, BENCH):
            raise
        return None


def same_lines(what, more):
    """The plain program prints the same of these lines, where it knows them."""
    try:
        plain = PLAIN and run([PLAIN], more[1])
    except Failed:
        return
    print_the_same(what, run([STAMPCTL], more[1]), plain)


def counts_of(what, programs, more, less, things):
    """The instructions of each program, and a row of them, of pieces of memory that were asked for, and of their bytes."""
    more, less = ((words, list(lines)) for words, lines in (more, less))
    if STAMPCTL in programs:
        same_lines(what, more)
    found = new, old, plain = [of_one(instructions, program, more, less, things) for program in programs]
    asked = [
        of_one(lambda *run_on: counted(*run_on)[part], program if LIBRARY else None, more, less, things)
        for part in (0, 1) for program in programs
    ]
    return found, line(what, figure(new), figure(old), over(old, new), figure(plain), over(new, plain), *map(figure, asked))


def counts():
    if shutil.which("valgrind") is None:
        yield "There is no valgrind here, so nothing is counted."
        return
    yield line("For one", "instructions", "old", "old over new", "plain", "new over plain",
               "allocations", "old", "plain", "bytes asked for", "old", "plain")
    yield "|" + "---|" * 12
    by_script = (STAMPCTL, OLD_STAMPCTL, PLAIN)
    for what, script, word, _ in ROWS:
        did(run([STAMPCTL], script(FEW)), word, FEW)
        yield counts_of(what, by_script, ([], script(MANY)), ([], script(FEW)), MANY - FEW)[1]
    for what, is_by_bench, more, less, things in COUNTED:
        yield counts_of(what, (BENCH, OLD_BENCH, None) if is_by_bench else by_script, more, less, things)[1]
    for pair in PAIRS:
        rows = [counts_of(what, by_script, ([], script(more)), ([], script(less)), things) for what, script, less, more, things in pair]
        yield from (row for _, row in rows)
        (first, _), (second, _) = rows
        new, old, plain = (over(great, small) for great, small in zip(second, first))
        yield line("the one over the other", new, old, "-", plain, *["-"] * 7)


def told_of(what, count, runs, seconds, pages, payload=None):
    """A row of times: what each of the three programs took, those that are there, and how it stands to the others."""
    new, old, plain = seconds
    peaks = [ran and ran.peak for ran in runs]
    per_payload = [figure(peak and payload and peak / payload) for peak in peaks]
    return line(what, count, figure(new, "s"), figure(old, "s"), over(old, new), figure(plain, "s"), over(new, plain),
                *per_payload, over(peaks[0], peaks[2]), *map(figure, pages))


def taken_by_turns(script):
    """The runs of stampctl, of the old one and of the plain program, by turns; none of a program that is not there."""
    programs = [STAMPCTL, OLD_STAMPCTL, PLAIN]
    found = iter(by_turns([[program] for program in programs if program], script))
    return [program and next(found) for program in programs]


def times():
    yield line("By turns", "N", "time", "old", "old over new", "plain", "new over plain", "peak over payload", "old", "plain",
               "peak over that of plain", "pages touched first", "old", "plain")
    yield "|" + "---|" * 14
    for what, count, script, word, size in TURNS:
        runs = taken_by_turns(lambda: script(count))
        did(runs[0], word, count)
        print_the_same(what, runs[0], runs[2])
        seconds, pages = ([ran and of(ran) for ran in runs] for of in (lambda ran: ran.seconds, lambda ran: ran.pages))
        yield told_of(what, f"{count:,}", runs, seconds, pages, count * size if size >= 100 else None)
    for what, more, less, count in DIFFERENCES:
        yield difference(what, more, less, count)
    for what, command in BY_BENCH:
        yield of_bench(what, command)


def difference(what, more, less, count):
    """The time and the pages of one thing that a script does more than another, and the peaks of the one that does more."""
    runs, without = taken_by_turns(more), taken_by_turns(less)
    print_the_same(what, runs[0], runs[2])
    seconds = [ran and (ran.seconds - other.seconds) / count for ran, other in zip(runs, without)]
    pages = [ran and (ran.pages - other.pages) / count for ran, other in zip(runs, without)]
    return told_of(what, "-", runs, seconds, pages)


def of_bench(what, command):
    """What bench measures by itself; an old one may not know it."""
    found = {BENCH: [], OLD_BENCH: []}
    for _ in range(ROUNDS):
        for program in filter(None, found):
            try:
                found[program].append(int(run([program, *command]).out.split()[-1]) / 1e6)
            except Failed:
                if program == BENCH:
                    raise
    new, old = (min(found[program], default=None) for program in (BENCH, OLD_BENCH))
    return line(what, "-", figure(new, "s"), figure(old, "s"), over(old, new), *["-"] * 9)


TABLES = {"sizes": sizes, "counts": counts, "times": times}
wanted = [ARGS.only] if ARGS.only else ["sizes", "counts"] + ["times"] * bool(OLD_STAMPCTL or PLAIN)
for number, name in enumerate(wanted):
    if number:
        print()
    try:
        for row in TABLES[name]():
            print(row, flush=True)
    except Failed as failed:
        sys.exit(f"measure: {failed}")
