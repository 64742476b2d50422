"""The scripts that are measured: each a function that gives the lines of so many requests, one after another, so that no
script is ever whole in the memory of the one who measures. And a record file, which is.
"""
import struct

# The greatest target, 16,777,216 bytes, takes 16,384 appends of 1 KiB; each of the four streams can have one extent.
TARGET = 16_777_216
APPENDS_PER_STREAM = 16_000
# A group has at most 64 blocks, and so many groups of 64 blocks of 1 KiB fill an extent.
BLOCKS_PER_GROUP = 64
GROUPS_PER_STREAM = 250
# A primary lets at most 256 appends wait.
REQUESTS_PER_SETTLE = 64
# So many transactions may wait in one settle, and so often is an actor brought back.
TRANSACTIONS_PER_SETTLE = 256
RESTARTS = 10
# A page has a few more keys with values of 100 bytes.
KEYS_PER_PAGE = 500
# The request, two Puts, two Haves and the answer.
DELIVERIES_PER_APPEND = 6
# Ranges that splits make of one have so many keys together, on three pages.
KEYS_OF_RANGES = 1_600
# A value of more than 4,096 bytes is kept by its place.
LARGE_VALUE = 5_000

FILLED = "1024*a"
SPELLED = "a" * 1024
BYTE = "x"


def settled(lines, requests, each):
    """Lines of requests, each made of its number, with a settle behind so many of them and at the end."""
    for number in range(requests):
        yield from lines(number)
        if number % each == each - 1:
            yield "settle"
    yield "settle"


def appends(count, words, per_stream=APPENDS_PER_STREAM):
    """Appends of these words to extents on three nodes that all answer, an extent for so many of them."""
    def lines(ticket):
        stream, before = divmod(ticket, per_stream)
        if before == 0:
            yield from (f"user 1 create {stream}", "settle", f"user 1 extend {stream} none 1 2 3", "settle")
        yield f"user 1 append 1 {stream + 1} {words}"
    yield f"setup 3 1 {TARGET} 1"
    yield from settled(lines, count, REQUESTS_PER_SETTLE)


def record_file(count):
    """A record file of version 1 with so many appends of 1 KiB, 16,384 to an extent (docs/FORMATS.md)."""
    file = bytearray(b"XRF1")
    for number in range(count):
        extent, before = divmod(number, TARGET // 1024)
        body = struct.pack(">BQIBI", 2, extent + 1, before * 1024, 1, 1024) + b"a" * 1024
        file += b"\x01" + struct.pack(">I", len(body)) + body
    return bytes(file) + b"\0"


def groups(count):
    """Appends of groups of 64 blocks of 1 KiB."""
    return appends(count, " ".join([FILLED] * BLOCKS_PER_GROUP), GROUPS_PER_STREAM)


def one_extent(count):
    """Appends of 1 KiB to one extent; 16,384 of them fill it."""
    return appends(count, FILLED, TARGET // 1024)


def node_restarts(count, restarts):
    """Appends of 1 KiB, and then a node that stops and comes back, so many times; its replica is shown at the end."""
    yield from appends(count, FILLED)
    yield from ["stop n1 0 drop", "restart n1"] * restarts
    yield "show 1 1"


def seals_of_extents(count):
    """Extents of one stream, each filled with 64 appends of 1 KiB and sealed while the third place is cut off."""
    yield from (f"setup 3 1 {TARGET} 1", "user 1 create 0", "settle")
    for extent in range(1, count + 1):
        last = "none" if extent == 1 else extent - 1
        yield from (f"user 1 extend 0 {last} 1 2 3", "settle")
        yield from [f"user 1 append 1 {extent} {FILLED}"] * 64
        yield from ("settle", "cut n3", f"user 1 seal {extent}", "settle", f"decide {extent}", "settle")
        yield from ("heal n3", f"decide {extent}", "settle")


def manager_restarts(count, restarts):
    """Empty extents of one stream, added and sealed; then the manager stops and comes back, so many times, and adds one more."""
    yield from (f"setup 3 1 {TARGET} 1", "user 1 create 0", "settle")
    for extent in range(1, count + 1):
        last = "none" if extent == 1 else extent - 1
        yield from (f"user 1 extend 0 {last} 1 2 3", "settle", f"user 1 seal {extent}", "settle", f"decide {extent}", "settle")
    yield from ["stop m 0 drop", "restart m"] * restarts
    yield from (f"user 1 extend 0 {count} 1 2 3", "settle")


def map_restarts(count, restarts):
    """Renewals of one lease; then the map stops and comes back, so many times, and tells who holds the range."""
    yield from (f"setup 3 1 {TARGET} 1", "moment 1", "assign 1 1 1000", "settle")
    for number in range(1, count + 1):
        yield f"renew 1 1 {1000 + number}"
    yield from ["stop p 0 drop", "restart p"] * restarts
    yield from ("user 1 route k", "settle")


def transactions(count, value="100*x", each=TRANSACTIONS_PER_SETTLE, loads=0):
    """Transactions of one put on one range; then the server stops and the range is loaded again, so many times."""
    yield from (f"setup 3 1 {TARGET} 64", "moment 1", "assign 1 1 1000000", "settle")
    yield from settled(lambda number: [f"user 1 tx 1 1 +k{number:06}={value}"], count, each)
    yield from ["stop s1 0 drop", "restart s1", "assign 1 1 1000000", "settle"] * loads


def large_values(count, loads):
    """As above, with values that are kept by their places."""
    return transactions(count, f"{LARGE_VALUE}*x", loads=loads)


def puts(count, of, of_range=1, first=0):
    """Transactions of one put of 100 bytes, on keys from the first on that come again after so many."""
    return settled(lambda number: [f"user 1 tx 1 {of_range} +k{first + number % of:06}=100*x"], count, TRANSACTIONS_PER_SETTLE)


def checkpoints(keys, parts, loads=0, second="plain"):
    """One range with so many keys, in parts, of which the first so many are made: each key is put; a checkpoint; each key is
    put again; a second checkpoint, `plain` or `combine`; each key is read in order. Then it is loaded again, so many times."""
    yield from (f"setup 3 1 {TARGET} 64", "moment 1", "assign 1 1 1000000", "settle")
    first, second = (["checkpoint 1 1 " + manner, "settle"] for manner in ("plain", second))
    reads = (line for number in range(keys) for line in (f"user 1 get 1 1 k{number:06}", "settle"))
    for part in [puts(keys, keys), first, puts(keys, keys), second, reads][:parts]:
        yield from part
    yield from ["stop s1 0 drop", "restart s1", "assign 1 1 1000000", "settle"] * loads


def held_gets(keys, gets):
    """One range with so many keys, a checkpoint of them, and one Get in each page, by which all pages are held; then so many Gets of
    all keys by turns."""
    yield from checkpoints(keys, 2)
    for number in [*range(0, keys, KEYS_PER_PAGE), keys - 1]:
        yield from (f"user 1 get 1 1 k{number:06}", "settle")
    yield from settled(lambda number: [f"user 1 get 1 1 k{number * 7919 % keys:06}"], gets, REQUESTS_PER_SETTLE)


def loads_behind(keys, since, loads):
    """One range with so many keys and a checkpoint of them, after which so many puts come; then it is loaded, so many times."""
    yield from (f"setup 3 1 {TARGET} 64", "moment 1", "assign 1 1 1000000", "settle")
    yield from puts(keys, keys)
    yield from ("checkpoint 1 1 plain", "settle")
    yield from puts(since, keys)
    yield from ["stop s1 0 drop", "restart s1", "assign 1 1 1000000", "settle"] * loads


def one_split(keys, splits):
    """One range with so many keys of 100 bytes, which is then split in its middle, so many times, never or once. Its streams have one
    extent each: the log's is 1, that of row data 2, and that of the metadata 3."""
    yield from (f"setup 3 1 {TARGET} 64", "moment 1", "assign 1 1 1000000", "settle")
    yield from puts(keys, keys)
    yield from [f"split 1 1 k{keys // 2:06}", "settle", "decide 3", "settle", "decide 1", "settle", "decide 2", "settle"] * splits


def one_merge(keys, merges):
    """Two ranges that a split of an empty one made, with so many keys of 100 bytes each, which are then merged, so many times, never or
    once. The logs are the extents 5 and 6, and row data 7 and 8."""
    yield from (f"setup 3 1 {TARGET} 64", "moment 1", "assign 1 1 1000000", "settle")
    yield from (f"split 1 1 k{keys:06}", "settle", "decide 2", "settle", "decide 1", "settle")
    yield from ("assign 2 1 1000000", "assign 3 1 1000000", "settle")
    yield from puts(keys, keys, 2)
    yield from puts(keys, keys, 3, keys)
    seals = (line for extent in (5, 7, 6, 8) for line in (f"decide {extent}", "settle"))
    yield from ["merge 1 2 3", "settle", *seals] * merges


def metadata_of(number):
    """The extent of the metadata of a range that a split of an empty range made: each split makes one of row data and these two."""
    return 2 if number == 1 else 3 * (number // 2) + number % 2


def halves(ranges, keys):
    """The splits that make so many ranges of one with so many keys, the oldest range first: of each the range, its middle key, and a
    map of the first and the last key of each range that there is then. Split N is of range N and makes ranges 2 N and 2 N + 1."""
    within = {1: (0, keys)}
    for number in range(1, ranges):
        low, high = within.pop(number)
        middle = (low + high) // 2
        within[2 * number], within[2 * number + 1] = (low, middle), (middle, high)
        yield number, middle, within


def gets_of_ranges(ranges, rounds):
    """So many ranges, made by splits of one with some keys, and held by one server; then so many Gets in each, range by range, of
    which the first reads its page, and a settle behind each. There are as many keys for each number of ranges, so that pages are
    as full."""
    yield from checkpoints(KEYS_OF_RANGES, 1)
    for number, middle, within in halves(ranges, KEYS_OF_RANGES):
        # Each split makes one extent of row data and two of metadata; behind the first one the log is 1, row data 2, metadata 3.
        metadata = 3 if number == 1 else 3 * (number // 2) + 1 + number % 2
        seals = [metadata, 1, 2] if number == 1 else [metadata, 3 * number]
        yield from (f"split 1 {number} k{middle:06}", "settle")
        yield from (line for extent in seals for line in (f"decide {extent}", "settle"))
        yield from (f"assign {number + 1} 1 1000000", "settle")
    yield from (line for number in range(ranges + 1, 2 * ranges) for line in (f"assign {number} 1 1000000", "settle"))
    for round in range(rounds):
        for number, (low, high) in sorted(within.items()):
            yield from (f"user 1 get 1 {number} k{low + round % (high - low):06}", "settle")


def many_ranges(ranges, routes):
    """So many ranges, made of an empty one by splits; then so many routes, of all keys by turns."""
    yield from (f"setup 3 1 {TARGET} 64", "moment 1", "assign 1 1 1000000", "settle")
    for number, middle, _ in halves(ranges, 1 << 20):
        rows = 1 if number == 1 else 3 * number - 1
        yield from (f"split 1 {number} k{middle:07}", "settle", f"decide {metadata_of(number)}", "settle", f"decide {rows}", "settle")
        yield from (f"assign {number + 1} 1 1000000", "settle")
    yield from settled(lambda number: [f"user 1 route k{number * 7919 % (1 << 20):07}"], routes, REQUESTS_PER_SETTLE)
