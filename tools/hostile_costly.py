"""The fixed cases: the costliest legal inputs that are known."""
import itertools

from hostile_readers import MOST_CONTROLS
from megaphone_tools import OLD

# How many events the large ones have.
COUNT = 250_000
# How many bytes a file may have.
MOST = 1 << 28
# So many lines of a file are made at a time, since what this script holds counts as memory of the runs that it begins.
LINES = 10_000


def bids(count, when, auction):
    return b"".join(b"B|%d|%d|%d|100\n" % (when(i), auction(i), i % 1000) for i in range(count))


def sales(count):
    """One seller's auctions, each with a bid, of one category."""
    return b"".join(b"A|%d|%d|1|10|0|%d\nB|%d|%d|7|100\n" % (i, i, i + 50, i + 1, i) for i in range(count))


def waiting(count):
    return b"".join(b"A|%d|%d|8|10|0|%d\n" % (i, i, i + 1) for i in range(count - 1)) + b"P|%d|8|Ann|Reno|OR\n" % count


def endings(count):
    """Auctions that end in no order, each after all have begun."""
    return b"".join(b"A|%d|%d|%d|10|0|%d\n" % (i, i, i % 1000, 200_000 + i * 7919 % count) for i in range(count))


def moves(count, when, bins, workers):
    return b"".join(b"M|%d|0|%d|%d\n" % (when(i), i % bins, (i + 1) % workers) for i in range(count))


def rounds(count, stages, bins, workers):
    """Control records at as many times, of the bins of all stages in turn: each bin goes round the workers."""
    return b"".join(b"M|%d|%d|%d|%d\n" % (i, i % stages, i // stages % bins, (i // stages % bins + i // stages // bins + 2) % workers) for i in range(count))


def firsts(stages, bins, workers):
    """A first owner of each bin of each stage, each another than the bin has otherwise."""
    return b"".join(b"first|%d|%d|%d\n" % (stage, bin, (bin + 1) % workers) for stage in range(stages) for bin in range(bins))


def drains(count, worker):
    """As many drains: of two workers in turn, beginning with this one."""
    return b"".join(b"drain|%d|0|0|%d\n" % (i, (worker + i) % 2) for i in range(count))


def costly():
    """The fixed cases: what each is, its words, its events and its configuration."""
    down = bids(COUNT, lambda i: COUNT - i, lambda i: i % 100_003)
    one_time = bids(COUNT, lambda i: 5, lambda i: i % 100_003)
    one_key = bids(COUNT, lambda i: i, lambda i: 7)
    one_group = bids(COUNT, lambda i: 5, lambda i: 7)
    usual = bids(25_000, lambda i: i, lambda i: i % 1000)
    fewer = bids(25_000, lambda i: 25_000 - i, lambda i: i % 10_003)
    for query in ("q1", "q5"):
        yield f"times descending, {query}", f"run --query {query}", down, b""
        yield f"all at one time, {query}", f"run --query {query}", one_time, b""
        yield f"one key, {query}", f"run --query {query}", one_key, b""
        yield f"one key at one time, {query}", f"run --query {query}", one_group, b""
        yield f"one key, {query}, 256 bins", f"run --query {query} --bins 256", one_key, b""
        shape = "--workers 16 --bins 256 --depth 1"
        yield f"25,000 bids, times descending, {query}, {shape}", f"replay --query {query} {shape}", fewer, b""
    yield "125,000 auctions of one seller, each with a bid, q6", "run --query q6", sales(COUNT // 2), b""
    yield "249,999 auctions wait for their seller, q3", "run --query q3", waiting(COUNT), b""
    ends = f"{COUNT // 2:,} auctions end in no order, and their one bin moves before that, q4"
    yield ends, "replay --query q4 --workers 2 --bins 1", endings(COUNT // 2), b"M|150000|0|0|1\n"
    for shape in ("--workers 2 --bins 1", "--workers 16 --bins 1 --depth 1"):
        options = f"replay --query q1 {shape}"
        workers = int(shape.split()[1])
        yield f"25,000 bids, 65,536 control records of one bin at one time, {shape}", options, usual, moves(MOST_CONTROLS, lambda i: 500, 1, workers)
        yield f"25,000 bids, 65,536 control records of one bin at as many times, {shape}", options, usual, moves(MOST_CONTROLS, lambda i: i, 1, workers)
    yield "25,000 bids, 256 plan lines of 256 bins, 4 workers", "replay --query q1 --workers 4 --bins 256", usual, b"".join(b"all|%d|0|%d\n" % (100 * i, i % 4) for i in range(256))
    yield "each bid wakes its key at six times of its own, q5", "run --query q5", bids(COUNT, lambda i: 7 * i, lambda i: i % 100_003), b"V|2\nrule|slide|1\n"
    yield "one key, 6 slides of 7,200, q5", "run --query q5", one_key, b"V|2\nrule|slide|7200\n"
    yield "125,000 auctions of one seller, each with a bid, the last 100 prices, q6", "run --query q6", sales(COUNT // 2), b"V|2\nrule|last|100\n"
    shape = "--workers 4 --bins 4096"
    settings = firsts(2, 4096, 4) + rounds(MOST_CONTROLS, 2, 4096, 4)
    full = "8,192 first owners, 65,536 control records"
    yield f"{full}, q4, {shape}", f"replay --query q4 {shape}", sales(12_500), b"V|2\n" + settings
    yield f"25,000 bids, 2 rules, {full}, q5, {shape}", f"replay --query q5 {shape}", usual, b"V|2\nrule|slide|7200\nrule|slides|5\n" + settings
    shape = "--workers 2 --bins 4096"
    # The first drain is of half of the bins, each of the others of all.
    yield f"25,000 bids, 16 drains of up to 4,096 bins, q1, {shape}", f"replay --query q1 {shape}", usual, b"V|2\n" + drains(16, 0)
    yield f"25,000 bids, 10,000 drains that find no bin but the first, q1, {shape}", f"replay --query q1 {shape}", usual, b"V|2\n" + b"drain|0|0|0|1\n" * 10_000
    yield "a price of 1,000,000 zeros and a 7", "run --query q1", b"B|1|1|1|" + b"0" * 1_000_000 + b"7\n", b""


def in_turn(rounds, workers):
    """A journal in which each worker takes in a record and posts it, so many rounds, the last worker first."""
    return b"".join(b"s|%d|I\ns|%d|X|%d\n" % (w, w, workers * (i + 1) - w) for w in range(workers) for i in range(rounds))


def audits():
    """The fixed cases of journals: what each is, its words, its files, or None where those of the case before stay, and its status."""
    down = bids(COUNT, lambda i: COUNT - i, lambda i: i % 100_003)
    fewer = bids(25_000, lambda i: 25_000 - i, lambda i: i % 10_003)
    usual = bids(25_000, lambda i: i, lambda i: i % 1000)
    plan, each = b"all|10000|0|1\n", moves(MOST_CONTROLS, lambda i: i, 1, 16)
    for what, command, options, events, config in (
        ("times descending", "run", "--query q1", down, b""),
        ("times descending", "run", "--query q5", down, b""),
        ("25,000 bids, times descending, each bin moves", "replay", "--query q1 --workers 16 --bins 256 --depth 1", fewer, plan),
        ("25,000 bids, times descending, each bin moves", "replay", "--query q5 --workers 16 --bins 256 --depth 1", fewer, plan),
        ("25,000 bids, 65,536 control records of one bin at as many times", "replay", "--query q1 --workers 16 --bins 1 --depth 1", usual, each),
    ):
        yield f"{what}, {options}, with a journal", f"{command} {options} --journal j", {"e": events, "c": config, "o": OLD}, 0
        yield "its audit", f"audit {options} --journal j", None, 0
    files = {"e": bids(2**20 // 2, lambda i: i, lambda i: 7), "c": b"", "o": b"".join(b"%d|7|%d|89\n" % (i, i % 1000) for i in range(2**20 // 2))}
    yield f"an audit of {2**20:,} lines of one kind, half as many bids", "audit --query q1 --journal j", files | {"j": b"s|0|I\n" * 2**20}, 13
    turns = "each bid is posted before the next, the last worker first"
    yield f"an audit of {2**20:,} lines, {turns}, --workers 64", "audit --query q1 --workers 64 --journal j", files | {"j": in_turn(2**13, 64)}, 13
    most = MOST // len(b"s|0|I\n") // LINES * LINES
    yield f"an audit of {most:,} lines of one kind, no event", "audit --query q1 --journal j", {"e": b"", "c": b"", "o": b"", "j": itertools.repeat(b"s|0|I\n" * LINES, most // LINES)}, 13


def in_parts(lines):
    """These lines, some at a time."""
    lines = iter(lines)
    while part := b"".join(itertools.islice(lines, LINES)):
        yield part


def full(first, line, most=MOST, last=b"E|%d\n"):
    """The parts of a checkpoint of about so many bytes: its first line, as many lines by their number as fit in, and its last line."""
    yield first
    left, count = most - len(first) - 100, 0
    while left > 0:
        part = b"".join(map(line, range(count, count + LINES)))
        left, count = left - len(part), count + LINES
        yield part
    yield last % count


def open_auctions(count):
    """As many auctions, which end in no order after all have begun, each at a time of its own."""
    return in_parts(b"A|%d|%d|%d|10|0|%d\n" % (i, i, i % 1000, 2 * count + i * 7919 % count) for i in range(count))


def closing_at_once(count):
    """As many auctions, which end at one time after all have begun."""
    return in_parts(b"A|%d|%d|7|10|0|%d\n" % (i, i, 2 * count) for i in range(count))


def keys_waking(last=b"E|%d\n"):
    """A checkpoint of nearly the greatest size, of wakes of as many keys at one time."""
    return full(b"K|1|q4|50\n", lambda i: b"w|0|%d|50\n" % i, MOST - 200_000, last)


def long_cells(count, times):
    """A checkpoint of so many cells that each hold so many times."""
    yield b"K|1|q5|50|600|6\n"
    for key in range(count):
        yield b"c|0|%d|49" % key + b"|49" * (times - 1) + b"\n"
    yield b"E|%d\n" % count


def too_many_ids():
    """A checkpoint of nearly the greatest size with one cell, which has more ids than a cell may."""
    yield b"K|1|q3|50|10\nc|0|7|0"
    yield from itertools.repeat(b"|5" * LINES, MOST // (2 * LINES) - 1)
    yield b"\nE|1\n"


def restarts():
    """The fixed cases of runs that stop and go on: what each is, its words, its files, or None where those of the case before stay, and its status."""
    count, stop = 1_000_000, "--until 1000000 --save s"
    moves = b"".join(b"M|%d|0|0|%d\n" % (2 * count + i * 50_000, i % 2) for i in range(16))
    for what, events in (("1,000,000 auctions are open", open_auctions(count)), ("1,000,000 auctions end at one time", closing_at_once(count))):
        yield f"{what}, stop, q4", f"run --query q4 --workers 2 --bins 1 {stop}", {"e": events, "c": moves, "o": OLD}, 0
        yield "going on, their bin moves 16 times", "replay --query q4 --workers 2 --bins 1 --from s", None, 0
        yield "going on, --workers 4 --bins 4096", "replay --query q4 --workers 4 --bins 4096 --from s", None, 0
    yield "1,000,000 bids, stop, q5", f"run --query q5 {stop}", {"e": bids(count, lambda i: i, lambda i: i % 100_003), "c": b"", "o": OLD}, 0
    yield "going on", "run --query q5 --from s", None, 0
    none = {"e": b"", "c": b"", "o": b""}
    lots = full(b"K|1|q4|50\n", lambda i: b"c|0|%d|0|1|7\n" % i, MOST // 2)
    later = full(b"K|1|q4|50\n", lambda i: b"w|0|7|%d\n" % (50 + i), MOST // 2)
    yield "a checkpoint of nearly 2^28 bytes, wakes of as many keys at one time, q4", "run --query q4 --bins 1 --from s", none | {"s": keys_waking()}, 0
    yield "one whose last line lacks its end, q4", "run --query q4 --from s", none | {"s": keys_waking(b"E|%d")}, 11
    yield "one of some 2^27 bytes, all lines cells, q4", "run --query q4 --from s", none | {"s": lots}, 0
    yield "one of some 2^27 bytes, wakes of one key, q4", "run --query q4 --from s", none | {"s": later}, 0
    yield "one of one cell with too many ids, q3", "run --query q3 --from s", none | {"s": too_many_ids()}, 11
    yield "80 cells of 1,000,000 times, q5", "run --query q5 --from s", none | {"s": long_cells(80, 1_000_000)}, 0
