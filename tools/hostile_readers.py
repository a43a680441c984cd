"""What the event file, the pipeline, the configuration, the checkpoint and the journal hold, read as docs/FORMATS.md says, and not as the
program does."""
TIME, NUMBER, PRICE, COUNT, VERSION = 1 << 47, 1 << 48, 10**12, 1_000_000, 1 << 48
MOST_CONTROLS, MOST_SHIFT, MOST_SIZE = 65_536, 255, 4096
MOST_STAGES, COMPARED, WIDTH = 4, 10**18, 43_200
# The greatest time of a wake, and the greatest sum of prices.
LAST, TOTAL = TIME + WIDTH, 10**18
NAME = object()


def up_to(most, least=0):
    return range(least, most + 1)


# What each kind of line holds behind its kind: numbers within their limits, and names.
EVENTS = {
    b"P": [up_to(TIME), up_to(NUMBER), NAME, NAME, NAME],
    b"A": [up_to(TIME), up_to(NUMBER), up_to(NUMBER), up_to(NUMBER), up_to(PRICE), up_to(TIME)],
    b"B": [up_to(TIME), up_to(NUMBER), up_to(NUMBER), up_to(PRICE)],
}
# How many fields a pipeline finds in each kind of events, and its other words.
PIPE_FIELDS = {b"P": 2, b"A": 6, b"B": 4}
FORMS, TESTS = (b"pass", b"count", b"sum", b"window"), (b"any", b"lt", b"eq", b"ge")
# The rules of each query, with the limits of their values.
RULES = {
    "q1": {b"num": up_to(1000), b"den": up_to(1000, 1)},
    "q2": {b"modulus": up_to(1_000_000, 1)},
    "q3": {b"category": up_to(NUMBER)},
    "q4": {},
    "q5": {b"slide": up_to(7200, 1), b"slides": up_to(6, 1)},
    "q6": {b"last": up_to(100, 1)},
    "q7": {b"width": up_to(43_200, 1)},
    "q8": {b"width": up_to(43_200, 1)},
    "pipe": {},
}
# The values that they have where no line gives them others.
GIVEN = {"q1": (89, 100), "q2": (123,), "q3": (10,), "q4": (), "q5": (600, 6), "q6": (10,), "q7": (600,), "q8": (43_200,), "pipe": ()}
# The queries that wake keys.
WAKING = ("q4", "q5", "q6", "q7", "q8")


def all_lines(text):
    lines = text.split(b"\n")
    return lines if lines[-1] else lines[:-1]


def lines_of(text):
    """The lines that aren't blank, each with its number."""
    for number, line in enumerate(all_lines(text), 1):
        line = line.removesuffix(b"\r")
        if line:
            yield number, line


def value_of(field):
    """What digits say, however many zeros stand before them."""
    return int(field.lstrip(b"0") or b"0")


def field_fault(field, limit):
    """The first check that a field fails: that of a name, of a name among these rules, of one of these words, or of a number."""
    if limit is NAME:
        return None if 1 <= len(field) <= 64 else "name"
    if isinstance(limit, dict):
        return None if field in limit else "name"
    if isinstance(limit, tuple):
        return None if field in limit else "kind"
    if not field or field.strip(b"0123456789"):
        return "number"
    return "range" if len(field.lstrip(b"0")) > 20 or value_of(field) not in limit else None


def fields_fault(fields, form):
    """The first check that fields fail, one for each that a line of the kind holds."""
    if len(fields) != len(form):
        return "fields"
    return next(filter(None, map(field_fault, fields, form)), None)


def event_fault(line):
    kind, *fields = line.split(b"|")
    if kind not in EVENTS:
        return "kind"
    if fault := fields_fault(fields, EVENTS[kind]):
        return fault
    return "order" if kind == b"A" and value_of(fields[5]) <= value_of(fields[0]) else None


def events_of(text):
    """How many events there are, or the first bad line and the check that it fails."""
    count = 0
    for number, line in lines_of(text):
        fault = "count" if count == COUNT else event_fault(line)
        if fault:
            return number, fault
        count += 1
    return count


class Pipeline:
    """The lines of a pipeline that were read so far: the kind of events, and how many stages."""

    def __init__(self):
        self.kind, self.stages = None, 0

    def fault(self, line):
        """The first check that the next line fails; a line that fails none is kept."""
        form, *fields = line.split(b"|")
        if form == b"on":
            return self.keep_kind(fields)
        return self.keep_stage(form, fields) if form in FORMS else "kind"

    def keep_kind(self, fields):
        if fault := fields_fault(fields, [tuple(PIPE_FIELDS)]):
            return fault
        fault = "order" if self.kind else None
        self.kind = fields[0]
        return fault

    def keep_stage(self, form, fields):
        place = range(3 if self.stages else PIPE_FIELDS.get(self.kind, 6))
        widths = [up_to(WIDTH, 1)] if form == b"window" else []
        if fault := fields_fault(fields, [place, place, place, TESTS, up_to(COMPARED), *widths]):
            return fault
        if self.kind is None or form == b"window" and self.stages:
            return "order"
        self.stages += 1
        return "count" if self.stages > MOST_STAGES else None


def stages_of(text):
    """How many stages a pipeline has, or the first bad line and the check that it fails."""
    read = Pipeline()
    for number, line in lines_of(text):
        if fault := read.fault(line):
            return number, fault
    return read.stages or (len(all_lines(text)) + 1, "end")


class Configuration:
    """The lines of a configuration that were read so far: its version, its control records, what first owners and rules, and the values of all
    rules."""

    def __init__(self, query, stages, workers, bins):
        self.workers, self.bins, self.rules = workers, bins, RULES[query]
        self.said_values = dict(zip(self.rules, GIVEN[query]))
        self.version, self.count, self.late, self.said = None, 0, False, set()
        # By stage and bin its first owner, and the time, the number and the worker of each of its control records.
        self.firsts, self.records = {}, {}
        stage, worker, shift, time = range(stages), range(workers), up_to(MOST_SHIFT), up_to(TIME)
        self.controls = {
            b"M": [time, stage, range(bins), worker],
            b"all": [time, stage, shift],
            b"fluid": [time, time, stage, shift],
            b"batch": [time, time, up_to(MOST_SIZE, 1), stage, shift],
        }
        self.drain = [time, time, stage, worker]
        self.first = [stage, range(bins), worker]

    def values(self):
        """The values of the rules, in their order."""
        return list(self.said_values.values())

    def form(self, kind, fields):
        """What a line of this kind holds behind its kind; None where no such line may stand here."""
        if kind == b"V" and self.version is None:
            return [up_to(2, 1)]
        if kind == b"first" and self.version == 2:
            return self.first
        if kind == b"drain" and self.version == 2:
            return self.drain
        if kind == b"rule" and self.version == 2:
            return [self.rules, self.rules.get(fields[0]) if fields else None]
        return self.controls.get(kind)

    def fault(self, line):
        """The first check that the next line fails; a line that fails none is kept."""
        kind, *fields = line.split(b"|")
        form = self.form(kind, fields)
        self.version = self.version or 1
        if form is None:
            return "kind"
        if fault := fields_fault(fields, form):
            return fault
        if kind == b"V":
            self.version = value_of(fields[0])
            return None
        if kind == b"rule":
            self.said_values[fields[0]] = value_of(fields[1])
            return self.keep_setting(fields[0])
        values = [value_of(field) for field in fields]
        if kind == b"first":
            self.firsts[values[0], values[1]] = values[2]
            return self.keep_setting((values[0], values[1]))
        return self.keep_controls(kind, values)

    def keep_setting(self, of):
        """Keeps that a line says a value of this rule, or the first owner of this bin of a stage."""
        fault = "late" if self.late else "twice" if of in self.said else None
        self.said.add(of)
        return fault

    def keep_controls(self, kind, values):
        """Keeps the control records of a line."""
        records = self.records_of(kind, values)
        if kind == b"drain" and self.workers == 1 or any(record[0] > TIME for record in records):
            return "range"
        for time, stage, bin, worker in records:
            self.count += 1
            self.records.setdefault((stage, bin), []).append((time, self.count, worker))
        self.late = True
        return "count" if self.count > MOST_CONTROLS else None

    def records_of(self, kind, values):
        """The control records that a line says: the time, stage, bin and worker of each."""
        if kind == b"M":
            return [tuple(values)]
        if kind == b"drain":
            time, gap, stage, worker = values
            bins = [bin for bin in range(self.bins) if self.owner(stage, bin, time) == worker]
            return [(time + turn * gap, stage, bin, self.other(worker, turn)) for turn, bin in enumerate(bins)]
        time, stage, shift = values[0], values[-2], values[-1]
        gap, size = 0 if kind == b"all" else values[1], values[2] if kind == b"batch" else 1
        return [(time + bin // size * gap, stage, bin, (bin + shift) % self.workers) for bin in range(self.bins)]

    def owner(self, stage, bin, time):
        """Who owns a bin at a time, by the lines so far."""
        records = [record for record in self.records.get((stage, bin), []) if record[0] <= time]
        return max(records)[2] if records else self.firsts.get((stage, bin), bin % self.workers)

    def other(self, worker, turn):
        """The worker of a turn of those that a worker's bins go to."""
        others = [(worker + 1 + step) % self.workers for step in range(self.workers - 1)]
        return others[turn % len(others)] if others else worker


def configuration_of(text, query, stages, workers, bins):
    """The configuration, or the first bad line and the check that it fails."""
    read = Configuration(query, stages, workers, bins)
    for number, line in lines_of(text):
        if fault := read.fault(line):
            return number, fault
    return read


def said(word):
    """The number that a word without leading zeros says; -1 where it says none, or one of more than twenty digits."""
    is_number = word.isdigit() and len(word) <= 20 and (word == b"0" or word[:1] != b"0")
    return int(word) if is_number else -1


def are_said(words, limits):
    """Whether words say numbers within these limits, one for each."""
    return len(words) == len(limits) and all(said(word) in limit for word, limit in zip(words, limits))


def is_person_or_waits(words):
    """Whether words say a person, or the auctions that wait for one."""
    if words[0] == b"1":
        return len(words) == 4 and all(field_fault(word, NAME) is None for word in words[1:])
    return words[0] == b"0" and 1 <= len(words) - 1 <= COUNT and are_said(words[1:], [up_to(NUMBER)] * (len(words) - 1))


def is_bidding(words):
    """Whether words say a lot, the best bid for it, or both."""
    has_lot, bid = words[0] == b"1", words[5 if words[0] == b"1" else 1 :]
    lot = [up_to(NUMBER), up_to(NUMBER), up_to(PRICE), up_to(TIME)] if has_lot else []
    best = [up_to(PRICE)] if bid[:1] == [b"1"] else []
    is_some = words[0] in (b"0", b"1") and bid[:1] in ([b"0"], [b"1"]) and (has_lot or best)
    return bool(is_some) and are_said(words[1 : 1 + len(lot)], lot) and are_said(bid[1:], best)


def is_seller(words):
    """Whether words say a name, that it sells, or both."""
    if words[0] == b"1":
        return len(words) == 3 and field_fault(words[1], NAME) is None and words[2] in (b"0", b"1")
    return words == [b"0", b"1"]


def are_times(words, until):
    """Whether words say times of bids, none below the one before, all below the time of the checkpoint."""
    times = [said(word) for word in words]
    return len(times) <= COUNT and all(time in range(until) for time in times) and times == sorted(times)


def is_cell(query, stage, words, until, values):
    """Whether words say a cell of a stage that may be saved at this time."""
    match query, stage:
        case "q3", 0:
            return is_person_or_waits(words)
        case "q4" | "q6", 0:
            return is_bidding(words)
        case "q4", 1:
            return are_said(words, [up_to(TOTAL), up_to(COUNT, 1)])
        case "q6", 1:
            return len(words) <= values[0] and are_said(words, [up_to(PRICE)] * len(words))
        case "q5", 0:
            return are_times(words, until)
        case "q7", 0:
            return are_said(words, [up_to(NUMBER), up_to(NUMBER), up_to(PRICE)])
        case "q8", 0:
            return is_seller(words)
    return False


def place_of(line, query, until, values):
    """The place of a line between the first and the last of a checkpoint, as its stage, its key, whether it is a wake and the wake's time; None where no
    such line may stand there."""
    kind, *words = line.split(b"|")
    if len(words) < 3 or said(words[1]) not in up_to(NUMBER):
        return None
    stage, key = map(said, words[:2])
    if kind == b"c" and is_cell(query, stage, words[2:], until, values):
        return stage, key, 0, 0
    if kind == b"w" and query in WAKING and stage == 0 and are_said(words[2:], [up_to(LAST, until)]):
        return stage, key, 1, said(words[2])
    return None


def is_checkpoint(text, query, values):
    """Whether a text is the file of a checkpoint of this query, with these values of its rules."""
    if text.count(b"\n") < 2:
        return False
    first, *lines, last, behind = text.split(b"\n")
    head, given = first.split(b"|"), [b"%d" % value for value in values]
    if len(head) < 4 or head[:3] + head[4:] != [b"K", b"1", query.encode(), *given] or said(head[3]) not in up_to(TIME, 1):
        return False
    places = [place_of(line, query, said(head[3]), values) for line in lines]
    ascend = None not in places and all(before < place for before, place in zip(places, places[1:]))
    return ascend and last == b"E|%d" % len(lines) and behind == b""


def steps_of(stages, workers):
    """What each kind of step has behind its letter: a stage, a worker or a version, or nothing."""
    stage = [range(stages)]
    return {b"I": [], b"C": [], b"R": stage, b"V": [range(workers)], b"E": stage, b"S": stage, b"A": stage, b"O": [], b"W": [], b"X": [up_to(VERSION)]}


def step_fault(line, steps, workers, before):
    """The first check that a line of a journal fails behind one of this worker."""
    kind, *fields = line.split(b"|")
    if kind != b"s":
        return "kind"
    if len(fields) < 2:
        return "fields"
    worker, letter, *number = fields
    if letter not in steps:
        return "kind"
    if fault := fields_fault([worker, *number], [range(workers), *steps[letter]]):
        return fault
    return "order" if value_of(worker) < before else None


def journal_of(text, stages, workers):
    """The steps of a journal, each its worker, its letter and what stands behind it, or the first bad line and the check that it fails."""
    steps, read = steps_of(stages, workers), []
    for number, line in lines_of(text):
        if fault := step_fault(line, steps, workers, read[-1][0] if read else 0):
            return number, fault
        _, worker, letter, *rest = line.split(b"|")
        read.append((value_of(worker), letter, *map(value_of, rest)))
    return read
