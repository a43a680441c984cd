"""Cases that are drawn from a seed: words, an event file, a pipeline, a configuration, an answer, a checkpoint and a journal that are near
well-formed ones, and what is wanted of them."""
import os
import random
import re

from hostile_readers import COMPARED, COUNT, FORMS, LAST, MOST_CONTROLS, NUMBER, PRICE, RULES, TESTS, TIME, WAKING, WIDTH
from hostile_readers import configuration_of, events_of, is_checkpoint, journal_of, stages_of, steps_of
from megaphone_tools import OLD, STAGES, read

SAID = {
    0: rb"",
    2: rb"usage: megaphone run\|replay\|check\|make\|demo\|audit\n",
    3: rb"events line [1-9][0-9]*: (count|kind|fields|number|range|name|order)\n",
    4: rb"config line [1-9][0-9]*: (kind|fields|number|range|name|late|twice|count)\n",
    5: rb"no file .*\n",
    6: rb"read fault\n",
    7: rb"write fault\n",
    9: rb"too large: .*\n",
    11: rb"bad checkpoint .*\n",
    12: rb"pipe line [1-9][0-9]*: (kind|fields|number|range|order|count|end)\n",
    13: rb"no legal run\n",
    14: rb"journal line [1-9][0-9]*: (kind|fields|number|range|order)\n",
}
SAID_BY = {
    "check": rb"ok [0-9]+ events [0-9]+ controls\n",
    "demo": rb"events [0-9]+ rows [0-9]+ bytes [0-9]+ hash [0-9]+\n",
    "audit": rb"legal [0-9]+ steps\n",
}

BASES = [
    b"B|5|7|2|100\nB|3|7|1|250\nB|5|2|9|99\n",
    b"A|0|1|9|10|50|100\nB|50|1|2|60\nB|100|1|3|90\n",
    b"P|9|8|Ann|Reno|OR\nA|10|1|8|10|0|99\nA|19|2|8|10|0|99\r\n\r\nA|20|3|8|10|0|99\nB|12|1|4|000100\n",
    b"A|0|1|9|4|0|140737488355328\nB|1|1|5|7\nP|43199|6|" + b"\xff" * 64 + b"|" + b"x" * 64 + b"|CA\n",
    b"",
]
CONFIGS = [b"", b"", b"M|10|0|0|1\nM|20|0|0|0\n", b"all|5|0|1\nfluid|6|30|0|2\n", b"batch|25|10|2|0|1\r\n\nM|0|0|3|0\n", b"M|50|0|0|1"]
# The same for version 2 alone.
DRAINS = [b"drain|25|10|0|0\n", b"M|10|0|0|1\ndrain|10|7|0|0\ndrain|30|0|0|1\nall|31|0|1", b"fluid|6|30|0|2\ndrain|36|1|0|1\r\n", b"drain|140737488355327|1|0|0\n"]
PIPES = [
    b"on|B\npass|1|3|0|any|0\n",
    b"on|B\nsum|1|3|3|ge|60\ncount|1|2|0|any|0\n",
    b"on|B\n\nwindow|2|3|0|lt|1000000000000000000|100\r\ncount|2|0|1|eq|2\nsum|1|2|0|any|7\npass|0|1|2|ge|1",
    b"on|A\ncount|2|5|3|eq|10\nsum|2|1|0|any|0\n",
    b"\non|P\nwindow|1|0|1|any|0|43200\n",
]
# By query and stage, texts of cells that may be saved at some time.
BIDDINGS = [b"1|9|10|0|100|1|60", b"1|9|10|50|140737488355328|0", b"0|1|60", b"0|1|1000000000000"]
CELLS = {
    ("q3", 0): [b"1|Ann|Reno|OR", b"1|" + b"\xff" * 64 + b"|x|CA", b"0|5", b"0|9|7|7"],
    ("q4", 0): BIDDINGS,
    ("q4", 1): [b"60|1", b"0|7", b"1000000000000000000|1000000"],
    ("q5", 0): [b"0", b"3|3|4", b"40|49"],
    ("q6", 0): BIDDINGS,
    ("q6", 1): [b"10", b"10|1000000000000"],
    ("q7", 0): [b"1|2|50", b"281474976710656|0|0"],
    ("q8", 0): [b"1|Ann|0", b"1|Bob|1", b"0|1"],
}
# Keys of these cells, times at which they are saved, and how much later their wakes are.
KEYS, STOPS, LATER = [0, 1, 2, 5, 8, 9, 10, 600, 1200, 43_200, NUMBER], [1, 5, 20, 50, 50, 100, 600, 43_200, TIME], [0, 1, 50, 550, 43_200]
# Kinds of lines of a configuration, of a pipeline, of a journal and of a checkpoint, and the names of the rules of all queries.
LINE_WORDS = [b"V", b"first", b"rule", b"drain", b"M", b"all", b"on", *FORMS, *TESTS, *(name for rules in RULES.values() for name in rules), b"s", *steps_of(0, 0)]
LINE_WORDS += [b"K", b"c", b"w", b"E", *(query.encode() for query in STAGES)]
LIMITS = [0, 1, 2, 3, 4, 6, 16, 63, 64, 65, 100, 255, 256, 1000, 1024, 1025, 4096, 4097, 7200, 43_200, WIDTH, COUNT, MOST_CONTROLS, PRICE, COMPARED, TIME, LAST, NUMBER, 1 << 32, 1 << 63, 1 << 64, 1 << 128]
WORDS = [b"", b"--", b"-", b"--query", b"--out", b"--seed", b"--pipe", b"--journal", b"--paced", b"--until", b"--save", b"--from", b"audit", b"pipe", b"p", b"=", b"q0", b"q9", b"Q1"]
WORDS += [b".", b"/", b"e", b"c", b"o", b"r", b"s", b"j", b"none", b"\xff\xfe", b"1e3", b"+1", b"-1", b"0x10"]


def number(draw):
    value = max(0, draw.choice(LIMITS) + draw.choice((-1, 0, 0, 1)))
    return b"0" * draw.choice((0, 0, 0, 1, 30, 2000)) + (b"%d" % value if draw.random() < 0.9 else b"9" * draw.choice((19, 20, 21, 1000)))


def rule_value(draw, limits):
    """A value of a rule, within its limits but for one in twenty."""
    least, greatest = limits[0], limits[-1]
    beside = draw.choice((max(0, least - 1), greatest + 1))
    return draw.choice((least, greatest, draw.choice(limits))) if draw.random() < 0.95 else beside


def version_two(draw, query, stages, workers, bins):
    """A configuration with rules of the query and first owners, and control lines behind them."""
    lines = [b"rule|%s|%d" % (name, rule_value(draw, limits)) for name, limits in RULES[query].items() if draw.random() < 0.7]
    places = [(stage, bin) for stage in range(stages) for bin in range(bins)]
    some = draw.sample(places, min(len(places), draw.choice((0, 1, 2, 8, 600))))
    lines += [b"first|%d|%d|%d" % (stage, bin, draw.randrange(workers)) for stage, bin in some]
    draw.shuffle(lines)
    begin, end = draw.choice((b"", b"", b"\r\n\n")), draw.choice((b"\n", b"\n", b"\r\n", b"\n\n"))
    return begin + end.join([b"V|2" if draw.random() < 0.9 else b"V|1", *lines, draw.choice(CONFIGS + DRAINS)])


def any_steps(draw, stages, workers):
    """A journal of any steps, worker by worker but for one in ten, with numbers within their limits but for one line in fifty."""
    steps, lines = steps_of(stages, workers), []
    by = draw.choices(range(workers), k=draw.choice((0, 1, 5, 100)))
    for worker in sorted(by) if draw.random() < 0.9 else by:
        letter = draw.choice(list(steps))
        behind = [b"%d" % draw.choice(limit[:9]) if draw.random() < 0.98 else number(draw) for limit in steps[letter]]
        lines.append(b"|".join([b"s", b"%d" % worker, letter, *behind]) + b"\n")
    return b"".join(lines)


def any_checkpoint(draw, query, values):
    """A checkpoint of any cells and wakes, most of them within their limits."""
    until, lines = draw.choice(STOPS), []
    for stage in range(STAGES[query]):
        for key in sorted(draw.sample(KEYS, draw.choice((0, 1, 2, 5)))):
            if (query, stage) in CELLS and draw.random() < 0.8:
                lines.append(b"c|%d|%d|%s" % (stage, key, draw.choice(CELLS[query, stage])))
            if query in WAKING and stage == 0:
                lines += [b"w|0|%d|%d" % (key, until + later) for later in LATER if draw.random() < 0.3]
    head = b"|".join([b"K|1", query.encode(), b"%d" % until, *(b"%d" % value for value in values)])
    return b"".join(line + b"\n" for line in (head, *lines, b"E|%d" % len(lines)))


FIELD_ENDS = (b"|", b"\r", b"\n")


def piece(draw, text):
    """The place of a field of a text: that around any place. A journal may have a million, so they aren't listed."""
    at = draw.randint(0, len(text))
    begin = 1 + max(text.rfind(mark, 0, at) for mark in FIELD_ENDS)
    ends = [text.find(mark, at) for mark in FIELD_ENDS]
    return begin, min((end for end in ends if end >= 0), default=len(text))


class Places:
    """The places of a text that a change takes: any one, and any two in their order."""

    def __init__(self, draw, text):
        self.at, other = (draw.randint(0, len(text)) for _ in range(2))
        self.low, self.high = min(self.at, other), max(self.at, other)


def cut_off(draw, index, text, places):
    return text[: places.at]


def cut_out(draw, index, text, places):
    return text[: places.low] + text[places.high :]


def put_byte(draw, index, text, places):
    return text[: places.at] + bytes([index % 256]) + text[places.at :]


def replace_byte(draw, index, text, places):
    return text[: places.at] + bytes([index % 256]) + text[places.at + 1 :]


def shuffle_lines(draw, index, text, places):
    lines = text.split(b"\n")
    draw.shuffle(lines)
    return b"\n".join(lines)


def repeat(draw, index, text, places):
    return text[: places.high] + text[places.low : places.high] * draw.choice((1, 2, 20)) + text[places.high :]


def put_number(draw, index, text, places):
    begin, end = piece(draw, text)
    return text[:begin] + number(draw) + text[end:]


def put_bytes(draw, index, text, places):
    begin, end = piece(draw, text)
    return text[:begin] + bytes(draw.choices(range(256), k=draw.choice((0, 1, 63, 64, 65)))) + text[end:]


def put_line(draw, index, text, places):
    """One of the lines stands elsewhere, or there too."""
    lines = text.split(b"\n")
    line = draw.choice(lines)
    if draw.random() < 0.5:
        lines.remove(line)
    lines.insert(draw.randint(0, len(lines)), line)
    return b"\n".join(lines)


def put_word_of_a_line(draw, index, text, places):
    """A kind of line, or the name of a rule, in place of a field."""
    begin, end = piece(draw, text)
    return text[:begin] + draw.choice(LINE_WORDS) + text[end:]


def swap_fields(draw, index, text, places):
    begin, end = piece(draw, text)
    first, last = piece(draw, text)
    if end > first:
        begin, end, first, last = first, last, begin, end
    if end > first:
        return text[::-1]
    return text[:begin] + text[first:last] + text[end:first] + text[begin:end] + text[last:]


CHANGES = [cut_off, cut_out, put_byte, replace_byte, shuffle_lines, repeat, put_number, put_bytes, put_line, put_word_of_a_line, swap_fields]


def change(draw, index, text):
    """Another text that is near this one."""
    places = Places(draw, text)
    return draw.choice(CHANGES)(draw, index, text, places)


def drop_word(draw, words, at, other):
    del words[at]


def repeat_word(draw, words, at, other):
    words.insert(at, words[other])


def swap_words(draw, words, at, other):
    words[at], words[other] = words[other], words[at]


def put_word(draw, words, at, other):
    words[at] = draw.choice(WORDS)


def put_number_word(draw, words, at, other):
    words[at] = number(draw)


def change_word(draw, words, at, other):
    words[at] = change(draw, draw.randrange(1, 256), words[at]).replace(b"\0", b"")


WORD_CHANGES = [drop_word, repeat_word, swap_words, put_word, put_number_word, change_word]


def change_words(draw, words):
    """Changes the words to others that are near them."""
    at, other = draw.randrange(len(words)), draw.randrange(len(words))
    draw.choice(WORD_CHANGES)(draw, words, at, other)


class Case:
    """A case: its words, what its files hold before the run, and what they hold by the readers, where the words are whole."""

    def __init__(self, seed, index):
        self.index, self.draw = index, random.Random(f"{seed} {index}")
        draw = self.draw
        self.query = draw.choice([*STAGES, "pipe", "pipe"])
        self.workers, self.bins = draw.choice(((1, 1), (1, 16), (2, 1), (3, 4), (3, 4), (16, 256), (64, 16)))
        self.command = draw.choices(("check", "replay", "run", "make", "demo", "audit"), (52, 18, 14, 3, 3, 10))[0]
        line, before = self.lines()
        # The words, and those of the run whose files an audit or a run from a checkpoint gets, if this is one.
        self.words, self.before, self.is_whole = line.encode().split(), before.encode().split(), True
        # What the files held behind that run, and the steps of its journal.
        self.ran, self.steps = None, None
        self.files = dict.fromkeys("orsj", OLD) | {"e": draw.choice(BASES), "p": draw.choice(PIPES)}
        self.files["c"] = draw.choice(CONFIGS) if draw.random() < 0.4 else version_two(draw, self.query, self.stages(), self.workers, self.bins)
        what = draw.choices(("e", "c", "ec", "words"), (45, 25, 15, 15))[0]
        if self.query == "pipe" and draw.random() < 0.6:
            what = "p"
        if not self.before or draw.random() < 0.3:
            self.change(what)

    def lines(self):
        """Words that are whole, and those of the run whose files they read, or none."""
        draw, shape = self.draw, f"--workers {self.workers} --bins {self.bins}"
        if self.command == "make":
            return f"make --count {draw.randrange(60)} --out o --seed {draw.randrange(1 << 48)}", ""
        if self.command == "demo":
            return f"demo --query {draw.choice(list(STAGES))} --count {draw.randrange(60)} {shape}", ""
        asked = f"--query {self.query} --events e --config c {shape}" + (" --pipe p" if self.query == "pipe" else "")
        if self.command == "check":
            return f"check {asked}", ""
        asked += f" --out o --depth {draw.choice((1, 2, 64))}" + draw.choice(("", " --paced"))
        if self.command == "audit":
            return f"audit {asked} --journal j", f"replay {asked} --journal j --seed {self.index}"
        return self.lines_of_part(asked, draw.choice(("", " --report r")))

    def lines_of_part(self, asked, report):
        """The same of a run, of all events or of a part of them."""
        part = "all" if self.query == "pipe" else self.draw.choice(("all", "until", "from"))
        stop = f" --until {self.draw.choice(STOPS)} --save s"
        words = {"all": self.draw.choice(("", " --journal j")), "until": stop, "from": " --from s"}
        return f"{self.command} {asked}{report}{words[part]}", f"replay {asked}{stop}" if part == "from" else ""

    def change(self, what):
        """Changes the files of these names, or the words, to others that are near them."""
        for _ in range(self.draw.choice((1, 1, 2, 4))):
            if what == "words" and self.words:
                change_words(self.draw, self.words)
                self.is_whole = False
            for name in what if what != "words" else "":
                self.files[name] = change(self.draw, self.index, self.files[name])

    def take_run(self, written):
        """Takes the files that the run before wrote and this one reads, and changes one of the files, or none, or puts any steps or lines in the
        place of the last one."""
        last = "j" if self.command == "audit" else "s"
        self.files |= {name: written[name] for name in ("oj" if last == "j" else "s")}
        self.ran, self.steps = dict(self.files), journal_of(self.files["j"], self.stages(), self.workers)
        what = self.draw.choices(("", last, "any", "o", "e", "c"), (10, 50, 10, 10, 10, 10))[0]
        if what != "any":
            self.change(what)
        elif last == "j":
            self.files["j"] = any_steps(self.draw, self.stages(), self.workers)
        else:
            self.files["s"] = any_checkpoint(self.draw, self.query, self.configuration().values())
            self.change(self.draw.choice(("", "s")))

    def written(self):
        """The files that may hold something else after a run that isn't refused."""
        if self.is_whole:
            names = {b"o", b"r", b"j"} | ({b"s"} if b"--save" in self.words else set())
            return names & set(self.words) if self.command in ("run", "replay", "make") else set()
        return set(self.words) | {word.partition(b"=")[2] for word in self.words}

    def stages(self):
        """How many stages the query has, or the first bad line of its pipeline and the check that it fails."""
        return STAGES[self.query] if self.query in STAGES else stages_of(self.files["p"])

    def configuration(self):
        """The configuration of the query, or its first bad line and the check that it fails."""
        return configuration_of(self.files["c"], self.query, self.stages(), self.workers, self.bins)

    def is_checkpoint(self, text):
        """Whether a text is the file of a checkpoint of the query, with the values that the configuration gives its rules."""
        return is_checkpoint(text, self.query, self.configuration().values())

    def wanted(self):
        """The status and the line of each end that the readers find right, where the words are whole and the files are read."""
        if not self.is_whole or self.command in ("make", "demo"):
            return None
        events = events_of(self.files["e"])
        if isinstance(events, tuple):
            return [(3, b"events line %d: %s\n" % (events[0], events[1].encode()))]
        stages = self.stages()
        if isinstance(stages, tuple):
            return [(12, b"pipe line %d: %s\n" % (stages[0], stages[1].encode()))]
        read = self.configuration()
        if isinstance(read, tuple):
            return [(4, b"config line %d: %s\n" % (read[0], read[1].encode()))]
        if self.command == "audit":
            return self.wanted_of_audit(journal_of(self.files["j"], stages, self.workers))
        if b"--from" in self.words and not self.is_checkpoint(self.files["s"]):
            return [(11, b"bad checkpoint s\n")]
        return [(0, b"ok %d events %d controls\n" % (events, read.count) if self.command == "check" else b"")]

    def wanted_of_audit(self, steps):
        """The same of an audit whose other files are whole: the run is legal, and another answer isn't, nor are more or fewer of the steps that
        each run of the job has as often."""
        if isinstance(steps, tuple):
            return [(14, b"journal line %d: %s\n" % (steps[0], steps[1].encode()))]
        legal, none = (0, b"legal %d steps\n" % len(steps)), (13, b"no legal run\n")
        changed = {name for name, held in self.files.items() if self.ran is None or held != self.ran[name]}
        if changed <= {"j"} and steps == self.steps:
            return [legal]
        if "o" in changed or changed == {"j"} and owed_in(steps) != owed_in(self.steps):
            return [none]
        return [legal, none]


def owed_in(steps):
    """The steps that each run of a job has as often, in no order: all but routes, receipts and exchanges."""
    return sorted(step for step in steps if step[1] not in (b"R", b"V", b"X"))


def is_said(words, status, said):
    """Whether a run by these words may say this at its end with this status."""
    command = words[0].decode(errors="replace") if words else ""
    line = SAID_BY.get(command, SAID[0]) if status == 0 else SAID.get(status)
    return line is not None and re.fullmatch(line, said, re.DOTALL)


def wrong_in(case, status, said):
    """What is wrong with the end of a case's run; None where nothing is."""
    if status is None or status < 0:
        return "no end in time" if status is None else f"ended by signal {-status}"
    if not is_said(case.words, status, said):
        return f"status {status} says {said}"
    wanted = case.wanted()
    if wanted and (status, said) not in wanted:
        return f"status {status} says {said}, and not {wanted}"
    if case.is_whole and not wanted and status != 0:
        return f"status {status} of whole words"
    before = case.files
    after = {name: read(name) for name in os.listdir(".")}
    for name in before.keys() | after.keys():
        if before.get(name) != after.get(name) and (status not in (0, 7) or os.fsencode(name) not in case.written()):
            return f"status {status} changes {name}"
    if case.is_whole and status == 0 and b"j" in case.written() and isinstance(journal_of(after["j"], case.stages(), case.workers), tuple):
        return "the journal has a bad line"
    if case.is_whole and status == 0 and b"s" in case.written() and not case.is_checkpoint(after["s"]):
        return "what is saved is no checkpoint"
    return None
