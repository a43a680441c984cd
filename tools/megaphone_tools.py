"""What several of the project's tools need."""
import os
import re
import select
import signal
import subprocess
import time
from dataclasses import dataclass

TOP = os.path.dirname(os.path.dirname(os.path.realpath(__file__)))
# The program, which the top's `megaphone` builds.
PROGRAM = f"{TOP}/crates/megaphone/out/megaphone"
# How many stages each query has.
STAGES = {"q1": 1, "q2": 1, "q3": 1, "q4": 2, "q5": 2, "q6": 2, "q7": 1, "q8": 1}
SECONDS = f"{TOP}/tools/proof-seconds.txt"
# What a file that a run may write holds before, where that is looked at.
OLD = b"as it was\n"


def read(name):
    """What a file holds; no bytes where it isn't there."""
    try:
        with open(name, "rb") as file:
            return file.read()
    except FileNotFoundError:
        return b""


def write(name, held):
    """Has a file hold these bytes, which may come in parts."""
    with open(name, "wb") as file:
        file.writelines([held] if isinstance(held, bytes) else held)


@dataclass
class Ended:
    """How a run ended: its status, which is None where it took too long, and below 0 where a signal ended it; what it said; its seconds on the
    clock and on processors; and the bytes of memory that it had at most."""

    status: int | None
    said: bytes
    seconds: float
    used: float
    memory: int


def wait(child, seconds):
    """Waits for the end of a child, and ends it after so many seconds where they aren't 0: its status and what it used."""
    ends = os.pidfd_open(child)
    is_late = not select.select([ends], [], [], seconds or None)[0]
    os.close(ends)
    if is_late:
        os.kill(child, signal.SIGKILL)
    _, ended, used = os.wait4(child, 0)
    return None if is_late else os.waitstatus_to_exitcode(ended), used


def run(program, words, seconds=0, surroundings=os.environ):
    """Runs a program on these words, for so many seconds at most where they aren't 0. What it complains of is dropped."""
    said, errors = os.memfd_create("said"), os.open(os.devnull, os.O_WRONLY)
    begun = time.perf_counter()
    try:
        places = [(os.POSIX_SPAWN_DUP2, said, 1), (os.POSIX_SPAWN_DUP2, errors, 2)]
        child = os.posix_spawn(program, [program, *words], surroundings, file_actions=places)
        status, used = wait(child, seconds)
        took = time.perf_counter() - begun
        text = os.pread(said, os.fstat(said).st_size, 0)
    finally:
        os.close(said)
        os.close(errors)
    return Ended(status, text, took, used.ru_utime + used.ru_stime, used.ru_maxrss << 10)


def built():
    """The program, which the top's `megaphone` builds where that isn't done yet."""
    subprocess.run([f"{TOP}/megaphone"], stdout=subprocess.DEVNULL, check=False)
    return PROGRAM


def minutes(seconds):
    """A time, as a progress line says it."""
    whole, rest = divmod(int(seconds), 60)
    return f"{whole} min {rest:02} s" if whole else f"{rest} s"


def machine():
    """The processors of this machine that the process may use, as the tables say them."""
    with open("/proc/cpuinfo", encoding="utf-8") as file:
        model = re.search(r"^model name\s*: (.*)$", file.read(), re.M)
    return f"{len(os.sched_getaffinity(0))} processors ({model[1] if model else 'of an unknown model'})"


def libraries():
    """The line of each crate in crates.txt by its name, and the libraries that it uses."""
    lines, uses = {}, {}
    with open(f"{TOP}/crates.txt", encoding="utf-8") as file:
        for line in file:
            head, _, libs = line.partition("#")[0].partition(":")
            if head.split():
                lines[head.split()[0]], uses[head.split()[0]] = line, libs.split()
    return lines, uses


def read_seconds():
    """What tools/proof-seconds.txt holds: by crate its processor seconds for proofs, tests and edits, and what it says in words by its key."""
    seconds, said = {}, {}
    for line in read(SECONDS).decode().splitlines():
        key, colon, text = line.partition(": ")
        if colon and not line.startswith("#"):
            said[key] = text
        elif line and not line.startswith("#"):
            name, *numbers = line.split()
            seconds[name] = [float(number) for number in numbers]
    return seconds, said


def put_between(page, name, text):
    """Puts the text between the two comments of a page that this name marks, in place of what stands there: whether they were found."""
    begin, end = f"<!-- {name}: begin -->", f"<!-- {name}: end -->"
    head, found, rest = read(page).decode().partition(begin)
    _, ended, tail = rest.partition(end)
    if not found or not ended:
        return False
    write(page, f"{head}{begin}\n{text.strip()}\n{end}{tail}".encode())
    return True
