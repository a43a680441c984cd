"""How a crate is proved by the compiler of the kit, and what is kept of that."""
import hashlib
import os
import subprocess

from megaphone_tools import TOP, read

# The program's crate.
MAIN = "megaphone"


def out(crate):
    """Where a crate keeps what is made of it."""
    return f"{TOP}/crates/{crate}/out"


def proved(crate):
    """What the crates above read of a library that is proved. The sum of all that it was made from stands beside it."""
    return f"{out(crate)}/proved/{crate}.rlib"


def below(crate, uses):
    """The crate with all that it stands on, lowest first."""
    order = []

    def add(name):
        if name in uses and name not in order:
            for library in uses[name]:
                add(library)
            order.append(name)

    add(crate)
    return order


def sums(crates, lines, uses):
    """A sum for each crate of all that it is made from: the kit, its line of crates.txt, its files and those of all below it."""
    kit = subprocess.run(["rt", "version"], capture_output=True, check=True).stdout
    found = {}
    for crate in crates:
        made_from = hashlib.sha256(kit + lines[crate].encode())
        for library in uses[crate]:
            made_from.update(found.get(library, library).encode())
        for part in ("src", "specs", "proofs"):
            for at, folders, files in os.walk(f"{TOP}/crates/{crate}/{part}"):
                folders.sort()
                for name in sorted(files):
                    path = f"{at}/{name}"
                    made_from.update(repr((os.path.relpath(path, TOP), read(path))).encode())
        found[crate] = made_from.hexdigest()
    return found


class Kit:
    """The toolchain's compiler, by the calls that `rt ci` makes."""

    def __init__(self, uses):
        self.uses = uses
        first = subprocess.run(["rt", "doc"], capture_output=True, text=True, check=True).stdout
        self.at = os.path.dirname(first.strip())

    def proves(self, verb, crate, jobs, *more):
        """The words that `check` or `build` a crate over the libraries below it, which are proved."""
        own = [library for library in self.uses[crate] if library in self.uses]
        of_kit = ["std", *(library for library in self.uses[crate] if library not in self.uses)]
        root = "src/main.rt" if crate == MAIN else "src/lib.rt"
        words = [f"{self.at}/bin/rattle", verb, "--crate-name", crate, root, "--jobs", str(jobs), "--links", f"{crate}="]
        for library in of_kit:
            words += ["--extern", f"{library}={self.at}/rlibs/{library}.rlib"]
        for library in own:
            words += ["--extern", f"{library}={proved(library)}"]
        for folder in [f"{self.at}/rlibs", *(os.path.dirname(proved(library)) for library in below(crate, self.uses)[:-1])]:
            words += ["-L", f"dependency={folder}"]
        return [*words, "--antt-project", f"{self.at}/rattle/logic/antt-project.json", "--logic-built", f"{self.at}/logic_built", *more]

    def library(self, crate, jobs):
        """The words that prove a library, and write what those above it read."""
        return self.proves("build", crate, jobs, "--statements", "-o", proved(crate))

    def program(self, jobs):
        """The words that prove the program, and compile it."""
        return self.proves("build", MAIN, jobs, "--toolchain", f"{self.at}/toolchain", "-o", f"{out(MAIN)}/{MAIN}.o")

    def told(self, crate):
        """The words that prove a crate on one processor, and say of each function when its proof has ended."""
        return self.proves("check", crate, 1, "--progress")

    def link(self):
        """The words that link the program."""
        words = [f"{self.at}/bin/rattle-link", "--target", "x86_64-unknown-linux-gnu", "--toolchain", f"{self.at}/toolchain"]
        made = f"{out(MAIN)}/{MAIN}"
        return [*words, "-o", made, f"{made}.o", f"{self.at}/c/libos_c.a", f"{self.at}/c/liblibc_c.a"]
