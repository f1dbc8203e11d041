"""The sources of the program, and whether it was built from them.

No time is compared: a sum of the sources is kept beside the program, with the sum of the program.
"""

import hashlib
import os

HOME = os.path.dirname(os.path.dirname(os.path.realpath(__file__)))
CRATES = os.path.join(HOME, "crates")
OUT = os.path.join(CRATES, "hh_settle", "out")
PROGRAM = os.path.join(OUT, "hh_settle")
# The sum of the sources that the program was built from, and that of the program; behind them RELEASED, where it is the
# released one, and nothing was proved here.
STAMP = os.path.join(OUT, "settle.built")
RELEASED = "released"


def uses_of_crates():
    """The line of each crate in crates.txt: its name, and the words behind the colon."""
    with open(os.path.join(HOME, "crates.txt"), encoding="utf-8") as listed:
        lines = [line.partition("#")[0].partition(":") for line in listed]
    return {name.split()[0]: uses.split() for name, _, uses in lines if name.split()}


def crates_below(name, uses):
    """A crate of the repository and those that it depends on, each after those that it uses."""
    found = []

    def visit(crate):
        if crate in uses and crate not in found:
            for used in uses[crate]:
                visit(used)
            found.append(crate)

    visit(name)
    return found


def sources_of(crate):
    """The paths of the files that a crate is proved from, in order."""
    for part in ("src", "specs", "proofs"):
        for folder, folders, names in os.walk(os.path.join(CRATES, crate, part)):
            folders.sort()
            yield from (os.path.join(folder, name) for name in sorted(names) if name.endswith((".rt", ".antt")))


def sum_of(data):
    return hashlib.sha256(data).hexdigest()


def sum_of_file(path):
    with open(path, "rb") as file:
        return sum_of(file.read())


def sum_of_sources():
    """A sum over the names and bytes of all that the program is built from. No time is compared, so
    a file that was taken away counts, and one that was only touched doesn't."""
    uses = uses_of_crates()
    crates = crates_below("hh_settle", uses)
    named = [(crate, uses[crate]) for crate in crates]
    summed = [(path[len(HOME) :], sum_of_file(path)) for crate in crates for path in sources_of(crate)]
    return sum_of(repr((named, summed)).encode())


def mark_built(sources, *how):
    """Notes that the program, as it is now, was built from the sources of this sum."""
    words = sources, sum_of_file(PROGRAM), *how
    put(STAMP, "".join(f"{word}\n" for word in words).encode())


def put(path, data, mode=0o644):
    """Makes these bytes the file at a path, whole at any moment, though other calls do the same."""
    made = f"{path}.{os.getpid()}"
    with open(made, "wb") as file:
        file.write(data)
    os.chmod(made, mode)
    os.replace(made, path)


def built_as(*hows):
    """Whether the program that is there was built from the sources that are there, in one of these ways."""
    try:
        with open(STAMP, encoding="utf-8") as stamp:
            sources, program, *how = stamp.read().split()
        return how in hows and os.access(PROGRAM, os.X_OK) and [sources, program] == [sum_of_sources(), sum_of_file(PROGRAM)]
    except (OSError, ValueError):
        return False


def is_built():
    """Whether the program that is there was built from the sources that are there, here or as the released one."""
    return built_as([], [RELEASED])


def is_proved():
    """Whether the program that is there was proved and built here, from the sources that are there."""
    return built_as([])
