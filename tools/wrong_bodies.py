#!/usr/bin/env python3
"""Sees that the prover refuses the wrong bodies that the gate doesn't try, and notes it.

Each file crates/CRATE/must-fail-by-hand/NAME.edit turns the body of a function, as those of crates/CRATE/must-fail do. Bodies are proved apart,
by their contracts, so many wrong ones are tried in one check, each in a function of its own: the check says of each function whether
it is proved. All is done in copies of the repository, over what earlier checks of it have kept, as many crates side by side as there
are cores with memory for a check. The last line is 'N passed, N failed'.

Those that were refused are noted in crates/CRATE/must-fail-by-hand/TRIED, as tried.py says. A test fails if a body has no record, or if
its contract has changed since.
"""
import argparse
import os
import pathlib
import re
import shutil
import subprocess
import sys
import tempfile
import threading
from concurrent.futures import ThreadPoolExecutor

import building
from contracts import FUNCTION
from tried import Sums, note, noted, pairs_of

HOME = pathlib.Path(__file__).resolve().parent.parent
BY_HAND = "must-fail-by-hand"
# The folder in which a crate's check keeps its work.
KEPT = "incremental"
# The type that a block is of, behind `for` where there is that word.
IMPL = re.compile(r"(?m)^impl\b(?:[^{\n]* for)?(?:<[^{\n]*?>)? (\w+)")
# A constant, with its name.
CONSTANT = re.compile(r"(?m)^(?:pub(?:\(\w+\))? )?const (\w+):[^;]*;")
# An error of a proof, with the lines that belong to it.
PROOF_ERROR = re.compile(r"proofs/([\w/]+)/(?:Answers|Invariants|Proof)\.antt:\d+:\d+: error: ([^\n]*)((?:\n[ \t][^\n]*)*)")
# What a check says of a fact about a text that a function gives, where the text computes to something else: the file, and the fact.
FALSE_FACT = re.compile(r"(?m)^\./proofs/(\w+)\.antt:\d+:\d+: error: `(\w+)`: [^\n]*the two types differ")
# A function that is proved by such a fact: the file, the fact, and the function's name.
PROVED_BY = re.compile(r"using\(crate::proofs::(\w+)::(\w+)\)\)\]\n *(?:pub(?:\(crate\))? )?fn (\w+)")
# How a check ends that judged the functions that it was asked for, or all of them.
JUDGED = re.compile(r"(?m)^(?:logic=not-proved|only=\d+ proved=\d+)")
# What an error says of a proof that names what is not there, or that rests on what another error is on.
NO_VERDICT = re.compile(r"has no field|is not in scope|has no `|was not admitted|declarations? that depends? on")
# What an error says of a proof where the body no longer leaves anything to prove: any body would do.
NOTHING_TO_PROVE = re.compile(r"expected type `Unit \{0\}`|the two types are `Unit \{0\}` \(expected\)")


def function_at(text, place):
    """The last function that begins at or before a place: the type that it is of, if it is of one, and its name. None where
    there is no such function."""
    found = [m for m in FUNCTION.finditer(text) if m.start() <= place]
    if not found:
        return None
    types = [m.group(1) for m in IMPL.finditer(text) if m.start() <= place]
    return types[-1] if found[-1][1] and types else "", found[-1][3]


def giver_of(text, place):
    """Where the constant that is at a place is named by the body of a function. None if it is in no constant, or no body has it."""
    constant = next((m for m in CONSTANT.finditer(text) if m.start() <= place < m.end()), None)
    named = re.search(rf"(?m)^ +(?! |ghost )[^\n]*\b{constant[1]}\b", text[constant.end() :]) if constant else None
    return constant.end() + named.end() if named else None


def turned(crate, edit, texts=None):
    """The functions, each by its module, its type and its name, whose bodies an edit turns. It is refused by the last of
    them: those before it prepare, as where a struct gets a field. A constant belongs to the function that gives it. What
    else comes before any function, as an import, belongs to none. `texts` are the files that edits have turned so far, and
    are turned further."""
    found, texts = [], {} if texts is None else texts
    for file, old, new in pairs_of(edit):
        text = texts.get(file) or (HOME / "crates" / crate / file).read_text(encoding="utf-8")
        if text.count(old) != 1:
            raise ValueError(f"{edit.name}: its text occurs {text.count(old)} times in {file}, and not once")
        place = text.index(old)
        function = function_at(text, giver_of(text, place) or place)
        if function:
            found.append((file.removeprefix("src/").removesuffix(".rt").replace("/", "::"), *function))
        texts[file] = text.replace(old, new)
    if not found:
        raise ValueError(f"{edit.name}: it turns no function")
    return found


def sums_of(crate, renamed=()):
    """The sum of each wrong body of a crate, by its name."""
    sums = Sums(HOME / "crates", renamed)
    return {edit.stem: sums.of(crate, turned(crate, edit)[-1], edit) for edit in edits_of(crate)}


def edits_of(crate):
    """The wrong bodies of a crate that are tried here."""
    return sorted((HOME / "crates" / crate / BY_HAND).glob("*.edit"))


class Batch:
    """Wrong bodies of a crate that are tried in one check: each by the function that must be refused, the functions that they turn, and
    the files that they turn."""

    def __init__(self, crate):
        self.crate, self.edits, self.taken, self.texts = crate, {}, set(), {}

    def takes(self, edit):
        """Takes a wrong body up. It isn't taken if it turns a function that another turns too, or if another has its text."""
        texts = dict(self.texts)
        try:
            functions = turned(self.crate, edit, texts)
        except ValueError:
            return False
        if not self.taken.isdisjoint(functions):
            return False
        self.edits[functions[-1]], self.texts = edit, texts
        self.taken.update(functions)
        return True


def batches_of(crate, edits):
    """These wrong bodies of a crate, in as few batches as take them."""
    batches = []
    for edit in edits:
        if not any(batch.takes(edit) for batch in batches):
            batches.append(batch_of(crate, edit))
    return batches


def batch_of(crate, edit):
    """A batch of one wrong body."""
    batch = Batch(crate)
    if not batch.takes(edit):
        turned(crate, edit)  # which tells what is wrong with it
    return batch


def told_of(folder, said):
    """The functions of which a check says that their bodies are not proved, by what it says of their lines, of their proofs and of the facts
    about the texts that they give: the name of each behind its module, and behind its type, which may be in another module. No body was
    judged of one that only waits for the proof of what it calls, nor of one whose proof only names what the body no longer has, or only
    proves what the body no longer owes."""
    for file, line, _ in re.findall(r"src/([\w/]+)\.rt:(\d+):\d+: ([^\n]*(?:not proved|error))", said):
        text = (folder / "src" / f"{file}.rt").read_text(encoding="utf-8")
        function = function_at(text, len("\n".join(text.split("\n")[: int(line)])))
        if function:
            yield file.replace("/", "::"), function[1]
    yield from false_of(folder, set(FALSE_FACT.findall(said)))
    errors = PROOF_ERROR.findall(said)
    proofs = {
        path.replace("/", "::")
        for path, error, rest in errors
        # (the second line of a long error may say what is missing)
        if not NO_VERDICT.search(error + "".join(rest.splitlines()[:2])) and not NOTHING_TO_PROVE.search(error + rest)
    }
    unread = {path.replace("/", "::") for path, _, _ in errors} - proofs
    named = set(re.findall(r"(?m)^fn \w+::([\w:]+): (?:not proved(?!; it )|no proof: .*did not prove)", said))
    for path in proofs | (named - unread):
        above, _, name = path.rpartition("::")
        module, _, kind = above.rpartition("::")
        yield above, name
        yield module, name
        yield kind, name


def false_of(folder, facts):
    """The functions that are proved by one of these facts, each a file of proofs and a name in it."""
    for source in (folder / "src").rglob("*.rt") if facts else ():
        for file, fact, name in PROVED_BY.findall(source.read_text(encoding="utf-8")):
            if (file, fact) in facts:
                yield source.relative_to(folder / "src").as_posix().removesuffix(".rt").replace("/", "::"), name


def restore(copy, crate):
    """Puts the crate's own bodies in place, on which the crates above it depend. The crate's folder."""
    folder = copy / "crates" / crate
    shutil.rmtree(folder / "src")
    shutil.copytree(HOME / "crates" / crate / "src", folder / "src")
    return folder


def check_of(folder, functions):
    """What a check says of these functions alone and of those that they call. Each is named by its type, where it has one. A method of a
    trait is not found so: then all functions of the modules are checked."""
    named, modules = {f"{kind or module}::{name}" for module, kind, name in functions}, {module for module, _, _ in functions}
    for paths in named, modules:
        words = ["rt", "check", *(word for path in sorted(paths) for word in ("--only", path))]
        said = subprocess.run(words, cwd=folder, stdout=subprocess.PIPE, stderr=subprocess.STDOUT, text=True, errors="replace").stdout
        if "has no function" not in said:
            break
    return said


def unproved(copy, batch):
    """The functions that are not proved once the bodies of a batch are in place, and what the check said. None in place of the functions
    where the compiler refused the bodies, so that no contract was tried."""
    folder = restore(copy, batch.crate)
    for file, text in batch.texts.items():
        (folder / file).write_text(text, encoding="utf-8")
    said = check_of(folder, batch.edits)
    return set(told_of(folder, said)) if JUDGED.search(said) else None, said


def is_told(function, names):
    """Whether a function is one of these, each by its module or its type and its name."""
    module, kind, name = function
    return (module, name) in names or (kind != "" and (kind, name) in names)


def refused_of(copy, batch):
    """The functions of a batch whose wrong bodies are refused. One that is not refused beside the others may only have waited for
    the proof of a body that it calls, so it is tried once more by itself; what that check says is printed. Bodies that the compiler
    refuses may only not fit together, so they are tried by halves."""
    told, said = unproved(copy, batch)
    refused = {function for function in batch.edits if is_told(function, told or ())}
    rest = [edit for function, edit in batch.edits.items() if function not in refused]
    if len(batch.edits) == 1:
        print(said if rest else "", end="")
        return refused
    size = 1 if told is not None else (len(rest) + 1) // 2
    parts = [rest[at : at + size] for at in range(0, len(rest), size)]
    for part in (part for edits in parts for part in batches_of(batch.crate, edits)):
        refused |= refused_of(copy, part)
    return refused


def try_crate(copy, crate, names):
    """The wrong bodies of a crate with these names that are refused, and those that are not."""
    passed, failed = set(), set()
    for batch in batches_of(crate, [edit for edit in edits_of(crate) if edit.stem in names]):
        refused = refused_of(copy, batch)
        for function, edit in batch.edits.items():
            print(f"{crate}/{edit.name}: {'refused' if function in refused else 'NOT REFUSED'}", flush=True)
            (passed if function in refused else failed).add(edit.stem)
    restore(copy, crate)
    return passed, failed


def try_and_note(copy, crate, names):
    """Tries the wrong bodies of a crate with these names, and notes which are refused. The sums are those before the trial, so that a
    contract that changes meanwhile has no record. How many are refused, and how many are not."""
    folder, sums = HOME / "crates" / crate / BY_HAND, sums_of(crate)
    work, there = (home / "crates" / crate / "out" / KEPT for home in (HOME, copy))
    if work.is_dir():
        shutil.copytree(work, there)
    passed, failed = try_crate(copy, crate, names)
    shutil.rmtree(there, ignore_errors=True)
    kept = {name: sum for name, sum in noted(folder).items() if name in sums and name not in failed}
    note(folder, {**kept, **{name: sums[name] for name in passed}})
    return len(passed), len(failed)


def changed(crate):
    """The wrong bodies of a crate that have no record, or whose contract has changed since."""
    kept = noted(HOME / "crates" / crate / BY_HAND)
    return {name for name, sum in sums_of(crate).items() if kept.get(name) != sum}


def rename(crate, renamed):
    """Has the records of a crate follow new names: where a contract is the recorded one but for these names, its sum is the new one. How
    many records did so."""
    folder = HOME / "crates" / crate / BY_HAND
    kept, sums, former = noted(folder), sums_of(crate), sums_of(crate, renamed)
    followed = {name: sums[name] for name, sum in kept.items() if sum == former.get(name) != sums[name]}
    if followed:
        note(folder, {**kept, **followed})
    return len(followed)


def size_of(crate):
    """How long a crate's code and proofs are: its first check takes about as long."""
    return sum(file.stat().st_size for part in ("src", "specs", "proofs") for file in (HOME / "crates" / crate / part).rglob("*") if file.is_file())


def copy_into(room):
    """A copy of the repository, with the libraries that earlier checks have built there. These are linked, since they are never changed
    but only replaced. What a check keeps for the next one is copied where it is needed."""
    copy = pathlib.Path(tempfile.mkdtemp(dir=room)) / "copy"
    shutil.copytree(HOME, copy, symlinks=True, ignore=shutil.ignore_patterns(".git", KEPT), copy_function=link_or_copy)
    (copy / ".git").mkdir()
    return copy


def link_or_copy(source, copy):
    """Links a file of a built library, where that can be. Copies any other."""
    if "/out/rlib/" in source:
        try:
            os.link(source, copy)
            return
        except OSError:
            pass  # another file system
    shutil.copy2(source, copy)


def try_all(names, room, lanes):
    """How many of the named wrong bodies of each of these crates are refused, and how many are not: as many crates side by side as there
    are lanes, each lane in a copy of its own."""
    lane = threading.local()

    def tried(crate):
        if not hasattr(lane, "copy"):
            lane.copy = copy_into(room)
        return try_and_note(lane.copy, crate, names[crate])

    with ThreadPoolExecutor(lanes) as pool:
        return list(pool.map(tried, sorted(names, key=size_of, reverse=True)))


def arguments(words):
    """What the words ask for."""
    parser = argparse.ArgumentParser(prog="tools/wrong_bodies.py", description=__doc__, formatter_class=argparse.RawDescriptionHelpFormatter)
    parser.add_argument("crates", metavar="CRATE", nargs="*", help="tries those of these crates alone")
    parser.add_argument("--changed", action="store_true", help="tries those alone that have no record, or whose contract has changed since")
    new_name = "tries none; records whose contracts changed by this name alone follow it"
    parser.add_argument("--renamed", nargs=2, metavar=("OLD", "NEW"), action="append", default=[], help=new_name)
    return parser.parse_args(words)


def main(words):
    asked = arguments(words)
    every = sorted(folder.parent.name for folder in HOME.glob(f"crates/*/{BY_HAND}"))
    lacking = [name for name in asked.crates if name not in every]
    if lacking:
        print(f"tools/wrong_bodies.py: {lacking[0]} has no folder {BY_HAND}", file=sys.stderr)
        return 2
    crates = asked.crates or every
    if asked.renamed:
        print(f"{sum(rename(crate, [(new, old) for old, new in asked.renamed]) for crate in crates)} records follow their names")
        return 0
    names = {crate: changed(crate) if asked.changed else {edit.stem for edit in edits_of(crate)} for crate in crates}
    names = {crate: named for crate, named in names.items() if named}
    with tempfile.TemporaryDirectory(prefix="wrong-bodies-") as room:
        counts = try_all(names, room, max(1, min(building.lanes(), len(names))))
    passed, failed = (sum(count[at] for count in counts) for at in (0, 1))
    print(f"{passed} passed, {failed} failed")
    return 1 if failed else 0


if __name__ == "__main__":
    sys.exit(main(sys.argv[1:]))
