"""`look check`: all rows of a file that would be refused, and not only the first. The program is asked; the row that it names is taken
out, and it is asked again."""

import collections
import contextlib
import os
import re

from . import clock
from .asking import WholeCopy, key_for, moment_of, program, put_aside, sent
from .copying import copied
from .enough import NEEDED, enough_for, held_under
from .figures import counted
from .in_memory import Unlike
from .office import opened_copy
from .telling import FAULT, Fault, Told
from .words import takes_key, takes_office, takes_whole

OPENS_ITSELF = True
NAME = re.compile(r"[A-Za-z0-9._-]{1,64}")
LARGEST = 1_048_576  # bytes that a request may have
MOST = 100  # faults
MARK = b"\xef\xbb\xbf"
# A field and a record as docs/formats.md has them, and the end of a line.
FIELD = rb'(?:"[^"]*(?:""[^"]*)*(?:"[^,\r\n]*|\Z)|[^,\r\n]*)'
RECORD = re.compile(rb"%b(?:,%b)*(\r\n|\n|\r|\Z)" % (FIELD, FIELD))
LINE_END = re.compile(rb"\r\n|\n|\r")
# What the program says before the part of an explanation that is shown.
PLACE = re.compile(r"\A.*?: (?:row \d+ is line \d+ of the file(?:; |, |$))?")

# A row of the file: its number, the line in which it begins, and its bytes.
Row = collections.namedtuple("Row", "number line data")
# What was asked when a row or the file was refused: the row or None, the file's name and its bytes.
Trial = collections.namedtuple("Trial", "row name data")


def take_words(command):
    takes_office(command)
    takes_key(command)
    takes_whole(command)
    command.add_argument("rows", choices=NEEDED, metavar="KIND", help="what the rows are: " + ", ".join(NEEDED))
    command.add_argument("file", metavar="FILE")


def tell(_, asked):
    """All faults of the file, as it would come at a moment."""
    data, name, moment = read(asked.file), os.path.basename(asked.file), moment_of(asked)
    if not NAME.fullmatch(name):
        raise Fault(f"{asked.file}: a file's name has 1 to 64 letters, digits, points, underscores and dashes")
    with copied(asked.db) as copy:
        with opened_copy(copy, asked.db) as office:
            office.judge_for_program()
            key = key_for(office, asked.key_file)
            held = held_under(office, asked.rows, name)
            names = name, free_name(office)
            small = None if asked.whole else enough_for(office, os.path.dirname(copy), asked.rows, name, data)
        trials, answers, is_whole = found_by((small, WholeCopy(copy)), key, moment, asked.rows, names, data)
    head = f"{asked.file}, {asked.rows} that come at {clock.shown(moment)}:"
    if len(trials) == 1:
        ((answer, why),) = answers
        again = ["It was accepted before. Sent again, it changes nothing."] * (held is not None and held.body == data)
        return Told([head, f"would be accepted: {answer}", *([f"  {why}"] if why else []), *again, "Nothing was changed."])
    return Told([head, *lines_of(trials[:-1], answers), *ending(data, trials, answers, is_whole)], FAULT)


def read(path):
    try:
        with open(path, "rb") as file:
            return file.read()
    except OSError as error:
        raise Fault(f"{path}: {error.strerror}") from None


def rows_of(data):
    """The header's bytes with what is before them, and the rows. Empty lines are none."""
    at, line, header, rows = len(MARK) if data.startswith(MARK) else 0, 1, None, []
    while at < len(data):
        found = RECORD.match(data, at)
        if found[0] != found[1]:
            if header is None:
                header = data[: found.end()]
            else:
                rows.append(Row(len(rows) + 1, line, found[0]))
        line += len(LINE_END.findall(found[0]))
        at = found.end()
    return header or b"", rows


def free_name(office):
    """A name that no accepted file has."""
    names = {name for (name,) in office.rows("SELECT name FROM files WHERE name LIKE 'look-%'")}
    return next(name for name in (f"look-{number}.csv" for number in range(len(names) + 1)) if name not in names)


def found_by(ways, key, moment, kind, names, data):
    """The trials, what each is answered, and whether all faults were found; by the first of the ways to ask that there is."""
    whole = [Trial(None, names[0], data)]
    for way in ways:
        with contextlib.suppress(Unlike):
            if way is not None:
                answers = explained(way, key, moment, kind, whole)
                if answers[0][0].startswith("applied="):
                    return whole, answers, True
                trials, is_whole = faults(way, key, moment, kind, names, data)
                return trials, explained(way, key, moment, kind, trials), is_whole
    raise Unlike  # which asking over the whole copy never does


def faults(way, key, moment, kind, names, data):
    """What was asked at each refusal, and at the end what is left; and whether all were found. If the first name is taken by other
    bytes, the second one is free."""
    name, free = names
    if len(data) > LARGEST:
        return [Trial(None, name, data), Trial(None, name, b"")], False
    header, rows = rows_of(data)
    trials = []
    with way.served(moment) as port:
        while len(trials) < MOST:
            reply = sent(port, key, kind, name, data)
            if "refused" not in reply:
                return [*trials, Trial(None, name, data)], True
            if reply["refused"] == 20:
                trials.append(Trial(None, name, data))
                name = free
            elif "row" in reply and reply["row"] <= len(rows):
                row = rows.pop(reply["row"] - 1)
                trials.append(Trial(row, name, data))
                data = header + b"".join(ended(row.data) for row in rows)
            else:
                return [*trials, Trial(None, name, data), Trial(None, name, b"")], False
    return [*trials, Trial(None, name, data)], False


def ended(record):
    """A row that another may follow."""
    return record if record.endswith((b"\n", b"\r")) else record + b"\n"


def explained(way, key, moment, kind, trials):
    """What the program answers to each of the trials, and how it explains that."""
    lines = []
    for number, trial in enumerate(trials):
        place = f"trial-{number}"
        os.makedirs(os.path.join(way.folder, place), 0o700, exist_ok=True)
        put_aside(os.path.join(way.folder, place, trial.name), trial.data)
        lines.append(f"load {moment} {key} {kind} {place}/{trial.name}")
    found = way.answered(lines)
    answers = found.said.splitlines()
    if len(answers) != len(trials):
        raise Fault(f"{program()}: it doesn't answer over a copy: {found.first or 'it said nothing'}")
    return [(answer, PLACE.sub("", found.whys.get(number, ""))) for number, answer in enumerate(answers, 1)]


def lines_of(trials, answers):
    """A line for each fault, in the order of the rows."""
    found = []
    for trial, (answer, why) in zip(trials, answers):
        place = f"row {trial.row.number}, line {trial.row.line}" if trial.row else "the file"
        said = re.sub("^refused | row [0-9]+| column [0-9]+" if why else "^refused ", "", answer)
        found.append((trial.row.number if trial.row else 0, place, f"{said}: {why}" if why else said))
    width = max(len(place) for _, place, _ in found)
    return [f"  {place:<{width}}  {told}" for _, place, told in sorted(found)]


def ending(data, trials, answers, is_whole):
    """How many rows have faults, and what would come of the others."""
    count = sum(trial.row is not None for trial in trials)
    lines = []
    if count:
        lines.append(f"{count} of {counted(len(rows_of(data)[1]), 'row')} would be refused.")
    if is_whole and count:
        lines.append(f"Without them the file would be answered {answers[-1][0]}")
        lines.append("Each row is judged as if the refused ones before it weren't there.")
    elif not is_whole and count == MOST:
        lines.append(f"These are the first {MOST}; there may be more.")
    return [*lines, "Nothing was changed."]
