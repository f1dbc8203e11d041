"""`look preview`: what a run would answer and post, by making it over an office in memory, or over a copy of the whole office."""

import functools
import os

from . import clock
from .asking import call, key_for, moment_of, put_aside
from .compare import Compared
from .copying import copied
from .office import KINDS, opened_copy
from .postings import Posted
from .recount import Day
from .rehearsal import Found, Rehearsed, is_same, rehearse
from .telling import DONE, FAULT, Told
from .words import takes_date, takes_key, takes_kind, takes_office, takes_whole

OPENS_ITSELF = True


def take_words(command):
    takes_office(command)
    takes_key(command)
    takes_whole(command)
    takes_date(command)
    takes_kind(command)


def tell(_, asked):
    """The program's answer, and what the run has posted. A run that was made before has its answer in the office alone."""
    moment = moment_of(asked)
    with copied(asked.db) as copy:
        with opened_copy(copy, asked.db) as office:
            office.judge_for_program()
            key = key_for(office, asked.key_file)
            was_made = asked.kind in office.runs(asked.date)
            told = None if asked.whole or was_made else in_memory(office, copy, key, moment, asked)
        return told or over_the_copy(copy, key, moment, asked, was_made)


def in_memory(office, copy, key, moment, asked):
    """What is told by an office in memory. None if it isn't like this one, or if something doesn't follow."""
    folder = os.path.join(os.path.dirname(copy), "memory")
    find = functools.partial(rehearse, folder, key, moment, asked.date, asked.kind)
    rehearsed, before = Rehearsed(office, asked.date, asked.kind), [*office.runs(asked.date)][-1:]
    beside = office.beside(find) if office.is_large() else None
    of = Day(rehearsed, asked.date, before) if beside else None
    found = beside.result() if beside else find(office)
    if found is None:
        return None
    found = Found._make(found)
    if found.refusal:
        return Told([*head_of(asked, moment, "be refused"), *refused(found.refusal), "Nothing was changed."], FAULT)
    of = of or Day(rehearsed, asked.date, before)
    rehearsed.found = found
    if not is_same(found, of.settled):
        return None
    of.given[asked.kind] = of.settled
    told = made(of, asked.kind, [*head_of(asked, moment, "answer"), found.answer, ""])
    return told if told.status == DONE else None


def over_the_copy(copy, key, moment, asked, was_made):
    """What is told by a copy of the whole office."""
    answer, refusal = run(copy, key, moment, asked)
    if not answer:
        return Told([*head_of(asked, moment, "be refused"), *refused(refusal.splitlines()), "Nothing was changed."], FAULT)
    head = [*head_of(asked, moment, "answer"), answer.rstrip("\n"), ""]
    if was_made:
        return Told([*head, "It was made before. Asked again, it posts nothing.", "Nothing was changed."])
    with opened_copy(copy, asked.db) as office:
        return made(Day(office, asked.date, [kind for kind in office.runs(asked.date) if kind <= asked.kind][-2:]), asked.kind, head)


def run(copy, key, moment, asked):
    """What the program says of the run over a copy, whose key is in a file beside it."""
    folder = os.path.dirname(copy)
    put_aside(os.path.join(folder, "key"), f"{key}\n".encode())
    words = "--explain", "--db", copy, "--key-file", "key", f"--at={moment}"
    return call(folder, "run", *words, clock.date_of(asked.date), KINDS[asked.kind])


def head_of(asked, moment, would):
    return [f"{KINDS[asked.kind]} of {clock.date_of(asked.date)}, ordered at {clock.shown(moment)}, would {would}:"]


def refused(lines):
    """The lines of a refusal, and where to look if something is missing."""
    is_missing = lines[0].startswith(("refused 53 ", "refused 54 "))
    return [*lines, *["`look missing` names all that the date lacks."] * is_missing]


def made(of, kind, head):
    """What the run has posted, over the run before it."""
    before = [other for other in of.office.runs(of.day) if other < kind]
    if before:
        found = Compared(of, before[-1], kind)
        lines = found.lines()
    else:
        found = Posted(of, kind)
        lines = found.table()
    return Told([*head, *lines, "", *found.closing(), "Nothing was changed."], FAULT if found.faults() else DONE)
