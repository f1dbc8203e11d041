"""`./look check` and `./look preview` ask the program over an office in memory, which has of an office what the answer depends on. What
it answers there is compared with what it answers over a copy of the whole office: to files and runs that are accepted and refused, of the
kept offices and of an office that was asked a list of requests drawn at random. Where `--whole` asks the copy, the same is told."""
import collections
import os
import re
import shutil
import unittest
import unittest.mock

from kept_offices import MARKET_KEY, OFFICES
from killing import MoreRuns
from looking import changing, look
from programs import HOME, IS_LONG, SETTLE, settle
from test_both_stores import told
from test_desk import OPERATOR, text_of
from test_look_program import Asking

from look import asking, check, clock, enough, office, preview, rows_as_files
from look.copying import copied

DAY = "2024-07-01"
EARLY, LATE = 1_719_568_800, 1_735_689_600  # before 2024-07-01, and when it and the week are long over
MARKET = HOME / "examples" / "market"
REQUESTS, PART = (1_200, 40) if IS_LONG else (80, 80)
LOADS, ACCEPTED = (20, 20) if IS_LONG else (12, 2)  # that are asked for behind each part, and of those the accepted ones
KEPT = tuple(OFFICES) if IS_LONG else ("new", "without-positions", "killed", "succession-2")
# Rows of each kind that come to the example market, each with the refusal that it gets.
ROWS = {
    "parties": [
        (39, "SEALINK,2024-05-01,2025-03-31,sealinkkey1"),
        (None, "TRADECO,2023-01-01,,tradecokey2"),
        (13, "NEWCO,2024-01-01,newcokey1"),
        (14, "NEWCO,2024-01-01,,short"),
        (None, "NEWCO,2024-01-01,,newcokey1"),
    ],
    "units": [
        (30, "N-1,NOBODY,P,no,2024-03-01,"),
        (33, "N-1,SEALINK,P,no,2001-01-01,"),
        (39, "E_MOOR-1,NORTHGEN,P,no,2024-08-01,"),
        (40, "E_MOOR-1,CITYSUP,P,no,2024-03-01,"),
        (40, "E_MOOR-1,NORTHGEN,P,yes,2024-03-01,"),
        (None, "N-1,CITYSUP,C,yes,2024-06-01,"),
        (41, "E_MOOR-1,CITYSUP,P,no,2024-06-01,"),
        (None, "E_MOOR-1,TRADECO,C,no,2025-01-01,"),
        (39, "E_MOOR-1,TRADECO,C,no,2025-01-02,"),
        (40, "E_MOOR-1,NORTHGEN,P,no,2025-01-01,"),
    ],
    "meters": [
        (31, f"NONE-1,{DAY},1,1,1,0"),
        (33, "I_SEALINK,2025-07-01,1,1,1,0"),
        (34, f"E_MOOR-1,{DAY},49,1,1,0"),
        (14, f"E_MOOR-1,{DAY},1,1,2.1,0"),
        (None, f"E_MOOR-1,{DAY},1,1,1,0"),
    ],
    "prices": [(34, f"{DAY},50,1"), (13, f"{DAY},1,1,5"), (14, "2024-02-30,1,5"), (None, "2024-10-27,50,5")],
    "contracts": [
        (30, f"NEW,NOBODY-P,CITYSUP-C,{DAY},1,5"),
        (33, "NEW,SEALINK-P,CITYSUP-C,2025-07-08,1,5"),
        (34, f"NEW,TRADECO-P,CITYSUP-C,{DAY},49,5"),
        (35, f"NEW,TRADECO-P,TRADECO-P,{DAY},1,5"),
        (36, f"SEA-CITY,TRADECO-P,CITYSUP-C,{DAY},1,5"),
        (None, f"SEA-CITY,SEALINK-P,CITYSUP-C,{DAY},1,5"),
        (None, f"NEW,TRADECO-P,CITYSUP-C,{DAY},1,5"),
        (36, f"NEW,CITYSUP-C,TRADECO-P,{DAY},2,5"),
    ],
    "reallocations": [
        (30, f"E_MOOR-1,NOBODY-P,{DAY},1,10,0"),
        (31, f"NONE-1,CITYSUP-P,{DAY},1,10,0"),
        (33, "E_MOOR-1,SEALINK-P,2025-07-08,1,10,0"),
        (34, f"E_MOOR-1,TRADECO-P,{DAY},49,10,0"),
        (37, f"E_MOOR-1,NORTHGEN-P,{DAY},1,10,0"),
        (38, f"E_MOOR-1,TRADECO-P,{DAY},1,60.00001,0"),
        (None, f"E_MOOR-1,TRADECO-P,{DAY},1,60,0"),
        (38, f"E_MOOR-1,TRADECO-C,{DAY},1,0.00001,0"),
        (None, "E_MOOR-1,TRADECO-P,2024-07-08,1,100,0"),
    ],
}
BEFORE, LAST = slice(-1), slice(-1, None)  # of the trials, the last of which may be accepted
# What an office in memory was asked of a file, and what it answered.
Asked = collections.namedtuple("Asked", "key moment kind trials answers")


class Both(Asking):
    """A test that asks in both ways."""

    def setUp(self):
        super().setUp()
        self.asked, self.files = [], 0

    def found_by(self, real):
        """Keeps what an office in memory was asked, and what it answered."""

        def kept(ways, key, moment, kind, names, data, find=super().found_by(real)):
            found = find(ways, key, moment, kind, names, data)
            self.asked.append(Asked(key, moment, kind, *found[:2]))
            return found

        return kept

    def file(self, data, name="new.csv"):
        """A new file in a folder of its own."""
        self.files += 1
        path = self.room / "files" / str(self.files) / name
        path.parent.mkdir(parents=True)
        path.write_bytes(data if isinstance(data, bytes) else data.encode())
        return path

    def faults(self, database, kind, data, name=None, at=EARLY):
        """The rows that are refused, each with its refusal, and what is told. Row 0 is the file."""
        found, out, err = look("check", "--db", database, "--at", at, kind, self.file(data, name or f"new-{self.files}.csv"))
        refused = re.findall(r"(?m)^  (?:row (\d+), line \d+|the file) +(\d+) ", out)
        self.assertEqual((found, err), (1 if refused else 0, ""), out)
        return [(int(row or 0), int(number)) for row, number in refused], out

    def compare(self, database, asked=None, part=slice(None)):
        """A copy of the whole office answers what was asked, one after the other, as the office in memory did. Of each file the trials
        may be a part. What is accepted stays in the copy."""
        lines, wanted = [], []
        for key, moment, kind, trials, answers in self.asked if asked is None else asked:
            wanted += answers[part]
            lines += [f"load {moment} {key} {kind} {self.file(trial.data, trial.name)}" for trial in trials[part]]
        with copied(str(database)) as copy:
            found = asking.WholeCopy(copy).answered(lines)
        whys = [check.PLACE.sub("", found.whys.get(number, "")) for number in range(1, len(lines) + 1)]
        self.assertEqual([*zip(found.said.splitlines(), whys)], wanted)

    def same(self, *words):
        """What is told, which is the same by `--whole`."""
        found = look(*words)
        self.assertEqual(found, look(words[0], "--whole", *words[1:]), words)
        self.assertEqual(found[2], "")
        return found[1]


def quoted(row):
    return ",".join(f'"{field}"' for field in row.split(","))


def half_quoted(row):
    return ",".join(f'"{field[:2]}"{field[2:]}' for field in row.split(","))


class Files(Both):
    """Files that come to the example market and to its week."""

    def test_each_refusal_of_a_row(self):
        """Rows that are refused for each reason, among others that aren't."""
        database, seen = self.kept("market"), set()
        for kind, rows in ROWS.items():
            found, out = self.faults(database, kind, text_of(kind, [row for _, row in rows]))
            wanted = [(at, number) for at, (number, _) in enumerate(rows, 1) if number]
            self.assertEqual(found, wanted, out)
            self.assertIn(f"Without them the file would be answered applied={len(rows) - len(wanted)} late=0", out)
            seen |= {number for number, _ in rows}
        self.assertEqual(seen, {None, 13, 14, 30, 31, *range(33, 42)})
        self.compare(database)

    def test_rows_of_large_tables(self):
        """Of which those are taken that the file may be about; also where its fields have quotes, within or around them."""
        database = self.kept("market")
        with unittest.mock.patch.object(enough, "FEW", 0):
            for kind in "contracts", "reallocations":
                rows = [row for _, row in ROWS[kind]]
                for change in str, quoted, half_quoted:
                    found, out = self.faults(database, kind, text_of(kind, map(change, rows)))
                    self.assertEqual(found, [(at, number) for at, (number, _) in enumerate(ROWS[kind], 1) if number], out)
        self.compare(database, part=BEFORE)

    def test_as_many_as_there_may_be(self):
        """With 400 parties and 2,000 units no other is registered, and those that are may be so again."""
        database = self.kept("market")
        parties = [f"P{number},2024-01-01,,partykey1" for number in range(397)]
        self.assertEqual(self.faults(database, "parties", text_of("parties", [*parties, ROWS["parties"][1][1]]))[0], [(397, 42)])
        units = [f"U{number},CITYSUP,C,no,2024-06-01," for number in range(1_996)]
        self.assertEqual(self.faults(database, "units", text_of("units", [*units, units[0]]))[0], [(1_996, 42)])
        self.compare(database)

    def test_files_that_are_refused_whole(self):
        database = self.kept("market")
        many = text_of("prices", [f"{DAY},1,1"] * 20_001) if IS_LONG else b"date\n"
        for data, number in (b"", 12), (b"date;period;price\n", 12), (many, 11 if IS_LONG else 12):
            self.assertEqual(self.faults(database, "prices", data)[0], [(0, number)])
        found = look("check", "--db", database, "--key-file", self.file("citysupkey1\n"), "prices", MARKET / "prices.csv")
        self.assertIn("  the file  60 Forbidden: ", found[1])
        self.compare(database)

    def test_files_that_are_there(self):
        """Each accepted file gets its first reply again, whatever the moment. With other bytes its name is taken."""
        for name in "market", "week":
            database, kinds = self.kept(name), set()
            for kind, file, body, applied, late in rows_of(database, "SELECT * FROM files"):
                if kind not in kinds or late or IS_LONG:
                    kinds.add(kind)
                    found, out = self.faults(database, kind, body, file, LATE)
                    self.assertEqual(found, [])
                    self.assertIn(f"would be accepted: applied={applied} late={late}\n", out)
                    self.assertIn("It was accepted before.", out)
                    self.assertEqual("  late: rows " in out, late > 0)
            self.assertEqual(kinds, set(ROWS))
            self.compare(database)
            self.asked.clear()

    def test_names_of_its_own(self):
        """A file has a name that `look` itself may give, or one that is taken."""
        database = self.kept("market")
        with changing(database) as made:
            made.execute("INSERT INTO files VALUES ('contracts', 'look-0.csv', ?, 0, 0)", (text_of("contracts", []),))
        rows = text_of("contracts", [row for number, row in ROWS["contracts"] if number])
        wanted = self.faults(database, "contracts", rows)[0]
        for name in "before-1.csv", "earlier-1.csv", "script", "look-1.csv":
            self.assertEqual(self.faults(database, "contracts", rows, name)[0], wanted)
        for name in "contracts.csv", "look-0.csv":
            self.assertEqual(self.faults(database, "contracts", rows, name)[0], [(0, 20), *wanted])
        self.assertEqual(self.faults(database, "contracts", text_of("contracts", []), "contracts.csv")[0], [(0, 20)])
        self.compare(database, part=BEFORE)

    def test_late_rows(self):
        """By the lead time of the office. A late reallocation isn't refused for its percentage, and a late contract for its reference."""
        database, start = self.kept("market"), clock.midnight(clock.day_of(DAY))
        rows = {kind: text_of(kind, [ROWS[kind][at][1]]) for kind, at in (("reallocations", 5), ("contracts", 4))}
        for lead in 0, 1440:
            with changing(database) as made:
                made.execute("UPDATE settings SET lead_minutes = ?", (lead,))
            for at, is_late in (start - lead * 60 - 1, False), (start - lead * 60, True):
                self.assertEqual(self.faults(database, "reallocations", rows["reallocations"], at=at)[0], [] if is_late else [(1, 38)])
                self.assertEqual(self.faults(database, "contracts", rows["contracts"], at=at)[0], [(1, 36)])
            self.compare(database)
            self.asked.clear()

    def test_the_same_is_told(self):
        """All lines, and not only the answers."""
        path = self.file(text_of("reallocations", [row for _, row in ROWS["reallocations"]]))
        out = self.same("check", "--db", self.kept("market"), "--at", EARLY, "reallocations", path)
        self.assertIn("7 of 9 rows would be refused.", out)


def rows_of(database, statement):
    with changing(database) as made:
        return made.execute(statement).fetchall()


class Runs(Both):
    """Runs of the kept offices."""

    def preview(self, database, day, kind, at=LATE):
        """The first word of the answer, or the number of its refusal."""
        out = self.same("preview", "--db", database, "--at", at, clock.date_of(day), office.KINDS[kind])
        return re.match(r"(?:refused )?(\w+)", out.splitlines()[1])[1]

    def test_the_next_of_each_date(self):
        """What the next run would answer and post; and before the date is over, and of a date without a run."""
        seen = set()
        for name in KEPT:
            database = self.kept(name)
            made = dict(rows_of(database, "SELECT day, max(kind) FROM runs GROUP BY day")) or {clock.day_of(DAY): -1}
            for day, kind in made.items():
                seen.add(self.preview(database, day, kind + 1))
        self.assertEqual(self.preview(database, day, kind + 1, clock.midnight(day + 1) - 1), "52")
        self.assertEqual(self.preview(database, day + 1, 1), "51")
        self.assertEqual(seen, {"run", "53"})

    def test_the_week(self):
        """A date of 50 periods and one that has two runs. A process of its own rehearses a run of a large office, in which more rows are
        in force than a file may have."""
        database = self.kept("week")
        self.begin(unittest.mock.patch.object(office, "LARGE", 0))
        self.begin(unittest.mock.patch.object(rows_as_files, "MOST_ROWS", 7))
        for date, kind in ("2024-10-24", 2), ("2024-10-27", 1):
            self.assertEqual(self.preview(database, clock.day_of(date), kind), "run")

    def test_kinds_that_are_past(self):
        """One that was made is answered by its kept reply, and one that wasn't is out of order."""
        database, day = self.kept("market"), clock.day_of(DAY)
        with changing(database) as made:
            for table in "runs", "results", "credits", "postings":
                made.execute(f"UPDATE {table} SET kind = 3 WHERE kind = 1")
        self.assertEqual([self.preview(database, day, kind) for kind in (0, 2, 5)], ["run", "50", "run"])

    def test_the_first_run(self):
        database, day = self.kept("market"), clock.day_of(DAY)
        with changing(database) as made:
            for table in "runs", "results", "credits", "postings":
                made.execute(f"DELETE FROM {table}")
        self.assertEqual(self.preview(database, day, 0), "run")

    def test_what_is_missing_and_too_large(self):
        """A unit that joined after a run has no reading. Contracts and a price make a figure too large."""
        database, day = self.kept("market"), clock.day_of(DAY)
        self.load(database, ("units", [ROWS["units"][5][1]]))
        self.assertEqual(self.preview(database, day, 2), "54")
        idle = [f"N-1,{DAY},{period},0,1,0" for period in range(1, 49)]
        large = [f"LARGE-{number},NORTHGEN-P,CITYSUP-P,{DAY},7,10000" for number in range(11)]
        self.load(database, ("meters", idle), ("contracts", large), ("prices", [f"{DAY},7,99999.99999"]))
        self.assertEqual(self.preview(database, day, 2), "55")

    def load(self, database, *files):
        lines = [f"load {EARLY} {MARKET_KEY} {kind} {self.file(text_of(kind, rows), f'joined-{kind}.csv')}" for kind, rows in files]
        script = self.file("".join(f"{line}\n" for line in lines))
        self.assertEqual(settle("script", "--strict", "--db", str(database), str(script))[0], 0)

    def test_a_key_that_is_not_the_operators(self):
        out = self.same("preview", "--db", self.kept("market"), "--at", LATE, "--key-file", self.file("citysupkey1\n"), DAY, "R2")
        self.assertIn("refused 60 Forbidden", out)


class AtRandom(Both):
    """An office that was asked a list of requests drawn at random: parties and units that join, late rows, corrections and runs."""

    def test_what_would_be_answered(self):
        """The files that are sent next. (What would be answered to runs is compared in test_look_program.py.)"""
        requests = MoreRuns(self.room / "drawn", 31).draw_all(REQUESTS + PART)
        database, seen = self.room / "office.db", set()
        self.assertEqual(settle("init", "--db", str(database), "--operator-key", OPERATOR)[0], 0)
        for begin in range(0, REQUESTS, PART):
            told(self.room / "script", requests[begin : begin + PART], "--db", database)
            loads = [one for one in requests[begin + PART :] if isinstance(one, str) and one.startswith("load") and "none.csv" not in one]
            for line in loads[:LOADS]:
                _, at, key, kind, path = line.split(" ")
                status, _, err = look("check", "--db", database, "--at", at, "--key-file", self.file(f"{key}\n"), kind, path)
                self.assertEqual(err, "")
                seen |= {(kind, status)}
            self.compare(database, part=BEFORE)
            for one in [one for one in self.asked if one.answers[-1][0].startswith("applied=")][:ACCEPTED]:
                self.compare(database, [one], LAST)
            self.asked.clear()
        self.assertGreaterEqual({status for _, status in seen}, {0, 1})
        self.assertGreater(len(seen), 5, seen)


class WhereItIsUnlike(Both):
    """An office with rows that no office writes isn't taken into memory. Its copy is asked whole."""

    CHANGES = {
        "nets that don't sum to zero": "UPDATE results SET share = share + 1 WHERE kind = 1 AND period = 3 AND party = 'TRADECO'",
        "a price that is gone": "DELETE FROM prices WHERE period = 9",
        "a figure that doesn't follow": "UPDATE meters SET metered = metered + 1 WHERE period = 9 AND unit = 'E_MOOR-1'",
        "a contract of nobody": "UPDATE refs SET seller = 'NOBODY' WHERE reference = 'SEA-CITY'",
        "a net too large": "UPDATE results SET share = share + (1 - 2 * side) * 100000000000 WHERE kind = 1 AND period = 3 AND party = 'SEALINK'",
    }

    def over_the_copy(self, real):
        self.over = unittest.mock.Mock(wraps=real)
        return self.over

    def found_by(self, real):
        return real

    def test_runs(self):
        for what, change in list(self.CHANGES.items())[: None if IS_LONG else 2]:
            database = shutil.copytree(self.kept("market").parent, self.room / what) / "office.db"
            with changing(database) as made:
                made.execute(change)
            with self.subTest(what):
                words = "preview", "--db", database, "--at", LATE, DAY, "R2"
                self.assertEqual(look(*words), look("preview", "--whole", *words[1:]))
                self.assertEqual(self.over.call_count, 2)
                self.over.reset_mock()

    def test_a_program_that_says_something_else(self):
        """Of a figure of the run, of what it has posted, and of what was posted before."""
        database = self.kept("market")
        for change in r"s/^\(2024-07-01,R2,CITYSUP-C,7,.*\)$/\19/", r"s/postings 0$/postings 1/", r"s/^SEALINK-P,/&1/":
            program = self.file(f"#!/bin/sh\nif [ $1 = script ]; then {SETTLE} \"$@\" | sed '{change}'; else exec {SETTLE} \"$@\"; fi\n")
            program.chmod(0o755)
            with unittest.mock.patch.dict(os.environ, SETTLE_PROGRAM=str(program)), self.subTest(change):
                status, out, _ = look("preview", "--db", database, "--at", LATE, DAY, "R2")
                self.assertEqual((status, self.over.call_count), (0, 1), out)
                self.over.reset_mock()

    def test_files(self):
        database = self.kept("market")
        with changing(database) as made:
            made.execute(self.CHANGES["a contract of nobody"])
        path = self.file(text_of("contracts", [ROWS["contracts"][5][1]]))
        with unittest.mock.patch.object(check, "WholeCopy", wraps=check.WholeCopy) as copies:
            self.assertIn("there", look("check", "--db", database, "--at", EARLY, "contracts", path)[1])


class Keys(Both):
    """Where the keys are."""

    def found_by(self, real):
        return real

    def test_no_key_on_a_command_line(self):
        """A program between sees the words, and what is in the folder. No file in it may be read by others, and none stays."""
        room, log = self.room / "a room", self.room / "log"
        room.mkdir()
        program = self.file(f'#!/bin/sh\necho "$@" >> {log}\nfind "{room}" -type f ! -perm 600 >> {log}\nexec {SETTLE} "$@"\n')
        program.chmod(0o755)
        database = self.kept("market")
        with unittest.mock.patch.dict(os.environ, SETTLE_PROGRAM=str(program), TMPDIR=str(room)):
            for words in ("check", "contracts", MARKET / "contracts-4.csv"), ("preview", DAY, "R2"):
                for whole in [], ["--whole"]:
                    out = look(words[0], "--db", database, *whole, "--at", EARLY, *words[1:])
                    self.assertNotIn(MARKET_KEY, "".join(map(str, out)))
        lines = log.read_text().splitlines()
        self.assertEqual([line.split(" ")[0] for line in lines], [*["script"] * 4, "serve", "script", "script", "run"])
        self.assertEqual([line for line in lines if MARKET_KEY in line], [])
        self.assertEqual(list(room.iterdir()), [])


if __name__ == "__main__":
    unittest.main()
