"""The offices whose database files are kept in `versions`: the version of their tables, what each was asked, and how its files are
unpacked. The files are never made again by a later program, so what is said here about them stays as it is."""
import dataclasses
import gzip

from programs import HOME

FOLDER = HOME / "tests" / "versions"
ENDS = (".db", ".db-wal")
SETTLE_KEY, MARKET_KEY = "op-settle001", "op-market001"


@dataclasses.dataclass(frozen=True)
class Office:
    """An office that was made with this key and lead time. Commands then asked what the lines ask, each opening the file again.
    After that clients of one service asked what the lines in `served` ask. The service was killed when it had answered them, or
    while it was writing what the line `cut` asks. An office without positions is as one that was made before they were kept.
    `migrated` names a kept office that was asked the lines. `settle migrate` then took a copy of it to this version."""

    operator: str
    lines: tuple = ()
    lead_minutes: int = 60
    served: tuple = ()
    cut: str = ""
    has_positions: bool = True
    version: int = 1
    migrated: str = ""

    def answered(self):
        """All lines that were answered."""
        return (*self.lines, *self.served)

    def is_killed(self):
        return bool(self.served)


def lines_of(text):
    return tuple(line.strip() for line in text.strip().splitlines())


TWO_PARTIES = lines_of(
    f"""
    load 1719700000 {SETTLE_KEY} parties f1.csv
    load 1719700000 {SETTLE_KEY} units f2.csv
    load 1719700000 {SETTLE_KEY} contracts f3.csv
    load 1719700000 {SETTLE_KEY} meters f4.csv
    load 1719700000 {SETTLE_KEY} prices f5.csv
    """
)
FIRST_RUN = f"run 1719874800 {SETTLE_KEY} 2024-07-01 SF"
DEARER_PRICE = f"load 1719700000 {SETTLE_KEY} prices p2.csv"
SECOND_RUN, THIRD_RUN = (f"run 1719961200 {SETTLE_KEY} 2024-07-01 {kind}" for kind in ("R1", "R2"))
# A service has one moment for all its clients.
SERVED_RUN = FIRST_RUN.replace("1719874800", "1719961200")
SERVED_PRICE = DEARER_PRICE.replace("1719700000", "1719961200")
# NEWCO joins, and its account NEWCO-C leads the unit S1 from the day of the runs on. The files of both lines are in no example.
JOINS = f"load 1719700000 {SETTLE_KEY} parties n.csv"
TAKES_OVER = f"load 1719700000 {SETTLE_KEY} units s.csv"
TEXTS = {
    "n.csv": "party,from,to,key\nNEWCO,2024-01-01,,newco0001\n",
    "s.csv": "unit,party,side,interconnector,from,to\nS1,NEWCO,C,no,2024-07-01,\n",
}

MARKET = lines_of(
    f"""
    load 1717405200 {MARKET_KEY} parties examples/market/parties.csv
    load 1717405500 {MARKET_KEY} units examples/market/units.csv
    load 1719568800 {MARKET_KEY} contracts examples/market/contracts.csv
    load 1719569700 {MARKET_KEY} reallocations examples/market/reallocations.csv
    load 1719907200 {MARKET_KEY} prices examples/market/prices.csv
    load 1720166700 {MARKET_KEY} meters examples/market/meters.csv
    run 1720170000 {MARKET_KEY} 2024-07-01 SF
    load 1721376000 {MARKET_KEY} meters examples/market/meters-2.csv
    run 1721379600 {MARKET_KEY} 2024-07-01 R1
    """
)
WEEK = lines_of(
    f"""
    load 1717405200 {MARKET_KEY} parties examples/market/parties.csv
    load 1717405500 {MARKET_KEY} units examples/market/units.csv
    load 1729245600 {MARKET_KEY} contracts examples/week/contracts-week.csv
    load 1729246500 {MARKET_KEY} reallocations examples/week/reallocations-week.csv
    load 1729587600 {MARKET_KEY} prices examples/week/prices-2024-10-21.csv
    load 1729588200 {MARKET_KEY} meters examples/week/meters-2024-10-21.csv
    run 1729589400 {MARKET_KEY} 2024-10-21 SF
    load 1729674000 {MARKET_KEY} prices examples/week/prices-2024-10-22.csv
    load 1729674600 {MARKET_KEY} meters examples/week/meters-2024-10-22.csv
    run 1729675800 {MARKET_KEY} 2024-10-22 SF
    load 1729760400 {MARKET_KEY} prices examples/week/prices-2024-10-23.csv
    load 1729761000 {MARKET_KEY} meters examples/week/meters-2024-10-23.csv
    run 1729762200 {MARKET_KEY} 2024-10-23 SF
    load 1729846800 {MARKET_KEY} prices examples/week/prices-2024-10-24.csv
    load 1729847400 {MARKET_KEY} meters examples/week/meters-2024-10-24.csv
    run 1729848600 {MARKET_KEY} 2024-10-24 SF
    load 1729933200 {MARKET_KEY} prices examples/week/prices-2024-10-25.csv
    load 1729933800 {MARKET_KEY} meters examples/week/meters-2024-10-25.csv
    run 1729935000 {MARKET_KEY} 2024-10-25 SF
    load 1730016000 {MARKET_KEY} contracts examples/week/contracts-late.csv
    load 1730019600 {MARKET_KEY} prices examples/week/prices-2024-10-26.csv
    load 1730020200 {MARKET_KEY} meters examples/week/meters-2024-10-26.csv
    run 1730021400 {MARKET_KEY} 2024-10-26 SF
    load 1730106000 {MARKET_KEY} prices examples/week/prices-2024-10-27.csv
    load 1730106600 {MARKET_KEY} meters examples/week/meters-2024-10-27.csv
    run 1730107800 {MARKET_KEY} 2024-10-27 SF
    load 1731315600 {MARKET_KEY} meters examples/week/meters-2024-10-24-corrected.csv
    run 1731317400 {MARKET_KEY} 2024-10-24 R1
    """
)

OF_VERSION_ONE = {
    "new": Office(SETTLE_KEY, lead_minutes=45),
    "first-sf": Office(SETTLE_KEY, (*TWO_PARTIES, FIRST_RUN)),
    "first-r1": Office(SETTLE_KEY, (*TWO_PARTIES, FIRST_RUN, SECOND_RUN)),
    "dearer-sf": Office(SETTLE_KEY, (*TWO_PARTIES, FIRST_RUN, DEARER_PRICE)),
    "dearer-r1": Office(SETTLE_KEY, (*TWO_PARTIES, FIRST_RUN, DEARER_PRICE, SECOND_RUN)),
    "market": Office(MARKET_KEY, MARKET),
    "week": Office(MARKET_KEY, WEEK),
    "without-positions": Office(MARKET_KEY, MARKET[:-1], has_positions=False),
    "killed": Office(SETTLE_KEY, TWO_PARTIES, served=(SERVED_RUN, SERVED_PRICE, SECOND_RUN)),
    "killed-writing": Office(SETTLE_KEY, TWO_PARTIES, served=(SERVED_RUN, SERVED_PRICE), cut=SECOND_RUN),
}
# Those that the program of version 2 made too, with the same lines.
MADE_AGAIN = "new", "dearer-sf", "dearer-r1", "market", "without-positions", "killed", "killed-writing"
OF_VERSION_TWO = {
    **{f"{name}-2": dataclasses.replace(OF_VERSION_ONE[name], version=2) for name in MADE_AGAIN},
    "succession-2": Office(SETTLE_KEY, (*TWO_PARTIES, FIRST_RUN, JOINS, TAKES_OVER), version=2),
    "migrated-2": dataclasses.replace(OF_VERSION_ONE["first-r1"], version=2, migrated="first-r1"),
}
OFFICES = {**OF_VERSION_ONE, **OF_VERSION_TWO}


def packed(name, end, folder=FOLDER):
    """The path of a packed file of an office."""
    return folder / f"{name}{end}.gz"


def pack(database, name, folder):
    """Packs an office's file, and its log if there is one. The same bytes are packed in the same way each time."""
    for end in ENDS:
        path = database.with_name(database.stem + end)
        if path.exists():
            with open(packed(name, end, folder), "wb") as file, gzip.GzipFile("", "wb", 9, file, mtime=0) as packing:
                packing.write(path.read_bytes())


def unpack(name, folder):
    """Unpacks an office's file into a folder, with its log if it has one. Returns the path of the file."""
    folder.mkdir(parents=True)
    for end in ENDS:
        if packed(name, end).exists():
            (folder / f"office{end}").write_bytes(gzip.decompress(packed(name, end).read_bytes()))
    return folder / "office.db"
