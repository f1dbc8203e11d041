"""What a period settles to: energies, charges and shares by the built program, compared with figures that are worked out here."""
import csv
import datetime
import io
import random
import unittest
from fractions import Fraction

from test_commands import midnight, shares_of
from test_desk import DAY, LOADED, MARKET, OPERATOR, Desk
from test_program import OfTheProgram

ACCOUNTS = ["GENCO-P", "GENCO-C", "SUPCO-P", "SUPCO-C"]
LIMIT = "refused 55 TooLarge"


def energy(mwh):
    """An energy in MWh as it is written: with 10 decimals, rounded with halves away from zero."""
    ticks = int(abs(Fraction(mwh)) * 10**10 + Fraction(1, 2))
    return f"{'-' if mwh < 0 and ticks else ''}{ticks // 10**10}.{ticks % 10**10:010}"


class Shared(Desk):
    """The residual of the market's first period, 5,050 pence, shared by weights."""

    def shares(self, generator, supplier):
        """The shares of the accounts, if the units of the generator and of the supplier are an interconnector's or not."""
        units = [f"G1,GENCO,P,{generator},2024-01-01,", f"S1,SUPCO,C,{supplier},2024-01-01,"]
        files = [(kind, units if kind == "units" else rows) for kind, rows in MARKET]
        loads = [self.load(kind, rows, f"f{number}.csv") for number, (kind, rows) in enumerate(files)]
        found = self.replies(*loads, self.order("SF"), f"report {OPERATOR} csv {DAY} SF")
        self.assertEqual(found[:5], LOADED)
        rows = [row for row in csv.DictReader(io.StringIO("\n".join(found[6:]))) if row["period"] == "1"]
        self.assertEqual([row["account"] for row in rows], ACCOUNTS)
        return [int(row["share"]) for row in rows]

    def test_by_credited_energy(self):
        """The weights are 99.5 and 98.49 MWh of 197.99. The penny that is left over goes to the greater remainder."""
        whole = [5050 * weight // 19799 for weight in (9950, 9849)]
        rest = [5050 * weight % 19799 for weight in (9950, 9849)]
        self.assertEqual((sum(whole), rest[0] > rest[1]), (5049, True))
        self.assertEqual(self.shares("no", "no"), [whole[0] + 1, 0, 0, whole[1]])

    def test_an_interconnector_weighs_nothing(self):
        self.assertEqual(self.shares("yes", "no"), [0, 0, 0, 5050])
        self.assertEqual(self.shares("no", "yes"), [5050, 0, 0, 0])

    def test_interconnectors_alone(self):
        """Nobody has a weight, so all have equal shares, and the first two get the pennies that are left over."""
        self.assertEqual(divmod(5050, 4), (1262, 2))
        self.assertEqual(self.shares("yes", "yes"), [1263, 1263, 1262, 1262])


class Split(Desk):
    """Totals of any size and sign, split by weights of many kinds: a case for each Settlement Period. An account has its weight
    as energy of a unit, and sells all of it to Z-P. Two interconnector units of Z-P, which weigh nothing, make up for it, so
    that only Z-P has an imbalance. What it is charged at the period's price is the residual."""

    PARTIES = "ABCDEF"
    SELLERS = [f"{party}-{side}" for party in PARTIES for side in "PC"]
    # The first 12 sell, and Z-P and Z-C have no weight.
    ALL = [*SELLERS, "Z-P", "Z-C"]

    def mwh(self, kwh):
        return f"{'-' if kwh < 0 else ''}{abs(kwh) // 1000}.{abs(kwh) % 1000:03}"

    def registered(self):
        """The lines that register the parties and the units."""
        parties = [f"{party},2024-01-01,,party000{party}" for party in (*self.PARTIES, "Z")]
        units = [f"U_{name},{name[0]},{name[2]},no,2024-01-01," for name in self.SELLERS]
        return [self.load("parties", parties), self.load("units", [*units, "Z1,Z,P,yes,2024-01-01,", "Z2,Z,P,yes,2024-01-01,"])]

    def rows(self, date, period, total, weights):
        """The rows of a period with this total of pence and these weights of the sellers, in kWh. Their energy may be negative.
        If the total has a penny, the imbalance is 1 MWh, and otherwise 10,000."""
        imbalance = 1 if abs(total) < 10**7 else 10_000
        price, rest = divmod(abs(total) * 1000, imbalance)
        self.assertEqual(rest, 0)
        other = imbalance * 1000 - sum(weights)
        energies = {f"U_{name}": kwh for name, kwh in zip(self.SELLERS, weights)} | {"Z1": other // 2, "Z2": other - other // 2}
        meters = [f"{unit},{date},{period},{self.mwh(kwh)},1,0" for unit, kwh in energies.items()]
        contracts = [f"{name},{name},Z-P,{date},{period},{self.mwh(kwh)}" for name, kwh in zip(self.SELLERS, weights)]
        return meters, contracts, f"{date},{period},{'-' if total < 0 else ''}{price // 10**5}.{price % 10**5:05}"

    def day(self, date, cases):
        """The lines that load the cases of a date, one for each of its periods, and settle it."""
        meters, contracts, prices = [], [], []
        for period, (total, weights) in enumerate(cases, 1):
            read, sold, price = self.rows(date, period, total, weights)
            meters += read
            contracts += sold
            prices.append(price)
        end = midnight((datetime.date.fromisoformat(date) + datetime.timedelta(1)).isoformat())
        files = {"meters": meters, "contracts": contracts, "prices": prices}
        loads = [self.load(kind, rows, f"{date}.csv", 0) for kind, rows in files.items()]
        return [*loads, self.order("SF", end, date), f"report {OPERATOR} csv {date} SF"]

    def shares(self, days):
        """The shares of all accounts in each period of these dates."""
        lines = [line for date, cases in days.items() for line in self.day(date, cases)]
        found = self.replies(*self.registered(), *lines)[2:]
        shares = []
        for date, cases in days.items():
            loads, found = found[:4], found[4:]
            residual = sum(total for total, _ in cases)
            self.assertRegex(loads[3], rf"\Arun {date} SF periods {len(cases)} accounts 14 residual {residual} ")
            report, found = found[: 1 + 14 * len(cases)], found[1 + 14 * len(cases) :]
            rows = list(csv.DictReader(report))
            self.assertEqual([row["account"] for row in rows[:14]], self.ALL)
            shares += [[int(row["share"]) for row in rows[at : at + 14]] for at in range(0, len(rows), 14)]
        return shares

    def wanted(self, total, weights):
        sizes = [abs(kwh) for kwh in weights] + [0] * (len(self.ALL) - len(weights))
        return shares_of(total, sizes if any(sizes) else [1] * len(sizes))

    def weights(self, *first):
        return [*first, *[0] * (len(self.SELLERS) - len(first))]

    def test_worked_shares(self):
        """Pennies that are left over go to the largest remainders, and among equal ones to the first accounts."""
        worked = [
            (1, [5, 5, 5], [1, 0, 0]),
            (-100, [1, 1, 1], [-34, -33, -33]),
            (0, [7, 0], [0, 0]),
            (10, [0, 1, 2, 4], [0, 1, 3, 6]),
            (-5, [3, 0, 3], [-3, 0, -2]),
            (1, [2, 1], [1, 0]),
            (1, [1, 2], [0, 1]),
            (1, [1, 3, 3], [0, 1, 0]),
        ]
        cases = [(total, self.weights(*weights)) for total, weights, _ in worked]
        still = (0, self.weights())
        found = self.shares({DAY: cases + [still] * (48 - len(cases))})
        wanted = [[*shares, *[0] * (14 - len(shares))] for *_, shares in worked]
        self.assertEqual(found[: len(worked)], wanted)
        self.assertEqual(found[len(worked) :], [[0] * 14] * (48 - len(worked)))

    def case(self, draw):
        """A total and weights: weights are often 0 or small, so that remainders are often equal, and sometimes large."""
        total = draw.choice((0, draw.randrange(40), draw.randrange(40), draw.randrange(10**7), 10 * draw.randrange(10**6, 10**10)))
        kinds = (lambda: 0, lambda: draw.randrange(5), lambda: draw.randrange(1_000), lambda: draw.randrange(10**6), lambda: 10**6)
        weights = [draw.choice(kinds)() for _ in range(draw.randrange(len(self.SELLERS) + 1))]
        return draw.choice((1, -1)) * total, self.weights(*(draw.choice((1, -1)) * kwh for kwh in weights))

    def test_three_thousand_cases(self):
        """Drawn at random."""
        draw = random.Random(3)
        first = datetime.date(2024, 4, 1)
        dates = [(first + datetime.timedelta(day)).isoformat() for day in range(63)]
        days = {date: [self.case(draw) for _ in range(48)] for date in dates}
        cases = [case for drawn in days.values() for case in drawn]
        self.assertEqual(len(cases), 3_024)
        wanted = [self.wanted(*case) for case in cases]
        wrong = [(case, shares) for case, shares, right in zip(cases, self.shares(days), wanted, strict=True) if shares != right]
        self.assertEqual(wrong[:3], [])

    def test_a_penny_each_to_the_first(self):
        """800 accounts with a unit of 1 kWh each share 1,000 pence: 200 pennies are left over for the first 200. At 10 pounds
        each is paid a penny for its unit, and the last 200 more for an interconnector's 0.2 MWh."""
        parties = [f"P{number:03},2024-01-01,,party0{number:03}" for number in range(400)]
        units = [f"U{number:03}{side},P{number:03},{side},no,2024-01-01," for number in range(400) for side in "PC"]
        names = [unit.partition(",")[0] for unit in units]
        meters = [f"{name},{DAY},{period},{'0.001' if period == 1 else 0},1,0" for name in names for period in range(1, 49)]
        meters += [f"I,{DAY},{period},{'0.2' if period == 1 else 0},1,0" for period in range(1, 49)]
        lines = [
            self.load("parties", parties),
            self.load("units", [*units, "I,P399,C,yes,2024-01-01,"]),
            *(self.load("meters", meters[at : at + 20_000], f"{at}.csv") for at in (0, 20_000)),
            self.load("prices", [f"{DAY},1,10", *(f"{DAY},{period},0" for period in range(2, 49))]),
            self.order("SF"),
            f"report {OPERATOR} csv {DAY} SF",
        ]
        found = self.replies(*lines)
        self.assertRegex(found[5], rf"\Arun {DAY} SF periods 48 accounts 800 residual 1000 postings ")
        rows = [row for row in csv.DictReader(found[6:]) if row["period"] == "1"]
        self.assertEqual([int(row["share"]) for row in rows], [2] * 200 + [1] * 600)


class Reallocated(Desk):
    """A unit's energy goes to a subsidiary account by a percentage and a fixed volume, and the rest to its lead account."""

    def credited(self, metered, multiplier, balancing, percent, fixed):
        """What the lead account and the subsidiary are credited for unit G1 in period 1, and what goes to both."""
        files = [
            *MARKET[:2],
            ("meters", [f"G1,{DAY},1,{metered},{multiplier},{balancing}", f"S1,{DAY},1,0,1,0", *MARKET[3][1][2:]]),
            ("prices", [f"{DAY},{period},0" for period in range(1, 49)]),
            ("reallocations", [f"G1,SUPCO-C,{DAY},1,{percent},{fixed}"]),
        ]
        loads = [self.load(kind, rows, f"f{number}.csv") for number, (kind, rows) in enumerate(files)]
        found = self.replies(*loads, self.order("SF"), f"report {OPERATOR} csv {DAY} SF")
        rows = csv.DictReader(io.StringIO("\n".join(found[6:])))
        credited = {row["account"]: row["credited"] for row in rows if row["period"] == "1"}
        self.assertEqual([credited["GENCO-C"], credited["SUPCO-P"]], [energy(0)] * 2)
        return credited["GENCO-P"], credited["SUPCO-C"]

    def worked(self, metered, multiplier, balancing, percent, fixed):
        """The same from fractions: the subsidiary's is rounded to 10 decimals, and the lead account gets the rest."""
        metered, multiplier, balancing, percent, fixed = map(Fraction, (metered, multiplier, balancing, percent, fixed))
        subsidiary = energy(((metered - balancing) * percent / 100 + fixed) * multiplier)
        return energy(metered * multiplier - Fraction(subsidiary)), subsidiary

    def test_reallocated_energy(self):
        cases = [
            # A third of 9 MWh, and half an MWh.
            ("10", "1.0123457", "1", "33.33333", "0.5"),
            # Half of an odd number of the smallest parts is rounded away from zero.
            ("0.001", "1.0000001", "0", "50", "0"),
            ("-0.001", "1.0000001", "0", "50", "0"),
            ("5", "0.9", "0", "0", "-0.25"),
            ("-3", "1.0500001", "-1.5", "100", "0"),
        ]
        for case in cases:
            with self.subTest(case=case):
                self.assertEqual(self.credited(*case), self.worked(*case))
        self.assertEqual(self.worked(*cases[0]), ("6.5802473537", "3.5432096463"))
        self.assertEqual(self.worked(*cases[1]), ("0.0005000000", "0.0005000001"))
        self.assertEqual(self.worked(*cases[2]), ("-0.0005000000", "-0.0005000001"))


class Limits(OfTheProgram):
    """The greatest amounts of an account and of a period, by `settle period`. A unit of 20,000 MWh is the largest."""

    def settles(self, rows, price, text):
        status, written, told = self.period("".join(rows), "", "--", price)
        self.assertEqual((status, written.decode(), told), (0, text, b""))

    def refuses(self, rows, price):
        self.assertEqual(self.period("".join(rows), "", "--", price), (1, b"", LIMIT.encode() + b"\n"))

    def test_balancing_energy(self):
        """10 MWh, 1 of them for the system. The other 9 are paid for, at 10 pounds."""
        text = f"account A-P credited {energy(10)} imbalance {energy(9)} charge -9000\nresidual 9000\n"
        self.settles(["U,A-P,10,1,1\n"], "10", text)

    def test_the_least_energy(self):
        """1 kWh by the least multiplier. It is worth less than half a penny at any price."""
        text = "account A-P credited -0.0000000001 imbalance -0.0000000001 charge 0\nresidual 0\n"
        self.settles(["U,A-P,-0.001,0.0000001,0\n"], "99999.99999", text)

    def test_halves_of_a_penny(self):
        """1 kWh at 5 pounds per MWh is half a penny. It is rounded to one, in either direction. So are other halves, and all else
        goes to the nearest penny."""
        for price, charge in (
            ("5.00000", -1),
            ("4.99999", 0),
            ("-5.00000", 1),
            ("-4.99999", 0),
            ("15", -2),
            ("25", -3),
            ("-25", 3),
            ("3.33333", 0),
            ("6.66667", -1),
            ("70", -7),
        ):
            text = f"account A-P credited {energy(Fraction(1, 1000))} imbalance {energy(Fraction(1, 1000))} charge {charge}\n"
            self.settles(["U,A-P,0.001,1,0\n"], price, f"{text}residual {-charge}\n")

    def test_the_most_energy_of_an_account(self):
        """10,000,000 MWh: 500 of the largest units, and no more."""
        units = [f"U{number},A-P,10000,2,0\n" for number in range(501)]
        whole = energy(500 * 20_000)
        self.settles(units[:500], "0", f"account A-P credited {whole} imbalance {whole} charge 0\nresidual 0\n")
        self.refuses(units, "0")

    def test_the_greatest_weight(self):
        """Credits that cancel still count as weight: 250 units in and 250 out are allowed, and 251 each are not."""
        units = [f"U{number},A-P,{'-' if number % 2 else ''}10000,2,0\n" for number in range(502)]
        none = energy(0)
        self.settles(units[:500], "99999.99999", f"account A-P credited {none} imbalance {none} charge 0\nresidual 0\n")
        self.refuses(units, "99999.99999")

    def test_the_greatest_residual(self):
        """10^12 pence. Five of the largest units at the greatest price are 100 pence less. Another account's 10^-5 MWh add
        these 100, and with 1 in 100 more they add another penny."""
        large = [f"U{number},A-P,10000,2,0\n" for number in range(5)]
        pence = 10**12 - 100
        text = f"account A-P credited {energy(100_000)} imbalance {energy(100_000)} charge -{pence}\n"
        small = energy(Fraction(1, 10**5))
        text += f"account B-P credited {small} imbalance {small} charge -100\nresidual {10**12}\n"
        self.settles([*large, "V,B-P,0.001,0.01,0\n"], "99999.99999", text)
        for past in ("0.001,0.0101", "10000,2"):
            for price in ("99999.99999", "-99999.99999"):
                self.refuses([*large, f"V,B-P,{past},0\n"], price)


if __name__ == "__main__":
    unittest.main()
