"""A client of an office that `settle serve` opens, over Python's standard library alone. docs/http.md says what each request does.

    office = Office("http://127.0.0.1:8080", key)
    office.load("meters", "july.csv", open("july.csv", "rb").read())
    office.run("2024-07-01", "SF")
    office.account("CITYSUP-C", "2024-07-01")["net_pence"]

Each call returns the reply as a dictionary. Pence are whole numbers, and energies and volumes are exact decimals in MWh. A refusal
is raised as `Refused`.

A request without an answer is sent again, with the same bytes. So is one that is answered 503. That is safe: a file or a run that was
accepted counts once, and its first reply comes again. Any other answer stands, and nothing is sent again. If the last try has no answer
either, `NoAnswer` is raised: the request may have been handled, and may be sent again later. A contract or a reallocation that wasn't
accepted by then comes at its new moment, and may be late."""

import decimal
import functools
import http.client
import json
import re
import time
import urllib.parse

# How long an answer is waited for, in seconds. Each client before this one holds up the office for at most 62.
PATIENCE = 90
# The seconds before each further try.
PAUSES = 1, 2, 4, 8
# Statuses with which nothing has changed: the office's, and those of a proxy that doesn't reach the office.
TRY_AGAIN = 502, 503, 504
ENERGIES = "balancing", "contracts", "credited", "imbalance", "mwh"


class Refused(Exception):
    """The office refuses a request, which changed nothing. It has a number and a name, and None where it has no place."""

    def __init__(self, status, body):
        self.status, self.number, self.name = status, body["refused"], body["name"]
        self.row, self.column, self.unit, self.period = (body.get(place) for place in ("row", "column", "unit", "period"))
        places = [f" {place} {body[place]}" for place in ("row", "column", "unit", "period") if place in body]
        super().__init__(f"refused {self.number} {self.name}{''.join(places)}")


class NoAnswer(Exception):
    """No answer of an office has come. It isn't known whether the request was handled."""


class NoOffice(Exception):
    """A whole answer has come that no office gives."""


class Office:
    """An office at an address, asked with a key. Further tries begin after these pauses. With an address of https, `tls` is the context
    of `ssl` that says which certificates are trusted: the system's, if none is given."""

    def __init__(self, address, key, patience=PATIENCE, pauses=PAUSES, tls=None):
        found = urllib.parse.urlsplit(address)
        kinds = {"http": http.client.HTTPConnection, "https": functools.partial(http.client.HTTPSConnection, context=tls)}
        if found.scheme not in kinds or not found.hostname or found.path.strip("/") or found.query or found.username is not None:
            raise ValueError(f"{address} is no address as http://127.0.0.1:8080")
        if not re.fullmatch("[A-Za-z0-9-]*", key):
            raise ValueError(f"the key has {len(key)} letters, of which one is none of A-Z, a-z, 0-9 and the dash")
        self.connect = lambda: kinds[found.scheme](found.hostname, found.port, timeout=patience)
        self.address, self.headers, self.pauses = address, {"x-office-key": key} if key else {}, pauses

    def load(self, kind, name, data):
        """Loads a file, whose bytes are `data`. How many rows were applied, and how many came late."""
        return self.ask("POST", "files", kind, name, body=data)

    def run(self, date, kind):
        """Makes a run."""
        return self.ask("POST", "runs", date, kind)

    def account(self, account, date):
        """What an account has and pays in the latest run of a date."""
        return self.ask("GET", "accounts", account, date)

    def balance(self, account):
        """What the runs of all dates have posted to an account."""
        return self.ask("GET", "balances", account)

    def contracts(self, account, date):
        """The contracts of an account that are in force on a date."""
        return self.ask("GET", "contracts", account, date)

    def runs(self, date):
        """The runs of a date."""
        return self.ask("GET", "runs", date)

    def ask(self, method, *parts, body=None):
        """The reply to a request. Parts off their grammar are sent so that the office refuses them."""
        path = "".join(f"/{urllib.parse.quote(part, safe='')}" for part in parts)
        for pause in (*self.pauses, None):
            try:
                status, answer = self.ask_once(method, path, body)
            except (OSError, http.client.HTTPException) as cause:
                failed = NoAnswer(f"{self.address}{path}: no answer: {cause or type(cause).__name__}")
            else:
                if status not in TRY_AGAIN:
                    return self.told(status, answer, path)
                failed = refusal(status, answer) or NoAnswer(f"{self.address}{path}: status {status}, and no answer of an office")
            if pause is None:
                raise failed
            time.sleep(pause)

    def ask_once(self, method, path, body):
        """The status and the body of an answer that came whole."""
        connection = self.connect()
        try:
            connection.connect()
            try:
                connection.request(method, path, body, self.headers)
            except (BrokenPipeError, ConnectionResetError):
                pass  # an answer may have come before the whole body was taken
            answer = connection.getresponse()
            if answer.length is None:
                raise http.client.IncompleteRead(b"")  # the head was cut: each reply says how long it is
            return answer.status, answer.read()
        finally:
            connection.close()

    def told(self, status, answer, path):
        """What an answer says."""
        if status == 200 and (told := parsed(answer)) is not None:
            return told
        raise refusal(status, answer) or NoOffice(f"{self.address}{path}: status {status}, and no answer of an office")


def refusal(status, answer):
    """The refusal that an answer says, if it says one."""
    told = parsed(answer)
    return Refused(status, told) if told is not None and {"refused", "name"} <= told.keys() else None


def parsed(answer):
    """The object that an answer is, with energies and volumes as decimals. None if it is none."""
    try:
        told = json.loads(answer, object_hook=exact)
    except (ValueError, ArithmeticError):
        return None
    return told if isinstance(told, dict) else None


def exact(found):
    """An object of a reply, whose energies and volumes are texts."""
    return {name: decimal.Decimal(value) if name in ENERGIES and isinstance(value, str) else value for name, value in found.items()}
