"""Services on an office in a database file that are killed at random moments while clients send requests. Beside that office
there is another. It gets the same requests in the same order, and its services end by themselves. What a kill leaves, and each
reply, is compared with it."""
import collections
import concurrent.futures
import contextlib
import dataclasses
import itertools
import os
import pathlib
import random
import re
import shutil
import signal
import socket
import sqlite3
import subprocess
import threading
import time

from programs import SETTLE
from test_both_stores import ACCOUNTS, DATES, REPORTS, Requests, after
from test_database import content_of
from test_desk import OPERATOR
from test_serving import request

PROGRAM = [SETTLE]
# How many services of an office are killed, and the most requests and the most clients of each.
KILLS, MOST_REQUESTS, MOST_CLIENTS = 10, 20, 4
# Of this many services one is killed while it opens the file, and one finds a disk that becomes full.
OPENING_ONE_OF, FULL_ONE_OF = 6, 8
MOST_ROOM = 200_000
# The weight of runs among the requests that are drawn.
RUNS = 50
PATIENCE = 60
# How many seconds a service is assumed to take for opening the file, and a request for its answer, before that was measured.
OPENING, ANSWERING = 0.05, 0.005


class Wrong(Exception):
    """An observation that shows that a promise doesn't hold."""


@dataclasses.dataclass
class Found:
    """What came of the kills of an office: when they met its services, how many requests these were to get, how many were
    answered 90 or 91, and what is wrong, if anything is."""

    seed: int
    met: collections.Counter = dataclasses.field(default_factory=collections.Counter)
    kills: int = 0
    requests: int = 0
    put_off: int = 0
    wrong: str = ""


class MoreRuns(Requests):
    """Requests with many runs among them. For half of the dates nothing is missing. Units may get other lead accounts from the beginning."""

    def __init__(self, folder, seed):
        super().__init__(folder, seed)
        self.first_succession = 0
        self.makers[self.order] = RUNS

    def first(self):
        made = super().first()
        missing = [self.complete(at) for at in range(0, len(DATES), 2) for _ in ("prices", "meters")]
        return [*made, *itertools.chain.from_iterable(missing)]

    def order(self, at):
        """Mostly the next run of a date for which nothing is missing."""
        ready = [at for at in range(len(DATES)) if self.is_ready(at)]
        if not ready or self.chance(20):
            return super().order(at)
        at = self.draw.choice(ready)
        return [self.run(at, self.next_kind(at))]


def as_sent(asked, enquiry):
    """The bytes by which a client asks what a line of a script does; or this enquiry, if no client can ask that."""
    if isinstance(asked, bytes):
        return asked
    what, *words = asked.split(" ")
    if what == "run":
        _, key, date, kind = words
        return request("POST", f"/runs/{date}/{kind}", key)
    path = pathlib.Path(words[-1])
    if what == "report" or not path.exists():
        return enquiry
    _, key, kind, _ = words
    return request("POST", f"/files/{kind}/{path.name}", key, path.read_bytes())


def drawn(folder, seed, count):
    """A number of requests as clients send them."""
    requests, enquiries = MoreRuns(folder, seed), random.Random(seed)
    asked = requests.draw_all(count)
    return [as_sent(one, requests.enquiry(enquiries.choice(ACCOUNTS), enquiries.choice(DATES))) for one in asked]


def kind_of(sent):
    """What a client asks for."""
    if sent.startswith(b"POST /files/"):
        return "a load"
    return "a run" if sent.startswith(b"POST /runs/") else "an enquiry"


def met_in(sent, is_there):
    """At which point a kill met a service that had this request."""
    kind = kind_of(sent)
    return f"in {kind}" if kind == "an enquiry" else f"in {kind} that is {'' if is_there else 'not '}there"


def name_of(sent):
    return sent.partition(b" HTTP/")[0].decode()


def is_whole(reply):
    """Whether all of a reply has come."""
    head, between, body = reply.partition(b"\r\n\r\n")
    size = re.search(rb"\r\nContent-Length: ([0-9]+)", head)
    return bool(between and size) and len(body) == int(size[1])


def is_put_off(reply):
    """Whether it says that nothing was done, and that the request may be sent again."""
    return reply.startswith(b"HTTP/1.1 503 ")


def is_kept(sent, reply):
    """Whether the request gets the same answer whenever it is sent again."""
    return kind_of(sent) != "an enquiry" and reply.startswith(b"HTTP/1.1 200 ")


def connect(port):
    return socket.create_connection(("127.0.0.1", port), timeout=PATIENCE)


def replied(client, sent):
    """The whole reply to a request, or what came of it before the service was gone."""
    got = b""
    with client, contextlib.suppress(ConnectionError):
        client.sendall(sent)
        while piece := client.recv(65_536):
            got += piece
    return got


def difference(found, wanted):
    """The tables whose rows differ, with one of the rows."""
    tables = [table for table in wanted if found[table] != wanted[table]]
    rows = [sorted(set(found[table]) ^ set(wanted[table])) for table in tables]
    return ", ".join(f"{table} {len(one)} rows, {str(one[:1])[:200]}" for table, one in zip(tables, rows))


class Service:
    """A process that serves the office in a file, at a given moment. No file that it writes may have more bytes than `most`."""

    def __init__(self, database, moment, *options, most=None):
        call = [*PROGRAM, "serve", "--db", str(database), "--port=0", f"--at={moment}", *options]
        if most is not None:
            call = ["sh", "-c", f'trap "" XFSZ; ulimit -f {most // 512}; exec "$@"', "sh", *call]
        streams = {"stdin": subprocess.DEVNULL, "stdout": subprocess.PIPE, "stderr": subprocess.PIPE}
        self.program = subprocess.Popen(call, bufsize=0, **streams)

    def __enter__(self):
        return self

    def __exit__(self, *_):
        self.program.kill()
        self.program.communicate()

    def port(self):
        told = self.program.stdout.readline()
        if not told.startswith(b"listening 127.0.0.1:"):
            raise Wrong(f"a service does not listen: {told + self.program.stderr.read()}")
        return int(told.rpartition(b":")[2])

    def ends(self, status=0):
        """It ends with this status and says nothing more. Returns what it wrote before."""
        written, told = self.program.communicate(timeout=PATIENCE)
        if (self.program.returncode, told) != (status, b""):
            raise Wrong(f"a service ended with status {self.program.returncode}: {told.decode()}")
        return written

    def kill(self):
        self.program.kill()
        return self.ends(-signal.SIGKILL)


class Clients:
    """Clients that send these requests to a service in their order, each in its turn, until the service is gone."""

    def __init__(self, requests, port, awaited):
        self.requests, self.port, self.awaited = requests, port, awaited
        self.turn, self.has_come = threading.Lock(), threading.Event()
        self.replies = []

    def ask(self):
        while (taken := self.take_turn()) is not None:
            place, client = taken
            self.replies[place] = replied(client, self.requests[place])

    def take_turn(self):
        """The place of the next request, and a connection for it. Connections are served in the order in which they come."""
        with self.turn:
            place = len(self.replies)
            if place == len(self.requests):
                return None
            try:
                client = connect(self.port)
            except ConnectionError:
                return None
            self.replies.append(b"")
            if place == self.awaited:
                self.has_come.set()
            return place, client


class Office:
    """An office in a database file, in a folder of its own."""

    def __init__(self, folder):
        folder.mkdir(parents=True)
        self.database = folder / "office.db"
        self.answering = collections.defaultdict(lambda: ANSWERING)
        self.told("init", "--operator-key", OPERATOR)

    def told(self, name, *words):
        """What a command on it writes. The command must be done."""
        call = [*PROGRAM, name, "--db", str(self.database), *map(str, words)]
        made = subprocess.run(call, stdin=subprocess.DEVNULL, capture_output=True, timeout=PATIENCE)
        if made.returncode or made.stderr:
            raise Wrong(f"{name} ended with status {made.returncode}: {made.stderr.decode()}")
        return made.stdout

    def asked(self, requests, moment, is_killed=False):
        """The replies to clients that come one after the other. Then the service ends by itself, or is killed."""
        if not requests:
            return []
        with Service(self.database, moment, *([] if is_killed else [f"--count={len(requests)}"])) as service:
            port = service.port()
            replies = [self.replied(port, sent) for sent in requests]
            service.kill() if is_killed else service.ends()
        return replies

    def replied(self, port, sent):
        """The reply to a client. How long it takes is remembered for its kind of request."""
        began = time.monotonic()
        reply = replied(connect(port), sent)
        self.answering[kind_of(sent)] += (time.monotonic() - began - self.answering[kind_of(sent)]) / 4
        return reply

    def content(self):
        """All rows in a copy of the file and its log, which must be sound. What was left stays as it is."""
        copy = self.database.parent.with_name(f"{self.database.parent.name}-copy")
        shutil.copytree(self.database.parent, copy)
        with contextlib.closing(sqlite3.connect(copy / "office.db")) as connection:
            sound = connection.execute("PRAGMA integrity_check").fetchall()
        if sound != [("ok",)]:
            raise Wrong(f"the file is not sound: {sound}")
        content = content_of(copy / "office.db")
        shutil.rmtree(copy)
        return content


class Trial:
    """An office whose services are killed, and the office beside it."""

    def __init__(self, folder, found):
        self.folder, self.found, self.draw = folder, found, random.Random(found.seed)
        self.killed, self.beside = Office(folder / "killed"), Office(folder / "beside")
        self.requests = iter(drawn(folder / "files", found.seed, KILLS * MOST_REQUESTS))
        self.opening = OPENING

    def moment(self):
        """Mostly a moment at which all dates are over, and otherwise one at which some are yet to come."""
        last = len(DATES) - 1
        return after(self.draw.choice((last, last, last, self.draw.randrange(last))))

    def kill_once(self):
        """Kills a service during requests, opens the file again and sends all requests again."""
        requests = [*itertools.islice(self.requests, self.draw.randint(1, MOST_REQUESTS))]
        moment = self.moment()
        right = self.compare(requests, self.kill_under(requests, moment), moment)
        if self.draw.randrange(2):
            self.compare_told("report", "--key", OPERATOR, "balances")
        self.send_again(requests, right)
        self.found.kills += 1
        self.found.requests += len(requests)

    # ---- killing

    def kill_under(self, requests, moment):
        """Kills a service at a random moment. Returns for each request that it may have got what came of its reply."""
        with Service(self.killed.database, moment, most=self.most()) as service:
            if not self.draw.randrange(OPENING_ONE_OF):
                time.sleep(self.draw.random() * self.opening)
                self.found.met["before it listened" if not service.kill() else "between requests"] += 1
                return []
            began = time.monotonic()
            clients = Clients(requests, service.port(), self.awaited(requests))
            self.opening = time.monotonic() - began
            self.ask_and_kill(service, clients)
        return clients.replies

    def awaited(self, requests):
        """The place of a request. Loads, runs and enquiries are equally frequent."""
        places = collections.defaultdict(list)
        for place, sent in enumerate(requests):
            places[kind_of(sent)].append(place)
        return self.draw.choice(self.draw.choice([places[kind] for kind in sorted(places)]))

    def most(self):
        """The disk of some services has little room."""
        if self.draw.randrange(FULL_ONE_OF):
            return None
        return self.killed.database.stat().st_size + self.draw.randrange(MOST_ROOM)

    def ask_and_kill(self, service, clients):
        """Some clients send requests. The service is killed shortly after one of the requests has come. The delay depends on
        how long such a request takes."""
        count = self.draw.randint(1, MOST_CLIENTS)
        with concurrent.futures.ThreadPoolExecutor(count) as pool:
            asking = [pool.submit(clients.ask) for _ in range(count)]
            if not clients.has_come.wait(PATIENCE):
                raise Wrong(f"{len(clients.replies)} requests have come in {PATIENCE} seconds")
            lasting = self.killed.answering[kind_of(clients.requests[clients.awaited])]
            time.sleep(self.draw.expovariate(1 / lasting))
            service.kill()
        for done in asking:
            done.result()

    # ---- what is left

    def compare(self, requests, replies, moment):
        """Checks that everything that was answered is there, in order, and that of the other requests only the next may be
        there, whole. Returns the right replies to what is there, by place."""
        answered = [*itertools.takewhile(is_whole, replies)]
        if any(map(is_whole, replies[len(answered) :])):
            raise Wrong(f"one that came later was answered before {name_of(requests[len(answered)])}")
        right = self.ask_beside(requests, [place for place, reply in enumerate(answered) if not is_put_off(reply)], moment)
        for place, reply in right.items():
            self.see_reply(requests[place], answered[place], reply)
        self.found.put_off += len(answered) - len(right)
        left = self.killed.content()
        if len(answered) < len(replies):
            right |= self.compare_under_way(requests, len(answered), replies[len(answered)], left, moment)
        elif replies:
            self.found.met["between requests"] += 1
        self.see_content(left)
        return right

    def compare_under_way(self, requests, place, part, left, moment):
        """Checks whether the request at this place is there, if a part of its reply has come. Returns the right reply if it is."""
        is_there = bool(part) or left != self.beside.content()
        self.found.met[met_in(requests[place], is_there)] += 1
        if not is_there:
            return {}
        right = self.ask_beside(requests, [place], moment)
        if not right[place].startswith(part):
            raise Wrong(f"{name_of(requests[place])} is replied {right[place]}, and got {part}")
        return right

    def ask_beside(self, requests, places, moment):
        """The replies of the office beside it to the requests at these places."""
        return dict(zip(places, self.beside.asked([requests[place] for place in places], moment), strict=True))

    def see_reply(self, sent, found, wanted):
        if found != wanted:
            raise Wrong(f"{name_of(sent)} got {found[-200:]}, and the office beside it replies {wanted[-200:]}")

    def see_content(self, left):
        wanted = self.beside.content()
        if left != wanted:
            raise Wrong(f"the rows are not those of the office beside it: {difference(left, wanted)}")

    # ---- what is done again

    def compare_told(self, *words):
        """A command on either office tells the same."""
        told, wanted = self.killed.told(*words), self.beside.told(*words)
        if told != wanted:
            raise Wrong(f"{words[0]} tells {told[:200]}, and of the office beside it {wanted[:200]}")

    def send_again(self, requests, right):
        """Sends all requests from one on again, at another moment. What was done is answered as before."""
        moment, first, is_killed = self.moment(), self.draw.randrange(len(requests)), self.draw.random() < 0.5
        places = [*range(first, len(requests)), *range(first)]
        found = self.killed.asked([requests[place] for place in places], moment, is_killed)
        for (place, reply), got in zip(self.ask_beside(requests, places, moment).items(), found, strict=True):
            self.see_reply(requests[place], got, reply)
            if place in right and is_kept(requests[place], right[place]):
                self.see_reply(requests[place], got, right[place])
        self.see_content(self.killed.content())

    def end(self):
        """All reports of both offices are the same."""
        script = self.folder / "reports"
        script.write_text("".join(f"{line}\n" for line in REPORTS))
        self.compare_told("script", script)


def tried(seed, kills, room):
    """What came of the kills of the office with this seed. What is wrong is told, and its folder is kept."""
    folder, found = pathlib.Path(room) / str(seed), Found(seed)
    try:
        trial = Trial(folder, found)
        for _ in range(kills):
            trial.kill_once()
        trial.end()
    except (Wrong, OSError, sqlite3.Error, subprocess.SubprocessError) as fault:
        found.wrong = f"kill {found.kills + 1}: {fault}"
    else:
        shutil.rmtree(folder)
    return found


def try_all(first, count, room):
    """What came of this many kills, office by office as they end. As many are tried at a time as there are processors. The
    first office has this seed, and each further one the next seed."""
    kills = [min(KILLS, count - done) for done in range(0, count, KILLS)]
    with concurrent.futures.ThreadPoolExecutor(os.cpu_count()) as workers:
        offices = [workers.submit(tried, seed, some, room) for seed, some in enumerate(kills, first)]
        for done in concurrent.futures.as_completed(offices):
            yield done.result()
