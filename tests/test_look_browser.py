"""The pages of `./look page` in a browser, without a built program: what a person reads on the screen and on paper, what the picture
shows, and that the browser asks for nothing but the page. Each test is skipped where there is no Chromium.

The browser is asked over two pipes, by the protocol of its own tools: a message is JSON with a zero byte behind it."""
import base64
import collections
import contextlib
import json
import os
import re
import select
import shutil
import struct
import subprocess
import time
import unittest
import zlib

from looking import Looking, look
from test_desk import DAY
from test_look_page import LONG, SHORT

CHROMIUM = next(filter(None, map(shutil.which, ("chromium", "chromium-browser", "google-chrome"))), None)
QUIET = ("--headless", "--no-sandbox", "--disable-gpu", "--disable-dev-shm-usage", "--no-first-run", "--disable-background-networking")
WIDTH, HEIGHT = 1280, 900
PATIENCE = 240  # seconds


class Browser:
    """A Chromium that shows one page."""

    def __init__(self, room):
        (asked, self.asking), (self.hearing, heard) = os.pipe(), os.pipe()
        words = [CHROMIUM, *QUIET, f"--user-data-dir={room}/profile", "--remote-debugging-pipe", "about:blank"]
        # Its pipes have the numbers 3 and 4, and 5 and 6 are none of its own.
        pipes = 'exec 5<&"$1" 6>&"$2" && exec 3<&5 4>&6 5<&- 6>&- && shift 2 && exec "$@"'
        how = {"pass_fds": (asked, heard), "stdin": subprocess.DEVNULL, "stdout": subprocess.DEVNULL, "stderr": subprocess.DEVNULL}
        how["env"] = {**os.environ, "HOME": str(room)}
        self.process = subprocess.Popen(["bash", "-c", pipes, "bash", str(asked), str(heard), *words], start_new_session=True, **how)
        os.close(asked)
        os.close(heard)
        self.number, self.left, self.events, self.session = 0, b"", collections.deque(), None
        (page,) = [one for one in self.ask("Target.getTargets")["targetInfos"] if one["type"] == "page"]
        self.session = self.ask("Target.attachToTarget", targetId=page["targetId"], flatten=True)["sessionId"]

    def ask(self, method, **words):
        """What the browser answers to a request. Events that come before are kept."""
        self.number += 1
        message = {"id": self.number, "method": method, "params": words}
        if self.session:
            message["sessionId"] = self.session
        os.write(self.asking, json.dumps(message).encode() + b"\0")
        while (told := self.hear()).get("id") != self.number:
            self.events.append(told)
        if "error" in told:
            raise AssertionError(f"{method}: {told['error']}")
        return told["result"]

    def hear(self):
        """The next message."""
        until = time.monotonic() + PATIENCE
        while b"\0" not in self.left:
            if not select.select([self.hearing], [], [], max(0, until - time.monotonic()))[0]:
                raise AssertionError("the browser says nothing")
            more = os.read(self.hearing, 1 << 16)
            if not more:
                raise AssertionError("the browser has ended")
            self.left += more
        message, _, self.left = self.left.partition(b"\0")
        return json.loads(message)

    def show(self, path):
        """Opens a file, and returns the addresses of all that is asked for until it is there."""
        for domain in "Page", "Network", "Log", "Runtime":
            self.ask(f"{domain}.enable")
        self.ask("Emulation.setDeviceMetricsOverride", width=WIDTH, height=HEIGHT, deviceScaleFactor=1, mobile=False)
        self.ask("Page.navigate", url=path.as_uri())
        while all(event["method"] != "Page.loadEventFired" for event in self.events):
            self.events.append(self.hear())
        self.find("new Promise(done => requestAnimationFrame(() => requestAnimationFrame(done)))")
        return [event["params"]["request"]["url"] for event in self.events if event["method"] == "Network.requestWillBeSent"]

    def find(self, expression):
        """The value of an expression in the page."""
        found = self.ask("Runtime.evaluate", expression=expression, returnByValue=True, awaitPromise=True)
        if "exceptionDetails" in found:
            raise AssertionError(found["exceptionDetails"])
        return found["result"].get("value")

    def complaints(self):
        """What the browser has noted of the page, such as what its policy kept away."""
        return [event["params"] for event in self.events if event["method"] in ("Log.entryAdded", "Runtime.exceptionThrown")]

    def end(self):
        for pipe in self.asking, self.hearing:
            os.close(pipe)
        with contextlib.suppress(ProcessLookupError):
            os.killpg(self.process.pid, 9)
        self.process.wait()


def pixels_of(png):
    """The colours of a picture and how many pixels have each. It has eight bits for each of three or four colours."""
    at, data = 8, b""
    while at < len(png):
        length, kind = struct.unpack(">I4s", png[at : at + 8])
        part = png[at + 8 : at + 8 + length]
        if kind == b"IHDR":
            width, height, bits, form, *_ = struct.unpack(">IIBBBBB", part)
        data += part if kind == b"IDAT" else b""
        at += length + 12
    size = {2: 3, 6: 4}[form]
    assert bits == 8
    lines, raw, before = [], zlib.decompress(data), bytes(width * size)
    for number in range(height):
        begin = number * (width * size + 1)
        before = unfiltered(raw[begin], raw[begin + 1 : begin + 1 + width * size], before, size)
        lines.append(before)
    return collections.Counter(line[place : place + 3] for line in lines for place in range(0, len(line), size))


def unfiltered(kind, line, before, size):
    """A line of a picture, which is kept as what differs from its neighbours."""
    found = bytearray(line)
    for at in range(len(found)):
        left, corner = (found[at - size], before[at - size]) if at >= size else (0, 0)
        above = before[at]
        if kind == 4:
            near = left + above - corner
            found[at] = (found[at] + min((left, above, corner), key=lambda one: abs(near - one))) % 256
        else:
            found[at] = (found[at] + (0, left, above, (left + above) // 2)[kind]) % 256
    return bytes(found)


class Pages(Looking):
    """R1 of the example market, and the example week."""

    @unittest.skipIf(CHROMIUM is None, "there is no chromium")
    def setUp(self):
        super().setUp()
        status, text, told = look("page", "--db", self.kept("market"), DAY, "R1")
        self.assertEqual((status, told), (0, ""))
        self.path = self.room / "run.html"
        self.path.write_text(text, encoding="utf-8")
        self.browser = Browser(self.room)
        self.addCleanup(self.browser.end)
        self.asked = self.browser.show(self.path)

    def texts(self):
        """The lines that can be read."""
        return [line for line in self.browser.find("document.body.innerText").splitlines() if line.strip()]

    def test_a_page(self):
        """On the screen, with its picture, and then on paper."""
        self.assertEqual(self.asked, [self.path.as_uri()])
        self.assertEqual(self.browser.complaints(), [])
        self.on_the_screen()
        self.in_the_picture()
        self.unfolded()
        self.on_paper()

    def test_dates(self):
        """The runs of a week: their picture, and statements with a line for each date."""
        status, text, told = look("page", "--db", self.kept("week"), "2024-10-01", "2024-10-31")
        self.assertEqual((status, told), (0, ""))
        self.path.write_text(text, encoding="utf-8")
        self.assertEqual(set(self.browser.show(self.path)), {self.path.as_uri()})
        self.assertEqual(self.browser.complaints(), [])
        self.assertEqual(self.texts()[0], "Runs of 2024-10-21 to 2024-10-27")
        self.assertLessEqual(self.browser.find("document.documentElement.scrollWidth"), WIDTH)
        self.in_the_picture()
        self.browser.find("document.querySelector('label[for=\"of-CITYSUP-C\"]').click()")
        rows = [line.split("\t") for line in self.texts() if line.startswith("2024-10-") and line.count("\t") == 9]
        self.assertEqual([row[1] for row in rows], ["SF", "SF", "SF", "R1", "SF", "SF", "SF"])

    def on_the_screen(self):
        lines = self.texts()
        self.assertEqual(lines[0], "Run R1 of 2024-07-01")
        self.assertEqual([line[0] for line in lines if re.match("[✓✗]", line)], ["✓"] * 7)
        (row,) = [line.split("\t") for line in lines if line.startswith("NORTHGEN-P\t")]
        self.assertEqual(row[-2:], ["−£6,281.28", "£315.24"])
        self.assertFalse([line for line in lines if line.startswith("23\t")])  # the statements are folded
        self.assertLessEqual(self.browser.find("document.documentElement.scrollWidth"), WIDTH)
        # No amount and no name of an account is broken in two lines.
        cells = self.browser.find("[...document.querySelectorAll('table:not(.of) td')].map(cell => cell.getClientRects()[0].height)")
        self.assertLess(max(cells), 1.5 * min(cells))

    def in_the_picture(self):
        """Both colours are there, in about the sizes of the steps. No text stands outside of the picture, or on another."""
        shown = "(() => {const at = document.querySelector('svg').getBoundingClientRect(); return [at.x, at.y, at.width, at.height]})()"
        x, y, width, height = self.browser.find(shown)
        clip = {"x": x, "y": y, "width": width, "height": height, "scale": 1}
        png = base64.b64decode(self.browser.ask("Page.captureScreenshot", clip=clip, captureBeyondViewport=True)["data"])
        seen = pixels_of(png)
        steps = "[...document.querySelectorAll('svg rect')].map(one => [one.getAttribute('fill'), one.width.baseVal.value * one.height.baseVal.value])"
        scale = width * height / self.browser.find("(({width, height}) => width * height)(document.querySelector('svg').viewBox.baseVal)")
        for colour in LONG, SHORT:
            area = scale * sum(size for fill, size in self.browser.find(steps) if fill == colour)
            self.assertGreater(area, 1000)
            self.assertLess(abs(seen[bytes.fromhex(colour[1:])] - area) / area, 0.3)
        boxes = "[...document.querySelectorAll('svg text')].map(one => one.getBBox()).map(({x, y, width, height}) => [x, y, width, height])"
        limits = self.browser.find("(({width, height}) => [width, height])(document.querySelector('svg').viewBox.baseVal)")
        texts = self.browser.find(boxes)
        self.assertGreater(len(texts), 20)
        for at, (left, top, wide, high) in enumerate(texts):
            self.assertTrue(0 <= left and left + wide <= limits[0] and 0 <= top and top + high <= limits[1], texts[at])
            for other in texts[:at]:
                across = min(left + wide, other[0] + other[2]) - max(left, other[0])
                down = min(top + high, other[1] + other[3]) - max(top, other[1])
                self.assertFalse(across > 1 and down > high / 3, (texts[at], other))

    def unfolded(self):
        """A click on an account's name opens its statement."""
        self.browser.find("document.querySelector('label[for=\"of-CITYSUP-C\"]').click()")
        (row,) = [line.split("\t") for line in self.texts() if line.startswith("23\t")]
        self.assertEqual([row[1], row[6]], ["11:00", "54.66"])
        self.browser.find("document.querySelector('label[for=\"of-CITYSUP-C\"]').click()")

    def on_paper(self):
        """All statements are open, and each is on a page of its own or with others."""
        pdf = base64.b64decode(self.browser.ask("Page.printToPDF", paperWidth=8.27, paperHeight=11.69)["data"])
        self.assertTrue(pdf.startswith(b"%PDF-"))
        pages = len(re.findall(rb"/Type\s*/Page\b", pdf))
        self.assertTrue(3 <= pages <= 10, pages)
        self.browser.ask("Emulation.setEmulatedMedia", media="print")
        lines = self.texts()
        self.assertEqual(len([line for line in lines if line.startswith("23\t")]), 5)
        if pdftotext := shutil.which("pdftotext"):
            made = subprocess.run([pdftotext, "-layout", "-", "-"], input=pdf, capture_output=True)
            words = made.stdout.decode().split()
            for amount in "−£6,281.28", "£315.24", "CITYSUP-C", "£31,361.06":
                self.assertIn(amount, words)


if __name__ == "__main__":
    unittest.main()
