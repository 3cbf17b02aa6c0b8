"""The page of examples/watch: with counts that are made up, and with those of a server under load."""
import contextlib
import json
import math
import pathlib
import re
import threading
import time
import urllib.request

import websocket

from lib.front import Front
from lib.people import Person
from lib.processes import PATIENCE, Server, until

PAGE = pathlib.Path(__file__).resolve().parents[2] / "examples" / "watch"
TITLES = ["Clients", "Messages a second", "Dropped a second", "Rooms"]
# Counts of which each is another number.
COUNTS = {"commands_total": 9_000_000, "messages_placed_total": 8_000_000, "messages_dropped_total": 7,
          "messages_taken_total": 5_000_000, "messages_discarded_total": 60_000, "messages_waiting": 12, "clients": 1234,
          "sockets": 1500, "rooms": 1700, "sessions_saved": 30, "log_entries": 40}
# A page whose clock runs so many times as fast.
FASTER = 40
FAST_CLOCK = f"const clock = performance.now.bind(performance); performance.now = () => {FASTER} * clock();"

SHOWN = """Object.fromEntries([...document.querySelectorAll(".chart")].map((it) => [it.querySelector("h2").textContent,
  [it.querySelector("output").textContent, it.querySelector("small").textContent]]))"""

# The value at which the line of a chart is painted, in each column of its canvas, by the number at its axis; null where it isn't.
LINE = """(() => {{
  const canvas = [...document.querySelectorAll("canvas")][{0}];
  const [width, height] = [canvas.width, canvas.height];
  const top = Number([...document.querySelectorAll(".chart")][{0}].querySelector(".heights span").textContent.replace(",", ""));
  const colour = getComputedStyle(canvas).getPropertyValue("--line").trim();
  const wanted = [1, 3, 5].map((at) => parseInt(colour.slice(at, at + 2), 16));
  const points = canvas.getContext("2d").getImageData(0, 0, width, height).data;
  const isLine = (x, y) => points[4 * (y * width + x) + 3] > 200
    && wanted.every((it, part) => Math.abs(it - points[4 * (y * width + x) + part]) < 24);
  return Array.from({{ length: width }}, (_, x) => {{
    const rows = Array.from({{ length: height }}, (_, y) => y).filter((y) => isLine(x, y));
    const middle = (rows[0] + rows.at(-1) + 1) / 2;
    return rows.length ? top * (height - 1.5 - middle) / (height - 3) : null;
  }});
}})()"""


def text_of(**changed):
    """What a server with these counts answers."""
    rows = "".join(f"# TYPE socketio_{name} gauge\nsocketio_{name} {number}\n" for name, number in {**COUNTS, **changed}.items())
    return ("text/plain; version=0.0.4", rows.encode())


def number_of(text):
    return float(text.replace(",", "")) if re.fullmatch("[0-9,.]+", text) else None


class Watcher(Person):
    """One who looks at the page, over a way that can be cut, or that has counts of its own."""

    ready = "document.querySelector('#state')?.dataset.state === 'open'"

    def __init__(self, browser, port, width, script="", **files):
        way = Front(("127.0.0.1", port), {f"/{name}": file for name, file in files.items()})
        super().__init__(browser, f"http://127.0.0.1:{way.port}/", width, way, script)

    def feed(self, **changed):
        self.way.files["/metrics"] = text_of(**changed)

    def shown(self, title):
        """The number of a chart, none where there is no number, and its note."""
        value, note = self.page.run(SHOWN)[title]
        return number_of(value), note

    def comes_to_show(self, title, value, note):
        return until(lambda: self.shown(title) == (value, note))

    def says(self, text):
        return self.page.becomes(f"document.querySelector('#state').textContent.includes({json.dumps(text)})")

    def line(self, title):
        return self.page.run(LINE.format(TITLES.index(title)))

    def last_of_line(self, title):
        return next((it for it in reversed(self.line(title)) if it is not None), None)


def shows_made_up_counts(watcher, checks):
    """Each number is the count that its title names, and no other."""
    watcher.feed()
    checks("the clients are shown", watcher.comes_to_show("Clients", 1234, "1,500 sockets"))
    checks("and the rooms", watcher.comes_to_show("Rooms", 1700, "1,500 of them sockets' own"))
    checks("nothing came yet", watcher.comes_to_show("Messages a second", 0, "12 wait"))
    checks("nor was dropped", watcher.comes_to_show("Dropped a second", 0, "7 since the start"))
    rates = ("Messages a second", "Dropped a second")
    now = {"commands_total": 9_100_000, "messages_placed_total": 8_100_000, "messages_discarded_total": 90_000, "log_entries": 41}
    watcher.feed(**now)
    checks("what is put into outboxes isn't what came", not until(lambda: any(watcher.shown(it)[0] for it in rates), 3))
    watcher.feed(**now, messages_taken_total=5_005_000)
    came = until(lambda: watcher.shown(rates[0])[0] or 0)
    # The 5,000 came between two readings, within a second or in the five before the last one.
    shown = [watcher.shown(it)[0] for it in rates]
    checks("messages that come are shown", came and 900 <= shown[0] <= 5500 and shown[1] == 0, shown)
    checks("and that none comes any more", watcher.comes_to_show(rates[0], 0, "12 wait"))
    watcher.feed(**now, messages_taken_total=5_005_000, messages_dropped_total=57)
    checks("what is dropped is shown", until(lambda: watcher.shown(rates[1])[0]) and watcher.shown(rates[0])[0] == 0)
    checks("and how much since the start", watcher.shown(rates[1])[1] == "57 since the start")
    watcher.feed(commands_total=5, messages_taken_total=3, messages_dropped_total=0, clients=1)
    checks("a server that begins anew counts anew", watcher.comes_to_show("Clients", 1, "1,500 sockets")
           and not until(lambda: watcher.shown(rates[0])[0] or watcher.shown(rates[1])[0], 3))
    watcher.way.files["/metrics"] = ("text/plain", b"nothing that counts\n")
    checks("that there are no counts is said", watcher.says("no counts at /metrics") and watcher.shown("Clients") == (None, ""))
    watcher.feed()
    checks("and they are shown again", watcher.comes_to_show("Clients", 1234, "1,500 sockets") and watcher.says("up"))


def levels(line, values):
    """Which of these values a line has, from the left to the right, and where it isn't there."""
    near = lambda it: it is None and "none" or next((value for value in values if abs(it - value) < 20), "")
    found = [near(it) for it in line]
    return [it for it, before in zip(found, [None, *found]) if it != before and it != ""]


def says_what_was_read(watcher, value):
    """Whether a value is told, and how long ago it was, where the pointer is moved to the first of it. The line moves on meanwhile."""
    at = next((at for at, it in enumerate(watcher.line("Clients")) if it is not None and abs(it - value) < 20), 0)
    x, y = watcher.page.run("(() => { const it = document.querySelector('canvas').getBoundingClientRect(); return [it.x, it.y]; })()")
    watcher.page.call("Input.dispatchMouseEvent", type="mouseMoved", x=x + at + 3, y=y + 9)
    number, note = watcher.shown("Clients")
    return number == value and re.fullmatch(r"\d+ min \d+ s ago", note)


def draws_what_was_read(watcher, checks):
    """The line has the heights of what was read, and a gap where nothing was."""
    for clients in (1000, 600):
        watcher.feed(clients=clients)
        checks(f"{clients} clients are read", watcher.comes_to_show("Clients", clients, "1,500 sockets"))
        time.sleep(2.5)
    del watcher.way.files["/metrics"]
    watcher.way.turn("cut")
    checks("that the server is gone is said", watcher.says("the server is gone since") and watcher.shown("Clients") == (None, ""))
    time.sleep(2)
    watcher.feed(clients=200)
    watcher.way.turn("mended")
    checks("and that it is back", watcher.says("up") and watcher.comes_to_show("Clients", 200, "1,500 sockets"))
    time.sleep(1.5)
    line = watcher.line("Clients")
    found = levels(line, (1000, 600, 200))
    checks("the line has the heights of what was read", found == ["none", 1000, 600, "none", 200, "none"], found)
    checks("under the pointer it says what was read there", until(lambda: says_what_was_read(watcher, 1000)))
    watcher.page.call("Input.dispatchMouseEvent", type="mouseMoved", x=1, y=1)
    checks("and then what is there now", watcher.comes_to_show("Clients", 200, "1,500 sockets"))


def fits(watcher, checks, what):
    checks(f"{what}: nothing reaches over its side", watcher.page.run(
        "[document.documentElement, ...document.querySelectorAll('main, .chart')].every((it) => it.scrollWidth <= it.clientWidth)"))
    for scheme in ("dark", "light"):
        watcher.page.turn_to(scheme)
        checks(f"{what}, {scheme}: its line has the colour of its style", until(lambda: watcher.last_of_line("Clients") is not None))


class Load(threading.Thread):
    """Members of a room who come and go, one who speaks to them, now more and now less, and one who reads nothing."""

    STEADY = 15     # seconds in which their number and what is said stays the same
    TICK = 0.05

    def __init__(self, port):
        super().__init__(daemon=True)
        self.port, self.is_over, self.members, self.deaf = port, threading.Event(), [], None
        self.speaker = self.client()

    def client(self):
        line = websocket.create_connection(f"ws://127.0.0.1:{self.port}/socket.io/?EIO=4&transport=websocket", timeout=PATIENCE)
        for text in ("40", '42["join","watched"]'):
            line.send(text)
        threading.Thread(target=self.read, args=(line,), daemon=True).start()
        return line

    @staticmethod
    def read(line):
        with contextlib.suppress(OSError, websocket.WebSocketException):
            while line.recv():
                pass

    def ask(self, query="", text=None):
        url = f"http://127.0.0.1:{self.port}/socket.io/?EIO=4&transport=polling{query}"
        return urllib.request.urlopen(url, text and text.encode(), PATIENCE).read().decode()

    def be_deaf(self, is_there):
        if is_there and not self.deaf:
            self.deaf = f"&sid={json.loads(self.ask()[1:])['sid']}"
            self.ask(self.deaf, '40\x1e42["join","watched"]')
        elif self.deaf and not is_there:
            self.ask(self.deaf, "1")
            self.deaf = None

    def run(self):
        start, due = time.monotonic(), 0.0
        while not self.is_over.wait(self.TICK):
            gone = max(0.0, time.monotonic() - start - self.STEADY)
            wanted = 16 + round(8 * math.sin(gone / 47) + 5 * math.sin(gone / 13))
            while len(self.members) < wanted:
                self.members.append(self.client())
            while len(self.members) > wanted:
                self.members.pop().close()
            self.be_deaf(not gone or math.sin(gone / 29) > 0.6)
            due += self.TICK * (50 + 30 * math.sin(gone / 71) + 12 * math.sin(gone / 7))
            for _ in range(int(due)):
                self.speaker.send('42["say","watched","words"]')
            due -= int(due)

    def end(self):
        self.is_over.set()
        self.join()
        self.be_deaf(False)
        for it in (*self.members, self.speaker):
            it.close()


def counts_in(text):
    return {name: int(number) for name, number in re.findall(r"^socketio_(\w+) (\d+)$", text, re.M)}


def counts_at(port):
    return counts_in(urllib.request.urlopen(f"http://127.0.0.1:{port}/metrics", timeout=PATIENCE).read().decode())


def rates_of(read, name):
    """The least and the most that a page can show that has read these counts: the last ones it may not show yet, and about five
    seconds before stand those with which it compares."""
    found = []
    for end, after in read[-3:]:
        for start, before in read:
            if 3.5 < end - start < 6.5:
                found.append((after[name] - before[name]) / (end - start))
    return min(found, default=0), max(found, default=0)


def shows_what_is_counted(watcher, port, checks):
    """While clients come, speak and go."""
    watcher.way.heard["/metrics"] = heard = []
    rates = {"Messages a second": "messages_taken_total", "Dropped a second": "messages_dropped_total"}
    shown, wrong = {it: [] for it in rates}, []
    time.sleep(9)
    for _ in range(8):
        time.sleep(1)
        for title, name in rates.items():
            value, (least, most) = watcher.shown(title)[0], rates_of([(at, counts_in(it.decode())) for at, it in heard], name)
            # On a machine that is too busy the page may miss the server for a moment.
            shown[title] += [value] * (value is not None)
            if value is not None and not 0.9 * least - 1 <= value <= 1.1 * most + 1:
                wrong.append(f"{title}: {value} where {least:.1f} to {most:.1f} are counted")
    for title, values in shown.items():
        checks(f"{title}: the page shows up to {max(values, default=0):.0f}", len(values) > 3 and max(values) > 1)
    checks("which is what is counted", not wrong, wrong)
    for title, name in (("Clients", "clients"), ("Rooms", "rooms")):
        checks(f"{title}: the page shows what is counted", until(lambda: watcher.shown(title)[0] == counts_at(port)[name] > 1, 5))
    for title in TITLES:
        checks(f"{title}: its line ends there", until(lambda: ends_there(watcher, title)))


def ends_there(watcher, title):
    """Whether a line ends at the value that is told. The page may read anew in between."""
    value, drawn = watcher.shown(title)[0], watcher.last_of_line(title)
    return None not in (value, drawn) and abs(drawn - value) < 0.02 * value + 1


def try_watch(browser, given, _, checks):
    """The page from the start of its server to its end."""
    # None is pinged, so that none has to answer.
    server = Server([given.program, "serve", "--port", "{port}", "--page", PAGE, "--metrics", "/metrics", "--capacity", "100",
                     "--ping-interval", "4000000"]).start()
    port, watchers, load = server.port, [], None
    try:
        for script, check in (("", shows_made_up_counts), (FAST_CLOCK, draws_what_was_read)):
            watchers = [Watcher(browser, port, 960, script, metrics=text_of())]
            check(watchers[0], checks)
            watchers[0].page.close()
        watchers, load = [Watcher(browser, port, width) for width in (960, 360)], Load(port)
        load.start()
        shows_what_is_counted(watchers[0], port, checks)
        for watcher, name in zip(watchers, ("wide", "narrow")):
            fits(watcher, checks, name)
        if given.pictures:
            time.sleep(given.load)
            for watcher, name in zip(watchers, ("wide", "narrow")):
                watcher.page.pictures(given.pictures, f"watch-{name}")
        load.end()
        checks("that all have gone is shown", until(lambda: watchers[0].shown("Clients")[0] == 0))
        server.end()
        checks("that the server has ended is shown", watchers[0].says("the server is gone since"))
        server.start()
        checks("and that it was started anew", watchers[0].says("up") and watchers[0].comes_to_show("Clients", 0, "0 sockets"))
    finally:
        for watcher in watchers:
            watcher.page.close()
        if load:
            load.is_over.set()
        fault = server.end()
        if fault:
            checks("the server goes on", False, fault)
