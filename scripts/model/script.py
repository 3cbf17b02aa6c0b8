"""Scripts: what each line of one prints (docs/SCRIPTS.md)."""
import re

from apps import Wild
from hub import Refused
from server import Server

USUAL = dict(capacity=64, clients=1024, bytes=8_388_608, log=1024, log_bytes=67_108_864, saved=4096, keep=120_000, first_offset=1)
NAME = "([A-Za-z]{1,16})"
NUMBER = "([0-9]+)"
TOTALS = "commands {}, placed {}, dropped {}, taken {}, discarded {}, waiting {}"


class BadLine(Exception):
    pass


class Script:
    """A script that is played line by line to an app. `is_over` tells that nothing more is printed."""

    def __init__(self, app=Wild()):
        self.app, self.limits, self.server = app, dict(USUAL), None
        self.now, self.names, self.is_over = 0, {}, False

    def play(self, line):
        """What a line prints, as a list of lines."""
        text = as_text(line)
        if self.is_over or text is not None and (text.startswith("#") or not text.strip(" \t")):
            return []
        word, parts = read(text)
        if word == "config" and self.server is None:
            self.limits[parts[0]] = parts[1]
            return []
        try:
            self.begin()
            return (LINES[word][1](self, *parts) or []) if word else self.bad()
        except BadLine:
            return ["bad line"]
        except Refused as refused:
            return [f"refused: {refused}"]

    def begin(self):
        if self.server is None:
            try:
                self.server = Server(self.app, spaces=self.app.spaces, **self.limits)
            except Refused:
                self.is_over = True
                raise

    def bad(self):
        raise BadLine

    def client(self, name):
        return self.names[name] if name in self.names else self.bad()

    def play_open(self, name, is_socket):
        client, text = self.server.open(bool(is_socket), self.now)
        self.names[name] = client
        return [f"{name} {text}"]

    def play_bytes(self, name, digits):
        client = self.client(name)
        if not re.fullmatch("([0-9a-f]{2})*", digits):
            self.bad()
        return self.tell(self.server.bytes(client, bytes.fromhex(digits), self.now))

    @staticmethod
    def tell(done):
        said = "400" if done.is_unread else "ok"
        said += f", skipped: {done.skipped}" if done.skipped else ""
        said += ", ignored" if done.is_ignored else ""
        return [said + (f", closed: {done.closed}" if done.closed else "")]

    def play_take(self, name, most):
        taken = self.server.take(self.client(name), 64 if most is None else most, self.now)
        if not isinstance(taken, list):
            return [f"{name} {'-' if taken is None else taken}"]
        return [f"{name} bytes {it.hex()}" if isinstance(it, bytes) else f"{name} text {it}" for it in taken]

    def play_tick(self, name):
        due = self.server.tick(self.client(name), self.now)
        return [f"{name} {due}" if due in ("ping", "nothing") else f"{name} closed: {due}"]

    def play_members(self, space, room):
        sids = self.server.hub.members(space, room)
        return [" ".join(["members", *(f"{sid:032x}" for sid in sids)]) if sids else "members -"]


# Of each line, by its first word, its form, and what it prints: of the script, and of the parts.
LINES = {
    "config": (f"config ([a-z-]+) {NUMBER}", lambda it, *_: it.bad()),
    "at": (f"at {NUMBER}", lambda it, moment: setattr(it, "now", moment)),
    "open": (f"open {NAME}( socket)?", Script.play_open),
    "text": (f"text {NAME} (.*)", lambda it, name, body: it.tell(it.server.post(it.client(name), body, it.now))),
    "frame": (f"frame {NAME} (.*)", lambda it, name, text: it.tell(it.server.frame(it.client(name), text, it.now))),
    "bytes": (f"bytes {NAME} (.*)", Script.play_bytes),
    "get": (f"get {NAME}", lambda it, name: ["ok" if it.server.get(it.client(name), it.now) else "closed: DoubleGet"]),
    "unget": (f"unget {NAME}", lambda it, name: it.server.unget(it.client(name)) or ["ok"]),
    "take": (f"take {NAME}(?: {NUMBER})?", Script.play_take),
    "probe": (f"probe {NAME}", lambda it, name: it.server.probe(it.client(name)) or [f"{name} 3probe"]),
    "upgrade": (f"upgrade {NAME}", lambda it, name: it.server.upgrade(it.client(name)) or ["ok"]),
    "unprobe": (f"unprobe {NAME}", lambda it, name: it.server.unprobe(it.client(name)) or ["ok"]),
    "lost": (f"lost {NAME}", lambda it, name: ["ok" if it.server.lose(it.client(name), it.now) else "ok, not saved: SavedFull"]),
    "tick": (f"tick {NAME}", Script.play_tick),
    "members": ("members ([^ ]*) (.*)", Script.play_members),
    "sweep": ("sweep", lambda it: ["swept log {}, saved {}".format(*it.server.hub.sweep(it.now))]),
    "totals": ("totals", lambda it: [TOTALS.format(*it.server.hub.totals())]),
    "seal": ("seal", lambda it: [f"sealed {it.server.hub.seal()}"]),
}


def as_text(line):
    try:
        return line.decode()
    except UnicodeDecodeError:
        return None


def read(text):
    """The word of a line and its parts."""
    word = (text or "").partition(" ")[0]
    found = re.fullmatch(LINES[word][0], text, re.S) if word in LINES else None
    if not found:
        return None, ()
    parts = list(found.groups())
    if word in ("config", "at", "take") and parts[-1] is not None:
        parts[-1] = int(parts[-1])
        if parts[-1] >= 2**64 or word == "take" and parts[-1] == 0:
            return None, ()
    if word == "config":
        parts[0] = parts[0].replace("-", "_")
    if word == "config" and parts[0] not in USUAL or word == "members" and len(parts[1].encode()) > 64:
        return None, ()
    return word, parts


def printed_by(script, app=Wild()):
    """What a script prints that is played to an app."""
    played, printed = Script(app), []
    for line in script.split(b"\n")[: None if not script.endswith(b"\n") else -1]:
        printed += played.play(line)
    return "".join(f"{line}\n" for line in printed).encode()
