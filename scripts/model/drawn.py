"""Scripts that are drawn: lines that look random, each fit for what the model knows of the server by then."""
import random

from apps import POLL, Wild
from script import Script
from wire import SEPARATOR, id_text, write_base64

LETTERS = "ABCDEF"
LIMITS = {
    "capacity": (2, 3, 5, 64), "bytes": (120, 200, 400, 8_388_608), "log": (1, 3, 5, 1024),
    "log-bytes": (100, 200, 400, 800, 67_108_864), "saved": (0, 1, 2, 4096), "keep": (0, 20_000, 80_000), "clients": (2, 4, 6),
    "first-offset": (1, 1, 1, 2**64 - 3),
}
SPACES = ("/", "/", "/", "/admin", "/admin", "/none")
WORDS = ("join", "join", "join", "leave", "say", "say", "say", "two", "but", "quiet", "all", "all", "ask", "pull", "push",
         "kick", "x")
# Payloads of a CONNECT that bring no session back.
CONNECTS = ("", "", "", "", "", "{}", '{"do":"greet"}', '{"do":"join"}', '{"do":"late"}', '{"token":"no"}', '{"pid":1,"offset":"0"}',
            '{"pid":"x","offset":"y"}', '{"pid": "' + "A" * 32 + '"}')
# Events of which the app of `trials` wants what can't be done, or what is for another namespace, a question to all, or an answer.
WISHES = ("mute", "vague", "again", "late", "over", "gone", "own", "far", "nowhere", "poll", "told",
          "fine", "report", "list")
# Texts of packets that a server refuses, or takes though they look odd.
ODD = (
    "4", "47", "4x", "9x", "x", "", "b", "bAQ", "bAQI=", "bAQJ=", "b====", "451[]", "45-[1]", "451234567890123456-[1]",
    "4533-[1]", "450-[1]", "42/\x1f,[1]", "421234567890123456[1]", "42", "42[", "42[]", "42{}", '42"x"', "42[null]", "42[[]]",
    "42[1]", "42[1.5e3]", "42[1e999]", "42[-]", "42[01]", '42["\\ud800"]', '42["\\ud83d\\ude00"]', '42["a"] ', '42[ "a" ]',
    '42["a",]', '42["a"]]', '42["connect"]', '42["disconnecting",1]', '42["newListener"]', "40[]", "401{}", "40{", "41[]", "41{}",
    "43[]", "431", "431{}", "44", "44[]", '44"no"', "44{}", "441{}", '451-["a",{"_placeholder":true,"num":1}]',
    '451-["a",{"_placeholder":true,"num":-0}]', '451-["a",{"_placeholder":true,"num":0.0}]', '451-["a",{"_placeholder":true}]',
    '450-["a",{"_placeholder":true,"num":0}]', '450-["a",{"_placeholder":false,"num":7}]', '450-["a",[{"b":{"_placeholder":true}}]]',
    '450-["a",{"_placeholder":true,"num":0,"_placeholder":1}]', '42["a",{"_placeholder":true,"num":9}]', "460-1[]", "460-[]",
    "42/a/b?c=d,[1]", "42/,[1]", "42/admin", "0", "5", "6", "6x", "3probe", "2probe", "42[" * 60, "42" + "[" * 127 + "1" + "]" * 127,
    "42" + "[" * 128 + "]" * 128,
)
MARKS = '[]{}",:0123456789-+.eE \\u/bftrn\ttruefalsn_é€😀\x7f'


class Drawer:
    """Draws the lines of one script, and plays them to the model as it goes."""

    app, spaces, letters, limits = Wild, SPACES, LETTERS, LIMITS
    # How many attachments a packet lacks, and how often it is for a namespace that its client has joined.
    missing, joined_share = (0, 0, 0, 0, 0, 1, -1), 0.97

    def __init__(self, seed):
        self.random, self.script, self.now = random.Random(seed), Script(self.app()), 0
        self.lines, self.joined, self.speaker = [], [], ""
        for key, numbers in self.limits.items():
            if self.random.random() < 0.7:
                self.play(f"config {key} {self.random.choice(numbers)}")

    def play(self, line):
        self.lines.append(line)
        self.script.play(line.encode())

    def chance(self, share):
        return self.random.random() < share

    def draw(self, count):
        self.begin()
        while len(self.lines) < count:
            self.turn()
        for line in ("totals", "members / r", "members /admin r", "seal", "totals"):
            self.play(line)

    def begin(self):
        for name in self.letters[:2]:
            self.play(f"open {name}")
            self.play(f"text {name} 40")

    def turn(self):
        if len(self.open_names()) < 2 and self.chance(0.9):
            return self.come()
        kind = self.random.randrange(40)
        name = self.name()
        if kind < 2:
            self.come()
        elif kind < 4:
            self.now = max(0, self.now + self.random.choice((1, 500, 9_999, 10_000, 12_000, 20_000, 25_000, -7_000)))
            self.play(f"at {self.now}")
            self.play(f"tick {name}")
        elif kind < 20:
            self.say(name)
        elif kind < 28:
            self.play(f"take {name}" + (f" {self.random.randrange(1, 5)}" if self.chance(0.4) else ""))
        elif kind < 31:
            self.play(f"{self.random.choice(('get', 'unget'))} {name}")
        elif kind < 34:
            self.play(f"{self.random.choice(('probe', 'probe', 'upgrade', 'upgrade', 'unprobe'))} {name}")
        elif kind < 36:
            self.play(f"tick {name}")
        elif kind < 37:
            self.play(f"lost {name}")
        else:
            self.play(self.random.choice(("sweep", "totals", "seal", f"members {self.random.choice(self.spaces)} {self.room()}")))
        return None

    def come(self):
        """A client comes, joins a namespace and a room, or brings a session back."""
        others = [name for name in self.letters if name not in self.open_names()]
        name, is_socket = self.random.choice(others if others and self.chance(0.95) else self.letters), self.chance(0.4)
        self.play(f"open {name}" + " socket" * is_socket)
        self.speaker, word = name, "frame" if is_socket else "text"
        self.play(f"{word} {name} {self.connect()}")
        client = self.script.names.get(name)
        if self.line(client):
            self.joined = list(self.script.server.hub.clients[client].sockets)
            if self.joined:
                self.play(f'{word} {name} {self.greeting()}')

    def greeting(self):
        """What a client says first that has joined a namespace."""
        return f'{self.start("2")}["join","{self.room()}"]'

    def open_names(self):
        return [name for name, client in self.script.names.items() if self.line(client)]

    def name(self):
        """A name, mostly one of an open client."""
        names = self.open_names()
        return self.random.choice(names) if names and self.chance(0.97) else self.random.choice(self.letters)

    def line(self, client):
        return self.script.server.lines.get(client) if self.script.server else None

    def room(self):
        sids = list(self.script.server.hub.sockets) or [1]
        own = id_text(self.random.choice(sids))
        return self.random.choice(("r", "r", "r", "r", "q", "q", "wake", "wake", "wake", "back", "oops", "ä", "", own, own))

    def say(self, name):
        line = self.line(self.script.names.get(name))
        is_socket = line.transport == "socket" if line else self.chance(0.5)
        if self.chance(0.03):
            is_socket = not is_socket
        if not is_socket:
            return self.play(f"text {name} " + SEPARATOR.join(self.packets(name, self.random.choice((1, 1, 1, 2, 3)))))
        for packet in self.packets(name, 1):
            is_bytes = packet.startswith("b") and self.chance(0.9)
            self.play(f"bytes {name} {self.some_bytes(self.random.randrange(9)).hex()}" if is_bytes else f"frame {name} {packet}")
        return None

    def packets(self, name, count):
        """So many packets of a client, each with its attachments, and what it owes of them first."""
        client, self.speaker = self.script.names.get(name), name
        line, found = self.line(client), []
        if line and line.awaited and self.chance(0.9):
            found.append(self.attachment())
        while len(found) < count:
            found += self.packet(client, line)
        return found

    def some_bytes(self, count):
        return self.random.getrandbits(8 * count).to_bytes(count, "little") if count else b""

    def attachment(self):
        return "b" + write_base64(self.some_bytes(self.random.choice((0, 1, 4, 60))))

    def packet(self, client, line):
        if self.chance(0.05):
            return [self.random.choice(ODD)]
        if self.chance(0.04):
            return [self.mutated(self.event())]
        if self.chance(0.04):
            return [self.start("2") + self.random.choice(("", "", "3")) + f'["{self.random.choice(WISHES)}"]']
        if self.chance(0.07):
            return [self.random.choice(("0", "1", "2", "3", "3", "3", "3", "3", "3", "3", "5", "6"))]
        self.joined = list(self.script.server.hub.clients[client].sockets) if line else []
        if not self.joined or self.chance(0.05):
            return [self.connect()]
        if self.chance(0.03):
            return [self.start("1")]
        if self.chance(0.12):
            return [self.answer()]
        if self.chance(0.02):
            return [self.start("4") + '{"message":"x"}']
        if self.chance(0.12):
            return self.binary()
        return [self.event()]

    def start(self, kind):
        """How a packet begins, mostly one for a namespace that its client has joined."""
        space = self.random.choice(self.joined if self.joined and self.chance(self.joined_share) else self.spaces)
        return f"4{kind}" + ("" if space == "/" else f"{space},")

    def connect(self):
        hub = self.script.server.hub if self.script.server else None
        if hub and hub.saved and self.chance(0.8):
            saved = self.random.choice(list(hub.saved.values()))
            offsets = [it.offset for it in hub.log] + [0, 1, max(0, (hub.next or 0) - self.random.randrange(1, 9))]
            named = f'{{"pid":"{id_text(saved.pid + self.chance(0.1))}","offset":"{self.random.choice(offsets):016x}"}}'
            space = saved.space if self.chance(0.9) else self.random.choice(self.spaces)
            return "40" + ("" if space == "/" else f"{space},") + named
        self.joined = []
        return self.connect_anew()

    def connect_anew(self):
        return self.start("0") + self.random.choice(CONNECTS)

    def answer(self):
        return self.start("3") + f'{self.random.choice((0, 1, 2, POLL))}["yes"]'

    def event(self, kind="2", parts=""):
        word = self.random.choice(WORDS) if self.chance(0.97) else "bye"
        rooms = ",".join(f'"{self.room()}"' for _ in range(self.random.choice((1, 1, 2, 2, 3))))
        number = self.random.randrange(30) if self.chance(0.2) else ""
        more = self.random.choice(("", "", ',{"a":[1,2.5e3,null]}', ',"' + "x" * self.random.randrange(60) + '"'))
        return f'{self.start(kind)}{number}["{word}",{rooms}{more}{parts}]'

    def binary(self):
        """A packet with attachments. Some of them may be missing, or too many."""
        count = self.random.randrange(4)
        parts = "".join(f',{{"_placeholder":true,"num":{it}}}' for it in range(count))
        text = self.event("2", parts) if self.chance(0.9) else self.start("3") + f'{self.random.randrange(3)}[1{parts}]'
        kind = {"2": "5", "3": "6"}[text[1]]
        missing = self.random.choice(self.missing)
        return [f"4{kind}{count}-{text[2:]}"] + [self.attachment() for _ in range(max(0, count - missing))]

    def mutated(self, text):
        """The text with a few letters changed, taken out or put in."""
        letters = list(text)
        for _ in range(self.random.randrange(1, 4)):
            place = self.random.randrange(2, len(letters) + 1)
            letters[place : place + self.random.randrange(2)] = self.random.choice(MARKS) * self.random.randrange(2)
        return "".join(letters)


def drawn(seed, kind=Drawer, count=120):
    """The text of a seed's script."""
    drawer = kind(seed)
    drawer.draw(count)
    return "".join(f"{line}\n" for line in drawer.lines).encode()
