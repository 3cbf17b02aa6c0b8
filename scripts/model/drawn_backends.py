"""Scripts with backends that are drawn: clients who speak, are asked and leave, and one to three backends that command."""
import json

from backends import BACKENDS, Switchboard
from drawn import LIMITS, Drawer
from wire import SEPARATOR, id_text

CLIENTS, COMMANDERS = "ABC", "XYZ"
# Payloads of a CONNECT: of clients, of backends that are let in, and of some that aren't.
CONNECTS = ("", "", "", "{}", '{"name":"A"}', ' {"a" : [1, 2.50]} ', '{"token":"secret"}', '{"pid":1,"offset":"0"}')
LET_IN = (
    '{"token":"secret"}', '{"token":"secret"}', '{"token":"secret","digits":"0"}', '{"digits" : "0123", "token" : "secret"}',
    '{"token":"secret","digits":"00"}', '{"token":"secret","digits":"1f"}', '{"token":"secret","digits":"fedcba9876543210"}',
    '{"token":"x","token":"\\u0073ecret"}', '{"token":"secret","digits":7,"digits":"0a"}',
)
LEFT_OUT = (
    "", "{}", '{"token":"wrong"}', '{"token":"secret "}', '{"token":"Secret"}', '{"token":"secre"}', '{"token":""}',
    '{"token":1}', '{"token":["secret"]}', '{"token":"secret","token":"x"}', '{"digits":"0"}', '{"token":"wrong","digits":""}',
    '{"token":"secret","digits":""}', '{"token":"secret","digits":"0g"}', '{"token":"secret","digits":"A"}',
    '{"token":"secret","digits":0}', '{"token":"secret","digits":null}', '{"token":"secret","digits":["0"]}',
    '{"token":"secret","digits":"0 1"}', '{"token":"secret","digits":"\\u0660"}',
)
# What a client says, and what it answers.
SAID = ('"say","r"', '"say", [1, 2.50] ', '"x",{"b" : null,"b":-0}', "7", "1.5e3", '"emit",{}',
        '"\\u001e\\u0000\\ud83d\\ude00","é"')
ANSWERED = ('"yes"', '"yes"', ' "yes" , 1.50 ', "{}", "null")
# What a backend sends: by an option, or without one, or what isn't sent.
SENT_BY = {"volatile": '"brief"', "ask": '"how"', "answer": '"done"'}
SENT = ('"news"', '"news"', '"news"', "7", "-1.5e3 , 1", '"\\n\\"\\\\\\u007f\\u0001"', '"connected"',
        '"news", {"b" : [1, 2.50, -0, 1E+5], "b":null, "a":"\\u00e9\\u001e\\/\\ud83d\\ude00\\b"} ')
NOT_SENT = ("", "null", "[]", "{}", "true", '"connect"', '"connect_error",1', '"disconnect"', '"disconnecting"',
            '"newListener"', '"removeListener"', '"\\u0063onnect"')
COMMANDS = ("emit",) * 12 + ("socketsJoin",) * 5 + ("socketsLeave",) * 3 + ("disconnectSockets",) + ("fetchSockets",) * 2
UNKNOWN = ('"Emit"', '"emit "', '""', "1", '"socketsjoin"', '"disconnect_sockets"', '"broadcast"')
# What stands in the place of options, and single options that are wrong, or right though they look odd.
NO_OPTIONS = ("", ",null", ",[]", ',"in"', ",0", ",[{}]")
WRONG = (
    '"in":1', '"in":null', '"in":["/"]', '"to":"r"', '"to":null', '"to":[1]', '"to":["r",null]', '"to":{}', '"except":"r"',
    '"except":[["r"]]', '"volatile":1', '"volatile":"true"', '"volatile":null', '"ask":"1"', '"ask":null', '"answer":"1"',
    '"answer":true', '"ask":1,"answer":1', '"in":"/none"', '"in":""', '"in":"admin"', '"in":"/admin,"', '"ask":-1', '"ask":1.0',
    '"ask":1e3', '"ask":1000000000000000', '"answer":-0', '"answer":0.5', '"answer":1234567890123456',
    '"to":["r","' + "x" * 65 + '"]', '"except":["' + "é" * 33 + '"]',
)
ODD = (
    '"in":"\\/admin"', '"volatile":false', '"volatile" : true', '"x":{"in":1}', '"In":1', '"to":[],"except":[]', '"in":1,"in":"/"',
    '"to":["' + "x" * 64 + '","r"]',
)
# Rooms that aren't joined, and one whose name needs escapes.
BAD_ROOMS = ("", "null", "7", '["r"]', '"' + "x" * 65 + '"', '"' + "é" * 33 + '"', json.dumps('a"\\\t\x01'))
# Ids of questions, and of events that ask for an acknowledgement.
IDS = (0, 1, 2, 2, 3, 3, 999_999_999_999_999)


class BackendDrawer(Drawer):
    """Draws a script of clients and backends. A name says which of them it mostly is."""

    app, spaces, letters = Switchboard, ("/", "/", "/", "/admin", "/admin", BACKENDS, "/none"), CLIENTS + COMMANDERS
    limits = {**LIMITS, "capacity": (3, 6, 20, 64), "bytes": (600, 2_000, 8_388_608), "saved": (0, 2, 4096), "clients": (5, 8),
              "first-offset": (1,) * 9 + (2**64 - 3,)}
    missing, joined_share = (0,) * 12 + (1, -1), 0.99

    def begin(self):
        for name in CLIENTS[:2] + COMMANDERS[: self.random.randrange(1, 4)]:
            is_socket, self.speaker = self.chance(0.4), name
            self.play(f"open {name}" + " socket" * is_socket)
            self.play(f"{'frame' if is_socket else 'text'} {name} {self.connect_anew(1)}")
        if self.chance(0.02):
            self.crowd()

    def turn(self):
        """Mostly what goes well: somebody speaks, or takes what waits."""
        if len(self.open_names()) < 4 and self.chance(0.5):
            self.come()
        elif self.chance(0.3):
            super().turn()
        elif self.chance(0.6):
            self.say(self.name())
        else:
            self.play(f"take {self.name()}")

    def packet(self, client, line):
        self.joined = list(self.script.server.hub.clients[client].sockets) if line else []
        if not self.joined or self.chance(0.2):
            return super().packet(client, line)
        return self.binary() if self.chance(0.15) else [self.answer() if self.chance(0.15) else self.event()]

    def connect_anew(self, share=0.8):
        """A CONNECT, of a backend with this chance one that is let in."""
        if self.speaker in COMMANDERS:
            return f"40{BACKENDS}," + self.random.choice(LET_IN if self.chance(share) else LEFT_OUT)
        return self.start("0") + self.random.choice(CONNECTS)

    def greeting(self):
        return self.event()

    def room(self):
        sid = self.random.choice([*self.script.server.hub.sockets, 1])
        return self.random.choice(("r", "r", "r", "q", "0", "1", "f", "", "é", *[id_text(sid)] * 4))

    def answer(self, parts=""):
        values = self.random.choice(("", " ")) if not parts and self.chance(0.2) else self.random.choice(ANSWERED) + parts
        return f"{self.start('3')}{self.random.choice(IDS)}[{values}]"

    def event(self, kind="2", parts=""):
        if parts and self.chance(0.3):
            return self.answer(parts)
        start, number = self.start(kind), self.random.choice(IDS) if self.chance(0.5) else ""
        elements = self.command() if start.endswith(f"{BACKENDS},") else self.random.choice(SAID)
        return f"{start}{number}[{elements}{parts}]"

    # Commands.

    def command(self):
        name, lot = self.random.choice(COMMANDS), self.random.randrange(25)
        if lot == 0:
            return self.random.choice(UNKNOWN) + ",{}"
        if lot == 1:
            return f'"{name}"{self.random.choice(NO_OPTIONS)}'
        options = self.options(name)
        data = self.sent(options) if name == "emit" else self.moved() if name in ("socketsJoin", "socketsLeave") else ""
        return f'"{name}",{{{",".join(options)}}}' + (f",{data}" if data else "")

    def options(self, name):
        sockets, found = self.script.server.hub.sockets, []
        if sockets and self.chance(0.4):
            sid = self.random.choice(list(sockets))
            found = [f'"in":"{sockets[sid].space}"', f'"to":["{id_text(sid)}"]']
        else:
            found += [f'"in":"{self.random.choice(("/", "/admin", "/admin", BACKENDS))}"'] * self.chance(0.5)
            found += [f'"to":{self.rooms()}'] * self.chance(0.4)
        found += [f'"except":{self.rooms()}'] * self.chance(0.1) + ['"volatile":true'] * self.chance(0.15)
        if name == "emit" and self.chance(0.4):
            found.append(f'"{self.random.choice(("ask", "answer"))}":{self.random.choice(IDS)}')
        if self.chance(0.12):
            found += self.random.sample(WRONG if self.chance(0.8) else ODD, self.random.choice((1, 1, 2)))
        self.random.shuffle(found)
        return found

    def rooms(self):
        return json.dumps([self.room() for _ in range(self.random.choice((1, 1, 1, 2, 2, 3)))])

    def sent(self, options):
        """What is sent, by the option that tells of it where one does."""
        named = [SENT_BY[key] for key in SENT_BY for it in options if it.startswith(f'"{key}"')]
        return self.random.choice(NOT_SENT if self.chance(0.1) else named or SENT)

    def moved(self):
        """The room that sockets join or leave."""
        return self.random.choice(BAD_ROOMS) if self.chance(0.1) else json.dumps(self.room())

    def crowd(self):
        """Sockets get as many rooms as one may have, and are to get one more."""
        name = next((it for it in COMMANDERS if self.line(self.script.names.get(it))), "A")
        join = lambda room, to="{}", number="": f'42{BACKENDS},{number}["socketsJoin",{to},"{room}"]'
        to_them = '{"to":["r"]}'
        self.play(f"text {name} " + SEPARATOR.join([join("r"), *(join(it, to_them) for it in range(255))]))
        self.play(f"text {name} {join('s', to_them, 1)}")
