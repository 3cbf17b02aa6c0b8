"""Chats that are drawn: random commands for few ids, and listeners who are lost and come back."""
import random
import re

from chat import Chat, answered

COMMANDS = (
    "open ID|open ID|attach CLIENT SPACE ID ID|attach CLIENT SPACE ID ID|attach CLIENT SPACE ID ID|join SID ROOM|join SID ROOM|"
    "leave SID ROOM|tell CLIENT TEXT PARTS|tell CLIENT TEXT PARTS|close CLIENT|end SID|park CLIENT|park CLIENT|sweep|seal|"
    "recover CLIENT LOST LAST|recover CLIENT LOST LAST|recover CLIENT LOST LAST|take CLIENT FEW|take CLIENT FEW|"
    "pull SPACE ROOMS BUT ROOM|pull SPACE ROOMS BUT ROOM|push SPACE ROOMS BUT ROOM|kick SPACE ROOMS BUT|"
    "cast SPACE ROOMS BUT ARRAY PARTS|cast SPACE ROOMS BUT ARRAY PARTS|quiet SPACE ROOMS BUT ARRAY PARTS|"
    "quiet SPACE ROOMS BUT ARRAY PARTS").split("|")
CHOICES = {
    "SPACE": ("/none", "/a", "/a", "/a", "/", "/", "/", "/"),
    "ARRAY": ("a", '["a"]', '["a"]', '["a"]', '["a"]', '["a-long-one-that-fills-an-outbox"]'),
    "TEXT": ("", '2["a"]', '2["a","a-long-one-that-fills-an-outbox"]'),
    "PARTS": ("1.2.3", "", "", ""),
}


class Listener:
    """A client that names truly the last offset that it got. It begins a new session where the old one can't come back, and
    keeps its own account of what was said to its session."""

    def __init__(self, draw, space):
        self.draw, self.space = draw, space
        self.client = self.id = 0
        self.next, self.rooms, self.held, self.due = "open", set(), [], []
        self.moved_at, self.is_sure = 0, True

    def last(self):
        return self.held[-1] if self.held else 0

    def is_connected(self):
        return self.next in ("join", "take", "close")

    def turn(self, new):
        """Plays what it does next, for which it may take a new id."""
        space, client, lot = self.space, self.client, self.draw.random.randrange(8)
        if self.next == "open":
            self.client, self.next = new, "recover"
            self.draw.play(f"open {new}")
        elif self.next == "recover":
            is_back = self.draw.play(f"recover {client} {space} {self.id} {self.last()}")
            self.is_sure = self.is_sure and self.moved_at <= self.last()
            self.next = "take" if is_back else "attach"
        elif self.next == "attach":
            self.draw.play(f"attach {client} {space} {new} {new}")
            self.next, self.id, self.rooms, self.held, self.due = "join", new, set(), [], []
            self.moved_at, self.is_sure = 0, True
        elif self.next == "close":
            self.draw.play(f"close {client}")
            self.lose()
        elif self.next == "join" and lot < 6:
            self.change("r" if lot < 4 else "s")
        elif self.next == "take" and lot == 0:
            if self.draw.play(f"park {client}"):
                self.lose()
            else:
                self.next = "close"
        elif self.next == "take" and lot == 1 and self.draw.moves:
            self.change(self.draw.random.choice("rs"))
        else:
            self.next = "take"
            self.draw.play(f"take {client} {self.draw.random.randrange(8)}")

    def change(self, room):
        """Its session joins a room, or leaves it where it is in it."""
        self.draw.play(f"{'leave' if room in self.rooms else 'join'} {self.id} {room}")
        self.rooms ^= {room}
        self.moved_at, self.next = self.draw.chat.hub.next or 0, "take"

    def lose(self):
        """It is lost, and forgets some of the last offsets that it got."""
        count = max(0, self.draw.random.randrange(6) - 2)
        self.held, self.next = self.held[: max(0, len(self.held) - count)], "open"

    def take(self, entries):
        self.held += offsets_in(entries)

    def note(self, space, rooms, excepted, offset, reached):
        """Takes in a broadcast: one that its full outbox drops may be missing from here on."""
        if space != self.space or rooms and not self.rooms & {*rooms} or self.rooms & {*excepted}:
            return
        if offset is not None:
            self.due.append(offset)
        if self.is_connected() and self.client not in reached and offset is not None:
            self.is_sure = False

    def look(self):
        """What it got, with what waits for it, is what was said to its session, each once and in order."""
        if self.is_connected() and self.is_sure:
            got = self.held + offsets_in(self.draw.chat.hub.clients[self.client].outbox)
            assert got == self.due, f"the session {self.id} heard {got} of {self.due}"


def offsets_in(entries):
    """The offsets of those that were logged."""
    found = [re.search('\\["a","([0-9a-f]{16})"\\]$', entry.text) for entry in entries]
    return [int(it[1], 16) for it in found if it]


class Draw:
    """Draws the lines of one chat, and plays them to the model as it goes."""

    def __init__(self, seed, limits):
        self.random, self.chat, self.lines = random.Random(seed), Chat(limits), [limits]
        self.listeners, self.moves, self.answer = [], seed % 4 > 1, ""

    def play(self, line):
        """Plays a line, and says whether it was accepted."""
        hub, words = self.chat.hub, line.split(" ")
        client = hub.clients.get(int(words[1])) if words[0] == "take" else None
        taken = client.outbox[: int(words[2])] if client else []
        self.lines.append(answered(self.chat, line))
        self.answer = self.lines[-1].partition(" = ")[2]
        for it in self.listeners:
            if client and client is hub.clients.get(it.client):
                it.take(taken)
        return not self.answer.startswith("!")

    def moment(self, count):
        self.play(f"at {count * 2 + self.random.randrange(20) + 60 * (self.random.randrange(24) == 0)}")

    def look(self):
        """All that may be seen of five ids."""
        for number in range(5):
            for line in ("client {} /", "client {} /a", "waits {}", "connected {}", "members / @{}", "members /a @{}"):
                self.play(line.format(number))
        for line in ("members / r", "members /a r", "members / s", "members /a s", "next", "mirrors", "totals", "settle"):
            self.play(line)

    # Random commands.

    def commands(self, count):
        for turn in range(1, count + 1):
            self.moment(turn)
            line = self.random.choice(COMMANDS)
            self.play(" ".join(map(self.word, line.split(" "))).rstrip(" "))
            if turn % 20 == 0:
                self.look()
                self.play("ended")
                self.play("seal")
                self.play("kept")

    def word(self, word):
        hub, number = self.chat.hub, self.random.randrange(5)
        if word in CHOICES:
            return self.random.choice(CHOICES[word])
        if word in ("CLIENT", "SID"):
            is_known = number in (hub.clients if word == "CLIENT" else hub.sockets)
            return str(number if is_known else self.random.randrange(5))
        if word == "LOST":
            saved = [hub.saved[pid] for pid in sorted(hub.saved)]
            return f"{saved[0].space} {saved[0].pid}" if saved else "/ 0"
        drawn = {"ID": lambda: number, "FEW": lambda: self.random.randrange(3), "ROOM": self.room,
                 "ROOMS": lambda: self.rooms(self.random.randrange(3)), "BUT": lambda: self.rooms(max(0, number - 2)),
                 "LAST": lambda: max(0, (hub.next or 0) - max(1, number))}
        return str(drawn[word]()) if word in drawn else word

    def room(self):
        return self.random.choice(("r", "s", f"@{self.random.randrange(5)}"))

    def rooms(self, count):
        return ",".join(["-", *(self.room() for _ in range(count))])

    # Listeners.

    def breaks(self, count):
        self.listeners = [Listener(self, space) for space in ("/", "/", "/a")]
        for turn in range(1, count + 1):
            self.moment(turn)
            lot = self.random.randrange(16)
            if lot == 0:
                self.play("sweep")
            elif lot < 7:
                self.say()
            else:
                self.random.choice(self.listeners).turn(turn)
            if turn % 32 == 0:
                self.play("seal")
            for it in self.listeners:
                it.look()

    def say(self):
        space, rooms = self.random.choice(("/", "/", "/", "/a")), self.random.choice(("r", "r,s", "s", "-"))
        excepted, command = self.random.choice(("s", "-", "-", "-", "-", "-")), self.random.choice(("cast",) * 4 + ("quiet",))
        offset = self.chat.hub.next if command == "cast" else None
        self.play(f'{command} {space} {rooms} {excepted} ["a"]')
        reached = {int(it) for it in self.answer.partition("[")[2].rstrip("]").split(",") if it}
        for it in self.listeners:
            it.note(space, [it for it in rooms.split(",") if it != "-"], [excepted] if excepted != "-" else [], offset, reached)


def limits_of(seed):
    """The first line of a seed's chat. Of three hubs one has a log that no bytes bound."""
    log_bytes = seed // 3 % 3
    if seed % 3:
        return "hub 3 3 250 4 2 40 1 /,/a" + ("", " 100", " 300")[log_bytes]
    return "hub 3 5 1000 14 3 60 1 /,/a" + ("", " 200", " 600")[log_bytes]


def drawn_chat(seed):
    """A seed's chat: its lines with their answers."""
    draw = Draw(seed, limits_of(seed))
    if seed % 3:
        draw.commands(120)
    else:
        draw.breaks(160)
    return draw.lines
