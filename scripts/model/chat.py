"""Chats: what a hub answers to each line of commands (crates/trials)."""
from hub import Entry, Hub, Refused
from wire import id_text

LIMITS = ("clients", "capacity", "bytes", "log", "saved", "keep", "first_offset")
# The bytes that the log may have, where the word behind the namespaces is no number.
LOG_BYTES = 67_108_864
# What a chat that begins with `both` plays first: two clients with a socket each, both in the room `r`.
BOTH = ("open 1", "open 2", "attach 1 / 3 4", "attach 2 / 5 6", "join 3 r", "join 5 r", "take 1 64", "take 2 64")


def is_number(word):
    return word.isdigit() and word.isascii()


def number(word):
    return int(word) if is_number(word) else 0


def some(value, form="{}"):
    return "None" if value is None else f"Some({form.format(value)})"


def listed(numbers):
    return "[" + ", ".join(map(str, numbers)) + "]"


def entry_text(entry):
    return "  " + " ".join([entry.text, *(listed(part) for part in entry.parts)])


def sids_text(sids):
    return " ".join([f"  {len(sids)}:", *map(str, sids)])


def room_by(name):
    return id_text(number(name[1:])) if name.startswith("@") else name


def rooms_by(names):
    return [room_by(name) for name in names.split(",") if name != "-"]


def parts_by(word):
    return [bytes(int(it) for it in part.split(".")) for part in word.split(",")] if word else []


# What the lines come to that are one call, by their first words: of a chat, and of the word at each place. Methods of Chat play
# the others.
LINES = {
    "at": lambda it, word: setattr(it, "now", number(word(1))),
    "open": lambda it, word: it.hub.open(number(word(1)), it.now),
    "park": lambda it, word: it.hub.park(number(word(1)), it.now),
    "close": lambda it, word: it.hub.close(number(word(1)), it.now),
    "end": lambda it, word: it.hub.end(number(word(1)), it.now),
    "join": lambda it, word: it.hub.join(number(word(1)), room_by(word(2)), it.now),
    "leave": lambda it, word: it.hub.leave(number(word(1)), room_by(word(2)), it.now),
    "attach": lambda it, word: it.hub.attach(number(word(1)), word(2), number(word(3)), number(word(4)), it.now),
    "tell": lambda it, word: it.hub.tell(number(word(1)), Entry(word(2), parts_by(word(3))), it.now),
    "take": lambda it, word: "".join(map(entry_text, it.hub.take(number(word(1)), number(word(2)), it.now))),
    "skip": lambda it, word: f"  {len(it.hub.take(number(word(1)), number(word(2)), it.now))}",
    "recover": lambda it, word: f"  {it.hub.recover(number(word(1)), word(2), number(word(3)), number(word(4)), it.now)}",
    "sweep": lambda it, _: "  {} {}".format(*it.hub.sweep(it.now)),
    "seal": lambda it, _: f"  {it.hub.seal()}",
    "audit": lambda *_: None,
    "counted": lambda it, _: "  {} {}".format(*it.counted),
    "totals": lambda it, _: "  " + " ".join(map(str, it.hub.totals())),
    "members": lambda it, word: sids_text(it.hub.members(word(1), room_by(word(2)))),
    "connected": lambda it, word: f"  {str(number(word(1)) in it.hub.sockets).lower()}",
    "next": lambda it, _: f"  {some(it.hub.next)}",
    "held": lambda it, _: f"  {it.hub.held()}",
    "space": lambda it, word: f"  {str(word(1) in it.hub.limits['spaces']).lower()}",
    "steps": lambda it, _: " ".join([f"  {len(it.hub.steps)}:", *it.hub.steps]),
}


class Chat:
    """A hub and its passes. A pass is how many commands and entries it has counted."""

    def __init__(self, line):
        words = line.split(" ")
        limits = {name: number(word) for name, word in zip(LIMITS, words[1:])}
        log_bytes = number(words[9]) if len(words) > 9 and is_number(words[9]) else LOG_BYTES
        self.hub, self.now = Hub(spaces=words[8].split(","), log_bytes=log_bytes, **limits), 0
        self.counted, self.other, self.passes = [0, 0], None, 1

    def play(self, line):
        """What a line is answered."""
        words = line.split(" ")
        take = lambda place: words[place] if place < len(words) else ""
        before = self.hub.counts["commands"], self.hub.counts["taken"]
        plays = LINES.get(words[0]) or getattr(Chat, f"play_{words[0]}")
        try:
            answer = plays(self, take)
        except Refused as refused:
            answer = f"  ! {refused}"
        self.counted[0] += self.hub.counts["commands"] - before[0]
        self.counted[1] += self.hub.counts["taken"] - before[1]
        return answer or ""

    def play_cast(self, word):
        before, is_logged = self.hub.counts["placed"], word(0) == "cast"
        rooms, excepted = rooms_by(word(2)), rooms_by(word(3))
        offset, dropped, reached = self.hub.cast(word(1), rooms, excepted, is_logged, word(4), parts_by(word(5)), self.now)
        return f"  {some(offset)} {self.hub.counts['placed'] - before} {dropped} {listed(reached)}"

    play_quiet = play_cast

    def play_pull(self, word):
        change = self.hub.join_all if word(0) == "pull" else self.hub.leave_all
        return sids_text(change(word(1), rooms_by(word(2)), rooms_by(word(3)), room_by(word(4)), self.now))

    play_push = play_pull

    def play_kick(self, word):
        ended, told = self.hub.end_all(word(1), rooms_by(word(2)), rooms_by(word(3)), self.now)
        return f"{sids_text(ended)} told {listed(told)}"

    # Passes.

    def play_pass(self, _):
        if self.passes == 65_535:
            raise Refused("Spent")
        self.passes += 1
        self.other, self.counted = self.counted, [0, 0]

    def play_swap(self, _):
        if self.other is not None:
            self.other, self.counted = self.counted, self.other

    def play_absorb(self, _):
        if self.other is not None:
            self.counted = [one + other for one, other in zip(self.counted, self.other)]
            self.other = None

    def play_settle(self, _):
        lacks = [self.hub.counts["commands"] - self.counted[0], self.hub.counts["taken"] - self.counted[1]]
        return "  lacks {} {}".format(*lacks) if any(lacks) else LINES["totals"](self, None)

    def play_client(self, word):
        client = number(word(1))
        is_open = client in self.hub.clients
        waits = (len(self.hub.clients[client].outbox), self.hub.waiting_bytes(client)) if is_open else (None, None)
        seat = some(self.hub.socket_of(client, word(2)), "Sid({})")
        return f"  {str(is_open).lower()} {seat} {some(waits[0])} {some(waits[1])}"

    def play_waits(self, word):
        client = self.hub.clients.get(number(word(1)))
        return "".join(map(entry_text, client.outbox)) if client else ""

    def play_front(self, word):
        client, place = self.hub.clients.get(number(word(1))), number(word(2))
        return f"  {client.outbox[place].text}" if client and place < len(client.outbox) else "  none"

    def play_ended(self, _):
        return "".join(f"  {it.client} {self.place(it.space)} {sid} {it.pid} {ending}"
                       + rooms_text(sorted(rooms, key=str.encode)) for sid, it, rooms, ending in self.hub.ended)

    def play_mirrors(self, _):
        rooms = {room for rooms in self.hub.rooms.values() for room in rooms}
        return f"  {len(self.hub.rooms)} {len(rooms)}"

    def play_base(self, _):
        base = self.hub.base
        clients = [str(client) for client, _, _ in base.clients]
        return " ".join([" ", *clients, f"log {len(base.log)} saved {len(base.saved)}"])

    def play_kept(self, _):
        """The whole base."""
        base = self.hub.base
        text = f"  at {base.at} next {some(base.next)}  " + " ".join(map(str, base.totals))
        for client, sockets, outbox in base.clients:
            seats = "".join(f" {place} {sid} {pid}" for place, sid, pid in sockets)
            text += f"  client {client}{seats}" + "".join(map(entry_text, outbox))
        text += "".join(f"  {sid} in {room}" for sid, room in base.pairs)
        for it in base.saved:
            rooms = rooms_text(sorted(it.rooms, key=str.encode))
            text += f"  {it.pid} {it.sid} {it.lost_at} {self.place(it.space)}{rooms}"
        for it in base.log:
            rooms = rooms_text(it.rooms) + rooms_text(it.excepted)
            text += f"  {it.offset} {it.at} {self.place(it.space)}{rooms}{entry_text(it.entry)}"
        return text

    def place(self, space):
        return self.hub.limits["spaces"].index(space)


def rooms_text(rooms):
    return "".join(f" {room}" for room in rooms) + " |"


def played(lines):
    """A chat's lines with their answers, the first of which has the limits of its hub."""
    first, *rest = lines
    try:
        chat = Chat(first)
    except Refused as refused:
        return [f"{first} = ! {refused}"]
    for line in BOTH if first.startswith("both") else ():
        chat.play(line)
    return [first, *(answered(chat, line) for line in rest)]


def answered(chat, line):
    if line.startswith("repeat "):
        _, times, lines = line.split(" ", 2)
        answer = repeated(chat, lines.split("|"), int(times))
    else:
        answer = play_line(chat, line, 0)
    return f"{line} = {answer.strip()}" if answer.strip() else line


def play_line(chat, line, star):
    count, line = line.startswith("count "), starred(line, star)
    answer = chat.play(line[len("count ") :] if count else line)
    return f"  {len(answer.split())} words" if count else answer


def starred(line, star):
    """The line with the number of times that it was played in place of each `*`, and the own room of a socket that there is
    none of where the `*` is a room."""
    words = line.split(" ")
    room = {"join": 2, "leave": 2}.get(words[0])
    return " ".join(f"@{star + 1000}" if it == "*" and place == room else it.replace("*", str(star))
                    for place, it in enumerate(words))


def repeated(chat, lines, times):
    """The answers of each time that aren't those of the time before."""
    last, text = "", ""
    for star in range(times):
        answers = "".join(play_line(chat, line, star) for line in lines)
        text += answers if answers != last else ""
        last = answers or last
    return text
