"""A server: each client's connection and its packets, and an app behind it."""
import contextlib
import itertools
import json
import types

from hub import Entry, Hub, Refused, refuse_if
from wire import (SEPARATOR, Fault, Header, event_text, fail_if, id_text, named_session, open_text, read_packet,
                  read_payload, start, write_base64)

GREATEST = 2**64 - 1
PING_INTERVAL, PING_TIMEOUT, CONNECT_TIMEOUT = 25_000, 20_000, 45_000
LONGEST_FRAME = 1_000_000
MOST_TAKEN = 262_144
# Effects that name the sockets that are meant.
TO_MANY = ("emit", "pull", "push", "end", "fetch")
# Why a room couldn't be joined or left, as a report says it.
REFUSALS = {"AlreadyIn": "already in", "NotIn": "not in", "OwnRoom": "own room", "TooManyRooms": "too many rooms"}


def fitting(entries):
    """How many of these entries a take hands out: as many as have together no more than the bound, and one at least."""
    sizes = itertools.accumulate(entry.size for entry in entries)
    return max(1, sum(size <= MOST_TAKEN for size in sizes))


class Closed(Exception):
    """Why a client is closed."""


class Clock:
    """When a ping is due, and when a client is given up."""

    def __init__(self, now):
        self.opened = self.last = self.since = now
        self.pinged, self.has_joined = None, False

    def pong(self, now):
        self.last = max(self.last, now)
        if self.pinged is not None:
            self.pinged, self.since = None, self.last

    def tick(self, now):
        self.last = now = max(self.last, now)
        if self.pinged is not None and now - self.pinged >= PING_TIMEOUT:
            return "PingTimeout"
        if not self.has_joined and now - self.opened >= CONNECT_TIMEOUT:
            return "ConnectTimeout"
        if self.pinged is None and now - self.since >= PING_INTERVAL:
            self.pinged = now
            return "ping"
        return "nothing"


class Line:
    """One client's connection: its transport, its clock, the packet that awaits attachments, and its questions."""

    def __init__(self, now, is_socket):
        self.transport = "socket" if is_socket else "polling"
        self.clock, self.is_getting, self.has_ping = Clock(now), False, False
        self.awaited, self.questions = None, {}

    def text(self, text):
        """The packet that is whole with this text, if one is."""
        fail_if(self.awaited, "TextAwaitingBinary")
        header = Header(text)
        if not header.count:
            return header
        self.awaited = header
        return None

    def binary(self, part, most):
        fail_if(not self.awaited, "BinaryUnawaited")
        packet = self.awaited
        fail_if(sum(map(len, packet.parts)) + len(part) > most, "TooLong")
        packet.parts.append(part)
        if len(packet.parts) < packet.count:
            return None
        self.awaited = None
        return packet

    def enter(self, sid):
        self.clock.has_joined = True
        self.questions[sid] = [0, {}]

    def change(self, ways):
        """Takes the way from the present transport, which may be refused."""
        way = ways[self.transport]
        if way not in ("polling", "probing", "socket"):
            raise Refused(way)
        self.transport = way


PROBE = {"polling": "probing", "probing": "AlreadyProbing", "socket": "AlreadyUpgraded"}
UPGRADE = {"polling": "NotProbing", "probing": "socket", "socket": "AlreadyUpgraded"}
UNPROBE = {"polling": "NotProbing", "probing": "polling", "socket": "AlreadyUpgraded"}


def then_heard(event):
    """An event that may end sockets: the app hears of these then, also where the event is refused, which stays the answer."""

    def heard(self, client, *words):
        before = len(self.hub.ended)
        try:
            answer = event(self, client, *words)
        except Refused:
            with contextlib.suppress(Refused):
                self.hear_of(self.hub.ended[before:], words[-1])
            raise
        self.hear_of(self.hub.ended[before:], words[-1])
        return answer

    return heard


class Server:
    """Ids count from 1. An app says what it wants of a CONNECT, an event, an answer, and where a socket has ended."""

    def __init__(self, app, **limits):
        self.app, self.hub, self.lines, self.id = app, Hub(**limits), {}, 0

    def draw(self):
        self.id += 1
        return self.id

    def line_of(self, client, *transports):
        """The line of an open client, whose transport has to be one of these where any is named."""
        refuse_if(client not in self.lines, "UnknownClient")
        refuse_if(transports and self.lines[client].transport not in transports, "WrongTransport")
        return self.lines[client]

    def close(self, client, now):
        self.hub.close(client, now)
        del self.lines[client]

    def park(self, client, now):
        """Saves the sessions of a client that is gone, and says whether they had space."""
        try:
            self.hub.park(client, now)
            is_saved = True
        except Refused:
            self.hub.close(client, now)
            is_saved = False
        del self.lines[client]
        return is_saved

    def hear_of(self, ended, now):
        for sid, socket, rooms, ending in ended:
            for name, *words in self.app.left(sid, socket.space, sorted(rooms), ending):
                refuse_if(name != "emit", "BadEffect")
                self.emit(*words, now)

    # The events.

    def open(self, is_socket, now):
        client = self.draw()
        self.hub.open(client, now)
        self.lines[client] = Line(now, is_socket)
        return client, open_text(client, is_socket)

    @then_heard
    def post(self, client, body, now):
        self.line_of(client, "polling", "probing")
        return self.hear(client, lambda: read_payload(body), now, is_payload=True)

    @then_heard
    def frame(self, client, text, now):
        self.line_of(client, "socket")
        packets = lambda: [read_packet(text)]
        return self.hear(client, too_long if len(text.encode()) > LONGEST_FRAME else packets, now)

    @then_heard
    def bytes(self, client, part, now):
        self.line_of(client, "socket")
        return self.hear(client, too_long if len(part) > LONGEST_FRAME else lambda: [("b", part)], now)

    def hear(self, client, read, now, is_payload=False):
        """What came of a payload or of a frame."""
        done = types.SimpleNamespace(is_unread=False, skipped=None, is_ignored=False, closed=False)
        try:
            packets = read()
        except Fault as fault:
            self.close(client, now)
            done.is_unread, done.closed = is_payload, str(fault)
            return done
        for kind, data in packets:
            try:
                self.handle(client, kind, data, done, now)
            except (Fault, Closed) as cause:
                done.closed = str(cause)
                self.close(client, now)
            if done.closed:
                break
        return done

    @then_heard
    def get(self, client, now):
        """Says whether the GET waits: a second one closes the client."""
        line = self.line_of(client, "polling", "probing")
        if line.is_getting:
            self.close(client, now)
            return False
        line.is_getting = True
        return True

    def unget(self, client):
        self.line_of(client).is_getting = False

    def take(self, client, most, now):
        """What waits: a payload, or a list of frames, or None."""
        line = self.line_of(client)
        if line.transport == "socket":
            return self.waiting(client, most, now) or None
        packets = self.waiting(client, most, now)
        texts = ["b" + write_base64(it) if isinstance(it, bytes) else it for it in packets]
        if not texts and line.transport == "probing":
            texts = ["6"]
        if texts:
            line.is_getting = False
        return SEPARATOR.join(texts) if texts else None

    def waiting(self, client, most, now):
        line, outbox = self.lines[client], self.hub.clients[client].outbox
        packets = ["2"] * line.has_ping
        line.has_ping = False
        if outbox:
            for entry in self.hub.take(client, fitting(outbox[:most]), now):
                packets += ["4" + entry.text, *entry.parts]
        return packets

    def probe(self, client):
        self.line_of(client).change(PROBE)

    def upgrade(self, client):
        self.line_of(client).change(UPGRADE)

    def unprobe(self, client):
        self.line_of(client).change(UNPROBE)

    @then_heard
    def lose(self, client, now):
        self.line_of(client)
        return self.park(client, now)

    @then_heard
    def tick(self, client, now):
        line = self.line_of(client)
        for book in line.questions.values():
            book[1] = {number: until for number, until in book[1].items() if now < until}
        due = line.clock.tick(now)
        if due == "ping":
            line.has_ping = True
        elif due == "PingTimeout":
            self.park(client, now)
        elif due == "ConnectTimeout":
            self.close(client, now)
        return due

    # The packets.

    def handle(self, client, kind, data, done, now):
        line = self.lines[client]
        if kind == "1":
            self.park(client, now)
            done.closed = "ClientClosed"
        elif kind == "2":
            raise Closed("PingFromClient")
        elif kind == "3":
            line.clock.pong(now)
        elif kind in ("4", "b"):
            packet = line.text(data) if kind == "4" else line.binary(data, self.hub.limits["bytes"])
            if packet:
                self.serve(client, packet, done, now)

    def tell(self, client, text, now, parts=()):
        try:
            self.hub.tell(client, Entry(text, parts), now)
        except Refused:
            raise Closed("OutboxFull") from None

    def serve(self, client, header, done, now):
        line, sid = self.lines[client], self.hub.socket_of(client, header.space)
        if header.kind == "0":
            return self.connect(client, header, done, now)
        if sid is None:
            raise Closed("NotJoined")
        if header.kind == "1":
            self.hub.end(sid, now, "Client")
            del line.questions[sid]
        elif header.kind in "25":
            self.act(client, sid, header, self.app.decides(sid, header), done, now)
        elif header.kind in "36":
            if line.questions[sid][1].pop(header.id, None) is None:
                done.is_ignored = True
                self.act(client, sid, header, self.app.strays(sid, header), done, now)
            else:
                self.act(client, sid, header, self.app.answers(sid, header), done, now)
        return None

    def connect(self, client, header, done, now):
        space = header.space
        if space not in self.hub.limits["spaces"]:
            return self.tell(client, f'4{start(space)}{{"message":"Invalid namespace"}}', now)
        if self.hub.socket_of(client, space) is not None:
            raise Closed("AlreadyConnected")
        named = named_session(header.payload)
        if named:
            try:
                sid = self.hub.recover(client, space, *named, now)
            except Refused:
                pass
            else:
                self.lines[client].enter(sid)
                return self.act(client, sid, header, self.app.returned(sid, header, sorted(self.hub.rooms[sid])), done, now)
        effects = self.app.connects(header)
        if isinstance(effects, str):
            return self.tell(client, f'4{start(space)}{{"message":"{effects}"}}', now)
        sid, pid = self.draw(), self.draw()
        try:
            self.hub.attach(client, space, sid, pid, now)
        except Refused as refused:
            if str(refused) == "OutboxFull":
                raise Closed("OutboxFull") from None
            raise
        self.lines[client].enter(sid)
        return self.act(client, sid, header, effects + self.app.connected(sid, header), done, now)

    def act(self, client, sid, header, effects, done, now):
        """Does what the app wants. A room that can't be joined or left is skipped, and the first reason told."""
        refused_here = None
        for effect in effects:
            refuse_if(sid not in self.hub.sockets, "BadEffect")
            try:
                if effect == ("report",):
                    effect = ("reply", ["error", REFUSALS[refused_here]] if refused_here else ["ok"])
                self.do(client, sid, header, effect, now)
            except Refused as refused:
                room, _, reason = str(refused).partition("(")
                if room != "RoomRefused":
                    raise
                done.skipped = done.skipped or reason[:-1]
                refused_here = refused_here or reason[:-1]

    def do(self, client, sid, header, effect, now):
        hub, line, (name, *words), space = self.hub, self.lines[client], effect, header.space
        refuse_if(name == "no array" or name in TO_MANY and words[0][0] not in hub.limits["spaces"], "BadEffect")
        {
            "join": lambda room: hub.join(sid, room, now),
            "leave": lambda room: hub.leave(sid, room, now),
            "emit": lambda *what: self.emit(*what, now),
            "pull": lambda whom, room: hub.join_all(*whom, room, now),
            "push": lambda whom, room: hub.leave_all(*whom, room, now),
            "end": lambda whom: self.forget(hub.end_all(*whom, now)[0]),
            "ask": lambda *what: self.ask(client, line.questions[sid], space, *what, now),
            "fetch": lambda whom: self.reply(client, header, ["ok", [id_text(it) for it in hub.addressed(*whom)]], now),
            "reply": lambda values: self.reply(client, header, values, now),
            "bye": lambda: self.dismiss(client, sid, space, now),
        }[name](*words)

    def forget(self, ended):
        """The questions of sockets that have ended."""
        for sid, line in itertools.product(ended, self.lines.values()):
            line.questions.pop(sid, None)

    def dismiss(self, client, sid, space, now):
        farewell = Entry(f"1{start(space)}")
        if self.hub.has_space(client, [farewell]):
            self.hub.tell(client, farewell, now)
        self.hub.end(sid, now)
        del self.lines[client].questions[sid]

    def emit(self, to, form, payload, parts, now):
        self.hub.cast(*to, form, payload, parts, now)

    def reply(self, client, header, values, now):
        refuse_if(header.id is None, "BadEffect")
        self.tell(client, f"3{start(header.space)}{header.id}{json.dumps(values, separators=(',', ':'))}", now)

    def ask(self, client, book, space, payload, wait, parts, now):
        number, book[0] = book[0], book[0] + 1
        self.tell(client, event_text(space, payload, len(parts), number=number), now, parts)
        book[1][number] = min(now + wait, GREATEST)


def too_long():
    raise Fault("TooLong")
