"""A hub: clients with their outboxes, sockets in rooms, a log of broadcasts and saved sessions."""
import collections

from wire import MOST_ATTACHMENTS, connected_text, event_text, id_text, start, with_offset

GREATEST = 2**64 - 1
MOST_ROOMS = 256
MOST_CAPACITY = 65_536
# The bytes of a room's name, of an id of a socket or a client, of an offset, and of a socket that has ended, where
# something keeps them.
ROOM, ID, OFFSET, ENDED = 65, 16, 8, 96


class Refused(Exception):
    """Why a command is refused. It changed nothing."""


def refuse_if(holds, why):
    if holds:
        raise Refused(why)


class Entry:
    def __init__(self, text, parts=()):
        self.text, self.parts = text, tuple(parts)
        self.size = len(text.encode()) + sum(map(len, self.parts))


# A client has its sockets by their namespaces, and an outbox.
Client = collections.namedtuple("Client", "sockets outbox")
Socket = collections.namedtuple("Socket", "client space pid")
Saved = collections.namedtuple("Saved", "sid space pid rooms lost_at")


class Logged:
    def __init__(self, offset, at, space, rooms, excepted, entry):
        self.offset, self.at, self.space, self.entry = offset, at, space, entry
        self.rooms, self.excepted = tuple(rooms), tuple(excepted)
        self.size = entry.size + ROOM * (len(self.rooms) + len(self.excepted))

    def is_for(self, space, rooms):
        meets = not self.rooms or any(room in rooms for room in self.rooms)
        return self.space == space and meets and not any(room in rooms for room in self.excepted)


class Hub:
    """Limits are `clients`, `capacity`, `bytes`, `log`, `log_bytes`, `saved`, `keep`, `first_offset` and `spaces`."""

    def __init__(self, **limits):
        least = [limits[name] for name in ("clients", "capacity", "bytes", "log", "log_bytes", "first_offset")]
        refuse_if(0 in least or limits["capacity"] > MOST_CAPACITY, "BadConfig")
        self.limits, self.next, self.now = limits, limits["first_offset"], 0
        self.clients, self.sockets, self.rooms, self.saved, self.log = {}, {}, {}, {}, []
        self.counts = dict.fromkeys(("commands", "placed", "dropped", "taken", "discarded"), 0)
        self.steps = []
        self.seal()

    # What is asked.

    def members(self, space, room):
        self.look_at_space(space)
        return sorted(sid for sid, it in self.sockets.items() if it.space == space and room in self.rooms[sid])

    def addressed(self, space, rooms, excepted):
        """The sockets of a namespace that are in one of the rooms, or all where none is named, and in no excepted one."""
        self.look_at_space(space)
        are_in = lambda sid, names: any(name in self.rooms[sid] for name in names)
        return [sid for sid in sorted(self.sockets) if self.sockets[sid].space == space
                and (not rooms or are_in(sid, rooms)) and not are_in(sid, excepted)]

    def socket_of(self, client, space):
        return self.clients[client].sockets.get(space) if client in self.clients else None

    def waiting_bytes(self, client):
        return sum(entry.size for entry in self.clients[client].outbox)

    def totals(self):
        waiting = sum(len(it.outbox) for it in self.clients.values())
        return [*self.counts.values(), waiting]

    def held(self):
        """How many bytes the steps since the base keep, and the sockets that have ended since."""
        return self.kept + sum(ENDED + ROOM * len(rooms) for _, _, rooms, _ in self.ended)

    def moment(self, now):
        return max(self.now, now)

    def is_outdated(self, moment, now):
        return min(moment + self.limits["keep"], GREATEST) < now

    def missed(self, offset, space, rooms):
        """What a socket of these rooms missed after an offset, or None where the log has no such offset."""
        offsets = [it.offset for it in self.log]
        if offset not in offsets:
            return None
        return [it for it in self.log[offsets.index(offset) + 1 :] if it.is_for(space, rooms)]

    # Why something is refused.

    def look_at_client(self, client):
        refuse_if(client not in self.clients, "UnknownClient")

    def look_at_space(self, space):
        refuse_if(space not in self.limits["spaces"], "UnknownNamespace")

    def look_at_seat(self, client, space):
        self.look_at_client(client)
        self.look_at_space(space)
        refuse_if(space in self.clients[client].sockets, "AlreadyConnected")

    def has_space(self, client, entries):
        outbox = self.clients[client].outbox
        size = self.waiting_bytes(client) + sum(entry.size for entry in entries)
        return len(outbox) + len(entries) <= self.limits["capacity"] and size <= self.limits["bytes"]

    # What is done.

    def step(self, name, now, kept=0):
        """A command is accepted, whose step keeps so many bytes."""
        self.now = self.moment(now)
        self.counts["commands"] += 1
        self.steps.append(name)
        self.kept += kept

    def put(self, client, entry):
        self.clients[client].outbox.append(entry)
        self.counts["placed"] += 1

    def seat(self, client, space, sid, pid, rooms):
        self.clients[client].sockets[space] = sid
        self.sockets[sid] = Socket(client, space, pid)
        self.rooms[sid] = {id_text(sid), *rooms}

    def unseat(self, sid, ending):
        socket = self.sockets.pop(sid)
        del self.clients[socket.client].sockets[socket.space]
        self.ended.append((sid, socket, self.rooms.pop(sid), ending))

    def drop_client(self, client, ending):
        for sid in list(self.clients[client].sockets.values()):
            self.unseat(sid, ending)
        self.counts["discarded"] += len(self.clients.pop(client).outbox)

    def open(self, client, now):
        refuse_if(client in self.clients, "IdTaken")
        refuse_if(len(self.clients) >= self.limits["clients"], "TooManyClients")
        self.clients[client] = Client({}, [])
        self.step("opened", now)

    def attach(self, client, space, sid, pid, now):
        self.look_at_seat(client, space)
        sids = {*self.sockets, *(it.sid for it in self.saved.values())}
        pids = {*(it.pid for it in self.sockets.values()), *self.saved}
        refuse_if(sid in sids or pid in pids, "IdTaken")
        answer = Entry(connected_text(space, sid, pid))
        refuse_if(not self.has_space(client, [answer]), "OutboxFull")
        self.seat(client, space, sid, pid, ())
        self.put(client, answer)
        self.step("attached", now)

    def recover(self, client, space, pid, offset, now):
        self.look_at_seat(client, space)
        saved = self.saved.get(pid)
        refuse_if(saved is None or saved.space != space, "NotRecoverable(UnknownPid)")
        refuse_if(self.is_outdated(saved.lost_at, self.moment(now)), "NotRecoverable(Expired)")
        missed = self.missed(offset, space, saved.rooms)
        refuse_if(missed is None, "NotRecoverable(OffsetGone)")
        entries = [Entry(connected_text(space, saved.sid, pid)), *(it.entry for it in missed)]
        refuse_if(not self.has_space(client, entries), "OutboxFull")
        del self.saved[pid]
        self.seat(client, space, saved.sid, pid, saved.rooms)
        for entry in entries:
            self.put(client, entry)
        self.step("recovered", now, ROOM * len(saved.rooms) + OFFSET * len(missed))
        return saved.sid

    def join(self, sid, room, now):
        refuse_if(sid not in self.sockets, "UnknownSocket")
        refuse_if(room in self.rooms[sid], "RoomRefused(AlreadyIn)")
        refuse_if(len(self.rooms[sid]) >= MOST_ROOMS, "RoomRefused(TooManyRooms)")
        self.rooms[sid].add(room)
        self.step("joined", now)

    def leave(self, sid, room, now):
        refuse_if(sid not in self.sockets, "UnknownSocket")
        refuse_if(room == id_text(sid), "RoomRefused(OwnRoom)")
        refuse_if(room not in self.rooms[sid], "RoomRefused(NotIn)")
        self.rooms[sid].remove(room)
        self.step("left", now)

    def cast(self, space, rooms, excepted, form, payload, parts, now):
        """Gives the offset, how many sockets missed it, and the clients that got it. It is an event, logged or not, or has the kinds
        and the id of a question or of an answer."""
        self.look_at_space(space)
        is_logged, has_id = form is True, form if isinstance(form, tuple) else ()
        refuse_if("]" not in payload or len(parts) > MOST_ATTACHMENTS, "BadPayload")
        offset = self.next if is_logged else None
        refuse_if(is_logged and offset is None, "Spent")
        payload = with_offset(payload, offset) if is_logged else payload
        entry = Entry(event_text(space, payload, len(parts), *has_id), parts)
        reached, dropped = [], 0
        for sid in self.addressed(space, rooms, excepted):
            client = self.sockets[sid].client
            if self.has_space(client, [entry]):
                self.put(client, entry)
                reached.append(client)
            else:
                dropped += 1
        self.counts["dropped"] += dropped
        self.step("cast", now, entry.size + ID * dropped + named(rooms, excepted))
        if is_logged:
            self.next = offset + 1 if offset < GREATEST else None
            self.log = self.longest_end([*self.log, Logged(offset, self.now, space, rooms, excepted, entry)])
        return offset, dropped, sorted(reached)

    def longest_end(self, logged):
        """The newest of these that the log may have, by their number and by their bytes together."""
        kept, size = [], 0
        for it in reversed(logged[-self.limits["log"] :]):
            size += it.size
            if size > self.limits["log_bytes"]:
                break
            kept.append(it)
        return kept[::-1]

    def tell(self, client, entry, now):
        self.look_at_client(client)
        refuse_if(not self.has_space(client, [entry]), "OutboxFull")
        self.put(client, entry)
        self.step("told", now, entry.size)

    def take(self, client, most, now):
        self.look_at_client(client)
        outbox = self.clients[client].outbox
        taken = outbox[:most]
        del outbox[:most]
        self.counts["taken"] += len(taken)
        self.step("took", now)
        return taken

    def park(self, client, now):
        self.look_at_client(client)
        sids = self.clients[client].sockets.values()
        refuse_if(len(sids) > max(0, self.limits["saved"] - len(self.saved)), "SavedFull")
        for sid in sids:
            _, space, pid = self.sockets[sid]
            self.saved[pid] = Saved(sid, space, pid, self.rooms[sid], self.moment(now))
        self.drop_client(client, "Saved")
        self.step("parked", now)

    def end(self, sid, now, side="Server"):
        refuse_if(sid not in self.sockets, "UnknownSocket")
        self.unseat(sid, f"Alone({side})")
        self.step("ended", now)

    def close(self, client, now):
        self.look_at_client(client)
        self.drop_client(client, "Closed")
        self.step("closed", now)

    def sweep(self, now):
        """Gives how many entries of the log and how many sessions were dropped."""
        before, moment = (len(self.log), len(self.saved)), self.moment(now)
        self.log = [it for it in self.log if not self.is_outdated(it.at, moment)]
        self.saved = {pid: it for pid, it in self.saved.items() if not self.is_outdated(it.lost_at, moment)}
        self.step("swept", now)
        return before[0] - len(self.log), before[1] - len(self.saved)

    def join_all(self, space, rooms, excepted, room, now):
        changed = [sid for sid in self.addressed(space, rooms, excepted) if room not in self.rooms[sid]]
        refuse_if(any(len(self.rooms[sid]) >= MOST_ROOMS for sid in changed), "RoomRefused(TooManyRooms)")
        for sid in changed:
            self.rooms[sid].add(room)
        self.step("all-joined", now, named(rooms, excepted) + ID * len(changed))
        return changed

    def leave_all(self, space, rooms, excepted, room, now):
        changed = [sid for sid in self.addressed(space, rooms, excepted) if room in self.rooms[sid]]
        refuse_if(any(room == id_text(sid) for sid in changed), "RoomRefused(OwnRoom)")
        for sid in changed:
            self.rooms[sid].remove(room)
        self.step("all-left", now, named(rooms, excepted) + ID * len(changed))
        return changed

    def end_all(self, space, rooms, excepted, now):
        """Gives the sockets that ended, and the clients that were told."""
        sids, told, farewell = self.addressed(space, rooms, excepted), [], Entry(f"1{start(space)}")
        for sid in sids:
            client = self.sockets[sid].client
            if self.has_space(client, [farewell]):
                self.put(client, farewell)
                told.append(client)
            self.unseat(sid, "Together")
        self.step("all-ended", now, named(rooms, excepted) + ID * (len(sids) + len(told)))
        return sids, sorted(told)

    def seal(self):
        """Makes a copy of the present state the base. Gives how many steps led to it."""
        count = len(self.steps)
        self.steps, self.kept, self.ended, self.base = [], 0, [], Base(self)
        return count


def named(rooms, excepted):
    """The bytes of the rooms that a command names."""
    return ROOM * (len(rooms) + len(excepted))


class Base:
    """A copy of a hub's state, in lists that rise."""

    def __init__(self, hub):
        place = hub.limits["spaces"].index
        self.at, self.next, self.totals = hub.now, hub.next, hub.totals()
        # A client's sockets stand in the order of connecting, and what waits for it as it came.
        self.clients = [(client, [(place(space), sid, hub.sockets[sid].pid) for space, sid in it.sockets.items()],
                         list(it.outbox)) for client, it in sorted(hub.clients.items())]
        self.pairs = [(sid, room) for sid in sorted(hub.rooms) for room in sorted(hub.rooms[sid], key=str.encode)]
        self.log, self.saved = list(hub.log), [hub.saved[pid] for pid in sorted(hub.saved)]
