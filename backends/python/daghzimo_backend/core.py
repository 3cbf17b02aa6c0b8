"""What a backend knows of a server's sockets and decides, without input and output.

It is given what the server tells, and gives back jobs: calls of the program's handlers that are to begin now. Each socket
has a line of jobs, so that its `connect` has ended before its first event begins, and `disconnect` begins after the last.
"""
from __future__ import annotations

import re
import secrets
import time
from collections import OrderedDict, deque
from dataclasses import dataclass, field
from typing import Any, Callable, Dict, Iterable, List, Optional, Set, Tuple

# How the server says that a socket ended, in the words of newer versions of python-socketio.
REASONS = {"saved": "transport close", "closed": "transport error", "left": "client disconnect",
           "alone": "server disconnect", "together": "server disconnect"}
SESSION_SECONDS = 130       # the server keeps a lost client's session for two minutes
SESSIONS_AT_MOST = 10_000
QUESTION_SECONDS = 60       # for questions to rooms; one to a socket is forgotten with the socket
QUESTIONS_AT_MOST = 10_000  # of one socket, and of all rooms

DIGITS = "0123456789abcdef"
SID = re.compile("[0-9a-f]{32}")

Key = Tuple[str, str]       # a namespace and a sid


@dataclass
class Job:
    socket: Socket
    name: str               # "connect", "disconnect" or the event's name, which can't be one of these two
    arguments: tuple        # of the handler, after the sid
    id: Optional[int] = None        # under which the client asks for an acknowledgement
    rooms: Iterable[str] = ()       # that the socket is in from now on, where it connects
    saved: bool = False             # whether it may come back, where it disconnects


@dataclass
class Socket:
    namespace: str
    sid: str
    present: bool = False   # by what the server has told; what the program was told of that may still be in line
    refused: bool = False   # by the program, which is told no more of it
    leaving: bool = False   # disconnected by the program: its events are dropped, `disconnect` comes
    busy: bool = False      # a job runs that the next one has to wait for
    line: deque = field(default_factory=deque)
    rooms: Set[str] = field(default_factory=set)
    session: dict = field(default_factory=dict)
    environ: dict = field(default_factory=dict)
    questions: Dict[int, Any] = field(default_factory=dict)


@dataclass
class RoomQuestion:
    callback: Any           # as `answered` gives it back
    namespace: str
    deadline: float
    answered: Set[str] = field(default_factory=set)


class Core:
    def __init__(self, digits: str, namespaces: Set[str], one_at_a_time: bool):
        self.digits = digits    # what comes of others' sockets, while a question is open to them, is ignored
        self.namespaces = namespaces            # of the program, which adds to them
        self.one_at_a_time = one_at_a_time      # whether a socket's event waits until the one before it was handled
        self.sockets: Dict[Key, Socket] = {}
        self.sessions: OrderedDict[Key, Tuple[float, dict]] = OrderedDict()   # of sockets that may come back
        self.room_questions: Dict[int, RoomQuestion] = {}

    # What the server tells.

    def connection(self, namespace: str, sid: str, rooms: Optional[list], auth: Any = None, claims: Any = None) -> List[Job]:
        socket = self.sockets.get((namespace, sid))
        if socket is not None and socket.present:
            # Its session was lost and came back while this backend was away.
            socket.rooms.update(rooms or ())
            return []
        if namespace not in self.namespaces or sid[0] not in self.digits:
            return []
        environ = {**({"recovered": True} if rooms else {}), **({"claims": claims} if claims else {})}
        return self._arrive(namespace, sid, rooms or [sid], auth or None, environ)

    def event(self, namespace: str, sid: str, id: Optional[int], name: str, *arguments: Any) -> List[Job]:
        if namespace not in self.namespaces or sid[0] not in self.digits or name in ("connect", "disconnect"):
            return []
        socket = self.sockets.get((namespace, sid))
        jobs = []
        if socket is None or not socket.present:
            jobs = self._arrive_late(namespace, sid)
            socket = self.sockets[namespace, sid]
        return jobs + self._line_up(Job(socket, str(name), arguments, id))     # a name may be a number

    def disconnection(self, namespace: str, sid: str, how: str, rooms: list) -> List[Job]:
        socket = self.sockets.get((namespace, sid))
        if socket is None or not socket.present:
            return []
        socket.rooms = set(rooms)
        return self._leave(socket, REASONS.get(how, how), how == "saved")

    def listed(self, namespace: str, sids: List[str]) -> List[Job]:
        """The server lists who is there, at this place among what it tells: those that came or went unseen are told."""
        sids = [sid for sid in sids if sid[0] in self.digits]
        there = set(sids)
        jobs = []
        for socket in list(self.sockets.values()):
            if socket.namespace == namespace and socket.present and socket.sid not in there:
                jobs += self._leave(socket, REASONS["saved"], True)
        for sid in sids:
            socket = self.sockets.get((namespace, sid))
            if socket is None or not socket.present:
                jobs += self._arrive_late(namespace, sid)
        return jobs

    def left_out(self) -> List[Job]:
        """The server can't be reached: its sockets are told to have gone."""
        return [job for namespace in self.namespaces for job in self.listed(namespace, [])]

    def _arrive_late(self, namespace: str, sid: str) -> List[Job]:
        """A socket is there whose coming wasn't told to this backend."""
        return self._arrive(namespace, sid, [sid], None, {"late": True})

    def _arrive(self, namespace: str, sid: str, rooms: list, auth: Any, environ: dict) -> List[Job]:
        socket = self.sockets.setdefault((namespace, sid), Socket(namespace, sid))
        socket.present = True
        return self._line_up(Job(socket, "connect", ({"namespace": namespace, **environ}, auth), rooms=rooms))

    def _leave(self, socket: Socket, reason: str, saved: bool) -> List[Job]:
        socket.present = False
        socket.questions.clear()
        return self._line_up(Job(socket, "disconnect", (reason,), saved=saved))

    # The line of a socket.

    def _line_up(self, job: Job) -> List[Job]:
        job.socket.line.append(job)
        return self._next(job.socket)

    def ended(self, job: Job, refused: bool = False) -> List[Job]:
        """The handler of a job has ended (`refused`: it was `connect`, and doesn't want the socket)."""
        socket = job.socket
        if job.name == "connect":
            socket.refused = refused
        elif job.name == "disconnect":
            self._forget(job)
        elif not self.one_at_a_time:
            return []
        socket.busy = False
        return self._next(socket)

    def _next(self, socket: Socket) -> List[Job]:
        jobs = []
        while socket.line and not socket.busy:
            job = socket.line.popleft()
            if self._begins(job):
                jobs.append(job)
                socket.busy = self.one_at_a_time or job.name in ("connect", "disconnect")
        return jobs

    def _begins(self, job: Job) -> bool:
        socket = job.socket
        if job.name == "connect":
            socket.rooms, socket.environ, socket.session = set(job.rooms), job.arguments[0], self._session(socket)
            socket.refused = socket.leaving = False
        elif job.name == "disconnect" and socket.refused:
            self._forget(job)
        return not socket.refused and (job.name == "disconnect" or not socket.leaving)

    def _forget(self, job: Job) -> None:
        socket, now = job.socket, time.monotonic()
        key = (socket.namespace, socket.sid)
        if job.saved and not socket.refused:
            self.sessions[key] = (now, socket.session)
            self.sessions.move_to_end(key)
        while self.sessions and (len(self.sessions) > SESSIONS_AT_MOST
                                 or next(iter(self.sessions.values()))[0] < now - SESSION_SECONDS):
            self.sessions.popitem(last=False)
        if not socket.line:     # else it is back already, and its new `connect` is in line
            del self.sockets[key]

    def _session(self, socket: Socket) -> dict:
        since, session = self.sessions.pop((socket.namespace, socket.sid), (0.0, {}))
        return session if since >= time.monotonic() - SESSION_SECONDS else {}

    # What the program asks.

    def socket(self, sid: str, namespace: Optional[str]) -> Socket:
        try:
            return self.sockets[namespace or "/", sid]
        except KeyError:
            raise KeyError(f"no such socket: {sid}") from None

    def refused(self, namespace: str) -> List[Socket]:
        return [socket for socket in self.sockets.values()
                if socket.namespace == namespace and socket.present and socket.refused]

    def move(self, namespace: str, sid: Optional[str], room: str, inside: bool) -> Callable[[], None]:
        """Notes that a socket (where `sid` is None, all of them) is in a room from now on, or isn't. Gives what undoes it."""
        if sid is None:
            sockets = [one for one in self.sockets.values() if one.namespace == namespace]
        else:
            sockets = [self.sockets[namespace, sid]] if (namespace, sid) in self.sockets else []
        moved = [one for one in sockets if (room in one.rooms) != inside]

        def put(where: bool) -> None:
            for socket in moved:
                (socket.rooms.add if where else socket.rooms.discard)(room)
        put(inside)
        return lambda: put(not inside)

    def leave(self, namespace: str, sid: str) -> Callable[[], None]:
        """Notes that the program disconnects a socket. Gives what undoes it."""
        def put(leaving: bool) -> None:
            if (namespace, sid) in self.sockets:
                self.sockets[namespace, sid].leaving = leaving
        put(True)
        return lambda: put(False)

    def ask(self, callback: Any, namespace: str, to: List[str]) -> int:
        """The id of a new question, at random since other backends choose ids too, and so that nobody can guess it."""
        id = secrets.randbits(48)
        socket = self.sockets.get((namespace, to[0])) if len(to) == 1 else None
        if socket is not None:
            socket.questions[id] = callback
            if len(socket.questions) > QUESTIONS_AT_MOST:
                del socket.questions[next(iter(socket.questions))]
        else:
            self.room_questions[id] = RoomQuestion(callback, namespace, time.monotonic() + QUESTION_SECONDS)
            self._forget_room_questions()
        return id

    def _forget_room_questions(self) -> None:
        while self.room_questions:
            id, oldest = next(iter(self.room_questions.items()))
            if oldest.deadline >= time.monotonic() and len(self.room_questions) <= QUESTIONS_AT_MOST:
                return
            del self.room_questions[id]

    def unask(self, id: int, namespace: str, to: List[str]) -> None:
        self.room_questions.pop(id, None)
        for sid in to:
            if (namespace, sid) in self.sockets:
                self.sockets[namespace, sid].questions.pop(id, None)

    def answered(self, namespace: str, sid: str, id: int) -> Any:
        """The callback of a question that a socket answers: once for each socket, and no more after the time."""
        socket = self.sockets.get((namespace, sid))
        if socket is not None and id in socket.questions:
            return socket.questions.pop(id)
        self._forget_room_questions()
        question = self.room_questions.get(id)
        if question is None or question.namespace != namespace or sid in question.answered:
            return None
        question.answered.add(sid)
        return question.callback
