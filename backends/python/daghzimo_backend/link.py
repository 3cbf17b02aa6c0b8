"""The connection with a server, which comes back by itself, and the commands that go over it in order."""
from __future__ import annotations

import asyncio
import logging
import random
from collections import Counter, deque
from contextlib import suppress
from dataclasses import dataclass
from typing import Any, Callable, Dict, Generator, Optional, Sequence

import aiohttp
import socketio
from socketio.exceptions import BadNamespaceError, ConnectionRefusedError

from .commands import BACKEND, BoundedPacket, CommandError

NO_CONNECTION = "no connection"
FIRST_PAUSE, LAST_PAUSE = 0.25, 5.0     # seconds between attempts; each is twice the one before, and somewhat random
PATIENCE = 10.0                         # seconds for a connection to be made


class Reply:
    """What a command comes to: the values of all nodes that have it. It may be awaited; where nobody does, an error is logged."""

    def __init__(self, logger: logging.Logger, command: str, nodes: int = 1):
        self._future = asyncio.get_running_loop().create_future()
        self._awaited = False
        self._logger, self._command = logger, command
        self._nodes, self._values = nodes, []

    def __await__(self) -> Generator[Any, None, Any]:
        self._awaited = True
        return (yield from asyncio.shield(self._future))

    def settle(self, status: str = "error", value: Any = None) -> None:
        """What one node says."""
        if self._future.done():
            return
        if status == "ok":
            self._values.append(value)
            if len(self._values) == self._nodes:
                self._future.set_result(self._values)
            return
        self._future.set_exception(CommandError(value))
        self._future.exception()    # so that asyncio doesn't log it as well
        if not self._awaited:
            self._logger.error("%s: %s", self._command, value)


@dataclass
class Address:
    """Where a server is, and how it is spoken to."""
    url: str
    auth: dict
    transports: Sequence[str]
    path: str
    name: str       # as messages call it


class Link:
    """`told` has a function for each event of the server; `opened` is called when a connection is there, and awaited, and
    `missed` when one couldn't be made."""

    def __init__(self, address: Address, told: Dict[str, Callable], opened: Callable, missed: Callable,
                 logger: logging.Logger):
        self.name, self._address, self._told = address.name, address, told
        self._opened, self._missed, self._logger = opened, missed, logger
        self._client: Optional[socketio.AsyncClient] = None
        self.away = False                       # it couldn't be reached since it was connected
        self.heard: Counter = Counter()         # others' digits, and how many questions of this connection need them
        self._line: deque = deque()             # of commands
        self._replies: Dict[Reply, Optional[Callable]] = {}     # that are due, with what undoes their commands
        self.task: Optional[asyncio.Task] = None
        self.tried: Optional[asyncio.Future] = None     # is done when the first attempt to connect has come to an end
        self.first: Optional[asyncio.Future] = None     # when there is a connection, or with the error that ended the link
        self._lost = 0                          # commands, since the connection is away
        self._stopping = False

    @property
    def connected(self) -> bool:
        return self._client is not None

    def own(self) -> dict:
        """What addresses this backend itself."""
        return {"in": BACKEND, "to": [self._client.get_sid(BACKEND)]}

    # Commands. A command is put in line at once, so that the order is that of the calls, also of those that aren't awaited.

    async def send(self, *command: Any) -> None:
        """A command whose errors nobody hears of."""
        if self._client is None:
            self._lost += 1
            if self._lost == 1:
                self._logger.warning("no connection with %s: what is sent now is lost", self.name)
            return
        self._line.append((self._client, command, None))
        await self._flush()

    def ask(self, *command: Any, undo: Optional[Callable] = None, then: Optional[Callable] = None,
            reply: Optional[Reply] = None) -> Reply:
        """A command that is acknowledged. `undo` is called where it fails; `then` gets the value before anything that
        the server told later. `reply` is that of several nodes."""
        reply = reply or Reply(self._logger, command[0])
        self._replies[reply] = undo

        def acknowledged(status: str = "error", value: Any = None) -> None:
            if status == "ok" and then is not None:
                then(value)
            self._settle(reply, status, value)
        if self._client is None:
            self._settle(reply, "error", NO_CONNECTION)
        else:
            self._line.append((self._client, command, acknowledged))
            asyncio.ensure_future(self._flush())
        return reply

    def _settle(self, reply: Reply, status: str, value: Any) -> None:
        undo = self._replies.pop(reply, None)
        if status != "ok" and undo is not None:
            undo()
        reply.settle(status, value)

    async def _flush(self) -> None:
        while self._line:
            client, (name, *arguments), acknowledged = self._line.popleft()
            try:
                await client.emit(name, tuple(arguments), namespace=BACKEND, callback=acknowledged)
            except BadNamespaceError:   # this connection is gone, as `_close` is about to find
                self._lost += 1
            except Exception as error:
                if acknowledged is None:
                    raise
                acknowledged("error", str(error))

    # The connection.

    def start(self) -> bool:
        """Connects, and tries until it can. Tells whether it did nothing of that yet."""
        if self.task is not None and not self.task.done():
            return False
        self._stopping = False
        self.tried, self.first = (asyncio.get_running_loop().create_future() for _ in range(2))
        self.task = asyncio.ensure_future(self._stay())
        self.task.add_done_callback(self._ended)
        return True

    def _ended(self, task: asyncio.Task) -> None:
        """An error that nobody expects is that of whoever waits for the first connection, too."""
        if not task.cancelled() and task.exception() is not None and not self.first.done():
            self._end(task.exception())

    async def stop(self) -> None:
        """Leaves, after what was sent before was done."""
        self._stopping = True
        if self._client is not None:
            leave = self.ask("disconnectSockets", self.own())
            with suppress(CommandError, asyncio.TimeoutError):
                await asyncio.wait_for(leave, PATIENCE)
        if self.task is not None:
            for work in (self.task, self.tried, self.first):
                work.cancel()
            await asyncio.wait({self.task})

    async def _stay(self) -> None:
        pause = FIRST_PAUSE
        while True:
            try:
                await self._connect()
                if self._stopping:
                    return
                pause = FIRST_PAUSE
                self._logger.warning("the connection with %s is lost", self.name)
            except (socketio.exceptions.ConnectionError, CommandError, asyncio.TimeoutError, aiohttp.ClientError) as error:
                refused = isinstance(error, (ConnectionRefusedError, CommandError)) and str(error) != NO_CONNECTION
                if refused and not self.first.done():
                    return self._end(error)
                self._logger.warning("no connection with %s: %s", self.name, str(error) or type(error).__name__)
                self._miss()
            await asyncio.sleep(pause * random.uniform(0.5, 1.0))
            pause = min(2 * pause, LAST_PAUSE)

    def _end(self, error: Exception) -> None:
        self.first.set_exception(error)
        self._try()

    def _miss(self) -> None:
        self.away = True
        self._try()
        self._missed()

    def _try(self) -> None:
        if not self.tried.done():
            self.tried.set_result(None)

    async def _connect(self) -> None:
        """One connection, until it ends. Each has a new client, so that nothing of an old one is left."""
        async with aiohttp.ClientSession() as session:
            client = socketio.AsyncClient(reconnection=False, handle_sigint=False, serializer=BoundedPacket,
                                          http_session=session)
            there = self._listen(client)
            try:
                await asyncio.wait_for(self._open(client, there), PATIENCE)
                await self._until_lost(client)
            finally:
                self._close(client)
                await client.disconnect()

    async def _open(self, client: socketio.AsyncClient, there: asyncio.Future) -> None:
        address = self._address
        await client.connect(address.url, auth=address.auth, namespaces=[BACKEND], transports=list(address.transports),
                             socketio_path=address.path, wait=False)
        await there

    def _listen(self, client: socketio.AsyncClient) -> asyncio.Future:
        there = asyncio.get_running_loop().create_future()

        def connected() -> None:
            self._client, self.heard, self.away = client, Counter(), False
            if not there.done():
                there.set_result(None)

        def refused(why: Any = None, *_: Any) -> None:
            if not there.done():
                there.set_exception(ConnectionRefusedError(why.get("message") if isinstance(why, dict) else why))
        client.on("connect", connected, namespace=BACKEND)
        client.on("connect_error", refused, namespace=BACKEND)
        for name, function in self._told.items():
            client.on(name, function, namespace=BACKEND)
        return there

    async def _until_lost(self, client: socketio.AsyncClient) -> None:
        lost = asyncio.ensure_future(client.eio.wait())
        lost.add_done_callback(lambda _: self._close(client))
        await self._opened()
        if self._lost:
            self._logger.warning("%d commands were lost", self._lost)
            self._lost = 0
        self._try()
        if not self.first.done():
            self.first.set_result(None)
        await asyncio.shield(lost)

    def _close(self, client: socketio.AsyncClient) -> None:
        """A connection is gone, and with it what waited for an acknowledgement."""
        if self._client is not client:
            return
        self._client = None
        self._line.clear()
        for reply in list(self._replies):
            self._settle(reply, "error", NO_CONNECTION)
