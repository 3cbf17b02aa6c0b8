"""A server with its sockets: what it tells becomes jobs, which are done."""
from __future__ import annotations

import asyncio
from typing import TYPE_CHECKING, Any, Callable, List, Optional, Set, Tuple

from socketio.exceptions import ConnectionRefusedError

from .commands import CommandError, elements, options
from .core import DIGITS, SID, Core, Job, Socket
from .link import NO_CONNECTION, Address, Link, Reply

if TYPE_CHECKING:
    from .engine import Engine


def nothing() -> None:
    """Is done where no digit is heard."""


class Node:
    changed: Callable[[], None]     # is called when it turns out that the server can't be reached, or that it can

    def __init__(self, program: Engine, core: Core, address: Address):
        self.core, self._program = core, program
        told = {name: self._teller(getattr(core, name)) for name in ("connection", "event", "disconnection")}
        self.link = Link(address, {**told, "answer": self._answered}, self._opened, lambda: self.changed(), program.logger)
        self._known: Set[str] = set()   # namespaces that the server has
        self._tasks: Set[asyncio.Future] = set()    # asyncio itself doesn't keep them

    # What the server tells.

    def _teller(self, decide: Callable) -> Callable:
        return lambda *arguments: self._begin(decide(*arguments))

    def _answered(self, namespace: str, sid: str, id: int, *values: Any) -> None:
        callback = self.core.answered(namespace, sid, id)
        if isinstance(callback, asyncio.Future):
            if not callback.done():
                callback.set_result(values)
        elif callback is not None:
            self._spawn(self._guarded(callback, *values))

    async def _opened(self) -> None:
        """A connection is there: who came and went meanwhile?"""
        self.changed()
        for namespace in sorted(self.core.namespaces):
            def then(sids: List[str], namespace: str = namespace) -> None:
                self._known.add(namespace)
                self._begin(self.core.listed(namespace, sids))
            try:
                await self.link.ask("fetchSockets", options(namespace, []), then=then)
            except CommandError as error:
                raise CommandError(f"{error.why}: {namespace}" if error.why == "unknown namespace" else error.why) from None
            for socket in self.core.refused(namespace):     # the connection was lost before they were out
                self._disconnect(socket)

    def leave_out(self) -> None:
        """The server can't be reached, and others can."""
        self._begin(self.core.left_out())

    # Jobs.

    def _spawn(self, work: Any) -> None:
        task = asyncio.ensure_future(work)
        self._tasks.add(task)
        task.add_done_callback(self._tasks.discard)

    def _begin(self, jobs: List[Job]) -> None:
        for job in jobs:
            self._spawn(self._do(job))

    async def _guarded(self, function: Callable, *arguments: Any) -> Any:
        try:
            return await self._program._invoke(function, *arguments)
        except Exception:
            self._program.logger.exception("a handler failed")
            return self._program.not_handled

    async def _do(self, job: Job) -> None:
        refused = False
        try:
            found = self._program._find(job)
            if job.name == "connect":
                refused = found is not None and await self._refuses(job.socket, *found)
            elif found is not None:
                await self._acknowledge(job, await self._guarded(found[0], *found[1]))
        finally:
            self._begin(self.core.ended(job, refused))

    async def _refuses(self, socket: Socket, function: Callable, arguments: tuple) -> bool:
        """Calls `connect`. The client is in already: where it is refused, it is told so, and put out."""
        why = ConnectionRefusedError().error_args
        try:
            if await self._program._invoke(function, *arguments) is not False:
                return False
        except ConnectionRefusedError as error:
            why = error.error_args
        except Exception:
            self._program.logger.exception("connect failed: the client is refused")
        socket.refused = True
        await self.link.send("emit", options(socket.namespace, [socket.sid]), "refused", why)
        self._disconnect(socket)
        return True

    def _disconnect(self, socket: Socket) -> Reply:
        undo = self.core.leave(socket.namespace, socket.sid)
        return self.link.ask("disconnectSockets", options(socket.namespace, [socket.sid]), undo=undo)

    async def _acknowledge(self, job: Job, result: Any) -> None:
        if job.id is None or result is self._program.not_handled:
            return
        try:
            await self.link.send("emit", options(job.socket.namespace, [job.socket.sid], answer=job.id), *elements(result))
        except Exception:
            self._program.logger.exception("what a handler of %s returned can't be sent", job.name)

    # Events to clients.

    async def emit(self, name: str, chosen: dict, *event: Any) -> Optional[Reply]:
        """Sends an event. It is acknowledged only until the namespace is known to be there, since that costs."""
        namespace = chosen["in"]
        if namespace in self._known or not self.link.connected:
            await self.link.send(name, chosen, *event)
            return None
        return self.link.ask(name, chosen, *event, then=lambda _: self._known.add(namespace))

    async def ask(self, callback: Any, name: str, chosen: dict, *event: Any) -> Tuple[Callable, Callable]:
        """Sends an event that asks, where it can be sent. Gives what ends the question, and what leaves others' digits."""
        namespace, to = chosen["in"], chosen.get("to", [])
        id = self.core.ask(callback, namespace, to)
        unhear = self._hear(to)

        def unask() -> None:
            self.core.unask(id, namespace, to)
        try:
            if not self.link.connected:
                raise CommandError(NO_CONNECTION)
            reply = await self.emit(name, {**chosen, "ask": id}, *event)
            if reply is not None:
                await reply
        except BaseException:
            unask()
            unhear()
            raise
        return unask, unhear

    def _hear(self, to: List[str]) -> Callable[[], None]:
        """Answers go to the backends with the digit of who answers. For the time of a question this one is in the rooms of
        others' digits too. Gives what leaves them."""
        heard = self.link.heard
        foreign = set(to[0][0] if len(to) == 1 and SID.fullmatch(to[0]) else DIGITS) - set(self.core.digits)

        def count(by: int, command: str) -> None:
            for digit in foreign if self.link.connected and self.link.heard is heard else ():
                heard[digit] += by
                if heard[digit] == max(by, 0):  # the first question that needs it, or no more
                    self.link.ask(command, self.link.own(), digit)
        count(1, "socketsJoin")
        return (lambda: count(-1, "socketsLeave")) if foreign else nothing
