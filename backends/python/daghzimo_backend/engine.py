"""What both forms of a backend share: the calls of python-socketio's servers, as coroutines."""
from __future__ import annotations

import asyncio
import logging
from typing import Any, Callable, Iterable, List, Optional, Sequence, Union

from socketio.exceptions import TimeoutError

from .commands import emission, listed, options
from .core import DIGITS, QUESTION_SECONDS, Core, Socket
from .handlers import Handlers
from .link import Address, Reply
from .node import Node, nothing
from .nodes import Nodes

Rooms = Union[None, str, Sequence[str]]
CALL_SECONDS = 60


class Engine(Handlers):
    """See AsyncBackend."""

    def __init__(self, url: Union[str, Sequence[str]], token: str, *, digits: str = DIGITS, namespaces: Iterable[str] = (),
                 async_handlers: bool = True, transports: Sequence[str] = ("websocket",),
                 socketio_path: str = "socket.io", logger: Optional[logging.Logger] = None):
        super().__init__(namespaces)
        self.logger = logger if isinstance(logger, logging.Logger) else logging.getLogger("daghzimo_backend")
        if not listed(url) or not all(isinstance(one, str) for one in listed(url)):
            raise ValueError("a backend needs the URL of a server, or a list of URLs")
        urls = list(dict.fromkeys(one.rstrip("/") for one in listed(url)))

        def node(url: str) -> Node:
            name = url if len(urls) > 1 else "the server"
            address = Address(url, {"token": token, "digits": digits}, transports, socketio_path, name)
            return Node(self, Core(digits, self.namespaces, not async_handlers), address)
        self._nodes = Nodes([node(url) for url in urls], self.logger)

    # Events to clients.

    async def emit(self, event: str, data: Any = None, to: Rooms = None, room: Rooms = None, skip_sid: Rooms = None,
                   namespace: Optional[str] = None, callback: Optional[Callable] = None, ignore_queue: bool = False,
                   volatile: bool = False) -> None:
        """`volatile`: a client that comes back doesn't get it. `ignore_queue` means nothing here."""
        namespace, to = namespace or "/", listed(to or room)
        chosen = options(namespace, to, listed(skip_sid), **({"volatile": True} if volatile else {}))
        command = emission(chosen, event, data)
        if callback is None:
            for node in self._nodes.of(namespace, to):
                await node.emit(*command)
            return
        for node in self._nodes.up(namespace, to):
            _, unhear = await node.ask(callback, *command)
            if unhear is not nothing:
                asyncio.get_running_loop().call_later(QUESTION_SECONDS, unhear)

    async def send(self, data: Any, to: Rooms = None, room: Rooms = None, skip_sid: Rooms = None,
                   namespace: Optional[str] = None, callback: Optional[Callable] = None, ignore_queue: bool = False) -> None:
        await Engine.emit(self, "message", data, to, room, skip_sid, namespace, callback)

    async def call(self, event: str, data: Any = None, to: Optional[str] = None, sid: Optional[str] = None,
                   namespace: Optional[str] = None, timeout: Optional[float] = CALL_SECONDS,
                   ignore_queue: bool = False) -> Any:
        namespace, to = namespace or "/", listed(to or sid)
        if not to:
            raise ValueError("Cannot use call() to broadcast.")
        command = emission(options(namespace, to), event, data)
        answer = asyncio.get_running_loop().create_future()
        ends: List[Callable] = []
        try:
            for node in self._nodes.up(namespace, to):
                ends += await node.ask(answer, *command)
            values = await asyncio.wait_for(answer, CALL_SECONDS if timeout is None else timeout)
        except asyncio.TimeoutError:
            raise TimeoutError() from None
        finally:
            for end in ends:
                end()
        return values if len(values) > 1 else values[0] if values else None

    # Rooms and sockets.

    def _room(self, command: str, sid: Optional[str], room: str, namespace: Optional[str], inside: bool) -> Reply:
        namespace = namespace or "/"
        chosen = options(namespace, [room if sid is None else sid], [])

        def undo(node: Node) -> Callable[[], None]:
            return node.core.move(namespace, sid, room, inside)
        return self._nodes.ask(undo, command, chosen, room)

    def enter_room(self, sid: str, room: str, namespace: Optional[str] = None) -> Reply:
        return self._room("socketsJoin", sid, room, namespace, True)

    def leave_room(self, sid: str, room: str, namespace: Optional[str] = None) -> Reply:
        return self._room("socketsLeave", sid, room, namespace, False)

    async def close_room(self, room: str, namespace: Optional[str] = None) -> None:
        await self._room("socketsLeave", None, room, namespace, False)

    def rooms(self, sid: str, namespace: Optional[str] = None) -> List[str]:
        socket = self._nodes.find(namespace or "/", sid)
        return [] if socket is None else list(socket.rooms)

    async def fetch_sockets(self, room: Rooms = None, namespace: Optional[str] = None) -> List[str]:
        """The sids of a room or a namespace, also of sockets that other backends have the digits of."""
        return await self._nodes.fetch(options(namespace or "/", listed(room)))

    async def disconnect(self, sid: str, namespace: Optional[str] = None, ignore_queue: bool = False) -> None:
        namespace = namespace or "/"
        await self._nodes.ask(lambda node: node.core.leave(namespace, sid), "disconnectSockets", options(namespace, [sid]))

    # What is kept for a socket.

    def _socket(self, sid: str, namespace: Optional[str]) -> Socket:
        socket = self._nodes.find(namespace or "/", sid)
        if socket is None:
            raise KeyError(f"no such socket: {sid}")
        return socket

    def _session(self, sid: str, namespace: Optional[str] = None) -> dict:
        return self._socket(sid, namespace).session

    def _save_session(self, sid: str, session: dict, namespace: Optional[str] = None) -> None:
        self._socket(sid, namespace).session = session

    def get_environ(self, sid: str, namespace: Optional[str] = None) -> Optional[dict]:
        socket = self._nodes.find(namespace or "/", sid)
        return None if socket is None else socket.environ

    # The connection.

    async def start(self) -> None:
        """Connects, and returns when the program was told who is there; the connection stays, and comes back by itself."""
        await self._nodes.start()

    async def stop(self) -> None:
        await self._nodes.stop()
