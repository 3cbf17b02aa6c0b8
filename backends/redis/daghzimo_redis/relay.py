"""What members of some rooms say at this node, for the other nodes."""
from __future__ import annotations

import asyncio
import logging
from collections import Counter, OrderedDict
from dataclasses import dataclass
from typing import Any, Dict, Iterable, List, Optional

from daghzimo_backend.commands import CommandError
from daghzimo_backend.link import Link
from redis.asyncio import Redis
from redis.exceptions import RedisError

from .forms import packed

WAITING = 1000      # of what was said, at most, until Redis has taken it
ENDED = 10_000      # sockets; more than the server has events in line for a backend


@dataclass
class Said:
    namespace: str
    sid: str
    room: str
    event: List[Any]
    absence: asyncio.Future     # of the socket from the room, as the node has it


class Relay:
    """Hears `say ROOM ..` of the members of its rooms, and publishes it."""

    def __init__(self, rooms: Iterable[str], prefix: str, uid: str, counts: Counter):
        self.rooms = frozenset(rooms)
        self.told = {"connection": self._came, "event": self._heard, "disconnection": self._ended}
        self._prefix, self._uid, self._counts = prefix, uid, counts
        self._logger = logging.getLogger("daghzimo_redis")
        self._line: asyncio.Queue = asyncio.Queue(WAITING)
        self._last_rooms: Dict[tuple, List[str]] = OrderedDict()    # of sockets that have ended
        self.link: Optional[Link] = None

    def _came(self, namespace: str, sid: str, *_: Any) -> None:
        self._last_rooms.pop((namespace, sid), None)

    def _ended(self, namespace: str, sid: str, how: str, rooms: List[str]) -> None:
        self._last_rooms[namespace, sid] = rooms
        while len(self._last_rooms) > ENDED:
            self._last_rooms.popitem(last=False)

    def _heard(self, namespace: str, sid: str, id: Any, name: Any, *arguments: Any) -> None:
        if name != "say" or not arguments or not isinstance(arguments[0], str) or arguments[0] not in self.rooms:
            return
        if self._line.full():
            self._lose("too much is said")
            return
        absence = asyncio.ensure_future(self._absence(namespace, sid, arguments[0]))
        self._line.put_nowait(Said(namespace, sid, arguments[0], [name, *arguments], absence))

    async def _absence(self, namespace: str, sid: str, room: str) -> bool:
        """Whether the socket is there and not in the room."""
        sids, = await self.link.ask("fetchSockets", {"in": namespace, "to": [sid], "except": [room]})
        return bool(sids)

    async def _is_member(self, said: Said) -> bool:
        absent = await said.absence
        return not absent and said.room in self._last_rooms.get((said.namespace, said.sid), [said.room])

    async def publish(self, redis: Redis) -> None:
        """Until it is cancelled."""
        while True:
            said = await self._line.get()
            try:
                if await self._is_member(said):
                    channel = f"{self._prefix}-relay#{said.namespace}#{said.room}#"
                    await redis.publish(channel, packed(self._uid, said.namespace, said.room, said.event))
                    self._counts["relayed"] += 1
            except (CommandError, RedisError, OSError) as error:
                self._lose(str(error))

    def _lose(self, why: str) -> None:
        self._counts["unrelayed"] += 1
        self._logger.warning("what is said isn't relayed: %s", why)
