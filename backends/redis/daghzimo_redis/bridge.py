"""The bridge between Redis and one node."""
from __future__ import annotations

import asyncio
import logging
import random
import secrets
from collections import Counter
from typing import Iterable, List, Optional, Set

from daghzimo_backend.commands import CommandError
from daghzimo_backend.core import DIGITS
from daghzimo_backend.link import NO_CONNECTION, Address, Link
from redis.asyncio import Redis
from redis.asyncio.client import PubSub
from redis.exceptions import ConnectionError, RedisError

from .forms import PATTERN, Command, channel_of, emission, python_message, request
from .relay import Relay
from .values import Malformed

UNANSWERED = 1000           # commands, at most; Redis is not read meanwhile
SILENCE = 10.0              # seconds, until Redis is asked whether it is there, and again until it is given up
FIRST_PAUSE, LAST_PAUSE = 0.25, 5.0     # seconds between attempts; each is twice the one before, and somewhat random
PREFIXES = 100              # of others, that are named


class Bridge:
    """`python_channel`: python-socketio's, where it is to be read too. `relayed`: rooms, see the README."""

    def __init__(self, url: str, token: str, redis: Redis, prefix: str, python_channel: Optional[str], relayed: Iterable[str]):
        self.counts: Counter = Counter(dict.fromkeys(("heard", "done", "skipped", "lost", "relayed", "unrelayed"), 0))
        self._logger = logging.getLogger("daghzimo_redis")
        self._redis, self._prefix, self._python_channel = redis, prefix, python_channel
        self._uid = secrets.token_hex(16)
        self._relay = Relay(relayed, prefix, self._uid, self.counts)
        self._digits = DIGITS if self._relay.rooms else DIGITS[0]      # a backend has to name one
        address = Address(url, {"token": token, "digits": self._digits}, ["websocket"], "socket.io", "the server")
        told = self._relay.told if self._relay.rooms else {}
        self._link = Link(address, told, self._opened, lambda: None, self._logger)
        self._relay.link = self._link
        self._places = asyncio.Semaphore(UNANSWERED)
        self._tasks: Set[asyncio.Future] = set()        # asyncio itself doesn't keep them
        self._named: Set[str] = set()   # other prefixes
        self._told_lost = 0
        self._pause = FIRST_PAUSE

    async def run(self) -> None:
        """Until it is cancelled. It raises an error where the server refuses."""
        tasks = []
        try:
            self._link.start()
            await self._link.first
            tasks = [self._link.task, *map(asyncio.ensure_future, (self._read(), self._relay.publish(self._redis)))]
            done, _ = await asyncio.wait(tasks, return_when=asyncio.FIRST_COMPLETED)
            done.pop().result()
        finally:
            for task in tasks[1:]:
                task.cancel()
            await self._link.stop()

    async def _opened(self) -> None:
        if not self._relay.rooms:
            await self._link.ask("socketsLeave", self._link.own(), self._digits)
        lost, self._told_lost = self.counts["lost"] - self._told_lost, self.counts["lost"]
        self._logger.warning("connected with the server%s", f": {lost} commands were lost" if lost else "")

    # What is published.

    async def _read(self) -> None:
        while True:
            try:
                async with self._redis.pubsub() as channels:
                    if self._python_channel is not None:
                        await channels.subscribe(self._python_channel)
                    await channels.psubscribe(PATTERN)
                    await self._hear(channels)
            except (RedisError, OSError) as error:
                self._logger.warning("no connection with Redis: %s", error)
            await asyncio.sleep(self._pause * random.uniform(0.5, 1.0))
            self._pause = min(2 * self._pause, LAST_PAUSE)

    async def _hear(self, channels: PubSub) -> None:
        """Until Redis doesn't answer."""
        asked = True        # to subscribe
        while True:
            message = await channels.get_message(timeout=SILENCE)
            if message is not None:
                asked = False
                await self._take(message)
            elif asked:
                raise ConnectionError("it doesn't answer")
            else:
                asked = True
                await channels.ping()

    async def _take(self, message: dict) -> None:
        kind, channel = message["type"], message["channel"]
        if kind == "psubscribe":
            self._logger.warning("connected with Redis")
            self._pause = FIRST_PAUSE
        elif kind in ("message", "pmessage"):
            self.counts["heard"] += 1
            try:
                await self._begin(channel, self._commands(kind, channel, message["data"]))
            except Malformed as error:
                self._skip(channel, str(error))

    async def _begin(self, channel: bytes, commands: List[Command]) -> None:
        for command in commands:
            await self._places.acquire()
            task = asyncio.ensure_future(self._do(channel, command))    # tasks begin in order
            self._tasks.add(task)
            task.add_done_callback(self._tasks.discard)

    def _commands(self, kind: str, name: bytes, payload: bytes) -> List[Command]:
        if kind == "message":
            return python_message(payload)
        channel = channel_of(name)
        if channel.prefix != self._prefix:
            self._skip_prefix(name, channel.prefix)
            return []
        if channel.kind == "-request":
            return request(channel.namespace, payload)
        if channel.kind == "" or channel.kind == "-relay" and channel.room in self._relay.rooms:
            return emission(channel.namespace, payload, self._uid)
        return []

    async def _do(self, channel: bytes, command: Command) -> None:
        try:
            if not self._link.connected:        # an answer that isn't waited for yet would be told
                raise CommandError(NO_CONNECTION)
            await self._link.ask(*command)
            self.counts["done"] += 1
        except CommandError as error:
            if error.why == NO_CONNECTION:
                self.counts["lost"] += 1
            else:
                self._skip(channel, error.why)
        finally:
            self._places.release()

    def _skip_prefix(self, name: bytes, prefix: str) -> None:
        """Each other prefix is named once, since it may be that of another service."""
        if prefix in self._named or len(self._named) == PREFIXES:
            self.counts["skipped"] += 1
        else:
            self._named.add(prefix)
            self._skip(name, f"the prefix isn't {self._prefix}")

    def _skip(self, channel: bytes, why: str) -> None:
        self.counts["skipped"] += 1
        name = channel.decode(errors="replace")
        self._logger.warning("skipped, from %r: %s", name if len(name) <= 100 else name[:100] + "..", why[:200])
