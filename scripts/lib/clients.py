"""Clients by python-socketio of either transport, which hear all that comes to them, and crowds of them."""
import asyncio
import contextlib
import re

import aiohttp
import engineio.payload
import socketio

from .processes import PATIENCE

engineio.payload.Payload.max_decode_packets = 100_000   # clients that poll take no more than 16 at once else


class Client:
    """A client of one transport, which hears all that comes to it. With an address of its own, such as 127.0.0.7."""

    def __init__(self, url, transport="websocket", namespace="/", address=None):
        self.url, self.transport, self.namespace, self.address = url, transport, namespace, address
        self.whole, self.sids, self.ended = [], [], 0

    async def open(self):
        local = (self.address, 0) if self.address else None
        self.session = aiohttp.ClientSession(connector=aiohttp.TCPConnector(local_addr=local, limit=0),
                                             cookie_jar=aiohttp.CookieJar(unsafe=True))       # with cookies of addresses
        self.client = socketio.AsyncClient(reconnection=False, handle_sigint=False, http_session=self.session)
        self.listen()
        await self.client.connect(self.url, namespaces=[self.namespace], transports=[self.transport], wait_timeout=PATIENCE)
        self.sids.append(self.client.get_sid(self.namespace))
        return self

    def listen(self):
        self.client.on("*", lambda *event: self.whole.append(event), namespace=self.namespace)
        self.client.on("disconnect", self._end, namespace=self.namespace)

    def _end(self):
        self.ended += 1

    @property
    def sid(self):
        return self.sids[-1]

    @property
    def got(self):
        return [without_offset(event) for event in self.whole]

    def named(self, name):
        return [event[1:] for event in self.got if event[0] == name]

    def cookies(self):
        return {cookie.key: cookie.value for cookie in self.session.cookie_jar}

    async def send(self, *event):
        await self.client.emit(event[0], event[1:], namespace=self.namespace)

    async def stay(self):
        """Comes back whenever its connection is lost, with a new session."""
        while True:
            await self.client.wait()
            while True:
                await self.close()
                await asyncio.sleep(0.1)
                with contextlib.suppress(socketio.exceptions.ConnectionError, aiohttp.ClientError, asyncio.TimeoutError):
                    await self.open()
                    break

    async def close(self):
        with contextlib.suppress(Exception):
            await asyncio.wait_for(self.client.disconnect(), 5)
        if self.client.eio.http:        # a poll that was under way has made another session
            await self.client.eio.http.close()
        await self.session.close()


def without_offset(event):
    """What is logged has its offset behind it."""
    return tuple(event[:-1] if re.fullmatch("[0-9a-f]{16}", str(event[-1])) else event)


class Crowd:
    """Clients of one scene."""

    def __init__(self):
        self.clients, self.tasks = [], []

    async def __aenter__(self):
        return self

    async def __aexit__(self, *_):
        for task in self.tasks:
            task.cancel()
        await asyncio.gather(*(client.close() for client in self.clients))

    async def more(self, *arguments, count=1, stay=False, **options):
        made = [await Client(*arguments, **options).open() for _ in range(count)]
        self.clients += made
        if stay:
            self.tasks += [asyncio.ensure_future(client.stay()) for client in made]
        return made

    async def leave(self, clients):
        for client in clients:
            self.clients.remove(client)
            await client.close()

    def sids(self):
        return {client.sid for client in self.clients}
