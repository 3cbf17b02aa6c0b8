"""A service of several nodes for scripts/try_nodes: all of its processes, and what publishes to it from elsewhere."""
import asyncio
import contextlib
import dataclasses
import json
import secrets

import aiohttp
import msgpack
import redis.asyncio
import socketio

from .backends import ALL, PATIENCE, Backend, Server
from .nodes import Bridge, Haproxy, Nginx, RedisServer

RELAYED = "lobby"       # the room that the bridges relay
HASH = "    hash $remote_addr consistent;\n"
NODES = 3


class Service:
    """Redis, nodes with a bridge each, and proxies before them."""

    def __init__(self, folder, program, library):
        self.folder, self.program, self.library = folder, program, library
        self.token, self.redis, self.others = secrets.token_hex(16), RedisServer(folder), []
        self.nodes = [self.node(f"node{number}") for number in range(1, NODES + 1)]
        self.token_file = self.nodes[0].folder / "token.txt"
        self.bridges = [self.bridge(f"bridge{number}", node.url) for number, node in enumerate(self.nodes, 1)]
        self.haproxy = Haproxy(folder, self.nodes)
        self.proxies = contextlib.ExitStack()

    def node(self, name, token=None):
        return Server(self.program, self.folder / name, self.library, token or self.token)

    def bridge(self, name, url, *options):
        options = options or ("--python", "socketio", "--relay", RELAYED)
        return Bridge(name, url, self.token_file, self.redis.url, *options)

    async def start(self):
        for process in (self.redis, *self.nodes, *self.bridges, self.haproxy):
            await asyncio.to_thread(process.start)
            print(f"{process.name} is ready", flush=True)
        self.nginx = self.proxies.enter_context(Nginx(self.nodes))
        self.nginx_without_hash = self.proxies.enter_context(Nginx(self.nodes, HASH))
        self.emitter = Emitter(redis.asyncio.from_url(self.redis.url))

    def ended(self):
        """Those that have, though they shouldn't."""
        return [it.name for it in (self.redis, *self.nodes, *self.bridges, self.haproxy) if not it.goes_on()]

    def end(self):
        self.proxies.close()
        for process in (self.haproxy, *self.bridges, *self.others, *self.nodes, self.redis):
            process.end()

    def app(self, language, nodes=None, digits=ALL):
        return Backend(nodes or self.nodes, language, digits)

    async def command(self, node, *command):
        """One, of a backend beside all others: `ok` or `error`, and what else is answered."""
        async with aiohttp.ClientSession() as session:
            client = socketio.AsyncClient(reconnection=False, handle_sigint=False, http_session=session)
            auth = {"token": self.token, "digits": "0"}
            await client.connect(node.url, auth=auth, namespaces=["/backend"], transports=["websocket"], wait_timeout=PATIENCE)
            try:
                return await client.call(command[0], command[1:], namespace="/backend", timeout=PATIENCE)
            finally:
                await client.disconnect()

    async def sids(self, node, room=None):
        return set((await self.command(node, "fetchSockets", {"to": [room] if room else []}))[1])

    async def put_all_out(self):
        for node in self.nodes:
            for namespace in ("/", "/admin"):
                await self.command(node, "disconnectSockets", {"in": namespace})

    async def join(self, clients, room):
        for node in self.nodes:
            await self.command(node, "socketsJoin", {"to": [client.sid for client in clients]}, room)


@dataclasses.dataclass
class Emitter:
    """Publishes as @socket.io/redis-emitter 5 does, by msgpack alone. Each call gives to how many bridges Redis sent it."""

    redis: redis.asyncio.Redis
    key: str = "socket.io"
    namespace: str = "/"
    rooms: tuple = ()
    excepted: tuple = ()
    flags: dict = dataclasses.field(default_factory=dict)

    def of(self, namespace):
        return dataclasses.replace(self, namespace=namespace)

    def to(self, *rooms):
        return dataclasses.replace(self, rooms=(*self.rooms, *rooms))

    def but(self, *rooms):
        return dataclasses.replace(self, excepted=(*self.excepted, *rooms))

    def volatile(self):
        return dataclasses.replace(self, flags={"volatile": True})

    async def publish(self, channel, payload):
        try:
            return await self.redis.publish(channel, payload)
        except (redis.exceptions.RedisError, OSError):
            return 0

    async def emit(self, *event):
        channel = f"{self.key}#{self.namespace}#" + (f"{self.rooms[0]}#" if len(self.rooms) == 1 else "")
        packet = {"type": 2, "data": list(event), "nsp": self.namespace}
        opts = {"rooms": self.rooms, "flags": self.flags, "except": self.excepted}
        return await self.publish(channel, msgpack.packb(["emitter", packet, opts]))

    async def request(self, kind, **more):
        message = {"type": kind, "opts": {"rooms": self.rooms, "except": self.excepted}, **more}
        return await self.publish(f"{self.key}-request#{self.namespace}#", json.dumps(message, separators=(",", ":")))

    async def sockets_join(self, *rooms):
        return await self.request(2, rooms=list(rooms))

    async def sockets_leave(self, *rooms):
        return await self.request(3, rooms=list(rooms))

    async def disconnect_sockets(self):
        return await self.request(4, close=False)
