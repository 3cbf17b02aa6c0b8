"""Plays the calls of both forms of a backend against a running server: calls.py URL TOKEN [WORD ..]

The server has the namespaces `/` and `/admin`, and no other backends. With words, only the checks run whose name has one of
them. The status is 1 where a check failed.
"""
import asyncio
import contextlib
import inspect
import logging
import os
import re
import sys
import threading
import time
import types
import urllib.parse

sys.path.insert(0, os.path.join(os.path.dirname(os.path.abspath(__file__)), ".."))

import aiohttp
import engineio.payload
import socketio
from socketio import packet

from daghzimo_backend import AsyncBackend, Backend, CommandError, Missing, core, nodes
from daghzimo_backend.commands import BACKEND

URL, TOKEN = sys.argv[1:3]
WORDS = sys.argv[3:]
TRANSPORTS = ("polling", "websocket")
FORMS = {"async": AsyncBackend, "threads": Backend}
LOW, HIGH = "01234567", "89abcdef"
failed = []
engineio.payload.Payload.max_decode_packets = 100_000   # python-socketio's polling clients take no more than 16 at once else


def check(name, got, wanted=True):
    good = got == wanted
    print(("ok      " if good else "FAILED  ") + name + ("" if good else f": {str(got)[:300]} instead of {str(wanted)[:300]}"),
          flush=True)
    if not good:
        failed.append(name)


async def until(condition, seconds=8.0):
    """What the condition gives, as soon as it is true, or at the end of the time."""
    end = time.monotonic() + seconds
    while not condition() and time.monotonic() < end:
        await asyncio.sleep(0.01)
    return condition()


async def error_of(work):
    try:
        await work
    except Exception as error:
        return error
    return None


class Handler(logging.Handler):
    def __init__(self):
        super().__init__()
        self.lines = []

    def emit(self, record):
        self.lines.append(record.getMessage())


async def leave(client):
    """Leaves as JavaScript's clients do. (`disconnect` alone may close a WebSocket before its last packets are sent.)"""
    for namespace in client.namespaces:
        await client._send_packet(packet.Packet(packet.DISCONNECT, namespace=namespace))
    await client.eio.queue.join()
    await end(client)


async def end(client):
    with contextlib.suppress(Exception):
        await client.disconnect()
        await asyncio.wait_for(client.eio.wait(), 2)    # a poll that is under way opens a session anew
    if client.eio.http:
        await client.eio.http.close()


def without_offset(event):
    """What is logged has its offset behind it."""
    return event[:-1] if re.fullmatch("[0-9a-f]{16}", str(event[-1])) else event


class World:
    """A backend of one form with its log, and clients of one transport."""

    def __init__(self, form, transport, url=URL, **options):
        self.form, self.transport = form, transport
        self.name = f"{form}, {transport}: "
        self.lines = Handler()
        logger = logging.Logger("checks")
        logger.addHandler(self.lines)
        self.sio = FORMS[form](url, token=TOKEN, logger=logger, **options)
        self.node = self.sio._nodes.all[0]
        self.log = []       # of connect, disconnect and what checks add: (event, sid, ..)
        self.clients = []
        for namespace in ("/", "/admin"):
            self.sio.on("connect", lambda sid, environ, auth: self.log.append(("connect", sid, environ, auth)), namespace)
            self.sio.on("disconnect", lambda sid, reason: self.log.append(("disconnect", sid, reason)), namespace)

    async def do(self, name, *arguments, **options):
        """A call of the backend, by name: awaited, or in a thread."""
        method = getattr(self.sio, name)
        if self.form == "threads":
            return await asyncio.to_thread(method, *arguments, **options)
        result = method(*arguments, **options)
        return await result if inspect.isawaitable(result) else result

    async def client(self, namespace="/", auth=None, transport=None, url=URL):
        client = socketio.AsyncClient(reconnection=False, handle_sigint=False)
        client.got = []
        client.gone = False
        client.on("*", lambda *event: client.got.append(without_offset(event)), namespace=namespace)
        client.on("question", lambda *values: values, namespace=namespace)
        client.on("disconnect", lambda *_: setattr(client, "gone", True), namespace=namespace)
        await client.connect(url, auth=auth, namespaces=[namespace], transports=[transport or self.transport], wait_timeout=5)
        client.id = client.get_sid(namespace)
        self.clients.append(client)
        return client

    async def told_client(self, *arguments, **options):
        """A client that the backend was told of."""
        client = await self.client(*arguments, **options)
        await until(lambda: self.of(client, "connect"))
        return client

    def of(self, client, event):
        return [one for one in self.log if one[0] == event and one[1] == client.id]

    async def __aenter__(self):
        await self.do("start")
        return self

    async def __aexit__(self, *_):
        for client in self.clients:
            await end(client)
        await self.do("stop")


def handler_for(world, direct, asynchronous):
    """The handler that suits the form."""
    return asynchronous if world.form == "async" else direct


# Checks that share a world: each gets one, and registers what handlers it needs.

async def connects(world):
    client = await world.told_client(auth={"name": "Ann"})
    _, _, environ, auth = world.of(client, "connect")[0]
    check(world.name + "connect has the auth", (environ, auth), ({"namespace": "/"}, {"name": "Ann"}))
    check(world.name + "get_environ", world.sio.get_environ(client.id), {"namespace": "/"})
    other = await world.told_client()
    check(world.name + "connect without auth", world.of(other, "connect")[0][3], None)
    await leave(client)
    await until(lambda: world.of(client, "disconnect"))
    check(world.name + "disconnect has the reason", world.of(client, "disconnect"),
          [("disconnect", client.id, "client disconnect")])
    check(world.name + "who is gone is forgotten", await until(lambda: not world.sio.rooms(client.id)))


RESULTS = {"nothing": (None, ()), "one": (5, (5,)), "several": ((1, "b", {"c": [2.5]}), (1, "b", {"c": [2.5]})),
           "a list": ([1, 2], ([1, 2],)), "binary": ((b"\x00\x01", {"d": b"x"}), (b"\x00\x01", {"d": b"x"})),
           "zero": (0, (0,)), "false": (False, (False,)), "no values": ((), ())}


async def acknowledges(world):
    world.sio.on("result", lambda sid, name: RESULTS[name][0])
    world.sio.on("broken", lambda sid: 1 / 0)
    client = await world.told_client()
    for name, (_, wanted) in RESULTS.items():
        got = []
        await client.emit("result", name, callback=lambda *values: got.append(values))
        await until(lambda: got)
        check(world.name + f"a handler that returns {name}", got, [wanted])
    got = []
    client.callbacks = {"/": {0: lambda *values: got.append(values)}}     # other clients count from 0
    await client._send_packet(packet.Packet(packet.EVENT, data=["result", "one"], id=0))
    check(world.name + "an acknowledgement under 0", await until(lambda: got), [(5,)])
    client.callbacks.clear()
    got = []
    for event in ("broken", "unheard of"):
        await client.emit(event, callback=lambda *values: got.append(values))
    await client.call("result", "one", timeout=5)
    check(world.name + "a handler that fails, or isn't there, acknowledges nothing", got, [])
    check(world.name + "a failure is logged", "a handler failed" in world.lines.lines)


DATA = {
    # the data, and the arguments that they are
    "none": (None, ()),
    "a text": ("ü€😀", ("ü€😀",)),
    "a dict": ({"a": [1, None, True]}, ({"a": [1, None, True]},)),
    "a tuple": ((1, "b"), (1, "b")),
    "bytes": (b"\xff\x00", (b"\xff\x00",)),
    "nested bytes": (({"x": [b"1", b"2"]}, b""), ({"x": [b"1", b"2"]}, b"")),
    "a number": (0, (0,))}


async def receives_and_emits(world):
    world.sio.on("take", lambda sid, *values: world.log.append(("take", sid, values)))
    client = await world.told_client()
    for name, (data, values) in DATA.items():
        await client.emit("take", data)
        await until(lambda: world.of(client, "take"))
        check(world.name + f"an event with {name}", world.of(client, "take"), [("take", client.id, values)])
        world.log[:] = [one for one in world.log if one[0] != "take"]
        await world.do("emit", "given", data, to=client.id)
        await until(lambda: client.got)
        check(world.name + f"emit of {name}", client.got, [("given", *values)])
        client.got.clear()
    world.sio.on("5", lambda sid, value: value)
    check(world.name + "an event whose name is a number", await client.call(5, "five", timeout=5), "five")
    await world.do("emit", 6.5, "six", to=client.id)
    check(world.name + "emit of one", await until(lambda: client.got), [(6.5, "six")])


async def addresses(world):
    ann, ben, cat = [await world.told_client() for _ in range(3)]
    admin = await world.told_client("/admin")
    everybody = {"ann": ann, "ben": ben, "cat": cat, "admin": admin}
    await world.do("enter_room", ann.id, "red")
    await world.do("enter_room", ben.id, "blue")
    await world.do("enter_room", admin.id, "red", namespace="/admin")
    cases = {
        # the options of emit, and who gets it
        "to all": ({}, "ann ben cat"),
        "to a sid": ({"to": ann.id}, "ann"),
        "room": ({"room": "red"}, "ann"),
        "a list of rooms": ({"to": ["red", "blue"]}, "ann ben"),
        "skip_sid": ({"skip_sid": ann.id}, "ben cat"),
        "a list for skip_sid": ({"skip_sid": [ann.id, cat.id]}, "ben"),
        "a room without one": ({"to": "red", "skip_sid": ann.id}, ""),
        "namespace": ({"namespace": "/admin"}, "admin"),
        "a room of a namespace": ({"to": "red", "namespace": "/admin"}, "admin"),
        "nobody": ({"to": "green"}, ""),
        "volatile": ({"to": "blue", "volatile": True}, "ben"),
        "ignore_queue": ({"to": "red", "ignore_queue": True}, "ann")}
    for name, (options, wanted) in cases.items():
        await world.do("emit", "news", name, **options)
    await world.do("send", "a message", to="red")
    for namespace in ("/", "/admin"):   # when this is there, all is
        await world.do("emit", "end", namespace=namespace)
    await until(lambda: all(("end",) in one.got for one in everybody.values()))
    for name, (_, wanted) in cases.items():
        check(world.name + f"emit {name}", " ".join(one for one in everybody if ("news", name) in everybody[one].got), wanted)
    check(world.name + "send", [one for one in everybody if ("message", "a message") in everybody[one].got], ["ann"])


async def rooms(world):
    client = await world.told_client()
    await world.do("enter_room", client.id, "red")
    await world.do("enter_room", client.id, "blue")
    check(world.name + "rooms", sorted(world.sio.rooms(client.id)), sorted([client.id, "red", "blue"]))
    check(world.name + "fetch_sockets of a room", await world.do("fetch_sockets", "red"), [client.id])
    await world.do("leave_room", client.id, "red")
    await world.do("close_room", "blue")
    check(world.name + "leave_room and close_room", world.sio.rooms(client.id), [client.id])
    check(world.name + "and the server left them too", await world.do("fetch_sockets", ["red", "blue"]), [])
    for call, why in (("leave_room", "own room"), ("enter_room", "bad room")):
        room = client.id if call == "leave_room" else "x" * 65
        error = await error_of(world.do(call, client.id, room))
        check(world.name + f"{call} raises {why}", (type(error), str(error)), (CommandError, why))
    error = await error_of(world.do("enter_room", client.id, object()))
    check(world.name + "enter_room of what can't be JSON raises", type(error), CommandError)
    for number in range(255):
        await world.do("enter_room", client.id, str(number))
    error = await error_of(world.do("enter_room", client.id, "one more"))
    check(world.name + "too many rooms", str(error), "too many rooms")
    check(world.name + "what was refused isn't noted", len(world.sio.rooms(client.id)), 256)
    check(world.name + "rooms of nobody", world.sio.rooms("nobody"), [])


async def unawaited_joins(world):
    """In the asyncio form of older versions, `enter_room` isn't awaited."""
    if world.form == "async":
        client = await world.told_client()
        world.sio.enter_room(client.id, "early")
        await world.sio.emit("joined", to="early")
        check(world.name + "an enter_room that isn't awaited comes before the next emit", await until(lambda: client.got),
              [("joined",)])
        world.sio.leave_room(client.id, client.id)
        check(world.name + "the error of a call that isn't awaited is logged",
              await until(lambda: "socketsLeave: own room" in world.lines.lines))
        check(world.name + "and what it did is undone", sorted(world.sio.rooms(client.id)), sorted([client.id, "early"]))


async def questions(world):
    ann, ben = await world.told_client(), await world.told_client()
    check(world.name + "call", await world.do("call", "question", (1, b"2"), to=ann.id, timeout=5), (1, b"2"))
    check(world.name + "call with one value", await world.do("call", "question", "a", sid=ann.id), "a")
    check(world.name + "call with none", await world.do("call", "question", to=ann.id), None)
    error = await error_of(world.do("call", "question", to="nobody", timeout=0.2))
    check(world.name + "call of nobody", type(error), socketio.exceptions.TimeoutError)
    check(world.name + "it is forgotten", world.node.core.room_questions, {})
    check(world.name + "call of all", type(await error_of(world.do("call", "question"))), ValueError)
    got = []
    await world.do("emit", "question", 7, to=ann.id, callback=lambda *values: got.append(values))
    check(world.name + "a callback", await until(lambda: got), [(7,)])
    async def later(*values):
        got.append(values)
    await world.do("enter_room", ann.id, "asked")
    await world.do("enter_room", ben.id, "asked")
    await world.do("emit", "question", 8, room="asked",
                   callback=handler_for(world, lambda *values: got.append(values), later))
    check(world.name + "a callback for a room, once for each", await until(lambda: got[1:] == [(8,), (8,)]))
    check(world.name + "no question to a socket is left",
          [len(one.questions) for one in world.node.core.sockets.values() if one.questions], [])
    async def silent():
        await asyncio.sleep(30)
    ann.on("silent", silent)
    await world.do("emit", "silent", to=ann.id, callback=got.append)
    check(world.name + "a question is kept", len(world.node.core.socket(ann.id, "/").questions), 1)
    await leave(ann)
    check(world.name + "until its socket is gone", await until(lambda: ("/", ann.id) not in world.node.core.sockets))


COMMANDS = {
    "a plain emit": (("x", 1), {}, ("emit", {"in": "/"}, "x", 1)),
    "one with all": (("x", (1, 2)), {"to": "a", "skip_sid": "b", "namespace": "/admin", "volatile": True},
                     ("emit", {"in": "/admin", "to": ["a"], "except": ["b"], "volatile": True}, "x", 1, 2))}


async def commands(world):
    """What is sent, for what no client sees."""
    sent, link = [], world.node.link
    send = link.send

    async def record(*command):
        sent.append(command)
    link.send = record
    for name, (arguments, options, wanted) in COMMANDS.items():
        sent.clear()
        await world.do("emit", *arguments, **options)
        check(world.name + f"the command of {name}", sent, [wanted])
    link.send = send


async def calls_in_handlers(world):
    sio = world.sio

    async def asynchronous(sid, value):
        return await sio.call("question", value + 1, to=sid, timeout=5)
    sio.on("ask me", handler_for(world, lambda sid, value: sio.call("question", value + 1, to=sid, timeout=5), asynchronous))
    client = await world.told_client()
    check(world.name + "a call within a handler", await client.call("ask me", 1, timeout=5), 2)


async def load(world):
    world.sio.on("double", lambda sid, number: 2 * number)
    client = await world.told_client()
    numbers = range(1000)
    answers = await asyncio.gather(*(client.call("double", one, timeout=30) for one in numbers))
    check(world.name + "1000 acknowledgements to a client at once", answers, [2 * one for one in numbers])
    numbers = range(1000 if world.form == "async" else 200)
    answers = await asyncio.gather(*(world.do("call", "question", one, to=client.id, timeout=30) for one in numbers))
    check(world.name + f"{len(numbers)} acknowledgements to the backend at once", answers, list(numbers))


async def sessions(world):
    sio = world.sio
    client = await world.told_client()
    await world.do("save_session", client.id, {"name": "Ann"})
    check(world.name + "get_session", await world.do("get_session", client.id), {"name": "Ann"})
    if world.form == "async":
        async with sio.session(client.id) as session:
            session["age"] = 5
    else:
        with sio.session(client.id) as session:
            session["age"] = 5
    check(world.name + "session", await world.do("get_session", client.id), {"name": "Ann", "age": 5})
    check(world.name + "no session of nobody", type(await error_of(world.do("get_session", "nobody"))), KeyError)
    check(world.name + "none in another namespace",
          type(await error_of(world.do("get_session", client.id, namespace="/admin"))), KeyError)


async def disconnects(world):
    client, other = await world.told_client(), await world.told_client()
    await world.do("disconnect", client.id)
    check(world.name + "disconnect, the client", await until(lambda: client.gone))
    check(world.name + "disconnect, the handler", await until(lambda: world.of(client, "disconnect")),
          [("disconnect", client.id, "server disconnect")])
    check(world.name + "disconnect, the others stay", (other.gone, world.of(other, "disconnect")), (False, []))


async def catches_all(world):
    world.sio.on("*", lambda name, sid, *values: world.log.append(("caught", sid, name, values)))
    client = await world.told_client()
    await client.emit("any name", (1, 2))
    check(world.name + "the catch-all event", await until(lambda: world.of(client, "caught")),
          [("caught", client.id, "any name", (1, 2))])
    del world.sio.handlers["/"]["*"]


async def refuses_locally(world):
    cases = {
        "a reserved name": ("reserved name", "disconnect", {}),
        "no name": ("malformed command", None, {}),
        "a name that JSON doesn't have": ("malformed command", float("nan"), {}),
        "a room that is no text": ("bad room", "x", {"to": 5}),
        "a long room": ("bad room", "x", {"room": "€" * 22}),
        "an excluded room": ("bad room", "x", {"skip_sid": "x" * 65}),
        "33 attachments": ("too many attachments", "x", {"data": [b"1"] * 33}),
        "a large text": ("too large", "x", {"data": "x" * 1_000_000}),
        "a large attachment": ("too large", "x", {"data": b"x" * 1_000_000})}
    for name, (why, event, options) in cases.items():
        error = await error_of(world.do("emit", event, **options))
        check(world.name + f"emit of {name}", (type(error), str(error)), (CommandError, why))
    client = await world.told_client()
    await world.do("emit", "large", ("x" * 900_000,), to=client.id)
    await world.do("emit", "many", [b"1"] * 32, to=client.id)
    check(world.name + "what is just small enough arrives",
          await until(lambda: [one[0] for one in client.got] == ["large", "many"]))
    check(world.name + "what can't be JSON raises", type(await error_of(world.do("emit", "x", {1, 2}))), TypeError)
    error = await error_of(world.do("call", "x", to="nobody", namespace="/nowhere"))
    check(world.name + "call in an unknown namespace", (type(error), str(error)), (CommandError, "unknown namespace"))
    await world.do("emit", "x", namespace="/nowhere")
    check(world.name + "emit in an unknown namespace is logged",
          await until(lambda: "emit: unknown namespace" in world.lines.lines))


async def lacks(world):
    for name in ("attach", "handle_request", "transport", "manager", "instrument"):
        async def use():
            getattr(world.sio, name)
        error = await error_of(use())
        check(world.name + f"{name} says that it isn't there", (type(error), str(error).startswith(name + ":")),
              (Missing, True))
    async def anywhere():
        world.sio.on("x", print, namespace="*")
    check(world.name + "handlers for all namespaces", type(await error_of(anywhere())), Missing)


async def tasks(world):
    got = []

    async def asynchronous(value):
        await world.sio.sleep(0.01)
        got.append(value)

    def direct(value):
        world.sio.sleep(0.01)
        got.append(value)
    world.sio.start_background_task(handler_for(world, direct, asynchronous), 5)
    check(world.name + "start_background_task and sleep", await until(lambda: got), [5])


SHARED = [connects, acknowledges, receives_and_emits, addresses, rooms, unawaited_joins, questions, commands, calls_in_handlers, load,
          sessions, disconnects, catches_all, refuses_locally, lacks, tasks]


# Checks with backends of their own: each gets the form and the transport.

async def decorators(form, transport):
    world = World(form, transport)

    @world.sio.event
    def connect(sid, environ):
        world.log.append(("connect", sid, environ))

    @world.sio.event
    def disconnect(sid):
        world.log.append(("bye", sid))

    @world.sio.event(namespace="/admin")
    def hello(sid, name):
        return "hello " + name

    @world.sio.on("a name with spaces", namespace="/admin")
    def spaces(sid):
        return "yes"
    async with world:
        client, admin = await world.told_client(), await world.told_client("/admin")
        check(world.name + "connect with two arguments", world.of(client, "connect"),
              [("connect", client.id, {"namespace": "/"})])
        check(world.name + "@sio.event(namespace=)", await admin.call("hello", "Ben", "/admin", timeout=5), "hello Ben")
        check(world.name + "@sio.on(name, namespace=)", await admin.call("a name with spaces", namespace="/admin", timeout=5),
              "yes")
        await leave(client)
        check(world.name + "disconnect with one argument", await until(lambda: world.of(client, "bye")), [("bye", client.id)])


def asynchronous_namespace(world):
    """Its `emit` and so on are methods of python-socketio's class."""
    class Admin(socketio.AsyncNamespace):
        async def on_connect(self, sid, environ, auth):
            if auth == {"no": "entry"}:
                raise socketio.exceptions.ConnectionRefusedError("not you")
            self.enter_room(sid, "all of admin")
            await self.save_session(sid, {"auth": auth})
            world.log.append(("connect", sid))

        async def on_disconnect(self, sid):
            world.log.append(("disconnect", sid, (await self.get_session(sid))["auth"], sorted(self.rooms(sid))))

        async def on_play(self, sid, what):
            await self.emit("played", what, room="all of admin", skip_sid=None)
            await self.send("sent", to=sid)
            async with self.session(sid) as session:
                session["played"] = what
            return what, await self.call("question", 3, to=sid), (await self.get_session(sid))["played"]

        async def on_close(self, sid):
            await self.close_room("all of admin")
            return self.rooms(sid) == [sid]

        async def on_leave(self, sid):
            await self.disconnect(sid)
    return Admin("/admin")


def direct_namespace(world):
    """The same for threads."""
    class Admin(socketio.Namespace):
        def on_connect(self, sid, environ, auth):
            if auth == {"no": "entry"}:
                raise socketio.exceptions.ConnectionRefusedError("not you")
            self.enter_room(sid, "all of admin")
            self.save_session(sid, {"auth": auth})
            world.log.append(("connect", sid))

        def on_disconnect(self, sid):
            world.log.append(("disconnect", sid, self.get_session(sid)["auth"], sorted(self.rooms(sid))))

        def on_play(self, sid, what):
            self.emit("played", what, room="all of admin", skip_sid=None)
            self.send("sent", to=sid)
            with self.session(sid) as session:
                session["played"] = what
            return what, self.call("question", 3, to=sid), self.get_session(sid)["played"]

        def on_close(self, sid):
            self.close_room("all of admin")
            return self.rooms(sid) == [sid]

        def on_leave(self, sid):
            self.disconnect(sid)
    return Admin("/admin")


def namespace_of(world):
    return handler_for(world, direct_namespace, asynchronous_namespace)(world)


async def namespaces(form, transport):
    world = World(form, transport)
    del world.sio.handlers["/admin"]
    world.sio.register_namespace(namespace_of(world))
    async with world:
        client = await world.told_client("/admin", auth={"a": 1})
        check(world.name + "a namespace's event", await client.call("play", "chess", "/admin", timeout=5),
              ("chess", 3, "chess"))
        check(world.name + "its emit and send", client.got, [("played", "chess"), ("message", "sent")])
        check(world.name + "its close_room", await client.call("close", namespace="/admin", timeout=5), True)
        await client.emit("leave", namespace="/admin")
        await until(lambda: world.of(client, "disconnect"))
        check(world.name + "its disconnect, with session and rooms", world.of(client, "disconnect"),
              [("disconnect", client.id, {"a": 1}, [client.id])])
        refused = await world.client("/admin", auth={"no": "entry"})
        check(world.name + "its connect refuses", await until(lambda: refused.gone and refused.got),
              [("refused", {"message": "not you"})])
    other = World("threads" if form == "async" else "async", transport)
    async def register():
        world.sio.register_namespace(namespace_of(other))
    check(world.name + "a namespace of the other form isn't taken", type(await error_of(register())), ValueError)


async def refuses(form, transport):
    world = World(form, transport)
    refusal = socketio.exceptions.ConnectionRefusedError

    def decide(sid, auth):
        world.log.append(("connect", sid))
        world.node.core.sockets["/", sid].session["x"] = 1
        if auth == {"how": "false"}:
            return False
        if auth == {"how": "raise"}:
            raise refusal("go away", {"code": 5})
        if auth == {"how": "fail"}:
            raise RuntimeError("a mistake")

    # An event that came behind the refusal would close the client's connection.
    async def decide_later(sid, environ, auth):
        await asyncio.sleep(0.3)
        return decide(sid, auth)

    def decide_later_in_thread(sid, environ, auth):
        time.sleep(0.3)
        return decide(sid, auth)
    world.sio.on("connect", handler_for(world, decide_later_in_thread, decide_later))
    world.sio.on("take", lambda sid: world.log.append(("take", sid)))
    async with world:
        words = {"false": {"message": "Connection rejected by server"}, "raise": {"message": "go away", "data": {"code": 5}},
                 "fail": {"message": "Connection rejected by server"}}
        for how, wanted in words.items():
            client = await world.client(auth={"how": how})
            with contextlib.suppress(socketio.exceptions.SocketIOError):
                await client.emit("take")
            await until(lambda: client.gone)
            check(world.name + f"refused by {how}: the event", client.got, [("refused", wanted)])
            check(world.name + f"refused by {how}: it's put out", client.gone)
            check(world.name + f"refused by {how}: no events, no disconnect",
                  [one for one in world.log if one[1] == client.id], [("connect", client.id)])
            check(world.name + f"refused by {how}: forgotten",
                  await until(lambda: ("/", client.id) not in world.node.core.sockets))
        client = await world.told_client()
        await client.emit("take")
        check(world.name + "others are let in", await until(lambda: world.of(client, "take")), [("take", client.id)])


async def slow_connect(form, transport):
    """Events of a client wait until its `connect` has ended, those of others don't."""
    world = World(form, transport)
    sio, release = world.sio, asyncio.Event()

    async def wait(sid, environ, auth):
        world.log.append(("begins", sid))
        while auth and not release.is_set():
            await asyncio.sleep(0.01)
        world.log.append(("connect", sid))

    def wait_in_thread(sid, environ, auth):
        world.log.append(("begins", sid))
        while auth and not release.is_set():
            time.sleep(0.01)
        world.log.append(("connect", sid))
    sio.on("connect", handler_for(world, wait_in_thread, wait))
    sio.on("take", lambda sid: world.log.append(("take", sid)))
    async with world:
        client, other = await world.client(auth={"slow": True}), await world.client()
        await client.emit("take")
        await leave(client)
        await other.emit("take")
        check(world.name + "a slow connect doesn't hold others up", await until(lambda: world.of(other, "take")),
              [("take", other.id)])
        release.set()
        await until(lambda: world.of(client, "disconnect"))
        check(world.name + "connect, event, disconnect in order", [one[0] for one in world.log if one[1] == client.id],
              ["begins", "connect", "take", "disconnect"])


async def refuses_away(form, transport):
    """Who is refused while the connection is away is put out when it's back."""
    async with Proxy() as proxy:
        world, release = World(form, transport, url=proxy.url), threading.Event()

        async def wait(sid, environ, auth):
            world.log.append(("connect", sid))
            while not release.is_set():
                await asyncio.sleep(0.01)
            return False

        def wait_in_thread(sid, environ, auth):
            world.log.append(("connect", sid))
            release.wait(10)
            return False
        world.sio.on("connect", handler_for(world, wait_in_thread, wait))
        async with world:
            client = await world.told_client()
            proxy.cut()
            await until(lambda: not world.node.link.connected)
            release.set()
            await until(lambda: world.node.core.refused("/"))
            proxy.whole = True
            check(world.name + "refused while away: put out afterwards", await until(lambda: client.gone, 15))
            check(world.name + "refused while away: told once, and never to go",
                  [one for one in world.log if one[1] == client.id], [("connect", client.id)])


async def many_in_order(form, transport):
    count = 3000
    world = World(form, transport, async_handlers=form == "async")
    sio = world.sio
    sio.on("count", lambda sid, number: world.log.append(("count", sid, number)))
    async with world:
        client = await world.told_client()
        for number in range(count):
            await client.emit("count", number)
            if number % 100 == 0:
                await asyncio.sleep(0)
        await until(lambda: len(world.of(client, "count")) == count, 30)
        check(world.name + f"{count} events in order", [one[2] for one in world.of(client, "count")], list(range(count)))

        def many():
            for number in range(count):
                sio.emit("number", number, to=client.id)
        if form == "threads":
            await asyncio.to_thread(many)
        else:
            for number in range(count):
                await sio.emit("number", number, to=client.id)
                if number % 100 == 0:
                    await asyncio.sleep(0.01)
        await until(lambda: len(client.got) == count, 30)
        check(world.name + f"{count} emitted in order", client.got, [("number", number) for number in range(count)])


async def digits(form, transport):
    low, high = World(form, transport, digits=LOW), World(form, transport, digits=HIGH)
    low.sio.on("who", lambda sid: "low")
    high.sio.on("who", lambda sid: "high")
    early = await low.client()      # before the backends
    async with low, high:
        clients = [early] + [await low.client(transport="websocket") for _ in range(30)]
        answers = [await client.call("who", timeout=5) for client in clients]
        check("%stwo backends share the work" % low.name, answers,
              ["low" if one.id[0] in LOW else "high" for one in clients])
        told = [(len(low.of(one, "connect")), len(high.of(one, "connect"))) for one in clients]
        check("%seach is told of its own" % low.name, told, [(1, 0) if one.id[0] in LOW else (0, 1) for one in clients])
        sids = sorted(one.id for one in clients)
        check("%sboth see all" % low.name, [await low.do("fetch_sockets"), await high.do("fetch_sockets")], [sids, sids])
        await high.do("emit", "news", to=sids)
        check("%sand speak to all" % low.name, await until(lambda: all(("news",) in one.got for one in clients)))
        mine = next(one for one in clients if one.id[0] in LOW)
        check("%sa question to one's own" % low.name, await low.do("call", "question", 4, to=mine.id, timeout=5), 4)
        other = next(one for one in clients if one.id[0] in HIGH)
        check("%sa question to another's" % low.name, await low.do("call", "question", 5, to=other.id, timeout=5), 5)
        got = []
        await low.do("emit", "question", 6, to=sids, callback=lambda *values: got.append(values))
        check("%sa callback for all" % low.name, await until(lambda: len(got) == len(clients) and got), [(6,)] * len(clients))
        late = await low.client()
        await until(lambda: low.of(late, "connect") + high.of(late, "connect"))
        check("%swho hears others' answers is told of its own still" % low.name, [one for one in low.log if one[1][0] in HIGH], [])


class Proxy:
    """Forwards connections to the server until it's cut."""

    def __init__(self):
        parts = urllib.parse.urlparse(URL)
        self.target = (parts.hostname, parts.port)
        self.writers, self.whole, self.held = set(), True, False

    async def __aenter__(self):
        self.server = await asyncio.start_server(self.serve, "127.0.0.1", 0)
        self.url = "http://127.0.0.1:%d" % self.server.sockets[0].getsockname()[1]
        return self

    async def __aexit__(self, *_):
        self.cut()
        self.server.close()

    def cut(self):
        self.whole = False
        for writer in self.writers:
            writer.transport.abort()
        self.writers.clear()

    async def serve(self, reader, writer):
        if not self.whole:
            return writer.transport.abort()
        there, out = await asyncio.open_connection(*self.target)
        self.writers |= {writer, out}
        await asyncio.gather(self.pump(reader, out), self.pump(there, writer))

    async def pump(self, reader, writer):
        with contextlib.suppress(Exception):
            while data := await reader.read(65536):
                while self.held:
                    await asyncio.sleep(0.01)
                writer.write(data)
                await writer.drain()
        writer.transport.abort()


async def comes_back(form, transport):
    async with Proxy() as proxy:
        world = World(form, transport, url=proxy.url)
        world.sio.on("take", lambda sid, number: world.log.append(("take", sid, number)))
        world.sio.on("late", lambda sid: "answered")
        async with world:
            stays, goes = await world.told_client(auth={"a": 1}), await world.told_client()
            await world.do("save_session", stays.id, {"kept": True})
            await world.do("enter_room", stays.id, "red")
            proxy.held = True
            waiting = asyncio.ensure_future(error_of(world.do("enter_room", stays.id, "green")))
            await asyncio.sleep(0.1)
            proxy.cut()
            proxy.held = False
            error = await asyncio.wait_for(waiting, 5)
            check(world.name + "lost: a call that waits raises", (type(error), str(error)), (CommandError, "no connection"))
            await until(lambda: not world.node.link.connected)
            error = await error_of(world.do("enter_room", stays.id, "blue"))
            check(world.name + "away: a call raises", (type(error), str(error)), (CommandError, "no connection"))
            error = await error_of(world.do("call", "question", to=stays.id, timeout=5))
            check(world.name + "away: a question raises", (type(error), str(error)), (CommandError, "no connection"))
            error = await error_of(world.do("disconnect", stays.id))
            check(world.name + "away: disconnect raises", (type(error), str(error)), (CommandError, "no connection"))
            await world.do("emit", "lost", to=stays.id)
            check(world.name + "away: an emit is lost, and that is logged",
                  any("is lost" in line for line in world.lines.lines))
            await leave(goes)
            comes = await world.client(auth={"b": 2})
            passes = await world.client()
            await leave(passes)
            await back(world, proxy, stays, goes, comes, passes)


async def back(world, proxy, stays, goes, comes, passes):
    numbers, done = 0, asyncio.Event()

    async def chatter():    # events that come while the backend asks who is there
        nonlocal numbers
        while not done.is_set():
            await comes.emit("take", numbers)
            numbers += 1
            await asyncio.sleep(0.001)
    task = asyncio.ensure_future(chatter())
    proxy.whole = True
    check(world.name + "back: who came is told, late", await until(lambda: world.of(comes, "connect"), 15),
          [("connect", comes.id, {"namespace": "/", "late": True}, None)])
    check(world.name + "back: who went is told", await until(lambda: world.of(goes, "disconnect")),
          [("disconnect", goes.id, "transport close")])
    await until(lambda: world.of(comes, "take"))
    done.set()
    await task
    check(world.name + "back: the first event comes after connect", [one[0] for one in world.log if one[1] == comes.id][:2],
          ["connect", "take"])
    check(world.name + "back: it answers", await comes.call("late", timeout=5), "answered")
    check(world.name + "back: the events are in order",
          [one[2] for one in world.of(comes, "take")] == sorted(one[2] for one in world.of(comes, "take")))
    check(world.name + "back: who stayed isn't told", len(world.of(stays, "connect")), 1)
    check(world.name + "back: and has its session", await world.do("get_session", stays.id), {"kept": True})
    check(world.name + "back: and its rooms", sorted(world.sio.rooms(stays.id)), sorted([stays.id, "red"]))
    check(world.name + "back: who passed isn't told", [one for one in world.log if one[1] == passes.id], [])
    check(world.name + "back: nothing is told twice", [len(world.of(one, "connect")) for one in (stays, goes, comes)],
          [1, 1, 1])
    await stays.emit("take", 5)
    check(world.name + "back: who couldn't be disconnected is heard", await until(lambda: world.of(stays, "take")),
          [("take", stays.id, 5)])
    await world.do("emit", "again", to="red")
    check(world.name + "back: it emits, and what was lost stays lost", await until(lambda: stays.got), [("again",)])
    await leave(comes)
    check(world.name + "back: a later disconnect", await until(lambda: world.of(comes, "disconnect")),
          [("disconnect", comes.id, "client disconnect")])


async def stops(form, transport):
    world = World(form, transport)
    async with world:
        client = await world.told_client()
        for number in range(100):
            await world.do("emit", "last", (number, "x" * 50_000), to=client.id)
        await world.do("stop")
        await until(lambda: len(client.got) == 100)
        check(world.name + "what was emitted before stop is done", [one[1] for one in client.got], list(range(100)))
        error = await error_of(world.do("enter_room", client.id, "x"))
        check(world.name + "and no more after it", str(error), "no connection")
        await world.do("start")
        check(world.name + "it can start again", await world.do("call", "question", 1, to=client.id, timeout=5), 1)
        check(world.name + "who was there all the time isn't told again", len(world.of(client, "connect")), 1)


async def runs(form, transport):
    world = World(form, transport)
    running = asyncio.ensure_future(asyncio.to_thread(world.sio.run) if form == "threads" else world.sio.run())
    await until(lambda: world.node.link.connected)
    client = await world.told_client()
    check(world.name + "run serves", len(world.of(client, "connect")), 1)
    await world.do("stop")
    check(world.name + "and ends by stop", await until(running.done))
    await end(client)


OWN = [stops, runs, decorators, namespaces, refuses, slow_connect, refuses_away, many_in_order, digits, comes_back]


# Checks of the server itself, and of sessions that come back.

ERRORS = [
    # command, arguments, acknowledgement (SID is a client's)
    ("emit", [], ("error", "malformed command")),
    ("emit", ["text", "x"], ("error", "malformed command")),
    ("emit", [{}], ("error", "malformed command")),
    ("emit", [{}, 5], "ok"),
    ("emit", [{"to": "text"}, "x"], ("error", "malformed command")),
    ("emit", [{"in": 5}, "x"], ("error", "malformed command")),
    ("emit", [{"volatile": 5}, "x"], ("error", "malformed command")),
    ("emit", [{"ask": 1, "answer": 1, "to": ["SID"]}, "x"], ("error", "malformed command")),
    ("emit", [{"ask": 10 ** 15}, "x"], ("error", "bad id")),
    ("emit", [{"ask": -1}, "x"], ("error", "bad id")),
    ("emit", [{"answer": 10 ** 15, "to": ["SID"]}], ("error", "bad id")),
    ("emit", [{"ask": 10 ** 15 - 1, "to": ["nobody"]}, "x"], "ok"),
    ("emit", [{"in": "/nowhere"}, "x"], ("error", "unknown namespace")),
    ("emit", [{"to": ["x" * 65]}, "x"], ("error", "bad room")),
    ("emit", [{"except": ["x" * 65]}, "x"], ("error", "bad room")),
    ("emit", [{"to": ["x" * 64]}, "x"], "ok"),
    *(("emit", [{}, name], ("error", "reserved name"))
      for name in ("connect", "connect_error", "disconnect", "disconnecting", "newListener", "removeListener")),
    ("emit", [{"to": ["SID"]}, "fine", 1], "ok"),
    ("socketsJoin", [{"to": ["SID"]}], ("error", "malformed command")),
    ("socketsJoin", [{"to": ["SID"]}, "x" * 65], ("error", "bad room")),
    ("socketsJoin", [{"in": "/nowhere"}, "x"], ("error", "unknown namespace")),
    ("socketsJoin", [{"to": ["SID"]}, "red"], "ok"),
    ("fetchSockets", [{"to": ["red"]}], ("ok", ["SID"])),
    ("fetchSockets", [{"to": ["red"], "except": ["SID"]}], ("ok", [])),
    ("fetchSockets", [{"in": "/admin"}], ("ok", [])),
    ("fetchSockets", [{"in": "/nowhere"}], ("error", "unknown namespace")),
    ("fetchSockets", [], ("error", "malformed command")),
    ("socketsLeave", [{"to": ["SID"]}, "SID"], ("error", "own room")),
    ("socketsLeave", [{"to": ["SID"]}, "red"], "ok"),
    ("socketsLeave", [{"to": ["SID"]}, "x" * 65], ("error", "bad room")),
    ("socketsLeave", [{"in": "/nowhere"}, "x"], ("error", "unknown namespace")),
    ("disconnectSockets", [], ("error", "malformed command")),
    ("disconnectSockets", [{"in": "/nowhere"}], ("error", "unknown namespace")),
    ("disconnectSockets", [{"to": ["x" * 65]}], ("error", "bad room")),
    ("unheard of", [{}], ("error", "unknown command")),
    ("disconnectSockets", [{"to": ["SID"]}], "ok"),
    ("fetchSockets", [{"to": ["SID"]}], ("ok", [])),
]


def with_sid(value, sid):
    if isinstance(value, (list, tuple)):
        return type(value)(with_sid(one, sid) for one in value)
    if isinstance(value, dict):
        return {name: with_sid(one, sid) for name, one in value.items()}
    return sid if value == "SID" else value


async def error_names(world, transport):
    client = await world.client()
    raw = socketio.AsyncClient(reconnection=False, handle_sigint=False)
    await raw.connect(URL, auth={"token": TOKEN, "digits": "0"}, namespaces=[BACKEND], transports=[transport], wait_timeout=5)
    for command, arguments, wanted in ERRORS:
        arguments, wanted = with_sid(arguments, client.id), with_sid(wanted, client.id)
        try:
            got = await raw.call(command, tuple(arguments), namespace=BACKEND, timeout=5)
        except Exception as error:
            got = repr(error)
        check(f"{transport}: {command} {str(arguments)[:60]}", tuple(got) if isinstance(got, list) else got, wanted)
    check(f"{transport}: only the good ones arrived", client.got, [(5,), ("fine", 1)])
    await end(raw)


STRANGERS = {"no token": {}, "another token": {"token": TOKEN + "x"}, "no text": {"token": 5}, "an empty one": {"token": ""}}


async def strangers(world, transport):
    victim = await world.told_client()
    for name, auth in STRANGERS.items():
        raw = socketio.AsyncClient(reconnection=False, handle_sigint=False)
        errors = []
        raw.on("connect_error", errors.append, namespace=BACKEND)
        await raw.connect(URL, auth=auth, namespaces=["/", BACKEND], transports=[transport], wait=False)
        await until(lambda: errors)
        check(f"{transport}: {name}: not allowed", errors, [{"message": "Not allowed"}])
        answers = []
        for command, arguments in (("emit", ["evil"]), ("socketsJoin", ["evil"]), ("socketsLeave", ["x"]),
                                   ("disconnectSockets", []), ("fetchSockets", [])):
            id = raw._generate_ack_id(BACKEND, lambda *values: answers.append(values))
            await raw._send_packet(packet.Packet(packet.EVENT, namespace=BACKEND,
                                                 data=[command, {"to": [victim.id]}, *arguments], id=id))
        await asyncio.sleep(0.3)
        check(f"{transport}: {name}: no command is answered", answers, [])
        await raw.eio.disconnect(abort=True)
        await end(raw)
    check(f"{transport}: and none is obeyed", (victim.got, victim.gone, await world.do("fetch_sockets", "evil")),
          ([], False, []))
    sio = AsyncBackend(URL, token=TOKEN + "x")
    error = await error_of(asyncio.wait_for(sio.start(), 10))
    check(f"{transport}: a backend with another token", type(error), socketio.exceptions.ConnectionRefusedError)
    sio = AsyncBackend(URL, token=TOKEN, namespaces=["/nowhere"])
    error = await error_of(asyncio.wait_for(sio.start(), 10))
    check(f"{transport}: a backend for an unknown namespace", str(error), "unknown namespace: /nowhere")


async def recovers(world, transport):
    """A client that is lost and comes back, by hand: python-socketio's clients can't."""
    url = URL.replace("http", "ws", 1) + "/socket.io/?EIO=4&transport=websocket"
    world.sio.on("name", lambda sid, name: world.node.core.socket(sid, "/").session.update(name=name))
    async with aiohttp.ClientSession() as session:
        first = await session.ws_connect(url)
        await first.receive_str()
        await first.send_str('40{"a":1}')
        opened = packet.Packet(encoded_packet=(await first.receive_str())[1:]).data
        if "pid" not in opened:
            return print("        sessions that come back: left out, since this server has none")
        await first.send_str('42["name","Ann"]')
        await until(lambda: world.node.core.sockets.get(("/", opened["sid"])) and world.node.core.sockets["/",
                                                                                                        opened["sid"]].session)
        await world.do("enter_room", opened["sid"], "red")
        await world.do("emit", "offset", to=opened["sid"])
        offset = packet.Packet(encoded_packet=(await first.receive_str())[1:]).data[-1]
        first._response.connection.transport.abort()
        sid = opened["sid"]
        await until(lambda: any(one[:2] == ("disconnect", sid) for one in world.log))
        check("a client that is lost", [one[2] for one in world.log if one[:2] == ("disconnect", sid)], ["transport close"])
        second = await session.ws_connect(url)
        await second.receive_str()
        await second.send_str('40{"pid":"%s","offset":"%s"}' % (opened["pid"], offset))
        await until(lambda: len([one for one in world.log if one[:2] == ("connect", sid)]) == 2)
        check("it is back, and told so", [one[2:] for one in world.log if one[:2] == ("connect", sid)][1:],
              [({"namespace": "/", "recovered": True}, None)])
        check("with its rooms", sorted(world.sio.rooms(sid)), sorted([sid, "red"]))
        check("and its session", await world.do("get_session", sid), {"name": "Ann"})
        await second.close()


# Checks of the core alone: what no server does at will.

def names(jobs):
    return [(job.name, job.socket.sid) for job in jobs]


def finish(it, jobs):
    """Ends these jobs and those that follow; gives all."""
    done = []
    while jobs:
        job = jobs.pop(0)
        done.append(job)
        jobs += it.ended(job)
    return done


ALL = LOW + HIGH


def with_socket(sid):
    it = core.Core(ALL, {"/"}, False)
    finish(it, it.connection("/", sid, None))
    return it


async def core_lists():
    it = core.Core(ALL, {"/"}, False)
    check("core: an event while the backend asks comes after connect", names(finish(it, it.event("/", "a1", None, "x"))),
          [("connect", "a1"), ("x", "a1")])
    check("core: and the list tells it no more", names(it.listed("/", ["a1"])), [])
    check("core: the list tells who is new, and who went", names(finish(it, it.listed("/", ["b2"]))),
          [("disconnect", "a1"), ("connect", "b2")])
    check("core: a session that came back unseen is told no more", names(it.connection("/", "b2", ["b2", "r"])), [])
    check("core: but its rooms are noted", it.socket("b2", "/").rooms, {"b2", "r"})
    check("core: a list with sockets of others' digits", names(core.Core("0", {"/"}, False).listed("/", ["b2", "0b"])),
          [("connect", "0b")])
    check("core: who wasn't told to come isn't told to go", names(it.disconnection("/", "c3", "left", ["c3"])), [])
    check("core: other namespaces are left alone", names(it.connection("/x", "d4", None) + it.event("/x", "d4", None, "y")),
          [])
    check("core: a name may be a number", names(it.event("/", "b2", None, 5)), [("5", "b2")])
    low = core.Core(LOW, {"/"}, False)
    check("core: what others' sockets do is ignored",
          names(low.connection("/", "b2", None) + low.event("/", "b2", None, "x") + low.disconnection("/", "b2", "left", [])), [])
    check("core: no event is taken for connect",
          names(it.event("/", "b2", None, "connect") + it.event("/", "b2", None, "disconnect")), [])


async def core_lines():
    it = core.Core(ALL, {"/"}, False)
    first = it.connection("/", "e5", None, {"a": 1})
    waiting = it.event("/", "e5", None, "x") + it.event("/", "e5", None, "y") + it.disconnection("/", "e5", "saved",
                                                                                                 ["e5", "r"])
    waiting += it.connection("/", "e5", ["e5", "r"])
    check("core: while connect runs the others wait", (names(first), names(waiting)), ([("connect", "e5")], []))
    it.socket("e5", "/").session["name"] = "Ann"
    check("core: then they follow in order, and a new life after them", names(finish(it, first))[1:],
          [("x", "e5"), ("y", "e5"), ("disconnect", "e5"), ("connect", "e5")])
    check("core: who is back has its session and rooms", (it.socket("e5", "/").session, it.socket("e5", "/").rooms),
          ({"name": "Ann"}, {"e5", "r"}))
    check("core: and is known as one that is back", it.socket("e5", "/").environ, {"namespace": "/", "recovered": True})
    finish(it, it.disconnection("/", "e5", "left", ["e5"]))
    finish(it, it.connection("/", "e5", None))
    check("core: who left has no session when it comes again", it.socket("e5", "/").session, {})
    it.socket("e5", "/").leaving = True
    check("core: who is being put out is heard no more", names(it.event("/", "e5", None, "x")), [])
    serial = core.Core(ALL, {"/"}, True)
    finish(serial, serial.connection("/", "f6", None))
    x, y = serial.event("/", "f6", None, "x"), serial.event("/", "f6", None, "y")
    check("core: one at a time", (names(x), names(y), names(serial.ended(x[0]))), ([("x", "f6")], [], [("y", "f6")]))


async def core_sessions():
    keeper = core.Core(ALL, {"/"}, False)
    for number in range(core.SESSIONS_AT_MOST + 5):
        sid = str(number)
        finish(keeper, keeper.connection("/", sid, None))
        finish(keeper, keeper.disconnection("/", sid, "saved", [sid]))
    check("core: kept sessions are bounded", (len(keeper.sessions), len(keeper.sockets)), (core.SESSIONS_AT_MOST, 0))
    keeper.sessions["/", "9"] = (time.monotonic() - core.SESSION_SECONDS - 1, {"old": 1})
    finish(keeper, keeper.connection("/", "9", ["9"]))
    check("core: an old session isn't given back", keeper.socket("9", "/").session, {})
    lost = with_socket("a1")
    lost.socket("a1", "/").session["name"] = "Ann"
    finish(lost, lost.left_out())
    check("core: the sockets of a server that can't be reached are gone", lost.sockets, {})
    finish(lost, lost.listed("/", ["a1"]))
    check("core: and have their sessions where only the way was lost",
          (lost.socket("a1", "/").session, lost.socket("a1", "/").environ), ({"name": "Ann"}, {"namespace": "/", "late": True}))
    it = core.Core(ALL, {"/"}, False)
    it.ended(it.connection("/", "a1", None)[0], refused=True)
    check("core: who was refused, and isn't out yet", [one.sid for one in it.refused("/")], ["a1"])


async def core_questions():
    it = with_socket("e5")
    ids = [it.ask(print, "/", ["e5"]) for _ in range(100)] + [it.ask(print, "/", []) for _ in range(100)]
    check("core: ids of questions", len(set(ids)) == 200 and all(0 <= id < 10 ** 15 for id in ids))
    check("core: an answer counts once, of the one that was asked",
          [it.answered("/", sid, ids[0]) for sid in ("b2", "e5", "e5")], [None, print, None])
    check("core: for a room once for each", [it.answered("/", sid, ids[150]) for sid in ("b2", "e5", "e5")],
          [print, print, None])
    check("core: not of another namespace", it.answered("/admin", "b2", ids[151]), None)
    for question in it.room_questions.values():
        question.deadline = 0
    check("core: nor after the time", (it.answered("/", "b2", ids[152]), it.room_questions), (None, {}))
    for _ in range(core.QUESTIONS_AT_MOST + 5):
        it.ask(print, "/", ["e5"]), it.ask(print, "/", [])
    check("core: questions are bounded", (len(it.socket("e5", "/").questions), len(it.room_questions)),
          (core.QUESTIONS_AT_MOST,) * 2)
    socket = it.socket("e5", "/")
    it.disconnection("/", "e5", "left", ["e5"])
    check("core: and forgotten when the socket goes", socket.questions, {})


async def core_nodes():
    """Which nodes something goes to: `c3` is at one whose connection is away."""
    there = [types.SimpleNamespace(core=with_socket(sid), link=types.SimpleNamespace(connected=sid != "c3"))
             for sid in ("a1", "b2", "c3")]
    it = nodes.Nodes(there, logging.getLogger())
    wanted = {(): ("abc", "ab"), ("room",): ("abc", "ab"), ("a1",): ("a", "a"), ("a1", "b2"): ("ab", "ab"),
              ("a1", "room"): ("abc", "ab"), ("a1", "c3"): ("ac", "a"), ("c3",): ("c", "c")}
    letters = ["".join("abc"[there.index(node)] for node in chosen) for to in wanted
               for chosen in (it.of("/", list(to)), it.up("/", list(to)))]
    check("core: nodes, and those that are up", letters, [one for pair in wanted.values() for one in pair])
    check("core: no node has it in another namespace", it.of("/admin", ["a1"]), there)


CORES = [core_lists, core_lines, core_sessions, core_questions, core_nodes]


def chosen(name):
    return not WORDS or any(word in name for word in WORDS)


async def guarded(name, work):
    """A check that ends by an error has failed; one that never ends too."""
    try:
        await asyncio.wait_for(work, 120)
    except Exception as error:
        check(name, repr(error), "an end")


def noted(loop, context):
    """What clients leave behind is not looked at; other errors are the backend's."""
    if not context["message"].startswith("Unclosed"):
        check("no error that nobody catches", context, None)


async def main():
    asyncio.get_running_loop().set_exception_handler(noted)
    for one in CORES:
        if chosen(one.__name__):
            await guarded(one.__name__, one())
    for form in FORMS:
        for transport in TRANSPORTS:
            shared = [one for one in SHARED if chosen(f"{one.__name__} {form} {transport}")]
            if shared:
                async with World(form, transport) as world:
                    for one in shared:
                        world.log.clear()
                        await guarded(world.name + one.__name__, one(world))
                        for client in world.clients:
                            await end(client)
                        world.clients.clear()
            for one in OWN:
                if chosen(f"{one.__name__} {form} {transport}"):
                    await guarded(f"{form}, {transport}: {one.__name__}", one(form, transport))
    for one in (error_names, strangers, recovers):
        for transport in TRANSPORTS if one is not recovers else TRANSPORTS[1:]:
            if chosen(f"{one.__name__} {transport}"):
                async with World("async", transport) as world:
                    await guarded(f"{transport}: {one.__name__}", one(world, transport))
    print(f"{len(failed)} checks failed" if failed else "all checks passed")


if __name__ == "__main__":
    asyncio.run(main())
    sys.exit(1 if failed else 0)
