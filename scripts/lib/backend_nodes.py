"""The scene `nodes` of scripts/try_backends: one app over three servers, of which one isn't up at first and one is cut off, and
killed later; and a fourth one that has another token."""
import asyncio
import signal
import time

from .backends import HIGH, LOW, PATIENCE, Backend, Server, twice, until
from .clients import Client
from .front import Front

TRANSPORTS = {"1": "polling", "2": "websocket"}
EVERYBODY = "a1 a2 b1 b2 c1 c2"     # a1 is the client of node a by polling, and so on
RED, BLUE = "a1 b2 c1", "b1 c2"     # who is in which room
SHORT, LONG = 3.0, 9.0              # seconds that a question is open
LOST, LATE = "the connection to the server was lost", "operation has timed out"

# Whom an event is for: who gets it, the steps of JavaScript, and the options of Python. `@a1` stands for the sid of a1.
EMITS = {
    "all": (EVERYBODY, [], {}),
    "all, volatile": (EVERYBODY, [["volatile"]], {"volatile": True}),
    "a room": (RED, [["to", "red"]], {"to": "red"}),
    "two rooms": (f"{RED} {BLUE}", [["to", ["red", "blue"]]], {"to": ["red", "blue"]}),
    "all but a room": ("a2 b1 c2", [["except", "red"]], {"skip_sid": "red"}),
    "a room but a socket": ("b2 c1", [["to", "red"], ["except", "@a1"]], {"to": "red", "skip_sid": "@a1"}),
    "a sid": ("b1", [["to", "@b1"]], {"to": "@b1"}),
    "sids of two nodes": ("a1 c2", [["to", ["@a1", "@c2"]]], {"to": ["@a1", "@c2"]}),
    "a sid and a room": ("a2 b1 c2", [["to", ["@a2", "blue"]]], {"to": ["@a2", "blue"]}),
    "a sid that nobody has": ("", [["to", "f" * 32]], {"to": "f" * 32}),
    "one socket": ("c1", [["socket", "@c1"]], {"room": "@c1"}),
    "one socket, volatile": ("c2", [["socket", "@c2"], ["volatile"]], {"room": "@c2", "volatile": True}),
    "all others": ("a1 a2 b2 c1 c2", [["socket", "@b1"], ["broadcast"]], {"skip_sid": "@b1"}),
    "the others in a room": ("b2 c1", [["socket", "@a1"], ["to", "red"]], {"room": "red", "skip_sid": "@a1"}),
}

# What changes rooms, in JavaScript and in Python, and who is in which room then.
CHANGES = [
    ("a socket joins", [["socket", "@b1"], ["join", "green"]], ["enter_room", ["@b1", "green"]], "green", "b1"),
    ("sids join", [["in", ["@a1", "@c2"]], ["socketsJoin", "green"]], None, "green", "a1 b1 c2"),
    ("all of a room join", [["in", "red"], ["socketsJoin", "violet"]], ["enter_room", ["red", "violet"]], "violet", RED),
    ("everybody joins", [["socketsJoin", "hall"]], None, "hall", EVERYBODY),
    ("a socket leaves", [["socket", "@a1"], ["leave", "violet"]], ["leave_room", ["@a1", "violet"]], "violet", "b2 c1"),
    ("all leave", [["socketsLeave", "violet"]], ["close_room", ["violet"]], "violet", ""),
]


class Visitor(Client):
    """A client of a node. It answers questions while it isn't silent."""

    def __init__(self, node, transport):
        super().__init__(node.url, transport)
        self.asked, self.silent = [], False

    def listen(self):
        super().listen()
        self.client.on("question", self.answer)

    async def answer(self, number):
        self.asked.append(number)
        while self.silent and not self.ended:
            await asyncio.sleep(0.02)
        return [self.sid, number]


class Way(Front):
    """A backend's way to a node."""

    def __init__(self, node):
        super().__init__(("127.0.0.1", node.port))
        self.token, self.library, self.url = node.token, node.library, f"http://127.0.0.1:{self.port}"


class Scene:
    """The nodes, their visitors by name, and a backend in one of the languages."""

    def __init__(self, checks, server, language):
        self.checks, self.language = checks, language
        self.nodes = {name: Server(server.program, server.folder / name, server.library, server.token) for name in "abc"}
        self.stranger = Server(server.program, server.folder / "stranger", server.library)
        self.way = Way(self.nodes["b"])
        self.visitors, self.count = {}, 0

    async def __aenter__(self):
        return self

    async def __aexit__(self, *_):
        await self.close(self.visitors.values())
        self.way.turn("cut")
        for node in (*self.nodes.values(), self.stranger):
            node.end(signal.SIGKILL)

    async def close(self, visitors):
        await asyncio.gather(*(visitor.close() for visitor in visitors))

    async def visit(self, name):
        self.visitors[name] = await Visitor(self.nodes[name[0]], TRANSPORTS[name[1]]).open()

    def sid(self, name):
        return self.visitors[name].sid

    def sids(self, names):
        return sorted(self.sid(name) for name in names.split())

    def named(self, value):
        """The value with sids in place of names."""
        if isinstance(value, dict):
            return {key: self.named(one) for key, one in value.items()}
        if isinstance(value, list):
            return [self.named(one) for one in value]
        return self.sid(value[1:]) if isinstance(value, str) and value.startswith("@") else value

    def next(self):
        self.count += 1
        return self.count

    def logged(self, word):
        return [it[2] for it in self.backend.told("log") if word in it[2]]

    # Calls of the backend.

    async def do(self, javascript, python):
        steps = self.named(javascript if self.language == "javascript" else python)
        return await self.backend.do(*steps)

    async def emit(self, steps, options, *event):
        return await self.do([*steps, ["emit", *event]], ["emit", event, options])

    async def settle(self):
        """All that was sent before has come."""
        mark = ("settled", self.next())
        await self.emit([], {}, *mark)
        await until(lambda: all(mark in visitor.got for visitor in self.visitors.values()))

    async def fetched(self, room=None):
        steps = [["in", room]] if room else []
        error, sids = await self.do([*steps, ["fetchSockets"]], ["fetch_sockets", [room]])
        return error or sorted(sids)

    def ask(self, seconds=LONG):
        """Begins a question to all. Gives its number, and that of the call."""
        number = self.next()
        javascript = [["timeout", seconds * 1000], ["emitWithAck", "question", number]]
        python = ["emit", ["question", number], {"callback": True}]
        return number, self.backend.begin(*(javascript if self.language == "javascript" else python))

    async def answered(self, call, count):
        """The error and the answers. In Python each comes by itself, and there is no error."""
        if self.language == "javascript":
            error, answers = await self.backend.outcome(call)
            return error, sorted(answers or [])
        await until(lambda: len(self.backend.told("answer", call)) >= count)
        return None, sorted(it[2] for it in self.backend.told("answer", call))

    def ask_one(self, name, seconds=LONG):
        number, sid = self.next(), self.sid(name)
        javascript = [["socket", sid], ["timeout", seconds * 1000], ["emitWithAck", "question", number]]
        python = ["call", ["question", number], {"to": sid, "timeout": seconds}]
        return number, self.backend.begin(*(javascript if self.language == "javascript" else python))


# The parts of the scene, in their order.

async def begins(scene):
    """One node isn't up yet, and another doesn't know the token: the app starts with the others."""
    checks, backend = scene.checks, scene.backend
    for name in ("a1", "a2", "b1", "b2"):
        await scene.visit(name)
    await until(lambda: len(backend.present()) == 4)
    checks.same("it begins with the nodes that are there", sorted(backend.present()), scene.sids("a1 a2 b1 b2"))
    refusal = f"{scene.stranger.url} refused this backend: Not allowed"
    await until(lambda: scene.logged("refused"))
    checks.same("another token is an error, once, that names the node",
                [line[-len(refusal):] for line in scene.logged("refused")], [refusal])
    checks("so is a node that can't be reached", scene.logged(scene.nodes["c"].url), backend.told("log"))
    scene.nodes["c"].start()
    for name in ("c1", "c2"):
        await scene.visit(name)
    await until(lambda: len(backend.present()) == 6)
    checks.same("a node comes later", sorted(backend.present()), scene.sids(EVERYBODY))


async def joins(scene):
    for room, names in (("red", RED), ("blue", BLUE)):
        for name in names.split():
            await scene.do([["socket", f"@{name}"], ["join", room]], ["enter_room", [f"@{name}", room]])


async def emits(scene):
    for what, (names, steps, options) in EMITS.items():
        event = ("x", scene.next())
        await scene.emit(steps, options, *event)
        await scene.settle()
        got = [name for name, visitor in scene.visitors.items() for one in visitor.got if one == event]
        scene.checks.same(f"an event to {what}", sorted(got), sorted(set(names.split())))


async def changes(scene):
    for what, javascript, python, room, names in CHANGES:
        if scene.language == "javascript" or python:
            outcome = await scene.do(javascript, python)
            scene.checks.same(what, (outcome[0], await scene.fetched(room)), (None, scene.sids(names)))


async def fetches(scene):
    for what, room, names in (("all", None, EVERYBODY), ("a room", "red", RED), ("a sid", scene.sid("c2"), "c2"),
                              ("a sid that nobody has", "f" * 32, "")):
        scene.checks.same(f"the sockets of {what}", await scene.fetched(room), scene.sids(names))


async def says(scene):
    """Each says something, and hears once what each says."""
    visitors = scene.visitors.values()
    numbers = [scene.next() for _ in range(5)]
    for visitor in visitors:
        for number in numbers:
            await visitor.client.emit("say", number)
    wanted = sorted((visitor.sid, number) for visitor in visitors for number in numbers)
    await until(lambda: all(sum(it[0] == "said" and it[2] in numbers for it in one.got) >= len(wanted) for one in visitors))
    await scene.settle()
    for name, visitor in scene.visitors.items():
        heard = sorted((it[1], it[2]) for it in visitor.got if it[0] == "said" and it[2] in numbers)
        scene.checks.same(f"{name} hears all that is said, once", heard, wanted)


async def asks(scene):
    checks = scene.checks
    number, call = scene.ask()
    wanted = [[sid, number] for sid in scene.sids(EVERYBODY)]
    checks.same("a question to all", await scene.answered(call, 6), (None, wanted))
    number, call = scene.ask_one("c1")
    checks.same("a question to one", await scene.backend.outcome(call), (None, [scene.sid("c1"), number]))
    scene.visitors["b2"].silent = True
    number, call = scene.ask(SHORT)
    wanted = [[sid, number] for sid in scene.sids("a1 a2 b1 c1 c2")]
    checks.same("one is silent", await scene.answered(call, 5), (LATE if scene.language == "javascript" else None, wanted))
    scene.visitors["b2"].silent = False


async def is_cut_off(scene):
    """Only the way to a node is lost: its sockets go for the app, and come back."""
    checks, backend = scene.checks, scene.backend
    scene.way.turn("cut")
    await until(lambda: len(backend.present()) == 4)
    checks.same("cut off: its sockets are told to have gone", sorted(backend.present()), scene.sids("a1 a2 c1 c2"))
    scene.way.turn("mended")
    await until(lambda: len(backend.present()) == 6)
    checks.same("and to be back", sorted(backend.present()), scene.sids(EVERYBODY))
    scene.cut_off = scene.sids("b1 b2")


async def loses(scene):
    """A node is killed while questions are open to its clients."""
    checks, backend, lost = scene.checks, scene.backend, [scene.visitors[name] for name in ("b1", "b2")]
    for visitor in lost:
        visitor.silent = True
    number, call = scene.ask()
    one, call_of_one = scene.ask_one("b1", SHORT)
    await until(lambda: all(number in visitor.asked for visitor in scene.visitors.values()) and one in lost[0].asked)
    scene.nodes["b"].end(signal.SIGKILL)
    began, rest = time.monotonic(), scene.sids("a1 a2 c1 c2")
    is_javascript = scene.language == "javascript"
    wanted = (LOST if is_javascript else None, [[sid, number] for sid in rest])
    checks.same("killed: the others' answers are there, and in JavaScript the error", await scene.answered(call, 4), wanted)
    checks.same("killed: a question to one ends", await backend.outcome(call_of_one), (LOST if is_javascript else "", None))
    checks("killed: before the time-out", time.monotonic() - began < LONG, time.monotonic() - began)
    await until(lambda: len(backend.present()) == 4)
    checks.same("killed: its sockets are told to have gone", sorted(backend.present()), rest)
    checks("killed: the node is named", scene.logged(scene.way.url), backend.told("log"))
    await scene.close(lost)
    for visitor in ("b1", "b2"):
        del scene.visitors[visitor]


async def goes_on(scene):
    """Without the node that is away nothing is held up."""
    checks, rest, began = scene.checks, scene.sids("a1 a2 c1 c2"), time.monotonic()
    number, call = scene.ask()
    checks.same("away: a question to all", await scene.answered(call, 4), (None, [[sid, number] for sid in rest]))
    checks.same("away: the sockets of all", await scene.fetched(), rest)
    outcome = await scene.do([["socketsLeave", "hall"]], ["close_room", ["hall"]])
    checks.same("away: a room is closed", (outcome[0], await scene.fetched("hall")), (None, []))
    await scene.emit([], {}, "x", number)
    await scene.settle()
    checks.same("away: an event to all", [("x", number) in visitor.got for visitor in scene.visitors.values()], [True] * 4)
    checks("away: nothing waits for it", time.monotonic() - began < PATIENCE / 2, time.monotonic() - began)


async def returns(scene):
    checks, backend = scene.checks, scene.backend
    scene.nodes["b"].start()
    for name in ("b1", "b2"):
        await scene.visit(name)
    await until(lambda: len(backend.present()) == 6)
    checks.same("back: its new sockets are told", sorted(backend.present()), scene.sids(EVERYBODY))
    outcome = await scene.do([["socket", "@b1"], ["join", "green"]], ["enter_room", ["@b1", "green"]])
    checks.same("back: one joins a room of others", (outcome[0], scene.sid("b1") in await scene.fetched("green")), (None, True))


async def ends(scene):
    """Clients go, by themselves or put out."""
    checks, backend = scene.checks, scene.backend
    for name in ("a1", "b2"):
        await scene.do([["socket", f"@{name}"], ["disconnect"]], ["disconnect", [f"@{name}"]])
    await until(lambda: len(backend.present()) == 4)
    checks.same("who is put out is told to have gone", sorted(backend.present()), scene.sids("a2 b1 c1 c2"))
    await until(lambda: sum(one.ended for one in scene.visitors.values()) == 2)
    checks.same("and is out", [name for name, one in scene.visitors.items() if one.ended], ["a1", "b2"])
    if scene.language == "javascript":
        await scene.do([["in", "blue"], ["disconnectSockets"]], None)
        await until(lambda: scene.visitors["c2"].ended)
    await scene.close(scene.visitors.values())
    await until(lambda: not backend.present())
    checks.same("all are told to have gone", backend.present(), set())
    told = backend.told()
    more = twice((it[1], it[0]) for it in told if it[0] in ("connection", "disconnection"))
    checks.same("none comes or goes twice, but those that were cut off", sorted(more),
                [(sid, kind) for sid in scene.cut_off for kind in ("connection", "disconnection")])
    checks.same("no event is told twice", twice(tuple(it[1:]) for it in told if it[0] == "event"), [])


async def shares(scene):
    """Backends of both languages share the work of all nodes."""
    other = {"javascript": "python", "python": "javascript"}[scene.language]
    nodes, checks = list(scene.nodes.values()), scene.checks
    async with Backend(nodes, scene.language, LOW) as low, Backend(nodes, other, HIGH) as high:
        scene.backend = low
        visitors = [await Visitor(node, "websocket").open() for node in nodes for _ in range(8)]
        await until(lambda: len(low.told("connection") + high.told("connection")) >= len(visitors))
        for backend in (low, high):
            checks.same(f"{backend.digits} is told of its own of all nodes", sorted(it[1] for it in backend.told("connection")),
                        sorted(one.sid for one in visitors if one.sid[0] in backend.digits))
        number, call = scene.ask()
        wanted = sorted([one.sid, number] for one in visitors)
        checks.same("a question to all of all digits", await scene.answered(call, len(visitors)), (None, wanted))
        checks.same("the sockets of all digits", await scene.fetched(), sorted(one.sid for one in visitors))
        await scene.close(visitors)


async def nodes(checks, server, language):
    async with Scene(checks, server, language) as scene:
        for node in (scene.nodes["a"], scene.nodes["b"], scene.stranger):
            node.start()
        servers = [scene.nodes["a"], scene.way, scene.nodes["c"], scene.stranger]
        async with Backend(servers, language) as scene.backend:
            for part in (begins, joins, emits, changes, fetches, says, asks, is_cut_off, emits, asks, loses, goes_on, returns, says,
                         asks, ends):
                await part(scene)
        scene.visitors.clear()
        await shares(scene)
