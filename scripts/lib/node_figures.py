"""How much one, two and three nodes deliver, for scripts/try_nodes --figures."""
import asyncio
import json
import pathlib
import subprocess
import tempfile
import time

from .backends import NODE, TOP, until
from .clients import Crowd
from .nodes import PLACES
from .processes import Process
from .service import Service

LOAD = TOP / "scripts" / "load"
SECONDS = 3
ROOMS = {"a room of 2": (1, 2), "a room of 64": (1, 64), "8 rooms of 8": (8, 8), "a room of 999": (1, 999)}
EVENTS = 5000       # that an emitter publishes
TOGETHER = 100      # of them


class Figures:
    """Of a service's first nodes."""

    def __init__(self, service, count):
        self.service, self.nodes = service, service.nodes[:count]
        self.program = service.folder / "load"

    async def load(self, *words):
        """Clients in C, which say things to rooms."""
        ports = [word for node in self.nodes for word in ("--port", str(node.port))]
        done = await asyncio.to_thread(subprocess.run, [self.program, *ports, "--seconds", str(SECONDS), *words],
                                       capture_output=True, text=True)
        try:
            return json.loads(done.stdout.strip().splitlines()[-1])
        except (IndexError, ValueError):
            raise RuntimeError(f"no figures: {done.stdout} {done.stderr}") from None

    async def app(self, nodes):
        """The demonstration app's `join` and `say` in JavaScript."""
        urls, token_file = ",".join(node.url for node in nodes), nodes[0].folder / "token.txt"
        words = [*NODE, LOAD / "relay_backend.js", urls, token_file, self.service.library]
        app = Process(words, env=PLACES)
        self.service.others.append(app.start())
        await asyncio.sleep(1)
        return app

    async def measure(self, what, others, work, shown):
        """Does the work. `shown` makes of what it gives the figures, and how many events it was; processor microseconds of each
        kind of process for one event come behind them."""
        kinds = {"a node": self.nodes, **others}
        before = {kind: sum(it.processor_time() for it in them) for kind, them in kinds.items()}
        figures, events = shown(await work)
        for kind, them in kinds.items():
            spent = sum(it.processor_time() for it in them) - before[kind]
            figures[f"us of {kind} an event"] = spent * 1e6 / len(them) / max(1, events)
        shown = ", ".join(f"{name} {value:,.0f}" for name, value in figures.items())
        print(f"{len(self.nodes)} nodes, {what}: {shown}", flush=True)


def relayed(got):
    return {"p50 us": got["p50_us"], "p99 us": got["p99_us"]}, got["n"]


async def over_an_app(service, count):
    """An app over all of these nodes."""
    figures = Figures(service, count)
    app = await figures.app(figures.nodes)
    await figures.measure("a relay by an app", {"the app": [app]}, figures.load("--test", "relay"), relayed)
    for name, (rooms, members) in ROOMS.items():
        words = ("--test", "rooms", "--rooms", str(rooms), "--members", str(members), "--threads", "1")
        await figures.measure(name, {"the app": [app]}, figures.load(*words), lambda got, members=members: (
            {"delivered a second": got["delivered_per_second"]}, got["delivered"] / members))
    app.end()


async def over_bridges(service, count):
    """An app for each node, and bridges that relay; and then an emitter."""
    figures = Figures(service, count)
    bridges = [service.bridge(f"relay{number}_of_{count}", node.url, "--relay", "r") for number, node in enumerate(figures.nodes)]
    service.others += bridges
    for bridge in bridges:
        await asyncio.to_thread(bridge.start)
    apps = [await figures.app([node]) for node in figures.nodes]
    others = {"a bridge": bridges, "Redis": [service.redis]}
    if count > 1:
        await figures.measure("a relay by bridges", others, figures.load("--test", "relay"), relayed)
    for app in apps:
        app.end()
    await figures.measure("published by an emitter", others, emitted(service, figures.nodes),
                          lambda rate: ({"a second": rate}, EVENTS))
    for bridge in bridges:
        bridge.end()


async def emitted(service, nodes):
    """How many events a second come to a client of each node."""
    async with Crowd() as crowd:
        clients = [client for node in nodes for client in await crowd.more(node.url)]
        begun = time.monotonic()
        for _ in range(EVENTS // TOGETHER):
            await asyncio.gather(*(service.emitter.emit("tick", "x" * 16) for _ in range(TOGETHER)))
        await until(lambda: all(len(client.whole) == EVENTS for client in clients))
        spent = time.monotonic() - begun
        came = [len(client.whole) for client in clients]
        if came != [EVENTS] * len(clients):
            print(f"of {EVENTS} events {came} came after {spent:.0f} s, and {[it.ended for it in clients]} ended", flush=True)
        return min(came) / spent


async def measured(program, library):
    with tempfile.TemporaryDirectory() as folder:
        service = Service(pathlib.Path(folder), program, library)
        subprocess.run(["cc", "-O2", "-pthread", "-o", service.folder / "load", LOAD / "load.c"], check=True)
        try:
            await service.start()
            for bridge in service.bridges:
                bridge.end()
            for count in range(1, len(service.nodes) + 1):
                await over_an_app(service, count)
                await over_bridges(service, count)
        finally:
            service.end()


def figures(program, library):
    asyncio.run(measured(program, library))
