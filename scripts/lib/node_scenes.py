"""Scenes of scripts/try_nodes in which all goes well, and bad input. Each gets the checks, the service, and a language."""
import asyncio
import collections
import contextlib
import functools
import json
import signal
import subprocess

import msgpack
import socketio

from .backends import HIGH, LONGEST, LOW, PYTHON, until
from .clients import Client, Crowd
from .nodes import BACKENDS, BRIDGE, PLACES
from .service import RELAYED

SETTLED = 0.5       # seconds, after which nothing comes any more
BOTH = ["javascript", "python"]


async def all_have(clients, name, count):
    """Waits until each has as many events of a name, and whatever comes too much."""
    await until(lambda: all(len(client.named(name)) >= count for client in clients))
    await asyncio.sleep(SETTLED)


def heard(clients, name):
    return [sorted(client.named(name)) for client in clients]


async def places(service, clients):
    """At which node each of them is, by number."""
    sids = [await service.sids(node) for node in service.nodes]
    return [next(number for number, there in enumerate(sids) if client.sid in there) for client in clients]


async def at_nodes(crowd, service, each=2, **options):
    """So many clients at each node, without a proxy, by turns of both transports."""
    made = []
    for node in service.nodes:
        for number in range(each):
            made += await crowd.more(node.url, ("websocket", "polling")[number % 2], **options)
    return made


async def is_refused(url, transport):
    client = Client(url, transport)
    try:
        await client.open()
    except socketio.exceptions.ConnectionError:
        return True
    finally:
        await client.close()


async def forms(checks, service, _):
    await asyncio.to_thread(checks.of_program, [*PYTHON, BACKENDS / "redis/tests/forms.py"], LONGEST, least=1)


# Clients through proxies, and a room over all nodes.

async def through_proxies(crowd, service):
    """The clients of each way. Those that nginx tells apart have addresses of their own."""
    addresses = iter(f"127.0.0.{number}" for number in range(2, 200))
    ways = {}
    for transport in ("polling", "websocket"):
        alone = [await crowd.more(service.nginx.url, transport, address=next(addresses)) for _ in range(12)]
        ways["nginx", transport] = [client for client, in alone]
        ways["haproxy", transport] = await crowd.more(service.haproxy.url, transport, count=6)
    ways["nginx without hash", "websocket"] = await crowd.more(service.nginx_without_hash.url, "websocket", count=6)
    return ways


async def proxies(checks, service, language):
    async with Crowd() as crowd, service.app(language, digits=LOW) as low, service.app(language, digits=HIGH) as high:
        ways = await through_proxies(crowd, service)
        for (proxy, transport), clients in ways.items():
            there = await places(service, clients)
            checks.same(f"{proxy} spreads {len(clients)} clients by {transport} over the nodes", sorted(set(there)), [0, 1, 2])
        checks("each has a cookie of its node", all("node" in it.cookies() for it in ways["haproxy", "polling"]))
        checks("nginx without hash doesn't serve clients that poll", await is_refused(service.nginx_without_hash.url, "polling"))
        count = len(crowd.clients)
        for number in range(3):
            for client in crowd.clients:
                await client.send("say", number)
        await all_have(crowd.clients, "said", 3 * count)
        wanted = sorted((client.sid, number) for client in crowd.clients for number in range(3))
        checks(f"two apps, and {count} clients who speak: each hears all {len(wanted)} events, each once",
               all(events == wanted for events in heard(crowd.clients, "said")), [len(it.named("said")) for it in crowd.clients])
        for app in (low, high):
            own = sorted(client.sid for client in crowd.clients if client.sid[0] in app.digits)
            checks.same(f"the app of {app.digits} was told of its own clients, each once",
                        sorted(it[1] for it in app.told("connection")), own)
        members = crowd.clients[::2]
        await service.join(members, "hall")
        for number in range(10):
            await low.do(*TO_A_ROOM[language]("hall", number))
        await all_have(members, "told", 10)
        wanted = [[(number,) for number in range(10)] if client in members else [] for client in crowd.clients]
        checks.same(f"a room of {len(members)} over three nodes hears each event once, and nobody else",
                    heard(crowd.clients, "told"), wanted)


# How an app tells a room something.
TO_A_ROOM = {"javascript": lambda room, number: (["to", room], ["emit", "told", number]),
             "python": lambda room, number: ("emit", ["told", number], {"room": room})}


# What is published from elsewhere.

DEEPEST = functools.reduce(lambda value, _: [value], range(99), "deep")
VALUES = ["text", {"a": [1, None, {"b": b"\x00\xff"}]}, b"", 2.5, DEEPEST]


async def emitter(checks, service, _):
    async with Crowd() as crowd:
        clients, emit = await at_nodes(crowd, service), service.emitter
        admins = await at_nodes(crowd, service, 1, namespace="/admin")
        checks.same("Redis sends it to a bridge for each node", await emit.emit("news", *VALUES), len(service.nodes))
        await all_have(clients, "news", 1)
        checks.same("all hear an event, with its attachments, once", [it.named("news") for it in clients], [[tuple(VALUES)]] * 6)
        checks.same("and nobody in another namespace", heard(admins, "news"), [[]] * 3)
        few = [clients[0], clients[3]]
        await emit.to(few[0].sid, few[1].sid).sockets_join("x", "y")
        checks.same("socketsJoin", await until_room(service, "y", {it.sid for it in few}), {it.sid for it in few})
        for name, aimed, hearers in (("one", emit.to("x"), few), ("two", emit.to("x", "y"), few), ("but", emit.but("x"), clients),
                                     ("quick", emit.volatile(), clients), ("admin", emit.of("/admin"), admins)):
            await aimed.emit(name, 1)
            hearers = [it for it in hearers if name != "but" or it not in few]
            await all_have(hearers, name, 1)
            checks.same(f"{name}: those that are meant hear it once", [len(it.named(name)) for it in clients + admins],
                        [int(it in hearers) for it in clients + admins])
        offsets = [{len(event) for event in client.whole if event[0] in ("quick", "news")} for client in clients]
        checks.same("what is volatile has no offset", offsets, [{2, len(VALUES) + 2}] * 6)
        await emit.to("x").sockets_leave("y")
        checks.same("socketsLeave", await until_room(service, "y", set()), set())
        await emit.to("x").disconnect_sockets()
        await until(lambda: all(client.ended for client in few))
        checks.same("disconnectSockets", [client.ended for client in clients], [int(client in few) for client in clients])


async def until_room(service, room, wanted):
    """Who is in a room over all nodes, as soon as it's these, or after a while."""
    for _ in range(100):
        there = set().union(*[await service.sids(node, room) for node in service.nodes])
        if there == wanted:
            break
        await asyncio.sleep(0.05)
    return there


async def manager(checks, service, _):
    """python-socketio's own, as a program that only writes has it."""
    async with Crowd() as crowd:
        clients = await at_nodes(crowd, service)
        it = socketio.RedisManager(service.redis.url, write_only=True)
        sids = [client.sid for client in clients]

        def publish():
            it.emit("news", ("a", {"b": b"\x01"}))
            it.emit("list", ["a", 1])
            it.emit("direct", "x", room=sids[2])
            it.emit("others", None, skip_sid=sids[2])
            it.disconnect(sids[5], "/")
        await asyncio.to_thread(publish)
        await until(lambda: clients[5].ended)
        await all_have(clients[:5], "others", 0)
        checks.same("a tuple is several arguments", [it.named("news") for it in clients], [[("a", {"b": b"\x01"})]] * 6)
        checks.same("a list is one", heard(clients, "list"), [[(["a", 1],)]] * 6)
        checks.same("to a room", [len(client.named("direct")) for client in clients], [0, 0, 1, 0, 0, 0])
        checks.same("except a socket", [len(client.named("others")) for client in clients], [1, 1, 0, 1, 1, 1])
        checks.same("disconnect", [client.ended for client in clients], [0, 0, 0, 0, 0, 1])
        asynchronous = socketio.AsyncRedisManager(service.redis.url, write_only=True)
        await asynchronous.emit("news", 2, room=sids[0])
        await service.emitter.publish("socketio", json.dumps({"method": "emit", "event": "news", "binary": False, "data": [3],
                                                              "namespace": "/", "room": sids[0], "skip_sid": None}))
        await all_have(clients[:1], "news", 3)
        checks.same("that for asyncio, and the JSON of later versions", clients[0].named("news")[1:], [(2,), (3,)])
        await service.command(service.nodes[0], "socketsJoin", {}, "closing")
        await asyncio.to_thread(it.close_room, "closing", "/")
        checks.same("close_room", await until_room(service, "closing", set()), set())


async def relay(checks, service, language):
    """Apps of one node each, and a room that the bridges relay."""
    async with contextlib.AsyncExitStack() as stack:
        for node in service.nodes:
            await stack.enter_async_context(service.app(language, [node]))
        crowd = await stack.enter_async_context(Crowd())
        published = await stack.enter_async_context(service.emitter.redis.pubsub())
        await published.psubscribe("socket.io-relay#*")
        members, strangers = await at_nodes(crowd, service), await at_nodes(crowd, service, 1)
        await service.join(members, RELAYED)
        for number in range(10):
            for speaker, client in enumerate(members + strangers):
                await client.send("say", RELAYED, speaker, number, b"\x07")
        await all_have(members, "say", 40)
        for place, client in enumerate(members):
            elsewhere = [speaker for speaker in range(6) if speaker // 2 != place // 2]
            wanted = [(RELAYED, speaker, number, b"\x07") for speaker in elsewhere for number in range(10)]
            checks.same(f"member {place} hears what members of the other nodes say, each once, in each one's order",
                        sorted(client.named("say"), key=lambda it: it[1]), wanted)
        checks.same("who isn't in the room hears nothing of it", heard(strangers, "say"), [[]] * 3)
        await last_words(checks, service, members, strangers[0])
        checks.same("nothing else is published", await channels_of(published), {b"socket.io-relay#/#lobby#": 61})


async def last_words(checks, service, members, stranger):
    """Whether a socket was in the room is known when it has gone."""
    bridge = service.bridges[0]
    await service.join(members[1:2], "hall")
    bridge.process.send_signal(signal.SIGSTOP)
    await members[0].send("say", RELAYED, "last words")
    await stranger.send("say", RELAYED, "a stranger's last words")
    await members[1].send("say", "hall", "another room")
    for client in (members[0], stranger):
        await client.close()
    await asyncio.sleep(SETTLED)
    bridge.process.send_signal(signal.SIGCONT)
    await all_have(members[2:], "say", 41)
    checks.same("a member's last words are heard, and a stranger's aren't", [client.named("say")[40:] for client in members[1:]],
                [[]] + [[(RELAYED, "last words")]] * 4)


async def channels_of(published):
    """How much was published at each channel."""
    counts = collections.Counter()
    while message := await published.get_message(timeout=0.1):
        if message["type"] == "pmessage":
            counts[message["channel"]] += 1
    return dict(counts)


# What is wrong, and named.

def packed(packet, opts, uid="emitter"):
    return msgpack.packb([uid, packet, opts])


EVENT = {"type": 2, "data": ["bad"], "nsp": "/"}
ALL = {"rooms": [], "except": [], "flags": {}}
# The channel, the payload, and what each bridge says; backends/redis/tests/forms.py has more that it can tell by itself.
WRONG = [
    ("another#/#", packed(EVENT, ALL), "the prefix isn't socket.io"),
    ("socket.io#/#", packed(EVENT, ALL)[:-5], "no msgpack"),
    ("socket.io#/#", packed(EVENT, {"rooms": [5]}), "malformed command"),
    ("socket.io#/x#", packed({**EVENT, "nsp": "/x"}, ALL), "unknown namespace"),
    ("socket.io#/#", packed(EVENT, {**ALL, "rooms": ["r" * 65]}), "bad room"),
    ("socket.io#/#", packed({**EVENT, "data": ["disconnect"]}, ALL), "reserved name"),
    ("socket.io#/#", packed({**EVENT, "data": ["bad", bytes(1_000_000)]}, ALL), "too large"),
    ("socket.io#/#", packed({**EVENT, "data": ["bad", *[b""] * 33]}, ALL), "too many attachments"),
    ("socket.io-request#/#", b'{"type":4,"opts":{"rooms":[', "no JSON"),
    ("socketio", b"\x80\x04\x95", "no pickle"),
]


async def wrong(checks, service, _):
    async with Crowd() as crowd:
        clients = await at_nodes(crowd, service, 1)
        for number, (channel, payload, said) in enumerate(WRONG):
            before = [len(bridge.lines()) for bridge in service.bridges]
            await service.emitter.publish(channel, payload)
            await service.emitter.emit("good", number)
            await all_with(clients, "good", (number,))
            new = [bridge.lines()[count:] for bridge, count in zip(service.bridges, before)]
            checks(f"{said}: each bridge says so in one line, from {channel}",
                   all(len(lines) == 1 and said in lines[0] and repr(channel) in lines[0] for lines in new), new)
        await service.emitter.publish("another#/#", packed(EVENT, ALL))
        await asyncio.sleep(SETTLED)
        checks("the other prefix isn't named again", all(len(it.said("isn't socket.io")) == 1 for it in service.bridges))
        checks.same("all that is right comes through, once", heard(clients, "good"),
                    [[(number,) for number in range(len(WRONG))]] * 3)
        checks.same("nothing that is wrong does, and nobody is put out",
                    [(it.named("bad"), it.ended) for it in clients], [([], 0)] * 3)


async def all_with(clients, name, values):
    await until(lambda: all(values in client.named(name) for client in clients), 5)


async def refused(checks, service, _):
    """A bridge that has a wrong token, or wrong arguments."""
    url, redis_url, token = service.nodes[0].url, service.redis.url, service.token_file
    false = service.folder / "false_token"
    false.write_text("false\n")
    for text, words, said in (("a wrong token", (url, false, redis_url), "Not allowed"),
                              ("no token file", (url, service.folder / "none", redis_url), "No such file"),
                              ("no URL of Redis", (url, token, "http://127.0.0.1"), "redis://"),
                              ("a long room", (url, token, redis_url, "--relay", "r" * 65), "bad room")):
        done = await asyncio.to_thread(subprocess.run, [*BRIDGE, *words], capture_output=True, text=True, timeout=30, env=PLACES)
        lines = done.stderr.splitlines()
        checks(f"{text}: status 2, and it is said", done.returncode == 2 and said in lines[-1], (done.returncode, lines))
        checks(f"{text}: in one line", len(lines) == 1 or lines[0].startswith("usage"), lines)


async def silent(checks, service, language):
    """A node that stands still, and one that isn't there."""
    stopped, nobody = service.nodes[2].process, service.node("nobody" + language)
    bridge = service.bridge(f"bridge_of_nobody_{language}", nobody.url)
    service.others.append(bridge)
    bridge.spawn()
    async with Crowd() as crowd, service.app(language, [*service.nodes, nobody]):
        clients = await at_nodes(crowd, service, 1)
        stopped.send_signal(signal.SIGSTOP)
        await asyncio.sleep(SETTLED)
        for number in range(50):
            await service.emitter.emit("news", number)
            await clients[0].send("say", number)
        await until(lambda: all(len(client.got) == 100 for client in clients[:2]), 10)
        checks.same("while one node stands still, the others are told all", [len(it.got) for it in clients], [100, 100, 0])
        stopped.send_signal(signal.SIGCONT)
        await all_have(clients[2:], "said", 50)
        for name in ("news", "said"):
            checks.same(f"and then it is, too: each {name} once, in order",
                        [[it[-1] for it in client.named(name)] for client in clients], [list(range(50))] * 3)
    await until(lambda: bridge.said("no connection with the server"))
    await asyncio.sleep(1)
    checks.same("the bridge of the one that isn't there says so, once", len(bridge.said("no connection with the server")), 1)
    bridge.end()


SCENES = {forms: [""], proxies: BOTH, emitter: [""], manager: [""], relay: BOTH, wrong: [""], refused: [""], silent: BOTH}
