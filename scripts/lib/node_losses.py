"""Scenes of scripts/try_nodes in which something ends and comes back: who loses what. Each gets the checks, the service and a
language."""
import asyncio
import contextlib
import signal

from .backends import HIGH, LOW, twice, until
from .clients import Crowd
from .node_scenes import BOTH, SETTLED, at_nodes

BEAT = 0.01         # seconds between two events
BEFORE, AWAY, AFTER = 1.0, 2.0, 2.0     # seconds


class Ticks:
    """Sends `tick`s with numbers by a coroutine function, until it is stopped. `sent` has what that gave for each."""

    def __init__(self, send, beat=BEAT):
        self.send, self.beat, self.sent, self.is_over = send, beat, {}, False
        self.task = asyncio.ensure_future(self.run())

    async def run(self):
        while not self.is_over:
            number = len(self.sent)
            self.sent[number] = None
            self.sent[number] = await self.send(number)
            await asyncio.sleep(self.beat)


async def end(talks, clients):
    """Ends them, and waits until nothing comes any more."""
    for talk in talks:
        talk.is_over = True
        await talk.task
    heard = None
    while heard != (heard := sum(len(client.whole) for client in clients)):
        await asyncio.sleep(2 * SETTLED)


def is_rising(numbers):
    return all(a < b for a, b in zip(numbers, numbers[1:]))


def numbers(client, name, sid=None):
    return [values[-1] for values in client.named(name) if sid is None or values[0] == sid]


def said_once(checks, clients, names):
    """Nothing comes twice."""
    heard = [[(name, *values) for name in names for values in client.named(name)] for client in clients]
    checks.same("nobody hears anything twice", [twice(events) for events in heard], [[]] * len(clients))


async def gone_for_a_while(process):
    await asyncio.sleep(BEFORE)
    process.end(signal.SIGKILL)
    await asyncio.sleep(AWAY)
    await asyncio.to_thread(process.start)


async def node_killed(checks, service, language):
    node, bridge = service.nodes[1], service.bridges[1]
    async with Crowd() as crowd, service.app(language):
        clients = await at_nodes(crowd, service, stay=True)
        speaker, others, own = clients[0], clients[:2] + clients[4:], clients[2:4]
        before = len(bridge.lines())
        ticks = Ticks(lambda number: service.emitter.emit("tick", number))
        words = Ticks(lambda number: speaker.send("say", number))
        await gone_for_a_while(node)
        await until(lambda: all(len(client.sids) == 2 for client in own)
                    and bridge.said("connected with the server", before))
        back = len(ticks.sent)
        await asyncio.sleep(AFTER)
        await end([ticks, words], clients)
        for name, sent in (("tick", ticks.sent), ("said", words.sent)):
            elsewhere, here = ([numbers(client, name) for client in they] for they in (others, own))
            checks(f"{name}: who is at another node hears all {len(sent)}, in order",
                   all(heard == list(range(len(sent))) for heard in elsewhere), [len(heard) for heard in elsewhere])
            lost = [len(sent) - len(heard) for heard in here]
            checks(f"{name}: at the node that was killed {lost[0]} and {lost[1]} of {len(sent)} are lost, and the rest comes in order",
                   all(map(is_rising, here)) and all(0 < count < len(sent) for count in lost))
        late = [set(range(back + 5, len(ticks.sent))) - set(numbers(client, "tick")) for client in own]
        checks.same("who is back there hears all that is published", late, [set(), set()])
        said_once(checks, clients, ["tick", "said"])
        new = bridge.lines()[before:]
        checks("its bridge says that the node is away, and back",
               "the connection with the server is lost" in new[0] and "connected with the server" in new[-1], new)


async def redis_killed(checks, service, language):
    async with Crowd() as crowd, service.app(language):
        clients = await at_nodes(crowd, service)
        before = [len(bridge.lines()) for bridge in service.bridges]
        ticks = Ticks(lambda number: service.emitter.emit("tick", number))
        words = Ticks(lambda number: clients[0].send("say", number))
        await gone_for_a_while(service.redis)
        await until(lambda: ticks.sent.get(len(ticks.sent) - 2) == len(service.nodes))
        await asyncio.sleep(AFTER)
        await end([ticks, words], clients)
        to_all = {number for number, bridges in ticks.sent.items() if bridges == len(service.nodes)}
        to_some = {number for number, bridges in ticks.sent.items() if bridges}
        checks(f"of {len(ticks.sent)} that are published all hear the {len(to_all)} that Redis sent to all bridges, in order",
               all(is_rising(heard) and to_all <= set(heard) for heard in (numbers(client, "tick") for client in clients)))
        more = set().union(*[numbers(client, "tick") for client in clients]) - to_some
        checks(f"and nothing of the {len(ticks.sent) - len(to_some)} that it sent to none, but for one whose answer was lost",
               len(ticks.sent) > len(to_some) and len(more) <= 1, more)
        checks(f"the apps go on: all hear all {len(words.sent)} of theirs",
               all(numbers(client, "said") == list(range(len(words.sent))) for client in clients))
        said_once(checks, clients, ["tick", "said"])
        new = [bridge.lines()[count:] for bridge, count in zip(service.bridges, before)]
        checks("each bridge says that Redis is away, and back",
               all("no connection with Redis" in lines[0] and "connected with Redis" in lines[-1] for lines in new), new)


async def app_killed(checks, service, language):
    async with contextlib.AsyncExitStack() as stack:
        low = await stack.enter_async_context(service.app(language, digits=LOW))
        await stack.enter_async_context(service.app(language, digits=HIGH))
        crowd = await stack.enter_async_context(Crowd())
        clients = await at_nodes(crowd, service, 4)
        talks = [Ticks(lambda number, client=client: client.send("say", number), 5 * BEAT) for client in clients]
        await asyncio.sleep(BEFORE)
        low.process.kill()
        await asyncio.sleep(AWAY)
        await stack.enter_async_context(service.app(language, digits=LOW))
        await asyncio.sleep(AFTER)
        await end(talks, clients)
        sent = {client.sid: len(talk.sent) for client, talk in zip(clients, talks)}
        tell_of_apps(checks, clients, sent)
        said_once(checks, clients, ["said"])


def tell_of_apps(checks, clients, sent):
    """`sent`: how many events by each sid. The app of the low digits was away."""
    heard = {sid: [numbers(client, "said", sid) for client in clients] for sid in sent}
    high, low = ({sid: count for sid, count in sent.items() if sid[0] in digits} for digits in (HIGH, LOW))
    checks(f"all hear all {sum(high.values())} events of {len(high)} clients of the other app, in order",
           all(it == list(range(count)) for sid, count in high.items() for it in heard[sid]))
    lost = sum(count - max(map(len, heard[sid])) for sid, count in low.items())
    checks(f"of {sum(low.values())} events of {len(low)} clients of the killed one {lost} are lost, and the rest comes in order",
           lost > 0 and all(is_rising(it) and it[-1] == count - 1 for sid, count in low.items() for it in heard[sid]))
    uneven = sum(len(set().union(*heard[sid]) - set.intersection(*map(set, heard[sid]))) for sid in low)
    checks(f"{uneven} of them came to some nodes alone, at most those of one moment", uneven <= 2 * len(low))


LOSSES = {node_killed: BOTH, redis_killed: BOTH, app_killed: BOTH}
