#!/usr/bin/python3
"""python-socketio's own client over polling, over WebSocket, upgraded, and all of these side by side.

    python_client.py PORT [WORD]     WORD: only the checks whose names hold it
"""
import argparse
import asyncio
import functools
import itertools
import json
import logging
import pathlib
import re
import sys

import engineio.payload
import socketio

PATIENCE = 10
OFFSET = re.compile('[0-9a-f]{16}$')
TRANSPORTS = {'polling': ['polling'], 'websocket': ['websocket'], 'upgrade': None}
# Of a check whose clients have several transports those of a, b and so on.
MIXED = ('websocket', 'polling', 'upgrade')
CASES = pathlib.Path(__file__).with_name('cases.txt')
STEP = re.compile(r'((?:[a-d] )+)([a-z]+?)s?((?: /\w*)*)(?: (.*))?')
engineio.payload.Payload.max_decode_packets = 100_000   # clients that poll take no more than 16 at once else
logging.disable(logging.CRITICAL)


class Session(socketio.AsyncClient):
    """A client that keeps the private id of its session."""

    pid = None

    async def _handle_connect(self, namespace, data):
        self.pid = data.get('pid')
        await super()._handle_connect(namespace, data)


class Chatter:
    """One client, and what came to it."""

    def __init__(self, port, transport):
        self.url = f'http://127.0.0.1:{port}'
        self.transport = transport
        self.sio = Session(reconnection=False)
        self.events = asyncio.Queue()
        self.refusals = asyncio.Queue()
        self.ended = asyncio.Queue()
        self.answers, self.offset = [], ''
        for namespace in ('/', '/admin', '/nowhere'):
            self.listen(namespace)

    def listen(self, namespace):
        @self.sio.on('*', namespace=namespace)
        async def came(event, *data):
            self.events.put_nowait((namespace, event, *data))
            return self.answers.pop(0) if self.answers else None

        @self.sio.on('connect_error', namespace=namespace)
        async def refused(*data):
            self.refusals.put_nowait((namespace, *data))

        @self.sio.on('disconnect', namespace=namespace)
        async def ended():
            self.ended.put_nowait(namespace)

    async def connect(self, namespaces=('/',), auth=None, wait=True):
        await self.sio.connect(self.url, auth=auth, transports=TRANSPORTS[self.transport],
                               namespaces=list(namespaces), wait=wait, wait_timeout=PATIENCE if wait else 1)
        self.sid, self.pid = self.sio.get_sid('/'), self.sio.pid
        return self

    async def call(self, *data, namespace='/'):
        """Emits an event and waits for its acknowledgement."""
        return await self.sio.call(data[0], data[1:], namespace=namespace, timeout=PATIENCE)

    async def emit(self, *data, namespace='/'):
        await self.sio.emit(data[0], data[1:], namespace=namespace)

    async def expect(self, *data, namespace='/', logged=True):
        """The next event has to be this one; a logged one has its offset behind it."""
        event = await soon(self.events, f'{data[0]} for a member')
        if logged:
            *event, offset = event
            ensure(isinstance(offset, str) and OFFSET.match(offset), f'no offset behind {brief(event)}')
            ensure(offset > self.offset, 'offsets rise')
            self.offset = offset
        ensure((*event,) == (namespace, *data), f'{brief(event)} for {brief((namespace, *data))}')

    async def expect_nothing(self, namespace='/'):
        """All that was put for the client before now has come: its own call was answered behind it."""
        await self.call('quiet', 'nobody', namespace=namespace)
        ensure(self.events.empty(), f'more than was expected: {brief(list(self.events._queue))}')

    async def will_answer(self, answers):
        self.answers += answers

    async def acknowledged(self, *data, namespace='/'):
        """The event's acknowledgement is empty."""
        ensure(await self.call(*data, namespace=namespace) is None, f'the acknowledgement of {data[0]}')

    async def expect_end(self, namespace='/'):
        ended = await soon(self.ended, 'the disconnection')
        ensure(ended == namespace and self.sio.connected == bool(self.sio.namespaces), 'disconnected')

    async def disconnect(self):
        """Ends its connection, and is told so."""
        await self.sio.disconnect()
        ensure(await soon(self.ended, 'the disconnection') == '/', 'disconnected')

    async def leave(self):
        # Its own `disconnect` may close the WebSocket before the packet is sent.
        await self.sio.eio.send('1')
        del self.sio.namespaces['/']

    async def enter_again(self):
        await self.sio.eio.send('0')
        while '/' not in self.sio.namespaces:
            await asyncio.sleep(0.01)

    async def close(self):
        if self.sio.eio.state == 'connected':
            await self.sio.disconnect()
        tasks = [self.sio.eio.read_loop_task, self.sio.eio.write_loop_task]
        await asyncio.wait([task for task in tasks if task], timeout=1)
        for task in tasks:
            if task and not task.done():
                task.cancel()
        if self.sio.eio.http and not self.sio.eio.http.closed:
            await self.sio.eio.http.close()


def ensure(holds, why):
    if not holds:
        raise AssertionError(why)


def brief(value):
    text = repr(value)
    return text if len(text) < 200 else text[:200] + '..'


async def soon(queue, what):
    try:
        return await asyncio.wait_for(queue.get(), PATIENCE)
    except asyncio.TimeoutError:
        raise AssertionError(f"{what} doesn't come") from None


class Room:
    """Makes the clients of one check, and closes them behind it."""

    def __init__(self, port, transport):
        self.port, self.clients = port, []
        self.transports = itertools.cycle(MIXED if transport == 'mixed' else [transport])

    def client(self, transport=None):
        self.clients.append(Chatter(self.port, transport or next(self.transports)))
        return self.clients[-1]

    async def member(self, *rooms, namespaces=('/',)):
        client = await self.client().connect(namespaces)
        for namespace in namespaces:
            for room in rooms:
                await client.acknowledged('join', room, namespace=namespace)
        return client

    async def close(self):
        for client in self.clients:
            await client.close()


# ---- the checks

# What the verbs of cases.txt have a client do, in a namespace and with a value.
VERBS = {
    'call': lambda client, space, event: client.acknowledged(*event, namespace=space),
    'emit': lambda client, space, event: client.emit(*event, namespace=space),
    'hear': lambda client, space, event: client.expect(*event, namespace=space),
    'get': lambda client, space, event: client.expect(*event, namespace=space, logged=False),
    'rest': lambda client, space, _: client.expect_nothing(space),
    'end': lambda client, space, _: client.expect_end(space),
    'leave': lambda client, *_: client.leave(),
    'return': lambda client, *_: client.enter_again(),
    'close': lambda client, *_: client.disconnect(),
    'lose': lambda client, *_: client.sio.eio.disconnect(abort=True),
    'answer': lambda client, _, answers: client.will_answer(answers),
    'write': lambda client, _, text: client.sio.eio.send(text),
}


def made(value):
    """An object of cases.txt, or what it stands for."""
    if 'rising' in value:
        return bytes(number % 256 for number in range(value['rising']))
    return bytes(value['bytes']) if 'bytes' in value else 'x' * value['letters'] if 'letters' in value else value


async def play(lines, room):
    """Plays the steps of a case."""
    clients, said = {}, None
    for step in ';'.join(lines).split(';'):
        names, verb, spaces, text = STEP.fullmatch(step.strip()).groups()
        value = text if verb == 'write' else json.loads(text, object_hook=made) if text else said
        said = value if verb in ('call', 'emit') else said
        spaces = spaces.split() or ['/']
        for name in names.split():
            if verb == 'enter':
                clients[name] = await room.member(*value, namespaces=spaces)
            else:
                await VERBS[verb](clients[name], spaces[0], value)


def cases_in(text):
    """The checks of cases by their names."""
    cases = [it.split('\n') for it in text.strip().split('\n\n') if not it.startswith('#')]
    return {name: functools.partial(play, lines) for name, *lines in cases}


async def connects(room):
    client = await room.client().connect(auth={'token': 'yes'})
    expected = 'polling' if client.transport == 'polling' else 'websocket'
    ensure(client.sio.transport() == expected, f'the transport is {client.sio.transport()}')
    ensure(client.sio.get_sid('/'), 'a session id')
    await client.expect_nothing()


async def is_refused(room):
    client = room.client()
    await client.connect(auth={'token': 'no'}, wait=False)
    refusal = await soon(client.refusals, 'the refusal')
    ensure(refusal == ('/', {'message': 'Not allowed'}), brief(refusal))
    try:
        await room.client().sio.connect(client.url, auth={'token': 'no'}, transports=TRANSPORTS[client.transport])
    except socketio.exceptions.ConnectionError:
        return
    ensure(False, 'connect reports success')


async def unknown_namespace(room):
    client = await room.client().connect(('/', '/nowhere'), wait=False)
    refusal = await soon(client.refusals, 'the refusal')
    ensure(refusal == ('/nowhere', {'message': 'Invalid namespace'}), brief(refusal))
    await client.expect_nothing()


async def answers(room):
    client = await room.member()
    called = asyncio.Queue()
    await client.sio.emit('unknown to the app', 1, callback=lambda *data: called.put_nowait(data))
    ensure(await soon(called, 'the callback') == (), 'the acknowledgement is empty')
    for answer in (None, 'text', {'a': [1]}, (1, 2), b'bytes'):
        client.answers.append(answer)
        await client.emit('ask', 'why', 7)
        await client.expect('ask', 'why', 7, logged=False)
    await client.emit('ask', b'\x00\x01')
    await client.expect('ask', b'\x00\x01', logged=False)
    await client.expect_nothing()
    ensure(client.sio.connected, 'still connected')


async def in_order(room):
    a, b = [await room.member('r') for _ in range(2)]
    for batch in range(10):
        for n in range(20):
            await a.emit('say', 'r', batch, n)
        for n in range(20):
            await b.expect('say', 'r', batch, n)


CHECKS = {
    'connects': connects,
    'is refused by the app': is_refused,
    'is refused an unknown namespace': unknown_namespace,
    'answers both ways': answers,
    'events in order': in_order,
    **cases_in(CASES.read_text(encoding='utf-8')),
}


async def played(given, checks, transports):
    """The status, after the checks were run whose names hold the word."""
    failed = 0
    for transport in transports:
        for name, check in checks.items():
            name = f'{transport}: {name}'
            if given.word not in name:
                continue
            room = Room(given.port, transport)
            try:
                await asyncio.wait_for(check(room), 120)
                print(f'ok      {name}', flush=True)
            except Exception as error:
                failed += 1
                print(f'FAILED  {name}: {type(error).__name__} {error}', flush=True)
            await room.close()
    return 1 if failed else 0


def main(checks, text, transports=(*TRANSPORTS, 'mixed')):
    """A program of checks, with its usage, which are run over each of the transports."""
    parser = argparse.ArgumentParser(description=text, formatter_class=argparse.RawDescriptionHelpFormatter)
    parser.add_argument('port', metavar='PORT', type=int)
    parser.add_argument('word', metavar='WORD', nargs='?', default='')
    sys.exit(asyncio.run(played(parser.parse_args(), checks, transports)))


if __name__ == '__main__':
    main(CHECKS, __doc__)
