#!/usr/bin/python3
"""Connections that are cut in mid-stream, and sessions that come back: the same session, and just the missed events, each once,
in order. And clients of each transport at rest, for longer than two ping intervals.

    recovery.py PORT [WORD]     WORD: only the checks whose names hold it
"""
import asyncio
import functools
import itertools
import socket
import struct

from python_client import ensure, main

NOTICED = 0.3
AT_REST = 60        # seconds, in which a server pings twice
NO_LINGER = struct.pack('ii', 1, 0)


def said(number):
    """What the number's event says."""
    return (number, bytes([number % 256])) if number % 7 == 0 else (number,)


class Member:
    """A member of a room whose connection can be cut, and the number that it hears next."""

    def __init__(self, room, name):
        self.room, self.name, self.next = room, name, 0

    async def begin(self):
        self.client = await self.room.client('websocket').connect()
        await self.client.call('join', self.name)

    async def comes_back(self, transport):
        """Over a connection of its own, and has to be the one that it was."""
        before, self.client = self.client, self.room.client(transport)
        await self.client.connect(auth={'pid': before.pid, 'offset': before.offset})
        ensure((self.client.sid, self.client.pid) == (before.sid, before.pid), 'another session comes back')
        self.client.offset = before.offset

    async def hears(self, count):
        for _ in range(count):
            await self.client.expect('say', self.name, *said(self.next))
            self.next += 1

    async def hears_all(self, count):
        await self.hears(count - self.next)
        await self.client.expect_nothing()

    async def cut(self, by_reset):
        """Its WebSocket ends, by a reset or not."""
        transport = self.client.sio.eio.ws._response.connection.transport
        if by_reset:
            transport.get_extra_info('socket').setsockopt(socket.SOL_SOCKET, socket.SO_LINGER, NO_LINGER)
        transport.abort()

    async def close(self):
        await self.client.sio.eio.disconnect()


class Speakers:
    """Others who speak in turn until they are stopped: to the room each number once, and beside that what a member must not get,
    to another room, or without an offset while it is away."""

    def __init__(self, room, name):
        self.room, self.name, self.count, self.is_over, self.is_away = room, name, 0, False, False

    async def begin(self):
        clients = [await self.room.client(it).connect() for it in ('websocket', 'websocket', 'polling')]
        self.speaking = asyncio.ensure_future(self.speak(clients))

    async def speak(self, clients):
        for client in itertools.cycle(clients):
            if self.is_over:
                return
            await client.call('say', self.name, *said(self.count))
            self.count += 1
            if self.count % 3 == 0:
                await client.call('say', 'elsewhere', self.count)
            if self.is_away:
                await client.call('quiet', self.name, 'unlogged')
            await asyncio.sleep(0.01)

    async def reach(self, count):
        while self.count < count:
            ensure(not self.speaking.done(), 'nobody speaks on')
            await asyncio.sleep(0.005)

    async def end(self):
        self.is_over = True
        await self.speaking
        return self.count


async def goes_away(member, speakers, cut, transport):
    """The member is cut in mid-stream, the others speak on, and it comes back while they speak."""
    speakers.is_away = True
    await cut
    left = speakers.count
    await asyncio.sleep(NOTICED)
    await speakers.reach(left + 25)
    speakers.is_away = False
    await speakers.reach(speakers.count + 1)
    await member.comes_back(transport)
    await member.hears(30)


async def is_cut(room, by_reset):
    member, speakers = Member(room, 'cut'), Speakers(room, 'cut')
    await member.begin()
    await speakers.begin()
    await member.hears(10)
    await goes_away(member, speakers, member.cut(by_reset), 'websocket')
    await goes_away(member, speakers, member.cut(by_reset), 'polling')
    await goes_away(member, speakers, member.close(), 'upgrade')
    await goes_away(member, speakers, member.cut(by_reset), 'websocket')
    await member.hears_all(await speakers.end())


async def many_are_cut(room):
    members, speakers = [Member(room, 'crowd') for _ in range(20)], Speakers(room, 'crowd')
    for member in members:
        await member.begin()
    await speakers.begin()
    for member in members:
        await member.hears(5)
    await asyncio.gather(*(goes_away(it, speakers, it.cut(n % 2), 'websocket' if n % 3 else 'polling') for n, it in enumerate(members)))
    count = await speakers.end()
    for member in members:
        await member.hears_all(count)


async def rest(room):
    members = [await room.member('rest') for _ in range(4)]
    await asyncio.sleep(AT_REST)
    for speaker in members:
        await speaker.call('say', 'rest', 'awake')
        for member in members:
            if member is not speaker:
                await member.expect('say', 'rest', 'awake')


CHECKS = {
    'cut by an end, in mid-stream, four times': functools.partial(is_cut, by_reset=False),
    'cut by a reset, in mid-stream, four times': functools.partial(is_cut, by_reset=True),
    'twenty members at once': many_are_cut,
    'at rest': rest,
}

if __name__ == '__main__':
    main(CHECKS, __doc__, ['mixed'])
