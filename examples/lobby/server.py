"""A group chat. Usage: PYTHONPATH=backends/python python3 examples/lobby/server.py http://127.0.0.1:3000 TOKEN_FILE"""
import asyncio
import pathlib
import sys

from daghzimo_backend import AsyncBackend

url, token_file = sys.argv[1:]
sio = AsyncBackend(url, token=pathlib.Path(token_file).read_text().strip())
people: dict[str, str] = {}  # the names of those who are here, by the ids of their sockets


@sio.event
async def connect(sid, environ, auth):
    await sio.emit("hello", to=sid)


@sio.event
async def join(sid, name):
    name = str(name).strip()[:32] or "Somebody"
    await sio.enter_room(sid, "lobby")
    if sid not in people:
        await sio.emit("joined", name, room="lobby", skip_sid=sid)
    people[sid] = name
    await sio.emit("here", list(people.items()), room="lobby")


@sio.event
async def message(sid, text):
    if sid in people:
        await sio.emit("message", (sid, people[sid], str(text)[:2000]), room="lobby", skip_sid=sid)


@sio.event
async def typing(sid, is_typing):
    if sid in people:
        await sio.emit("typing", (sid, people[sid], bool(is_typing)), room="lobby", skip_sid=sid)


@sio.event
async def disconnect(sid):
    if name := people.pop(sid, None):
        await sio.emit("left", name, room="lobby", skip_sid=sid)
        await sio.emit("here", list(people.items()), room="lobby")


if __name__ == "__main__":
    asyncio.run(sio.run())
