"""Lines drawn together. Usage: PYTHONPATH=backends/python python3 examples/whiteboard/server.py http://127.0.0.1:3000 TOKEN_FILE"""
import asyncio
import collections
import pathlib
import sys

from daghzimo_backend import AsyncBackend

url, token_file = sys.argv[1:]
sio = AsyncBackend(url, token=pathlib.Path(token_file).read_text().strip())
lines = collections.defaultdict(lambda: collections.deque(maxlen=5000))  # of each board, for those who come later
people = collections.defaultdict(set)  # the sockets at each board
boards: dict[str, str] = {}  # the board of each socket


# A line is [colour, width, x, y, x, y ..]. All of a board fit in one packet.
def is_line(it):
    return isinstance(it, list) and len(it) <= 32 and all(isinstance(part, int) and 0 <= part < 10000 for part in it)


@sio.event
async def connect(sid, environ, auth):
    await sio.emit("hello", to=sid)


@sio.event
async def join(sid, name):
    board = boards.setdefault(sid, str(name)[:16])
    people[board].add(sid)
    await sio.enter_room(sid, board)
    await sio.emit("here", len(people[board]), room=board)
    return list(lines[board])


@sio.event
async def line(sid, drawn):
    if sid in boards and is_line(drawn):
        lines[boards[sid]].append(drawn)
        # Who is too slow for them, or away, has all of them again when it joins. python-socketio itself has no `volatile`.
        await sio.emit("line", drawn, room=boards[sid], skip_sid=sid, volatile=True)


@sio.event
async def clear(sid):
    if sid in boards:
        lines[boards[sid]].clear()
        await sio.emit("clear", room=boards[sid])


@sio.event
async def disconnect(sid):
    if board := boards.pop(sid, None):
        people[board].discard(sid)
        await sio.emit("here", len(people[board]), room=board)


if __name__ == "__main__":
    asyncio.run(sio.run())
