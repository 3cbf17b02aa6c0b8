"""Private messages. Usage: PYTHONPATH=backends/python python3 examples/messages/server.py http://127.0.0.1:3000 TOKEN_FILE"""
import asyncio
import pathlib
import sys

from daghzimo_backend import AsyncBackend
from socketio.exceptions import ConnectionRefusedError, TimeoutError

url, token_file = sys.argv[1:]
sio = AsyncBackend(url, token=pathlib.Path(token_file).read_text().strip())
users: dict[str, set[str]] = {}  # the sockets of each name that was ever here


async def tell_users():
    await sio.emit("users", [(name, len(sids) > 0) for name, sids in sorted(users.items())])


# A name is all that is asked for. An app that has to know who somebody is asks for more.
@sio.event
async def connect(sid, environ, auth):
    # A session that came back has its name from before.
    name = str((auth or await sio.get_session(sid)).get("name", "")).strip()[:16]
    if not name:
        raise ConnectionRefusedError("a name is needed")
    await sio.save_session(sid, {"name": name})
    users.setdefault(name, set()).add(sid)
    await sio.emit("hello", to=sid)
    await tell_users()


async def delivers(sid, name, text):
    try:
        await sio.call("message", (name, text), to=sid, timeout=4)
        return True
    except TimeoutError:
        return False


@sio.on("private message")
async def private_message(sid, to, text):
    name = (await sio.get_session(sid))["name"]
    return any(await asyncio.gather(*(delivers(it, name, str(text)[:2000]) for it in users.get(str(to), ()))))


@sio.event
async def disconnect(sid):
    name = (await sio.get_session(sid)).get("name")
    if name in users:
        users[name].discard(sid)
        await tell_users()


if __name__ == "__main__":
    asyncio.run(sio.run())
