"""A backend for scripts/try_backends: it prints what it is told, a line of JSON each, tells what clients say to all, and calls
what a line of its input says.

backend.py URLS TOKEN DIGITS        URLS: with commas between"""
import asyncio
import inspect
import json
import logging
import os
import sys

sys.path.insert(0, os.path.join(os.path.dirname(os.path.abspath(__file__)), '..', '..', 'backends', 'python'))
from daghzimo_backend import AsyncBackend  # noqa: E402

urls, token, digits = sys.argv[1:4]
sio = AsyncBackend(urls.split(',') if ',' in urls else urls, token=token, digits=digits, async_handlers=False)


def show(*values):
    print(json.dumps(values), flush=True)


@sio.event
async def connect(sid, environ, auth):
    show('connection', sid)


@sio.on('*')
async def others(name, sid, *values):
    show('event', sid, name, *values)
    if name == 'say':
        await sio.emit('said', (sid, *values))
    return values


@sio.event
async def disconnect(sid):
    show('disconnection', sid)


class Shown(logging.Handler):
    def emit(self, record):
        show('log', '', record.getMessage())


async def call(number, name, arguments=(), options=None):
    """Answers to a broadcast are printed as they come."""
    options = options or {}
    if 'callback' in options:
        options['callback'] = lambda *values: show('answer', number, *values)
    try:
        value = getattr(sio, name)(*arguments, **options)
        show('done', number, None, await value if inspect.isawaitable(value) else value)
    except Exception as error:
        show('done', number, str(error), None)


async def main():
    logging.getLogger('daghzimo_backend').addHandler(Shown())
    await sio.start()
    show('ready', '')
    calls = set()
    while line := await asyncio.to_thread(sys.stdin.readline):
        calls.add(asyncio.ensure_future(call(*json.loads(line))))
    await asyncio.Event().wait()

asyncio.run(main())
