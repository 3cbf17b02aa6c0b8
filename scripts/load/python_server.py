#!/usr/bin/python3
"""The load's events, `join` and `say`, on python-socketio's AsyncServer, as its documentation has it.

    python_server.py PORT [--uvicorn]     on aiohttp, or on uvicorn

Needs Debian's python3-socketio, and python3-aiohttp, or python3-uvicorn with python3-websockets or python3-wsproto.
"""
import argparse

import socketio

parser = argparse.ArgumentParser(description=__doc__, formatter_class=argparse.RawDescriptionHelpFormatter)
parser.add_argument('port', type=int)
parser.add_argument('--uvicorn', action='store_true')
arguments = parser.parse_args()
sio = socketio.AsyncServer(async_mode='asgi' if arguments.uvicorn else 'aiohttp')


@sio.event
async def join(sid, room):
    sio.enter_room(sid, room)


@sio.event
async def say(sid, room, *message):
    await sio.emit('say', (room, *message), room=room, skip_sid=sid)


def serve_by_uvicorn():
    import uvicorn
    from uvicorn.protocols.websockets.auto import AutoWebSocketsProtocol
    if AutoWebSocketsProtocol is None:
        raise SystemExit('uvicorn needs websockets or wsproto')
    uvicorn.run(socketio.ASGIApp(sio), host='127.0.0.1', port=arguments.port, backlog=1024, log_level='warning')


def serve_by_aiohttp():
    from aiohttp import web
    app = web.Application()
    sio.attach(app)
    web.run_app(app, host='127.0.0.1', port=arguments.port, backlog=1024, access_log=None)


if arguments.uvicorn:
    serve_by_uvicorn()
else:
    serve_by_aiohttp()
