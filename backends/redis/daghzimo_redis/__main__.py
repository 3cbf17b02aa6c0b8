"""The bridge as a program."""
from __future__ import annotations

import argparse
import asyncio
import contextlib
import logging
import pathlib
import signal
import sys

import redis.asyncio
from daghzimo_backend.commands import CommandError, check_room
from socketio.exceptions import ConnectionRefusedError

from .bridge import Bridge

NAME = "daghzimo-redis"
PATIENCE = 10.0     # seconds, for Redis


class WithoutRepeats(logging.Filter):
    """Lets a line through that isn't the one before, so that attempts in vain are told once."""

    last = ""

    def filter(self, record: logging.LogRecord) -> bool:
        line, self.last = self.last, record.getMessage()
        return line != self.last or line.startswith("skipped")


def arguments() -> argparse.Namespace:
    parser = argparse.ArgumentParser(prog=NAME, description="Does at a node what Socket.IO's Redis emitters publish.")
    parser.add_argument("url", metavar="NODE", help="such as http://127.0.0.1:3000")
    parser.add_argument("token", metavar="TOKEN_FILE", type=pathlib.Path, help="that of the node's --backend-token")
    parser.add_argument("redis", metavar="REDIS", help="such as redis://127.0.0.1:6379")
    parser.add_argument("--prefix", default="socket.io", help="of the channels: the emitters' option `key` (socket.io)")
    parser.add_argument("--python", metavar="CHANNEL", help="reads python-socketio's channel too, which is usually socketio")
    parser.add_argument("--relay", metavar="ROOM", action="append", default=[], type=room,
                        help="tells the other nodes what members of this room say; may be given several times")
    parser.add_argument("--report", metavar="SECONDS", type=float, help="tells the counts every so often")
    return parser.parse_args()


def room(text: str) -> str:
    try:
        check_room(text)
    except CommandError as error:
        raise argparse.ArgumentTypeError(str(error)) from None
    return text


def counted(bridge: Bridge) -> str:
    return ", ".join(f"{name} {count}" for name, count in bridge.counts.items())


async def report(bridge: Bridge, seconds: float) -> None:
    while True:
        await asyncio.sleep(seconds)
        print(f"{NAME}: {counted(bridge)}", file=sys.stderr)


async def serve(given: argparse.Namespace, token: str) -> None:
    client = redis.asyncio.from_url(given.redis, socket_connect_timeout=PATIENCE, socket_timeout=PATIENCE)
    bridge = Bridge(given.url, token, client, given.prefix, given.python, given.relay)
    task = asyncio.ensure_future(bridge.run())
    for number in (signal.SIGTERM, signal.SIGINT):
        asyncio.get_running_loop().add_signal_handler(number, task.cancel)
    reporting = asyncio.ensure_future(report(bridge, given.report)) if given.report else None
    with contextlib.suppress(asyncio.CancelledError):
        await task
    if reporting:
        reporting.cancel()
    print(f"{NAME}: {counted(bridge)}", file=sys.stderr)


def main() -> None:
    given = arguments()
    handler = logging.StreamHandler()
    handler.setFormatter(logging.Formatter(f"{NAME}: %(message)s"))
    handler.addFilter(WithoutRepeats())
    logging.getLogger("daghzimo_redis").addHandler(handler)
    try:
        token = given.token.read_text().strip("\r\n")
        asyncio.run(serve(given, token))
    except (OSError, ValueError, ConnectionRefusedError, CommandError) as error:
        print(f"{NAME}: {given.url}: {error}", file=sys.stderr)
        sys.exit(2)


if __name__ == "__main__":
    main()
