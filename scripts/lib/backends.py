"""What scripts/try_backends has its parts play with: servers, and backends."""
import argparse
import asyncio
import collections
import json
import pathlib
import secrets
import signal
import subprocess
import sys
import time

from . import processes
from .processes import file_at

TOP = pathlib.Path(__file__).resolve().parent.parent.parent
CLIENTS = TOP / "scripts" / "clients"
NODE, PYTHON = ["/usr/bin/node"], ["/usr/bin/python3", "-B"]
LONGEST = 900       # seconds, for the program's start (it may be built first)
PATIENCE = 20
ALL, LOW, HIGH = "0123456789abcdef", "01234567", "89abcdef"


def arguments(text, *flags):
    """What a script with this text is given."""
    parser = argparse.ArgumentParser(description=text, formatter_class=argparse.RawDescriptionHelpFormatter)
    parser.add_argument("program", metavar="PROGRAM", type=file_at)
    parser.add_argument("--library", metavar="FILE", type=file_at, required=True)
    parser.add_argument("--only", metavar="WORD", default="")
    for flag in flags:
        parser.add_argument(flag, action="store_true")
    return parser.parse_args()


async def until(condition, seconds=PATIENCE):
    """What the condition gives, as soon as it is true, or at the end of the time."""
    end = time.monotonic() + seconds
    while not condition() and time.monotonic() < end:
        await asyncio.sleep(0.02)
    return condition()


class Server(processes.Server):
    """PROGRAM on a port of its own, with a token of its own if it is given none. It may be started again."""

    def __init__(self, program, folder, library, token=None):
        self.program, self.folder, self.name = program, folder, folder.name
        self.library, self.token = library, token or secrets.token_hex(16)
        words = [program, "serve", "--port", "{port}", "--backend-token", folder / "token.txt", "--space", "/admin"]
        super().__init__(words, LONGEST)
        folder.mkdir(exist_ok=True)
        (folder / "token.txt").write_text(self.token + "\n")


class Backend(processes.Process):
    """A process of scripts/clients/backend.* for these servers, and what it was told."""

    def __init__(self, servers, language, digits=ALL):
        words = {"javascript": [*NODE, CLIENTS / "backend.mjs"], "python": [*PYTHON, CLIENTS / "backend.py"]}[language]
        urls = ",".join(server.url for server in servers)
        super().__init__([*words, urls, servers[0].token, digits, servers[0].library], stdin=subprocess.PIPE, stderr=sys.stderr)
        self.digits, self.calls = digits, 0

    def told(self, kind=None, sid=None):
        lines = [json.loads(line) for line in self.output().split("\n")[:-1]]      # the last one isn't whole
        return [it for it in lines if kind in (None, it[0]) and sid in (None, it[1])]

    def begin(self, *call):
        """Has it call the library. Gives the number of the call."""
        self.calls += 1
        self.process.stdin.write(json.dumps([self.calls, *call]).encode() + b"\n")
        self.process.stdin.flush()
        return self.calls

    async def outcome(self, number):
        """The message of the error, and the value."""
        await until(lambda: self.told("done", number))
        return tuple(self.told("done", number)[0][2:])

    async def do(self, *call):
        return await self.outcome(self.begin(*call))

    def present(self):
        """Of whom it was told last that they came, and not that they went."""
        last = {it[1]: it[0] for it in self.told() if it[0] in ("connection", "disconnection")}
        return {sid for sid, kind in last.items() if kind == "connection"}

    def is_up(self):
        return bool(self.told("ready"))

    async def __aenter__(self):
        return await asyncio.to_thread(self.start)

    async def __aexit__(self, *_):
        self.end(signal.SIGKILL)


def twice(values):
    """Those that are there more than once."""
    return [value for value, count in collections.Counter(values).items() if count > 1]


def is_rising(events):
    """Whether each socket's numbers rise."""
    last = {}
    return all(last.get(sid, -1) < number and last.update({sid: number}) is None for _, sid, number in events)


def early(told):
    """Sockets that an event was told of before they were."""
    begun = set()
    return [sid for kind, sid, *_ in told if kind == "event" and sid not in begun or begun.add(sid)]
