"""What scripts/try_nodes starts beside servers and backends: Redis, bridges and proxies."""
import importlib.machinery
import importlib.util
import os

from documents import documented

from .backends import LONGEST, PYTHON, TOP
from .processes import Process, Server

BACKENDS = TOP / "backends"
PLACES = {**os.environ, "PYTHONPATH": f"{BACKENDS / 'python'}:{BACKENDS / 'redis'}", "NODE_PATH": "/usr/share/nodejs"}
BRIDGE = [*PYTHON, "-m", "daghzimo_redis"]
# A script as a module.
LOADER = importlib.machinery.SourceFileLoader("try_proxy", str(TOP / "scripts/try_proxy"))
try_proxy = importlib.util.module_from_spec(importlib.util.spec_from_loader("try_proxy", LOADER))
LOADER.exec_module(try_proxy)


class RedisServer(Server):
    name = "redis"

    def __init__(self, folder):
        words = [try_proxy.program("redis-server"), "--port", "{port}", "--bind", "127.0.0.1", "--save", "", "--dir", folder]
        super().__init__(words, LONGEST)
        self.url = f"redis://127.0.0.1:{self.port}"


class Bridge(Process):
    """`url`: of its node."""

    def __init__(self, name, url, token_file, redis_url, *options):
        super().__init__([*BRIDGE, url, token_file, redis_url, *options], LONGEST, env=PLACES)
        self.name = name

    def is_up(self):
        return self.said("connected with the server") and self.said("connected with Redis")

    def lines(self):
        return self.output().splitlines()

    def said(self, text, begin=0):
        """The lines with a text, without some at the beginning."""
        return [line for line in self.lines()[begin:] if text in line]


# Proxies, by the lines of docs/OPERATING.md.

def lines_of(start, nodes, places):
    """The lines that begin so, with these nodes and values in their places."""
    ports = {f"10.0.0.{number}:3000": f"127.0.0.1:{node.port}" for number, node in enumerate(nodes, 1)}
    return documented("docs/OPERATING.md", start, {**ports, **places})


class Nginx(try_proxy.Proxy):
    """Before several nodes. Without the line that hands a client to its node, where that is named."""

    def __init__(self, nodes, without=None):
        super().__init__("nodes")
        self.lines = lines_of("upstream nodes", nodes, {without: ""} if without else {}) + self.lines


class Haproxy(Server):
    name = "haproxy"

    def __init__(self, folder, nodes):
        config = folder / "haproxy.cfg"
        super().__init__([try_proxy.program("haproxy"), "-db", "-f", config], LONGEST)
        config.write_text(lines_of("defaults", nodes, {"bind :8080": f"bind 127.0.0.1:{self.port}"}))
