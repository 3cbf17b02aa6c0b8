"""Programs that a script starts, and the ports at which they listen."""
import argparse
import contextlib
import os
import pathlib
import random
import re
import signal
import socket
import subprocess
import sys
import tempfile
import time
import urllib.parse

HOST = "127.0.0.1"
PATIENCE = 20
# What the C library of a server is told, as in packaging/serve: memory of large messages goes back to the system once it is freed.
GIVES_BACK = {"MALLOC_MMAP_THRESHOLD_": "1000000"}


def free_port():
    """One that no connection gets from the system."""
    while True:
        port = random.randrange(10_000, 32_768)
        with socket.socket() as it, contextlib.suppress(OSError):
            it.bind((HOST, port))
            return port


def is_listening(port, host=HOST):
    with contextlib.suppress(OSError):
        socket.create_connection((host, port), 5).close()
        return True
    return False


def until(holds, seconds=PATIENCE):
    """What a condition gives once it is true, or at the end of the time."""
    end = time.monotonic() + seconds
    while not (found := holds()) and time.monotonic() < end:
        time.sleep(0.05)
    return found


def server_at(url):
    """The parts of a URL at which a server listens; for argparse."""
    server = urllib.parse.urlsplit(url)
    if server.scheme != "http" or not server.hostname:
        raise argparse.ArgumentTypeError(f"{url} has to begin with http://")
    if not is_listening(server.port or 80, server.hostname):
        raise argparse.ArgumentTypeError(f"no server at {url}")
    return server


def file_at(name):
    """The whole path of a file, which has to be there; for argparse."""
    path = pathlib.Path(name).resolve()
    if not path.is_file():
        raise argparse.ArgumentTypeError(f"{path}: no such file")
    return path


def free_memory():
    """The memory that is free, in GB."""
    return int(re.search(r"MemAvailable:\s+(\d+)", pathlib.Path("/proc/meminfo").read_text())[1]) / 1e6


def parents():
    """The parent of each process."""
    found = {}
    for it in pathlib.Path("/proc").glob("[0-9]*/stat"):
        with contextlib.suppress(OSError, ValueError, IndexError):
            found[int(it.parent.name)] = int(it.read_text(errors="replace").rpartition(")")[2].split()[1])
    return found


def tree_of(roots):
    """The processes that come from these, with them."""
    above, tree = parents(), {*roots}
    while True:
        more = {it for it, parent in above.items() if parent in tree} - tree
        if not more:
            return tree
        tree |= more


def kill(numbers):
    for it in numbers:
        with contextlib.suppress(ProcessLookupError):
            os.kill(it, signal.SIGKILL)


def exit_on_signals(*numbers):
    """What was started is ended before the script ends by one of these."""
    for it in numbers or (signal.SIGTERM,):
        signal.signal(it, lambda number, _: sys.exit(128 + number))


class Process:
    """A program that runs until it is ended, or in a `with`. Where it doesn't come up in time, that ends the script, with what the
    program has said."""

    def __init__(self, words, seconds=PATIENCE, **more):
        self.words, self.seconds, self.more, self.process = words, seconds, more, None

    def spawn(self):
        self.log = tempfile.TemporaryFile()
        usual = {"stdin": subprocess.DEVNULL, "stdout": self.log, "stderr": self.log}
        self.process = subprocess.Popen(self.words, **{**usual, **self.more})

    def start(self):
        self.spawn()
        until(lambda: not self.goes_on() or self.is_up(), self.seconds)
        if not self.goes_on() or not self.is_up():
            sys.exit(f"{self.words[0]} doesn't start: {self.end() or self.output()[-2000:]}")
        return self

    def is_up(self):
        return True

    def goes_on(self):
        return self.process is not None and self.process.poll() is None

    def output(self):
        """All that it has said since it was started."""
        return os.pread(self.log.fileno(), os.fstat(self.log.fileno()).st_size, 0).decode(errors="replace")

    def end(self, by=signal.SIGTERM):
        """Answers what it said where it had ended by itself."""
        if self.process is None:
            return ""
        ended = self.process.poll()
        self.process.send_signal(by)
        try:
            self.process.wait(PATIENCE)
        except subprocess.TimeoutExpired:
            self.process.kill()
            self.process.wait()
        return "" if ended is None else f"status {ended}: {self.output()[-2000:]}"

    def restarts(self):
        fault = self.end()
        self.start()
        return not fault

    def memory(self, key="VmRSS"):
        """What it has, in MB; by VmHWM the most so far."""
        status = pathlib.Path(f"/proc/{self.process.pid}/status").read_text()
        return int(re.search(rf"{key}:\s+(\d+) kB", status)[1]) / 1024

    def processor_time(self):
        """Its processor seconds so far."""
        fields = pathlib.Path(f"/proc/{self.process.pid}/stat").read_text().rpartition(")")[2].split()
        return (int(fields[11]) + int(fields[12])) / os.sysconf("SC_CLK_TCK")

    def __enter__(self):
        return self.start()

    def __exit__(self, *_):
        self.end()


class Server(Process):
    """One that is up once it listens at its port, which stands in its words for {port}."""

    def __init__(self, words, seconds=PATIENCE, **more):
        self.port = free_port()
        self.url = f"http://{HOST}:{self.port}"
        super().__init__([str(it).replace("{port}", str(self.port)) for it in words], seconds, **more)

    def is_up(self):
        return is_listening(self.port)
