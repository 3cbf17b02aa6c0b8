"""The two forms of a backend: for asyncio, and for threads."""
from __future__ import annotations

import asyncio
import functools
import inspect
import threading
import time
from concurrent.futures import ThreadPoolExecutor
from contextlib import asynccontextmanager, contextmanager
from typing import Any, AsyncIterator, Callable, Iterator, Optional

from .engine import Engine

THREADS = 256   # that run handlers at once, at most


class AsyncBackend(Engine):
    """Stands in for `socketio.AsyncServer`: `run()` or `start()` connects it with the server at `url`.

    `digits`: which sockets it is told of, by the first hexadecimal digit of the sid. `namespaces`: those that it keeps track of
    beside `/` and those with handlers. `async_handlers=False`: an event of a socket waits until the one before was handled."""

    def is_asyncio_based(self) -> bool:
        return True

    async def _invoke(self, function: Callable, *arguments: Any) -> Any:
        result = function(*arguments)
        return await result if inspect.isawaitable(result) else result

    async def run(self) -> None:
        """Serves until `stop()` is called."""
        try:
            await self.start()
            await self._nodes.wait()
        finally:
            await self.stop()

    async def get_session(self, sid: str, namespace: Optional[str] = None) -> dict:
        return self._session(sid, namespace)

    async def save_session(self, sid: str, session: dict, namespace: Optional[str] = None) -> None:
        self._save_session(sid, session, namespace)

    @asynccontextmanager
    async def session(self, sid: str, namespace: Optional[str] = None) -> AsyncIterator[dict]:
        yield self._session(sid, namespace)     # the dictionary itself, so that nothing is left to save

    def start_background_task(self, target: Callable, *arguments: Any, **options: Any) -> asyncio.Future:
        return asyncio.ensure_future(target(*arguments, **options))

    async def sleep(self, seconds: float = 0) -> None:
        await asyncio.sleep(seconds)


def blocking(method: Callable) -> Callable:
    """A method of the engine for callers in other threads: it is run in the engine's thread, and waited for."""
    @functools.wraps(method)
    def call(self: Backend, *arguments: Any, **options: Any) -> Any:
        async def work() -> Any:
            result = method(self, *arguments, **options)
            return await result if inspect.isawaitable(result) else result
        return asyncio.run_coroutine_threadsafe(work(), self._loop()).result()
    return call


class Backend(Engine):
    """Stands in for `socketio.Server`. Handlers and callbacks run in threads, of which there are 256 at most; the
    connection is served by a thread of its own."""

    def __init__(self, *arguments: Any, **options: Any):
        super().__init__(*arguments, **options)
        self._lock = threading.Lock()
        self._running: Optional[asyncio.AbstractEventLoop] = None
        self._pool = ThreadPoolExecutor(THREADS, "daghzimo")
        self._stopped = threading.Event()

    def is_asyncio_based(self) -> bool:
        return False

    def _loop(self) -> asyncio.AbstractEventLoop:
        with self._lock:
            if self._running is None:
                self._running = asyncio.new_event_loop()
                threading.Thread(target=self._running.run_forever, name="daghzimo link", daemon=True).start()
            return self._running

    async def _invoke(self, function: Callable, *arguments: Any) -> Any:
        return await asyncio.get_running_loop().run_in_executor(self._pool, functools.partial(function, *arguments))

    emit = blocking(Engine.emit)
    send = blocking(Engine.send)
    call = blocking(Engine.call)
    enter_room = blocking(Engine.enter_room)
    leave_room = blocking(Engine.leave_room)
    close_room = blocking(Engine.close_room)
    disconnect = blocking(Engine.disconnect)
    fetch_sockets = blocking(Engine.fetch_sockets)
    start = blocking(Engine.start)
    get_session = Engine._session
    save_session = Engine._save_session

    def stop(self) -> None:
        blocking(Engine.stop)(self)
        self._stopped.set()

    def run(self) -> None:
        """Serves until `stop()` is called, or Ctrl-C."""
        try:
            self.start()
            self._stopped.wait()
        finally:
            self.stop()

    @contextmanager
    def session(self, sid: str, namespace: Optional[str] = None) -> Iterator[dict]:
        yield self._session(sid, namespace)

    def start_background_task(self, target: Callable, *arguments: Any, **options: Any) -> threading.Thread:
        thread = threading.Thread(target=target, args=arguments, kwargs=options, daemon=True)
        thread.start()
        return thread

    def sleep(self, seconds: float = 0) -> None:
        time.sleep(seconds)
