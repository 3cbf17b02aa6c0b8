"""The handlers of a program, registered and found as python-socketio's servers do it."""
from __future__ import annotations

import inspect
from typing import Any, Callable, Dict, Iterable, Optional, Tuple

from .core import Job

# What python-socketio's servers have and this can't do, with the reason that a program is told.
MISSING = {
    "attach": "the server is a process of its own, and takes no other web app",
    "handle_request": "the server is a process of its own; a web app (ASGIApp, WSGIApp) has no part in it",
    "transport": "the server doesn't tell which transport a client uses",
    "manager": "there is no client manager; rooms(), emit() and fetch_sockets() do what is there",
    "eio": "there is no Engine.IO server in this process",
    "environ": "the server doesn't tell of requests; get_environ() has what is known",
    "instrument": "there is no support of the admin UI",
    "shutdown": "use stop()",
}


class Missing(NotImplementedError, AttributeError):
    """A part of python-socketio's servers that a backend doesn't have. (For `hasattr` it is an attribute that lacks.)"""


def fitting(function: Callable, arguments: tuple) -> tuple:
    """As many of the arguments as the function takes: `connect` may leave out `auth`, and `disconnect` the reason."""
    try:
        parameters = inspect.signature(function).parameters.values()
    except (TypeError, ValueError):
        return arguments
    if any(one.kind is one.VAR_POSITIONAL for one in parameters):
        return arguments
    return arguments[:sum(one.kind in (one.POSITIONAL_ONLY, one.POSITIONAL_OR_KEYWORD) for one in parameters)]


class Handlers:
    reserved_events = ["connect", "disconnect"]
    not_handled = object()      # newer namespace classes give it back for events without a method

    def __init__(self, namespaces: Iterable[str]) -> None:
        self.namespaces = {"/", *namespaces}    # those in use; what happens in others is ignored
        self.handlers: Dict[str, Dict[str, Callable]] = {}
        self.namespace_handlers: Dict[str, Any] = {}

    def __getattr__(self, name: str) -> Any:
        if name in MISSING:
            raise Missing(f"{name}: {MISSING[name]}")
        raise AttributeError(f"{type(self).__name__!r} object has no attribute {name!r}")

    def is_asyncio_based(self) -> bool:
        raise NotImplementedError

    def on(self, event: str, handler: Optional[Callable] = None, namespace: Optional[str] = None) -> Any:
        namespace = namespace or "/"
        if namespace == "*":
            raise Missing("namespace='*': a backend has to know the names of its namespaces")

        def register(function: Callable) -> Callable:
            self.namespaces.add(namespace)
            self.handlers.setdefault(namespace, {})[event] = function
            return function
        return register if handler is None else register(handler)

    def event(self, *arguments: Any, **options: Any) -> Any:
        if len(arguments) == 1 and not options and callable(arguments[0]):
            return self.on(arguments[0].__name__)(arguments[0])
        return lambda function: self.on(function.__name__, *arguments, **options)(function)

    def register_namespace(self, handler: Any) -> None:
        if not hasattr(handler, "_set_server") or not hasattr(handler, "trigger_event"):
            raise ValueError("Not a namespace instance")
        if self.is_asyncio_based() != handler.is_asyncio_based():
            raise ValueError("Not a valid namespace class for this server")
        handler._set_server(self)
        self.namespaces.add(handler.namespace)
        self.namespace_handlers[handler.namespace] = handler

    def _find(self, job: Job) -> Optional[Tuple[Callable, tuple]]:
        """Who handles a job, and with which arguments."""
        arguments = (job.socket.sid, *job.arguments)
        reserved = job.name in self.reserved_events
        functions = self.handlers.get(job.socket.namespace, {})
        if job.name in functions:
            function = functions[job.name]
            return function, fitting(function, arguments) if reserved else arguments
        if "*" in functions and not reserved:
            return functions["*"], (job.name, *arguments)
        handler = self.namespace_handlers.get(job.socket.namespace)
        if handler is None:
            return None
        method = getattr(handler, "on_" + job.name, None)
        return handler.trigger_event, (job.name, *(fitting(method, arguments) if reserved and method else arguments))
