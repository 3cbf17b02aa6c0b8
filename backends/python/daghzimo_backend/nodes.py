"""The nodes that a program is over: which of them a command goes to, and how they begin and end together."""
from __future__ import annotations

import asyncio
import functools
import logging
from typing import Callable, List, Optional

from .core import Socket
from .link import NO_CONNECTION, Reply
from .node import Node


PATIENCE = 5.0      # seconds that `start` waits for nodes that don't answer, where another is there


class Nodes:
    def __init__(self, nodes: List[Node], logger: logging.Logger):
        self.all, self._logger = nodes, logger
        for node in nodes:
            node.changed = self._look

    # Which node has what.

    def find(self, namespace: str, sid: str) -> Optional[Socket]:
        """The socket, where it is known."""
        return next((node.core.sockets[namespace, sid] for node in self.all if (namespace, sid) in node.core.sockets), None)

    def of(self, namespace: str, to: List[str]) -> List[Node]:
        """Those that have these sockets, or all where a room or an unknown socket is among them."""
        if not to or not all(self.find(namespace, sid) for sid in to):
            return self.all
        return [node for node in self.all if any((namespace, sid) in node.core.sockets for sid in to)]

    def up(self, namespace: str, to: List[str]) -> List[Node]:
        """The same without those whose connection is away, or with these where it is away with all."""
        nodes = self.of(namespace, to)
        return [node for node in nodes if node.link.connected] or nodes

    # Commands.

    def ask(self, undo: Callable[[Node], Callable[[], None]], command: str, chosen: dict, *arguments: str) -> Reply:
        """A command that is acknowledged, of each node that it's about. `undo` changes what is known, and gives what undoes it."""
        nodes = self.up(chosen["in"], chosen["to"])
        reply = Reply(self._logger, command, len(nodes))
        for node in nodes:
            node.link.ask(command, chosen, *arguments, undo=undo(node), reply=reply)
        return reply

    async def fetch(self, chosen: dict) -> List[str]:
        """The sids that all list. A node whose connection is lost meanwhile is left out, if it isn't the last."""
        nodes = self.up(chosen["in"], chosen.get("to", []))
        lists = await asyncio.gather(*(node.link.ask("fetchSockets", chosen) for node in nodes), return_exceptions=True)
        found = [one for one in lists if not isinstance(one, BaseException)]
        for one in lists:
            if isinstance(one, BaseException) and (not found or str(one) != NO_CONNECTION):
                raise one
        return sorted(sid for sids, in found for sid in sids)

    # How they begin and end.

    def _look(self) -> None:
        """While a server is there, the sockets of those that can't be reached are told to have gone."""
        if any(node.link.connected for node in self.all):
            for node in self.all:
                if node.link.away:
                    node.leave_out()

    async def start(self) -> None:
        """Connects with those that are there, and tries until one is. It raises an error where all refuse."""
        for node in self.all:
            if node.link.start():
                node.link.first.add_done_callback(functools.partial(self._began, node))
        await asyncio.wait({node.link.tried for node in self.all}, timeout=PATIENCE)
        firsts = [node.link.first for node in self.all]
        while True:
            over = [first for first in firsts if first.done()]
            if any(first.cancelled() or first.exception() is None for first in over):
                return
            if len(over) == len(firsts):
                raise over[0].exception()
            await asyncio.wait(set(firsts) - set(over), return_when=asyncio.FIRST_COMPLETED)

    def _began(self, node: Node, first: asyncio.Future) -> None:
        """Where there is one node only, `start` raises the error."""
        if len(self.all) > 1 and not first.cancelled() and first.exception() is not None:
            self._logger.error("%s refused this backend: %s", node.link.name, first.exception())

    async def wait(self) -> None:
        """Until it is stopped."""
        done, _ = await asyncio.wait({node.link.task for node in self.all}, return_when=asyncio.FIRST_EXCEPTION)
        for task in done:
            if not task.cancelled():
                task.result()

    async def stop(self) -> None:
        await asyncio.gather(*(node.link.stop() for node in self.all))
