"""Commands for the server, and what is refused before they are sent since the server would tell nobody."""
from __future__ import annotations

import math
from typing import Any, List, Optional, Union

import socketio
import socketio.packet

BACKEND = "/backend"        # the namespace that backends are in
RESERVED = {"connect", "connect_error", "disconnect", "disconnecting", "newListener", "removeListener"}
LONGEST_ROOM = 64           # bytes
LARGEST_MESSAGE = 1_000_000     # bytes, and the same for each attachment
MOST_ATTACHMENTS = 32


class CommandError(socketio.exceptions.SocketIOError):
    """The server refused a command, or it couldn't be sent. `why` is the server's word for it."""

    def __init__(self, why: str):
        super().__init__(why)
        self.why = why


class BoundedPacket(socketio.packet.Packet):
    """A packet that raises an error where it's so large that the server would close the connection."""

    def encode(self) -> Union[str, list]:
        encoded = super().encode()
        parts = encoded if isinstance(encoded, list) else [encoded]
        if len(parts) > 1 + MOST_ATTACHMENTS:
            raise CommandError("too many attachments")
        if any(len(part) >= LARGEST_MESSAGE for part in parts):     # Engine.IO adds a byte
            raise CommandError("too large")
        return encoded


def listed(value: Union[None, str, list, tuple]) -> List[str]:
    return [] if value is None else list(value) if isinstance(value, (list, tuple, set)) else [value]


def elements(data: Any) -> list:
    """The arguments of an event or an acknowledgement: a tuple is several, None is none."""
    return list(data) if isinstance(data, tuple) else [] if data is None else [data]


def check_room(room: Any) -> None:
    try:
        if len(room.encode()) <= LONGEST_ROOM:
            return
    except (AttributeError, UnicodeEncodeError):
        pass
    raise CommandError("bad room")


def options(namespace: str, to: List[str], exclude: Optional[List[str]] = None, **more: Any) -> dict:
    for room in [*to, *(exclude or ())]:
        check_room(room)
    chosen = {"in": namespace, **more}
    if to:
        chosen["to"] = to
    if exclude:
        chosen["except"] = exclude
    return chosen


def is_number(value: Any) -> bool:
    return isinstance(value, (int, float)) and not isinstance(value, bool) and math.isfinite(value)


def emission(chosen: dict, event: Any, data: Any) -> tuple:
    if not isinstance(event, str) and not is_number(event):
        raise CommandError("malformed command")
    if event in RESERVED:
        raise CommandError("reserved name")
    return ("emit", chosen, event, *elements(data))
