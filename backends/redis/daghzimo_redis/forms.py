"""Reads what emitters publish. What comes of it are commands for the server: tuples of a name, options and arguments."""
from __future__ import annotations

import re
from base64 import b64decode
from dataclasses import dataclass
from typing import Any, List, Tuple

import msgpack
from daghzimo_backend.commands import elements, listed

from .values import Malformed, of_json, plain, unpacked, unpickled

Command = Tuple[Any, ...]
PATTERN = "*#/*"    # of the channels of all emitters, so that those with another prefix are noticed
CHANNEL = re.compile(r"(?s)(?P<prefix>.*?)(?P<kind>|-request|-response|-relay)#(?P<namespace>/[^#]*)#(?:(?P<room>.*)#)?")
EVENT, BINARY_EVENT = 2, 5              # types of packets
JOIN, LEAVE, DISCONNECT = 2, 3, 4       # types of requests
PICKLE = b"\x80"                        # begins each pickle since its second version


@dataclass
class Channel:
    prefix: str
    kind: str
    namespace: str
    room: str


def channel_of(name: bytes) -> Channel:
    found = CHANNEL.fullmatch(name.decode(errors="replace"))
    if found is None:
        raise Malformed("no emitter's channel")
    return Channel(**{part: text or "" for part, text in found.groupdict().items()})


def need(holds: Any, what: str) -> None:
    if not holds:
        raise Malformed(f"{what} is wrong")


def options(namespace: str, chosen: Any) -> dict:
    """Whom `rooms` and `except` name. Where these are no texts, the server says so."""
    need(isinstance(chosen, dict) and isinstance(chosen.get("rooms"), list), "opts.rooms")
    excepted = chosen.get("except") or []
    need(isinstance(excepted, list), "opts.except")
    return {"in": namespace, "to": plain(chosen["rooms"]), "except": plain(excepted)}


def emission(namespace: str, payload: bytes, uid: str) -> List[Command]:
    """[uid, packet, opts] in msgpack, if it isn't of this uid."""
    message = unpacked(payload)
    need(isinstance(message, list) and len(message) == 3, "[uid, packet, opts]")
    sender, packet, chosen = message
    if sender == uid:
        return []
    need(isinstance(packet, dict), "the packet")
    need(packet.get("type") in (EVENT, BINARY_EVENT), "packet.type")
    need(packet.get("nsp", "/") == namespace, "packet.nsp")
    data = packet.get("data")
    need(isinstance(data, list) and data and isinstance(data[0], str), "packet.data")
    to = options(namespace, chosen)
    flags = chosen.get("flags") or {}       # PHP writes an empty list
    need(isinstance(flags, dict), "opts.flags")
    if flags.get("volatile"):
        to["volatile"] = True
    return [("emit", to, *plain(data))]


def packed(uid: str, namespace: str, room: str, event: List[Any]) -> bytes:
    """What `emission` reads as this event to a room."""
    packet = {"type": EVENT, "data": event, "nsp": namespace}
    return msgpack.packb([uid, packet, {"rooms": [room], "except": [], "flags": {}}])


def request(namespace: str, payload: bytes) -> List[Command]:
    """An object in JSON, with a type, opts, and rooms to join or leave."""
    message = of_json(payload)
    need(isinstance(message, dict), "the request")
    kind = message.get("type")
    need(kind in (JOIN, LEAVE, DISCONNECT), f"the request's type {str(kind)[:20]}")
    to = options(namespace, message.get("opts"))
    if kind == DISCONNECT:
        return [("disconnectSockets", to)]
    rooms = message.get("rooms")
    need(isinstance(rooms, list) and rooms, "rooms")
    return [("socketsJoin" if kind == JOIN else "socketsLeave", to, plain(room)) for room in rooms]


# python-socketio's channel: an object with a method, pickled up to its version 5.13, and in JSON since.

def python_message(payload: bytes) -> List[Command]:
    message = unpickled(payload) if payload.startswith(PICKLE) else of_json(payload)
    need(isinstance(message, dict), "the message")
    method, namespace = message.get("method"), message.get("namespace") or "/"
    need(isinstance(namespace, str), "the namespace")
    if method == "callback":        # an answer of one of its servers to another
        return []
    if method == "emit":
        return [python_emit(message, namespace)]
    need(isinstance(method, str) and method in PYTHON_CALLS, f"the method {str(method)[:20]}")
    name, chosen, more = PYTHON_CALLS[method]
    need(all(isinstance(message.get(key), str) for key in (chosen, *more)), " or ".join((chosen, *more)))
    return [(name, {"in": plain(namespace), "to": [plain(message[chosen])]}, *(plain(message[key]) for key in more))]


# The command, what names its sockets, and its arguments.
PYTHON_CALLS = {"disconnect": ("disconnectSockets", "sid", ()), "close_room": ("socketsLeave", "room", ("room",)),
                "enter_room": ("socketsJoin", "sid", ("room",)), "leave_room": ("socketsLeave", "sid", ("room",))}


def python_emit(message: dict, namespace: str) -> Command:
    need(message.get("callback") is None, "a callback, which can't be called from here,")
    to = {"in": plain(namespace), "to": plain(listed(message.get("room"))), "except": plain(listed(message.get("skip_sid")))}
    data = python_data(message)
    need(isinstance(message.get("event"), str), "the event")
    return ("emit", to, plain(message["event"]), *plain(elements(data)))


def python_data(message: dict) -> Any:
    """A tuple is several arguments. The JSON of later versions has a list of them, and attachments behind it as texts."""
    data = message.get("data")
    if "binary" not in message:
        return data
    need(isinstance(data, list), "the data")
    data = plain(data, placeholders=True)
    if not message["binary"]:
        return tuple(data)
    try:
        attachments = [b64decode(part, validate=True) for part in data[1:]]
        return tuple(restored(data[0], attachments))
    except (ValueError, TypeError, IndexError):
        raise Malformed("an attachment is wrong") from None


def restored(value: Any, attachments: List[bytes]) -> Any:
    if isinstance(value, list):
        return [restored(part, attachments) for part in value]
    if isinstance(value, dict):
        if value.get("_placeholder") and "num" in value:
            return attachments[value["num"]]
        return {key: restored(part, attachments) for key, part in value.items()}
    return value
