"""Values as JSON has them, of what msgpack, JSON and pickle bring."""
from __future__ import annotations

import json
import math
import pickle
import pickletools
from datetime import datetime, timezone
from typing import Any

import msgpack
from daghzimo_backend.commands import LARGEST_MESSAGE

DEEPEST = 100       # lists and objects in each other
DATE, UNDEFINED = 8, 1      # bytes of extensions of the type 0, as notepack.io 2 writes them

# By which pickle writes what JSON has, and bytes.
PLAIN_PICKLE = frozenset("""PROTO FRAME STOP MARK MEMOIZE BINPUT LONG_BINPUT BINGET LONG_BINGET NONE NEWTRUE NEWFALSE
    BININT BININT1 BININT2 LONG1 BINFLOAT BINUNICODE SHORT_BINUNICODE BINBYTES SHORT_BINBYTES EMPTY_LIST APPEND APPENDS
    EMPTY_TUPLE TUPLE TUPLE1 TUPLE2 TUPLE3 EMPTY_DICT SETITEM SETITEMS""".split())


class Malformed(ValueError):
    """What was published can't be done. The text says why."""


def unpacked(payload: bytes) -> Any:
    try:
        return msgpack.unpackb(payload, ext_hook=extension, timestamp=3, strict_map_key=False)
    except Malformed:
        raise
    except (ValueError, TypeError, OverflowError, OSError, msgpack.UnpackException) as error:
        raise Malformed(f"no msgpack: {error or type(error).__name__}") from None


def extension(kind: int, data: bytes) -> Any:
    if kind == 0 and len(data) == DATE:
        return datetime.fromtimestamp(int.from_bytes(data, "big", signed=True) / 1000, timezone.utc)
    if kind == 0 and len(data) == UNDEFINED:
        return None
    raise Malformed(f"no msgpack that is known here: extension {kind} of {len(data)} bytes")


def unpickled(payload: bytes) -> Any:
    """Of lists, dictionaries, tuples, texts, bytes and numbers. All else could do anything here, or take any memory."""
    try:
        for operation, argument, _ in pickletools.genops(payload):
            if operation.name not in PLAIN_PICKLE or operation.name == "LONG_BINPUT" and argument > len(payload):
                raise Malformed(f"a pickle with {operation.name}")
        return pickle.loads(payload)
    except Malformed:
        raise
    except Exception as error:      # wrong bytes cause nearly any
        raise Malformed(f"no pickle: {error or type(error).__name__}") from None


def of_json(payload: bytes) -> Any:
    try:
        return json.loads(payload)
    except (ValueError, RecursionError) as error:
        raise Malformed(f"no JSON: {error}") from None


def plain(value: Any, placeholders: bool = False) -> Any:
    """The value as JSON.stringify has it, with binary data where it stands. The server closes the connection by an object that
    stands for an attachment and isn't followed by one, so these are refused, if they aren't about to be replaced."""
    return Reader(placeholders).read(value, 0)


class Reader:
    """Of one value. In a pickle a part may stand at many places, so that all of it is larger than what was published."""

    def __init__(self, placeholders: bool):
        self._left, self._placeholders = LARGEST_MESSAGE, placeholders

    def read(self, value: Any, depth: int) -> Any:
        if depth > DEEPEST:
            raise Malformed(f"more than {DEEPEST} lists and objects in each other")
        self._count(1)
        if isinstance(value, dict):
            if "_placeholder" in value and not self._placeholders:
                raise Malformed("an object with _placeholder")
            return {self._key(key): self.read(part, depth + 1) for key, part in value.items()}
        if isinstance(value, (list, tuple)):
            return [self.read(part, depth + 1) for part in value]
        if isinstance(value, float) and not math.isfinite(value):
            return None
        if isinstance(value, datetime):
            return f"{value:%Y-%m-%dT%H:%M:%S}.{value.microsecond // 1000:03}Z"
        if isinstance(value, str):
            return self._text(value)
        if value is None or isinstance(value, (bool, int, float, bytes)):
            return value
        raise Malformed(f"a value of the type {type(value).__name__}")

    def _count(self, size: int) -> None:
        self._left -= size
        if self._left < 0:
            raise Malformed("too large")

    def _key(self, key: Any) -> str:
        if isinstance(key, int):
            return str(key)
        if not isinstance(key, str):
            raise Malformed("a key that is no text")
        return self._text(key)

    def _text(self, text: str) -> str:
        self._count(len(text))
        try:
            text.encode()
        except UnicodeEncodeError:
            raise Malformed("half of a surrogate pair") from None
        return text
