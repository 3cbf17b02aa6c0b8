"""Texts of the Engine.IO protocol, revision 4, and of the Socket.IO protocol, revision 5."""
import base64
import json
import math
import re

SEPARATOR = "\x1e"
MOST_ATTACHMENTS = 32
RESERVED = {"connect", "connect_error", "disconnect", "disconnecting", "newListener", "removeListener"}
BASE64 = re.compile("(?:[A-Za-z0-9+/]{4})*(?:[A-Za-z0-9+/]{2}==|[A-Za-z0-9+/]{3}=)?")


class Fault(Exception):
    """What is wrong with a text, by the name that the server tells."""


def fail_if(holds, why):
    if holds:
        raise Fault(why)


class Number(str):
    """A number of a JSON text, as it is written."""


def read_base64(text):
    """The bytes of a standard base64 text with its padding, whose last bits are none that are left out."""
    fail_if(not BASE64.fullmatch(text), "BadBase64")
    found = base64.b64decode(text)
    fail_if(write_base64(found) != text, "BadBase64")
    return found


def write_base64(part):
    return base64.b64encode(part).decode()


def read_packet(text):
    """A packet's type and its data: of a binary message `b` and its bytes."""
    fail_if(not text, "Empty")
    if text[0] == "b":
        return "b", read_base64(text[1:])
    fail_if(text[0] not in "0123456", "BadType")
    return text[0], text[1:]


def read_payload(text):
    return [read_packet(piece) for piece in text.split(SEPARATOR)]


def refuse_constant(_):
    raise ValueError


def is_whole(tree, depth=1):
    """Whether a tree nests at most 127 deep, its texts have no half of a surrogate pair, and its numbers are finite."""
    if isinstance(tree, Number):
        return not math.isinf(float(tree))
    if isinstance(tree, str):
        return not re.search("[\ud800-\udfff]", tree)
    if isinstance(tree, (list, dict)):
        parts = list(tree) + (list(tree.values()) if isinstance(tree, dict) else [])
        return depth <= 127 and all(is_whole(it, depth + 1) for it in parts)
    return True


def read_json(text):
    """The tree of a JSON text. Of two members of one name the last counts."""
    try:
        tree = json.loads(text, parse_int=Number, parse_float=Number, parse_constant=refuse_constant)
    except (ValueError, RecursionError):
        raise Fault("BadJson") from None
    fail_if(SEPARATOR in text or not is_whole(tree), "BadJson")
    return tree


class Header:
    """A packet's text: its kind, namespace, acknowledgement id, payload and how many attachments follow it. `parts` are those
    that have come."""

    def __init__(self, text):
        fail_if(text[:1] not in tuple("0123456"), "BadKind")
        self.kind, self.parts, rest = text[0], [], text[1:]
        self.count, rest = self.read_count(rest) if self.kind in "56" else (0, rest)
        self.space, rest = self.read_space(rest)
        digits = re.match("[0-9]*", rest)[0]
        fail_if(len(digits) > 15, "BadId")
        self.id, self.payload = int(digits) if digits else None, rest[len(digits) :]
        self.tree = read_json(self.payload) if self.payload else None
        self.look_at_shape()

    @staticmethod
    def read_count(text):
        digits = re.match("[0-9]*", text)[0]
        fail_if(not 1 <= len(digits) <= 15 or text[len(digits) : len(digits) + 1] != "-", "BadCount")
        fail_if(int(digits) > MOST_ATTACHMENTS, "TooMany")
        return int(digits), text[len(digits) + 1 :]

    @staticmethod
    def read_space(text):
        if not text.startswith("/"):
            return "/", text
        space, _, rest = text.partition(",")
        fail_if(any(letter < " " for letter in space), "BadShape")
        return space, rest

    def look_at_shape(self):
        tree = self.tree
        is_array = isinstance(tree, list)
        is_right = {
            "0": self.id is None and (not self.payload or isinstance(tree, dict)),
            "1": self.id is None and not self.payload,
            "2": is_array and len(tree) > 0 and isinstance(tree[0], str),
            "3": is_array and self.id is not None,
            "4": self.id is None and (isinstance(tree, dict) or is_text(tree)),
        }
        fail_if(not is_right[{"5": "2", "6": "3"}.get(self.kind, self.kind)], "BadShape")
        fail_if(self.kind in "25" and is_text(tree[0]) and tree[0] in RESERVED, "Reserved")
        fail_if(self.kind in "56" and not has_places(tree, self.count), "BadPlaceholder")


def is_text(tree):
    return isinstance(tree, str) and not isinstance(tree, Number)


def has_places(tree, count):
    """Whether each placeholder of a tree names one of so many attachments."""
    if isinstance(tree, list):
        return all(has_places(it, count) for it in tree)
    if not isinstance(tree, dict):
        return True
    if tree.get("_placeholder") is True:
        number = tree.get("num")
        if not isinstance(number, Number) or not re.fullmatch("[0-9]+", number) or int(number) >= count:
            return False
    return all(has_places(it, count) for it in tree.values())


def named_session(payload):
    """The session and the offset that the payload of a CONNECT names, if it names both."""
    tree = read_json(payload) if payload else {}
    pid, offset = tree.get("pid"), tree.get("offset")
    if not (is_text(pid) and re.fullmatch("[0-9a-f]{32}", pid)):
        return None
    if not (is_text(offset) and re.fullmatch("[0-9a-f]{16}", offset)):
        return None
    return int(pid, 16), int(offset, 16)


def id_text(number):
    return f"{number:032x}"


def with_offset(payload, offset):
    """The payload with the offset as a new last element of its array, with which it ends then."""
    return f'{payload[:payload.rindex("]")]},"{offset:016x}"]'


def start(space):
    """What stands before the payload of a packet for a namespace."""
    return "" if space == "/" else f"{space},"


def open_text(client, is_socket):
    upgrades = "[]" if is_socket else '["websocket"]'
    return (f'0{{"sid":"{id_text(client)}","upgrades":{upgrades},"pingInterval":25000,'
            '"pingTimeout":20000,"maxPayload":1000000}')


def connected_text(space, sid, pid):
    return f'0{start(space)}{{"sid":"{id_text(sid)}","pid":"{id_text(pid)}"}}'


def event_text(space, payload, count, kinds="25", number=""):
    kind = f"{kinds[1]}{count}-" if count else kinds[0]
    return f"{kind}{start(space)}{number}{payload}"
