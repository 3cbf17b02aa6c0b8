"""The app of backends: they are told what clients do, and command the server (docs/BACKENDS.md)."""
import json
import re

from apps import App, WORDS
from wire import RESERVED, Number, id_text, is_text

BACKENDS, TOKEN, DIGITS = "/backend", "secret", "0123456789abcdef"
LONGEST_ROOM = 64


class Refusal(Exception):
    """Why a command isn't done, as its backend is told."""


class Members(list):
    """The members of an object, in order."""


class Switchboard(App):
    spaces = (*App.spaces, BACKENDS)

    def connects(self, header):
        if header.space != BACKENDS:
            return []
        payload = header.tree or {}
        digits = payload.get("digits", DIGITS)
        if payload.get("token") != TOKEN:
            return "Not allowed"
        if not is_text(digits) or not re.fullmatch(f"[{DIGITS}]+", digits):
            return "Bad digits"
        return [("join", digit) for digit in digits]

    def decides(self, sid, header):
        if header.space == BACKENDS:
            return self.commanded(header)
        return told("event", header.space, sid, f"{written(header.id)}{elements(header)}", header.parts)

    def strays(self, sid, header):
        return self.of_client("answer", sid, header, f"{header.id}{elements(header)}", header.parts)

    def connected(self, sid, header):
        return self.of_client("connection", sid, header, f"null,{header.payload}]" if header.payload else "null]")

    def returned(self, sid, header, rooms):
        return self.of_client("connection", sid, header, f"{written(rooms)}]")

    def left(self, sid, space, rooms, ending):
        return told("disconnection", space, sid, f'"{WORDS[ending]}",{written(rooms)}]')

    @staticmethod
    def of_client(name, sid, header, rest, parts=()):
        """What is told of a client, and not of a backend."""
        return [] if header.space == BACKENDS else told(name, header.space, sid, rest, parts)

    # Commands.

    def commanded(self, header):
        """What a command wants. Where it is refused that is told to who asked."""
        try:
            return self.wanted(header)
        except Refusal as why:
            return acknowledged(header, ["error", str(why)])

    def wanted(self, header):
        name, options, data = header.tree[0], header.tree[1:2], header.tree[2:]
        if not is_text(name) or name not in COMMANDS:
            raise Refusal("unknown command")
        if not options or not are_options(options[0]) or not has_data(name, options[0], data):
            raise Refusal("malformed command")
        return COMMANDS[name](self.addressed(options[0]), options[0], data, header)

    def addressed(self, options):
        """The sockets that are meant."""
        if options.get("in", "/") not in self.spaces:
            raise Refusal("unknown namespace")
        return options.get("in", "/"), rooms(options.get("to", [])), rooms(options.get("except", []))


# What backends are told.


def told(name, space, sid, rest, parts=()):
    """One event for the backends of the first digit of a session id."""
    own = id_text(sid)
    return [("emit", (BACKENDS, [own[0]], []), False, f'["{name}",{written(space)},"{own}",{rest}', parts)]


def elements(header):
    """The elements of an array and its end, as its client wrote them, behind another element."""
    return "," * bool(header.tree) + header.payload.partition("[")[2]


def written(tree):
    """The text of a tree: without white space, with its members in order, its numbers as they were written, and the shortest
    escapes, none where none is needed."""
    if isinstance(tree, Number):
        return tree
    if isinstance(tree, Members):
        return "{" + ",".join(f"{written(name)}:{written(member)}" for name, member in tree) + "}"
    if isinstance(tree, list):
        return "[" + ",".join(map(written, tree)) + "]"
    return json.dumps(tree, ensure_ascii=False)


# What commands want.


def acknowledged(header, values):
    return [("reply", values)] if header.id is not None else []


def are_options(options):
    """Whether this is an object whose options are of their types, also those that the command doesn't use."""
    if not isinstance(options, dict) or "ask" in options and "answer" in options:
        return False
    return all(is_kind(options[key]) for key, is_kind in KINDS.items() if key in options)


def are_texts(tree):
    return isinstance(tree, list) and all(map(is_text, tree))


def has_data(name, options, data):
    """Whether an event has its name, a text or a number, or the room is there."""
    if name == "emit":
        return "answer" in options or bool(data) and isinstance(data[0], str)
    return name not in ("socketsJoin", "socketsLeave") or bool(data) and is_text(data[0])


def rooms(names):
    if any(len(name.encode()) > LONGEST_ROOM for name in names):
        raise Refusal("bad room")
    return names


def emit(to, options, data, header):
    form = options.get("volatile") is not True
    for key, kinds in (("ask", "25"), ("answer", "36")):
        if key in options and not re.fullmatch("[0-9]{1,15}", options[key]):
            raise Refusal("bad id")
        form = (kinds, int(options[key])) if key in options else form
    if "answer" not in options and is_text(data[0]) and data[0] in RESERVED:
        raise Refusal("reserved name")
    pairs = json.loads(header.payload, parse_int=Number, parse_float=Number, object_pairs_hook=Members)
    return [("emit", to, form, written(pairs[2:]), header.parts)] + acknowledged(header, ["ok"])


def change(effect):
    """A command that has sockets join a room, or leave it."""
    return lambda to, options, data, header: [(effect, to, *rooms(data[:1]))] + [("report",)] * (header.id is not None)


def disconnect(to, options, data, header):
    return acknowledged(header, ["ok"]) + [("end", to)]


def fetch(to, options, data, header):
    return [("fetch", to)] * (header.id is not None)


COMMANDS = {"emit": emit, "socketsJoin": change("pull"), "socketsLeave": change("push"), "disconnectSockets": disconnect,
            "fetchSockets": fetch}
# Of which type each option is.
KINDS = {"in": is_text, "to": are_texts, "except": are_texts, "volatile": lambda it: isinstance(it, bool),
         "ask": lambda it: isinstance(it, Number), "answer": lambda it: isinstance(it, Number)}
