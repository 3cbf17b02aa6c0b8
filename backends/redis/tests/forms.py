"""What emitters publish, byte by byte, and the commands that have to come of it: forms.py

The bytes are as the emitters write them; no server and no Redis is needed. The status is 1 where a check failed."""
import json
import os
import pickle
import struct
import sys

BACKENDS = os.path.join(os.path.dirname(os.path.abspath(__file__)), "..", "..")
sys.path[:0] = [os.path.join(BACKENDS, "redis"), os.path.join(BACKENDS, "python")]

from daghzimo_redis.forms import channel_of, emission, packed, python_message, request
from daghzimo_redis.values import Malformed

failed = []


def check(name, got, wanted):
    good = got.startswith(wanted) if isinstance(got, str) and isinstance(wanted, str) else got == wanted
    print(("ok      " if good else "FAILED  ") + name + ("" if good else f": {str(got)[:300]} instead of {str(wanted)[:300]}"))
    if not good:
        failed.append(name)


def outcome(read, *arguments):
    try:
        return read(*arguments)
    except Malformed as error:
        return str(error)


def text(value):
    """msgpack's fixstr."""
    return bytes([0xa0 | len(value.encode())]) + value.encode()


def emitted(data, opts, kind=b"\x02", nsp="/", count=1, sender="emitter"):
    """["emitter", {type, data, nsp}, opts], as notepack.io writes it. `data` and `opts` are msgpack."""
    packet = b"\x83" + text("type") + kind + text("data") + bytes([0x90 | count]) + data + text("nsp") + text(nsp)
    return b"\x93" + text(sender) + packet + opts


def opts(rooms=b"\x90", excepted=b"\x90", flags=b"\x80"):
    return b"\x83" + text("rooms") + rooms + text("flags") + flags + text("except") + excepted


TO_ALL = {"in": "/", "to": [], "except": []}
NEWS = text("news")
TIMESTAMP = b"\xd6\xff" + struct.pack(">I", 1_000_000_000)
OLD_DATE = b"\xd7\x00" + struct.pack(">q", 1_000_000_000_123)
DEEP = b"\x91" * 101 + b"\xc0"

EMISSIONS = [
    ("to all", emitted(NEWS, opts()), [("emit", TO_ALL, "news")]),
    ("to rooms except others", emitted(NEWS, opts(b"\x92" + text("a") + text("b"), b"\x91" + text("c"))),
     [("emit", {"in": "/", "to": ["a", "b"], "except": ["c"]}, "news")]),
    ("volatile", emitted(NEWS, opts(flags=b"\x81" + text("volatile") + b"\xc3")),
     [("emit", {**TO_ALL, "volatile": True}, "news")]),
    ("compressed, which means nothing here", emitted(NEWS, opts(flags=b"\x81" + text("compress") + b"\xc3")),
     [("emit", TO_ALL, "news")]),
    ("a binary event of older emitters", emitted(NEWS + b"\xc4\x02\x00\xff", opts(), b"\x05", count=2),
     [("emit", TO_ALL, "news", b"\x00\xff")]),
    ("without `except`, and PHP's empty flags", emitted(NEWS, b"\x82" + text("rooms") + b"\x90" + text("flags") + b"\x90"),
     [("emit", TO_ALL, "news")]),
    ("a deep attachment", emitted(NEWS + b"\x81" + text("a") + b"\x91\xc4\x01\x07", opts(), count=2),
     [("emit", TO_ALL, "news", {"a": [b"\x07"]})]),
    ("a date", emitted(NEWS + TIMESTAMP, opts(), count=2), [("emit", TO_ALL, "news", "2001-09-09T01:46:40.000Z")]),
    ("a date of notepack.io 2", emitted(NEWS + OLD_DATE, opts(), count=2),
     [("emit", TO_ALL, "news", "2001-09-09T01:46:40.123Z")]),
    ("undefined", emitted(NEWS + b"\xd4\x00\x00", opts(), count=2), [("emit", TO_ALL, "news", None)]),
    ("no number", emitted(NEWS + b"\xcb\x7f\xf8" + bytes(6), opts(), count=2), [("emit", TO_ALL, "news", None)]),
    ("a number as a key", emitted(NEWS + b"\x81\x07\xc0", opts(), count=2), [("emit", TO_ALL, "news", {"7": None})]),
    ("of this bridge", emitted(NEWS, opts(), sender="me"), []),
    ("of another namespace", emitted(NEWS, opts(), nsp="/x"), "packet.nsp is wrong"),
    ("of a wrong type", emitted(NEWS, opts(), b"\x00"), "packet.type is wrong"),
    ("without a name", emitted(b"", opts(), count=0), "packet.data is wrong"),
    ("with a number as its name", emitted(b"\x01", opts()), "packet.data is wrong"),
    ("a text for rooms", emitted(NEWS, opts(text("a"))), "opts.rooms is wrong"),
    ("no options", emitted(NEWS, b"\xc0"), "opts.rooms is wrong"),
    ("a text for `except`", emitted(NEWS, opts(excepted=text("a"))), "opts.except is wrong"),
    ("a number for flags", emitted(NEWS, opts(flags=b"\x01")), "opts.flags is wrong"),
    ("too deep", emitted(NEWS + DEEP, opts(), count=2), "more than 100 lists and objects in each other"),
    ("an object that stands for an attachment", emitted(NEWS + b"\x82" + text("_placeholder") + b"\xc3" + text("num") + b"\x05",
                                                        opts(), count=2), "an object with _placeholder"),
    ("an extension", emitted(NEWS + b"\xd4\x05\x00", opts(), count=2), "no msgpack that is known here: extension 5 of 1 bytes"),
    ("no list", b"\x01", "[uid, packet, opts] is wrong"),
    ("two elements", b"\x92\x01\x02", "[uid, packet, opts] is wrong"),
    ("nothing", b"", "no msgpack"),
    ("a date beyond all years", emitted(NEWS + b"\xd7\x00\x7f" + bytes(7), opts(), count=2), "no msgpack"),
    ("1,100 lists in each other", emitted(NEWS + b"\x91" * 1100 + b"\xc0", opts(), count=2), "no msgpack"),
]

TO_A = {"in": "/", "to": ["a"], "except": []}
OPTS = {"rooms": ["a"], "except": []}
REQUESTS = [
    ("socketsJoin", {"type": 2, "opts": OPTS, "rooms": ["x", "y"]}, [("socketsJoin", TO_A, "x"), ("socketsJoin", TO_A, "y")]),
    ("socketsLeave", {"type": 3, "opts": OPTS, "rooms": ["x"]}, [("socketsLeave", TO_A, "x")]),
    ("disconnectSockets", {"type": 4, "opts": OPTS, "close": True}, [("disconnectSockets", TO_A)]),
    ("serverSideEmit", {"uid": "emitter", "type": 6, "data": ["x"]}, "the request's type 6 is wrong"),
    ("without opts", {"type": 4}, "opts.rooms is wrong"),
    ("without rooms to choose by", {"type": 4, "opts": {}}, "opts.rooms is wrong"),
    ("without a room", {"type": 2, "opts": OPTS, "rooms": []}, "rooms is wrong"),
    ("half a character", {"type": 2, "opts": OPTS, "rooms": ["\ud800"]}, "half of a surrogate pair"),
    ("a list", [], "the request is wrong"),
]

PYTHON = [
    ("emit", {"method": "emit", "event": "news", "data": ("a", b"b"), "namespace": "/", "room": None, "skip_sid": None,
              "callback": None, "host_id": "h"}, [("emit", TO_ALL, "news", "a", b"b")]),
    ("emit of a list", {"method": "emit", "event": "news", "data": ["a"], "room": "r", "skip_sid": ["s"]},
     [("emit", {"in": "/", "to": ["r"], "except": ["s"]}, "news", ["a"])]),
    ("emit of nothing", {"method": "emit", "event": "news", "data": None, "namespace": "/x", "room": ["r", "q"]},
     [("emit", {"in": "/x", "to": ["r", "q"], "except": []}, "news")]),
    ("emit of a later version", {"method": "emit", "event": "news", "binary": False, "data": ["a", 1]},
     [("emit", TO_ALL, "news", "a", 1)]),
    ("binary of a later version", {"method": "emit", "event": "news", "binary": True,
                                   "data": [["a", {"_placeholder": True, "num": 0}], "AP8="]},
     [("emit", TO_ALL, "news", "a", b"\x00\xff")]),
    ("a wrong attachment", {"method": "emit", "event": "news", "binary": True,
                            "data": [[{"_placeholder": True, "num": 3}], "AP8="]},
     "an attachment is wrong"),
    ("a callback", {"method": "emit", "event": "news", "data": None, "callback": ["r", "/", 1]},
     "a callback, which can't be called from here, is wrong"),
    ("disconnect", {"method": "disconnect", "sid": "s", "namespace": "/"}, [("disconnectSockets", {"in": "/", "to": ["s"]})]),
    ("disconnect of nobody", {"method": "disconnect", "sid": None}, "sid is wrong"),
    ("close_room", {"method": "close_room", "room": "r"}, [("socketsLeave", {"in": "/", "to": ["r"]}, "r")]),
    ("enter_room", {"method": "enter_room", "sid": "s", "room": "r"}, [("socketsJoin", {"in": "/", "to": ["s"]}, "r")]),
    ("leave_room", {"method": "leave_room", "sid": "s", "room": "r"}, [("socketsLeave", {"in": "/", "to": ["s"]}, "r")]),
    ("an answer to another server", {"method": "callback", "host_id": "h", "sid": "s", "id": 1, "args": []}, []),
    ("a list for a method", {"method": []}, "the method [] is wrong"),
    ("an unknown method", {"method": "fly"}, "the method fly is wrong"),
    ("a number", 5, "the message is wrong"),
]


class Evil:
    def __reduce__(self):
        return os.system, ("echo EVIL",)


def channels():
    for name, wanted in ((b"socket.io#/#", ("socket.io", "", "/", "")), (b"socket.io#/x#a#b#", ("socket.io", "", "/x", "a#b")),
                         (b"k-request#/#", ("k", "-request", "/", "")), (b"k-relay#/#r#", ("k", "-relay", "/", "r")),
                         (b"k#/", "no emitter's channel"), (b"k#/#r", "no emitter's channel"), (b"#/#", ("", "", "/", ""))):
        got = outcome(channel_of, name)
        check(f"channel {name.decode()}", got if isinstance(got, str) else tuple(vars(got).values()), wanted)


def main():
    channels()
    for name, payload, wanted in EMISSIONS:
        check(f"emission {name}", outcome(emission, "/", payload, "me"), wanted)
    whole = emitted(NEWS + b"\x81" + text("a") + b"\x91\xc4\x01\x07", opts(b"\x91" + text("r")), count=2)
    cut = [length for length in range(len(whole)) if not isinstance(outcome(emission, "/", whole[:length], "me"), str)]
    check(f"each of {len(whole)} truncations is refused", cut, [])
    said = packed("other", "/x", "r", ["say", "r", b"\x01"])
    check("what a bridge relays", outcome(emission, "/x", said, "me"),
          [("emit", {"in": "/x", "to": ["r"], "except": []}, "say", "r", b"\x01")])
    for name, message, wanted in REQUESTS:
        check(f"request {name}", outcome(request, "/", json.dumps(message).encode()), wanted)
    check("request cut", outcome(request, "/", b'{"type":2'), "no JSON")
    check("request too deep", outcome(request, "/", b"[" * 100_000), "no JSON")
    for name, message, wanted in PYTHON:
        check(f"python, pickled, {name}", outcome(python_message, pickle.dumps(message)), wanted)
        if "emit" not in name or "version" in name:
            check(f"python, JSON, {name}", outcome(python_message, json.dumps(message).encode()), wanted)
    evil = outcome(python_message, pickle.dumps({"method": Evil()}))
    check("python, a pickle with a function", evil, "a pickle with STACK_GLOBAL")
    check("python, a pickle of great memory", outcome(python_message, b"\x80\x02}r\xff\xff\xff\x7f."), "a pickle with LONG_BINPUT")
    shared, around = ["x"], []
    for _ in range(60):
        shared = [shared, shared]
    around.append(around)
    for name, more, wanted in (("a great value", {"data": shared}, "too large"),
                               ("a great value with attachments", {"data": [shared], "binary": True}, "too large"),
                               ("a list in itself", {"data": around}, "more than 100 lists")):
        message = pickle.dumps({"method": "emit", "event": "news", **more})
        check(f"python, a pickle of {name}", outcome(python_message, message), wanted)
    for protocol in (2, 3, 4):
        check(f"python, pickle's version {protocol}", outcome(python_message, pickle.dumps(PYTHON[1][1], protocol)), PYTHON[1][2])
    check("python, a pickle cut", outcome(python_message, pickle.dumps(PYTHON[0][1])[:40]), "no pickle")
    print(f"{len(failed)} failed" if failed else "none failed")
    sys.exit(1 if failed else 0)


if __name__ == "__main__":
    main()
