"""What apps want of a CONNECT, an event, an answer, and where a socket has ended. An effect is a tuple: its name, and what it
is done with. What goes to many sockets names them first: their namespace, rooms, and excepted rooms."""
from wire import id_text, is_text

# The id of a question that is asked of a whole namespace.
POLL = 900
# How long an answer is waited for.
WAIT = 10_000
# How a socket ended, as others are told.
WORDS = {"Saved": "saved", "Closed": "closed", "Alone(Client)": "left", "Alone(Server)": "alone",
         "Together": "together"}


class App:
    """An app that lets everybody in, and wants nothing. Each call gets the packet's header, but for the end of a socket."""

    spaces = ("/", "/admin")

    def connects(self, header):
        """The effects of a CONNECT, or the message with which it is refused."""
        return []

    def decides(self, sid, header):
        return []

    def answers(self, sid, header):
        return []

    def strays(self, sid, header):
        """What an answer wants that is to no question of its socket."""
        return []

    def connected(self, sid, header):
        """What is wanted of a socket that has connected."""
        return []

    def returned(self, sid, header, rooms):
        """What is wanted of a session that has come back."""
        return []

    def left(self, sid, space, rooms, ending):
        return []


class Relay(App):
    """The demonstration app (docs/SCRIPTS.md)."""

    def connects(self, header):
        return "Not allowed" if header.payload == '{"token":"no"}' else []

    def decides(self, sid, header):
        texts = [it if is_text(it) else None for it in header.tree]
        effects = self.first(header, texts[0], room_in(texts, 1), room_in(texts, 2), id_text(sid))
        return effects + [("reply", [])] * (header.id is not None) + [("bye",)] * (texts[0] == "bye")

    @staticmethod
    def first(header, name, room, second, own):
        """What an event of this name wants before it is acknowledged, where its rooms are known."""
        to = lambda rooms, excepted=(): (header.space, rooms, excepted)
        emit = lambda whom, is_logged=True: ("emit", whom, is_logged, header.payload, header.parts)
        alone = {"all": [emit(to([]))], "ask": [("ask", header.payload, WAIT, header.parts)]}
        with_one = {
            "join": ("join", room), "leave": ("leave", room), "say": emit(to([room], [own])),
            "quiet": emit(to([room], [own]), False), "kick": ("end", to([room], [own])),
        }
        with_two = {
            "two": emit(to([room, second], [own])), "but": emit(to([room], [second, own])),
            "pull": ("pull", to([room]), second), "push": ("push", to([room]), second),
        }
        if name in with_one and room is not None:
            return [with_one[name]]
        if name in with_two and room is not None and second is not None:
            return [with_two[name]]
        return alone.get(name, [])


def room_in(texts, place):
    text = texts[place] if place < len(texts) else None
    return text if text is not None and len(text.encode()) <= 64 else None


class Wild(Relay):
    """The demonstration app, but for some events and some CONNECTs, of which it wants what can't be done, and some rooms."""

    def connects(self, header):
        return self.wild(header.space, header.payload, id_text(7)) or super().connects(header)

    def decides(self, sid, header):
        return self.wild(header.space, header.payload, id_text(sid)) or super().decides(sid, header)

    def strays(self, sid, header):
        return self.wild(header.space, '["heard"]') if header.id == POLL else []

    def connected(self, sid, header):
        return self.wild(header.space, '["heard"]') if header.payload == '{"do":"greet"}' else []

    def returned(self, sid, header, rooms):
        return self.wild(header.space, '["heard"]') if "back" in rooms else []

    def left(self, sid, space, rooms, ending):
        """A room's name says what is wanted where a socket of it has ended."""
        others, payload = [room for room in rooms if room != id_text(sid)], f'["left","{id_text(sid)}","{WORDS[ending]}"]'
        told = [("emit", (space, others, [id_text(sid)]), True, payload, [])]
        return [("bye",)] if "oops" in rooms else told if "wake" in rooms else []

    @staticmethod
    def wild(space, wish, own=""):
        late, join, everybody = [("bye",), ("join", id_text(7))], [("join", id_text(7))], (space, [], [])
        send = lambda to, form: [("emit", (to, [], []), form, '["far"]', [])]
        return {
            '["over"]': [("end", everybody)] * 2, '["gone"]': [("end", (space, [id_text(0)], []))],
            '["own"]': [("leave", own)], '["late"]': late, '{"do":"late"}': late, '{"do":"join"}': join,
            '["mute"]': [("no array",)], '["vague"]': [("no array",)], '["again"]': [("no array",)],
            '["far"]': send("/admin", True), '["nowhere"]': send("/none", True), '["heard"]': send(space, False),
            '["fine"]': [("report",)], '["report"]': [("leave", own), ("report",)], '["list"]': [("fetch", everybody)],
            '["poll"]': send(space, ("25", POLL)), '["told"]': send(space, ("36", POLL)),
        }.get(wish)


class Quiz(App):
    """The quiz (docs/APPS.md)."""

    QUESTION = ("ask", '["question","How much is six times seven?"]', 30_000, [])

    def decides(self, sid, header):
        return [self.QUESTION] * begins_with(header, "play") + [("reply", [])] * (header.id is not None)

    def answers(self, sid, header):
        solved = ("emit", (header.space, [], []), True, '["solved"]', [])
        return [solved if begins_with(header, "42") else self.QUESTION]


def begins_with(header, word):
    return header.tree[:1] == [word] and is_text(header.tree[0])
