"""The plain mode: a script runs on a plugin's end and an agent's end."""

from end import End
from wire import CLOSED, OTHER, PAUSE, START, Item, Refused, Told, incoming, outgoing

TOLD = {"pause": PAUSE, "start": START, "end": CLOSED}


def listed(values, place):
    """The value at a place, or at the last one; None where there is none."""
    if place == "last":
        place = len(values) - 1
    return values[place] if 0 <= place < len(values) else None


class Ends:
    """What every mode has: two ends, the bytes that they gave out, the moment, the report."""

    def __init__(self, window):
        self.ends = {side: End(window) for side in "PA"}
        self.emitted = {"P": [], "A": []}
        self.now = self.line = 0
        self.report = []

    def run(self, commands):
        for self.line, said in enumerate(commands, 1):
            getattr(self, "do_" + said.verb)(*said.parts)

    def text(self):
        return "".join(self.report).encode()

    def tell(self, *words):
        self.report.append(" ".join((str(self.line),) + words) + "\n")

    def id(self):
        """The id of what this line puts in."""
        return self.line.to_bytes(16, "big")

    def do_at(self, moment):
        self.now = moment

    def do_put(self, side, ptype, payload):
        self.tell("put", side, self.ends[side].put(Item(ptype, payload), self.id(), self.now))

    def do_last(self, side, ptype, payload):
        answer = self.ends[side].put(Item(ptype, payload), self.id(), self.now, last=True)
        self.tell("last", side, answer)

    def do_pull(self, side):
        """Whether the end gave something out."""
        emission = self.ends[side].pull(self.now)
        if emission is None:
            self.tell("pull", side, "idle")
            return False
        spelled = outgoing(side, emission)
        self.emitted[side].append(spelled)
        self.tell("pull", side, f"emit {len(self.emitted[side]) - 1} {spelled.hex()}")
        return True

    def do_tick(self, side):
        self.tell("tick", side, self.ends[side].tick(self.now))

    def do_close(self, side):
        self.ends[side].close()
        self.tell("close", side)

    def hears(self, verb, side, message):
        """The end hears the message; the items that it releases."""
        answer, items = self.ends[side].heard(message, self.now)
        self.tell(verb, side, answer)
        return items


class Pair(Ends):
    """The two ends of the plain mode, both connected before the first line."""

    def __init__(self, window):
        super().__init__(window)
        for end in self.ends.values():
            end.opened()

    def do_hear(self, side, place):
        spelled = listed(self.emitted[OTHER[side]], place)
        if spelled is None:
            self.tell("hear", side, "absent")
            return []
        return self.hears("hear", side, incoming(side, spelled))

    def do_hurt(self, side, place, octet):
        spelled = listed(self.emitted[OTHER[side]], place)
        if spelled is None or octet >= len(spelled) - 120:
            self.tell("hurt", side, "absent")
            return
        damaged = bytearray(spelled)
        damaged[120 + octet] ^= 1
        try:
            incoming(side, bytes(damaged))
            self.tell("hurt", side, "passed")
        except Refused as refusal:
            self.tell("hurt", side, f"refused {refusal.number}")

    def do_lost(self, side):
        self.ends[side].lost()
        self.tell("lost", side)

    def do_open(self, side):
        self.ends[side].opened()
        self.tell("open", side)

    def do_pause(self, side):
        self.hears("pause", side, Told(TOLD["pause"]))

    def do_start(self, side):
        self.hears("start", side, Told(TOLD["start"]))

    def do_end(self, side):
        self.hears("end", side, Told(TOLD["end"]))

    def do_settle(self):
        self.do_open("P")
        self.do_open("A")
        for side in "PA":
            while self.do_pull(side):
                self.do_hear(OTHER[side], "last")
