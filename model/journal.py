"""Journals of what two ends did: the writer and the auditor (docs/JOURNAL.md)."""

import json

from end import End
from pair import TOLD, Pair, listed
from relay import SESSION
from wire import (CLOSED, DATA_NAME, OTHER, PAUSE, START, Ack, Refused, Stream, Told, decode, incoming,
                  outgoing, relay_message)

EMITTED, HEARD, OPENED, LOST, CLOSE = range(5)
GREATEST_RECORD = 65_658
SIZE, WRONG_END, KIND, EXTRA, MESSAGE, CUT, NOT_EMITTED, UNHEARD = range(1, 9)
LAST_MOMENT = 2**64 - 1


class Journaled(Pair):
    """The two ends of the plain mode, of which the journal is kept."""

    def __init__(self, window):
        super().__init__(window)
        self.journal = bytearray()
        for side in "PA":
            self.record(side, OPENED)

    def record(self, side, kind, message=b""):
        self.journal += (len(message) + 2).to_bytes(4, "big") + side.encode() + bytes([kind]) + message

    def text(self):
        return bytes(self.journal)

    def do_pull(self, side):
        emits = super().do_pull(side)
        if emits:
            self.record(side, EMITTED, self.emitted[side][-1])
        return emits

    def do_hear(self, side, place):
        spelled = listed(self.emitted[OTHER[side]], place)
        if spelled is not None:
            self.record(side, HEARD, spelled)
        return super().do_hear(side, place)

    def do_tick(self, side):
        was_closed = self.ends[side].closed
        super().do_tick(side)
        if self.ends[side].closed and not was_closed:
            self.record(side, CLOSE)

    def do_lost(self, side):
        super().do_lost(side)
        self.record(side, LOST)

    def do_open(self, side):
        super().do_open(side)
        self.record(side, OPENED)

    def do_close(self, side):
        super().do_close(side)
        self.record(side, CLOSE)

    def hear_relay(self, verb, side):
        self.record(side, HEARD, relay_message(TOLD[verb], self.id(), self.now, SESSION))

    def do_pause(self, side):
        self.hear_relay("pause", side)
        super().do_pause(side)

    def do_start(self, side):
        self.hear_relay("start", side)
        super().do_start(side)

    def do_end(self, side):
        self.hear_relay("end", side)
        super().do_end(side)


class Fault(Exception):
    """The offset of a record, and the number of what is wrong with it."""

    def __init__(self, at, why):
        super().__init__(at, why)
        self.at, self.why = at, why


def hears(side, spelled):
    """What the end of this side hears; Refused where it hears nothing. JSON bodies are taken as they
    come, since a changed one has another digest."""
    message = decode(spelled)
    if message.name not in (DATA_NAME[OTHER[side]], "acknowledge", PAUSE, START, CLOSED):
        raise Refused(0)
    if message.name == DATA_NAME[OTHER[side]] and message.seq < 0:
        raise Refused(0)
    if message.name in ("acknowledge", CLOSED):
        try:
            members = json.loads(message.payload)
        except ValueError:
            raise Refused(0) from None
        wanted = "AcknowledgedMessageSequenceNumber" if message.name == "acknowledge" else "Output"
        if not isinstance(members, dict) or wanted not in members:
            raise Refused(0)
    return incoming(side, spelled)


def records(journal):
    """Each record of a journal as its place, its end, its kind, its message and what is heard of it."""
    at = 0
    while at < len(journal):
        have = len(journal) - at
        if have < 4:
            raise Fault(at, CUT)
        size = int.from_bytes(journal[at:at + 4], "big")
        if not 2 <= size <= GREATEST_RECORD:
            raise Fault(at, SIZE)
        if have < 4 + size:
            raise Fault(at, CUT)
        side, kind, message = chr(journal[at + 4]), journal[at + 5], journal[at + 6:at + 4 + size]
        if side not in OTHER:
            raise Fault(at, WRONG_END)
        if kind > CLOSE:
            raise Fault(at, KIND)
        if kind > HEARD and message:
            raise Fault(at, EXTRA)
        heard = None
        if kind <= HEARD:
            try:
                heard = hears(side if kind == HEARD else OTHER[side], message)
            except Refused:
                raise Fault(at, MESSAGE) from None
        yield at, side, kind, message, heard
        at += 4 + size


class Replayed:
    """One end of the replay, what it gave out, and how much it released."""

    def __init__(self, side, window):
        self.side, self.end = side, End(window)
        self.given, self.acked, self.since = set(), set(), set()
        self.released = 0

    def emits(self, message, heard):
        """Whether the end can give this message out."""
        moment = 0
        if isinstance(heard, Stream):
            if heard.seq == self.end.next:
                self.end.put(heard.item, heard.id, heard.date, heard.last)
            elif heard.seq < self.end.next and heard.seq in self.since:
                self.end.tick(LAST_MOMENT)
        elif isinstance(heard, Ack):
            moment = heard.date
        else:
            return False
        emission = self.end.pull(moment)
        if emission is None or outgoing(self.side, emission) != message:
            return False
        if isinstance(emission, Ack):
            self.acked.add(emission.seq)
        else:
            self.given.add((emission.seq, emission.id, emission.item, emission.last))
            self.since.add(emission.seq)
        return True

    def may_hear(self, heard, other):
        if isinstance(heard, Stream):
            return (heard.seq, heard.id, heard.item, heard.last) in other.given
        return isinstance(heard, Told) or heard.seq in other.acked

    def does(self, kind, message, heard, other):
        """Whether the end can do this next; None where it has to wait for the other."""
        if kind == EMITTED:
            return self.emits(message, heard)
        if kind == HEARD:
            if not self.may_hear(heard, other):
                return None
            self.released += len(self.end.heard(heard, 0)[1])
        elif kind == OPENED:
            self.end.opened()
            self.since = set()
        elif kind == LOST:
            self.end.lost()
        else:
            self.end.close()
        return True


def judge(journal, window):
    """The line of the verdict; Fault where the journal is refused."""
    said = list(records(journal))
    ends = {side: Replayed(side, window) for side in "PA"}
    left = {side: [record for record in said if record[1] == side] for side in "PA"}
    stuck, going = {"P": False, "A": False}, True
    while going:
        going = False
        for side in "PA":
            while left[side] and not stuck[side]:
                _, _, kind, message, heard = left[side][0]
                done = ends[side].does(kind, message, heard, ends[OTHER[side]])
                if not done:
                    stuck[side] = done is False
                    break
                left[side].pop(0)
                going = True
    first = min((left[side][0] for side in "PA" if left[side]), default=None)
    if first:
        raise Fault(first[0], NOT_EMITTED if first[2] == EMITTED else UNHEARD)
    plugin, agent = ends["P"], ends["A"]
    return (f"yes sent P {plugin.end.next} A {agent.end.next} "
            f"released A {agent.released} P {plugin.released}\n")
