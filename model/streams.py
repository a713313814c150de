"""The mode --streams: the plain verbs, and a link of streams whose bytes are the items of type 1."""

from mux import Mux
from pair import Pair
from wire import Item

BYTES = 1


class Streams(Pair):
    """Two ends, each with its side of the link; the plugin's side opens streams."""

    def __init__(self, window):
        super().__init__(window)
        self.muxes = {"P": Mux(is_client=True), "A": Mux(is_client=False)}
        self.left = {"P": b"", "A": b""}

    def hears(self, verb, side, message):
        items = super().hears(verb, side, message)
        came = [item.payload for item in items if item.ptype == BYTES]
        if came:
            self.feed(side, b"".join(came))
        return items

    def feed(self, side, octets):
        """What was left before goes first."""
        events, self.left[side] = self.muxes[side].feed(self.left[side] + octets)
        for event in events:
            self.tell("stream", side, event)

    def do_sopen(self):
        self.tell("sopen", self.muxes["P"].open())

    def do_swrite(self, side, sid, payload):
        self.tell("swrite", side, self.muxes[side].write(sid, payload))

    def do_sclose(self, side, sid):
        self.tell("sclose", side, self.muxes[side].close(sid))

    def do_spush(self, side, most):
        end = self.ends[side]
        if end.room() == 0:
            answer = "closed" if end.closed else "past" if end.finished else "full"
        else:
            given = self.muxes[side].out(most)
            answer = end.put(Item(BYTES, given), self.id(), self.now) if given else "empty"
        self.tell("spush", side, answer)

    def do_stake(self, side, sid, most):
        taken = self.muxes[side].take(sid, most)
        self.tell("stake", side, taken.hex() if isinstance(taken, bytes) else taken)
        self.feed(side, b"")
