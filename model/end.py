"""One end of the channel: the rules of docs/PROTOCOL.md, with each answer as words of the report."""

from collections import OrderedDict

from wire import CLOSED, PAUSE, Ack, Stream

GIVE_UP_AFTER = 3_000
NUMBERS = 2**63 - 1


def elapsed(since, now):
    """Where the moment goes back, no time has passed."""
    return max(0, now - since)


def hexadecimal(octets):
    return octets.hex() or "-"


class Estimate:
    """The retransmission timeout, by the samples so far."""

    def __init__(self):
        self.smoothed, self.deviation, self.timeout = 800, 0, 200

    def sample(self, round_trip):
        round_trip = min(round_trip, 600_000)
        error = abs(self.smoothed // 8 - round_trip)
        self.deviation += error - self.deviation // 4
        self.smoothed += round_trip - self.smoothed // 8
        self.timeout = min(1_000, self.smoothed // 8 + max(10, self.deviation))


class End:
    """What the calls so far have made of one end.

    `unacknowledged` has what was put in and not acknowledged by number; `sent_at` the moments of
    the last transmissions; `unsent` is the least number that was not transmitted since `opened`.
    """

    def __init__(self, window):
        self.window = window
        self.up = self.paused = self.closed = self.finished = False
        self.next = self.low = self.unsent = 0
        self.unacknowledged, self.sent_at = {}, {}
        self.marked, self.dues = False, 0
        self.expected, self.early, self.final = 0, {}, None
        self.owed = OrderedDict()
        self.estimate = Estimate()

    def room(self):
        """How many puts the window still takes."""
        return 0 if self.closed or self.finished else self.window - (self.next - self.low)

    def put(self, item, id, now, last=False):
        if self.closed:
            return "closed"
        if self.finished:
            return "past"
        if self.next == NUMBERS:
            return "spent"
        if self.next - self.low == self.window:
            return "full"
        self.unacknowledged[self.next] = Stream(self.next, id, max(now, 1), item, last)
        self.finished = last
        self.next += 1
        return f"seq {self.next - 1}"

    def pull(self, now):
        """The emission, or None where the end is idle."""
        if self.closed or not self.up:
            return None
        if self.owed:
            seq, id = self.owed.popitem(last=False)
            return Ack(seq, id, max(now, 1))
        if self.paused:
            return None
        return self.transmit(now)

    def transmit(self, now):
        """The least eligible number: the lowest where it is marked, else the first one that was
        not transmitted on this connection."""
        if self.marked:
            self.marked = False
            seq = self.low
        else:
            while self.unsent < self.next and self.unsent not in self.unacknowledged:
                self.unsent += 1
            if self.unsent == self.next:
                return None
            seq = self.unsent
        self.unsent = max(self.unsent, seq + 1)
        self.sent_at[seq] = now
        return self.unacknowledged[seq]

    def tick(self, now):
        if self.closed or not self.up or self.low == self.next:
            return "nothing"
        if self.low >= self.unsent or self.marked:
            return "nothing"
        if elapsed(self.sent_at[self.low], now) <= self.estimate.timeout:
            return "nothing"
        if self.dues == GIVE_UP_AFTER:
            self.closed = True
            return f"gave-up {self.low}"
        self.marked = True
        self.dues += 1
        return f"due {self.low}"

    def lost(self):
        self.up = False

    def opened(self):
        self.up, self.paused, self.unsent = True, False, self.low

    def close(self):
        self.closed = True

    def heard(self, message, now):
        """The answer's words, and the items that it releases."""
        if self.closed:
            return "after-close", []
        if isinstance(message, Stream):
            answer, items = self.take(message)
            if answer in ("released", "finished", "late") and len(self.owed) < self.window:
                self.owed.setdefault(message.seq, message.id)
            if answer in ("released", "finished"):
                spelled = [f"{item.ptype}:{hexadecimal(item.payload)}" for item in items]
                answer = " ".join([answer, str(len(items))] + spelled)
            return answer, items
        if isinstance(message, Ack):
            return self.acknowledged(message.seq, now), []
        if message.name == CLOSED:
            self.closed = True
            return "ended", []
        self.paused = message.name == PAUSE
        return ("paused" if self.paused else "started"), []

    def take(self, message):
        """A stream message goes into the window; in-order items come out."""
        seq = message.seq
        if seq < self.expected or seq in self.early:
            return "late", []
        if seq >= self.expected + self.window:
            return "beyond", []
        if self.final is not None and self.final < seq:
            return f"past-end {self.final}", []
        above = [taken for taken in self.early if taken > seq] if message.last else []
        if above:
            return f"past-end {min(above)}", []
        if message.last:
            self.final = seq
        self.early[seq] = message.item
        items = []
        while self.expected in self.early:
            items.append(self.early.pop(self.expected))
            self.expected += 1
        ends = self.final is not None and bool(items) and self.final == self.expected - 1
        return ("finished" if ends else "released"), items

    def acknowledged(self, seq, now):
        if seq not in self.unacknowledged or seq not in self.sent_at:
            return f"unknown-ack {seq}"
        del self.unacknowledged[seq]
        self.estimate.sample(elapsed(self.sent_at.pop(seq), now))
        if seq == self.low:
            self.marked, self.dues = False, 0
            while self.low < self.next and self.low not in self.unacknowledged:
                self.low += 1
        return f"acked {seq}"
