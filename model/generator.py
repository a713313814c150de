"""The mode --gen: a script that makes itself, of which the counts alone are reported."""

from end import End
from words import GREATEST_WINDOW
from wire import OTHER, Item

MULTIPLIER, INCREMENT = 6364136223846793005, 1442695040888963407


class Counted:
    """Two ends, the last emission of each, and what was put in and released."""

    def __init__(self):
        self.ends = {side: End(GREATEST_WINDOW) for side in "PA"}
        self.latest = {"P": None, "A": None}
        self.put_in = {"P": 0, "A": 0}
        self.released = {"P": 0, "A": 0}
        self.line = self.now = 0
        for end in self.ends.values():
            end.opened()

    def put(self, side, payload):
        self.line += 1
        answer = self.ends[side].put(Item(1, payload), self.line.to_bytes(16, "big"), self.now)
        self.put_in[side] += answer.startswith("seq")

    def pull(self, side):
        self.line += 1
        emission = self.ends[side].pull(self.now)
        self.latest[side] = emission or self.latest[side]
        return emission is not None

    def hear_last(self, side):
        self.line += 1
        message = self.latest[OTHER[side]]
        if message is not None:
            self.released[side] += len(self.ends[side].heard(message, self.now)[1])

    def round(self, number, kind):
        """The lines of one round."""
        self.line += 1
        self.now = 100 * number
        if kind <= 4:
            self.put("P" if kind <= 2 else "A", bytes([number % 256]))
        elif kind <= 12:
            side = "P" if kind <= 8 else "A"
            self.pull(side)
            self.hear_last(OTHER[side])
        elif kind <= 14:
            side = "P" if kind == 13 else "A"
            self.pull(side)
            self.line += 1
            self.ends[side].tick(self.now)
        else:
            self.line += 4
            for end in self.ends.values():
                end.lost()
                end.opened()

    def settle(self):
        for end in self.ends.values():
            end.opened()
        for side in "PA":
            while self.pull(side):
                self.hear_last(OTHER[side])


def generate(rounds, start):
    """The one line of the report."""
    ends, state = Counted(), start
    for number in range(rounds):
        state = (state * MULTIPLIER + INCREMENT) % 2**64
        ends.round(number, state >> 60)
    ends.settle()
    put_in, released = ends.put_in, ends.released
    return (f"gen {rounds} put P {put_in['P']} A {put_in['A']}"
            f" released A {released['A']} P {released['P']}\n").encode()
