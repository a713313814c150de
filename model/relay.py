"""The mode --relay: two ends that reach each other by the relay's connections alone."""

from pair import Ends, listed
from wire import CLOSED, OTHER, PAUSE, START, incoming, relay_message

SESSION = "lab"


class Relayed(Ends):
    """Two ends, what the relay knows of their connections, and what it sent to each end.

    `latest` is the last connection that an end made, `current` the one that the relay holds.
    """

    def __init__(self, window):
        super().__init__(window)
        self.made, self.is_over = 0, False
        self.latest = {"P": None, "A": None}
        self.current = {"P": None, "A": None}
        self.inbox = {"P": [], "A": []}

    def is_current(self, side):
        return self.latest[side] is not None and self.latest[side] == self.current[side]

    def send(self, side, name):
        self.inbox[side].append(relay_message(name, self.id(), self.now, SESSION))

    def do_dial(self, side):
        connection, self.made = self.made, self.made + 1
        self.latest[side] = connection
        if self.is_over:
            self.send(side, CLOSED)
        else:
            self.current[side] = connection
            if self.current[OTHER[side]] is None:
                self.send(side, PAUSE)
            else:
                self.send(OTHER[side], START)
        self.ends[side].opened()
        self.tell("dial", side, f"conn {connection}")

    def do_gone(self, side):
        if self.is_current(side):
            self.current[side] = None
            if self.current[OTHER[side]] is not None:
                self.send(OTHER[side], PAUSE)
        self.ends[side].lost()
        self.tell("gone", side)

    def do_post(self, side, place):
        spelled = listed(self.emitted[side], place)
        if spelled is None:
            answer = "absent"
        elif not self.is_current(side):
            answer = "dropped"
        else:
            answer = "sent"
            if self.current[OTHER[side]] is not None:
                self.inbox[OTHER[side]].append(spelled)
        self.tell("post", side, answer)

    def do_take(self, side, place):
        spelled = listed(self.inbox[side], place)
        if spelled is None:
            self.tell("take", side, "absent")
        else:
            self.hears("take", side, incoming(side, spelled))

    def do_finish(self):
        for side in "PA":
            if self.current[side] is not None:
                self.send(side, CLOSED)
                self.current[side] = None
        self.is_over = True
        self.tell("finish")
