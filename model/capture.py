"""The mode --show: a capture is a list of pieces, each a length in four bytes and a message."""

import uuid

from wire import MAX_MESSAGE, Refused, decode

SIZE, MESSAGE, CUT = 1, 2, 3


def line_of(at, message):
    """A message of the capture, with the place of its piece."""
    id = uuid.UUID(bytes=message.id)
    length = len(message.payload)
    return f"{at} {message.name} {message.seq} {message.flags} {message.ptype} {length} {id}\n"


def show(capture):
    """The lines of the messages before the first fault, and that fault: a place and a cause."""
    lines, at, fault = [], 0, None
    while at < len(capture) and fault is None:
        rest = capture[at:at + 4 + MAX_MESSAGE]
        said = int.from_bytes(rest[:4], "big")
        spelled = rest[4:4 + said]
        if len(rest) < 4:
            fault = at, CUT
        elif said > MAX_MESSAGE:
            fault = at, SIZE
        elif len(spelled) < said:
            fault = at, CUT
        else:
            try:
                lines.append(line_of(at, decode(spelled)))
                at += 4 + said
            except Refused:
                fault = at, MESSAGE
    return "".join(lines).encode(), fault
