"""The binary message of the data channel, and what a side hears in one (docs/PROTOCOL.md)."""

import hashlib
import json
import re
import uuid
from typing import NamedTuple

MAX_PAYLOAD = 65_536
MAX_MESSAGE = 120 + MAX_PAYLOAD
SYN, FIN = 1, 2
DATA_NAME = {"P": "input_stream_data", "A": "output_stream_data"}
OTHER = {"P": "A", "A": "P"}
PAUSE, START, CLOSED = "pause_publication", "start_publication", "channel_closed"
NAME_FIELD = re.compile(rb"([A-Za-z0-9_]+)[\x00 ]*")


class Item(NamedTuple):
    """What a user puts in: a payload with its type."""

    ptype: int
    payload: bytes


class Stream(NamedTuple):
    """A stream message, as an end gives it out and as the other end hears it."""

    seq: int
    id: bytes
    date: int
    item: Item
    last: bool


class Ack(NamedTuple):
    """An acknowledgement; its id is that of the message that it acknowledges."""

    seq: int
    id: bytes
    date: int


class Told(NamedTuple):
    """A message of the relay: a pause, a start or a closing."""

    name: str


class Message(NamedTuple):
    """All fields of a message that is read."""

    name: str
    date: int
    seq: int
    flags: int
    id: bytes
    ptype: int
    payload: bytes


class Refused(Exception):
    """Bytes that are no message: the number of the refusal in the protocol's table."""

    def __init__(self, number):
        super().__init__(number)
        self.number = number


def encode(message):
    """The one spelling that is written: filler of spaces, schema version 1, the right digest."""
    big = lambda number, width: number.to_bytes(width, "big")
    return b"".join((
        big(116, 4),
        message.name.encode().ljust(32),
        big(1, 4),
        big(message.date, 8),
        message.seq.to_bytes(8, "big", signed=True),
        big(message.flags, 8),
        message.id[8:] + message.id[:8],
        hashlib.sha256(message.payload).digest(),
        big(message.ptype, 4),
        big(len(message.payload), 4),
        message.payload,
    ))


def decode(spelled):
    """The message that these bytes spell, or the first refusal of the table that applies."""
    number = lambda at, width: int.from_bytes(spelled[at:at + width], "big")
    if len(spelled) < 120:
        raise Refused(1)
    if number(0, 4) != 116:
        raise Refused(2)
    field = NAME_FIELD.fullmatch(spelled[4:36])
    if not field:
        raise Refused(3)
    payload = spelled[120:]
    if number(116, 4) != len(payload):
        raise Refused(4)
    if len(payload) > MAX_PAYLOAD:
        raise Refused(5)
    name, date = field[1].decode(), number(40, 8)
    if name not in (PAUSE, START):
        if date == 0:
            raise Refused(6)
        if payload and hashlib.sha256(payload).digest() != spelled[80:112]:
            raise Refused(7)
    seq = int.from_bytes(spelled[48:56], "big", signed=True)
    id = spelled[72:80] + spelled[64:72]
    return Message(name, date, seq, number(56, 8), id, number(112, 4), payload)


def body(members):
    """A JSON object as it is written: no blanks, keys in byte order."""
    return json.dumps(members, separators=(",", ":"), sort_keys=True).encode()


def outgoing(side, emission):
    """The bytes of what the end of this side gave out."""
    if isinstance(emission, Ack):
        acknowledged = {
            "AcknowledgedMessageId": str(uuid.UUID(bytes=emission.id)),
            "AcknowledgedMessageSequenceNumber": emission.seq,
            "AcknowledgedMessageType": DATA_NAME[OTHER[side]],
            "IsSequentialMessage": True,
        }
        spelled = body(acknowledged)
        return encode(Message("acknowledge", emission.date, 0, SYN | FIN, emission.id, 0, spelled))
    seq, id, date, item, last = emission
    flags = (SYN if seq == 0 else 0) | (FIN if last else 0)
    return encode(Message(DATA_NAME[side], date, seq, flags, id, item.ptype, item.payload))


def relay_message(name, id, now, session):
    """The bytes of a pause, a start or a closing of the relay."""
    date = max(now, 1)
    closing = {
        "CreatedDate": str(date),
        "DestinationId": "",
        "MessageId": str(uuid.UUID(bytes=id)),
        "MessageType": CLOSED,
        "Output": "",
        "SchemaVersion": 1,
        "SessionId": session,
    }
    return encode(Message(name, date, 0, 0, id, 0, body(closing) if name == CLOSED else b""))


def incoming(side, spelled):
    """What the end of this side hears in the bytes. Whatever is not refused here was written by
    the lab, so that its name and body are of the kinds below."""
    message = decode(spelled)
    if message.name == DATA_NAME[OTHER[side]]:
        item = Item(message.ptype, message.payload)
        return Stream(message.seq, message.id, message.date, item, bool(message.flags & FIN))
    if message.name == "acknowledge":
        acknowledged = json.loads(message.payload)
        return Ack(acknowledged["AcknowledgedMessageSequenceNumber"], message.id, message.date)
    if message.name in (PAUSE, START, CLOSED):
        return Told(message.name)
    raise AssertionError(f"the lab wrote a message {message.name}")
