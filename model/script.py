"""The lab's script: its lines, and the command that each says (docs/LAB.md)."""

import re
from typing import NamedTuple

GREATEST = 2**64 - 1
DIGITS = re.compile(rb"0|[1-9][0-9]*")
PAIRS = re.compile(rb"(?:[0-9a-f]{2})+")


class Command(NamedTuple):
    """A verb with the values of its parts."""

    verb: str
    parts: tuple


class BadLine(Exception):
    """The number of the first line that is out of the grammar."""

    def __init__(self, line):
        super().__init__(line)
        self.line = line


def number(word, least=0, greatest=GREATEST):
    """A decimal number in the range, or None."""
    if len(word) > 20 or not DIGITS.fullmatch(word):
        return None
    value = int(word)
    return value if least <= value <= greatest else None


def octets(word, greatest=65_536):
    """The bytes of lower-case hexadecimal digits, or None; at least one byte."""
    if len(word) > 2 * greatest or not PAIRS.fullmatch(word):
        return None
    return bytes.fromhex(word.decode())


def payload(word):
    return b"" if word == b"-" else octets(word)


def end(word):
    return word.decode() if word in (b"P", b"A") else None


def which(word):
    """A place in a list, or its last one."""
    return "last" if word == b"last" else number(word)


def below_2_32(word):
    return number(word, 0, 2**32 - 1)


def other_type(word):
    """A payload type that is not the one of the streams' bytes."""
    value = below_2_32(word)
    return None if value == 1 else value


def written(word):
    return octets(word, 32_768)


def push_size(word):
    return number(word, 1, 1_024)


def take_size(word):
    return number(word, 1, 65_536)


SHARED = {"at": (number,), "pull": (end,), "tick": (end,), "close": (end,)}
PAIR = {
    "hear": (end, which), "hurt": (end, which, number), "lost": (end,), "open": (end,),
    "pause": (end,), "start": (end,), "end": (end,), "settle": (),
}
MUX = {
    "sopen": (), "swrite": (end, below_2_32, written), "sclose": (end, below_2_32),
    "spush": (end, push_size), "stake": (end, below_2_32, take_size),
}
RELAYED = {"dial": (end,), "gone": (end,), "post": (end, which), "take": (end, which), "finish": ()}
PUT = (end, below_2_32, payload)
PUT_BESIDE_STREAMS = (end, other_type, payload)

GRAMMARS = {
    "plain": {**SHARED, **PAIR, "put": PUT, "last": PUT},
    "streams": {**SHARED, **PAIR, **MUX, "put": PUT_BESIDE_STREAMS, "last": PUT_BESIDE_STREAMS},
    "relay": {**SHARED, **RELAYED, "put": PUT, "last": PUT},
}


def command(line, grammar):
    """The command that the line says, or None."""
    verb, *words = line.split(b" ")
    readers = grammar.get(verb.decode("latin-1"))
    if readers is None or len(readers) != len(words):
        return None
    parts = tuple(reader(word) for reader, word in zip(readers, words))
    return None if None in parts else Command(verb.decode(), parts)


def commands(script, mode, modes):
    """The commands of all lines; a verb that is switched off is out of the grammar."""
    grammar = dict(GRAMMARS[mode])
    if "last" not in modes:
        del grammar["last"]
    lines = script.split(b"\n")
    if lines[-1] == b"":
        lines.pop()
    read = []
    for place, line in enumerate(lines, 1):
        said = command(line, grammar)
        if said is None:
            raise BadLine(place)
        read.append(said)
    return read
