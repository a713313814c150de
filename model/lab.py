"""A model of the program lab: the same words, script, report and statuses.

It is written from docs/PROTOCOL.md, docs/LAB.md and docs/JOURNAL.md alone. Modes that lab does not have yet are
switched off, unless the variable MODEL_MODES names them, separated by commas.
"""

import os
import sys

from capture import show
from generator import generate
from journal import Fault, Journaled, judge
from pair import Pair
from relay import Relayed
from script import BadLine, commands
from streams import Streams
from words import GREATEST_WINDOW, Usage, read_words

GREATEST_INPUT = 67_108_864
BUILT = ("last", "show", "gen", "streams", "relay", "journal", "audit")
COMING = ("last", "show", "gen", "streams", "relay", "journal", "audit")
SCRIPTED = {"plain": Pair, "streams": Streams, "relay": Relayed, "journal": Journaled}


def run(words, read, modes=BUILT):
    """The status with its words, and the bytes of the output. `read` gives at most so many bytes
    of the input, and all of them where there are no more."""
    try:
        mode, numbers = read_words(words, modes)
    except Usage as fault:
        return (2, "Usage", fault.place), b""
    if mode == "gen":
        return (0, "Ok"), generate(*numbers)
    try:
        script = read(GREATEST_INPUT + 1)
    except OSError:
        return (4, "ReadFault"), b""
    if len(script) > GREATEST_INPUT:
        return (6, "TooLong"), b""
    if mode == "show":
        text, fault = show(script)
        return ((16, "BadCapture", *fault) if fault else (0, "Ok")), text
    window = (numbers or [GREATEST_WINDOW])[0]
    if mode == "audit":
        try:
            return (0, "Ok"), judge(script, window).encode()
        except Fault as fault:
            return (18, "BadJournal", fault.at, fault.why), b""
    try:
        said = commands(script, "plain" if mode == "journal" else mode, modes)
    except BadLine as fault:
        return (3, "Script", fault.line), b""
    ends = SCRIPTED[mode](window)
    ends.run(said)
    return (0, "Ok"), ends.text()


def status_line(status):
    """What stands on standard error; nothing at status 0."""
    words = " ".join(str(word) for word in status)
    return f"lab: status {words}\n" if status[0] else ""


def main():
    modes = [mode for mode in os.environ.get("MODEL_MODES", "").split(",") if mode] or BUILT
    words = [os.fsencode(word) for word in sys.argv[1:]]
    status, output = run(words, sys.stdin.buffer.read, modes)
    try:
        sys.stdout.buffer.write(output)
        sys.stdout.buffer.flush()
    except OSError:
        status = (5, "WriteFault")
    sys.stderr.write(status_line(status))
    sys.stderr.flush()
    os._exit(status[0])


if __name__ == "__main__":
    main()
