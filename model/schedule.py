"""Random inputs of the lab: words, and scripts that meet its rules and edges often."""

from random import Random

from lab import SCRIPTED, run
from script import GRAMMARS, command
from wire import CLOSED, DATA_NAME, OTHER, PAUSE, START, Message, encode

EDGES = (0, 1, 2**31, 2**32 - 1, 2**32, 2**63 - 1, 2**63, 2**64 - 1, 2**64)
STRANGE_WORDS = (b"", b"0", b"1", b"2", b"01", b"+1", b"-1", b"10000", b"10001", b"\xff", b"--x",
                 b"--window", b"--window=2", b"--streams", b"--relay", b"--journal", b"--audit",
                 b"--show", b"--gen", b"--help")
STEPS = (0, 1, 9, 10, 11, 90, 150, 190, 199, 200, 201, 1_000, 1_001, 600_000, 700_000)
SPOILED = (b"", b"put P 1 6", b"put P 1 6A", b"put Q 1 61", b"put P 4294967296 61", b"put P 1  61",
           b"put P 01 61", b" pull P", b"pull P ", b"pull P\r", b"pull\tP", b"pull p", b"pull", b"Pull P",
           b"hear A +1", b"hear A 00", b"hear A Last", b"hear A 18446744073709551616", b"hurt P 0 -1",
           b"at 18446744073709551616", b"at", b"at 1 2", b"settle P", b"settle ", b"\xff", b"put P 1 --",
           b"put P 1 " + b"61" * 65_537, b"last P 1", b"beyond P", b"spush P 0", b"spush P 1025",
           b"stake P 3 0", b"stake P 3 65537", b"swrite P 3 -", b"swrite P 3 " + b"61" * 32_769)
WEIGHTS = {"settle": 0.2, "end": 0.02, "close": 0.02, "finish": 0.04, "last": 0.1, "pause": 0.3, "lost": 0.5,
           "gone": 0.3, "dial": 0.7, "put": 3, "pull": 5, "hear": 4, "post": 6, "take": 4,
           "swrite": 3, "spush": 4, "stake": 3, "sclose": 0.7}


class Writer:
    """Writes one script. It runs each line on the model at once, and so knows what was emitted."""

    def __init__(self, random, mode, window, modes):
        self.random, self.ends = random, SCRIPTED[mode](window)
        self.grammar = {verb: readers for verb, readers in GRAMMARS[mode].items()
                        if verb != "last" or "last" in modes}
        self.lines = []
        self.verbs = list(self.grammar)
        often = (0.1, 0.5, 1, 1, 3)
        self.weights = [WEIGHTS.get(verb, 1) * random.choice(often) for verb in self.verbs]
        self.leaning = random.choice((0.1, 0.5, 0.5, 0.9))
        if mode == "relay" and random.random() < 0.9:
            self.add("dial A")
            self.add("dial P")

    def add(self, line):
        self.lines.append(line.encode())
        said = command(self.lines[-1], self.grammar)
        if said is not None:
            self.ends.line = len(self.lines)
            getattr(self.ends, "do_" + said.verb)(*said.parts)

    def add_random(self):
        verb = self.random.choices(self.verbs, self.weights)[0]
        parts, side = [], "P" if self.random.random() < self.leaning else "A"
        for reader in self.grammar[verb]:
            name = reader.__name__
            parts.append(side if name == "end" else getattr(self, "some_" + name)(verb, side))
        self.add(" ".join([verb] + parts))

    def some_number(self, verb, side):
        if self.random.random() < 0.02:
            return str(self.random.choice(EDGES[:-1]))
        if verb == "at":
            return str(self.some_moment(self.ends.ends[side]))
        return str(self.random.choice((0, 0, 0, 1, 2, 30, 174, 175)))

    def some_moment(self, end):
        """A step on, seldom one back, and often the last moment before or the first after a timeout."""
        draw = self.random.random()
        if draw < 0.05:
            return max(0, self.ends.now - self.random.choice((1, 500)))
        if draw < 0.3 and end.low in end.sent_at:
            return end.sent_at[end.low] + end.estimate.timeout + self.random.choice((0, 1))
        return min(self.ends.now + self.random.choice(STEPS), 2**64 - 1)

    def some_which(self, verb, side):
        if verb == "take":
            count = len(self.ends.inbox[side])
        else:
            count = len(self.ends.emitted[side if verb == "post" else OTHER[side]])
        draw = self.random.random()
        if draw < 0.3:
            return "last"
        if draw < 0.32:
            return str(self.random.choice(EDGES[:-1]))
        near = count - 1 - int(self.random.expovariate(0.7))
        return str(max(0, near if draw < 0.7 else self.random.randint(0, count)))

    def some_below_2_32(self, verb, side):
        if verb in ("put", "last"):
            return str(self.random.choice((0, 1, 1, 1, 2, 10, 12, 13, 2**32 - 1)))
        alive = [*self.ends.muxes[side].streams]
        strange = not alive or self.random.random() < 0.1
        return str(self.random.choice((0, 3, 4, 5, 2**32 - 1) if strange else alive))

    def some_other_type(self, verb, side):
        return str(self.random.choice((0, 2, 10, 12, 2**32 - 1)))

    def some_octets(self, verb, side, long=65_536):
        length = self.random.choice((1, 1, 1, 2, 3, 3, 200))
        if self.random.random() < 0.002:
            length = self.random.choice((long, long - 1, 4_096))
        return self.random.randbytes(length).hex()

    def some_payload(self, verb, side):
        return "-" if self.random.random() < 0.1 else self.some_octets(verb, side)

    def some_written(self, verb, side):
        return self.some_octets(verb, side, 32_768)

    def some_push_size(self, verb, side):
        return str(self.random.choice((1, 2, 7, 8, 9, 30, 1_023, 1_024, 1_024)))

    def some_take_size(self, verb, side):
        return str(self.random.choice((1, 2, 3, 100, 65_535, 65_536)))

    def add_round_trips(self):
        """Messages that are acknowledged, the first ones late, and timers at the edges of timeouts."""
        side = self.random.choice("PA")
        end, latest = self.ends.ends[side], self.random.choice((500, 600_001, 700_000))
        for trip in range(self.random.choice((3, 20, 90))):
            self.add(f"put {side} 1 00")
            self.add(f"pull {side}")
            self.add(f"hear {OTHER[side]} last")
            self.add(f"pull {OTHER[side]}")
            edges = (0, 1) if self.random.random() < 0.1 and end.low in end.sent_at else ()
            for late in edges:
                self.add(f"at {end.sent_at[end.low] + end.estimate.timeout + late}")
                self.add(f"tick {side}")
            passing = latest if trip < 2 else self.random.choice((0, 7, 40, 300))
            self.add(f"at {self.ends.now + passing}")
            self.add(f"hear {side} last")

    def add_unheard(self):
        """A message that is acknowledged late, after many timers, and one that never is, with so many
        that its end gives up."""
        side = self.random.choice("PA")
        for rounds in (self.random.choice((1, 1_000)), 3_002):
            self.add(f"put {side} 2 00")
            for _ in range(rounds):
                self.add(f"pull {side}")
                self.add(f"at {self.ends.now + 1_001}")
                self.add(f"tick {side}")
            if rounds < 3_000:
                self.add("settle")

    def add_pushed(self, side, count):
        """Outgoing bytes of a link reach the other end."""
        for _ in range(count):
            self.add(f"spush {side} 1024")
            self.add(f"pull {side}")
            self.add(f"hear {OTHER[side]} last")
        self.add("settle")

    def add_many_streams(self):
        """As many streams as may live. Then the plugin is done with some of which the agent is not
        told the end, and opens more, which the agent refuses until it has taken those ends."""
        for _ in range(1_026):
            self.add("sopen")
        self.add_pushed("P", 9)
        ended = sorted(self.ends.muxes["A"].streams)[:3]
        for sid in ended:
            self.add(f"sclose A {sid}")
        self.add_pushed("A", 1)
        for sid in ended:
            self.add(f"stake P {sid} 1")
            self.add(f"sclose P {sid}")
            self.add("sopen")
        self.add_pushed("P", 1)
        for sid in ended[:2]:
            self.add(f"stake A {sid} 1")
            self.add("sopen")
        self.add_pushed("A", 1)
        self.add_pushed("P", 1)

    def add_held_to_the_brim(self):
        """More bytes than a link holds: a frame waits until its user takes some."""
        self.add("sopen")
        for _ in range(5):
            for _ in range(26):
                self.add("swrite P 3 " + self.random.randbytes(32_768).hex())
            self.add_pushed("P", 833)
        for _ in range(3):
            self.add("stake A 3 65536")
        self.add_pushed("P", 2)

    def text(self):
        """The script; the line feed at its end may be left out."""
        if self.random.random() < 0.12:
            self.lines.insert(self.random.randint(0, len(self.lines)), self.random.choice(SPOILED))
        return b"\n".join(self.lines) + (b"\n" if self.random.random() < 0.9 else b"")


def some_script(random, mode, modes):
    """The words and the script of a mode that runs two ends."""
    window = random.choice((1, 1, 2, 2, 3, 4, 6, 10, 100, 9_999, 10_000, None))
    words = [] if window is None else [b"--window", str(window).encode()]
    words += [] if mode == "plain" else [b"--" + mode.encode()]
    mode = "plain" if mode == "journal" else mode
    writer = Writer(random, mode, window or 10_000, modes)
    if mode == "streams" and random.random() < 0.8:
        writer.add("sopen")
        writer.add("swrite P 3 616263")
        writer.add_pushed("P", 1)
    if mode == "streams" and random.random() < 0.02:
        writer.add_many_streams()
    if mode == "streams" and random.random() < 0.003:
        writer.add_held_to_the_brim()
    if mode != "relay" and random.random() < 0.1:
        writer.add_round_trips()
    for _ in range(random.choice((0, 3, 10, 30, 60, 60, 120, 400))):
        writer.add_random()
    if mode != "relay" and random.random() < 0.003:
        writer.add_unheard()
    if mode != "relay" and random.random() < 0.3:
        writer.add("settle")
    return words, writer.text()


def some_journal(random, modes):
    """The journal of a script, of which records may be dropped, doubled or moved, a byte may be another,
    and the last record cut; at times judged with another window."""
    words, script = some_script(random, "journal", modes)
    journal = run(words, lambda most: script, modes)[1]
    pieces, at = [], 0
    while at < len(journal):
        size = 4 + int.from_bytes(journal[at:at + 4], "big")
        pieces.append(journal[at:at + size])
        at += size
    for _ in range(random.choice((0, 0, 1, 1, 2, 5))):
        if not pieces:
            break
        piece, place = random.choice(pieces), random.randrange(len(pieces))
        kind = random.choice(("drop", "double", "move", "exchange", "change", "foreign"))
        if kind == "drop":
            del pieces[place]
        elif kind == "double":
            pieces.insert(place, piece)
        elif kind == "move":
            pieces.insert(random.randrange(len(pieces)), pieces.pop(place))
        elif kind == "exchange":
            other = random.randrange(len(pieces))
            pieces[place], pieces[other] = pieces[other], pieces[place]
        elif kind == "change":
            changed = bytearray(pieces[place])
            # The head and the fields of a message are changed as often as its payload.
            last = random.choice((6, 126, len(changed)))
            changed[random.randrange(min(last, len(changed)))] ^= random.choice((1, 2, 3, 255))
            pieces[place] = bytes(changed)
        else:
            message = some_message(random)
            head = random.choice((b"P\0", b"A\0", b"P\1", b"A\1"))
            pieces.insert(place, (len(message) + 2).to_bytes(4, "big") + head + message)
    journal = b"".join(pieces)
    if random.random() < 0.1:
        journal = journal[:random.randint(0, len(journal))]
    window = [] if random.random() < 0.9 else [b"--window", b"1"]
    return (window or words[:-1]) + [b"--audit"], journal


def some_message(random):
    name = random.choice((*DATA_NAME.values(), "acknowledge", PAUSE, START, CLOSED, "x", "_" * 32))
    payload = random.randbytes(random.choice((0, 0, 1, 3, 40)))
    date, seq = random.choice((0, 1, 2**64 - 1)), random.choice((0, -1, 7, 2**63 - 1))
    flags, ptype = random.choice(EDGES[:-1]), random.choice(EDGES[:4])
    return encode(Message(name, date, seq, flags, random.randbytes(16), ptype, payload))


def some_capture(random):
    """Pieces of a capture, of which one may be damaged and the last cut."""
    capture = bytearray()
    for _ in range(random.choice((0, 1, 2, 5))):
        message = some_message(random)
        capture += len(message).to_bytes(4, "big") + message
    if capture and random.random() < 0.4:
        capture[random.randrange(len(capture))] = random.choice((0, 1, 0x20, 0x2d, 0xff))
    if random.random() < 0.3:
        del capture[random.randint(0, len(capture)):]
    return [b"--show"], bytes(capture)


def some_input(seed, modes):
    """The words and the input of this seed."""
    random = Random(seed)
    if random.random() < 0.1:
        begin = [b"--window"] if random.random() < 0.7 else []
        words = begin + random.choices(STRANGE_WORDS, k=random.choice((1, 1, 1, 1, 2, 3)))
        return words, b"put P 1 61\npull P\n"
    mode = random.choice(["plain"] + [mode for mode in modes if mode != "last"])
    if mode == "audit":
        return some_journal(random, modes)
    if mode == "show":
        return some_capture(random)
    if mode == "gen":
        start = random.choice((random.getrandbits(64), 0, 2**64 - 1))
        return [b"--gen", b"%d" % random.choice((1, 2, 30, 1_000)), b"%d" % start], b""
    return some_script(random, mode, modes)
