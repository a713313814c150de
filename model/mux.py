"""Streams over one channel: frames of smux version 1, and the two ends of a link of streams."""

SYN, FIN, PSH, NOP = range(4)
GREATEST_OUT = 1_048_576
GREATEST_HELD = 4_194_304
GREATEST_STREAMS = 1_024
LAST_ID = 2**32 - 1


def spelled(kind, sid, payload=b""):
    """The bytes of a frame: the numbers behind the kind are little-endian."""
    return bytes([1, kind]) + len(payload).to_bytes(2, "little") + sid.to_bytes(4, "little") + payload


class Stream:
    """A living stream: what came and was not taken, and which directions have ended."""

    def __init__(self):
        self.held = bytearray()
        self.over = self.told = self.closed = False


class Mux:
    """All streams of one side of a link."""

    def __init__(self, is_client):
        self.is_client = is_client
        self.next_id, self.greatest_syn = 3, -1
        self.streams, self.outgoing, self.begun_frame = {}, bytearray(), b""

    def sends(self, frame):
        """Whether there is room for the frame; then it goes out."""
        if len(self.outgoing) + len(frame) > GREATEST_OUT:
            return False
        self.outgoing += frame
        return True

    def open(self):
        if self.next_id > LAST_ID:
            return "ids-spent"
        if len(self.streams) == GREATEST_STREAMS:
            return "too-many"
        if not self.sends(spelled(SYN, self.next_id)):
            return "full"
        self.streams[self.next_id] = Stream()
        self.next_id += 2
        return f"sid {self.next_id - 2}"

    def write(self, sid, payload):
        stream = self.streams.get(sid)
        if stream is None:
            return "unknown"
        if stream.closed:
            return "closed"
        return "done" if self.sends(spelled(PSH, sid, payload)) else "full"

    def close(self, sid):
        stream = self.streams.get(sid)
        if stream is None:
            return "unknown"
        if stream.closed:
            return "closed"
        if not self.sends(spelled(FIN, sid)):
            return "full"
        stream.closed = True
        self.bury(sid)
        return "done"

    def bury(self, sid):
        """A stream that is closed here, and of whose end its user was told, lives no more."""
        if self.streams[sid].closed and self.streams[sid].told:
            del self.streams[sid]

    def out(self, most):
        given = bytes(self.outgoing[:most])
        del self.outgoing[:most]
        return given

    def take(self, sid, most):
        """The bytes, or a word where there are none."""
        stream = self.streams.get(sid)
        if stream is None:
            return "unknown"
        if stream.held:
            given = bytes(stream.held[:most])
            del stream.held[:most]
            return given
        if not stream.over:
            return "nothing"
        stream.told = True
        self.bury(sid)
        return "ended"

    def feed(self, octets):
        """The events, and the bytes that are left."""
        events = []
        octets = self.begun_frame + octets
        while len(octets) >= 8:
            kind = octets[1]
            length = int.from_bytes(octets[2:4], "little")
            sid = int.from_bytes(octets[4:8], "little")
            whole = 8 + length
            if len(octets) < whole:
                break
            happened = self.comes(kind, sid, octets[8:whole])
            if happened is None:
                self.begun_frame = octets[:whole - 1]
                return events, octets[whole - 1:]
            events += happened
            octets = octets[whole:]
        self.begun_frame = octets
        return events, b""

    def comes(self, kind, sid, payload):
        """The events of a frame that is whole, or None where there is no room for it."""
        if kind == SYN:
            return self.syn_comes(sid)
        stream = self.streams.get(sid)
        if kind == NOP or stream is None or stream.over:
            return []
        if kind == FIN:
            stream.over = True
            return [f"ended {sid}"]
        if not payload:
            return []
        if sum(len(other.held) for other in self.streams.values()) + len(payload) > GREATEST_HELD:
            return None
        stream.held += payload
        return [f"ready {sid}"]

    def syn_comes(self, sid):
        if self.is_client or sid <= self.greatest_syn:
            return []
        if len(self.streams) < GREATEST_STREAMS:
            self.streams[sid] = Stream()
            happened = [f"opened {sid}"]
        elif self.sends(spelled(FIN, sid)):
            happened = [f"refused {sid}"]
        else:
            return None
        self.greatest_syn = sid
        return happened
