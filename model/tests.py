"""Tests of the model by worked examples, above all of the modes that lab does not have yet."""

import unittest

from lab import COMING, run, status_line
from mux import Mux
from wire import Item, Message, Stream, encode, outgoing


def report(words, *lines, modes=COMING):
    """The status and the lines of the output."""
    script = "".join(line + "\n" for line in lines).encode()
    status, output = run([word.encode() for word in words], lambda most: script[:most], modes)
    return status_line(status), output.decode().splitlines()


def emission(seq, item, line, last=False):
    """The plugin's stream message that a line put in, at the moment 0."""
    return outgoing("P", Stream(seq, line.to_bytes(16, "big"), 1, Item(*item), last)).hex()


class Modes(unittest.TestCase):
    def test_a_stream_is_opened_written_and_ended_over_the_channel(self):
        frames = "0100000003000000010202000300000068690101000003000000"
        self.assertEqual(report(["--streams"], "sopen", "swrite P 3 6869", "sclose P 3", "spush P 1024",
                                "pull P", "hear A 0", "stake A 3 10", "stake A 3 10", "spush P 1024"), ("", [
            "1 sopen sid 3", "2 swrite P done", "3 sclose P done", "4 spush P seq 0",
            "5 pull P emit 0 " + emission(0, (1, bytes.fromhex(frames)), 4),
            "6 hear A released 1 1:" + frames,
            "6 stream A opened 3", "6 stream A ready 3", "6 stream A ended 3",
            "7 stake A 6869", "8 stake A ended", "9 spush P empty"]))

    def test_a_relay_forwards_pauses_and_ends(self):
        self.assertEqual(report(["--relay"], "dial A", "take A 0", "dial P", "take A 1", "put P 1 61",
                                "pull P", "post P 0", "take A 2", "finish", "take P 0", "post P 0"), ("", [
            "1 dial A conn 0", "2 take A paused", "3 dial P conn 1", "4 take A started", "5 put P seq 0",
            "6 pull P emit 0 " + emission(0, (1, b"a"), 5), "7 post P sent", "8 take A released 1 1:61",
            "9 finish", "10 take P ended", "11 post P dropped"]))

    def test_a_schedule_makes_itself(self):
        self.assertEqual(report(["--gen", "1", "3"]), ("", ["gen 1 put P 1 A 0 released A 1 P 0"]))
        self.assertEqual(report(["--gen", "1", "18446744073709551615"]),
                         ("", ["gen 1 put P 0 A 0 released A 0 P 0"]))

    def test_a_last_item_ends_its_direction_alone(self):
        self.assertEqual(report([], "put P 1 61", "last P 10 00000002", "put P 1 62", "pull P", "pull P",
                                "hear A 1", "hear A 0", "put A 1 63"), ("", [
            "1 put P seq 0", "2 last P seq 1", "3 put P past",
            "4 pull P emit 0 " + emission(0, (1, b"a"), 1),
            "5 pull P emit 1 " + emission(1, (10, b"\0\0\0\2"), 2, last=True),
            "6 hear A released 0", "7 hear A finished 2 1:61 10:00000002", "8 put A seq 0"]))
        flags = report([], "last P 1 61", "pull P")[1][1].split()[5][112:128]
        self.assertEqual(flags, "0000000000000003")

    def test_words_that_begin_no_line_are_told_by_their_place(self):
        for words, place in (("--window 5 --show", 2), ("--streams --window 5", 1), ("--streams --relay", 1),
                             ("--gen 5", 2), ("--gen 0 1", 1), ("--window", 1), ("--show --show", 1)):
            self.assertEqual(report(words.split()), (f"lab: status 2 Usage {place}\n", []), words)
        self.assertEqual(report(["--gen", "1", "3"], modes=())[0], "lab: status 2 Usage 0\n")


class Journals(unittest.TestCase):
    opened = bytes.fromhex("000000025002000000024102")
    message = bytes.fromhex(emission(0, (1, b"a"), 1))
    second = bytes.fromhex(emission(1, (1, b"a"), 1))
    emitted, heard = bytes.fromhex("0000007b5000"), bytes.fromhex("0000007b4101")

    def judged(self, *pieces):
        journal = b"".join(pieces)
        status, output = run([b"--audit"], lambda most: journal[:most], COMING)
        return status_line(status) or output.decode()

    def test_a_journal_is_written_and_accepted(self):
        script = b"put P 1 61\npull P\nhear A 0\n"
        status, journal = run([b"--journal"], lambda most: script, COMING)
        emitted, heard = self.emitted + self.message, self.heard + self.message
        self.assertEqual((status_line(status), journal), ("", self.opened + emitted + heard))
        line = "yes sent P 1 A 0 released A 1 P 0\n"
        self.assertEqual(self.judged(journal), line)
        self.assertEqual(self.judged(self.opened, heard, emitted), line)
        self.assertEqual(self.judged(self.opened, emitted, emitted, heard), line)
        self.assertEqual(self.judged(self.opened, heard), "lab: status 18 BadJournal 12 8\n")
        second = self.emitted + self.second
        self.assertEqual(self.judged(self.opened, second), "lab: status 18 BadJournal 12 7\n")
        self.assertEqual(self.judged(bytes.fromhex("000000025802")), "lab: status 18 BadJournal 0 2\n")


class Captures(unittest.TestCase):
    message = encode(Message("input_stream_data", 1, 0, 1, (1).to_bytes(16, "big"), 1, b"abc"))
    piece = len(message).to_bytes(4, "big") + message

    def shown(self, capture):
        status, output = run([b"--show"], lambda most: capture[:most], COMING)
        return status_line(status), output.decode()

    def test_a_capture_is_shown_up_to_its_first_fault(self):
        line = "0 input_stream_data 0 1 1 3 00000000-0000-0000-0000-000000000001\n"
        self.assertEqual(self.shown(self.piece), ("", line))
        self.assertEqual(self.shown(self.piece[:-1]), ("lab: status 16 BadCapture 0 3\n", ""))
        self.assertEqual(self.shown(bytes.fromhex("00010079")), ("lab: status 16 BadCapture 0 1\n", ""))
        self.assertEqual(self.shown(self.piece + b"\0\0\0\0"), ("lab: status 16 BadCapture 127 2\n", line))


class Links(unittest.TestCase):
    def test_frames_are_heard_byte_by_byte_and_not_after_the_fin(self):
        server = Mux(is_client=False)
        fed = bytes.fromhex("0100000003000000" "01020200030000006869" "0101000003000000" "01020100030000007a")
        events = [event for octet in fed for event in server.feed(bytes([octet]))[0]]
        self.assertEqual(events, ["opened 3", "ready 3", "ended 3"])
        self.assertEqual((server.take(3, 10), server.take(3, 10)), (b"hi", "ended"))

    def test_a_stream_too_many_is_refused(self):
        server = Mux(is_client=False)
        for sid in range(3, 2_051, 2):
            server.feed(bytes.fromhex("01000000") + sid.to_bytes(4, "little"))
        self.assertEqual(server.feed(bytes.fromhex("0100000003080000")), (["refused 2051"], b""))
        self.assertEqual(server.out(8).hex(), "0101000003080000")

    def test_outgoing_bytes_have_a_limit(self):
        client = Mux(is_client=True)
        client.open()
        answers = [client.write(3, bytes(32_768)) for _ in range(32)]
        self.assertEqual(answers, ["done"] * 31 + ["full"])
        self.assertEqual(len(client.outgoing), 1_016_064)


if __name__ == "__main__":
    unittest.main()
