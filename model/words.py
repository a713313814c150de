"""The lab's command lines: which words ask for what, and where words leave the grammar."""

from script import number

GREATEST_WINDOW = 10_000
GREATEST_ROUNDS = 1_000_000


class Usage(Exception):
    """The index of the first word with which the words begin no command line."""

    def __init__(self, place):
        super().__init__(place)
        self.place = place


def window(word):
    return number(word, 1, GREATEST_WINDOW)


def rounds(word):
    return number(word, 1, GREATEST_ROUNDS)


def lines_of_grammar(modes):
    """Each command line as a mode and its parts: a word that stands so, or a reader of a word."""
    lines = [("plain", ()), ("plain", (b"--window", window))]
    for mode in ("streams", "relay", "journal", "audit"):
        option = b"--" + mode.encode()
        lines += [(mode, (option,)), (mode, (b"--window", window, option))]
    lines += [("show", (b"--show",)), ("gen", (b"--gen", rounds, number))]
    return [line for line in lines if line[0] == "plain" or line[0] in modes]


def fit(parts, words):
    """How many words go along these parts, and what their readers read."""
    values = []
    for place, (part, word) in enumerate(zip(parts, words)):
        if isinstance(part, bytes):
            if word != part:
                return place, values
            continue
        value = part(word)
        if value is None:
            return place, values
        values.append(value)
    return min(len(parts), len(words)), values


def read_words(words, modes):
    """The mode and its numbers: a window, where one is asked for, or the rounds and the start."""
    longest = 0
    for mode, parts in lines_of_grammar(modes):
        length, values = fit(parts, words)
        if length == len(words) == len(parts):
            return mode, values
        longest = max(longest, length)
    raise Usage(longest)
