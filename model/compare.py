"""Compares the model with the built lab on random inputs, for so many seconds.

    python3 model/compare.py SECONDS [SEED] [--modes MODE,..] [--lab PROGRAM]

First the model must give each report that is stored under examples/. Each input has a seed of its
own, one more than the one before: with the seed that a difference names it is the first input.
"""

import argparse
import os
import subprocess
import sys
import time
from pathlib import Path

import lab
from schedule import some_input

TOP = Path(__file__).resolve().parent.parent
SHORT = 40
LIMIT = 300


def arguments():
    parser = argparse.ArgumentParser(description="Compares the model with the built lab.")
    parser.add_argument("seconds", type=float)
    parser.add_argument("seed", type=int, nargs="?", default=int.from_bytes(os.urandom(4), "big"))
    parser.add_argument("--modes", default=",".join(lab.BUILT), help="of " + ",".join(lab.COMING))
    parser.add_argument("--lab", default=TOP / "crates/lab/out/lab", help="the program")
    read = parser.parse_args()
    read.modes = [mode for mode in read.modes.split(",") if mode]
    unknown = set(read.modes) - set(lab.COMING)
    if unknown:
        parser.error(f"no such mode: {', '.join(sorted(unknown))}")
    return read


def of_model(words, script, modes):
    """Status, line and output as the model gives them."""
    status, output = lab.run(words, lambda most: script[:most], modes)
    return status[0], lab.status_line(status).encode(), output


def of_program(program, words, script):
    """Status, line and output as the built program gives them; no status where it does not end."""
    try:
        done = subprocess.run([program, *words], input=script, capture_output=True, timeout=LIMIT)
    except subprocess.TimeoutExpired:
        return None, b"", b""
    return done.returncode, done.stderr, done.stdout


def stored_reports(modes):
    """How many stored reports the model gives, and the names of the others."""
    agreed, others = 0, []
    examples = TOP / "examples"
    inputs = [script for end in ("lab", "capture", "journal") for script in examples.glob("*." + end)]
    for script in sorted(inputs):
        stored = script.with_suffix(".words")
        words = stored.read_bytes().split() if stored.exists() else []
        given = of_model(words, script.read_bytes(), modes)[2]
        if given == script.with_suffix(".report").read_bytes():
            agreed += 1
        else:
            others.append(script.name)
    return agreed, others


def first_difference(model, program):
    """The lines in which the two leave each other, cut to what fits on a screen."""
    lines = []
    for what, ours, theirs in zip(("status", "standard error"), model, program):
        if ours != theirs:
            lines.append(f"{what}: the model {ours!r}, lab {theirs!r}")
    ours, theirs = model[2].split(b"\n"), program[2].split(b"\n")
    for place in range(max(len(ours), len(theirs))):
        here = ours[place] if place < len(ours) else None
        there = theirs[place] if place < len(theirs) else None
        if here != there:
            lines.append(f"line {place + 1} of the output:")
            lines.append(f"  model {str(here)[:400]}\n  lab   {str(there)[:400]}")
            break
    return "\n".join(lines)


def main():
    asked = arguments()
    agreed, others = stored_reports(asked.modes)
    if others:
        print("model: another report than the stored one:", *others)
        return 1
    if not agreed:
        print("model: no stored report")
        return 1
    end, seed = time.monotonic() + asked.seconds, asked.seed
    while time.monotonic() < end:
        words, script = some_input(seed, asked.modes)
        model, program = of_model(words, script, asked.modes), of_program(asked.lab, words, script)
        if model != program:
            print(f"model: seed {seed}, words {words}, {script.count(10)} lines of script")
            if script.count(10) <= SHORT:
                print(script.decode("latin-1"))
            print(first_difference(model, program))
            return 1
        seed += 1
    count = seed - asked.seed
    print(f"model: {agreed} stored reports and {count} random inputs agree, from seed {asked.seed} on")
    return 0 if count else 1


if __name__ == "__main__":
    sys.exit(main())
