"""Changes one record in the journal of an example, and compares the verdicts of lab and of the model with
examples/verdicts.table, whose first lines say what a line of it means. `verdicts.py LAB` takes the lab at this path."""
import os
import subprocess
import sys

from journal import Fault, judge

TOP = os.path.dirname(os.path.dirname(os.path.abspath(__file__)))


def run(lab, words, text):
    done = subprocess.run([lab, *words], input=text, capture_output=True)
    return done.returncode, done.stdout, done.stderr


def records_of(journal):
    """The records of a journal, each with the four bytes of its size."""
    records, at = [], 0
    while at < len(journal):
        end = at + 4 + int.from_bytes(journal[at:at + 4], "big")
        records.append(journal[at:end])
        at = end
    return records


def changed(records, change):
    """The bytes of a journal with this change."""
    records = list(records)
    name, *numbers = change.split()
    if name == "drop":
        del records[int(numbers[0])]
    elif name == "double":
        records.insert(int(numbers[0]), records[int(numbers[0])])
    elif name == "move":
        record = records.pop(int(numbers[0]))
        records.insert(int(numbers[1]), record)
    elif name == "byte":
        number, place = int(numbers[0]), int(numbers[1])
        record = bytearray(records[number])
        record[place] = int(numbers[2], 16)
        records[number] = bytes(record)
    elif name != "same":
        sys.exit(f"verdicts: there is no change {change}")
    return b"".join(records)


def verdict_of(lab, words, journal):
    """What lab says of a journal, in the words of the table."""
    status, said, told = run(lab, [*words, "--audit"], journal)
    if status == 0:
        return said.decode().strip()
    return told.decode().strip().removeprefix("lab: status 18 BadJournal ") if status == 18 else f"status {status}"


def model_of(window, journal):
    """What the model says of it."""
    try:
        return judge(journal, int(window or 10_000)).strip()
    except Fault as fault:
        return f"{fault.at} {fault.why}"


def main():
    lab = sys.argv[1] if len(sys.argv) > 1 else os.path.join(TOP, "crates", "lab", "out", "lab")
    if not os.access(lab, os.X_OK):
        sys.exit("verdicts: lab is not built")
    passed = failed = 0
    for line in open(os.path.join(TOP, "examples", "verdicts.table")):
        if line.startswith("#") or not line.strip():
            continue
        name, window, change, due = (part.strip() for part in line.split("|"))
        words = ["--window", window] if window else []
        with open(os.path.join(TOP, "examples", f"{name}.lab"), "rb") as script:
            _, journal, _ = run(lab, [*words, "--journal"], script.read())
        edited = changed(records_of(journal), change)
        got = {"lab": verdict_of(lab, words, edited), "model": model_of(window, edited)}
        wrong = [f"{who} says {said}" for who, said in got.items() if said != due]
        passed, failed = passed + (not wrong), failed + bool(wrong)
        for said in wrong:
            print(f"verdicts: {name}, {change}: {said} in place of {due}")
    print(f"verdicts: {passed} as in the table, {failed} not")
    sys.exit(failed > 0 or not passed)


main()
