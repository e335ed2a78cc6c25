"""The program's answers to random inputs, compared with the reading, and how a difference is shown."""
import difflib
import os
import subprocess
import tempfile

from . import commands
from .interchange import KINDS
from .random_inputs import input_of

SHOWN = 5
PATIENCE = 60
WIDTH = 2000
LINES = 20


def shown(octets):
    """Octets as a person can read them: lines that end with LF, other octets escaped, and long lines cut off."""
    lines = octets.split(b"\n")
    return [repr(line[:WIDTH])[2:-1] + (" .. (%d octets)" % len(line) if len(line) > WIDTH else "") for line in lines]


def show(name, reading, other, word="program"):
    """Prints what differs: the statuses, and the first lines. The word says what the reading is compared with."""
    print("differs: " + name)
    if reading[1] != other[1]:
        print("  status: reading %d, %s %d" % (reading[1], word, other[1]))
    ours, theirs = shown(reading[0]), shown(other[0])
    lines = difflib.unified_diff(ours, theirs, "reading", word, n=0, lineterm="")
    for line in list(lines)[:LINES]:
        print("  " + line)


def show_input(made):
    """Prints what the program was given."""
    print("  words: " + " ".join(shown(word)[0] for word in made.words))
    for name, octets in sorted(made.files.items()) + [(b"the input", made.given)]:
        print("  %s:" % name.decode())
        for line in shown(octets):
            print("    " + line)


def example_files(tests):
    folder = os.path.join(tests, "../examples/directory")
    found = {}
    for name in ("m", "eded", "uncl", "edcd", "edsd", "tstord", "tstcol"):
        with open(os.path.join(folder, name), "rb") as file:
            found[name.encode()] = file.read()
    return found


def answer_of(program, made):
    """What the program prints, and the status that it ends with."""
    with tempfile.TemporaryDirectory() as room:
        for name, octets in made.files.items():
            path = os.path.join(room, name.decode())
            os.makedirs(os.path.dirname(path), exist_ok=True)
            with open(path, "wb") as file:
                file.write(octets)
        try:
            ran = subprocess.run([program.encode()] + made.words, cwd=room, input=made.given, capture_output=True,
                                 timeout=PATIENCE, check=False)
        except subprocess.TimeoutExpired:
            return b"(no answer within %d seconds)" % PATIENCE, -1
    # A hint for people is on standard error at these statuses; anything else there is a fault.
    hinted = ran.returncode in (2, 4, 6) and ran.stderr.startswith(b"edicheck: ") and ran.stderr.count(b"\n") == 1
    return ran.stdout if hinted else ran.stdout + ran.stderr, ran.returncode


def words_told(output):
    """The kinds of errors and faults in an output: the words that end its lines, or stand before a tag there."""
    return {word for line in output.split(b"\n") for word in line.split(b" ")[-2:]}


def compare_random(seed, count, tests, program):
    """Compares as many inputs, from this seed on, and gives how many agreed and how many differed."""
    examples = example_files(tests)
    agreed, differed, told = 0, 0, set()
    for number in range(seed, seed + count):
        made = input_of(number, examples)
        reading = commands.run(made.words, made.files.get, lambda given=made.given: given)
        answer = answer_of(program, made)
        told |= words_told(reading[0])
        # The reading itself may differ from what another rule tells.
        if made.due is not None and reading != (made.due, 0):
            show("seed %d, by its rule" % number, (made.due, 0), reading, "reading")
        elif reading == answer:
            agreed += 1
            continue
        differed += 1
        if differed <= SHOWN:
            show("seed %d" % number, reading, answer)
            show_input(made)
    if count > 1:
        never = [word for word, _code in KINDS if word.encode("ascii") not in told]
        print("kinds of errors that no input had: " + (" ".join(never) or "none"))
    return agreed, differed
