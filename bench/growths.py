#!/usr/bin/env python3
"""Plays worked scripts with each request for memory refused in turn, and judges what comes of it.

A run ends with status 3 and `out of memory`, after a front of its transcript that ends with a whole line; or with status
0, one event told as `drop memory` and the others as without its line; or nothing changes. What `--orderly` and
`--accepted` tell at the end is of the events as they were answered. It needs cc, the GNU C library, and crates/sms/out/sms,
which `rt run` in crates/sms leaves there; PROGRAM names another one.
"""
import os
import re
import subprocess
import sys
import tempfile

HERE = os.path.dirname(os.path.abspath(__file__))
PROGRAM = os.environ.get("PROGRAM", os.path.join(HERE, "../crates/sms/out/sms"))
PHONES = "phone a +1001\nphone b +1002\nphone c +1003\n"

LOSSY = PHONES + """\
type a +1002 hi
carry 1
timeout a
carry 4
carry 6
push b
carry 8
carry 8
carry 10
"""
LETTERS = PHONES + f"""\
type a +1002 {'a' * 161}
carry 1
carry 3
carry 5
push b
push b
carry 9
carry 8
carry 8
carry 9
carry 11
carry 13
push b
carry 19
carry 21
carry 7
"""
FULL = "open 1\n" + PHONES + f"""\
type a +1002 {'a' * 161}
type c +1002 {'x' * 161}
""" + "".join(
    f"{line}\n" for line in (
        "carry 1", "carry 2", "carry 4", "carry 6", "carry 8", "carry 10", "push b", "carry 15", "carry 17", "push b",
        "carry 19", "carry 21", "push b", "carry 23", "carry 25", "push b", "carry 27", "carry 29", "push b", "carry 31",
    )
)
TWO_DAYS = PHONES + """\
type a +1002 hi
carry 1
timeout a
carry 4
carry 6
push b
carry 8
tick 172800
carry 4
push b
"""
FORGOTTEN = "remembered 1\n" + PHONES + """\
type a +1002 one
carry 1
carry 3
push b
carry 5
carry 7
type a +1002 two
carry 9
push b
carry 12
carry 5
"""
INJECTED = PHONES + """\
type a +1002 hi
inject down a 9901020300
carry 1
carry 3
"""
SCRIPTS = {
    "a lossy network": LOSSY,
    "161 letters out of order": LETTERS,
    "open sets that are full": FULL,
    "a repeat after two days": TWO_DAYS,
    "a segment of a text that is forgotten": FORGOTTEN,
    "octets that are injected": INJECTED,
}
SETTINGS = ("phone ", "open ", "remembered ")


class Runs:
    """The program with these words, with a request refused."""

    def __init__(self, folder, words):
        self.words = words
        self.library = os.path.join(folder, "refuse.so")
        self.asked = os.path.join(folder, "asked")
        subprocess.run(["cc", "-O2", "-shared", "-fPIC", os.path.join(HERE, "refuse.c"), "-o", self.library], check=True)

    def play(self, script, number=0):
        """The status, what was written, what was said of a fault, and how many requests were made."""
        place = dict(os.environ, LD_PRELOAD=self.library, REFUSE=str(number), ASKED=self.asked)
        done = subprocess.run([PROGRAM, "play", *self.words], input=script.encode(), capture_output=True, env=place, check=False)
        with open(self.asked, encoding="ascii") as asked:
            return done.returncode, done.stdout.decode(), done.stderr.decode(), int(asked.read())


def without_event(script, event):
    """The script without the line of an event, which is counted from 1."""
    lines = script.splitlines(keepends=True)
    events = [n for n, line in enumerate(lines) if not line.startswith(SETTINGS)]
    del lines[events[event - 1]]
    return "".join(lines)


def with_drop(transcript, event):
    """A transcript with one event more, told as `drop memory`, and later events counted on."""
    lines, count, put = [], 0, False
    for line in transcript.splitlines():
        begins = re.fullmatch(r"(\d+) (.*)", line)
        ends = line.startswith(("sent ", "store "))
        if not put and (ends or (begins and count + 1 == event)):
            lines.append(f"{event} drop memory")
            put = True
        if begins and not ends and count + 1 == int(begins[1]):
            count += 1
            line = f"{count + put} {begins[2]}"
        lines.append(line)
    return "".join(f"{line}\n" for line in lines)


def divided(wrote):
    """A transcript without what is told of its run at its end; and of each line that tells it the name, the event and the
    rest."""
    begin = re.search(r"^(?:order|accepted): ", wrote, re.MULTILINE)
    if not begin:
        return wrote, []
    told = []
    for line in wrote[begin.start():].splitlines(keepends=True):
        verdict = re.fullmatch(r"(order|accepted): (?:kept|means accepted|event (\d+): (.*))\n", line)
        assert verdict, line
        told.append((verdict[1], int(verdict[2] or 0), verdict[3]))
    return wrote[:begin.start()], told


def with_verdict(verdict, whole, event):
    """What is to be told where an event was answered as one for which there is no memory: one event more than without it; or
    that very event was the first to break a condition, whatever it was answered."""
    if whole[1] == event:
        return whole
    name, first, rest = verdict
    return (name, first + 1 if first >= event else first, rest)


def judge(runs, script, whole, number):
    """What came of a refusal."""
    status, wrote, fault, _ = runs.play(script, number)
    if status == 3:
        same = os.path.commonprefix([wrote, whole])
        front = wrote if fault else same[:same.rfind("\n") + 1]
        said = fault or wrote[len(front):]
        assert said.strip().endswith("out of memory"), (number, said)
        assert whole.startswith(front) and (not front or front.endswith("\n")), (number, front)
        return "out of memory"
    assert status == 0, (number, status, fault)
    if wrote == whole:
        return "nothing"
    event = int(re.search(r"^(\d+) drop memory$", wrote, re.MULTILINE)[1])
    assert wrote.count("drop memory") == 1, (number, wrote)
    _, other, _, _ = runs.play(without_event(script, event))
    (told, verdicts), (others, other_verdicts) = divided(wrote), divided(other)
    _, whole_verdicts = divided(whole)
    assert told == with_drop(others, event), (number, wrote)
    wanted = [with_verdict(verdict, first, event) for verdict, first in zip(other_verdicts, whole_verdicts, strict=True)]
    assert verdicts == wanted, (number, wrote)
    return "drop memory"


def main():
    with tempfile.TemporaryDirectory() as folder:
        for words in ((), ("--orderly",), ("--accepted",), ("--orderly", "--accepted")):
            runs = Runs(folder, words)
            for name, script in SCRIPTS.items():
                status, whole, fault, asked = runs.play(script)
                assert (status, fault) == (0, ""), (name, status, fault)
                came = [judge(runs, script, whole, number) for number in range(1, asked + 1)]
                told = ", ".join(f"{came.count(word)} {word}" for word in ("drop memory", "out of memory", "nothing"))
                print(f"{' '.join((name, *words))}: {asked} requests: {told}")


if __name__ == "__main__":
    sys.exit(main())
