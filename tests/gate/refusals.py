#!/usr/bin/env python3
"""Refuses each call that takes memory its growths, one a process, and looks at what it answers.

Usage: refusals.py PROGRAM

PROGRAM is the built `refusals`, which makes each call on a worked row between two marks, and once more where it says
that memory was refused. The library of failing_calls.c refuses the first growth between the marks, then the second,
and so on until a run has fewer. Each answer has to be the one that is named for refused memory, what the call was to
change has to be as it was before, and the answer with memory that of the row, as `crates/refusals/stdout` has it. Some
growths a call does without: then it gives the row's answer at once. Of a batch that is held, `retry` is refused its
growths in the same way.

The script prints a table of the calls: the growths that were refused, and those of them that the call did without. It
ends with 1 where one answers otherwise.

Gate: REFUSALS; needs cc; 60 s
"""
import os
import pathlib
import re
import subprocess
import sys
import tempfile

sys.path.insert(0, str(pathlib.Path(__file__).resolve().parents[1] / "lib"))

from preloaded import built

CRATE = pathlib.Path(__file__).resolve().parents[2] / "crates/refusals"
REFUSED = ">\n<\nNoMemory\n"
BUSY = "HTTP/1.1 503 Service Unavailable\r\nContent-Length: 0\r\nConnection: close\r\n\r\n"
# more growths than any call has
MOST = 2_000


class Shim:
    """The program, run with the library that refuses."""

    def __init__(self, program, folder):
        self.program, self.library = os.path.abspath(program), built("failing_calls", folder)

    def run(self, name, **failing):
        """What the program prints for a call, and how many growths its first and its second attempt asked for."""
        out, into = os.pipe()
        env = {"LD_PRELOAD": self.library, "COUNTS": str(into), "MARKED": "1", **{key: str(value) for key, value in failing.items()}}
        done = subprocess.run([self.program], input=f"{name}\n".encode(), stdout=subprocess.PIPE, env=env, pass_fds=[into], timeout=60)
        os.close(into)
        with os.fdopen(out, "rb") as counts:
            counted = counts.read()
        if done.returncode != 0 or len(counted) != 24:
            return f"status {done.returncode}", 0, 0
        return done.stdout.decode("latin-1").partition("\n")[2], int.from_bytes(counted[:8], "little"), int.from_bytes(counted[16:], "little")


def may_be(name, got, right):
    """Whether this may be printed where the first attempt was refused a growth."""
    if name == "submit":
        return got in (REFUSED_BATCH, HELD_ONCE)
    if name == "accept":
        return got in ACCEPTED_LATER
    if name == "share":
        return got == REFUSED + right
    if name == "exchange":
        return got == f">\n<\n{BUSY}true\n"
    if name == "script":
        published, answer = right.removeprefix(">\n<\n").split("\n", 1)
        return got in (f">\n<\nNOMEMORY\n{answer}", f">\n<\n{published}\nNOMEMORY\ntrue\n")
    before = re.match("before: .*\n", right)
    if not before:
        return got == REFUSED + right
    state, rest = before[0].removeprefix("before: "), right[before.end() :]
    if got == f"{before[0]}{REFUSED}after: {state}{rest}":
        return True
    after = rest.rpartition("after: ")[2]
    one_reply = [f"{before[0]}>\n<\n{said}\nafter: {left}" for said, left in [("NoMemory answered ", state), ("published NoMemory ", after)]]
    return name == "run" and got in one_reply


REFUSED_BATCH = (
    ">\n<\nNoMemory, readers see Some(0)\n>\n<\nPublished, readers see Some(1)\n>\n<\nIdle, readers see Some(1)\nshared true\n"
)
HELD_ONCE = ">\n<\nHeld, readers see Some(0)\n>\n<\nPublished, readers see Some(1)\n>\n<\nIdle, readers see Some(1)\nshared true\n"
HELD_TWICE = ">\n<\nHeld, readers see Some(0)\n>\n<\nHeld, readers see Some(0)\n>\n<\nPublished, readers see Some(1)\nshared true\n"
# none or one of two batches is accepted at first
ACCEPTED_LATER = [
    f">\n<\n{count} accepted\n>\n<\n{2 - count} accepted\n>\n<\nPublished, readers see Some(2)\nshared true\n" for count in (0, 1)
]


def expected():
    """What each call prints with memory."""
    parts = re.split(r"^== (.*)\n", (CRATE / "stdout").read_bytes().decode("latin-1"), flags=re.M)
    return dict(zip(parts[1::2], parts[2::2]))


def retried(shim, first):
    """How many growths `retry` was refused of a batch that was held, and what it printed otherwise than it may."""
    for second in range(1, MOST):
        got, _, asked = shim.run("submit", FAIL_FIRST=first, FAIL_SECOND=second)
        if asked < second:
            return second - 1, [] if got == HELD_ONCE else [got]
        if got != HELD_TWICE:
            return second, [got]
    return MOST, ["no end"]


def tried(shim, name, right):
    """How many growths a call was refused, how many it did without, and what it printed otherwise than it may."""
    wrong, without, again = [], 0, None
    for first in range(1, MOST):
        got, asked, _ = shim.run(name, FAIL_FIRST=first)
        if asked < first:
            wrong += [] if got == right else [got]
            # the library that refuses has no effect, or the call takes no memory any more
            wrong += ["no growth was refused"] if first == 1 else []
            wrong += ["no batch was held"] if name == "submit" and again is None else []
            return (first - 1, without), again, wrong
        without += got == right
        if got != right and not may_be(name, got, right):
            wrong.append(f"growth {first}: {got}")
        if got == HELD_ONCE and again is None:
            again, more = retried(shim, first)
            wrong += more
    return (MOST, without), again, wrong + ["no end"]


def main():
    if len(sys.argv) != 2:
        sys.exit(__doc__.split("\n\n")[1])
    failed = 0
    with tempfile.TemporaryDirectory() as folder:
        shim = Shim(sys.argv[1], folder)
        print("| Call | Growths refused | Done without | Verdict |\n|---|---|---|---|")
        for name, right in expected().items():
            (count, without), again, wrong = tried(shim, name, right)
            failed += bool(wrong)
            said = f"{len(wrong)} otherwise" if wrong else "as named"
            print(f"| `{name}` | {count} | {without} | {said} |", flush=True)
            if again is not None:
                print(f"| `retry` of a batch that is held | {again} | 0 | {said} |", flush=True)
            for text in wrong[:3]:
                print(f"{name}: {text!r}", file=sys.stderr)
    sys.exit(failed > 0)


if __name__ == "__main__":
    main()
