#!/usr/bin/env python3
"""Counts the minutes of processor of the gate, by kind and by crate, while it runs. Usage: gate_minutes.py PID [FILE]

PID is a process of the gate's session. It looks at the session's processes twice a second until it is ended by SIGTERM,
and then prints the minutes by kind (proofs, tests, edits), those of the longest chain of crates that stand on each other,
and those by the clock. In FILE it writes a table of all crates, anew each ten seconds. What a process takes after the
last look at it is lost, less than half a second of each. Other work on the machine isn't counted, but makes each process
take longer: the figures are those of a machine that does nothing else only where it did nothing else.
"""
import os
import pathlib
import signal
import sys
import time

TOP = pathlib.Path(__file__).resolve().parent.parent
TICKS = os.sysconf("SC_CLK_TCK")
KINDS = ("proofs", "tests", "edits", "other")


def key_of(pid):
    """The crate and the kind of work of a process, or None where it is none of the gate's."""
    with open(f"/proc/{pid}/cmdline", "rb") as it:
        words = it.read().decode(errors="replace").split("\0")
    program = os.path.basename(words[0])
    if not program.startswith("rattle"):
        return None
    crate = words[words.index("--crate-name") + 1] if "--crate-name" in words else "?"
    if "/rt-edit-" in os.readlink(f"/proc/{pid}/cwd"):
        return crate, "edits"
    if words[1] not in ("build", "check"):
        return crate, "other"
    return crate, "tests" if "--test" in words else "proofs"


def stat_of(pid):
    """The words of a process's stat after its name."""
    with open(f"/proc/{pid}/stat") as it:
        return it.read().rpartition(")")[2].split()


def look(seen, session):
    """Notes what each process of the gate, whose session it is, has taken so far, in seconds."""
    for pid in filter(str.isdigit, os.listdir("/proc")):
        try:
            fields = stat_of(pid)
            if fields[3] != session:
                continue
            taken = (int(fields[11]) + int(fields[12])) / TICKS
            # a process that ends has no words any more, but had them before
            key = seen.get((pid, fields[19]), (None, 0))[0] or key_of(pid)
        except (OSError, IndexError):
            continue
        if key:
            seen[pid, fields[19]] = (key, taken)


def sums_of(seen):
    """The minutes by kind and crate."""
    sums = {}
    for (crate, kind), taken in seen.values():
        sums[kind, crate] = sums.get((kind, crate), 0) + taken / 60
    return sums


def longest_chain(sums, lines):
    """The minutes of the proofs of the longest chain of crates that stand on each other, and these from the lowest up."""
    chains = {}
    for line in lines:
        name, found, rest = line.partition(":")
        if found and not line.startswith("#"):
            below = max((chains[other] for other in rest.split() if other in chains), default=(0, []))
            chains[name.split()[0]] = (below[0] + sums.get(("proofs", name.split()[0]), 0), [*below[1], name.split()[0]])
    return max(chains.values(), default=(0, []))


def summary(sums, minutes, lines):
    """What is printed at the end."""
    by_kind = {kind: sum(taken for (one, _), taken in sums.items() if one == kind) for kind in KINDS}
    chain, crates = longest_chain(sums, lines)
    return "\n".join([
        f"minutes of processor: {sum(by_kind.values()):.0f}, {', '.join(f'{kind} {taken:.0f}' for kind, taken in by_kind.items())}; by the clock {minutes:.0f}",
        f"longest chain of proofs: {chain:.0f} minutes, {', '.join(crates)}",
    ])


def table(sums, minutes):
    """The minutes of each crate, by kind."""
    lines = [f"{kind}\t{crate}\t{taken:.1f}" for (kind, crate), taken in sorted(sums.items())]
    return "\n".join([*lines, f"all\t\t{sum(sums.values()):.1f}", f"clock\t\t{minutes:.1f}", ""])


def main():
    if len(sys.argv) not in (2, 3) or not sys.argv[1].isdecimal():
        sys.exit(__doc__.split("\n\n")[0])
    ended, seen, began, written = [], {}, time.monotonic(), 0.0
    signal.signal(signal.SIGTERM, lambda *_: ended.append(True))
    session = stat_of(sys.argv[1])[3]
    while not ended and os.path.isdir(f"/proc/{sys.argv[1]}"):
        look(seen, session)
        if len(sys.argv) == 3 and time.monotonic() - written > 10:
            written = time.monotonic()
            pathlib.Path(sys.argv[2]).write_text(table(sums_of(seen), (written - began) / 60))
        time.sleep(0.5)
    print(summary(sums_of(seen), (time.monotonic() - began) / 60, (TOP / "crates.txt").read_text().splitlines()))


if __name__ == "__main__":
    main()
