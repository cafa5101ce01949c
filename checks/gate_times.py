#!/usr/bin/env python3
"""Runs a command of `rt`, and tells what it took for each crate: processor seconds for proofs, for tests and for edits.

    python3 checks/gate_times.py [COMMAND..]

Without words the command is `.ci/run`. What it prints goes through as it comes, and the table comes last, the dearest crate first. `rt`
itself tells no times, so that this looks every half second at the processes below the command (/proc): a run of the prover is of the crate
that it names; it is of an edit where it runs in a copy of the crate, and of tests where it is told so. Times are of processors, as many as
there are at once, so that other work on the machine does not count.
"""

import collections
import os
import pathlib
import subprocess
import sys
import threading
import time

TOP = pathlib.Path(__file__).resolve().parent.parent
TICKS = os.sysconf("SC_CLK_TCK")
KINDS = ("proof", "tests", "edits")


def processes():
    """The processes there are, each with the one that began it, its words, its folder and its processor seconds."""
    found = {}
    for entry in os.scandir("/proc"):
        if not entry.name.isdigit():
            continue
        try:
            words = pathlib.Path(entry.path, "cmdline").read_bytes().split(b"\0")
            stat = pathlib.Path(entry.path, "stat").read_text().rpartition(")")[2].split()
            folder = os.readlink(f"{entry.path}/cwd")
        except OSError:
            continue
        found[int(entry.name)] = (int(stat[1]), [word.decode(errors="replace") for word in words], folder, (int(stat[11]) + int(stat[12])) / TICKS)
    return found


def is_below(found, number, first):
    while number in found:
        if number == first:
            return True
        number = found[number][0]
    return False


def kind_of(words, folder):
    if pathlib.Path(folder).name.startswith("rt-edit-"):
        return "edits"
    return "tests" if "--test" in words else "proof"


def look(first, seconds):
    """Notes the processor seconds so far of each run of the prover below that process."""
    found = processes()
    for number, (_, words, folder, spent) in found.items():
        if "--crate-name" in words and is_below(found, number, first):
            crate = words[words.index("--crate-name") + 1]
            # A run of another crate may get the same number later.
            run = (crate, kind_of(words, folder), number, folder)
            seconds[run] = max(seconds.get(run, 0), spent)


def table(seconds):
    spent = collections.defaultdict(collections.Counter)
    for (crate, kind, _, _), took in seconds.items():
        spent[crate][kind] += took
    rows = sorted(spent.items(), key=lambda row: -sum(row[1].values()))
    yield "| crate | " + " | ".join(KINDS) + " | all |"
    yield "|---|" + "---|" * (len(KINDS) + 1)
    for crate, kinds in rows:
        yield f"| `{crate}` | " + " | ".join(f"{kinds[kind]:.0f}" for kind in KINDS) + f" | {sum(kinds.values()):.0f} |"
    whole = [sum(kinds[kind] for _, kinds in rows) for kind in KINDS]
    yield "| all | " + " | ".join(f"{took:.0f}" for took in whole) + f" | {sum(whole):.0f} |"


def main(words):
    begun = time.monotonic()
    seconds = {}
    run = subprocess.Popen(words or [str(TOP / ".ci" / "run")])
    ended = threading.Event()

    def watch():
        while not ended.wait(0.5):
            look(run.pid, seconds)

    watcher = threading.Thread(target=watch)
    watcher.start()
    status = run.wait()
    ended.set()
    watcher.join()
    print()
    for line in table(seconds):
        print(line)
    print(f"\nprocessor seconds; by the clock {time.monotonic() - begun:.0f} s")
    return status


if __name__ == "__main__":
    sys.exit(main(sys.argv[1:]))
