#!/usr/bin/env python3
"""Proves and makes a program of this repository, with all crates that it stands on.

    python3 checks/make_program.py dvbsub

Crates that do not stand on each other are proved side by side, each as `rt ci` proves it: from nothing, over the statements of the libraries
below, which take less to load than their proofs. Of the crates that could be next the one on the longest chain is taken first, and processors
for which no crate is left to begin share the next one. A line on standard error tells of each crate as it is proved. Exit status 1, with what
`rt` said, where a crate is refused. Where `rt ci` has proved these very files on this machine, the program that it made is taken, and where it
has proved some of them, the others alone are proved; so are those that a call before this one has proved here.
"""

import copy
import os
import pathlib
import subprocess
import sys
import tempfile
import threading
import time

import built_libraries

TOP = pathlib.Path(__file__).resolve().parent.parent
SOURCES = ("src", "specs", "proofs")
# What loading the crates below is worth, in bytes of code.
LOAD = 20_000
# What the proof of a large crate takes of memory, in bytes.
ROOM = 3 * 2**30
FIRST_CALL = "20 to 30 minutes on four processors, and longer beside other work"
# What comes of a call that another kit does not have, or has otherwise, and of a folder that `rt` takes for no repository.
NOT_HERE = (AttributeError, ImportError, KeyError, OSError, SystemExit, TypeError, ValueError)


def tell(line):
    print(line, file=sys.stderr, flush=True)


def size_of(crate):
    """How much there is to prove in a crate, by the bytes of its sources: those of definitions and proofs take half as long as those of code, and
    what a crate stands on is loaded however small it is."""
    code, *others = (sum(file.stat().st_size for file in pathlib.Path(crate.folder, part).rglob("*")) for part in SOURCES)
    return LOAD + code + sum(others) // 2


def chain_lengths(crates):
    """How much there is to prove from a crate up to the program."""
    lengths = {}
    for crate in reversed(crates):
        lengths[crate] = size_of(crate) + max((lengths[other] for other in crates if crate in other.deps), default=0)
    return lengths


def processor_count():
    return len(os.sched_getaffinity(0))


def worker_count(crates):
    """As many workers as there are processors and room in memory for."""
    words = (line.split() for line in open("/proc/meminfo", encoding="ascii"))
    free = next(int(count) * 1024 for name, count, *_ in words if name == "MemAvailable:")
    return max(1, min(processor_count(), free // ROOM, len(crates)))


class Run:
    """The crates that are still to prove, and those that are being proved."""

    def __init__(self, left, crates):
        self.left = list(left)
        self.count = len(left)
        self.lengths = chain_lengths(crates)
        self.proved = 0
        # How many processors work on each crate that is being proved.
        self.taken = {}
        self.fault = None
        self.turn = threading.Condition()

    def next_crate(self):
        """Waits for a crate of which all below is proved, and says how many processors it gets; None where nothing is left to do."""
        with self.turn:
            while self.left and self.fault is None:
                waits = self.taken.keys() | set(self.left)
                ready = [crate for crate in self.left if not waits.intersection(crate.below())]
                idle = processor_count() - sum(self.taken.values())
                if ready and (idle > 0 or not self.taken):
                    crate = max(ready, key=self.lengths.get)
                    self.left.remove(crate)
                    self.taken[crate] = self.share_of(crate, idle, len(ready))
                    return crate, self.taken[crate]
                self.turn.wait()
            return None

    def share_of(self, crate, idle, ready):
        """How many processors a crate gets: all where all that are left wait for it, since those that others work with now will be idle; else
        its part of the idle ones, and two where it is on the longest chain."""
        if all(crate in other.below() for other in self.left):
            return min(4, processor_count())
        longest = max(self.lengths[other] for other in (*self.left, *self.taken, crate))
        fair = max(1, min(4, idle // ready))
        return max(fair, min(2, idle)) if self.lengths[crate] >= longest else fair

    def ends(self, crate, fault):
        with self.turn:
            del self.taken[crate]
            self.fault = self.fault or fault
            if fault is None:
                self.proved += 1
                tell(f"proved {self.proved} of {self.count}: {crate.name}")
            self.turn.notify_all()


def by_llvm_alone(step):
    """Has a program made by LLVM alone: `rt ci` makes it by Rattle's own compiler too, and compares the two."""
    compile_by = step.compile_by
    step.compile_by = lambda backend, words, to: compile_by(backend, words, to) if backend == "llvm" else 0
    return step


def fault_of(crate, jobs):
    """Proves a crate by the call of `rt ci`, and makes its library or its program; returns what was said of it where it is refused."""
    step = by_llvm_alone(copy.copy(crate))
    with tempfile.TemporaryFile("w+", encoding="utf-8", errors="replace") as step.out:
        try:
            os.makedirs(f"{crate.folder}/out", exist_ok=True)
            status = step.ci(["--jobs", str(jobs)], False)
        except NOT_HERE as why:
            status = repr(why)
        if status == 0:
            if not crate.is_program:
                built_libraries.note_built(crate)
            return None
        step.out.seek(0)
        return f"{step.out.read()}{crate.name} is not proved ({status})"


def prove(run):
    """Proves crates for as long as there are any."""
    while (step := run.next_crate()) is not None:
        crate, jobs = step
        run.ends(crate, fault_of(crate, jobs))


def changed_of(crates):
    """The crates that are to be proved: nothing that was proved of the text that stands here is there, or they stand on such a one."""
    changed = []
    for crate in crates:
        if crate.is_program or not crate.is_built() or any(below in changed for below in crate.below()):
            changed.append(crate)
    return changed


def prove_all(rt, program, crates):
    """Proves the crates that are to be proved, and makes the program; returns what was said of one that was refused."""
    rt.Crate.cuts_libraries = True
    # Its first call is the main thread's.
    rt.rtlib.guarded()
    # Another command of `rt` in this copy waits, and this one for it.
    held = rt.rtlib.lock(crates)
    changed = changed_of(crates)
    tell(f"{program}: the program is proved and made first, of {len(changed)} crates. From nothing that takes {FIRST_CALL}, once.")
    run = Run(changed, crates)
    # What they have begun ends with this process.
    workers = [threading.Thread(target=prove, args=(run,), daemon=True) for _ in range(worker_count(changed))]
    for worker in workers:
        worker.start()
    for worker in workers:
        worker.join()
    for lock in held:
        os.close(lock)
    return run.fault


def output_of(words, folder):
    run = subprocess.run(words, cwd=folder, stdin=subprocess.DEVNULL, stdout=subprocess.PIPE, stderr=subprocess.STDOUT, text=True, check=False)
    return run.stdout


def fault_of_running(words, folder):
    """What a command that runs the program without words said, where that does not show, by `usage`, that it was made."""
    said = output_of(words, folder)
    return None if "usage" in said.splitlines() else said


def make(program):
    """Takes, or proves and makes, the program; returns what was said where it was not made."""
    folder = TOP / "crates" / program
    try:
        rt = built_libraries.kit()
        crates = built_libraries.crates_within(rt, [program])
        if not built_libraries.bring(rt, crates):
            tell(f"{program}: a run of `rt ci` on this machine has proved and made it")
            return None
        return prove_all(rt, program, crates) or fault_of_running([folder / "out" / program], folder)
    except NOT_HERE as why:
        tell(f"{program}: its crates cannot be proved side by side here ({why!r}), so that `rt run` proves them one after another")
        return fault_of_running(["rt", "run"], folder)


def main(program):
    # What is changed meanwhile is newer than this.
    begun = time.time()
    fault = make(program)
    if fault is not None:
        tell(f"{fault}\n{program}: the program was not made")
        return 1
    tell(f"made {program}")
    made = TOP / "crates" / program / "out" / "made"
    made.touch()
    os.utime(made, (begun, begun))
    return 0


if __name__ == "__main__":
    sys.exit(main(sys.argv[1]))
