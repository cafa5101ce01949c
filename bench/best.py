"""Runs a program several times and prints four numbers: how many of its least processor seconds are its own, its least processor seconds, its
least seconds by the clock, and the most memory that it had, in kilobytes.

    python3 bench/best.py ROUNDS PROGRAM WORD..

Standard output of the program is dropped. Where the system allows it the program runs before others (`chrt -f 1`), so that a
busy machine disturbs it less. What of its processor time is its own and what the system's, Linux tells by ticks, of which a short run has
few: the least of 15 runs came out at half of what it is. So the part that is its own is taken over all runs, and the first number is that
part of the second one.
"""
import os
import sys
import time


def first_of_all():
    """Runs the process before those of the usual kind, where that is allowed."""
    try:
        os.sched_setscheduler(0, os.SCHED_FIFO, os.sched_param(1))
    except OSError:
        pass


def run(words):
    """The user, processor and clock seconds of one run, and its memory in kilobytes."""
    start = time.monotonic()
    child = os.fork()
    if child == 0:
        try:
            os.dup2(os.open(os.devnull, os.O_WRONLY), 1)
            first_of_all()
            os.execvp(words[0], words)
        finally:
            os._exit(127)
    _, status, usage = os.wait4(child, 0)
    clock = time.monotonic() - start
    if status:
        sys.exit(f"{' '.join(words)}: status {status >> 8}")
    return usage.ru_utime, usage.ru_utime + usage.ru_stime, clock, usage.ru_maxrss


def main():
    runs = [run(sys.argv[2:]) for _ in range(int(sys.argv[1]))]
    user, processor, clock, memory = zip(*runs)
    # A run may be shorter than what is counted.
    own_part = sum(user) / sum(processor) if sum(processor) else 0
    print(f"{min(processor) * own_part:.4f} {min(processor):.4f} {min(clock):.4f} {max(memory)}")


main()
