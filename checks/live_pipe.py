#!/usr/bin/env python3
"""Sends scripts through a pipe while `dvbsub_tools live` runs, and measures what comes out and when.

    python3 checks/live_pipe.py [FOLDER]

1. Records come one by one into a FIFO. Behind each tick the packets that are due by it have to be in OUT before the next record is written,
   and the line of a refused record on standard output: the longest time from a record to its packets or its line is told.
2. The process that writes the script is killed in the middle of a record: the records before it are sent to their end, as `compile` sends
   them, and the part of a record is refused.
3. `live` itself is killed: what was due by the last tick is in OUT, and nothing but what `compile` writes of the records so far.

Works in FOLDER, or in a folder that is removed again. The programs are those of the repository, or those that the variables DVBSUB and
DVBSUB_TOOLS name. The last line is 'N runs, M wrong'; status 1 where one was wrong.
"""
import os
import pathlib
import signal
import subprocess
import sys
import tempfile
import time

import made_programs

TOP = pathlib.Path(__file__).resolve().parent.parent
FONT = TOP / "examples" / "subtitle.bdf"
SECOND = 90_000
# The ticks of a slot of the profile `sd`, and how far behind a tick a later record has to begin.
STEP = 705
AHEAD = 453_600
PACKET = 188
HEAD = ["origin,0", "display,720,576", "refresh,5", "epoch,900000", "region,0,0,480,720,80,4,0"]
# Longer than any record may take: then the run is given up.
PATIENCE = 30
runs = wrong = 0


def compiler():
    """The program itself, as `tools` too: they are measured and killed by themselves."""
    return os.environ.get("DVBSUB") or made_programs.path_of("dvbsub")


def tools():
    return os.environ.get("DVBSUB_TOOLS") or made_programs.path_of("dvbsub_tools")


def told(good, line):
    global runs, wrong
    runs += 1
    wrong += not good
    print(("" if good else "WRONG: ") + line, flush=True)


def cue(number):
    start = 900_000 + number * 216_000
    return f'cue,{start},{start + 2 * SECOND},0,24,16,7,8,"Line one of cue {number},\nand the second line of it."'


def tick_before(number):
    """The last tick behind which that cue is let in."""
    return 900_000 + number * 216_000 - AHEAD - 1


def compiled(folder, rows):
    """What the compiler makes of these records, but for the ticks."""
    script, out = folder / "accepted.csv", folder / "compiled.ts"
    script.write_text("".join(row + "\n" for row in rows if not row.startswith("tick")))
    subprocess.run([compiler(), "compile", "sd", "256", "1", script, FONT, out], stdout=subprocess.PIPE, check=True)
    return out.read_bytes()


class Live:
    """`live` at work on a FIFO that this process holds open."""

    def __init__(self, folder):
        self.out = folder / "out.ts"
        self.out.unlink(missing_ok=True)
        self.fifo = folder / "script.fifo"
        self.fifo.unlink(missing_ok=True)
        os.mkfifo(self.fifo)
        words = [tools(), "live", "sd", "256", "1", self.fifo, FONT, self.out]
        self.run = subprocess.Popen(words, stdout=subprocess.PIPE, stderr=subprocess.DEVNULL, text=True)
        self.script = self.opened()

    def opened(self):
        """The FIFO to write to, as soon as `live` reads it; where it never does, that is the end."""
        end = time.monotonic() + PATIENCE
        while self.run.poll() is None and time.monotonic() < end:
            try:
                number = os.open(self.fifo, os.O_WRONLY | os.O_NONBLOCK)
            except OSError:
                time.sleep(0.001)
                continue
            os.set_blocking(number, True)
            return open(number, "w", encoding="utf-8", buffering=1)
        self.run.kill()
        return sys.exit(f"live does not read its script: {self.run.stdout.read().strip()}")

    def send(self, row):
        self.script.write(row + "\n")
        self.script.flush()

    def has(self, size):
        """Waits until OUT has so many bytes, and answers whether it came to that."""
        end = time.monotonic() + PATIENCE
        while time.monotonic() < end:
            if self.out.exists() and self.out.stat().st_size >= size:
                return True
            time.sleep(0.0005)
        return False

    def end(self):
        self.script.close()
        notes = self.run.stdout.read()
        return self.run.wait(), notes


def due_bytes(tick, packets):
    """How many of these bytes are due by a tick: those of the slots up to it, as far as there are packets."""
    return min(PACKET * (tick // STEP + 1), len(packets))


def latencies(folder, count):
    live = Live(folder)
    slowest = refusals = 0
    good = True
    rows = list(HEAD)
    for row in HEAD:
        live.send(row)
    for number in range(count):
        rows.append(cue(number))
        tick = tick_before(number + 1)
        due = due_bytes(tick, compiled(folder, rows))
        begun = time.monotonic()
        live.send(cue(number))
        live.send(f"tick,{tick}")
        good = good and live.has(due)
        slowest = max(slowest, time.monotonic() - begun)
        if number % 10 == 0:
            begun = time.monotonic()
            live.send(f"cue,{900_000 + number * 216_000},{900_000 + number * 216_000 + SECOND},0,24,16,7,8,too late")
            refusals += live.run.stdout.readline().startswith("refused ")
            slowest = max(slowest, time.monotonic() - begun)
    status, notes = live.end()
    same = live.out.read_bytes() == compiled(folder, rows)
    told(good and same and status == 0 and notes == "done\n" and refusals == (count + 9) // 10,
         f"{count} cues through a pipe: status {status}, {refusals} refused lines at once, the longest record {1000 * slowest:.0f} ms, "
         f"{'the same packets' if same else 'OTHER PACKETS'} as compiled")


def killed_writer(folder):
    rows = HEAD + [cue(number) for number in range(3)]
    fifo, out = folder / "script.fifo", folder / "out.ts"
    fifo.unlink(missing_ok=True)
    out.unlink(missing_ok=True)
    os.mkfifo(fifo)
    run = subprocess.Popen([tools(), "live", "sd", "256", "1", fifo, FONT, out], stdout=subprocess.PIPE, stderr=subprocess.DEVNULL, text=True)
    text = "".join(row + "\n" for row in rows) + "cue,1548000,17"
    writer = subprocess.Popen([sys.executable, "-c", "import sys, time\nfile = open(sys.argv[1], 'w')\nfile.write(sys.argv[2])\nfile.flush()\ntime.sleep(60)", fifo, text])
    time.sleep(1)
    writer.send_signal(signal.SIGKILL)
    writer.wait()
    notes = run.stdout.read()
    status = run.wait()
    same = out.read_bytes() == compiled(folder, rows)
    told(status == 0 and notes == f"refused {len(rows) + 1} Script\ndone\n" and same,
         f"a writer killed in the middle of a record: status {status}, {notes.split(chr(10))[:-1]}")


def killed_live(folder):
    live = Live(folder)
    rows = HEAD + [cue(0), cue(1)]
    for row in rows:
        live.send(row)
    tick = tick_before(2)
    whole = compiled(folder, rows)
    size = due_bytes(tick, whole)
    live.send(f"tick,{tick}")
    came = live.has(size)
    live.run.send_signal(signal.SIGKILL)
    live.run.wait()
    live.script.close()
    left = live.out.read_bytes()
    told(came and left == whole[:size], f"live killed behind a tick: {len(left)} bytes are there, {size} were due")


def main():
    given = sys.argv[1:]
    # Both are made before anything is measured.
    compiler(), tools()
    with tempfile.TemporaryDirectory() as room:
        folder = pathlib.Path(given[0] if given else room)
        folder.mkdir(parents=True, exist_ok=True)
        latencies(folder, 200)
        killed_writer(folder)
        killed_live(folder)
    print(f"{runs} runs, {wrong} wrong")
    return 1 if wrong else 0


if __name__ == "__main__":
    sys.exit(main())
