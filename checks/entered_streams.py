"""Compiles scripts, and checks each stream from every packet on.

    python3 checks/entered_streams.py [PROFILE SCRIPT FONT]...

A receiver that enters behind j packets gets packet number s in slot s all the same: `check` is given the stream without its first j
packets, and an ORIGIN that is j steps later, modulo 2^33. It has to print `breach none` for every j, and so for every j it is asked.
With no words, the scripts of examples/ are taken. Where j packets and a null packet behind them are missing, nothing else is asked than
where j + 1 are, so that only the packets of the PID and those behind them are looked at.
"""

import os
import subprocess
import sys
import tempfile

STEPS = {"sd": 705, "hd": 360, "large": 90}
ROUND = 1 << 33
HERE = os.path.dirname(os.path.dirname(os.path.abspath(__file__)))
PROGRAM = os.environ.get("DVBSUB", os.path.join(HERE, "dvbsub"))


def run(*words):
    """The line that the program prints."""
    return subprocess.run([PROGRAM, *words], stdout=subprocess.PIPE, check=False).stdout.decode().strip()


def last_line(name):
    with open(name, encoding="utf-8") as lines:
        return (lines.read().splitlines() or ["nothing"])[-1]


def entered(profile, script, font, folder):
    """How many entries were checked, and those at which something else than `breach none` came."""
    stream, part, told = (os.path.join(folder, name) for name in ("stream.ts", "part.ts", "check.txt"))
    note = run("compile", profile, "256", "1", script, font, stream)
    if note != "done":
        return 0, [f"not compiled: {note}"]
    with open(script, encoding="utf-8") as rows:
        origin = int(rows.readline().split(",")[1])
    with open(stream, "rb") as packets:
        data = packets.read()
    count = len(data) // 188
    sent = [k for k in range(count) if data[188 * k + 1 : 188 * k + 3] != b"\x1f\xff"]
    places = sorted({0, count} | set(sent) | {k + 1 for k in sent})
    bad = []
    for missed in places:
        with open(part, "wb") as packets:
            packets.write(data[188 * missed :])
        if os.path.exists(told):
            os.remove(told)
        note = run("check", profile, str((origin + missed * STEPS[profile]) % ROUND), "256", "1", part, told)
        last = last_line(told) if note == "done" else "nothing"
        if last != "breach none":
            bad.append(f"behind {missed} packets: {note}, {last}")
    return len(places), bad


def main(words):
    examples = os.path.join(HERE, "examples")
    if not words:
        words = ["sd", os.path.join(examples, "subtitle.csv"), os.path.join(examples, "television.bdf")]
    total = faulty = 0
    with tempfile.TemporaryDirectory() as folder:
        for profile, script, font in zip(words[::3], words[1::3], words[2::3]):
            checked, bad = entered(profile, script, font, folder)
            print(f"{script}: {checked} entries checked")
            print("".join(f"    {line}\n" for line in bad), end="")
            total, faulty = total + checked, faulty + len(bad)
    print(f"{total} entries, {faulty} with a breach")
    return 1 if faulty or not total else 0


if __name__ == "__main__":
    sys.exit(main(sys.argv[1:]))
