#!/usr/bin/env python3
"""Runs the tools where they refuse what they are given, and looks at what they say: the line of the status on standard output,
one sentence on standard error, and the program's status.

    python3 checks/tool_refusals.py

The last line is 'N runs, M wrong', and the status is 0 only where none was.
"""

import os
import subprocess
import sys
import tempfile

import made_programs

FONT = os.path.join(made_programs.TOP, "examples", "television.bdf")
HEAD = "origin,0\ndisplay,720,576\nrefresh,5\nepoch,900000\nregion,0,0,480,720,80,4,0\n"
SCRIPT = HEAD + "cue,900000,1800000,0,0,0,7,8,A\n"
# `pair` has no font.
PICTURE = HEAD + "picture,a,4,2,2,1234\nplace,900000,1800000,0,0,0,solid,a\n"
OTHER = PICTURE.replace("refresh,5", "refresh,6")
GARBAGE = b"no packet of a transport stream" * 20
UNREAD = ": it could not be opened or read"


def cases():
    """The words of each run, its line, its sentence and its status."""
    mux = ["mux", "1", "100", "256", "1", "eng", "2", "101", "257", "1", "fre"]
    yield mux + ["none.ts", "v.ts", "out"], "read first", "none.ts" + UNREAD, 5
    yield mux + ["v.ts", "none.ts", "out"], "read second", "none.ts" + UNREAD, 5
    yield mux + ["garbage", "v.ts", "out"], "refused FirstNoSync", "packet 0 of the first stream has no sync byte", 3
    yield mux + ["v.ts", "garbage", "out"], "refused SecondNoSync", "packet 0 of the second stream has no sync byte", 3
    yield mux + ["v.ts", "v.ts", "v.ts"], "write out", "v.ts: it is an input of the command, and no input is overwritten", 6
    yield mux + ["v.ts", "v.ts", "none/out"], "write out", (
        "none/out: it could not be made, written, flushed to the disk or put in place of what was there"), 6
    yield ["take", "9", "v.ts", "out"], "refused NoService", "no subtitles of the service 9", 3
    yield ["take", "9", "garbage", "out"], "refused NoSync", "packet 0 has no sync byte", 3
    pair = ["pair", "sd", "256", "1", "2", "3"]
    yield pair + ["p.csv", "none.csv", "out"], "read second", "none.csv" + UNREAD, 5
    yield pair + ["p.csv", "other.csv", "out"], "refused Heads", "record 3 differs in the two scripts", 3
    yield pair + ["s.csv", "p.csv", "out"], "refused FirstScript", "the first script: record 6 of the script is refused: Glyph 65", 3
    yield pair + ["garbage", "p.csv", "out"], "refused FirstScript", "the first script: record 1 of the script is refused: Unknown", 3
    yield ["live", "sd", "256", "1", "s.csv", "garbage", "out"], "refused Font", "the font is refused: line 1: not in the format BDF 2.1", 3
    yield ["live", "sd", "256", "1", "garbage", FONT, "out"], "refused NoEpoch", "the script has ended, and no epoch was accepted", 3
    yield ["splice", "sd", "256", "1", "0", "900000", "v.ts", "garbage", "out"], "refused Packet", (
        "packet 0 of the second stream is refused: no sync byte"), 3
    yield ["splice", "sd", "256", "1", "0", "903600", "v.ts", "v.ts", "out"], "refused CutTooClose", (
        "the last set before the cut, at 900000, lies 3600 ticks or less before it"), 3
    yield ["pids", "garbage", "out"], "refused Stream", "packet 0 is refused: no sync byte", 3
    yield ["pictures", "sd", "256", "1", "1", "garbage", "out"], "refused Stream", "packet 0 is refused: no sync byte", 3
    yield ["faults", "sd", "256", "1", "garbage", "out"], "refused Stream", "packet 0 is refused: no sync byte", 3
    yield ["levels", "sd", "256", "1", "pcr", "none.ts", "out"], "read first", "none.ts" + UNREAD, 5
    yield ["faults", "sd", "256", "1", "v.ts", "out"], "done", "", 0


def make(folder):
    """The files that the runs read."""
    for name, text in [("s.csv", SCRIPT), ("p.csv", PICTURE), ("other.csv", OTHER), ("garbage", GARBAGE)]:
        with open(os.path.join(folder, name), "wb") as file:
            file.write(text if isinstance(text, bytes) else text.encode())
    words = [made_programs.path_of("dvbsub"), "compile", "sd", "256", "1", "s.csv", FONT, "v.ts"]
    done = subprocess.run(words, cwd=folder, stdout=subprocess.PIPE, check=False)
    if done.returncode:
        sys.exit(f"the script is not compiled: {done.stdout.decode()}")


def main():
    tools = made_programs.path_of("dvbsub_tools")
    runs = wrong = 0
    with tempfile.TemporaryDirectory() as folder:
        make(folder)
        for words, line, sentence, status in cases():
            said = subprocess.run([tools, *words], cwd=folder, stdout=subprocess.PIPE, stderr=subprocess.PIPE, text=True, check=False)
            found = (said.stdout.splitlines(), said.stderr.splitlines(), said.returncode)
            # `live` has a line for each refused record before the last one.
            good = found[0][-1:] == [line] and found[1] == ([sentence] if sentence else []) and found[2] == status
            runs += 1
            if not good:
                wrong += 1
                print(f"{' '.join(words)}: {found}, and not {line!r}, {sentence!r}, {status}")
    print(f"{runs} runs, {wrong} wrong")
    sys.exit(1 if wrong else 0)


if __name__ == "__main__":
    main()
