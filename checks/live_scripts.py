#!/usr/bin/env python3
"""Sends scripts by `dvbsub_tools live`, with `tick` records put between their records, and compares what comes out with what `compile` writes.

    python3 checks/live_scripts.py [FOLDER]

Scripts are those of `examples` and of FOLDER (each folder there with a `script.csv`, and perhaps a `font.bdf`), and scripts that are made here:
epochs, regions, colours, pictures, cues of one and of several lines, with errors put in. Each is sent

1. without ticks: where `compile` takes it, no record is refused;
2. with ticks at random places, as late as they may be, a tick too late, and far too late.

Each time the accepted records, which are those without a line `refused R NAME`, are compiled by `compile` in one piece: OUT has to be the same bytes. Which
records are `Early` is worked out here, and no others may be told so. The last line is 'N runs, M wrong'; status 1 where one was wrong.
"""

import os
import pathlib
import random
import re
import subprocess
import sys
import tempfile

TOP = pathlib.Path(__file__).resolve().parent.parent
PROGRAM = os.environ.get("DVBSUB", str(TOP / "dvbsub"))
TOOLS = os.environ.get("DVBSUB_TOOLS", str(TOP / "dvbsub_tools"))
AHEAD = 453_600
MADE, TRIES = 60, 8
FONT = TOP / "examples" / "television.bdf"


def pieces_of(text):
    """The text cut behind each line feed that does not stand within quotation marks; what is left behind them is one more."""
    pieces, piece, quoted = [], "", False
    for letter in text:
        piece += letter
        quoted ^= letter == '"'
        if letter == "\n" and not quoted:
            pieces.append(piece)
            piece = ""
    return pieces + [piece] * bool(piece)


def made_script(maker):
    """A script of some epochs, some of whose records are wrong."""
    rows = ["origin,%d" % maker.choice([0, 0, 1000, 8_589_934_591]), "display,720,576", f"refresh,{maker.choice([1, 2, 5])}"]
    origin = int(rows[0][7:])
    start = origin + 450_000 + maker.randrange(1_000_000)
    for number in range(maker.randint(1, 3)):
        rows.append(f"epoch,{start}")
        rows += [f"region,0,0,{40 + 2 * number},720,60,4,0", "region,1,0,480,720,80,4,1"][: maker.randint(1, 2)]
        regions = sum(row.startswith("region") for row in rows[-2:])
        rows.append(f"colour,{start},0,4,7,235,128,128,0")
        if maker.random() < 0.5:
            rows.append(f"picture,p{number},4,4,2,{''.join(maker.choice('0123456789ABCDEF') for _ in range(8))}")
        end = start
        for _ in range(maker.randint(1, 6)):
            begin = start + maker.randrange(4_000, 900_000)
            over = begin + maker.randrange(3_601, 400_000)
            end = max(end, over)
            region = maker.randrange(regions)
            text = maker.choice(["Good evening.", "A", '"two\nlines"', '"a ""word"""'])
            if maker.random() < 0.3:
                rows.append(f"place,{begin},{over},{region},{maker.randrange(700)},2,solid,p{maker.randrange(number + 1)}")
            else:
                rows.append(f"cue,{begin},{over},{region},{maker.randrange(40)},2,7,8,{text}")
            if maker.random() < 0.15:
                rows.append(f"colour,{begin},0,4,{maker.randrange(16)},100,110,120,0")
            if maker.random() < 0.1:
                rows.append(maker.choice(["nothing,1", "cue,1,2", "", f"epoch,{start}", "origin,5"]))
        start = end + maker.randrange(3_601, 500_000)
    return "".join(row + "\n" for row in rows)


def first_tick(row, start):
    """The first tick that a record has a part in, where the last epoch begins at that one; None for heads and pictures."""
    cells = row.lstrip("\ufeff").split(",")
    if cells[0] in ("epoch", "place", "cue", "colour") and len(cells) > 1 and cells[1].strip().isdigit():
        return int(cells[1])
    return start if cells[0] == "region" else None


def with_ticks(text, maker):
    """The pieces of a script with ticks between them: before a record with a tick comes, now and then, the last tick behind which it is let in, or one later."""
    pieces, last, rows, origin = [], None, 0, 0
    for piece in pieces_of(text):
        if piece.startswith("origin,"):
            origin = int(re.match(r"origin,(\d+)", piece).group(1))
        tick = first_tick(piece, None)
        if rows and tick is not None and maker.random() < 0.5:
            wanted = tick - AHEAD - 1 + maker.choice([0, 0, 0, 0, 1, -1, 2_000, 90_000])
            if wanted >= origin and (last is None or wanted > last):
                pieces.append(f"tick,{wanted}\n")
                last = wanted
        pieces.append(piece)
        rows += bool(piece.strip())
    return "".join(pieces)


def run(words):
    done = subprocess.run(words, stdout=subprocess.PIPE, stderr=subprocess.DEVNULL, check=False)
    return done.returncode, done.stdout.decode().splitlines()


class Trial:
    def __init__(self, folder):
        self.folder, self.runs, self.wrong, self.early, self.refused = folder, 0, 0, 0, 0

    def compiled(self, text, font, profile):
        script, out = self.folder / "accepted.csv", self.folder / "compiled.ts"
        script.write_text(text)
        out.unlink(missing_ok=True)
        status, lines = run([PROGRAM, "compile", profile, "256", "1", str(script), str(font), str(out)])
        return status, out.read_bytes() if out.exists() else b""

    def live(self, text, font, profile):
        script, out = self.folder / "live.csv", self.folder / "live.ts"
        script.write_text(text)
        out.unlink(missing_ok=True)
        status, lines = run([TOOLS, "live", profile, "256", "1", str(script), str(font), str(out)])
        return status, lines, out.read_bytes() if out.exists() else b""

    def one(self, name, text, font, profile, is_right):
        status, lines, sent = self.live(text, font, profile)
        names = dict((int(number), why) for number, why in (re.fullmatch(r"refused (\d+) (\w+)", line).groups() for line in lines[:-1]))
        accepted, number, start, last, faults = "", 0, None, None, []
        for piece in pieces_of(text):
            if not piece.strip("\r\n"):
                continue
            number += 1
            why, tick = names.get(number), re.match(r"\ufeff?tick,(\d+)\s*$", piece)
            if tick:
                last = int(tick.group(1)) if why is None else last
                faults += [f"record {number}: a tick is {why}"] if why not in (None, "Script") else []
                continue
            first = first_tick(piece, start)
            is_early = last is not None and first is not None and first <= last + AHEAD
            if why == "Early" and not is_early or why in (None, "Plan", "Schedule") and is_early:
                faults.append(f"record {number}: {why}, and the horizon is {last and last + AHEAD}")
            self.early += why == "Early"
            self.refused += why is not None
            if why is None:
                accepted += piece
                start = first if piece.startswith("epoch") else start
        wanted, packets = self.compiled(accepted, font, profile)
        if "epoch" in accepted:
            if status or wanted or sent != packets or lines[-1] != "done":
                faults.append(f"status {status} {lines[-1:]}, compile {wanted}, {len(sent)} bytes and not {len(packets)}")
        elif lines[-1] != "refused NoEpoch" or sent:
            faults.append(f"without an epoch: {lines[-1:]}")
        if is_right and names:
            faults.append(f"refused without a tick: {names}")
        self.runs += 1
        if faults:
            self.wrong += 1
            print(f"WRONG {name}: {faults[:3]}")

    def all_of(self, name, text, font, profile, maker):
        status, _ = self.compiled(text, font, profile)
        self.one(name, text, font, profile, status == 0)
        for turn in range(TRIES):
            self.one(f"{name} with ticks {turn}", with_ticks(text, maker), font, profile, False)


def scripts_of(folder):
    """The scripts of a folder's folders, each with its font."""
    for script in sorted(pathlib.Path(folder).glob("*/*.csv")):
        fonts = sorted(script.parent.glob("*.bdf"))
        try:
            text = script.read_bytes().decode()
        except UnicodeDecodeError:
            continue
        yield f"{script.parent.name}/{script.name}", text, fonts[0] if fonts else "none"


def main():
    maker = random.Random(19)
    with tempfile.TemporaryDirectory() as room:
        trial = Trial(pathlib.Path(room))
        subtitle = TOP / "examples" / "subtitle.csv"
        trial.all_of("examples/subtitle.csv", subtitle.read_text(), FONT, "sd", maker)
        for name, text, font in scripts_of(sys.argv[1]) if len(sys.argv) > 1 else []:
            if not re.search(r"^tick,", text, re.M):
                trial.all_of(name, text, font, maker.choice(["sd", "hd", "large"]), maker)
        for number in range(MADE):
            trial.all_of(f"made script {number}", made_script(maker), FONT, maker.choice(["sd", "hd", "large"]), maker)
        print(f"{trial.refused} records refused, {trial.early} of them early")
        print(f"{trial.runs} runs, {trial.wrong} wrong")
        return 1 if trial.wrong else 0


if __name__ == "__main__":
    sys.exit(main())
