#!/usr/bin/env python3
"""Runs the commands of docs/USING.md that lead from a subtitle file to a programme on air, as they are written there.

    python3 checks/on_air.py [FOLDER]

All commands of the sections "From a subtitle file", "Into a multiplex" and "Live", and the one of "Subtitle files" that wants
Pillow where that is installed, are run in FOLDER, or in a folder that is removed again. Then

1. ffprobe finds a video and subtitles with their language in the programme, and both begin where the script says;
2. the sets that come out of the programme have the script's times;
3. both hold of the programme that a FIFO gave, too;
4. a frame with the subtitle burnt in differs from the video's own just within the region of the script, and has no
   subtitle where none is asked for;
5. what was sent live is what `compile` writes of the same records.

Where ffmpeg is not installed nothing is run, and the last line says so.
"""

import json
import pathlib
import re
import shutil
import subprocess
import sys
import tempfile

TOP = pathlib.Path(__file__).resolve().parent.parent
SECTIONS = ["From a subtitle file", "Into a multiplex"]
SMOOTH = pathlib.Path("/usr/share/fonts/truetype/dejavu/DejaVuSans.ttf")
WIDTH, HEIGHT = 720, 576


def commands_of(section):
    """The commands of a section of docs/USING.md, in the order in which they are to be called."""
    text = (TOP / "docs" / "USING.md").read_text()
    body = re.search(rf"^## {section}\n(.*?)^## ", text, re.M | re.S).group(1)
    blocks, block = [], []
    for line in body.splitlines() + [""]:
        if line.startswith("    "):
            block.append(line[4:])
        elif block:
            blocks.append("\n".join(block))
            block = []
    assert blocks, f"the section {section} has no commands"
    return blocks


def run(script, folder, python):
    """Runs a block of commands, and gives what they write."""
    script = re.sub(r"^python3 ", python + " ", script, flags=re.M)
    ended = subprocess.run(["bash", "-euo", "pipefail", "-c", script + "\nwait"], cwd=folder, stdout=subprocess.PIPE,
                           stderr=subprocess.PIPE, text=True, check=False)
    if ended.returncode:
        sys.exit(f"{script}\nstatus {ended.returncode}\n{ended.stdout}{ended.stderr}")
    print(f"run: {script.splitlines()[0][:110]}", flush=True)
    return ended.stdout


def frame(folder, chain, time):
    """The bytes of a frame of the programme, red, green and blue."""
    words = ["ffmpeg", "-v", "error", "-i", "programme.ts", "-filter_complex", chain, "-ss", str(time), "-frames:v", "1",
             "-pix_fmt", "rgb24", "-f", "rawvideo", "-"]
    return subprocess.run(words, cwd=folder, stdout=subprocess.PIPE, check=True).stdout


def changed_box(first, second):
    """The box around the pixels in which two frames differ: left, top, right, bottom; None where they are the same."""
    def differ(place, count):
        return first[3 * place:3 * (place + count)] != second[3 * place:3 * (place + count)]
    rows = [y for y in range(HEIGHT) if differ(WIDTH * y, WIDTH)]
    columns = [x for y in rows for x in range(WIDTH) if differ(WIDTH * y + x, 1)]
    return (min(columns), rows[0], max(columns) + 1, rows[-1] + 1) if rows else None


def script_of(folder):
    rows = [line.split(",") for line in (folder / "evening.csv").read_text().splitlines()]
    regions = {row[1]: [int(cell) for cell in row[2:6]] for row in rows if row[0] == "region"}
    spans = [(int(row[1]), int(row[2]), row[3]) for row in rows if row[0] in ("cue", "place")]
    return regions, spans


def check_streams(folder, programme):
    """ffprobe finds the video and the subtitles, which begin at the script's first tick."""
    words = ["ffprobe", "-v", "error", "-show_entries", "stream=codec_name,start_pts:stream_tags=language", "-of", "json"]
    told = json.loads(subprocess.run([*words, programme], cwd=folder, stdout=subprocess.PIPE, check=True).stdout)["streams"]
    _, spans = script_of(folder)
    found = [(one["codec_name"], one.get("start_pts"), one.get("tags", {}).get("language")) for one in told]
    wanted = [("mpeg2video", 3600, None), ("dvb_subtitle", min(span[0] for span in spans), "eng")]
    assert found == wanted, f"{programme}: {found}, and not {wanted}"
    print(f"{programme}: {found}")


def check_frames(folder):
    regions, spans = script_of(folder)
    for time in (2, 6.5, 9, 13, 16):
        # The frame shown at a time counted from the programme's start, which is the video's first PTS.
        tick = 3600 + time * 90_000
        live = {region for start, end, region in spans if start <= tick < end}
        with_it, without = frame(folder, "[0:v][0:s:0]overlay", time), frame(folder, "[0:v]null", time)
        box = changed_box(without, with_it)
        assert bool(box) == bool(live), f"{time} s: {box}, live {live}"
        if box:
            x, y, width, height = regions[live.pop()]
            assert x <= box[0] and y <= box[1] and box[2] <= x + width and box[3] <= y + height, f"{time} s: {box}"
        print(f"frame at {time} s: " + (f"the subtitle is in {box}" if box else "no subtitle"))


def times_in(folder, stream, pid):
    """The presentation times of the PES packets of a stream."""
    words = [TOP / "dvbsub", "list", str(pid), stream, "list.txt"]
    subprocess.run(words, cwd=folder, stdout=subprocess.DEVNULL, check=True)
    return [int(time) for time in re.findall(r"^unit \d+ pts (\d+) ", (folder / "list.txt").read_text(), re.M)]


def check_sets(folder, programme):
    words = [TOP / "dvbsub_tools", "take", "1", programme, "taken.ts"]
    subprocess.run(words, cwd=folder, stdout=subprocess.DEVNULL, check=True)
    pid = int.from_bytes((folder / "taken.ts").read_bytes()[1:3], "big") & 0x1FFF
    sent, taken = times_in(folder, "evening.ts", 256), times_in(folder, "taken.ts", pid)
    assert sent and sent == taken, f"{sent} were sent, {taken} are in {programme}"
    print(f"{programme}: {len(taken)} sets have the script's times")


def check_live(folder):
    """The stream that came out of a FIFO of records is the one that they are compiled to."""
    rows = (folder / "rows.csv").read_text().splitlines(keepends=True)
    (folder / "accepted.csv").write_text("".join(row for row in rows if not row.startswith("tick,")))
    words = [TOP / "dvbsub", "compile", "sd", "256", "1", "accepted.csv", TOP / "examples" / "television.bdf", "accepted.ts"]
    subprocess.run(words, cwd=folder, stdout=subprocess.DEVNULL, check=True)
    assert (folder / "live.ts").read_bytes() == (folder / "accepted.ts").read_bytes(), "live.ts is not what the records are compiled to"
    print("live.ts is what the records are compiled to")


def in_order(blocks):
    """The blocks with the one that makes the video first, as the text says."""
    return sorted(blocks, key=lambda block: "lavfi" not in block)


def has_pillow(python):
    words = [python, "-c", "import PIL"]
    return shutil.which(python) and not subprocess.run(words, stderr=subprocess.DEVNULL, check=False).returncode


def main(folder):
    folder.mkdir(parents=True, exist_ok=True)
    for name in ("dvbsub", "dvbsub_tools", "examples"):
        if not (folder / name).exists():
            (folder / name).symlink_to(TOP / name)
    (folder / "sender").unlink(missing_ok=True)
    for block in in_order(commands_of(SECTIONS[0])):
        run(block, folder, sys.executable)
    for programme in ("programme.ts", "sent.ts"):
        check_streams(folder, programme)
        check_sets(folder, programme)
    check_frames(folder)
    pillow = next((python for python in (sys.executable, "/usr/bin/python3") if has_pillow(python)), None)
    for block in commands_of("Subtitle files"):
        if "IN OUT" not in block:
            if pillow and SMOOTH.exists():
                run(block, folder, pillow)
            else:
                print("not run: smooth letters, as Pillow or DejaVu is not installed")
    for block in commands_of(SECTIONS[1]):
        run(block, folder, sys.executable)
    (folder / "script").unlink(missing_ok=True)
    for block in commands_of("Live"):
        run(block, folder, sys.executable)
    check_live(folder)
    print("all commands are done, and the programme has what the script says")


if __name__ == "__main__":
    if not (shutil.which("ffmpeg") and shutil.which("ffprobe")):
        print("ffmpeg is not installed: not run")
    elif len(sys.argv) > 1:
        main(pathlib.Path(sys.argv[1]).resolve())
    else:
        with tempfile.TemporaryDirectory() as made:
            main(pathlib.Path(made))
