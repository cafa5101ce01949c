#!/usr/bin/env python3
"""Compares the tools `mux` and `take` with FFmpeg, both ways.

    python3 checks/multiplexes.py

1. Two scripts of `examples` are compiled, joined by `mux`, and given to ffprobe: it has to find both services with their PMTs,
   PIDs, languages and page ids.
2. FFmpeg joins each service with video and audio of its own making to a multiplex of its make, and `take` takes the subtitles out
   again: what `dump` shows of them at each display set has to be what it shows of the compiled stream.

Where ffprobe or ffmpeg is not installed nothing is compared, and the last line says so.
"""
import json
import os
import shutil
import subprocess
import sys
import tempfile

TOP = os.path.dirname(os.path.dirname(os.path.abspath(__file__)))
PROGRAM = os.environ.get("DVBSUB", os.path.join(TOP, "dvbsub"))
TOOLS = os.environ.get("DVBSUB_TOOLS", os.path.join(TOP, "dvbsub_tools"))
EXAMPLES = os.path.join(TOP, "examples")
# the number of a service, the PIDs of its PMT and of its subtitles, its page and its language
SERVICES = [(1, 100, 256, 1, "eng"), (2, 101, 257, 7, "fre")]


def run(*words):
    done = subprocess.run([str(word) for word in words], stdout=subprocess.PIPE, stderr=subprocess.PIPE)
    if done.returncode != 0:
        sys.exit(f"{' '.join(str(word) for word in words)}: status {done.returncode}\n{done.stderr.decode()}")
    return done.stdout


def shown(stream, pid, page, folder):
    """The pictures at the times of the kept sets, in order, and these times."""
    levels, pictures = os.path.join(folder, "check.txt"), os.path.join(folder, "dump.txt")
    for told in filter(os.path.exists, (levels, pictures)):
        os.remove(told)
    run(PROGRAM, "check", "sd", 0, pid, page, stream, levels)
    ticks = []
    for line in open(levels):
        words = line.split()
        if words[:1] == ["set"]:
            ticks.append(int(words[1]))
    run(PROGRAM, "dump", "sd", pid, page, 1, stream, pictures, *ticks)
    texts, text = [], []
    for line in open(pictures):
        if line.startswith("picture"):
            if text:
                texts.append("".join(text))
            text = []
            words = line.split()
            line = " ".join([words[0]] + words[2:]) + "\n"
        text.append(line)
    texts.append("".join(text))
    if len(texts) != len(ticks):
        sys.exit(f"{stream}: {len(texts)} pictures at {len(ticks)} times")
    return texts, ticks


def found_by_ffprobe(multiplex):
    """What ffprobe finds: a row a service, as in SERVICES."""
    told = json.loads(run("ffprobe", "-v", "error", "-show_programs", "-show_streams", "-show_data", "-of", "json", multiplex))
    rows = []
    for program in told["programs"]:
        for stream in program["streams"]:
            if stream["codec_name"] != "dvb_subtitle":
                continue
            data = bytes.fromhex("".join("".join(line.split()[1:9]) for line in stream["extradata"].splitlines() if ":" in line)[:8])
            pages = (int.from_bytes(data[:2], "big"), int.from_bytes(data[2:4], "big"))
            if pages[0] != pages[1]:
                sys.exit(f"pages that differ: {pages}")
            rows.append((program["program_num"], program["pmt_pid"], int(stream["id"], 16), pages[0], stream["tags"]["language"]))
    return sorted(rows)


def main():
    for tool in ("ffprobe", "ffmpeg"):
        if not shutil.which(tool):
            print(f"{tool} is not installed: not compared")
            return
    faults = 0
    with tempfile.TemporaryDirectory() as folder:
        at = lambda name: os.path.join(folder, name)
        script, font = os.path.join(EXAMPLES, "subtitle.csv"), os.path.join(EXAMPLES, "television.bdf")
        streams = []
        for number, _, pid, page, language in SERVICES:
            stream = at(f"{language}.ts")
            run(PROGRAM, "compile", "sd", pid, page, script, font, stream)
            streams.append(stream)
        words = [word for service in SERVICES for word in service]
        run(TOOLS, "mux", *words, *streams, at("both.ts"))
        rows = found_by_ffprobe(at("both.ts"))
        faults += rows != SERVICES
        print(f"ffprobe finds {rows}: {'as written' if rows == SERVICES else 'WRONG'}")
        for (number, _, pid, page, language), stream in zip(SERVICES, streams):
            taken = at(f"taken_{language}.ts")
            run(TOOLS, "take", number, at("both.ts"), taken)
            wanted, _ = shown(stream, pid, page, folder)
            got, _ = shown(taken, pid, page, folder)
            faults += got != wanted
            print(f"service {number} out of our multiplex: {len(got)} sets, {'the same' if got == wanted else 'WRONG'}")
            # FFmpeg's own multiplex, with video and audio, and the subtitles copied into it
            run("ffmpeg", "-v", "error", "-y", "-copyts", "-i", at("both.ts"),
                "-f", "lavfi", "-i", "testsrc=size=320x180:rate=25:duration=6", "-f", "lavfi", "-i", "sine=duration=6",
                "-map", f"0:p:{number}", "-map", "1:v", "-map", "2:a", "-c:s", "copy", "-c:v", "mpeg2video", "-c:a", "mp2",
                "-mpegts_service_id", str(40 + number), "-muxdelay", "0", "-muxpreload", "0", "-f", "mpegts", at("theirs.ts"))
            run(TOOLS, "take", 40 + number, at("theirs.ts"), taken)
            theirs = int.from_bytes(open(taken, "rb").read(3)[1:], "big") & 0x1FFF
            got, _ = shown(taken, theirs, page, folder)
            faults += got != wanted
            print(f"service {40 + number} out of FFmpeg's multiplex, PID {theirs}: {len(got)} sets, "
                  f"{'the same' if got == wanted else 'WRONG'}")
    print(f"{faults} wrong")
    sys.exit(faults != 0)


main()
