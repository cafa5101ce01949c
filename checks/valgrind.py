"""Runs the whole program under valgrind over hostile input, and over files that cannot be read or written.

    python3 checks/valgrind.py [--all] [--jobs N]

The program is that of the repository, or the one that the variable DVBSUB names. Each case is a command over files that are made here:
scripts and fonts that end too early, streams that end too early or have another byte, streams that no encoder writes, inputs that are
too long, folders in the place of files, and outputs on a full device. A case passes where valgrind finds no error and no lost memory,
and the program ends with the code and the line that the rules of docs/FORMATS.md give. With --all each prefix of a script, a font and
a stream is taken, and each byte of a stream is changed; without it every 23rd, so that there are 343 cases. N cases run at a time, four
if left out.
"""

import os
import subprocess
import sys
import tempfile
from concurrent.futures import ThreadPoolExecutor

import made_programs

HERE = os.path.dirname(os.path.dirname(os.path.abspath(__file__)))
VALGRIND = ["valgrind", "--quiet", "--error-exitcode=99", "--leak-check=full", "--errors-for-leak-kinds=definite,possible"]
FOUND = 99

# The seconds in which a case has to end.
SECONDS = 900

SCRIPT = (
    "origin,0\ndisplay,4,2\nrefresh,5\nepoch,90000\nregion,0,0,0,4,2,8,0\n"
    "picture,a,8,4,2,0102020203030303\nplace,90000,180000,0,0,0,solid,a\n"
)
FONT = (
    "STARTFONT 2.1\nFONTBOUNDINGBOX 3 4 0 -1\nSTARTCHAR A\nENCODING 65\nDWIDTH 3 0\nBBX 2 3 0 0\n"
    "BITMAP\n40\nC0\n40\nENDCHAR\nENDFONT\n"
)
FIRST = bytes.fromhex(
    "0F14000100050700030001" "0F10000100080C0B00FF00000000" "0F1100010010000F000400026F00000300000000F000"
    "0F130001001600000100080007120100830200 00F0120084030000F0".replace(" ", "") + "0F8000010000"
)
SECOND = bytes.fromhex("0F10000100020C13" "0F8000010000")
OPEN = bytes.fromhex("0F10000100020C0B")
END = bytes.fromhex("0F8000010000")


def time_bytes(pts):
    """The bytes of a presentation time (ISO/IEC 13818-1, table 2-21)."""
    return bytes(
        [0x21 | (pts >> 30 & 7) << 1, pts >> 22 & 255, (pts >> 15 & 127) << 1 | 1, pts >> 7 & 255, (pts & 127) << 1 | 1]
    )


def unit(pts, segments):
    """A PES packet of these segments."""
    length = len(segments) + 11
    head = bytes([0, 0, 1, 0xBD, length >> 8, length & 255, 0x84, 0x80, 5])
    return head + time_bytes(pts) + b"\x20\x00" + segments + b"\xff"


def packets(units):
    """The transport packets of units, of PID 256."""
    stream, counter = b"", 0
    for whole in units:
        for place in range(0, len(whole), 184):
            piece = whole[place : place + 184]
            head = bytes([0x47, 0x01 if place else 0x41, 0, (0x10 if len(piece) == 184 else 0x30) + counter])
            field = b"" if len(piece) == 184 else (bytes([183 - len(piece), 0]) + b"\xff" * 182)[: 184 - len(piece)]
            stream += head + field + piece
            counter = (counter + 1) % 16
    return stream


def fault_of(packet):
    """Why a packet is refused."""
    if packet[0] != 0x47:
        return "NoSync"
    if packet[1] & 31 != 1 or packet[2] or packet[1] & 128:
        return None
    if packet[3] & 0xC0:
        return "Scrambled"
    control = packet[3] >> 4 & 3
    if not control:
        return "ReservedControl"
    return "BadAdaptation" if packet[4] > {1: 255, 2: 183, 3: 182}[control] else None


def end_of(stream):
    """The code and the line of a command over a stream."""
    for number in range(len(stream) // 188):
        fault = fault_of(stream[188 * number : 188 * number + 188])
        if fault:
            return 4, f"stream {number} {fault}"
    cut = len(stream) % 188
    return 0, f"done cut {cut}" if cut else "done"


def stream_cases(name, stream):
    """The commands over a stream."""
    code, line = end_of(stream)
    for words in (["list", "256"], ["dump", "sd", "256", "1", "3"], ["dump", "wide", "256", "1", "2"], ["check", "sd", "0", "256", "1"]):
        ticks = ["90000", "180000"] if words[0] == "dump" else []
        yield f"{words[0]}: {name}", words, [stream], ticks, code, line


def hostile_streams(step):
    """Streams with their names."""
    first = packets([unit(90000, FIRST), unit(180000, SECOND)])
    yield "two packets", first
    for size in range(0, len(first), step):
        yield f"the first {size} bytes", first[:size]
    for place in range(0, len(first), step):
        for value in (0, 255, 255 - first[place]):
            yield f"byte {place} is {value}", first[:place] + bytes([value]) + first[place + 1 :]
    yield "a set that never ends", packets([unit(90000, OPEN)] * 3200)
    yield "sets without an end", packets([unit(90000 + 705 * k, OPEN) for k in range(100)])
    yield "one time often", packets([unit(90000, FIRST)] * 200)
    yield "times that go back", packets([unit(90000 - k, FIRST) for k in range(200)])
    region = bytes.fromhex("0F110001000A")
    regions = b"".join(region + bytes([k % 256]) + bytes.fromhex("0F000400026F000003") for k in range(4095))
    yield "65,535 regions", packets([unit(90000, regions)] * 16 + [unit(90000, regions[:240])])
    stuffing = bytes.fromhex("0F FF 0001 FFE0") + b"\xaa" * 65504
    yield "a unit of the greatest length", packets([unit(180000, OPEN + stuffing + END)])


def script_cases(step):
    """Scripts and fonts that end too early, by the code alone where a table of lines would be the program over again."""
    for words, ticks in ((["compile", "sd", "256", "1"], []), (["expect"], ["90000", "180000"])):
        yield f"{words[0]}: a script", words, [SCRIPT.encode(), FONT.encode()], ticks, 0, "done"
        for size in range(0, len(SCRIPT), step):
            yield f"{words[0]}: {size} bytes of a script", words, [SCRIPT[:size].encode(), b"none"], ticks, None, None
        for size in range(0, len(FONT) - 1, step):
            yield f"{words[0]}: {size} bytes of a font", words, [SCRIPT.encode(), FONT[:size].encode()], ticks, 3, None
        yield f"{words[0]}: too long", words, [b"x" * 67108865, b"none"], ticks, 8, "long first"
        yield f"{words[0]}: font too long", words, [SCRIPT.encode(), b"x" * 67108865], ticks, 8, "long second"
        yield f"{words[0]}: a folder", words, [None, b"none"], ticks, 5, "read first"
        yield f"{words[0]}: a folder as a font", words, [SCRIPT.encode(), None], ticks, 5, "read second"


def sink_cases():
    """Outputs and lines on a full device, and wrong command lines."""
    stream = packets([unit(90000, FIRST), unit(180000, SECOND)])
    for words in (["list", "256"], ["dump", "sd", "256", "1", "2"], ["check", "sd", "0", "256", "1"]):
        ticks = ["90000"] if words[0] == "dump" else []
        yield f"{words[0]}: a full device", words, [stream], ticks, 6, "write out", "/dev/full"
        yield f"{words[0]}: a folder", words, [None], ticks, 5, "read first"
    for words, ticks in ((["compile", "sd", "256", "1"], []), (["expect"], ["90000"])):
        yield f"{words[0]}: a full device", words, [SCRIPT.encode(), b"none"], ticks, 6, "write out", "/dev/full"
    yield "no command", ["gone"], [], [], 2, "usage"


def run(program, folder, number, case):
    """What is wrong with a case; nothing where it passes."""
    name, words, inputs, ticks, code, line, out = (*case, None)[:7]
    base = os.path.join(folder, str(number))
    os.mkdir(base)
    names = []
    for place, content in enumerate(inputs):
        path = os.path.join(base, f"in{place}")
        if content is None:
            os.mkdir(path)
        elif content == b"none":
            path = "none"
        else:
            with open(path, "wb") as file:
                file.write(content)
        names.append(path)
    command = [program, *words, *names] + ([out or os.path.join(base, "out")] if inputs else []) + ticks
    try:
        done = subprocess.run(VALGRIND + command, stdout=subprocess.PIPE, stderr=subprocess.PIPE, timeout=SECONDS, check=False)
    except subprocess.TimeoutExpired:
        return f"{name}: no end in {SECONDS} seconds"
    finally:
        subprocess.run(["rm", "-rf", base], check=False)
    told = done.stdout.decode().strip()
    if done.returncode == FOUND:
        return f"{name}: valgrind: {done.stderr.decode()[:2000]}"
    if code is None and done.returncode in (0, 3):
        return None
    if done.returncode != code or (line is not None and told != line):
        return f"{name}: {done.returncode} {told}, and not {code} {line}"
    return None


def program_itself():
    """The program itself, and not the script that makes it: valgrind would look at the shell."""
    return os.environ.get("DVBSUB") or made_programs.path_of("dvbsub")


def main(words):
    step = 1 if "--all" in words else 23
    jobs = int(words[words.index("--jobs") + 1]) if "--jobs" in words else 4
    program = program_itself()
    cases = [case for name, stream in hostile_streams(step) for case in stream_cases(name, stream)]
    cases += list(script_cases(step)) + list(sink_cases())
    done = bad = 0
    with tempfile.TemporaryDirectory() as folder, ThreadPoolExecutor(max_workers=jobs) as workers:
        for result in workers.map(lambda pair: run(program, folder, *pair), enumerate(cases)):
            done += 1
            bad += result is not None
            if result:
                print(f"    {result}", flush=True)
            if done % 50 == 0 or done == len(cases):
                print(f"{done} of {len(cases)} cases, {bad} wrong", flush=True)
    return 1 if bad else 0


if __name__ == "__main__":
    sys.exit(main(sys.argv[1:]))
