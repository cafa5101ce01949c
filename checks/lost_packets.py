"""Compiles scripts, takes packets out of each stream, and compares what is shown with what was authored.

    python3 checks/lost_packets.py [PROFILE SCRIPT FONT]...

From the packets of the PID, 1 to 14 in a row are taken out at every place; each one is also given with its error flag set, and with a
copy of the packet before it right behind the flagged one. A tick is good where all sets from some mode change or acquisition point on, up
to the last one of that tick or before, have come whole. `dump` has to show at the good ticks what `expect` shows. With each packet sent
twice, it has to show at every tick what it shows of the packets as they are. With no words, the script of examples/ is taken.

Sets are told apart here by the presentation times of the packets' PES heads, and their states read from their page compositions.
"""

import os
import subprocess
import sys
import tempfile

PACKET = 188
PAGE_COMPOSITION = b"\x0f\x10\x00\x01"
HERE = os.path.dirname(os.path.dirname(os.path.abspath(__file__)))
PROGRAM = os.environ.get("DVBSUB", os.path.join(HERE, "dvbsub"))
MOST_TICKS = 1000
MOST_LOST = 14


def run(out, *words):
    """Runs the program, whose output is that file: it is not there before, and the program has to be done with it."""
    if os.path.exists(out):
        os.remove(out)
    done = subprocess.run([PROGRAM, *words], stdout=subprocess.PIPE, check=False)
    note = done.stdout.decode().strip()
    if done.returncode or note != "done":
        raise ValueError(f"{words[0]}: status {done.returncode}, {note}")


def payload(packet):
    """The payload of a packet of a compiled stream: an adaptation field stands before it where the packet has one."""
    return packet[5 + packet[4] :] if packet[3] & 0x20 else packet[4:]


def time_of(unit):
    """The 33 bits of a PES packet's presentation time (ISO/IEC 13818-1, 2.4.3.7)."""
    return (unit[9] & 0x0E) << 29 | unit[10] << 22 | (unit[11] & 0xFE) << 14 | unit[12] << 7 | unit[13] >> 1


def sets_of(packets):
    """For each packet the number of its set, and for each set whether its page composition has another state than normal."""
    numbers, entries, last = [], [], None
    for packet in packets:
        part = payload(packet)
        if packet[1] & 0x40 and time_of(part) != last:
            last = time_of(part)
            place = part.index(PAGE_COMPOSITION)
            entries.append(part[place + 7] & 0x0C != 0)
        numbers.append(len(entries) - 1)
    return numbers, entries


def pictures(name):
    """The picture of each tick in a text."""
    with open(name, encoding="utf-8") as lines:
        texts = lines.read().split("picture ")[1:]
    return {int(text.split()[0]): text.split(" ", 1)[1] for text in texts}


class Stream:
    """A compiled script, the packets of its PID, and what is authored at the ticks that are asked for."""

    def __init__(self, profile, script, font, folder):
        self.profile = profile
        names = ("whole.ts", "part.ts", "sets.txt", "authored.txt", "shown.txt")
        whole, self.part, told, authored, self.told = (os.path.join(folder, name) for name in names)
        run(whole, "compile", profile, "256", "1", script, font, whole)
        with open(script, encoding="utf-8") as rows:
            origin = rows.readline().strip().split(",")[1]
        with open(whole, "rb") as stream:
            data = stream.read()
        places = range(0, len(data), PACKET)
        self.packets = [data[k : k + PACKET] for k in places if data[k + 1 : k + 3] != b"\x1f\xff"]
        self.numbers, self.entries = sets_of(self.packets)
        run(told, "check", profile, str(int(origin) % (1 << 33)), "256", "1", whole, told)
        with open(told, encoding="utf-8") as lines:
            self.times = [int(line.split()[1]) for line in lines if line.startswith("set ")]
        if not self.times or len(self.times) != len(self.entries):
            raise ValueError(f"{len(self.times)} sets are told, and {len(self.entries)} are in the packets")
        ticks = sorted(set(self.times) | {time - 1 for time in self.times[1:]} | {self.times[-1] + 90_000})
        self.ticks = ticks[:MOST_TICKS]
        run(authored, "expect", script, font, authored, *map(str, self.ticks))
        self.authored = self.asked(authored)

    def asked(self, name):
        """The pictures in a text, which has to have one for each tick that was asked for."""
        found = pictures(name)
        if sorted(found) != self.ticks:
            raise ValueError(f"{len(found)} pictures for {len(self.ticks)} ticks")
        return found

    def shown(self, packets):
        """What a receiver shows of packets at the ticks."""
        with open(self.part, "wb") as stream:
            stream.write(b"".join(packets))
        run(self.told, "dump", self.profile, "256", "1", "1", self.part, self.told, *map(str, self.ticks))
        return self.asked(self.told)

    def good_ticks(self, missing):
        """The ticks at which the picture is the authored one where the packets with these numbers are missing."""
        broken = {self.numbers[k] for k in missing}
        good, holds = [], False
        states = []
        for number, is_entry in enumerate(self.entries):
            holds = number not in broken and (holds or is_entry)
            states.append(holds)
        for tick in self.ticks:
            behind = [number for number, time in enumerate(self.times) if time <= tick]
            if behind and states[behind[-1]]:
                good.append(tick)
        return good

    def differs(self, packets, missing):
        """The good ticks at which another picture is shown than the authored one."""
        shown = self.shown(packets)
        return [tick for tick in self.good_ticks(missing) if shown[tick] != self.authored[tick]]


def flagged(packet):
    """A packet with its error flag set (ISO/IEC 13818-1, 2.4.3.2)."""
    return bytes([packet[0], packet[1] | 0x80]) + packet[2:]


def losses(packets):
    """What is lost, in words, the packets that come, and the numbers of those that do not come rightly."""
    count = len(packets)
    yield "nothing lost", packets, range(0)
    for first in range(count):
        for lost in range(1, min(MOST_LOST, count - first) + 1):
            rest = packets[:first] + packets[first + lost :]
            yield f"{lost} from {first} on lost", rest, range(first, first + lost)
        damaged = packets[:first] + [flagged(packets[first])]
        yield f"{first} flagged", damaged + packets[first + 1 :], range(first, first + 1)
        copy = packets[first - 1 : first] if first else []
        yield f"a copy behind {first} flagged", damaged + copy + packets[first + 1 :], range(first, first + 1)


def compared(stream):
    """How many ways to lose packets were tried, at how many good ticks in all, and those in which a picture differs."""
    tried = ticks = 0
    bad = []
    for words, packets, missing in losses(stream.packets):
        wrong = stream.differs(packets, missing)
        tried, ticks = tried + 1, ticks + len(stream.good_ticks(missing))
        if wrong:
            bad.append(f"{words}: another picture at {wrong[0]}")
    twice = [packet for packet in stream.packets for _ in range(2)]
    if stream.shown(twice) != stream.shown(stream.packets):
        bad.append("each packet twice: other pictures")
    if not ticks:
        bad.append("there is no good tick, so that nothing was compared")
    return tried + 1, ticks, bad


def main(words):
    examples = os.path.join(HERE, "examples")
    if not words:
        words = ["sd", os.path.join(examples, "subtitle.csv"), os.path.join(examples, "television.bdf")]
    total = faulty = 0
    with tempfile.TemporaryDirectory() as folder:
        for profile, script, font in zip(words[::3], words[1::3], words[2::3]):
            try:
                tried, ticks, bad = compared(Stream(profile, script, font, folder))
            except ValueError as fault:
                tried, ticks, bad = 0, 0, [str(fault)]
            print(f"{script}: {tried} streams, {ticks} good ticks")
            print("".join(f"    {line}\n" for line in bad), end="")
            total, faulty = total + tried, faulty + len(bad)
    print(f"{total} streams, {faulty} wrong")
    return 1 if faulty or not total else 0


if __name__ == "__main__":
    sys.exit(main(sys.argv[1:]))
