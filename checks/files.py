#!/usr/bin/env python3
"""Runs the program where something happens to its files: OUT stays as it was or is the whole new output, and no
input is touched.

    python3 checks/files.py [PROGRAM [KIND...]]

The program is that of the repository, or the one that is named, and the kinds of runs are all, or those of the list at the
end that are named. A line tells of each kind of run how many there were
and how many of them were wrong; the last line is 'N runs, M wrong', and the status is 0 only where none was. Runs as
nobody and a disk that is full want root; without it they are left out or run as who calls.
"""
import os
import random
import resource
import shutil
import signal
import stat
import subprocess
import sys
import tempfile
import threading
import time

import made_programs

# The copy of the program that is run: `main` makes it.
PROGRAM = None
OLD = b"what was there before\n" * 40
runs = wrong = 0

SCRIPT = "origin,0\ndisplay,720,576\nrefresh,5\nepoch,90000\nregion,0,0,0,64,32,4,0\n"
PLACE = "picture,a,4,4,1,37AF\nplace,90000,180000,0,0,0,solid,a\n"
FONT = ("STARTFONT 2.1\nFONTBOUNDINGBOX 3 4 0 -1\nSTARTCHAR A\nENCODING 65\nDWIDTH 3 0\nBBX 2 3 0 0\n"
        "BITMAP\n40\nC0\n40\nENDCHAR\nENDFONT\n")


def run(words, folder, **more):
    more.setdefault("stdout", subprocess.PIPE)
    more.setdefault("stderr", subprocess.PIPE)
    more.setdefault("timeout", 300)
    ended = subprocess.run([PROGRAM] + words, cwd=folder, **more)
    return ended.returncode, ended.stdout or b"", ended.stderr or b""


def read(path):
    try:
        with open(path, "rb") as file:
            return file.read()
    except OSError:
        return None


def write(path, data):
    with open(path, "wb") as file:
        file.write(data if isinstance(data, bytes) else data.encode())


def left_over(folder):
    """New files that a run has left beside its output."""
    return [name for name in os.listdir(folder) if name.startswith(".dvbsub-")]


class Group:
    """Runs of one kind."""

    def __init__(self, name):
        self.name, self.runs, self.wrong = name, 0, []
        self.start = time.time()

    def check(self, right, what):
        global runs, wrong
        runs += 1
        self.runs += 1
        if not right:
            wrong += 1
            self.wrong.append(str(what))

    def end(self):
        print("%-62s %4d runs %3d wrong" % (self.name, self.runs, len(self.wrong)), flush=True)
        for what in self.wrong[:6]:
            print("    " + what[:300], flush=True)


class Folder:
    """A folder with a script, a font, a stream of the script, and whole outputs of its commands."""

    def __init__(self, path):
        self.path = path
        write(self / "s.csv", SCRIPT + PLACE)
        write(self / "t.csv", SCRIPT + "cue,90000,180000,0,0,0,7,8,A\n")
        write(self / "f.bdf", FONT)
        assert run(["compile", "sd", "256", "1", "s.csv", "none", "v.ts"], path)[0] == 0
        assert run(["list", "256", "v.ts", "list.whole"], path)[0] == 0

    def __truediv__(self, name):
        return os.path.join(self.path, name)


def commands(folder):
    """The words of each command that is done, but for OUT, and where OUT stands."""
    yield ["compile", "sd", "256", "1", "s.csv", "none", "OUT"]
    yield ["compile", "sd", "256", "1", "t.csv", "f.bdf", "OUT"]
    yield ["list", "256", "v.ts", "OUT"]
    yield ["dump", "sd", "256", "1", "2", "v.ts", "OUT", "90000", "180000"]
    yield ["check", "sd", "0", "256", "1", "v.ts", "OUT"]
    yield ["expect", "s.csv", "none", "OUT", "90000"]
    yield ["gen", "2", "sd", "OUT"]


def named(words, out):
    return [out if word == "OUT" else word for word in words]


def outputs(f):
    """Missing, small, large and read-only outputs of each command."""
    group = Group("OUT missing, or longer than the output")
    for words in commands(f):
        for old in (None, OLD, b"x" * 100_000):
            out = f / "out"
            if os.path.exists(out):
                os.remove(out)
            if old is not None:
                write(out, old)
            code, note, _ = run(named(words, "out"), f.path)
            again = run(named(words, "again"), f.path)
            group.check(code == 0 and note == b"done\n" and again[0] == 0
                        and read(out) == read(f / "again") and not left_over(f.path), (words, code))
    group.end()

    group = Group("permissions of OUT, and those of a new file")
    for mode in (0o600, 0o640, 0o644, 0o666, 0o444 if os.geteuid() == 0 else 0o664):
        write(f / "out", OLD)
        os.chmod(f / "out", mode)
        code = run(["list", "256", "v.ts", "out"], f.path)[0]
        group.check(code == 0 and stat.S_IMODE(os.stat(f / "out").st_mode) == mode, oct(mode))
    os.remove(f / "out")
    before = os.umask(0o027)
    code = run(["list", "256", "v.ts", "out"], f.path)[0]
    os.umask(before)
    group.check(code == 0 and stat.S_IMODE(os.stat(f / "out").st_mode) == 0o640, "umask")
    group.end()


def refused(f):
    """A refused command leaves OUT as it was."""
    group = Group("a refused command leaves OUT as it was, or missing")
    write(f / "bad.csv", SCRIPT + "cue,90000,180000,0,0,0,7,8,B\n")
    write(f / "late.csv", "origin,0\ndisplay,4,2\nrefresh,5\nepoch,58\nregion,0,0,0,4,2,8,0\n")
    write(f / "wide.csv", "origin,0\ndisplay,1920,1080\nrefresh,5\nepoch,90000\n")
    write(f / "bad.bdf", "BDF\n")
    cases = [
        (["compile", "sd", "256", "1", "bad.csv", "f.bdf", "OUT"], 3, b"script 6 Glyph 66\n"),
        (["compile", "sd", "256", "1", "late.csv", "none", "OUT"], 3, b"schedule Late 4 59 58\n"),
        (["compile", "sd", "256", "1", "wide.csv", "none", "OUT"], 3, b"plan DisplayTooLarge 2\n"),
        (["compile", "sd", "256", "1", "t.csv", "bad.bdf", "OUT"], 3, b"font 1 NotBdf\n"),
        (["compile", "sd", "256", "1", "no.csv", "none", "OUT"], 5, b"read first\n"),
        (["compile", "sd", "256", "1", "t.csv", "no.bdf", "OUT"], 5, b"read second\n"),
        (["expect", "bad.csv", "f.bdf", "OUT", "90000"], 3, b"script 6 Glyph 66\n"),
        (["expect", "t.csv", "no.bdf", "OUT", "90000"], 5, b"read second\n"),
        (["compile", "sd", "31", "1", "s.csv", "none", "OUT"], 2, b"usage\n"),
        (["gen", "501", "sd", "OUT"], 2, b"usage\n"),
        (["list", "256", "no.ts", "OUT"], 5, b"read first\n"),
        (["dump", "sd", "256", "1", "1", "no.ts", "OUT", "0"], 5, b"read first\n"),
        (["list", "256", ".", "OUT"], 5, b"read first\n"),
    ]
    for words, wanted, line in cases:
        for old in (None, OLD):
            if os.path.exists(f / "out"):
                os.remove(f / "out")
            if old is not None:
                write(f / "out", old)
            code, note, _ = run(named(words, "out"), f.path)
            kept = read(f / "out") == old or words[2] == "."
            group.check(code == wanted and note == line and kept and not left_over(f.path),
                        (words, code, note))
    group.end()

    group = Group("a stream that is refused: OUT has what was told before")
    stream = read(f / "v.ts")
    write(f / "cut.ts", stream + b"\0" * 188)
    write(f / "none.ts", b"\0" * 188)
    for name, told in (("cut.ts", None), ("none.ts", b"")):
        for words in commands(f):
            if "v.ts" not in words:
                continue
            words = [name if word == "v.ts" else word for word in words]
            write(f / "out", OLD)
            code, note, _ = run(named(words, "out"), f.path)
            got = read(f / "out")
            right = got == told if told is not None else got is not None and got != OLD
            if words[0] == "list" and told is None:
                right = got == read(f / "list.whole")
            if told == b"" and words[0] == "check":
                right = got is not None and got != OLD
            group.check(code == 4 and note.startswith(b"stream ") and right, (words, code, note, got))
    group.end()


def inputs(f):
    """An input under any name is not written."""
    group = Group("OUT is an input, under any of its names")
    os.symlink("v.ts", f / "link.ts")
    os.symlink(f / "link.ts", f / "link2.ts")
    os.link(f / "v.ts", f / "hard.ts")
    os.symlink("s.csv", f / "link.csv")
    os.link(f / "s.csv", f / "hard.csv")
    os.symlink("f.bdf", f / "link.bdf")
    os.link(f / "f.bdf", f / "hard.bdf")
    here = os.path.basename(f.path)
    streams = ["v.ts", "./v.ts", f / "v.ts", "../" + here + "/v.ts", "link.ts", "link2.ts", "hard.ts"]
    for command in commands(f):
        if "v.ts" in command:
            names = [(command, "v.ts", name) for name in streams]
        elif "f.bdf" in command:
            names = [(command, "f.bdf", n) for n in ("f.bdf", "./f.bdf", f / "f.bdf", "link.bdf", "hard.bdf")]
            names += [(command, "t.csv", n) for n in ("t.csv", "./t.csv", f / "t.csv")]
        elif "s.csv" in command:
            names = [(command, "s.csv", n) for n in ("s.csv", "./s.csv", f / "s.csv", "link.csv", "hard.csv")]
        else:
            continue
        for words, source, name in names:
            before = read(f / source)
            code, note, _ = run(named(words, name), f.path)
            group.check(code == 6 and note == b"write out\n" and read(f / source) == before
                        and not left_over(f.path), (words, name, code, note))
    code, note, _ = run(["list", "256", "link.ts", "v.ts"], f.path)
    group.check(code == 6 and read(f / "v.ts") is not None, "input by link")
    code, note, _ = run(["list", "256", "/dev/null", "/dev/null"], f.path)
    group.check(code == 6 and note == b"write out\n", "/dev/null twice")
    group.end()


def links(f):
    group = Group("OUT is a link: what it leads to is replaced, and the link stays")
    os.mkdir(f / "deep")
    write(f / "deep/real", OLD)
    os.symlink("deep/real", f / "l1")
    os.symlink(f / "l1", f / "l2")
    os.symlink("deep/missing", f / "l3")
    os.symlink("l4", f / "l4")
    os.symlink("nowhere/missing", f / "l5")
    whole = read(f / "list.whole")
    for name, target in (("l1", "deep/real"), ("l2", "deep/real"), ("l3", "deep/missing")):
        code = run(["list", "256", "v.ts", name], f.path)[0]
        group.check(code == 0 and os.path.islink(f / name) and read(f / target) == whole
                    and not left_over(f.path) and not left_over(f / "deep"), (name, code))
    for name in ("l4", "l5"):
        code, note, _ = run(["list", "256", "v.ts", name], f.path)
        group.check(code == 6 and note == b"write out\n" and os.path.islink(f / name), (name, code))
    write(f / "one", OLD)
    os.link(f / "one", f / "two")
    code = run(["list", "256", "v.ts", "one"], f.path)[0]
    group.check(code == 0 and read(f / "one") == whole and read(f / "two") == OLD, "hard link of OUT")
    long = "n" * 255
    code = run(["list", "256", "v.ts", long], f.path)[0]
    group.check(code == 0 and read(f / long) == whole, "a name of 255 bytes")
    code = run(["list", "256", "v.ts", f / "abs"], f.path)[0]
    group.check(code == 0 and read(f / "abs") == whole, "absolute path")
    group.end()


def places_that_refuse(f):
    """Where OUT cannot be made or written: `write out`, and what was there stays."""
    group = Group("OUT cannot be made or written: read-only, full, missing, a folder")
    lister = ["list", "256", f / "v.ts", "OUT"]
    scratch = os.path.dirname(f.path)

    def refuses(out, folder, what, old=None, **more):
        code, note, _ = run(named(lister, out), folder, **more)
        group.check(code == 6 and note == b"write out\n"
                    and (old is None or read(os.path.join(folder, out)) == old)
                    and not left_over(folder), (what, code, note))

    refuses("no_such_folder/out", f.path, "missing folder")
    refuses(".", f.path, "a folder")
    refuses("v.ts/out", f.path, "a file for a folder")
    refuses("/dev/full", f.path, "/dev/full")
    # Root may write everywhere, so these are run as nobody.
    open_to_all = os.path.join(scratch, "open")
    closed = os.path.join(scratch, "closed")
    for folder in (open_to_all, closed):
        os.mkdir(folder)
        write(os.path.join(folder, "v.ts"), read(f / "v.ts"))
        write(os.path.join(folder, "out"), OLD)
        os.chmod(os.path.join(folder, "v.ts"), 0o644)
    os.chmod(os.path.join(closed, "out"), 0o666)
    os.chmod(os.path.join(open_to_all, "out"), 0o444)
    os.chmod(closed, 0o555)
    os.chmod(open_to_all, 0o777)
    nobody = {"user": 65534, "group": 65534} if os.geteuid() == 0 else {}
    for folder, what in ((open_to_all, "read-only OUT"), (closed, "read-only folder")):
        code, note, _ = run(["list", "256", "v.ts", "out"], folder, **nobody)
        group.check(code == 6 and note == b"write out\n" and not left_over(folder)
                    and read(os.path.join(folder, "out")) == OLD, (what, code, note))
    code, note, _ = run(["list", "256", "v.ts", "fresh"], open_to_all, **nobody)
    group.check(code == 0 and read(os.path.join(open_to_all, "fresh")) == read(f / "list.whole"),
                ("a new file in an open folder", code, note))
    os.chmod(os.path.join(open_to_all, "v.ts"), 0)
    code, note, _ = run(["list", "256", "v.ts", "other"], open_to_all, **nobody)
    if nobody:
        group.check(code == 5 and note == b"read first\n", ("no right to read", code, note))
    os.chmod(closed, 0o755)

    # A file may have at most so many bytes; without a handler the signal ends the program.
    def least(limit, ignored):
        def limits():
            if ignored:
                signal.signal(signal.SIGXFSZ, signal.SIG_IGN)
            resource.setrlimit(resource.RLIMIT_FSIZE, (limit, limit))
        return limits
    write(f / "out", OLD)
    for limit in (0, 1, 50):
        code, note, _ = run(["list", "256", "v.ts", "out"], f.path, preexec_fn=least(limit, True),
                            restore_signals=False)
        group.check(code == 6 and note == b"write out\n" and read(f / "out") == OLD
                    and not left_over(f.path), ("limit", limit, code, note))
    code, _, _ = run(["list", "256", "v.ts", "out"], f.path, preexec_fn=least(50, False))
    group.check(code == -signal.SIGXFSZ and read(f / "out") == OLD, ("SIGXFSZ", code))
    for name in left_over(f.path):
        os.remove(f / name)
    group.end()

    group = Group("a full disk")
    disk = os.path.join(scratch, "disk")
    os.mkdir(disk)
    mounted = subprocess.run(["mount", "-t", "tmpfs", "-o", "size=64k", "tmpfs", disk],
                             stderr=subprocess.DEVNULL).returncode == 0
    if mounted:
        try:
            write(os.path.join(disk, "out"), OLD)
            write(f / "big.csv", big_script(1))
            for _ in range(3):
                code, note, _ = run(["compile", "hd", "256", "1", f / "big.csv", "none", "out"], disk)
                group.check(code == 6 and note == b"write out\n" and not left_over(disk)
                            and read(os.path.join(disk, "out")) == OLD, (code, note, os.listdir(disk)))
        finally:
            subprocess.run(["umount", disk])
    else:
        print("    no tmpfs could be mounted: not run")
    group.end()


def straight(f):
    """Pipes, devices and standard output."""
    group = Group("pipes, devices and standard output")
    whole = read(f / "list.whole")
    os.mkfifo(f / "pipe")
    got = []
    reader = threading.Thread(target=lambda: got.append(read(f / "pipe")))
    reader.start()
    code, note, _ = run(["list", "256", "v.ts", "pipe"], f.path)
    reader.join(10)
    group.check(code == 0 and note == b"done\n" and got == [whole], ("pipe as OUT", code, note))
    for name in ("v.ts", "s.csv"):
        words = (["list", "256", "pipe", "out"] if name == "v.ts"
                 else ["compile", "sd", "256", "1", "pipe", "none", "out"])
        data = read(f / name)
        writer = threading.Thread(target=lambda: write(f / "pipe", data))
        writer.start()
        code = run(words, f.path)[0]
        writer.join(10)
        wanted = whole if name == "v.ts" else read(f / "v.ts")
        group.check(code == 0 and read(f / "out") == wanted, ("pipe as input", name, code))
    code, note, error = run(["list", "256", "v.ts", "/dev/stdout"], f.path)
    group.check(code == 0 and note == whole and error == b"done\n", ("/dev/stdout", code, note, error))
    code, note, error = run(["compile", "sd", "256", "1", "s.csv", "none", "/dev/stdout"], f.path)
    group.check(code == 0 and note == read(f / "v.ts") and error == b"done\n", ("/dev/stdout", code))
    code, note, error = run(["list", "256", "/dev/stdin", "/proc/self/fd/1"], f.path,
                            input=read(f / "v.ts"))
    group.check(code == 0 and note == whole and error == b"done\n", ("/dev/stdin", code, note, error))
    write(f / "shell", b"before\n")
    with open(f / "shell", "ab") as file:
        code, _, error = run(["list", "256", "v.ts", "/dev/stdout"], f.path, stdout=file)
        file.write(b"behind\n")
    group.check(code == 0 and error == b"done\n" and read(f / "shell") == b"before\n" + whole + b"behind\n",
                ("standard output is a file", code, error, read(f / "shell")))
    code, note, _ = run(["list", "256", "v.ts", "/dev/null"], f.path)
    group.check(code == 0 and note == b"done\n" and stat.S_ISCHR(os.stat("/dev/null").st_mode), "/dev/null")
    code, note, _ = run(["list", "256", "v.ts", "/dev/stderr"], f.path)
    group.check(code == 0 and note == b"done\n", ("/dev/stderr", code))
    with open("/dev/full", "wb") as full:
        write(f / "out", OLD)
        code = run(["list", "256", "v.ts", "out"], f.path, stdout=full)[0]
        group.check(code == 6 and read(f / "out") == whole, ("standard output full", code))
    for closed in ((1,), (2,), (1, 2), (0, 1, 2)):
        for words in (["list", "256", "v.ts", "out"], ["gen", "1", "sd", "out"]):
            def close(closed=closed):
                for number in closed:
                    os.close(number)
            before = read(f / "v.ts")
            run(named(words, "out"), f.path)
            wanted = read(f / "out")
            write(f / "out", OLD)
            child = subprocess.Popen([PROGRAM] + words, cwd=f.path, preexec_fn=close, stdout=subprocess.DEVNULL)
            code = child.wait(60)
            group.check(code == (6 if 1 in closed else 0) and read(f / "out") == wanted
                        and read(f / "v.ts") == before and not left_over(f.path),
                        ("closed", closed, words, code))
    group.end()


def big_script(seed):
    """A script whose packets have some megabytes: its origin lies three minutes before its epoch."""
    first = 90_000 * 180
    rows = ["origin,%d" % seed, "display,720,576", "refresh,60", "epoch,%d" % first,
            "region,0,0,0,64,32,4,0", "picture,a,4,4,1,%04X" % (0x1000 + seed),
            "place,%d,%d,0,0,0,solid,a" % (first, first + 90_000)]
    return "\n".join(rows) + "\n"


def killed(f):
    group = Group("kill -9 at any time: OUT is the old or the whole new one")
    write(f / "big.csv", big_script(1))
    words = ["compile", "hd", "256", "1", "big.csv", "none", "out"]
    start = time.time()
    assert run(words, f.path)[0] == 0
    took = time.time() - start
    whole = read(f / "out")
    seen = [0, 0]
    for _ in range(200):
        write(f / "out", OLD)
        child = subprocess.Popen([PROGRAM] + words, cwd=f.path, stdout=subprocess.DEVNULL,
                                 stderr=subprocess.DEVNULL)
        time.sleep(random.random() * took * 1.1)
        child.kill()
        child.wait()
        got = read(f / "out")
        seen[got == whole] += 1
        group.check(got in (OLD, whole), "%s bytes" % (None if got is None else len(got)))
    left = left_over(f.path)
    for name in left:
        os.remove(f / name)
    group.end()
    print("    %d old, %d new; %d new files left behind; a run takes %.0f ms, OUT has %d bytes"
          % (seen[0], seen[1], len(left), took * 1000, len(whole)), flush=True)


def at_once(f):
    group = Group("two runs at once with the same OUT: one of the two whole outputs")
    wholes = []
    for seed in (1, 2):
        write(f / ("big%d.csv" % seed), big_script(seed * 2_000))
        code = run(["compile", "hd", "256", "1", "big%d.csv" % seed, "none", "out"], f.path)[0]
        assert code == 0
        wholes.append(read(f / "out"))
    assert wholes[0] != wholes[1]
    seen = [0, 0]
    for number in range(50):
        write(f / "out", OLD)
        both = []
        for seed in (1, 2):
            both.append(subprocess.Popen(
                [PROGRAM, "compile", "hd", "256", "1", "big%d.csv" % seed, "none", "out"], cwd=f.path,
                stdout=subprocess.DEVNULL, stderr=subprocess.DEVNULL))
            time.sleep(random.random() * 0.02 * (number % 3))
        codes = [child.wait(120) for child in both]
        got = read(f / "out")
        group.check(codes == [0, 0] and got in wholes and not left_over(f.path), (codes, len(got or b"")))
        if got in wholes:
            seen[wholes.index(got)] += 1
    group.end()
    print("    %d of the one, %d of the other" % tuple(seen), flush=True)


def texts(f):
    """Faulty and odd scripts, fonts and streams: each ends with its status, and none hangs."""
    group = Group("odd scripts, fonts and streams")
    whole = SCRIPT + PLACE
    odd = {
        "missing": (None, 5), "folder": (".", 5), "empty": ("", 3), "garbage": (os.urandom(3_000), 3),
        "crlf": (whole.replace("\n", "\r\n"), 0), "bom": ("\ufeff" + whole, 0),
        "utf16": (whole.encode("utf-16"), 3), "cr": (whole.replace("\n", "\r"), 0),
        "semicolons": (whole.replace(",", ";"), 3), "blank": (whole.replace("\n", "\n\n"), 0),
        "comment": ("# comment\n" + whole, 3), "quotation": (whole + 'cue,90000,180000,0,0,0,7,8,"A\n', 3),
        "stream": (read(f / "v.ts"), 3), "font": (FONT, 3),
    }
    for name, (data, wanted) in odd.items():
        path = "odd." + name
        if data == ".":
            path = "."
        elif data is not None:
            write(f / path, data)
        write(f / "out", OLD)
        code, note, error = run(["compile", "sd", "256", "1", path, "none", "out"], f.path)
        kept = (read(f / "out") == OLD) == (code != 0)
        group.check(code == wanted and kept and not left_over(f.path), ("script", name, code, note, error))
    with open(f / "odd.sparse", "wb") as file:
        file.truncate(70_000_000)
    code, note, _ = run(["compile", "sd", "256", "1", "odd.sparse", "none", "out"], f.path)
    group.check(code == 8 and note == b"long first\n", ("sparse script", code, note))
    code, note, _ = run(["compile", "sd", "256", "1", "t.csv", "odd.sparse", "out"], f.path)
    group.check(code == 8 and note == b"long second\n", ("sparse font", code, note))
    code, note, _ = run(["compile", "sd", "256", "1", "/dev/null", "none", "out"], f.path)
    group.check(code == 3, ("/dev/null", code, note))
    code, note, _ = run(["compile", "sd", "256", "1", "/dev/zero", "none", "out"], f.path)
    group.check(code == 8, ("/dev/zero", code, note))
    fonts = {"missing": (None, 5), "empty": ("", 3), "garbage": (os.urandom(3_000), 3),
             "crlf": (FONT.replace("\n", "\r\n"), 0), "bom": ("\ufeff" + FONT, 3), "script": (whole, 3),
             "cut": (FONT[:60], 3)}
    for name, (data, wanted) in fonts.items():
        if data is not None:
            write(f / ("font." + name), data)
        write(f / "out", OLD)
        code, note, error = run(["compile", "sd", "256", "1", "t.csv", "font." + name, "out"], f.path)
        kept = (read(f / "out") == OLD) == (code != 0)
        group.check(code == wanted and kept, ("font", name, code, note, error))
    with open(f / "odd.ts", "wb") as file:
        file.truncate(2_000_000_000)
    streams = {"odd.ts": 4, "s.csv": 4, "f.bdf": 4, "/dev/null": 0, "/dev/zero": 4}
    for name, wanted in streams.items():
        for words in (["list", "256", name, "out"], ["check", "sd", "0", "256", "1", name, "out"],
                      ["dump", "sd", "256", "1", "1", name, "out", "0"]):
            if name == "/dev/null" or os.path.getsize(name if name[0] == "/" else f / name) >= 188 \
                    or name == "/dev/zero":
                want = wanted
            else:
                want = 0
            code, note, _ = run(words, f.path)
            group.check(code == want, ("stream", words, code, note))
    group.end()


def main_bodies(f):
    """What the program does with the words: the font is the font's file, the table is written, codes are told."""
    group = Group("which file is which, and what is told where")
    code, note, _ = run(["compile", "sd", "256", "1", "t.csv", "f.bdf", "out"], f.path)
    group.check(code == 0 and note == b"done\n", ("font", code, note))
    code, note, error = run(["list"], f.path)
    group.check(code == 2 and note == b"usage\n" and b"compile PROFILE PID PAGE SCRIPT FONT OUT\n" in error,
                ("table", code, note, error))
    code, note, error = run([], f.path)
    group.check(code == 2 and note == b"usage\n" and b"gen N PROFILE OUT" in error, ("no words", code))
    code, note, error = run([b"list", b"256", b"\xff", b"out"], f.path)
    group.check(code == 2 and note == b"usage\n", ("no UTF-8", code))
    # Without room for the bytes of the script there is no memory.
    with open(f / "large.csv", "wb") as file:
        file.truncate(60_000_000)

    def little():
        resource.setrlimit(resource.RLIMIT_AS, (40_000_000, 40_000_000))
    code, note, error = run(["compile", "sd", "256", "1", "large.csv", "none", "out"], f.path, preexec_fn=little)
    group.check(code == 7 and note == b"memory\n", ("memory", code, note, error))
    code, note, _ = run(["dump", "sd", "8190", "65535", "1", "v.ts", "out", "0"], f.path)
    group.check(code == 0 and read(f / "out") == b"picture 0 clear\n", ("greatest PID", code))
    group.end()


KINDS = {
    "told": main_bodies, "outputs": outputs, "refused": refused, "inputs": inputs, "links": links,
    "places": places_that_refuse, "straight": straight, "texts": texts, "at_once": at_once, "killed": killed,
}


def main():
    global PROGRAM
    # The program itself, and not the script that makes it: each run is killed or measured by itself.
    program = sys.argv[1] if len(sys.argv) > 1 else made_programs.path_of("dvbsub")
    scratch = tempfile.mkdtemp(prefix="dvbsub-files-")
    os.chmod(scratch, 0o755)
    # Where nobody can run it as well.
    PROGRAM = shutil.copy(program, os.path.join(scratch, "program"))
    os.chmod(PROGRAM, 0o755)
    try:
        path = os.path.join(scratch, "work")
        os.mkdir(path)
        f = Folder(path)
        for kind in sys.argv[2:] or KINDS:
            KINDS[kind](f)
    finally:
        shutil.rmtree(scratch, ignore_errors=True)
    print("%d runs, %d wrong" % (runs, wrong))
    return 1 if wrong or not runs else 0


if __name__ == "__main__":
    sys.exit(main())
