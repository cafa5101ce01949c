"""Refuses growths of memory one after the other, in the tests of the library crates.

    python3 checks/refused_growth.py [--all] [--jobs N] [CRATE[=FIRST-LAST]]...

For numbers N from 1 on, `rt try CRATE --test --fail-alloc N` runs each test of the crate, in a process of its own, with its Nth allocation
refused. Each public call that takes memory is called in such a test. A test may pass, end with the error of the
call (by itself or by `expect`), or find the answer for want of memory where it wanted another one. A fault, a test that does not end, and
any other answer is printed: there must be none, and some test has to meet a refusal. A crate is done with the first N at which every test
passes, as no test takes memory so often.

Each run makes the tests anew, without proving anything, in 30 to 90 processor seconds, so not every number is tried: the first eight, in
which the calls of the lower crates take what they take, and then each that is a third greater than the one before. With --all each number
is tried. CRATE=FIRST-LAST tries these numbers of a crate. N crates are tried at a time, four if left out; with no words all crates with
tests are taken, lowest first.
"""

import os
import re
import subprocess
import sys
from concurrent.futures import ThreadPoolExecutor

HERE = os.path.dirname(os.path.dirname(os.path.abspath(__file__)))
MOST = 4096

# So many numbers are tried one by one.
FIRST = 8

# What a test shows that was handed the refusal: behind the words of `expect`, or as an answer that was compared with another one.
WANT = re.compile(r"Memory|AllocFailed|AllocError|WriteFailed|WriteFault|\[109, 101, 109, 111, 114, 121, 10\]|memory")


def crates():
    """The crates that have tests, lowest first."""
    with open(os.path.join(HERE, "crates.txt"), encoding="utf-8") as lines:
        names = [line.split(":")[0].strip() for line in lines if line.strip() and not line.startswith("#")]
    for name in names:
        source = os.path.join(HERE, "crates", name, "src", "lib.rt")
        if os.path.exists(source):
            with open(source, encoding="utf-8") as text:
                if "#[cfg(test)]" in text.read():
                    yield name


def outcomes(crate, number):
    """The tests of a crate with what each of them told, where its allocation of that number is refused."""
    words = ["rt", "try", "--test", "--seconds", "300", "--fail-alloc", str(number)]
    done = subprocess.run(
        words, cwd=os.path.join(HERE, "crates", crate), stdout=subprocess.PIPE, stderr=subprocess.STDOUT, check=False
    )
    text = done.stdout.decode(errors="replace")
    parts = re.split(r"^test (?!result)", text, flags=re.MULTILINE)[1:]
    if not parts:
        raise RuntimeError(f"{crate}: {text}")
    for part in parts:
        head, _, told = part.partition("\n")
        name, _, end = head.partition(" ... ")
        yield name, end.strip(), told.split("\ntest result", 1)[0]


def is_right(end, told):
    """Whether a test ended as it may."""
    if end == "ok":
        return True
    if "the test failed: its result gives status 1" in told:
        return True
    first = told.strip().partition("\n")[0]
    shown = told if first.startswith("assertion") else first.partition(": ")[2]
    return "SIGABRT" in told and bool(WANT.search(shown))


def numbers(first, last, every):
    """The numbers that are tried: each, or behind the first ones each that is a third greater than the one before."""
    number = first
    while number <= last:
        yield number
        number += 1 if every or number < FIRST else max(1, number // 3)


def check(crate, tried):
    """How many runs of tests there were, the last number, how many of the tests did not pass, and those that ended otherwise than they may."""
    runs, ended, bad, number = 0, 0, [], 0
    for number in tried:
        all_pass = True
        for name, end, told in outcomes(crate, number):
            runs += 1
            ended += end != "ok"
            all_pass = all_pass and end == "ok"
            if not is_right(end, told):
                bad.append(f"{crate} {name}, allocation {number}: {end} {told}")
        if all_pass:
            break
    return f"{crate}: up to allocation {number}, {runs} runs of tests, {ended} ended by a refusal, {len(bad)} wrong", ended, bad


def asked(words):
    """The crates that are asked for, each with the numbers that are tried."""
    every = "--all" in words
    named = [word for place, word in enumerate(words) if not word.startswith("--") and words[place - 1 : place] != ["--jobs"]]
    for word in named or list(crates()):
        crate, _, span = word.partition("=")
        first, _, last = span.partition("-")
        yield crate, list(numbers(int(first or 1), int(last or first or MOST), every or bool(span)))


def main(words):
    jobs = int(words[words.index("--jobs") + 1]) if "--jobs" in words else 4
    refusals = total = 0
    with ThreadPoolExecutor(max_workers=jobs) as workers:
        for line, ended, bad in workers.map(lambda pair: check(*pair), asked(words)):
            print(line, flush=True)
            print("".join(f"    {told}\n" for told in bad), end="", flush=True)
            refusals, total = refusals + ended, total + len(bad)
    if not refusals:
        print("no test met a refusal: nothing was tried")
    return 1 if total or not refusals else 0


if __name__ == "__main__":
    sys.exit(main(sys.argv[1:]))
