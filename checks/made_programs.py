"""The programs of this repository themselves, for checks that measure, watch or kill them, where ./dvbsub and ./dvbsub_tools are scripts."""

import functools
import pathlib
import subprocess
import sys

TOP = pathlib.Path(__file__).resolve().parent.parent
# The last line and the status of a program that is called without words.
LINE, STATUS = b"usage", 2


@functools.cache
def path_of(name):
    """The path of a program, which is made first where it is missing or older than its sources.

    The script of its name makes it and calls it: without words it says `usage`, with status 2. Where that does not come of it the
    program was not made, and the check ends with what was said, since what stands there is none or of other sources.
    """
    done = subprocess.run([TOP / name], stdin=subprocess.DEVNULL, stdout=subprocess.PIPE, stderr=subprocess.PIPE, check=False)
    if done.returncode != STATUS or done.stdout.splitlines()[-1:] != [LINE]:
        said = (done.stdout + done.stderr).decode(errors="replace")
        sys.exit(f"{said}{name}: not made, its call without words ends with {done.returncode}")
    return str(TOP / "crates" / name / "out" / name)
