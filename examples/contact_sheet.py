"""Makes one page for a browser of all display sets of a stream: time, picture, what becomes of the set and why, and when it ends.

    python3 examples/contact_sheet.py STREAM PROFILE PID PAGE FOLDER

writes FOLDER/index.html, the pictures in FOLDER/pictures, and the texts of `check`, `pictures` and `faults` beside them. PROFILE is `sd`, `hd` or `large`.
A picture has the colours and the transparency of the stream. It uses Python's standard library, `dvbsub` and `dvbsub_tools`.
"""

import hashlib
import html
import pathlib
import subprocess
import sys
from collections import Counter

from picture_to_png import png

TOP = pathlib.Path(__file__).resolve().parent.parent
PROGRAM, TOOLS = TOP / "dvbsub", TOP / "dvbsub_tools"

HEAD = """<!DOCTYPE html>
<html lang="en">
<head>
<meta charset="utf-8">
<title>{title}</title>
<style>
body {{ font: 14px/1.4 sans-serif; margin: 1.5em; color: #222; background: #f4f4f4; }}
ol {{ display: grid; grid-template-columns: repeat(auto-fill, minmax(300px, 1fr)); gap: 1em; padding: 0; list-style: none; }}
li {{ background: #fff; border: 1px solid #ccc; }}
figure {{ margin: 0; height: 170px; display: flex; align-items: center; justify-content: center; color: #888; background: #204060; }}
img {{ max-width: 100%; max-height: 170px; }}
.clear figure {{ background: #e8e8e8; }}
dl {{ display: grid; grid-template-columns: auto 1fr; gap: 0 1em; margin: .6em; }}
dt {{ color: #777; }}
dd {{ margin: 0; }}
.waiting, .notlater {{ border-color: #c80; }}
.broken {{ border-color: #c00; }}
</style>
</head>
<body>
<h1>{title}</h1>
<p>{about}</p>
<ol>
"""

TAIL = """</ol>
</body>
</html>
"""


def run(program, out, *words):
    """Carries out a command that writes `out`, and gives the line of its status. A stream that is refused midway still has an output."""
    ended = subprocess.run([program, *map(str, words)], stdout=subprocess.PIPE, text=True, check=False)
    line = ended.stdout.strip()
    if ended.returncode not in (0, 3, 4, 5, 8) or not out.exists():
        sys.exit(f"{program.name} {words[0]}: {line}")
    return line


def time_code(tick):
    """Hours, minutes, seconds and thousandths of a tick of 90 kHz."""
    seconds, rest = divmod(tick, 90_000)
    return f"{seconds // 3600:02}:{seconds // 60 % 60:02}:{seconds % 60:02}.{rest // 90:03}"


def sets_in(text):
    """The sets that `check` tells of: the time of each, what becomes of it, and its size."""
    lines = [line.split() for line in text.read_text().splitlines()]
    return [(int(words[1]), words[2], int(words[3])) for words in lines if words[0] == "set"]


def faults_in(text):
    """What `faults` tells of a set, by its number: why it is broken, and what is found in it besides."""
    found, number = {}, None
    for line in text.read_text().splitlines():
        words = line.split()
        if words[0] == "set":
            number = int(words[1])
            found[number] = [" ".join(words[4:])] if words[4:] else []
        elif words[0] != "sets":
            found[number].append(line)
    return found


def pictures_in(text):
    """Each tick of the text of `pictures` with the sides and the rows of its picture, or with nothing where it is clear."""
    with text.open() as lines:
        for line in lines:
            words = line.split()
            if words[2] == "clear":
                yield int(words[1]), None
            else:
                width, height = int(words[2]), int(words[3])
                yield int(words[1]), (width, height, [next(lines) for _ in range(height)])


def name_of(picture, folder):
    """The file of a picture, which is written where it is not there yet: pictures that are the same have one file."""
    width, height, rows = picture
    name = hashlib.sha256(f"{width} {height}\n{''.join(rows)}".encode()).hexdigest()[:16] + ".png"
    file = folder / name
    if not file.exists():
        file.write_bytes(png(width, height, rows, None))
    return name


def shown_in(text, folder):
    """The file of the picture at each tick that is told, in order, or nothing where it is clear."""
    return {tick: picture and name_of(picture, folder / "pictures") for tick, picture in pictures_in(text)}


def end_of(following, times):
    """When a picture ends: with the next set, or by its time-out before that, whichever tick follows its own."""
    if following is None:
        return "not in this stream"
    return f"{'' if following in times else 'timed out at '}{time_code(following)}"


def card(number, one, picture, end, faults):
    tick, state, size = one
    seen = f'<img src="pictures/{picture}" alt="set {number}" loading="lazy">' if picture else "clear"
    rows = [
        ("set", f"{number}"),
        ("time", f"{time_code(tick)} (tick {tick})"),
        ("state", state),
        *(("fault", fault) for fault in faults),
        ("end", end),
        ("size", f"{size} bytes"),
    ]
    cells = "".join(f"<dt>{name}</dt><dd>{html.escape(value)}</dd>" for name, value in rows)
    kind = state if picture else f"{state} clear"
    return f'<li class="{kind}"><figure>{seen}</figure><dl>{cells}</dl></li>\n'


def main(stream, profile, pid, page, folder):
    folder = pathlib.Path(folder)
    (folder / "pictures").mkdir(parents=True, exist_ok=True)
    text = folder / "check.txt"
    status = run(PROGRAM, text, "check", profile, 0, pid, page, stream, text)
    sets = sets_in(text)
    times = {one[0] for one in sets if one[1] != "notlater"}
    text = folder / "pictures.txt"
    run(TOOLS, text, "pictures", profile, pid, page, 4, stream, text)
    shown = shown_in(text, folder)
    text = folder / "faults.txt"
    run(TOOLS, text, "faults", profile, pid, page, stream, text)
    faults = faults_in(text)
    following = dict(zip(shown, [*list(shown)[1:], None]))
    states = Counter(one[1] for one in sets)
    counts = ", ".join(f"{count} {state}" for state, count in states.items()) or "none"
    about = f"Profile {profile}, PID {pid}, page {page}: {len(sets)} display sets ({counts}); the stream: {status}."
    with (folder / "index.html").open("w") as out:
        out.write(HEAD.format(title=html.escape(pathlib.Path(stream).name), about=html.escape(about)))
        for number, one in enumerate(sets, 1):
            if one[1] == "notlater":
                out.write(card(number, one, None, "it is dropped", faults.get(number, [])))
                continue
            out.write(card(number, one, shown.get(one[0]), end_of(following.get(one[0]), times), faults.get(number, [])))
        out.write(TAIL)
    print(f"{len(sets)} display sets in {folder / 'index.html'}")


if __name__ == "__main__":
    if len(sys.argv) != 6:
        sys.exit(__doc__)
    main(*sys.argv[1:])
