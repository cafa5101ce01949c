#!/usr/bin/env python3
"""Checks the page that examples/contact_sheet.py makes of a stream.

    python3 checks/contact_sheet.py [FOLDER]

compiles a script of 100 cues, which has 200 display sets, makes the page in FOLDER or in one that is removed again, and reads it: there is
a card for each set that the script asks for, in order, with its time; each second one has a picture that is a PNG file of the display's
size, and the others are clear. Then a sub-block of one object in the stream gets a type that there is none of: that set's card has to say so. Where a chromium is on the path, it loads the page without a window, and has to show as many pictures.
It uses Python's standard library alone.
"""

import html.parser
import pathlib
import shutil
import struct
import subprocess
import sys
import tempfile

TOP = pathlib.Path(__file__).resolve().parent.parent
CUES, START, LONG, APART = 100, 450_000, 180_000, 270_000


class Page(html.parser.HTMLParser):
    """The cards of a page: the times that they name, and their pictures."""

    def __init__(self):
        super().__init__()
        self.cards, self.is_open = [], []

    def handle_starttag(self, tag, attributes):
        if tag == "li":
            self.cards.append({"text": "", "pictures": []})
        elif tag == "img":
            self.cards[-1]["pictures"].append(dict(attributes)["src"])
        if tag not in ("img", "meta"):
            self.is_open.append(tag)

    def handle_endtag(self, tag):
        assert self.is_open.pop() == tag, f"{tag} is closed out of turn"

    def handle_data(self, data):
        if self.cards:
            self.cards[-1]["text"] += data


def script():
    head = ["origin,0", "display,720,576", "refresh,60", f"epoch,{START}", "region,0,60,460,600,48,4,0"]
    for cue in range(CUES):
        start = START + cue * APART
        head.append(f"cue,{start},{start + LONG},0,8,4,7,8,Cue {cue + 1} <&>.")
    return "\n".join(head) + "\n"


def sides_of(picture):
    """The width and the height that the head of a PNG file has."""
    data = picture.read_bytes()
    assert data[:8] == b"\x89PNG\r\n\x1a\n", f"{picture} is no PNG file"
    return struct.unpack(">II", data[16:24])


def check_page(folder):
    page = Page()
    page.feed((folder / "index.html").read_text())
    assert not page.is_open, f"open: {page.is_open}"
    ticks = [tick for cue in range(CUES) for tick in (START + cue * APART, START + cue * APART + LONG)]
    assert len(page.cards) == len(ticks), f"{len(page.cards)} cards"
    for number, (card, tick) in enumerate(zip(page.cards, ticks)):
        assert f"(tick {tick})" in card["text"], f"card {number}: {card['text']}"
        assert len(card["pictures"]) == (number + 1) % 2, f"card {number}: {card['pictures']}"
        for picture in card["pictures"]:
            assert sides_of(folder / picture) == (720, 576), picture
    shown = {picture for card in page.cards for picture in card["pictures"]}
    assert len(shown) == CUES, f"{len(shown)} different pictures"
    return len(page.cards), len(shown)


def damaged(packets):
    """The packets, where the first sub-block of the first object that has its head in one packet has a type that is none (EN 300 743, 7.2.5.1)."""
    for start in range(0, len(packets), 188):
        packet = packets[start : start + 188]
        head = packet.find(b"\x0f\x13\x00\x01")
        if packet[1:3] != b"\x1f\xff" and head > 0 and head + 13 < 188:
            return packets[: start + head + 13] + b"\x33" + packets[start + head + 14 :]
    raise AssertionError("no object's head lies in one packet")


def check_damaged(folder):
    page = Page()
    page.feed((folder / "index.html").read_text())
    told = [card["text"] for card in page.cards if "Segment UnknownType 0 13" in card["text"]]
    assert len(told) == 1 and "broken" in told[0], f"cards with the fault: {told}"


def check_in_browser(browser, folder):
    """The browser has every picture: a page that only counts them says how many have the display's width."""
    count = "<script>onload = () => document.title = [...document.images].filter(i => i.naturalWidth === 720).length</script>"
    text = (folder / "index.html").read_text().replace(' loading="lazy"', "").replace("</body>", count + "</body>")
    (folder / "counted.html").write_text(text)
    words = ["--headless", "--no-sandbox", "--disable-gpu", "--virtual-time-budget=20000", "--dump-dom"]
    ended = subprocess.run([browser, *words, (folder / "counted.html").as_uri()], capture_output=True, text=True, check=True)
    title = ended.stdout.split("<title>")[1].split("</title>")[0]
    assert title == str(CUES), f"{browser} shows {title} pictures"


def main(folder):
    folder.mkdir(parents=True, exist_ok=True)
    (folder / "script.csv").write_text(script())
    font, stream = TOP / "examples" / "television.bdf", folder / "stream.ts"
    words = ["compile", "sd", "256", "1", folder / "script.csv", font, stream]
    subprocess.run([TOP / "dvbsub", *words], check=True, stdout=subprocess.DEVNULL)
    sheet = [sys.executable, TOP / "examples" / "contact_sheet.py", stream, "sd", "256", "1", folder / "sheet"]
    subprocess.run(sheet, check=True, stdout=subprocess.DEVNULL)
    cards, pictures = check_page(folder / "sheet")
    other = folder / "damaged.ts"
    other.write_bytes(damaged(stream.read_bytes()))
    sheet = [sys.executable, TOP / "examples" / "contact_sheet.py", other, "sd", "256", "1", folder / "damaged"]
    subprocess.run(sheet, check=True, stdout=subprocess.DEVNULL)
    check_damaged(folder / "damaged")
    browser = shutil.which("chromium") or shutil.which("chromium-browser")
    if browser:
        check_in_browser(browser, folder / "sheet")
    print(f"{cards} cards with {pictures} pictures; " + ("a browser shows them" if browser else "no browser is here"))


if __name__ == "__main__":
    if len(sys.argv) > 1:
        main(pathlib.Path(sys.argv[1]))
    else:
        with tempfile.TemporaryDirectory() as made:
            main(pathlib.Path(made))
