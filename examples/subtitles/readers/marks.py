"""Marks within the text of SubRip and WebVTT: tags, braces and entities."""

import html
import re
from dataclasses import dataclass, field

from ..colours import NAMES, TELETEXT, colour_of
from ..cues import WHITE, Span

ENTITY = re.compile(r"&(?:amp|lt|gt|quot|apos|nbsp|lrm|rlm|#\d{1,7}|#[xX][0-9a-fA-F]{1,6});")
TAG = re.compile(r"<(/?)([A-Za-z]+)((?:[./\s][^<>]*)?)>")
ANY_TAG = re.compile(r"<(/?)([^\s<>./]*)([^<>]*)>")
BRACES = re.compile(r"\{(\\[^{}]*|[a-zA-Z]:[^{}]*)\}")
KNOWN = {"i", "em", "b", "strong", "u", "s", "font", "c", "v", "lang", "ruby", "rt", "span", "br", "p", "cite"}
PLAIN = {"b", "strong", "u", "s"}
COLOUR = re.compile(r"(?<![-\w])color\s*[=:]\s*(\"[^\"]*\"|'[^']*'|rgba?\([^)]*\)|[^\s;>]+)", re.I)


@dataclass(frozen=True)
class Look:
    italic: bool = False
    colour: tuple = WHITE
    unseen: bool = False


@dataclass(frozen=True)
class Sheet:
    """What a style sheet says: the colour of each selector, and the selectors of italic letters.

    A selector is a tag's name, "." and a class, "v " and a speaker's name, "#" and a cue's name, or "" for all cues.
    """

    colours: dict = field(default_factory=dict)
    italics: frozenset = frozenset()

    def look(self, look, selectors):
        """A look within what the selectors name, the last that says something before the others."""
        colour = next((self.colours[one] for one in reversed(selectors) if one in self.colours), look.colour)
        return Look(look.italic or any(one in self.italics for one in selectors), colour, look.unseen)


@dataclass(frozen=True)
class Braces:
    """What the braces of a cue say: where it stands (a key of a numeric pad, or None)."""

    key: int = None


def without_entities(text):
    return ENTITY.sub(lambda found: html.unescape(found.group()), text)


def classes_of(rest):
    """The classes of a tag: its words from each point on, up to the first space."""
    return re.match(r"\S*", rest).group().split(".")[1:]


def selectors_of(name, rest):
    """The selectors of a style sheet that name a tag, the closest one last."""
    voice = rest.strip() and rest.split(None, 1)[-1].strip() if name == "v" else ""
    return [name, *("." + one for one in classes_of(rest))] + (["v " + voice] if voice else [])


def look_within(name, rest, look, sheet):
    """The look of the letters behind an opening tag."""
    colour = look.colour
    if name in ("font", "span"):
        found = COLOUR.search(rest)
        colour = found and colour_of(found.group(1)) or colour
    for one in classes_of(rest):
        colour = NAMES.get(one, colour)
    look = Look(look.italic or name in ("i", "em", "cite"), colour, look.unseen or name == "rt")
    return sheet.look(look, selectors_of(name, rest))


def tagged_spans(text, report, every_tag=False, sheet=Sheet(), first=Look()):
    """The spans of a text with tags: each of `<...>` where `every_tag`, else those that are known."""
    spans, looks, at = [], [("", first)], 0

    def put(piece):
        if piece and not looks[-1][1].unseen:
            spans.append(Span(without_entities(piece), looks[-1][1].italic, looks[-1][1].colour))
    for found in (ANY_TAG if every_tag else TAG).finditer(text):
        closes, name, rest = found.group(1), found.group(2).lower(), found.group(3)
        if name not in KNOWN and not every_tag:
            continue
        put(text[at:found.start()])
        at = found.end()
        if name in PLAIN and not closes:
            report.add("plain")
        elif name and name not in KNOWN and not name[0].isdigit() and not closes:
            report.add("markup", text=found.group())
        if name in ("br", "p"):
            put("\n" if name == "br" or closes else "")
        elif closes:
            depth = next((k for k in range(len(looks) - 1, 0, -1) if looks[k][0] == name), None)
            del looks[depth if depth is not None else len(looks):]
        elif name in KNOWN and not rest.endswith("/"):
            looks.append((name, look_within(name, rest, looks[-1][1], sheet)))
    put(text[at:])
    return spans


def braced(text, report):
    """A text whose braces of other programs are tags, and what they say of its place."""
    key = None

    def replaced(found):
        nonlocal key
        out = ""
        for word in found.group(1).split("\\"):
            if re.fullmatch("an[1-9]", word):
                key = int(word[2])
            elif re.fullmatch("a([1-9]|1[01])", word):
                key = {1: 1, 2: 2, 3: 3, 5: 7, 6: 8, 7: 9, 9: 4, 10: 5, 11: 6}.get(int(word[1:]), 2)
            elif word == "i1" or re.fullmatch("[yY]:i", word):
                out += "<i>"
            elif word in ("i0", "c", "1c", "r"):
                out += {"i0": "</i>", "r": "</i></font>"}.get(word, "</font>")
            elif re.fullmatch("1?c&H[0-9A-Fa-f]{6}&?", word):
                digits = word[word.index("H") + 1:][:6]
                out += f'<font color="#{digits[4:]}{digits[2:4]}{digits[:2]}">'
            elif word and not re.fullmatch("[bus]0", word):
                report.add("plain" if re.fullmatch("[bus]1", word) else "markup", text=found.group())
        return out
    return BRACES.sub(replaced, text.replace("\\N", "\n").replace("\\h", " ")), Braces(key)


def voice_colours(names):
    """Colours for speakers in the order in which they are heard."""
    rota = [TELETEXT[7], TELETEXT[3], TELETEXT[6], TELETEXT[2]]
    return {"v " + name: rota[number % len(rota)] for number, name in enumerate(names)}
