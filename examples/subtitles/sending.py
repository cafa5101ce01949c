"""What the compiler reckons of each display set: its bytes, its packets, and the tick at which it is decoded.

The rules are those of docs/FORMATS.md: sections "Receiver profiles", "Instants, states and versions" and "Packets
and slots".
"""

from collections import deque
from dataclasses import dataclass, replace

SECOND = 90_000
CLOSE = 3_600               # Different ticks of a script are further apart.
EARLY = 450_000             # No packet leaves earlier before its set's time.
PAYLOAD = 184
LONGEST_UNIT = 65_524       # The segments of one PES packet.
UNIT_HEAD, DISPLAY, END = 17, 11, 6


@dataclass(frozen=True)
class Profile:
    """A receiver: bytes of its buffers, nodes, ticks from packet to packet, and the greatest display."""

    name: str
    coded: int
    pixels: int
    nodes: int
    step: int
    width: int
    height: int


PROFILES = {
    "sd": Profile("sd", 24_576, 81_920, 512, 705, 720, 576),
    "hd": Profile("hd", 61_440, 327_680, 2_048, 360, 1_920, 1_080),
    "large": Profile("large", 262_144, 4_194_304, 8_192, 90, 1_920, 1_080),
}


@dataclass(frozen=True)
class Region:
    """A region's place, its sides, and its depth in bits."""

    number: int
    x: int
    y: int
    width: int
    height: int
    depth: int

    def pixel_bytes(self):
        return (self.width * self.depth + 7) // 8 * self.height

    def painted(self):
        return (self.width * self.height + 63) // 64


@dataclass(frozen=True)
class Load:
    """What a display set has: the bytes of its segments one by one, and the ticks that its regions take to paint."""

    segments: tuple
    painted: int

    def units(self):
        """The bytes of each PES packet: segments in their order while they have room together."""
        units = []
        for size in self.segments:
            if units and units[-1] + size <= LONGEST_UNIT and size <= LONGEST_UNIT:
                units[-1] += size
            else:
                units.append(size)
        return [UNIT_HEAD + unit for unit in units]

    def size(self):
        return sum(self.units())


class Channel:
    """The packets of a stream in their slots, and the coded data buffer of a receiver that gets them."""

    def __init__(self, profile, origin):
        self.profile, self.origin = profile, origin
        self.slot, self.shown, self.level, self.held = 0, None, 0, deque()

    def copy(self):
        other = Channel(self.profile, self.origin)
        other.slot, other.shown, other.level, other.held = self.slot, self.shown, self.level, deque(self.held)
        return other

    def slot_from(self, tick):
        """The first slot whose tick is not earlier."""
        return max(self.slot, -((self.origin - tick) // self.profile.step))

    def leave(self, tick):
        """Takes the sets out that are done by a tick."""
        while self.held and self.held[0][0] <= tick:
            self.level -= self.held.popleft()[1]

    def send(self, load, tick):
        """Sends a set, and says when it is done; None where the buffer is too small for it."""
        size, last = load.size(), 0
        if size > self.profile.coded:
            return None
        for unit in load.units():
            while unit > 0:
                payload = min(unit, PAYLOAD)
                self.slot = self.slot_from(tick - EARLY)
                last = self.origin + self.slot * self.profile.step
                self.leave(last)
                while self.level + payload > self.profile.coded:
                    self.slot = self.slot_from(self.held[0][0])
                    last = self.origin + self.slot * self.profile.step
                    self.leave(last)
                self.level += payload
                self.slot += 1
                unit -= payload
        done = (last if self.shown is None else max(last, self.shown)) + size + load.painted
        self.held.append((done, size))
        self.shown = tick
        return done


@dataclass(frozen=True)
class State:
    """What stands before the next instant: the channel, the last named tick and the last set that a receiver can begin
    with (None before the epoch), and what is shown in each region by its number."""

    channel: Channel
    named: int = None
    renewed: int = None
    shown: tuple = ()


@dataclass(frozen=True)
class Verdict:
    """Whether a set is in time; else from which tick on it would be (None: never)."""

    fits: bool
    state: State
    due: int = None
    has_refresh: bool = False
    is_refresh: bool = False


class Sender:
    """Display sets of one epoch: regions by number, and the entries of its CLUT."""

    def __init__(self, profile, regions, entries, refresh):
        self.profile, self.regions, self.entries, self.refresh = profile, regions, entries, refresh * SECOND

    def begin(self, origin):
        return State(Channel(self.profile, origin))

    def load(self, state, tick, shown, is_renewed, coloured):
        """What a set has. `shown` has a page or None for each region."""
        before = state.shown or (None,) * len(shown)
        live = [page for page in shown if page]
        sent = [number for number, page in enumerate(shown)
                if is_renewed or page is not before[number] and page]
        page = 8 + 6 * len(live)
        regions = [16 + 6 * len(shown[number].segments if shown[number] else ()) for number in sent]
        entries = self.entries if is_renewed else coloured
        clut = [8 + 6 * entries] if entries else []
        objects = [size for number in sent if shown[number] for size in shown[number].segments]
        head = [DISPLAY] if is_renewed else []
        return Load((*head, page, *regions, *clut, *objects, END), sum(self.regions[n].painted() for n in sent))

    def put(self, state, tick, shown, is_refresh=False, coloured=0):
        """The verdict on one set, and the state behind it."""
        is_renewed = is_refresh or state.renewed is None or tick - state.renewed >= self.refresh
        load = self.load(state, tick, shown, is_renewed, coloured)
        channel = state.channel.copy()
        done = channel.send(load, tick)
        after = State(channel, state.named if is_refresh else tick, tick if is_renewed else state.renewed, shown)
        return Verdict(done is not None and done <= tick, after, done, is_refresh, is_refresh)

    def after(self, state, tick, shown, coloured=0):
        """The verdict on the sets up to a named tick: refreshes before it, and its own."""
        has_refresh = False
        if state.named is not None:
            if tick - state.named <= CLOSE:
                return Verdict(False, state, state.named + CLOSE + 1)
            again = state.named + self.refresh
            while any(state.shown) and again + CLOSE < tick:
                verdict = self.put(state, again, state.shown, is_refresh=True)
                if not verdict.fits:
                    return verdict
                state, again, has_refresh = verdict.state, again + self.refresh, True
        # A page is sent again whole, and decoders of the field pass over sets of several PES packets.
        if self.load(state, tick, shown, True, 0).size() > min(self.profile.coded, LONGEST_UNIT):
            return Verdict(False, state)
        return replace(self.put(state, tick, shown, coloured=coloured), has_refresh=has_refresh)
