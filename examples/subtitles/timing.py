"""Moves the steps of a programme so that each display set is decoded in time.

A set that is too late, or too close behind the one before, is mended by the first of these that is possible: no refresh
stands just before it; the page before stays until it; it begins later, by a second at the most; it is left out.
"""

from collections import deque
from dataclasses import dataclass, replace
from fractions import Fraction

from .pages import SHORTEST
from .sending import CLOSE, State

MOST_DELAY = Fraction(1)    # Seconds.
MOST_JOINED = Fraction(1)   # Seconds for which a page stays longer, up to the next one.


class RefreshTooShort(Exception):
    """A page that is sent again is not decoded in time: the refresh has to be longer."""


@dataclass
class Taken:
    """A step that is in time, what stands behind it, and the tick at which a colour is set again before it, or None."""

    step: object
    state: State
    mark: int = None


class Timing:
    """The steps of a script. `has_room` says whether it takes some more pages from a tick on."""

    def __init__(self, sender, clock, origin, report, has_room=lambda pages, tick: True):
        self.sender, self.clock, self.report, self.has_room = sender, clock, report, has_room
        self.taken, self.waiting, self.rest = [Taken(None, sender.begin(origin))], deque(), []

    def run(self, steps):
        """The steps that are sent, each with its mark. Those for which the script has no room are in `rest`."""
        self.waiting.extend(steps)
        while self.waiting:
            step = self.waiting.popleft()
            before = self.taken[-1].state
            if step.shown == before.shown or not before.shown and not any(step.shown):
                continue
            new = self.new_pages(step)
            if new and not self.rest and not self.has_room(new, self.clock.tick(step.frame)):
                if len(self.taken) == 1:
                    self.leave_out(step, new)
                    continue
                self.rest = [step, *self.waiting]
                self.waiting = deque([replace(step, shown=(None,) * len(step.shown))])
                continue
            # The first page may wait longer, as nothing can be sent before the clock's 0.
            if new and step.frame - step.asked > MOST_DELAY * self.clock.rate and len(self.taken) > 1:
                self.leave_out(step, new)
                continue
            verdict, mark = self.attempt(before, step)
            if verdict.fits:
                self.taken.append(Taken(step, verdict.state, mark))
                if mark:
                    self.told("refreshes", step)
            elif not self.is_joined(step):
                self.put_off(step, verdict)
        return self.taken[1:]

    def attempt(self, before, step):
        """The verdict on a step, and the tick of a mark that takes away the refresh just before it."""
        tick = self.clock.tick(step.frame)
        verdict = self.sender.after(before, tick, step.shown)
        if verdict.fits or not verdict.has_refresh:
            return verdict, None
        mark = self.clock.tick(self.clock.frame_from(tick - self.sender.refresh))
        if mark <= before.named + CLOSE or mark + CLOSE >= tick:
            return verdict, None
        marked = self.sender.after(before, mark, before.shown, coloured=1)
        if not marked.fits:
            return verdict, None
        other = self.sender.after(marked.state, tick, step.shown)
        if other.fits or other.due and verdict.due and other.due < verdict.due:
            return other, mark
        return verdict, None

    def told(self, kind, step, text=""):
        self.report.add(kind, self.clock.seconds(step.asked), text)

    def new_pages(self, step):
        """The pages that a step shows and the one before does not."""
        before = self.taken[-1].state.shown
        return [page for page in step.shown if page and page not in before]

    def is_joined(self, step):
        """Takes back the step before, where it only ended a page shortly before this one."""
        if len(self.taken) < 3:
            return False
        last, first = self.taken[-1], self.taken[-2]
        is_end = all(page is None or page in first.state.shown for page in last.step.shown)
        if not is_end or step.frame - last.step.frame > MOST_JOINED * self.clock.rate:
            return False
        self.taken.pop()
        self.waiting.appendleft(step)
        self.told("joined" if self.new_pages(step) else "ends_moved", last.step)
        return True

    def put_off(self, step, verdict):
        """Lets a step begin when it can be decoded, or leaves its pages out."""
        if verdict.is_refresh and verdict.due is not None:
            raise RefreshTooShort
        new = self.new_pages(step)
        if verdict.due is None:
            return self.leave_out(step, new)
        frame = max(step.frame + 1, self.clock.frame_from(verdict.due))
        if not new and self.waiting and self.waiting[0].frame <= frame:
            return self.told("joined", step)
        if step.frame == step.asked:
            self.told("moved" if new else "ends_moved", step, "\n".join(page.text for page in new))
        step.frame = frame
        self.push(step, new)

    def push(self, step, new):
        """Puts a step back, and those behind it that would stand before it later."""
        later = self.waiting
        if later and later[0].frame <= step.frame and all(page in later[0].shown for page in new):
            later[0].frame = step.frame
            return
        last, shown, kept = step.frame, step.shown, deque()
        while later and later[0].frame <= last:
            other = later.popleft()
            is_end = all(page is None or page in shown for page in other.shown)
            if is_end and later and later[0].frame <= last + self.clock.frames(SHORTEST):
                self.told("joined", other)
                continue
            other.frame = last = self.clock.frame_from(self.clock.tick(last) + CLOSE + 1) if not is_end else (
                last + self.clock.frames(SHORTEST))
            shown = other.shown
            kept.append(other)
        later.extendleft(reversed(kept))
        later.appendleft(step)

    def leave_out(self, step, pages):
        for page in pages:
            self.told("left_out", step, page.text)
            for other in (step, *self.waiting):
                other.shown = tuple(None if shown is page else shown for shown in other.shown)
        self.waiting.appendleft(step)
