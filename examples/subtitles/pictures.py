"""Pictures of codes: how a script has them, and how many bytes their pixel code strings take."""

import re
from dataclasses import dataclass
from functools import lru_cache

RUN = re.compile(rb"(.)\1*", re.S)
# For each depth: the bits of one pixel whose code is not 0, those of runs of code 0 by their lengths, those of runs of
# any code by the least and the greatest length, and those of the end of a line (EN 300 743, clause 7.2.5.2).
FORMS = {
    2: (2, [(1, 1, 4), (2, 2, 6)], [(3, 10, 8), (12, 27, 12), (29, 284, 16)], 6),
    4: (4, [(1, 1, 8), (2, 2, 8), (3, 9, 8)], [(4, 7, 12), (9, 24, 16), (25, 280, 20)], 8),
    8: (8, [(1, 127, 16)], [(3, 127, 24)], 16),
}
LONGEST_RUN = 1920


@lru_cache(maxsize=None)
def run_bits(depth, is_zero):
    """The fewest bits of a run, by its length."""
    one, of_zero, of_any, _ = FORMS[depth]
    forms = [(least, most, bits) for least, most, bits in (of_zero if is_zero else []) + of_any]
    if not is_zero:
        forms.append((1, 1, one))
    fewest = [0]
    for length in range(1, LONGEST_RUN + 1):
        best = min(fewest[length - part] + bits
                   for least, most, bits in forms if least <= length
                   for part in parts_of(length, least, most))
        fewest.append(best)
    return fewest


def parts_of(length, least, most):
    """The lengths of a form that may begin a shortest spelling: the greatest that fits, and those near its ends."""
    most = min(most, length)
    return {most, least, max(least, most - 1), max(least, most - 2)} if most >= least else ()


@lru_cache(maxsize=1 << 16)
def row_bytes(row, depth):
    """The bytes of a row in a pixel data block: its type, its string, and the end of its line."""
    zero, other = run_bits(depth, True), run_bits(depth, False)
    bits = FORMS[depth][3]
    for found in RUN.finditer(row):
        start, end = found.span()
        bits += zero[end - start] if row[start] == 0 else other[end - start]
    return 2 + (bits + 7) // 8


@lru_cache(maxsize=1 << 16)
def row_runs(row, digit):
    """A row as runs of a script."""
    return " ".join(f"{end - start}*{row[start]:{digit}}" for start, end in (m.span() for m in RUN.finditer(row)))


@dataclass(frozen=True)
class Picture:
    """Codes of a depth by rows."""

    width: int
    height: int
    depth: int
    rows: tuple

    def segment_bytes(self, table=0):
        """The bytes of the object's segment: 13, both fields, and a byte that makes it even. A field with rows begins
        with the table of a picture that is less deep than its region."""
        fields = [self.rows[0::2], self.rows[1::2]]
        sizes = [sum(row_bytes(row, self.depth) for row in field) + table if field else 1 for field in fields]
        if fields[0] == fields[1]:
            sizes[1] = 0
        total = 13 + sum(sizes)
        return total + total % 2

    def codes(self):
        """The pixels as a `picture` record has them: in runs, or digit by digit where that is shorter."""
        digit = "02X" if self.depth == 8 else "X"
        runs = " ".join(row_runs(row, digit) for row in self.rows)
        digits = self.width * self.height * len(f"{0:{digit}}")
        if len(runs) <= digits:
            return runs
        data = b"".join(self.rows).hex().upper()
        return data if self.depth == 8 else data[1::2]
