"""Space-time pictures of runs: a row is a step, a column is a position."""

from __future__ import annotations

import dataclasses
import itertools
import math
import os
import struct
import zlib
from typing import Iterable, Sequence

from ._files import name_errors
from .engine import Configuration, trace
from .limits import in_range, whole

# The colours of the symbols 0 to 9, then of an unvisited position, then of the head.
COLOURS = [
    (255, 255, 255), (20, 20, 20), (60, 110, 200), (240, 180, 40), (60, 150, 80),
    (150, 80, 170), (80, 190, 200), (150, 110, 70), (240, 140, 170), (170, 200, 90),
    (225, 225, 225), (220, 30, 30),
]  # fmt: skip
UNVISITED, HEAD = 10, 11
MOST_PIXELS = 100_000_000
# A picture of more positions is scaled down unless a width is given.
MOST_WIDE = 2_000
# The values of each colour's red, green and blue, by its number.
_CHANNELS = [bytes(colour[at] for colour in COLOURS).ljust(256, b"\0") for at in range(3)]
_DIGITS = bytes(max(code - ord("0"), 0) if code < 58 else 0 for code in range(256))


class PictureError(ValueError):
    """There is nothing to draw, or the picture would be too large. The text has advice."""


@dataclasses.dataclass(frozen=True)
class Picture:
    """A picture as a PNG file. It shows each `every`th step up to `last`, and the positions `left` to `right`.

    `is_cut`: steps follow that aren't shown. `is_part`: not all positions are shown. A pixel has the mean colour
    of `across` cells. A notebook shows the picture.
    """

    png: bytes = dataclasses.field(repr=False)
    every: int
    last: int
    left: int
    right: int
    is_cut: bool
    is_part: bool
    across: int = 1

    def save(self, path: str | os.PathLike[str]) -> None:
        """Writes the PNG file. Raises PictureError for the name of another kind of file, OSError."""
        name = os.fspath(path)
        ending = os.path.splitext(name)[1]
        if ending.lower() not in ("", ".png"):
            raise PictureError(f"{name}: a picture is a PNG file, so not a name that ends in {ending}")
        with name_errors(path), open(path, "wb") as file:
            file.write(self.png)

    def _repr_png_(self) -> bytes:
        return self.png


def _spacing(last: int, most: int) -> int:
    """The least power of two with at most `most` multiples up to `last`."""
    every = 1
    while last // every + 1 > most:
        every *= 2
    return every


def sample_rows(machine: str, upto: int, cells: int, most: int) -> tuple[list[Configuration], int]:
    """At most `most` steps of a run, evenly spaced by a power of two, and that. Only some are traced."""
    every = _spacing(upto, most)
    chosen = list(trace(machine, upto, cells, every=every))
    closer = _spacing(min(upto, chosen[-1].step + every - 1), most)
    if closer < every:
        chosen, every = list(trace(machine, upto, cells, every=closer)), closer
    while every > 1 and 2 * len(chosen) - 1 <= most:
        rows = list(trace(machine, upto, cells, every=every // 2))
        if len(rows) > most:
            break
        chosen, every = rows, every // 2
    return chosen, every


def visible_range(
    chosen: Sequence[Configuration], columns: int | None, first: int | None, last: int | None
) -> tuple[int, int, bool]:
    """The first and last position shown, and whether these aren't the visited ones."""
    low = min(row.low for row in chosen)
    high = max(row.low + len(row.cells) - 1 for row in chosen)
    left = low if first is None else first
    right = high if last is None else last
    if columns is not None and right - left >= columns:
        if first is None and last is None:
            left = (low + high - columns) // 2 + 1
        elif first is None:
            left = right - columns + 1
        right = left + columns - 1
    return left, right, (left, right) != (low, high)


def row_colours(row: Configuration, left: int, right: int, has_head: bool = True) -> bytes:
    """The number of the colour of each place of a row. Without `has_head` the head's place has its symbol."""
    shown = bytearray([UNVISITED]) * (right - left + 1)
    start, end = max(left, row.low), min(right + 1, row.low + len(row.cells))
    if start < end:
        cells = row.cells[start - row.low : end - row.low].encode()
        shown[start - left : end - left] = cells.translate(_DIGITS)
    if has_head and left <= row.position <= right:
        shown[row.position - left] = HEAD
    return bytes(shown)


def _sums(values: bytes, across: int) -> tuple[int, ...]:
    """The sum of each `across` values, by additions of whole rows: each value has four bytes of a long number."""
    count, total = len(values) // across, 0
    for start in range(across):
        row = bytearray(4 * count)
        row[::4] = values[start::across]
        total += int.from_bytes(row, "little")
    return struct.unpack("<%dI" % count, total.to_bytes(4 * count, "little"))


def mean_colours(row: bytes, across: int) -> bytes:
    """The mean colours of each `across` places; three bytes a pixel: red, green, blue."""
    pixels = bytearray(3 * (len(row) // across))
    for colour, values in enumerate(_CHANNELS if row else ()):
        sums = _sums(row.translate(values), across)
        pixels[colour::3] = bytes([(total + across // 2) // across for total in sums])
    return bytes(pixels)


def _mean(part: bytes, size: int) -> bytes:
    """The mean colour of `size` places, unvisited ones behind `part`; none of no part."""
    others = size - len(part)
    sums = (sum(part.translate(values)) + others * values[UNVISITED] for values in _CHANNELS if part)
    return bytes((total + size // 2) // size for total in sums)


def _scaled_row(row: Configuration, first: int, wide: int, across: int) -> bytes:
    """The mean colours of `wide` times `across` positions from `first` on. Only visited cells take time."""
    pixels = bytearray(bytes(COLOURS[UNVISITED]) * wide)
    start, end = max(row.low, first), min(row.low + len(row.cells), first + wide * across)
    if start < end:
        cells = row.cells[start - row.low : end - row.low].encode().translate(_DIGITS)
        # The first pixel and the last one may have unvisited places too.
        head = min((first - start) % across, len(cells))
        tail = len(cells) - (len(cells) - head) % across
        means = _mean(cells[:head], across) + mean_colours(cells[head:tail], across)
        means += _mean(cells[tail:], across)
        begin = 3 * ((start - first) // across)
        pixels[begin : begin + len(means)] = means
    return bytes(pixels)


def _enlarge(row: bytes, size: int, scale: int) -> bytes:
    """A row in which each pixel, of `size` bytes, stands `scale` times."""
    wide = bytearray(scale * len(row))
    for at in range(size * scale):
        wide[at :: size * scale] = row[at % size :: size]
    return bytes(wide)


def _png(wide: int, high: int, kind: int, palette: bytes, lines: bytes) -> bytes:
    """A PNG file of lines that each start with a byte 0; kind 3 has a palette, kind 2 a colour a pixel."""

    def chunk(kind: bytes, data: bytes) -> bytes:
        return struct.pack(">I", len(data)) + kind + data + struct.pack(">I", zlib.crc32(kind + data))

    header = struct.pack(">IIBBBBB", wide, high, 8, kind, 0, 0, 0)
    colours = chunk(b"PLTE", palette) if palette else b""
    data = chunk(b"IDAT", zlib.compress(lines, 6))
    return b"\x89PNG\r\n\x1a\n" + chunk(b"IHDR", header) + colours + data + chunk(b"IEND", b"")


def png_of_colours(wide: int, high: int, rows: Iterable[bytes]) -> bytes:
    """A PNG file of rows with three bytes a pixel: red, green, blue."""
    return _png(wide, high, 2, b"", b"".join(b"\0" + row for row in rows))


def png(rows: Sequence[bytes], scale: int) -> bytes:
    """A PNG file of rows with the number of a colour for each place, each `scale` pixels wide and high."""
    lines = []
    for row in rows:
        lines.extend([b"\0" + _enlarge(row, 1, scale)] * scale)
    palette = bytes(part for colour in COLOURS for part in colour)
    return _png(len(rows[0]) * scale, len(rows) * scale, 3, palette, b"".join(lines))


def draw_rows(rows: Sequence[Configuration], first: int, last: int, across: int, scale: int) -> bytes:
    """A PNG file of some positions of rows. A pixel has the mean colour of `across` positions."""
    if across == 1:
        return png([row_colours(row, first, last) for row in rows], scale)
    wide = -(-(last - first + 1) // across)
    means = (_scaled_row(row, first, wide, across) for row in rows)
    scaled = (wider for row in means for wider in [_enlarge(row, 3, scale)] * scale)
    return png_of_colours(wide * scale, len(rows) * scale, scaled)


def _draw(
    chosen: list[Configuration], every: int, is_cut: bool, scale: int, columns: int | None, *sides: int | None
) -> Picture:
    if not chosen:
        raise PictureError("no step to show")
    first, last, is_part = visible_range(chosen, columns, *sides)
    if last < first:
        raise PictureError("no position to show")
    across = 1 if columns is not None else -(-(last - first + 1) // MOST_WIDE)
    wide, high = -(-(last - first + 1) // across), len(chosen)
    pixels, largest = wide * high * scale**2, math.isqrt(MOST_PIXELS // (wide * high))
    if pixels > MOST_PIXELS:
        size = f"{high:,} rows and {wide:,} columns at scale {scale:,} are {pixels:,} pixels"
        advice = f"lower scale to {largest} or less, or rows" if largest else "lower rows"
        raise PictureError(f"{size}, more than {MOST_PIXELS:,}; {advice} or columns")
    data = draw_rows(chosen, first, last, across, scale)
    return Picture(data, every, chosen[-1].step, first, last, is_cut, is_part, across)


def picture(
    machine: str,
    upto: int,
    *,
    cells: int = 65_536,
    every: int | None = None,
    rows: int = 2_000,
    columns: int | None = None,
    left: int | None = None,
    right: int | None = None,
    scale: int = 1,
) -> Picture:
    """The space-time picture of a run of `upto` steps, or as many as there are or the cells allow.

    A row is a step, from the top down, a column a position. 0 is white, 1 black, the head red, an unvisited
    position grey. `every`: show each `every`th step; by default a power of two with at most `rows` rows. `left`,
    `right`: the positions shown; by default all, cut to `columns` about the middle. More than 2,000 positions
    are scaled down unless `columns` is given: a pixel has the mean colour of its cells, and the head isn't
    shown. `scale`: the width and height of a place in pixels.

    Raises what `trace` does, and PictureError.

    >>> picture("1RB1LB_1LA1RZ", 100)
    Picture(every=1, last=6, left=-2, right=1, is_cut=False, is_part=False, across=1)
    """
    for name, asked in (("rows", rows), ("columns", columns), ("scale", scale)):
        if asked is not None:
            in_range(name, asked, 1, 2**64 - 1)
    sides = [side if side is None else whole(name, side) for name, side in (("left", left), ("right", right))]
    if every is None:
        return _draw(*sample_rows(machine, upto, cells, rows), False, scale, columns, *sides)
    apart = in_range("every", every, 1, 2**64 - 1)
    chosen = list(itertools.islice(trace(machine, upto, cells, every=apart), rows + 1))
    return _draw(chosen[:rows], apart, len(chosen) > rows, scale, columns, *sides)
