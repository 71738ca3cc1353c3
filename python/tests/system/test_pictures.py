"""Pictures of runs, which are read back and held against what the runs do."""

import io
from typing import Any

import budlarem
import pytest
from support.machines import CHAMPION_OF_FOUR

Image: Any = pytest.importorskip("PIL.Image", reason="Python has no PIL (Debian: python3-pil)")
GOES_RIGHT = "1RA1RA"
WHITE, BLACK, GREY, RED = (255, 255, 255), (20, 20, 20), (225, 225, 225), (220, 30, 30)


def rows_of(picture: budlarem.Picture) -> list[list[tuple[int, ...]]]:
    image = Image.open(io.BytesIO(picture.png)).convert("RGB")
    pixels = list(image.getdata())
    return [pixels[begin : begin + image.width] for begin in range(0, len(pixels), image.width)]


def test_champion_of_four_states() -> None:
    """Its whole run: 107 steps over 14 cells, from -10 to 3."""
    picture = budlarem.picture(CHAMPION_OF_FOUR, 107, scale=2)
    rows = rows_of(picture)
    assert len(rows) == 216 and all(len(row) == 28 for row in rows), "two pixels a place"
    assert (picture.every, picture.is_cut, picture.is_part) == (1, False, False)
    assert rows[0][20] == rows[1][21] == RED, "the head begins at 0"
    assert {*rows[0]} == {RED, GREY}, "nothing else is visited at first"
    assert rows[-1][::2].count(BLACK) == 13, "13 cells aren't 0 at the halt, the head on the one that is"


def test_sampled_steps() -> None:
    """A head that goes right: step n has n cells written and the head at n."""
    picture = budlarem.picture(GOES_RIGHT, 100, rows=30)
    assert picture.every == 4, "every fourth step of 101 fits in 30 rows"
    assert [row.index(RED) for row in rows_of(picture)] == list(range(0, 101, 4))
    picture = budlarem.picture(GOES_RIGHT, 100, every=10, rows=5)
    assert [row.index(RED) for row in rows_of(picture)] == [0, 10, 20, 30, 40]
    assert (picture.last, picture.is_cut) == (40, True)


def test_chosen_positions() -> None:
    picture = budlarem.picture(GOES_RIGHT, 100, columns=11)
    rows = rows_of(picture)
    assert (picture.left, picture.right) == (45, 55), "a wide picture is cut about its middle"
    assert rows[50] == [BLACK] * 5 + [RED] + [GREY] * 5
    rows = rows_of(budlarem.picture(GOES_RIGHT, 3, left=-1, right=1))
    assert [row[0] for row in rows] == [GREY] * 4, "positions that aren't visited are grey"
    assert rows[2][1:] == [BLACK, BLACK]


@pytest.mark.parametrize("upto, rows, across", [(4_000, 10, 2), (5_000, 11, 3)])
def test_scaled_down(upto: int, rows: int, across: int) -> None:
    """A picture of more than 2,000 positions is scaled down: a pixel has the mean colour of its cells."""
    picture = budlarem.picture(GOES_RIGHT, upto, rows=rows)
    assert (picture.across, picture.is_part, picture.left) == (across, False, 0)
    pixels = rows_of(picture)
    wide = -(-(picture.right + 1) // across)
    assert {len(row) for row in pixels} == {wide}
    # In step n cells 0 to n - 1 are 1, the head is on a 0, and nothing else is visited.
    step = 2 * picture.every
    cells = [BLACK] * step + [WHITE] + [GREY] * (across * wide - step - 1)
    means = (zip(*cells[begin : begin + across]) for begin in range(0, len(cells), across))
    assert pixels[2] == [tuple(round(sum(part) / across) for part in parts) for parts in means]
    twice = rows_of(budlarem.picture(GOES_RIGHT, upto, rows=rows, scale=2))
    assert (len(twice[0]), len(twice)) == (2 * wide, 2 * len(pixels))
    cut = budlarem.picture(GOES_RIGHT, upto, rows=rows, columns=100)
    assert (cut.across, cut.is_part, len(rows_of(cut)[0])) == (1, True, 100)


WRONG: list[tuple[dict[str, int], type[Exception], str]] = [
    *(({option: 0}, budlarem.LimitsError, option) for option in ("every", "rows", "columns", "scale")),
    ({"left": 5, "right": 4}, budlarem.PictureError, "no position"),
    ({"scale": 100_000}, budlarem.PictureError, "160,000,000,000 pixels.*lower scale to 2500"),
    ({"scale": 2_501}, budlarem.PictureError, "lower scale to 2500"),
    ({"columns": 100_000_001, "left": 0, "right": 10**8}, budlarem.PictureError, "lower rows or columns"),
]


@pytest.mark.parametrize("asked, error, text", WRONG)
def test_what_cannot_be_drawn(asked: Any, error: type[Exception], text: str) -> None:
    """What is too large is refused by a line that says what would do."""
    with pytest.raises(error, match=text):
        budlarem.picture(GOES_RIGHT, 0 if "columns" in asked else 3, **asked)
    with pytest.raises(budlarem.MachineError):
        budlarem.picture("1RA", 3)
