"""Texts of a picture, placed so that none covers another, a router or the edge: what finds no room is left out, and its caller lists it.

A box is left, top, right and bottom in pixels. The widths of characters are those of DejaVu Sans or Verdana, the wider of the two, so a
text is never wider than its box in the fonts that pictures name.
"""
from __future__ import annotations

import collections
import itertools
import math
import unicodedata
from collections.abc import Hashable, Iterable, Iterator, Sequence
from typing import NamedTuple

FONT = "'DejaVu Sans',Verdana,sans-serif"
TEXT, SMALL = 15, 13  # pixels: of names and the legend, and of counts
ASCENT, DESCENT = 0.93, 0.24  # of the font size, above and below the base line
GAP, GAP_ASIDE = 1, 4  # pixels that stay free above and below a text, and beside it
EDGE = 4  # pixels from a text to the edge of the picture
CELL = 64  # pixels of a cell in which boxes are looked up
STEP = 6  # pixels between two points of a line, and the size of their cells
NEAR, CLOSE = 8, 4  # pixels from a text to a router that it isn't of, and what is against a spot that is nearer
ROUNDS = 4
# Thousandths of the font size, from the space to the tilde.
WIDTHS = [int(it) for it in (
    "352 401 460 838 636 1077 780 275 454 454 636 838 364 454 364 454 636 636 636 636 636 636 636 636 636 636 454 454 838 838 838 546 "
    "1000 684 686 698 771 632 575 776 752 421 455 693 557 863 748 788 603 788 696 685 616 732 684 989 686 616 686 454 454 454 838 636 "
    "636 613 635 550 635 615 352 635 634 278 344 592 278 974 634 612 635 635 427 521 394 634 592 818 592 592 526 636 454 636 838").split()]

Box = tuple[float, float, float, float]


class Wanted(NamedTuple):
    """A text that wants a place: what it is of, and its spots: pairs of a box and what is against it, 0 for the best."""

    key: Hashable
    spots: list[tuple[Box, float]]


def width(text: str, size: int = TEXT) -> float:
    """The pixels of a line of text. What isn't ASCII is as wide as its base letter, or as the widest letters are."""
    return sum(map(advance, unicodedata.normalize("NFD", text))) * size / 1000


def advance(letter: str) -> int:
    """The thousandths of the font size that a character takes, none for an accent."""
    return WIDTHS[ord(letter) - 32] if " " <= letter <= "~" else 0 if unicodedata.combining(letter) else 1100


def box_of(x: float, y: float, text: str, size: int = TEXT) -> Box:
    """The box of a text whose middle is at a point."""
    wide, high = width(text, size) / 2, (ASCENT + DESCENT) * size / 2
    return x - wide, y - high, x + wide, y + high


def base_of(box: Box, size: int = TEXT) -> tuple[float, float]:
    """The middle of a box, and the base line of the text in it."""
    return (box[0] + box[2]) / 2, box[3] - DESCENT * size


def cut(text: str, room: float, size: int = TEXT) -> str:
    """The text, cut where it is wider than the room."""
    if width(text, size) <= room:
        return text
    while text and width(text + "…", size) > room:
        text = text[:-1]
    return text + "…"


def wrapped(text: str, room: float, size: int = TEXT) -> list[str]:
    """The text as lines that are no wider than the room."""
    lines = [""]
    for word in text.split():
        longer = f"{lines[-1]} {word}".strip()
        if width(longer, size) <= room:
            lines[-1] = longer
        else:
            lines.append(cut(word, room, size))
    return [line for line in lines if line]


def spots_round(x: float, y: float, radius: float, text: str, size: int = TEXT) -> list[tuple[Box, float]]:
    """Where a text may be round a circle, the better ones first."""
    wide, high = width(text, size) / 2, (ASCENT + DESCENT) * size / 2
    up, aside, slant = radius + high + GAP, radius + wide + GAP_ASIDE, 0.7 * radius + GAP_ASIDE
    corner = slant + wide, slant + high
    around: list[tuple[float, float, int]] = [(0, -up, 0), (aside, 0, 1), (-aside, 0, 1), (0, up, 1)]
    around += [(side * corner[0], down * corner[1], 2) for down in (-1, 1) for side in (1, -1)]
    around += [(side * wide * part, down * up, 3) for part in (0.4, 0.75) for down in (-1, 1) for side in (1, -1)]
    around += [(side * aside, down * high * 0.6, 3) for down in (-1, 1) for side in (1, -1)]
    around += [(side * wide * part, down * (up + 7), 5) for part in (0, 0.5) for down in (-1, 1) for side in ((1, -1) if part else (1,))]
    return [(box_of(x + to_x, y + to_y, text, size), against) for to_x, to_y, against in around]


def meet(one: Box, other: Box) -> bool:
    return one[0] < other[2] and other[0] < one[2] and one[1] < other[3] and other[1] < one[3]


def cells(box: Box, size: int) -> Iterator[tuple[int, int]]:
    """The cells of this size that a box touches."""
    return itertools.product(range(int(box[0] // size), int(box[2] // size) + 1), range(int(box[1] // size), int(box[3] // size) + 1))


class Boxes:
    """Boxes by the cells that they touch, each under a key."""

    def __init__(self) -> None:
        self.cells: dict[tuple[int, int], dict[Hashable, Box]] = collections.defaultdict(dict)

    def put(self, key: Hashable, box: Box) -> None:
        for cell in cells(box, CELL):
            self.cells[cell][key] = box

    def drop(self, key: Hashable, box: Box) -> None:
        for cell in cells(box, CELL):
            del self.cells[cell][key]

    def meeting(self, box: Box) -> dict[Hashable, Box]:
        """The boxes that the box meets, by their keys."""
        return {key: other for cell in cells(box, CELL) for key, other in self.cells.get(cell, {}).items() if meet(box, other)}


class Sheet:
    """A picture's free room: what is drawn there, and the texts placed so far."""

    def __init__(self, wide: float, high: float) -> None:
        self.wide, self.high = wide, high
        self.drawn, self.texts = Boxes(), Boxes()
        self.ink: dict[tuple[int, int], float] = collections.defaultdict(float)
        self.spots: dict[Hashable, list[Box]] = {}
        self.placed: dict[Hashable, Box] = {}

    def block(self, key: Hashable, box: Box) -> None:
        """No text may be there."""
        self.drawn.put(key, box)

    def line(self, points: Sequence[tuple[float, float]], weight: float = 1) -> None:
        """Texts had better not be on this line."""
        for (x, y), (to_x, to_y) in zip(points, points[1:]):
            steps = max(1, int(math.hypot(to_x - x, to_y - y) / STEP))
            for step in range(steps):
                at = step / steps
                self.ink[int((x + (to_x - x) * at) // STEP), int((y + (to_y - y) * at) // STEP)] += weight

    def under(self, box: Box) -> float:
        """How much of lines is under a box."""
        return sum(self.ink.get(cell, 0) for cell in cells(box, STEP))

    def place(self, wanted: Iterable[Wanted], ink: float = 1.0) -> None:
        """Gives texts their boxes, those with the fewest spots first; then each may move to a better one. Texts of calls before may move,
        and stay in the picture. The ink is what is against a spot for each point of a line under it."""
        for text in wanted:
            free = [(against + ink * self.under(box) + CLOSE * len(self.drawn.meeting(wider(box, NEAR, NEAR)).keys() - {text.key}), at,
                     wider(box)) for at, (box, against) in enumerate(text.spots) if self.is_free(box)]
            self.spots[text.key] = [box for _, _, box in sorted(free)]
        order = sorted((text.key for text in wanted), key=lambda key: len(self.spots[key]))
        for _ in range(ROUNDS):
            for key in order:
                if box := self.first_free(key) or self.make_room(key):
                    self.put(key, box)

    def place_over(self, text: Wanted) -> None:
        """Places a text that has no room where it covers no other text, or else few, and the fewest of what is drawn."""
        inside = [(len(self.texts.meeting(box)), len(self.drawn.meeting(box)), against, at, box)
                  for at, (box, against) in enumerate(text.spots) if self.is_inside(box)]
        if inside and text.key not in self.placed:
            self.put(text.key, wider(min(inside)[-1]))

    def put(self, key: Hashable, box: Box) -> None:
        """Places a text, or moves it."""
        if key in self.placed:
            self.texts.drop(key, self.placed[key])
        self.placed[key] = box
        self.texts.put(key, box)

    def first_free(self, key: Hashable, kept: Box | None = None) -> Box | None:
        """The best spot of a text that no other text meets, nor a box that is kept free."""
        return next((box for box in self.spots[key] if not (kept and meet(box, kept)) and self.texts.meeting(box).keys() <= {key}), None)

    def make_room(self, key: Hashable) -> Box | None:
        """Moves one text so that another has this spot, where that can be done."""
        for box in self.spots[key]:
            in_the_way = list(self.texts.meeting(box))
            if len(in_the_way) == 1 and (to := self.first_free(in_the_way[0], box)):
                self.put(in_the_way[0], to)
                return box
        return None

    def box(self, key: Hashable) -> Box | None:
        """The box of a text, None where it has no room."""
        return wider(self.placed[key], -GAP_ASIDE, -GAP) if key in self.placed else None

    def is_free(self, box: Box) -> bool:
        return self.is_inside(box) and not self.drawn.meeting(box)

    def is_inside(self, box: Box) -> bool:
        return EDGE <= box[0] and EDGE <= box[1] and box[2] <= self.wide - EDGE and box[3] <= self.high - EDGE


def wider(box: Box, across: float = GAP_ASIDE, down: float = GAP) -> Box:
    """The box with the gaps of texts round it, or with others."""
    return box[0] - across, box[1] - down, box[2] + across, box[3] + down
