"""A drawing of a plot, read in document 01's form and no other, and in plain words what is wrong with one that is not."""

from dataclasses import dataclass
from pathlib import Path
from typing import Iterator, List, Tuple, Union

MAX_SIDE = 64
# a first line of four numbers, and rows with their line feeds
LONGEST = len("64 64 4095 4095\n") + MAX_SIDE * (MAX_SIDE + 1)


class BadDrawing(Exception):
    """What is wrong, in one line."""


@dataclass(frozen=True)
class Plot:
    """The true ground, with the start and the goal of a drive over it."""

    width: int
    height: int
    start: int
    goal: int
    blocked: Tuple[bool, ...]

    @property
    def cells(self) -> int:
        return self.width * self.height

    def place(self, cell: int) -> Tuple[int, int]:
        """Row and column, from 0."""
        return divmod(cell, self.width)

    def steps(self, cell: int) -> Iterator[Tuple[int, int]]:
        """The directions that do not leave the plot, in their order, each with the cell it leads to."""
        row, column = self.place(cell)
        if column + 1 < self.width:
            yield 1, cell + 1
        if row + 1 < self.height:
            yield 2, cell + self.width
        if column > 0:
            yield 3, cell - 1
        if row > 0:
            yield 4, cell - self.width


def load(path: Union[str, Path]) -> bytes:
    """The bytes of a drawing's file; no more are read than tell that it is too long."""
    try:
        with open(path, "rb") as file:
            drawing = file.read(LONGEST + 1)
    except OSError as error:
        raise BadDrawing(error.strerror) from None
    if not drawing:
        raise BadDrawing("the file is empty; its first line must be 'W H start goal'")
    return drawing


def read(drawing: bytes) -> Plot:
    """The plot of a drawing's bytes, or BadDrawing with the line and column where its form is broken."""
    first, feed, rest = drawing.decode("latin-1").partition("\n")
    width, height, start, goal = first_line(first)
    if not feed:
        raise BadDrawing(f"line 1, column {len(first) + 1}: the line does not end in a line feed")
    blocked = rows(rest, width, height)
    if blocked[start]:
        row, column = divmod(start, width)
        raise BadDrawing(f"line {row + 2}, column {column + 1}: the start, cell {start}, is on '#'")
    return Plot(width, height, start, goal, blocked)


def first_line(line: str) -> List[int]:
    words = line.split(" ")
    if len(words) != 4:
        raise BadDrawing("line 1, column 1: four numbers one space apart are wanted, 'W H start goal'")
    column, columns, numbers = 1, [], []
    for word in words:
        numbers.append(number(word, column))
        columns.append(column)
        column += len(word) + 1
    for name, side, at in zip(("width", "height"), numbers, columns):
        if not 1 <= side <= MAX_SIDE:
            raise BadDrawing(f"line 1, column {at}: the {name} is {side}, and a side is 1 to {MAX_SIDE}")
    last = numbers[0] * numbers[1] - 1
    for name, cell, at in zip(("start", "goal"), numbers[2:], columns[2:]):
        if cell > last:
            raise BadDrawing(f"line 1, column {at}: the {name} is cell {cell}, and the last cell is {last}")
    return numbers


def number(word: str, column: int) -> int:
    plain = word != "" and all(letter in "0123456789" for letter in word)
    if not plain or (word[0] == "0" and word != "0"):
        raise BadDrawing(f"line 1, column {column}: {ascii(word[:12])} is no decimal number without leading zeros")
    if len(word) > 4:
        raise BadDrawing(f"line 1, column {column}: the number {word[:12]} is too large; the last cell is 4095 at most")
    return int(word)


def rows(text: str, width: int, height: int) -> Tuple[bool, ...]:
    """Exactly `height` rows of `width` characters, each with its line feed, and nothing after."""
    blocked: List[bool] = []
    for line in range(2, height + 2):
        row, feed, text = text.partition("\n")
        if not row and not feed:
            raise BadDrawing(f"line {line}, column 1: the drawing ends, and has {line - 2} of its {height} rows")
        one_row(row, line, width)
        if not feed:
            raise BadDrawing(f"line {line}, column {width + 1}: the line does not end in a line feed")
        blocked.extend(letter == "#" for letter in row)
    if text:
        raise BadDrawing(f"line {height + 2}, column 1: something follows the last of {height} rows")
    return tuple(blocked)


def one_row(row: str, line: int, width: int) -> None:
    for column, letter in enumerate(row[:width], 1):
        if letter not in ".#":
            raise BadDrawing(f"line {line}, column {column}: {ascii(letter)} is neither '.' nor '#'")
    if len(row) < width:
        raise BadDrawing(f"line {line}, column {len(row) + 1}: the row ends, and the width is {width}")
    if len(row) > width:
        raise BadDrawing(f"line {line}, column {width + 1}: the row goes on, and the width is {width}")
