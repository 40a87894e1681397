"""Drawings for the tests of `drive` and of ./show: good ones with what is printed for some, each kind of bad form with where ./show
says that it is bad, random ones and damaged ones."""

from random import Random
from typing import List, Optional, Set, Tuple

EXAMPLE = b"3 2 0 2\n.#.\n...\n"
EXAMPLE_LINES = "blocked 1\nplan 4 4\nmove 3\nmove 4\nmove 5\nmove 2\narrived 4\n"
LONGEST = 4176  # bytes of the longest form
FOUR = "line 1, column 1: four numbers"


def drawing(width: int, height: int, start: int, goal: int, blocked: Set[int]) -> bytes:
    rows = ("".join("#" if row * width + column in blocked else "." for column in range(width)) for row in range(height))
    return f"{width} {height} {start} {goal}\n{''.join(row + chr(10) for row in rows)}".encode()


def serpentine(width: int, height: int) -> Set[int]:
    """Rows of walls with one gap each, left and right in turn."""
    walls = {row * width + column for row in range(1, height, 2) for column in range(width)}
    return walls - {row * width + (width - 1 if row % 4 == 1 else 0) for row in range(1, height, 2)}


def longest() -> bytes:
    return drawing(64, 64, 4095, 1000, set())


def good() -> List[Tuple[str, bytes, Optional[str]]]:
    """A name, the drawing, and what `drive` prints for it where that is written down."""
    everything = set(range(4096))
    return [
        ("document 01's example", EXAMPLE, EXAMPLE_LINES),
        ("no way", drawing(3, 1, 0, 2, {1}), "blocked 1\nno way 1\n"),
        ("goal blocked", drawing(2, 1, 0, 1, {1}), "blocked 1\nno way 1\n"),
        ("start is goal", drawing(2, 2, 3, 3, set()), "arrived 0\n"),
        ("start is goal beside a wall", drawing(2, 1, 0, 0, {1}), "blocked 1\narrived 0\n"),
        ("1x1", drawing(1, 1, 0, 0, set()), "arrived 0\n"),
        ("1x64", drawing(1, 64, 63, 0, set()), None),
        ("64x1", drawing(64, 1, 0, 63, set()), None),
        ("64x64 free", drawing(64, 64, 0, 4095, set()), None),
        ("64x64 of corridors", drawing(64, 64, 0, 4095, serpentine(64, 64)), None),
        ("64x64 of corridors, cut", drawing(64, 64, 0, 4095, serpentine(64, 64) | {4031 - 64 + 1}), None),
        ("64x64 with one free cell", drawing(64, 64, 2080, 0, everything - {2080}), None),
        ("goal walled in", drawing(64, 64, 0, 2080, {2079, 2081, 2016, 2144}), None),
        ("the longest form", longest(), None),
        ("the longest form, start is goal", drawing(64, 64, 4095, 4095, set()), "arrived 0\n"),
    ]


def bad() -> List[Tuple[str, bytes, str]]:
    """A name, the drawing, and what stands in ./show's line on it."""
    first, rows = EXAMPLE.split(b"\n", 1)
    lines = EXAMPLE.split(b"\n")
    return [
        ("empty", b"", "the file is empty"),
        ("a line feed alone", b"\n", FOUR),
        ("no rows", first + b"\n", "line 2, column 1: the drawing ends, and has 0 of its 2 rows"),
        ("no rows and no line feed", first, "line 1, column 8: the line does not end in a line feed"),
        ("no line feed at the end", EXAMPLE[:-1], "line 3, column 4: the line does not end in a line feed"),
        ("a line feed more", EXAMPLE + b"\n", "line 4, column 1: something follows the last of 2 rows"),
        ("a byte more", EXAMPLE + b".", "line 4, column 1: something follows the last of 2 rows"),
        ("many bytes more", EXAMPLE + b"." * 100000, "line 4, column 1: something follows the last of 2 rows"),
        ("a row more", EXAMPLE + b"...\n", "line 4, column 1: something follows the last of 2 rows"),
        ("a row less", b"\n".join(lines[:2]) + b"\n", "line 3, column 1: the drawing ends, and has 1 of its 2 rows"),
        ("an empty row", b"3 2 0 2\n\n...\n", "line 2, column 1: the row ends, and the width is 3"),
        ("a row too short", b"3 2 0 2\n.#\n...\n", "line 2, column 3: the row ends, and the width is 3"),
        ("a row too long", b"3 2 0 2\n.#..\n...\n", "line 2, column 4: the row goes on, and the width is 3"),
        ("the last row too long", b"3 2 0 2\n.#.\n....\n", "line 3, column 4: the row goes on, and the width is 3"),
        ("cells moved to another row", b"3 2 0 2\n.#\n....\n", "line 2, column 3: the row ends, and the width is 3"),
        ("another character", b"3 2 0 2\n.x.\n...\n", "line 2, column 2: 'x' is neither '.' nor '#'"),
        ("another character at the end", b"3 2 0 2\n.#.\n..x\n", "line 3, column 3: 'x' is neither '.' nor '#'"),
        ("a zero byte", b"3 2 0 2\n.\0.\n...\n", "line 2, column 2: '\\x00' is neither '.' nor '#'"),
        ("a byte above 127", b"3 2 0 2\n.#.\n..\xe9\n", "line 3, column 3: '\\xe9' is neither '.' nor '#'"),
        ("carriage returns", EXAMPLE.replace(b"\n", b"\r\n"), "line 1, column 7: '2\\r' is no decimal number"),
        ("a carriage return behind the numbers", b"3 2 0 2\r\n" + rows, "line 1, column 7: '2\\r' is no decimal number"),
        ("carriage returns behind the rows", b"3 2 0 2\n" + rows.replace(b"\n", b"\r\n"), "line 2, column 4: the row goes on, and the width is 3"),
        ("a leading zero", b"03 2 0 2\n" + rows, "line 1, column 1: '03' is no decimal number"),
        ("a zero as 00", b"3 2 00 2\n" + rows, "line 1, column 5: '00' is no decimal number"),
        ("a plus", b"+3 2 0 2\n" + rows, "line 1, column 1: '+3' is no decimal number"),
        ("a plus before the height", b"3 +2 0 2\n" + rows, "line 1, column 3: '+2' is no decimal number"),
        ("a minus", b"3 2 -0 2\n" + rows, "line 1, column 5: '-0' is no decimal number"),
        ("two spaces", b"3  2 0 2\n" + rows, FOUR),
        ("a space in front", b" 3 2 0 2\n" + rows, FOUR),
        ("a space behind", b"3 2 0 2 \n" + rows, FOUR),
        ("a tab", b"3\t2 0 2\n" + rows, FOUR),
        ("a comma", b"3,2 0 2\n" + rows, FOUR),
        ("three numbers", b"3 2 0\n" + rows, FOUR),
        ("five numbers", b"3 2 0 2 1\n" + rows, FOUR),
        ("no numbers", b"   \n" + rows, "line 1, column 1: '' is no decimal number"),
        ("a letter", b"3 2 a 2\n" + rows, "line 1, column 5: 'a' is no decimal number"),
        ("width 0", b"0 2 0 0\n\n\n", "line 1, column 1: the width is 0"),
        ("width 0 with rows", b"0 2 0 2\n" + rows, "line 1, column 1: the width is 0"),
        ("height 0", b"3 0 0 0\n", "line 1, column 3: the height is 0"),
        ("width 65", drawing(65, 1, 0, 0, set()), "line 1, column 1: the width is 65"),
        ("height 65", drawing(1, 65, 0, 0, set()), "line 1, column 3: the height is 65"),
        ("height 65 with two rows", b"3 65 0 2\n" + rows, "line 1, column 3: the height is 65"),
        ("a start one past the plot", b"3 2 6 2\n" + rows, "line 1, column 5: the start is cell 6, and the last cell is 5"),
        ("a goal one past the plot", b"3 2 0 6\n" + rows, "line 1, column 7: the goal is cell 6, and the last cell is 5"),
        ("a start on blocked ground", b"3 2 1 2\n" + rows, "line 2, column 2: the start, cell 1, is on '#'"),
        ("a number of 2^64", b"18446744073709551619 2 0 2\n" + rows, "line 1, column 1: the number 184467440737 is too large"),
        ("a number of 2^32", b"4294967299 2 0 2\n" + rows, "line 1, column 1: the number 4294967299 is too large"),
        ("a goal of eleven digits", b"3 2 0 10000000000\n" + rows, "line 1, column 7: the number 10000000000 is too large"),
        ("a number of a thousand digits", b"3" * 1000 + b" 2 0 2\n" + rows, "line 1, column 1: the number 333333333333 is too large"),
        ("a byte longer than the longest form", longest() + b"\n", "line 66, column 1: something follows the last of 64 rows"),
        ("far longer than the longest form", longest() + b"." * 100000, "line 66, column 1: something follows the last of 64 rows"),
        ("text", b"hello, cart\n", FOUR),
    ]


def random_one(random: Random) -> bytes:
    most = random.choice((4, 9, 20, 64))
    width, height = random.randint(1, most), random.randint(1, most)
    cells, share = width * height, random.choice((0.0, 0.05, 0.1, 0.2, 0.3, 0.4, 0.6))
    blocked = {cell for cell in range(cells) if random.random() < share}
    start, goal = random.randrange(cells), random.randrange(cells)
    return drawing(width, height, start, goal, blocked - {start})


def random_ones(random: Random, number: int) -> List[bytes]:
    return [random_one(random) for _ in range(number)]


def damaged(random: Random, number: int) -> List[bytes]:
    """Small drawings with a byte changed, lost, doubled, or put in; most are bad input, and some are another drawing."""
    found: List[bytes] = []
    while len(found) < number:
        whole = bytearray(random_one(random)[: random.choice([None, None, None, 20])])
        at, byte = random.randrange(len(whole)), random.choice(b"0123456789 .#\n\r\0x")
        kind = random.randrange(4)
        whole[at : at + 1] = [bytes([byte]), b"", bytes([whole[at]]) * 2, bytes([byte, whole[at]])][kind]
        found.append(bytes(whole))
    return found
