"""The text of a script in an editor: its changes, its columns as the client counts them, and its statements."""
from __future__ import annotations

import bisect
import re
from itertools import chain
from typing import Any, Iterator, Optional, Sequence
from urllib.parse import unquote, urlsplit

from .lines import Extent, statements_from
from .listing import Listed, Listing
from .reading import Part, Place, Statement, read

LINE_END = re.compile(r"\r\n|\n|\r")
STATEMENT = re.compile(b"SC*")    # over the kinds of lines
FAR = 1 << 30


def cut_lines(text: str) -> tuple[list[str], list[str]]:
    """The lines as the protocol counts them, and their ends; the last one has none."""
    lines, ends, at = [], [], 0
    for it in LINE_END.finditer(text):
        lines.append(text[at:it.start()])
        ends.append(it[0])
        at = it.end()
    return [*lines, text[at:]], [*ends, ""]


def path_of(uri: str) -> str:
    """The path of a file, or the URI if it's another one."""
    try:
        found = urlsplit(uri)
    except ValueError:
        return uri
    return unquote(found.path) if found.scheme == "file" else uri


def data_of(text: str) -> bytes:
    return text.encode("utf-8", "surrogatepass")


class Document:
    """An open script. A carriage return by itself ends a line of the protocol, but not of a script: one line of a
    script can be several of the protocol's, and `begins` has the first of them."""

    def __init__(self, uri: str, version: Any, text: str, units: str) -> None:
        self.uri, self.path, self.version, self.units = uri, path_of(uri), version, units
        self.text, self.ends = cut_lines(text)
        self.changed = 0.0                      # when the last key was pressed
        self.due: Optional[float] = 0.0         # when it's to be listed
        self.check_due: Optional[float] = None  # and then checked
        self.listing: Optional[Listing] = None
        self.valid = 0                          # the first line for which the listing is out of date
        self.world: tuple[int, Any] = (-1, None)    # what exists after that many answers, by vsmtools.tracking
        self.limit = 1024                       # of the history
        self.parsed: dict[tuple[bytes, ...], Statement] = {}
        self.unread = 0                         # the first line that has changed since the text was read,
        self.same = 0                           # and how many of the protocol's lines after all changes haven't
        self.raw: list[bytes] = []
        self.kinds = bytearray()                # S for a statement's first line, C for its others
        self.begins: Sequence[int] = ()
        self.read()

    @property
    def data(self) -> bytes:
        return data_of("".join(map("".join, zip(self.text, self.ends))))

    # Changes.

    def apply(self, given: dict[str, Any]) -> None:
        """A change of the client: of a range, or of the whole text."""
        where, first = given.get("range"), 0
        if where is None:
            self.text, self.ends = cut_lines(given["text"])
            self.same = 0
        else:
            (first, x), (last, y) = self.bounded(where["start"]), self.bounded(where["end"])
            if (last, y) < (first, x):
                raise ValueError("a range ends before it begins")
            head, tail = self.text[first][:x], self.text[last][y:] + self.ends[last]
            if first and self.ends[first - 1] == "\r":    # with what is inserted it may become one line end
                first -= 1
                head = self.text[first] + "\r" + head
            text, ends = cut_lines(head + given["text"] + tail)
            if self.ends[last]:
                del text[-1], ends[-1]
            self.same = 0 if "\r" in self.ends[first:last + 1] else min(self.same, len(self.text) - 1 - last)
            self.text[first:last + 1], self.ends[first:last + 1] = text, ends
        line = bisect.bisect_right(self.begins, first)
        self.valid, self.unread = min(self.valid, line), min(self.unread, line)

    def bounded(self, position: dict[str, Any]) -> tuple[int, int]:
        """A position as a line and an index of its text; what is past the end is the end."""
        line, units = int(position["line"]), int(position["character"])
        if line < 0 or units < 0:
            raise ValueError("a position is below 0")
        if line >= len(self.text):
            return len(self.text) - 1, len(self.text[-1])
        text = self.text[line]
        if text.isascii() or units == 0:
            return line, min(units, len(text))
        code, size = ("utf-8", 1) if self.units == "utf-8" else ("utf-16-le", 2)
        return line, len(text.encode(code, "surrogatepass")[:units * size].decode(code, "ignore"))

    # The script's lines.

    def read(self) -> None:
        """Takes the lines of the script that have changed, and the kinds up to a statement that begins as before."""
        if self.unread > len(self.raw):
            return
        above, before, below = max(0, self.unread - 1), len(self.raw), 0 if "\r" in self.ends else self.same
        if self.kinds[above:above + 1] == b"C":
            above = self.kinds.rfind(b"S", 0, above)
        if "\r" in self.ends:
            self.read_lines(above)
        else:
            self.raw[above:before - below] = map(data_of, self.text[above:len(self.text) - below])
            self.begins = range(len(self.text))
        again, at = len(self.raw) - below, above
        self.kinds[above:before - below] = bytes(again - above)
        for first, last in chain(statements_from(self.raw, above), [(len(self.raw) + 1, 0)]):
            self.kinds[at:first - 1] = bytes(first - 1 - at)
            if first > again and self.kinds[first - 1:first] != b"C":
                break
            self.kinds[first - 1:last], at = b"S" + b"C" * (last - first), last
        self.unread, self.same = len(self.raw) + 1, len(self.text)

    def read_lines(self, above: int) -> None:
        """Takes the lines after these."""
        first, before = self.begins[above] if above < len(self.begins) else 0, "\n"
        del self.raw[above:]
        self.begins = begins = list(self.begins[:above])
        for k in range(first, len(self.text)):
            if before == "\r":
                self.raw[-1] += b"\r" + data_of(self.text[k])
            else:
                self.raw.append(data_of(self.text[k]))
                begins.append(k)
            before = self.ends[k]

    @property
    def extents(self) -> Iterator[Extent]:
        """The statements in turn."""
        return (Extent(it.start() + 1, it.end()) for it in STATEMENT.finditer(self.kinds))

    def statement(self, extent: Extent) -> Statement:
        """A statement's parts; each text is read once."""
        lines = tuple(self.raw[extent.first - 1:extent.last])
        if lines not in self.parsed:
            if len(self.parsed) > 2 * len(self.raw) + 1000:
                self.parsed.clear()
            self.parsed[lines] = read(lines)
        return self.parsed[lines]

    def at(self, line: int) -> Optional[Extent]:
        """The statement that has a line."""
        found = STATEMENT.match(self.kinds, max(0, self.kinds.rfind(b"S", 0, line)))
        return Extent(found.start() + 1, found.end()) if found and found.end() >= line else None

    def take(self, listing: Listing) -> None:
        """Takes the listing of the text as it is."""
        self.listing, self.valid, self.world = listing, len(self.raw) + 1, (-1, None)

    def answered(self) -> list[Listed]:
        """The answers to the statements before the first change since the last listing."""
        found = self.listing.answers if self.listing else []
        return found[:bisect.bisect_left(found, self.valid, key=lambda it: it.extent.last)]

    # Places: a line of the script from 1, and a column from 0 in bytes.

    def place_of(self, position: dict[str, Any]) -> Place:
        line, index = self.bounded(position)
        k = bisect.bisect_right(self.begins, line)
        before = self.text[self.begins[k - 1]:line]
        return k, sum(len(data_of(it)) + 1 for it in before) + len(data_of(self.text[line][:index]))

    def position_of(self, place: Place) -> dict[str, int]:
        number, column = min(place[0], len(self.raw)), place[1]
        line = self.begins[number - 1]
        end = (self.begins[number] if number < len(self.begins) else len(self.text)) - 1
        while line < end and column > len(data_of(self.text[line])):
            column -= len(data_of(self.text[line])) + 1
            line += 1
        head = data_of(self.text[line])[:column].decode("utf-8", "ignore")
        size = len(head.encode("utf-16-le", "surrogatepass")) // 2 if self.units == "utf-16" else len(data_of(head))
        return {"line": line, "character": size}

    def range(self, begin: Place, end: Place) -> dict[str, Any]:
        return {"start": self.position_of(begin), "end": self.position_of(end)}

    def range_of(self, extent: Extent, part: Part) -> dict[str, Any]:
        """The range of a part of a statement."""
        statement, above = self.statement(extent), extent.first - 1
        (first, x), (last, y) = statement.place(part.begin), statement.end(part)
        return self.range((above + first, x), (above + last, y))

    def lines_range(self, first: int, last: int) -> dict[str, Any]:
        return self.range((first, 0), (last, FAR))
