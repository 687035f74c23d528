"""The pixels of a PNG, as the browser's pictures are: 8 bits a channel, not interlaced."""
from __future__ import annotations

import struct
import zlib
from dataclasses import dataclass

Colour = tuple[float, float, float]


@dataclass
class Pixels:
    wide: int
    channels: int
    rows: list[bytes]

    def mean(self, left: float, top: float, right: float, bottom: float) -> Colour:
        """The mean colour of a box."""
        sums, count, step = [0, 0, 0], 0, self.channels
        for row in self.rows[round(top) : round(bottom)]:
            part = row[round(left) * step : round(right) * step]
            count += len(part) // step
            sums = [had + sum(part[k::step]) for k, had in enumerate(sums)]
        return sums[0] / count, sums[1] / count, sums[2] / count


def unfiltered(kind: int, line: bytes, above: bytes, step: int) -> bytes:
    """A row without its filter."""
    row = bytearray(line)
    for at in range(len(row)):
        left, up = (row[at - step] if at >= step else 0), above[at]
        corner = above[at - step] if at >= step else 0
        if kind == 1:
            row[at] = row[at] + left & 255
        elif kind == 2:
            row[at] = row[at] + up & 255
        elif kind == 3:
            row[at] = row[at] + (left + up) // 2 & 255
        elif kind == 4:
            near = min((left, up, corner), key=lambda it: abs(left + up - corner - it))
            row[at] = row[at] + near & 255
    return bytes(row)


def pixels_of(png: bytes) -> Pixels:
    at, wide, channels, packed = 8, 0, 0, b""
    while at < len(png):
        (length,) = struct.unpack_from(">I", png, at)
        kind, body = png[at + 4 : at + 8], png[at + 8 : at + 8 + length]
        if kind == b"IHDR":
            wide, channels = struct.unpack_from(">I", body)[0], {2: 3, 6: 4}[body[9]]
        elif kind == b"IDAT":
            packed += body
        at += 12 + length
    data, size = zlib.decompress(packed), wide * channels
    rows: list[bytes] = []
    for start in range(0, len(data), size + 1):
        above = rows[-1] if rows else bytes(size)
        rows.append(unfiltered(data[start], data[start + 1 : start + 1 + size], above, channels))
    return Pixels(wide, channels, rows)


def distance(one: Colour, other: Colour) -> float:
    return max(abs(a - b) for a, b in zip(one, other))
