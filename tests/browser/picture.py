"""Small pictures: a PNG of true colours, as a browser writes it, converted to a palette of 256."""

from __future__ import annotations

import collections
import struct
import zlib

SIGNATURE = b"\x89PNG\r\n\x1a\n"
Colour = bytes


def chunks(picture: bytes) -> dict[bytes, bytes]:
    """Returns the parts of a PNG by their names, those of one name joined."""
    found: dict[bytes, bytes] = collections.defaultdict(bytes)
    at = len(SIGNATURE)
    while at < len(picture):
        length, name = struct.unpack(">I4s", picture[at : at + 8])
        found[name] += picture[at + 8 : at + 8 + length]
        at += 12 + length
    return found


def chunk(name: bytes, data: bytes) -> bytes:
    return struct.pack(">I", len(data)) + name + data + struct.pack(">I", zlib.crc32(name + data))


def nearest(left: int, up: int, corner: int) -> int:
    """Returns the neighbour, of three, from which PNG's last filter predicts."""
    by_left, by_up, by_corner = abs(up - corner), abs(left - corner), abs(left + up - 2 * corner)
    return left if by_left <= by_up and by_left <= by_corner else up if by_up <= by_corner else corner


def unfiltered(kind: int, row: bytearray, above: bytes, step: int) -> bytes:
    """Returns a row of bytes without the filter that was applied to it."""
    for at in range(len(row)) if kind else ():
        left, corner = (row[at - step], above[at - step]) if at >= step else (0, 0)
        guess = (0, left, above[at], (left + above[at]) // 2, nearest(left, above[at], corner))[kind]
        row[at] = (row[at] + guess) & 255
    return bytes(row)


def colours(picture: bytes) -> tuple[int, list[Colour]]:
    """Returns the width of a PNG, and the colours of its points."""
    parts = chunks(picture)
    width, _, depth, kind, *_, interlaced = struct.unpack(">IIBBBBB", parts[b"IHDR"])
    assert depth == 8 and kind in (2, 6) and not interlaced
    step = 3 if kind == 2 else 4
    data, length = zlib.decompress(parts[b"IDAT"]), 1 + step * width
    above, points = bytes(length - 1), []
    for at in range(0, len(data), length):
        above = unfiltered(data[at], bytearray(data[at + 1 : at + length]), above, step)
        points += [above[it : it + 3] for it in range(0, len(above), step)]
    return width, points


def distance(one: Colour, other: Colour) -> int:
    return sum((a - b) ** 2 for a, b in zip(one, other))


def small(picture: bytes) -> bytes:
    """Returns a PNG in a palette of its 256 most frequent colours, each other colour replaced by the nearest of
    them."""
    width, points = colours(picture)
    rounded = {colour: bytes(min(255, 8 * ((it + 4) // 8)) for it in colour) for colour in set(points)}
    counts = collections.Counter(points)
    palette: list[Colour] = [colour for colour, _ in counts.most_common(128)]
    rest: collections.Counter[Colour] = collections.Counter()
    for colour, count in counts.items():
        rest[rounded[colour]] += count
    palette += [colour for colour, _ in rest.most_common(256) if colour not in palette][: 256 - len(palette)]
    place = {colour: at for at, colour in enumerate(palette)}
    for colour in counts:
        near = place.get(rounded[colour])
        by_distance = range(len(palette)) if colour not in place and near is None else []
        place.setdefault(colour, min(by_distance, key=lambda at: distance(palette[at], colour), default=near or 0))
    rows = (bytes(place[it] for it in points[at : at + width]) for at in range(0, len(points), width))
    head = struct.pack(">IIBBBBB", width, len(points) // width, 8, 3, 0, 0, 0)
    data = zlib.compress(b"".join(b"\0" + row for row in rows), 9)
    parts = [(b"IHDR", head), (b"PLTE", b"".join(palette)), (b"IDAT", data), (b"IEND", b"")]
    return SIGNATURE + b"".join(chunk(*part) for part in parts)
