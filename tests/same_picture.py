"""Whether two pictures show the same drawing.

Both are PNGs of 8-bit RGB or RGBA, not interlaced; alpha is not looked at. A pixel is explained if each of its colours
lies within those that the other picture has up to 2 pixels away, or nearly so. Words that another version of a browser
or of a font sets a little aside, or a little bolder, are so explained; a line, a box or a fill that the other picture
has not is not. A block of 8 x 8 pixels differs if more than 6 of its pixels are not explained, in either picture by
the other. The pictures are the same if at most 2 blocks differ.

What may pass: a digit changed, the head of one arrow missing, a dashed line drawn solid, and a pattern changed for
another of the same colours.
"""
import itertools
import struct
import zlib

AWAY = 2  # how far a pixel is looked for
NEARLY = 48  # how far a colour may lie outside, of 255
BLOCK = 8
UNEXPLAINED = 6  # so many pixels of a block may have no explanation
BLOCKS = 2  # so many blocks may differ
TOLD = 10  # so many are told
LARGEST = 1 << 28  # bytes of a picture
CHANNELS = {2: 3, 6: 4}  # PNG's colour types RGB and RGBA


class Unreadable(Exception):
    pass


def chunks(data):
    """The chunks of a PNG: kind and content."""
    if data[:8] != b"\x89PNG\r\n\x1a\n":
        raise Unreadable("no PNG")
    at = 8
    while at + 12 <= len(data):
        (length,) = struct.unpack(">I", data[at : at + 4])
        kind, content = data[at + 4 : at + 8], data[at + 8 : at + 8 + length]
        crc = data[at + 8 + length : at + 12 + length]
        if len(crc) < 4 or struct.unpack(">I", crc)[0] != zlib.crc32(kind + content):
            raise Unreadable("a chunk is cut off or spoiled")
        yield kind, content
        at += 12 + length


def paeth(left, up, corner):
    guess = left + up - corner
    far = abs(guess - left), abs(guess - up), abs(guess - corner)
    if far[0] <= far[1] and far[0] <= far[2]:
        return left
    return up if far[1] <= far[2] else corner


def unfiltered(kind, line, above, wide):
    """A line of bytes from what PNG's filter has left of it; a pixel is so many bytes wide."""
    if kind == 0:
        return line
    if kind == 1:
        for channel in range(wide):
            line[channel::wide] = bytes(x & 255 for x in itertools.accumulate(line[channel::wide]))
        return line
    if kind == 2:
        return bytearray((x + up) & 255 for x, up in zip(line, above))
    if kind not in (3, 4):
        raise Unreadable("an unknown filter")
    for x, rest in enumerate(line):
        left, corner = (line[x - wide], above[x - wide]) if x >= wide else (0, 0)
        line[x] = (rest + ((left + above[x]) // 2 if kind == 3 else paeth(left, above[x], corner))) & 255
    return line


def read(name):
    """Width and lines of a picture, three bytes for each pixel."""
    with open(name, "rb") as file:
        found = list(chunks(file.read()))
    if not found or found[0][0] != b"IHDR" or len(found[0][1]) != 13:
        raise Unreadable("no header")
    width, height, depth, colours, _, _, interlaced = struct.unpack(">IIBBBBB", found[0][1])
    if depth != 8 or colours not in CHANNELS or interlaced:
        raise Unreadable("not of 8-bit RGB or RGBA, or interlaced")
    wide = CHANNELS[colours]
    size = (1 + width * wide) * height
    if not 0 < size <= LARGEST:
        raise Unreadable("no pixels, or too many")
    data = zlib.decompressobj().decompress(b"".join(content for kind, content in found if kind == b"IDAT"), size)
    if len(data) != size:
        raise Unreadable("cut off")
    lines, above = [], bytearray(width * wide)
    for at in range(0, size, 1 + width * wide):
        above = unfiltered(data[at], bytearray(data[at + 1 : at + 1 + width * wide]), above, wide)
        rgb = bytearray(width * 3)
        for channel in range(3):
            rgb[channel::3] = above[channel::wide]
        lines.append(bytes(rgb))
    return width, lines


def explained(pixel, other, x, y):
    """Whether the other picture has the pixel's colours near that place."""
    near = [line[3 * max(x - AWAY, 0) : 3 * (x + AWAY + 1)] for line in other[max(y - AWAY, 0) : y + AWAY + 1]]
    for channel, value in enumerate(pixel):
        if value < min(min(line[channel::3]) for line in near) - NEARLY:
            return False
        if value > max(max(line[channel::3]) for line in near) + NEARLY:
            return False
    return True


def different(one, other):
    """The blocks that differ, by column and row, with the number of pixels that are not explained."""
    counts = {}
    for y, (line, other_line) in enumerate(zip(one, other)):
        if line == other_line:
            continue
        for x in range(len(line) // 3):
            pixel, other_pixel = line[3 * x : 3 * x + 3], other_line[3 * x : 3 * x + 3]
            if pixel != other_pixel:
                block = counts.setdefault((x // BLOCK, y // BLOCK), [0, 0])
                block[0] += not explained(pixel, other, x, y)
                block[1] += not explained(other_pixel, one, x, y)
    return {place: max(both) for place, both in counts.items() if max(both) > UNEXPLAINED}


def compare(name, stored):
    """What tells two pictures apart, a line each; none where they are the same."""
    (width, one), (stored_width, other) = read(name), read(stored)
    if (width, len(one)) != (stored_width, len(other)):
        return [f"{width} x {len(one)} pixels, stored {stored_width} x {len(other)}"]
    blocks = different(one, other)
    if len(blocks) <= BLOCKS:
        return []
    told = [f"{len(blocks)} blocks of {BLOCK} x {BLOCK} pixels differ, where {BLOCKS} may"]
    for (column, row), pixels in sorted(blocks.items(), key=lambda block: -block[1])[:TOLD]:
        told.append(f"at x {column * BLOCK}, y {row * BLOCK}: {pixels} pixels are not in the other picture")
    return told
