"""Reduces a PNG picture to a palette of at most 256 colours (RFC 2083)."""
import struct
import zlib
from collections import Counter

HEAD = b'\x89PNG\r\n\x1a\n'
CHANNELS = {2: 3, 6: 4}  # of the colour types that are read: 8 bits for each channel, without interlace


def chunks(data: bytes) -> dict[bytes, bytes]:
    """Returns the contents of the chunks by kind. Chunks of one kind are joined."""
    found: dict[bytes, bytes] = {}
    place = len(HEAD)
    while place < len(data):
        length, kind = struct.unpack('>I4s', data[place:place + 8])
        found[kind] = found.get(kind, b'') + data[place + 8:place + 8 + length]
        place += length + 12
    return found


def predicted(kind: int, left: int, up: int, corner: int) -> int:
    """Returns the prediction of a byte by a filter type."""
    if kind < 4:
        return (0, left, up, (left + up) // 2)[kind]
    guess = left + up - corner
    return min((left, up, corner), key=lambda each: abs(guess - each))


def unfiltered(raw: bytes, height: int, stride: int, step: int) -> list[bytearray]:
    """Returns the lines of a picture."""
    lines = [bytearray(stride)]
    for number in range(height):
        start = number * (stride + 1)
        kind, line, above = raw[start], bytearray(raw[start + 1:start + 1 + stride]), lines[-1]
        for place in range(stride if kind else 0):
            left, corner = (line[place - step], above[place - step]) if place >= step else (0, 0)
            line[place] = (line[place] + predicted(kind, left, above[place], corner)) & 255
        lines.append(line)
    return lines[1:]


def chunk(kind: bytes, data: bytes) -> bytes:
    return struct.pack('>I', len(data)) + kind + data + struct.pack('>I', zlib.crc32(kind + data))


def nearest(colour: bytes, palette: list[bytes]) -> int:
    """Returns the number of the most similar colour of a palette."""
    return min(range(len(palette)), key=lambda number: sum(
        (one - other) ** 2 for one, other in zip(colour, palette[number])))


def reduced(data: bytes) -> bytes:
    """Returns the picture with a palette."""
    parts = chunks(data)
    width, height, depth, colour_type = struct.unpack('>IIBB', parts[b'IHDR'][:10])
    if depth != 8 or colour_type not in CHANNELS:
        return data
    step = CHANNELS[colour_type]
    lines = unfiltered(zlib.decompress(parts[b'IDAT']), height, width * step, step)
    pixels = [[bytes(line[place:place + 3]) for place in range(0, len(line), step)] for line in lines]
    counts = Counter(pixel for line in pixels for pixel in line)
    palette = [colour for colour, _ in counts.most_common(256)]
    known = {colour: nearest(colour, palette) for colour in counts}
    raw = b''.join(b'\0' + bytes(known[pixel] for pixel in line) for line in pixels)
    head = struct.pack('>IIBBBBB', width, height, 8, 3, 0, 0, 0)
    return HEAD + chunk(b'IHDR', head) + chunk(b'PLTE', b''.join(palette)) + chunk(
        b'IDAT', zlib.compress(raw, 9)) + chunk(b'IEND', b'')
