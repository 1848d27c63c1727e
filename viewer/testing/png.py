# Reads the pixels of a PNG as browsers write them: eight bits a channel, no interlacing.
import struct
import zlib

CHANNELS = {2: 3, 6: 4}


def paeth(left: int, above: int, corner: int) -> int:
    guess = left + above - corner
    return min((left, above, corner), key=lambda value: abs(guess - value))


def unfiltered(kind: int, raw: bytes, above: bytes, step: int) -> bytearray:
    """Undoes the filter of a row, by the row above it."""
    row = bytearray(raw)
    for index in range(len(row)):
        left = row[index - step] if index >= step else 0
        corner = above[index - step] if index >= step else 0
        row[index] = (
            row[index]
            + (
                0,
                left,
                above[index],
                (left + above[index]) // 2,
                paeth(left, above[index], corner),
            )[kind]
        ) & 255
    return row


def pixels(data: bytes) -> list[tuple[int, ...]]:
    """The pixels of a picture, row by row, each as red, green and blue."""
    place, packed = 8, b""
    head: tuple[int, ...] = ()
    while place < len(data):
        length, name = struct.unpack(">I4s", data[place : place + 8])
        body = data[place + 8 : place + 8 + length]
        head = struct.unpack(">IIBBBBB", body) if name == b"IHDR" else head
        packed += body if name == b"IDAT" else b""
        place += 12 + length
    width, height, _, colour, *_ = head
    step = CHANNELS[colour]
    raw, above = zlib.decompress(packed), bytes(width * step)
    found: list[tuple[int, ...]] = []
    for start in range(0, height * (width * step + 1), width * step + 1):
        above = unfiltered(raw[start], raw[start + 1 : start + 1 + width * step], above, step)
        found += [tuple(above[index : index + 3]) for index in range(0, len(above), step)]
    return found
