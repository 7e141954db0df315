"""Prints when each file that a line of standard input names says that its movie was made and changed,
and of which version its header is, by looking for mvhd in moov: an independent reading (ISO/IEC
14496-12, 8.2.2). A file in which they aren't found so is left out."""

import struct
import sys


def boxes(file, place, end):
    """The types and the payloads of boxes in a row, as far as they are whole."""
    while place + 8 <= end:
        size, kind = struct.unpack_from(">I4s", file, place)
        start = place + 8
        if size == 1:
            if place + 16 > end:
                return
            (size,) = struct.unpack_from(">Q", file, start)
            start += 8
        if size == 0:
            size = end - place
        if size < start - place or place + size > end:
            return
        yield kind, start, place + size
        place += size


def found(file, kind, place, end):
    """The payload of the last box of a type among boxes."""
    places = [(start, stop) for one, start, stop in boxes(file, place, end) if one == kind]
    return places[-1] if places else None


def main():
    for line in sys.stdin:
        name = line.rstrip("\n")
        with open(name, "rb") as source:
            file = source.read()
        movie = found(file, b"moov", 0, len(file))
        header = movie and found(file, b"mvhd", *movie)
        if header and header[1] - header[0] >= 20:
            version = file[header[0]]
            times = struct.unpack_from(">QQ" if version else ">II", file, header[0] + 4)
            print(name, *times, version)


main()
