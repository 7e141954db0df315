"""Writes a file again with all from its first moof on twice, so that its times go back: going_back.py FILE OUT."""

import struct
import sys


def main():
    name, out = sys.argv[1:]
    with open(name, "rb") as source:
        file = source.read()
    place = 0
    while file[place + 4 : place + 8] != b"moof":
        place += struct.unpack_from(">I", file, place)[0]
    with open(out, "wb") as made:
        made.write(file + file[place:])


main()
