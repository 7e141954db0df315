"""Writes a large file that is nearly all a hole: large.py MOVIE OUT SIZE.

It is a small movie, and after it a box of media data of SIZE bytes without a block on the disk, in
which the movie's last sample lies.
"""

import sys


def main():
    """Writes the file."""
    source, out, size = sys.argv[1], sys.argv[2], int(sys.argv[3])
    with open(source, "rb") as file:
        movie = bytearray(file.read())
    table = movie.rindex(b"stco")
    count = int.from_bytes(movie[table + 8 : table + 12], "big")
    last = table + 8 + 4 * count
    movie[last : last + 4] = min(len(movie) + size - 1000, 2**32 - 1).to_bytes(4, "big")
    with open(out, "wb") as file:
        file.write(movie + b"\0\0\0\1mdat" + size.to_bytes(8, "big"))
        file.truncate(len(movie) + size)


main()
