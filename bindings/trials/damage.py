"""Writes damaged copies of small movies: damage.py COUNT SEED OUT FILE.., of which OUT is a folder.

Each copy is cut, or some of its bytes or of its numbers are others, as the seed says.
"""

import pathlib
import random
import sys

# Numbers of 32 bits at which sizes and counts go over an edge.
EDGES = [0, 1, 7, 8, 15, 16, 0x7FFFFFFF, 0x80000000, 0xFFFFFFFE, 0xFFFFFFFF]


def damaged(chance, whole):
    """A damaged copy of bytes."""
    made = bytearray(whole)
    kind = chance.randrange(4)
    if kind == 0:
        return made[: chance.randrange(len(made))]
    for _ in range(chance.randrange(1, 4)):
        place = chance.randrange(len(made))
        if kind == 1:
            made[place] ^= 1 << chance.randrange(8)
        elif kind == 2:
            made[place] = chance.randrange(256)
        else:
            place = min(place, len(made) - 4) & ~3
            made[place : place + 4] = chance.choice(EDGES).to_bytes(4, "big")
    return made


def main():
    """Writes the copies."""
    count, seed, out, *names = sys.argv[1:]
    chance = random.Random(int(seed))
    movies = [pathlib.Path(name).read_bytes() for name in names]
    for number in range(1, int(count) + 1):
        made = damaged(chance, chance.choice(movies))
        (pathlib.Path(out) / f"{number:04}.mp4").write_bytes(made)


main()
