"""Writes a film of a million samples with composition offsets, as an encoder with B-frames does."""

import random
import sys

import maqelsun

random.seed(1)
OFFSETS = (2, 5, 2, 0, 1)


def samples():
    for number in range(1_000_000):
        size = 90 + random.randrange(20)
        offset = 512 * OFFSETS[number % 5]
        yield maqelsun.NewSample(1, bytes(size), 512, offset, number % 250 == 0)


film = maqelsun.write([maqelsun.NewTrack("vp09", 12800, width=640, height=360)], samples())
with open(sys.argv[1], "wb") as out:
    out.write(film)
