"""calls.py FILM: what bench/bindings measures, in Python."""

import random
import statistics
import sys
import time

import maqelsun

TURNS, SAMPLES = 9, 1_000_000


def median(work):
    taken = []
    for _ in range(TURNS):
        begun = time.perf_counter()
        work()
        taken.append(time.perf_counter() - begun)
    return statistics.median(taken)


def opened():
    maqelsun.Movie(film).close()


def indexed():
    with maqelsun.Movie(film) as movie:
        movie.sample(1, SAMPLES)


film = sys.argv[1]
movie = maqelsun.Movie(film)
# No sample of it is asked for by its number, so that its rows aren't kept.
unkept = maqelsun.Movie(film)
numbers = [random.randrange(SAMPLES) + 1 for _ in range(100_000)]


def at_random():
    sample = movie.sample
    for number in numbers:
        sample(1, number)


def all_of_them():
    for _ in unkept.samples(1):
        pass


def read():
    for number in numbers[:1000]:
        movie.read(movie.sample(1, number))


figures = [median(opened) * 1e3, median(indexed) * 1e3, median(at_random) * 1e9 / len(numbers)]
figures += [median(all_of_them) * 1e3, median(read) * 1e3]
print("{:<12} {:9.2f} {:9.2f} {:9.1f} {:9.2f} {:9.3f}".format("Python", *figures))
