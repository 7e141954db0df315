"""pyav.py FILM: the same by PyAV, as far as it has such calls."""

import random
import statistics
import sys
import time

import av
import av.logging

av.logging.set_level(av.logging.PANIC)
film, SAMPLES = sys.argv[1], 1_000_000


def median(work, turns):
    taken = []
    for _ in range(turns):
        begun = time.perf_counter()
        work()
        taken.append(time.perf_counter() - begun)
    return statistics.median(taken)


def opened():
    av.open(film).close()


movie = av.open(film)
stream = movie.streams.video[0]


def all_of_them():
    movie.seek(0, stream=stream)
    for _ in movie.demux(stream):
        pass


def read():
    for _ in range(1000):
        movie.seek(random.randrange(SAMPLES) * 512, stream=stream, any_frame=True, backward=True)
        bytes(next(movie.demux(stream)))


figures = [median(opened, 9) * 1e3, "-", "-", median(all_of_them, 3) * 1e3, median(read, 3) * 1e3]
print("{:<12} {:9.2f} {:>9} {:>9} {:9.2f} {:9.3f}".format("PyAV", *figures))
