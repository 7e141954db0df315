"""A caller whose types are checked."""

from typing import List, Optional

import maqelsun


def sizes(movie: maqelsun.Movie, track_id: int) -> List[int]:
    return [sample.size for sample in movie.samples(track_id)]


def title(movie: maqelsun.Movie) -> Optional[str]:
    return movie.metadata.title


def first_and_last(movie: maqelsun.Movie) -> List[maqelsun.Sample]:
    samples = movie.samples(1)
    return [samples[0], *samples[-1:]]


def made() -> bytes:
    lines = [maqelsun.NewSample.text(1, "first", 1000)]
    return maqelsun.write([maqelsun.NewTrack("tx3g")], lines)


def first_track(file: maqelsun.BytesLike) -> bytes:
    return maqelsun.choose(maqelsun.gather(maqelsun.move_to_front(file)), [1])


with maqelsun.Movie(first_track(made())) as opened:
    total: int = sum(sizes(opened, 1))
    where: Optional[int] = opened.sample_at(1, 0)
    rows: memoryview = opened.table(1)
    seconds: float = opened.track(1).seconds(1000)
    code: maqelsun.Code = maqelsun.Code.END_OF_DATA
