"""The samples of the tracks of a file, by ISO/IEC 14496-12, read of bytes alone: those of the tables of its movie box
(8.6, 8.7), and those of its movie fragments (8.8). Places are in bytes and count from 0, times are ticks."""

import struct
from collections import namedtuple

from remuxed import boxes_in, offsets_in, only, sizes_of

# A sample: where it is and how many bytes it has, when it is decoded, for how long, how much later it is shown, whether
# it is a sync sample, and the number of its description.
Sample = namedtuple("Sample", "place size start duration offset sync description")

# No more samples of a track are read.
MOST_SAMPLES = 200_000


def inside(data, box, *names):
    """The last box at a path in another, or None."""
    for name in names:
        box = box and only(boxes_in(data, box.inside, box.end), name)
    return box


def tracks_in(data):
    """The boxes of the tracks of a file, with their ids."""
    movie = only(boxes_in(data), "moov")
    for track in boxes_in(data, movie.inside, movie.end) if movie else ():
        header = inside(data, track, "tkhd") if track.type == "trak" else None
        if header:
            place = header.inside + (20 if data[header.inside] == 1 else 12)
            yield struct.unpack_from(">I", data, place)[0], track


def runs_in(data, box, form):
    """The entries of a table with a count."""
    if box is None or box.end - box.inside < 8:
        return []
    (count,) = struct.unpack_from(">I", data, box.inside + 4)
    entries = data[box.inside + 8:box.end]
    size = struct.calcsize(form)
    entries = entries[:min(count, len(entries) // size) * size]
    return list(struct.iter_unpack(form, entries))


def expanded(runs):
    """Values of which each is there so often."""
    return [value for count, value in runs for _ in range(min(count, MOST_SAMPLES))][:MOST_SAMPLES]


def chunks_in(data, boxes, count):
    """For each chunk its place, its samples and their description (8.7.4)."""
    offsets_box, runs = only(boxes, "stco") or only(boxes, "co64"), runs_in(data, only(boxes, "stsc"), ">III")
    offsets = offsets_in(data, offsets_box)[0] if offsets_box else ()
    run, held, description = 0, 0, 1
    for number, place in enumerate(offsets, 1):
        while run < len(runs) and runs[run][0] <= number:
            held, description = runs[run][1:]
            run += 1
        yield place, held, description


def table_samples(data, track):
    """The samples that the tables of a track have."""
    table = inside(data, track, "mdia", "minf", "stbl")
    boxes = list(boxes_in(data, table.inside, table.end)) if table else []
    sizes, durations = sizes_of(data, boxes), expanded(runs_in(data, only(boxes, "stts"), ">II"))
    offsets = expanded(runs_in(data, only(boxes, "ctts"), ">Ii"))
    sync = only(boxes, "stss")
    marked = {number for (number,) in runs_in(data, sync, ">I")}
    found, start = [], 0
    for place, held, description in chunks_in(data, boxes, len(sizes)):
        for size in sizes[len(found):len(found) + held]:
            k = len(found)
            duration = durations[k] if k < len(durations) else 0
            offset = offsets[k] if k < len(offsets) else 0
            found.append(Sample(place, size, start, duration, offset, not sync or k + 1 in marked, description))
            place, start = place + size, start + duration
        if len(found) == len(sizes):
            break
    return found


def optional(data, place, flags, fields):
    """Fields of 32 bits (or 64, or signed) of which each is there where its flag is set; and the place after them."""
    found = {}
    for flag, name, form in fields:
        if flags & flag:
            (found[name],) = struct.unpack_from(">" + form, data, place)
            place += struct.calcsize(form)
    return found, place


def version_flags(data, box):
    word = struct.unpack_from(">I", data, box.inside)[0]
    return word >> 24, word & 0xffffff


def defaults_in(data):
    """What the movie box says of the samples of fragments (8.8.3), by track."""
    movie = only(boxes_in(data), "moov")
    extends = movie and inside(data, movie, "mvex")
    found = {}
    for box in boxes_in(data, extends.inside, extends.end) if extends else ():
        if box.type == "trex":
            track, description, duration, size, flags = struct.unpack_from(">IIIII", data, box.inside + 4)
            found[track] = {"description": description, "duration": duration, "size": size, "flags": flags}
    return found


class Fragments:
    """The samples of fragments, read one movie fragment after the other, after those of tables."""

    def __init__(self, data, samples):
        self.data, self.samples, self.defaults = data, samples, defaults_in(data)

    def movie_fragment(self, moof):
        end = moof.begin
        for traf in boxes_in(self.data, moof.inside, moof.end):
            if traf.type == "traf":
                end = self.track_fragment(moof, traf, end)

    def track_fragment(self, moof, traf, end):
        """Reads a track fragment (8.8.6); `end` is where the data of the one before it ends, and the answer where its
        own does."""
        header = inside(self.data, traf, "tfhd")
        _, flags = version_flags(self.data, header)
        (track,) = struct.unpack_from(">I", self.data, header.inside + 4)
        said, _ = optional(self.data, header.inside + 8, flags, (
            (1, "base", "Q"), (2, "description", "I"), (8, "duration", "I"), (16, "size", "I"), (32, "flags", "I")))
        values = {"description": 1, "duration": 0, "size": 0, "flags": 0, **self.defaults.get(track, {}), **said}
        base = said.get("base", moof.begin if flags & 0x20000 else end)
        samples = self.samples.setdefault(track, [])
        start = samples[-1].start + samples[-1].duration if samples else 0
        time = inside(self.data, traf, "tfdt")
        if time:
            (start,) = struct.unpack_from(">Q" if self.data[time.inside] == 1 else ">I", self.data, time.inside + 4)
        place = base
        for run in boxes_in(self.data, traf.inside, traf.end):
            if run.type == "trun":
                place, start = self.track_run(run, base, place, start, values, samples)
        return place

    def track_run(self, run, base, place, start, values, samples):
        """Reads a track run (8.8.8)."""
        version, flags = version_flags(self.data, run)
        (count,) = struct.unpack_from(">I", self.data, run.inside + 4)
        said, at = optional(self.data, run.inside + 8, flags, ((1, "data", "i"), (4, "first", "I")))
        place = base + said["data"] if "data" in said else place
        for number in range(max(0, min(count, MOST_SAMPLES - len(samples)))):
            own, at = optional(self.data, at, flags, (
                (0x100, "duration", "I"), (0x200, "size", "I"), (0x400, "flags", "I"),
                (0x800, "offset", "i" if version else "I")))
            one = {**values, **({"flags": said["first"]} if number == 0 and "first" in said else {}), **own}
            offset = one.get("offset", 0)
            samples.append(Sample(place, one["size"], start, one["duration"], offset - (offset >> 31 << 32 if offset > 0
                                  else 0), not one["flags"] & 0x10000, one["description"]))
            place, start = place + one["size"], start + one["duration"]
        return place, start


def samples_in(data):
    """The samples of each track of a file, by its id."""
    samples = {track: table_samples(data, box) for track, box in tracks_in(data)}
    fragments = Fragments(data, samples)
    for box in boxes_in(data):
        if box.type == "moof":
            fragments.movie_fragment(box)
    return samples
