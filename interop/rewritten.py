"""What a file has to be of which fragments were gathered or some tracks were kept, by ISO/IEC 14496-12 and
docs/REMUX.md, read of bytes alone."""

import struct

from movie_samples import inside, samples_in, tracks_in
from remuxed import AROUND, boxes_in, only

# What is made anew of a track whose samples are or may be in fragments.
TABLES = {"stts", "ctts", "stss", "stsc", "stsz", "stz2", "stco", "co64"}

# What goes with the fragments of a file.
OF_FRAGMENTS = {"moof", "mfra", "sidx", "ssix", "styp", "prft"}

# What follows a header's times and comes before its duration.
BEFORE_DURATION = {"mvhd": 4, "tkhd": 8, "mdhd": 4}


def has_fragments(data):
    """Whether samples of a file are or may be in fragments."""
    movie = only(boxes_in(data), "moov")
    return any(box.type == "moof" for box in boxes_in(data)) or bool(movie and inside(data, movie, "mvex"))


def header_parts(data, box):
    """The version of a header, what of it isn't the duration, and the duration."""
    version = data[box.inside]
    wide = 8 if version == 1 else 4
    place = box.inside + 4 + 2 * wide + BEFORE_DURATION[box.type]
    times = struct.unpack_from(">QQ" if version == 1 else ">II", data, box.inside + 4)
    rest = data[box.inside + 1:box.inside + 4] + data[box.inside + 4 + 2 * wide:place] + data[place + wide:box.end]
    return (times, rest), int.from_bytes(data[place:place + wide], "big")


def edits_in(data, track):
    """The edits of a track: pairs of a duration in ticks of the movie, and where in the media they begin, or -1."""
    box = inside(data, track, "edts", "elst")
    if not box:
        return []
    form = ">Qqi" if data[box.inside] == 1 else ">Iii"
    (count,) = struct.unpack_from(">I", data, box.inside + 4)
    size = struct.calcsize(form)
    return [struct.unpack_from(form, data, box.inside + 8 + k * size)[:2]
            for k in range(min(count, (box.end - box.inside - 8) // size))]


def references_of(data, box):
    """The references of a track to others (8.3.3), of its box: pairs of a kind and an id."""
    found = []
    for kind in boxes_in(data, box.inside, box.end) if box else ():
        numbers = data[kind.inside:kind.inside + (kind.end - kind.inside) // 4 * 4]
        found += [(kind.type, number) for (number,) in struct.iter_unpack(">I", numbers)]
    return found


def references_in(data, track):
    return references_of(data, inside(data, track, "tref"))


class Comparison:
    """A file, another that was made of it with these of its tracks, and what of that isn't as it has to be."""

    def __init__(self, data, other, keep):
        self.data, self.other, self.keep = data, other, keep
        self.is_gathered, self.drops = has_fragments(data), len(keep) < len(list(tracks_in(data)))
        self.found = []

    def note(self, said):
        self.found.append(said)

    def files(self):
        """Compares the boxes of the files: the file type, the movie box, the others that stay, and the data."""
        old, new = list(boxes_in(self.data)), list(boxes_in(self.other))
        gone = {"ftyp", "moov", "mdat"} | (OF_FRAGMENTS if self.is_gathered else set())
        others = [box for box in old if box.type not in gone]
        expected = ["ftyp", "moov", *(box.type for box in others)]
        types = [box.type for box in new]
        if types not in (expected, [*expected, "mdat"]):
            return self.note(f"its boxes are {types}")
        for before, after in [(only(old, "ftyp"), new[0]), *zip(others, new[2:])]:
            if self.data[before.begin:before.end] != self.other[after.begin:after.end]:
                self.note(f"{before.type}: other bytes")
        self.boxes(only(old, "moov"), new[1], 0, "moov")

    def staying(self, boxes, path):
        """The boxes at a path that have to be there."""
        track_ids = {box.begin: number for number, box in tracks_in(self.data)}
        for box in boxes:
            if path == "moov" and (box.type == "trak" and track_ids.get(box.begin) not in self.keep
                                   or box.type == "mvex" and self.is_gathered):
                continue
            if box.type == "tref" and not any(number in self.keep for _, number in references_of(self.data, box)):
                continue
            if self.is_gathered and path.endswith("/stbl") and box.type in TABLES:
                continue
            yield box

    def boxes(self, before, after, level, path):
        """Compares the boxes in one, of which some are others."""
        old = list(self.staying(boxes_in(self.data, before.inside, before.end), path))
        new = [box for box in boxes_in(self.other, after.inside, after.end)
               if not (self.is_gathered and level == 4 and box.type in TABLES)]
        if [box.type.replace("co64", "stco") for box in old] != [box.type.replace("co64", "stco") for box in new]:
            return self.note(f"{path} has {[box.type for box in new]} and not {[box.type for box in old]}")
        for one, other in zip(old, new):
            self.box(one, other, level, f"{path}/{one.type}")

    def box(self, one, other, level, path):
        same = self.data[one.begin:one.end] == self.other[other.begin:other.end]
        if level < len(AROUND) - 1 and one.type == AROUND[level + 1]:
            self.boxes(one, other, level + 1, path)
        elif one.type in BEFORE_DURATION and (self.is_gathered or one.type == "mvhd"):
            if header_parts(self.data, one)[0] != header_parts(self.other, other)[0]:
                self.note(f"{path}: other bytes beside its duration")
        elif not same and one.type not in ("stco", "co64", "tref") and not (one.type == "edts" and self.is_gathered):
            self.note(f"{path}: other bytes")

    def samples(self):
        """Compares the samples of each track that is kept, and answers how many there are."""
        old, new = samples_in(self.data), samples_in(self.other)
        if list(new) != [number for number in old if number in self.keep]:
            self.note(f"its tracks are {list(new)}")
        count = 0
        for number in self.keep:
            before, after = [[(data[each.place:each.place + each.size], *each[1:]) for each in of.get(number, ())]
                             for data, of in ((self.data, old), (self.other, new))]
            count += len(before)
            if before != after:
                k = next((k for k, pair in enumerate(zip(before, after), 1) if pair[0] != pair[1]), 0)
                self.note(f"track {number}: sample {k} of {len(before)} is another, or of {len(after)}")
        return count

    def tracks(self):
        """Compares the references of each track that is kept, its durations and its edits."""
        old, new = dict(tracks_in(self.data)), dict(tracks_in(self.other))
        movie = only(boxes_in(self.other), "moov")
        longest = 0
        for number in self.keep:
            expected = [pair for pair in references_in(self.data, old[number]) if pair[1] in self.keep]
            if references_in(self.other, new[number]) != expected:
                self.note(f"track {number}: its references are {references_in(self.other, new[number])}")
            duration = header_parts(self.other, inside(self.other, new[number], "tkhd"))[1]
            longest = max(longest, duration)
            if self.is_gathered:
                self.durations(number, old[number], new[number], duration)
        lasts = header_parts(self.other, inside(self.other, movie, "mvhd"))[1]
        if (self.is_gathered or self.drops) and lasts != longest:
            self.note("the movie's duration isn't that of its longest track")

    def durations(self, number, old, new, duration):
        """The media lasts until its last sample was shown (8.4.2), the track as its edits; an edit that lasts to the
        end of the media in a file of fragments, which says 0 (8.6.6) or ends with the movie box's own media, says what
        is left of it."""
        samples = samples_in(self.other)[number]
        media = max((max(0, each.start + each.offset + each.duration) for each in samples), default=0)
        header = inside(self.other, new, "mdia", "mdhd")
        if header_parts(self.other, header)[1] != media:
            self.note(f"track {number}: the duration of its media isn't that of its samples")
        movie_header = inside(self.other, only(boxes_in(self.other), "moov"), "mvhd")
        ticks, scale = self.timescale(movie_header), self.timescale(header)
        before, after = edits_in(self.data, old), edits_in(self.other, new)
        own = header_parts(self.data, inside(self.data, old, "mdia", "mdhd"))[1]
        expected = list(before)
        if before and before[-1][1] >= 0:
            lasts, time = before[-1]
            to_own_end = max(0, -(-(own - time) * ticks // scale))
            if lasts == 0 or 0 < own < media and to_own_end <= lasts + 1:
                expected[-1] = (max(0, -(-(media - time) * ticks // scale)), time)
        if after != expected:
            self.note(f"track {number}: its edits are {after} and not {expected}")
        whole = sum(lasts for lasts, _ in after) if after else -(-media * ticks // scale)
        if duration != whole:
            self.note(f"track {number}: it lasts {duration} and not {whole}")

    def timescale(self, header):
        return struct.unpack_from(">I", self.other, header.inside + (20 if self.other[header.inside] == 1 else 12))[0]


def rewritten_differences(data, other, keep):
    """How many samples there are in the tracks that are kept, and what isn't as it has to be."""
    comparison = Comparison(data, other, keep)
    comparison.files()
    count = comparison.samples()
    if not comparison.found:
        comparison.tracks()
    return count, comparison.found
