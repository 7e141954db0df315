"""What mp4_inspect samples says of a track, written again from the file's bytes: each sample from the tables
as ISO/IEC 14496-12 defines them, one by one (8.6 and 8.7), and those of movie fragments (8.8)."""

from box_grammar import INVALID, OWN, Refused, first_samples, header, read
from report_texts import MOST, clock, decimals_of, grouped, seconds_of, whole


class Place:
    """Where a sample lies, when it is decoded and how long, how much later it is shown, and whether it is a
    sync sample."""

    def __init__(self, offset, size, start, duration, shift, is_sync):
        self.offset, self.size, self.start = offset, size, start
        self.duration, self.shift, self.is_sync = duration, shift, is_sync


def within(number):
    """A place or a time, if it is within 64 bits; None is one that isn't, and what depends on it isn't
    either."""
    return number if number is not None and 0 <= number <= MOST else None


def plus(number, more):
    return None if number is None else within(number + more)


class Movie:
    """A file that opens: its own boxes, each within the bytes but those that are skipped."""

    def __init__(self, data):
        self.data, self.moofs, boxes, place = data, [], {}, 0
        while place < len(data):
            kind, front, size = header(data, place, len(data))
            if size is None:
                break
            if size - front + 8 > len(data):
                raise Refused(INVALID)
            if kind in OWN:
                if place + size > len(data):
                    raise Refused("end of data")
                payload = data[place + front:place + size]
                boxes[kind] = read(kind, payload)
                if kind == b"moov":
                    self.moov = payload
                if kind == b"moof":
                    self.moofs.append((place, boxes[kind]))
            place += size
            if place > MOST:
                raise Refused(INVALID)
        for needed in (b"ftyp", b"moov"):
            if needed not in boxes:
                raise Refused(f"{needed.decode()} not found")
        self.find_tracks(boxes[b"moov"])

    def find_tracks(self, moov):
        """The tracks by their ids, of which the last counts."""
        ids = [trak[b"tkhd"][-1]["track_id"] for trak in moov.get(b"trak", ())]
        if 0 in ids:
            raise Refused(INVALID)
        for _, moof in self.moofs:
            for traf in moof.get(b"traf", ()):
                if traf[b"tfhd"][-1]["track_id"] not in ids:
                    raise Refused(f"trak[{traf[b'tfhd'][-1]['track_id']}] not found")
        trexs = moov[b"mvex"][-1][b"trex"] if b"mvex" in moov else []
        defaults = {trex["track_id"]: trex for trex in trexs}
        self.tracks = {n: Track(self, n, trak, defaults.get(n, {})) for n, trak in zip(ids, moov.get(b"trak", ()))}


class Track:
    def __init__(self, movie, number, trak, trex):
        self.movie, self.id, self.trak, self.trex = movie, number, trak, trex
        self.mdia = trak[b"mdia"][-1]
        self.timescale, self.letters = self.mdia[b"mdhd"][-1]["timescale"], self.mdia[b"mdhd"][-1]["language"]
        self.stbl = self.mdia[b"minf"][-1][b"stbl"][-1]
        table = lambda kind: self.stbl[kind][-1]["entries"] if kind in self.stbl else None
        self.stsc, self.stts, self.ctts, self.stss = map(table, (b"stsc", b"stts", b"ctts", b"stss"))
        self.chunks = table(b"stco") if b"stco" in self.stbl else table(b"co64")
        self.sync = None if self.stss is None else set(self.stss)
        self.stsz = self.stbl[b"stsz"][-1]
        self.count = self.stsz["sample_count"]
        self.firsts = first_samples(self.stsc)
        self.trafs = [(place, traf) for place, moof in movie.moofs for traf in moof.get(b"traf", ())
                      if traf[b"tfhd"][-1]["track_id"] == number]

    def size_of(self, number):
        """The size of a sample of the movie box; None where none is listed."""
        if self.stsz["sample_size"]:
            return self.stsz["sample_size"]
        sizes = self.stsz["sample_sizes"]
        return sizes[number - 1] if number <= len(sizes) else None

    def offset_of(self, number):
        """Where a sample of the movie box lies: in its chunk, after the earlier samples of that chunk."""
        entry = max((i for i, first in enumerate(self.firsts) if first <= number), default=None)
        if entry is None:
            raise Refused(INVALID)
        first_chunk, each, _ = self.stsc[entry]
        if each == 0:
            raise Refused(INVALID)
        chunk, earlier = divmod(number - self.firsts[entry], each)
        chunk += first_chunk
        if not 0 < chunk < 1 << 32:
            raise Refused(INVALID)
        if chunk > len(self.chunks):
            return None
        if self.stsz["sample_size"]:
            before = earlier * self.stsz["sample_size"]
        else:
            sizes = [self.size_of(n) for n in range(number - earlier, number)]
            if None in sizes or self.size_of(number) is None:
                return None
            before = sum(sizes)
        return self.chunks[chunk - 1] + before

    def time_of(self, number):
        """When a sample of the movie box is decoded, and how long it lasts."""
        start, before = 0, 0
        for count, delta in self.stts:
            if number <= before + count:
                return start + (number - 1 - before) * delta, delta
            before, start = before + count, start + count * delta
        raise Refused(f"trak[{self.id}].stbl.stts.entry[{number}] not found")

    def shift_of(self, number):
        before = 0
        for count, shift in self.ctts or ():
            before += count
            if number <= before:
                return shift
        return 0

    def in_tables(self, number):
        """A sample of the movie box; None where there is none of this number."""
        offset = self.offset_of(number)
        if offset is None or self.size_of(number) is None:
            return None
        if offset > MOST:
            raise Refused(INVALID)
        start, duration = self.time_of(number)
        if start > MOST:
            raise Refused(INVALID)
        is_sync = self.sync is None or number in self.sync
        return Place(offset, self.size_of(number), start, duration, self.shift_of(number), is_sync)

    def end_of_tables(self):
        """When the samples of the movie box have lasted, as many as stsz counts."""
        left, end = self.count, 0
        for count, delta in self.stts:
            end += min(left, count) * delta
            left -= min(left, count)
        return within(end)

    def default(self, tfhd, name):
        own = tfhd["default_" + name]
        return self.trex.get("default_" + name, 0) if own is None else own

    def samples_of_run(self, tfhd, run, place, time, most):
        """The first samples of a run that begins at a place and a time, and where and when the run ends."""
        shown, count = [], run["sample_count"]
        lists = {name: run[name] for name in ("sample_durations", "sample_sizes", "sample_flags", "sample_cts")}
        if count > most and not any(lists.values()):
            size, lasts = self.default(tfhd, "sample_size"), self.default(tfhd, "sample_duration")
            last = self.samples_of_run(tfhd, dict(run, sample_count=most), place, time, most)
            return last[0], plus(place, count * size), plus(time, count * lasts)
        for index in range(count):
            said = lambda name, default: lists[name][index] if lists[name] else self.default(tfhd, default)
            size, duration = said("sample_sizes", "sample_size"), said("sample_durations", "sample_duration")
            flags = said("sample_flags", "sample_flags")
            if index == 0 and run["first_sample_flags"] is not None:
                flags = run["first_sample_flags"]
            cts = lists["sample_cts"][index] if lists["sample_cts"] else 0
            shift = cts - (1 << 32) if cts >> 31 else cts
            shown.append(Place(place, size, time, duration, shift, not flags & 0x10000))
            place, time = plus(place, size), plus(time, duration)
        return shown, place, time

    def in_fragments(self, most):
        """The samples that fragments add, in file order, as lists of those of a run that may be looked at and
        the number of all that it has. What isn't within 64 bits is None in them."""
        runs, time = [], self.end_of_tables()
        for place, moof in self.movie.moofs:
            before = None
            for index, traf in enumerate(moof.get(b"traf", ())):
                tfhd = traf[b"tfhd"][-1]
                base = tfhd["base_data_offset"]
                if base is None:
                    base = place if index == 0 or tfhd["flags"] & 0x20000 else before
                end = base
                is_own = tfhd["track_id"] == self.id
                track = self if is_own else self.movie.tracks[tfhd["track_id"]]
                begins = time
                truns = traf.get(b"trun", ())
                if b"tfdt" in traf and any(run["sample_count"] for run in truns):
                    begins = traf[b"tfdt"][-1]["base_media_decode_time"]
                for run in truns:
                    at = end if run["data_offset"] is None else plus(base, run["data_offset"])
                    shown, end, begins = track.samples_of_run(tfhd, run, at, begins, most)
                    if is_own:
                        runs.append((shown, run["sample_count"]))
                if is_own and any(run["sample_count"] for run in truns):
                    time = begins
                before = end
        return runs

    def sample(self, number, most):
        """The sample of a number; None past the last."""
        if not self.trafs or number <= self.count:
            return self.in_tables(number)
        left = number - self.count
        for shown, count in self.in_fragments(most):
            if left <= count:
                found = shown[left - 1]
                if found.offset is None or found.start is None:
                    raise Refused(INVALID)
                return found
            left -= count
        return None

    def is_empty(self):
        return not self.trafs and self.count == 0 and not self.stsc


def listed(track, first, count):
    """The samples that are listed, by their numbers, and why there are no more where one is refused."""
    rows = []
    if track.is_empty():
        return rows, None
    for number in range(first, min(first + count, 1 << 32)):
        try:
            place = track.sample(number, first + count)
        except Refused as refused:
            return rows, str(refused)
        if place is None:
            break
        rows.append((number, place))
    return rows, None


def number_at(track, rows, ticks):
    """The number of the last of all samples of a track that is decoded at or before a time, or of the first;
    None where their times fall, or where some aren't known."""
    starts = [place.start for _, place in rows]
    runs = track.in_fragments(1) if track.trafs else []
    if not rows or len(rows) != track.count + sum(count for _, count in runs) or starts != sorted(starts):
        return None
    return max([n for n, place in rows if place.start <= ticks], default=1)


def text(movie, number, first=1, count=1 << 32):
    track = movie.tracks[number]
    rows, refused = listed(track, first, count)
    widths = [max([least] + [len(grouped(n)) for n in column]) for least, column in (
        (6, [n for n, _ in rows]), (5, [p.offset for _, p in rows]), (5, [p.size for _, p in rows]))]
    aligned = lambda *cells: "  ".join(f"{cell:>{width}}" for cell, width in zip(cells, widths))
    time = decimals_of(track.timescale) + 8
    lines = [f"{aligned('sample', 'place', 'bytes')}  {'decoded':<{time}}  {'shown':<{time}}  lasts"]
    for n, p in rows:
        times = [clock(p.start, track.timescale), clock(p.start + p.shift, track.timescale)]
        line = [aligned(grouped(n), grouped(p.offset), grouped(p.size)), *times, seconds_of(p.duration, track.timescale)]
        line += ["sync"] if p.is_sync else []
        line += [] if p.offset + p.size <= len(movie.data) else ["past the end"]
        lines.append("  ".join(line))
    if refused is not None:
        lines.append(f"the next sample is refused: {refused}")
    return "\n".join(lines) + "\n"


def json(movie, number, first=1, count=1 << 32):
    track = movie.tracks[number]
    rows, refused = listed(track, first, count)
    samples = [[("number", n), ("place", whole(p.offset)), ("size", p.size), ("decode_time", whole(p.start)),
                ("duration", p.duration), ("rendering_offset", p.shift), ("is_sync", p.is_sync),
                ("in_file", p.offset + p.size <= len(movie.data))] for n, p in rows]
    return [("track", number), ("timescale", track.timescale), ("samples", samples), ("refused", refused)]
