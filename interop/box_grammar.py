"""Boxes and their fields, read from bytes by the definitions of ISO/IEC 14496-12 and of the standards that it
is used with; docs/FORMAT.md says what is read of each box. Plain and slow: it knows nothing of how the
library reads."""

# What a fault is called in which the bytes mean nothing. What a program says after it is free.
INVALID = "invalid data"


class Refused(Exception):
    """Bytes that aren't what they have to be. Its text is in the words of docs/VECTORS.md; its rule is the one
    that is broken, of some, and the number that breaks it."""

    def __init__(self, words, rule=None, number=0):
        super().__init__(words)
        self.rule = rule, number


class Payload:
    """A payload that is read field by field, its numbers big-endian."""

    def __init__(self, data):
        self.data, self.place = data, 0

    def left(self):
        return len(self.data) - self.place

    def take(self, count):
        if count > self.left():
            raise Refused(INVALID, "fields")
        self.place += count
        return self.data[self.place - count:self.place]

    def rest(self):
        return self.take(self.left())

    def unsigned(self, size):
        return int.from_bytes(self.take(size), "big")

    def signed(self, size):
        return int.from_bytes(self.take(size), "big", signed=True)

    def versioned(self, version):
        """A number of 64 bits in version 1, and of 32 in version 0; no other version has one."""
        if version > 1:
            raise Refused(INVALID, "version", version)
        return self.unsigned(8 if version else 4)

    def fixed(self, size, bits, signed=False):
        return (self.signed(size) if signed else self.unsigned(size)) / (1 << bits)

    def to_zero(self):
        """The bytes before the first zero, or all where there is none."""
        return self.rest().split(b"\0")[0]

    def ended_text(self):
        """The bytes before a zero byte, which has to be there."""
        text = self.data[self.place:].split(b"\0")[0]
        return self.take(len(text) + 1)[:-1]

    def entries(self, count, size, read):
        """A list, which lies within the payload as a whole."""
        if count * size > self.left():
            raise Refused(INVALID, "list", count)
        return [read() for _ in range(count)]


# A field is a name, the kind of its value, and the value. Of a table the kind has the names of its columns.

def full(p):
    return [("version", "number", p.unsigned(1)), ("flags", "flags", p.unsigned(3))]


def numbers(p, *names, kind="number", size=4):
    return [(name, kind, p.unsigned(size)) for name in names]


def matrix(p):
    """Nine numbers a b u, c d v, x y w: signed, of 16.16 bits, and u, v and w of 2.30 (8.2.2)."""
    return [("matrix", "all fixed", [p.fixed(4, 30 if i % 3 == 2 else 16, True) for i in range(9)])]


def version_of(fields):
    return fields[0][2]


def times(p, version):
    return [("creation_time", "time", p.versioned(version)), ("modification_time", "time", p.versioned(version))]


def lossy(data):
    return data.decode("utf-8", "replace")


def ftyp(p):
    fields = [("major_brand", "code", p.take(4)), *numbers(p, "minor_version")]
    return fields + [("compatible_brands", "codes", [p.take(4) for _ in range(p.left() // 4)])]


def mvhd(p):
    fields = full(p)
    version = version_of(fields)
    fields += times(p, version) + numbers(p, "timescale") + [("duration", "number", p.versioned(version))]
    fields += [("rate", "fixed", p.fixed(4, 16)), ("volume", "fixed", p.fixed(2, 8))]
    p.take(10)
    fields += matrix(p)
    p.take(24)
    return fields + numbers(p, "next_track_id")


def tkhd(p):
    fields = full(p)
    version = version_of(fields)
    fields += times(p, version) + numbers(p, "track_id")
    p.take(4)
    fields += [("duration", "number", p.versioned(version))]
    p.take(8)
    fields += [("layer", "signed", p.signed(2)), ("alternate_group", "signed", p.signed(2))]
    fields += [("volume", "fixed", p.fixed(2, 8))]
    p.take(2)
    fields += matrix(p)
    return fields + [("width", "fixed", p.fixed(4, 16)), ("height", "fixed", p.fixed(4, 16))]


def letters(packed):
    """The three characters of a language, each in five bits and less 0x60 (8.4.2.3)."""
    return "".join(chr(0x60 + (packed >> shift) % 32) for shift in (10, 5, 0))


def mdhd(p):
    fields = full(p)
    version = version_of(fields)
    fields += times(p, version) + numbers(p, "timescale") + [("duration", "number", p.versioned(version))]
    fields += [("language", "text", letters(p.unsigned(2)))]
    p.take(2)
    return fields


def hdlr(p):
    fields = full(p)
    p.take(4)
    fields += [("handler_type", "code", p.take(4))]
    p.take(12)
    return fields + [("name", "text", lossy(p.to_zero()))]


def vmhd(p):
    return full(p) + numbers(p, "graphics_mode", "red", "green", "blue", size=2)


def smhd(p):
    fields = full(p) + [("balance", "fixed", p.fixed(2, 8, True))]
    p.take(2)
    return fields


def elst(p):
    fields = full(p)
    version = version_of(fields)
    if version > 1:
        raise Refused(INVALID, "version", version)
    wide = 8 if version else 4
    names = ("segment_duration", "media_time", "media_rate", "media_rate_fraction")
    rows = p.entries(p.unsigned(4), 2 * wide + 4, lambda: (p.unsigned(wide), p.signed(wide), p.signed(2), p.signed(2)))
    return fields + [("entries", names, rows)]


def stts(p):
    rows = lambda: (p.unsigned(4), p.unsigned(4))
    return full(p) + [("entries", ("sample_count", "sample_delta"), p.entries(p.unsigned(4), 8, rows))]


def ctts(p):
    rows = lambda: (p.unsigned(4), p.signed(4))
    return full(p) + [("entries", ("sample_count", "sample_offset"), p.entries(p.unsigned(4), 8, rows))]


def first_samples(entries):
    """The number of the first sample of each entry of stsc; a chunk's samples go on to the next entry's first
    chunk."""
    first, firsts = 1, []
    for (chunk, each, _), after in zip(entries, entries[1:] + [None]):
        firsts.append(first)
        if after is not None:
            if after[0] < chunk:
                raise Refused(INVALID)
            first += (after[0] - chunk) * each
            if first >= 1 << 32:
                raise Refused(INVALID)
    return firsts


def stsc(p):
    names = ("first_chunk", "samples_per_chunk", "sample_description_index")
    fields = full(p)
    rows = p.entries(p.unsigned(4), 12, lambda: (p.unsigned(4), p.unsigned(4), p.unsigned(4)))
    first_samples(rows)
    return fields + [("entries", names, rows)]


def listed(size):
    def read(p):
        return full(p) + [("entries", "numbers", p.entries(p.unsigned(4), size, lambda: p.unsigned(size)))]
    return read


def stsz(p):
    fields = full(p) + numbers(p, "sample_size", "sample_count")
    size, count = fields[2][2], fields[3][2]
    return fields + [("sample_sizes", "numbers", p.entries(0 if size else count, 4, lambda: p.unsigned(4)))]


def mehd(p):
    fields = full(p)
    return fields + [("fragment_duration", "number", p.versioned(version_of(fields)))]


def trex(p):
    fields = full(p) + numbers(p, "track_id", "default_sample_description_index", "default_sample_duration")
    return fields + numbers(p, "default_sample_size") + numbers(p, "default_sample_flags", kind="flags")


def mfhd(p):
    return full(p) + numbers(p, "sequence_number")


def if_flagged(flags, bit, name, kind, read):
    return [(name, kind, read()) if flags & bit else (name, "missing", None)]


def tfhd(p):
    fields = full(p)
    flags = fields[1][2]
    fields += numbers(p, "track_id")
    fields += if_flagged(flags, 0x1, "base_data_offset", "number", lambda: p.unsigned(8))
    fields += if_flagged(flags, 0x2, "sample_description_index", "number", lambda: p.unsigned(4))
    fields += if_flagged(flags, 0x8, "default_sample_duration", "number", lambda: p.unsigned(4))
    fields += if_flagged(flags, 0x10, "default_sample_size", "number", lambda: p.unsigned(4))
    return fields + if_flagged(flags, 0x20, "default_sample_flags", "flags", lambda: p.unsigned(4))


def tfdt(p):
    fields = full(p)
    return fields + [("base_media_decode_time", "number", p.versioned(version_of(fields)))]


RUN_LISTS = ((0x100, "sample_durations"), (0x200, "sample_sizes"), (0x400, "sample_flags"), (0x800, "sample_cts"))


def trun(p):
    fields = full(p)
    flags = fields[1][2]
    fields += numbers(p, "sample_count")
    fields += if_flagged(flags, 0x1, "data_offset", "signed", lambda: p.signed(4))
    fields += if_flagged(flags, 0x4, "first_sample_flags", "flags", lambda: p.unsigned(4))
    there = [name for bit, name in RUN_LISTS if flags & bit]
    count = fields[2][2] if there else 0
    rows = p.entries(count, 4 * len(there), lambda: [p.unsigned(4) for _ in there])
    columns = dict(zip(there, zip(*rows))) if rows else {}
    return fields + [(name, "numbers", list(columns.get(name, ()))) for _, name in RUN_LISTS]


def emsg(p):
    fields = full(p)
    version = version_of(fields)
    if version > 1:
        raise Refused(f"emsg version {version} is not supported", "version", version)
    texts = lambda: [("scheme_id_uri", "text", lossy(p.ended_text())), ("value", "text", lossy(p.ended_text()))]
    early = [] if version else texts()
    timescale = numbers(p, "timescale")
    time = [("presentation_time", "number", p.unsigned(8)) if version else ("presentation_time", "missing", None)]
    time += [("presentation_time_delta", "missing", None)] if version else numbers(p, "presentation_time_delta")
    numbered = numbers(p, "event_duration", "id")
    late = texts() if version else []
    return fields + timescale + time + numbered + early + late + [("message_data", "bytes", p.rest())]


def visual(p):
    p.take(6)
    fields = numbers(p, "data_reference_index", size=2)
    p.take(16)
    fields += numbers(p, "width", "height", size=2)
    fields += [("horizresolution", "fixed", p.fixed(4, 16)), ("vertresolution", "fixed", p.fixed(4, 16))]
    p.take(4)
    fields += numbers(p, "frame_count", size=2)
    p.take(32)
    fields += numbers(p, "depth", size=2)
    p.take(2)
    return fields


def mp4a(p):
    p.take(6)
    fields = numbers(p, "data_reference_index", size=2)
    p.take(8)
    fields += numbers(p, "channelcount", "samplesize", size=2)
    p.take(4)
    return fields + [("samplerate", "fixed", p.fixed(4, 16))]


def tx3g(p):
    p.take(6)
    return numbers(p, "data_reference_index", size=2) + [("description", "bytes", p.take(30))]


def avcc(p):
    names = ("configuration_version", "avc_profile_indication", "profile_compatibility", "avc_level_indication")
    fields = numbers(p, *names, size=1)
    fields += [("length_size_minus_one", "number", p.unsigned(1) % 4)]
    sets = lambda count: [p.take(p.unsigned(2)) for _ in range(count)]
    fields += [("sequence_parameter_sets", "number", len(sets(p.unsigned(1) % 32)))]
    return fields + [("picture_parameter_sets", "number", len(sets(p.unsigned(1))))]


def configuration(p):
    return [("configuration", "bytes", p.rest())]


def descriptor(data, tag):
    """The body of the first descriptor of a tag (ISO/IEC 14496-1, 8.3.3), cut where it passes its parent's
    end."""
    place = 0
    while place < len(data):
        found, place, size = data[place], place + 1, 0
        for _ in range(4):
            byte = data[place] if place < len(data) else 0
            place, size = place + 1, size << 7 | byte & 0x7f
            if not byte & 0x80:
                break
        if found == tag:
            return data[place:place + size]
        place += size
    return b""


def zero_filled(data, place, size):
    """A number of whose bytes those that are missing are zero."""
    return int.from_bytes(data[place:place + size].ljust(size, b"\0"), "big")


def audio_config(data):
    """The type of the sound, the index of its frequency and its channels (ISO/IEC 14496-3, 1.6.2.1), bit by
    bit."""
    bits = "".join(f"{byte:08b}" for byte in data.ljust(16, b"\0"))
    take = lambda place, count: int(bits[place:place + count], 2)
    profile, place = take(0, 5), 5
    if profile == 31:
        profile, place = 32 + take(5, 6), 11
    index, place = take(place, 4), place + 4
    if index == 15:
        place += 24
    return profile, index, take(place, 4)


def esds(p):
    fields = full(p)
    stream = descriptor(p.rest(), 3)
    flags = zero_filled(stream, 2, 1)
    after = 3 + (2 if flags & 0x80 else 0)
    after += 1 + zero_filled(stream, after, 1) if flags & 0x40 else 0
    after += 2 if flags & 0x20 else 0
    decoder = descriptor(stream[after:], 4)
    profile, index, channels = audio_config(descriptor(decoder[13:], 5))
    said = {
        "es_id": zero_filled(stream, 0, 2),
        "object_type_indication": zero_filled(decoder, 0, 1),
        "stream_type": zero_filled(decoder, 1, 1) >> 2,
        "buffer_size_db": zero_filled(decoder, 2, 3),
        "max_bitrate": zero_filled(decoder, 5, 4),
        "avg_bitrate": zero_filled(decoder, 9, 4),
        "audio_object_type": profile,
        "sampling_frequency_index": index,
        "channel_configuration": channels,
    }
    return fields + [(name, "number", value) for name, value in said.items()]


def url(p):
    return full(p) + [("location", "text", lossy(p.to_zero()))]


def data(p):
    fields = numbers(p, "data_type")
    p.take(4)
    is_text = fields[0][2] == 1
    return fields + [("value", "text", lossy(p.rest())) if is_text else ("value", "bytes", p.rest())]


NAM, DAY = b"\xa9nam", b"\xa9day"
LEAVES = {
    b"ftyp": ftyp, b"mvhd": mvhd, b"tkhd": tkhd, b"mdhd": mdhd, b"hdlr": hdlr, b"vmhd": vmhd, b"smhd": smhd,
    b"elst": elst, b"stts": stts, b"ctts": ctts, b"stsc": stsc, b"stco": listed(4), b"co64": listed(8),
    b"stss": listed(4), b"stsz": stsz, b"mehd": mehd, b"trex": trex, b"mfhd": mfhd, b"tfhd": tfhd, b"tfdt": tfdt,
    b"trun": trun, b"emsg": emsg, b"avc1": visual, b"hev1": visual, b"vp09": visual, b"mp4a": mp4a, b"tx3g": tx3g,
    b"avcC": avcc, b"hvcC": configuration, b"vpcC": configuration, b"esds": esds, b"url ": url, b"data": data,
}

# What is read of each box of boxes, and which of these it needs, in the order in which they are missed.
READ = {
    b"moov": (b"mvhd", b"trak", b"mvex", b"meta", b"udta"),
    b"trak": (b"tkhd", b"edts", b"meta", b"mdia"),
    b"edts": (b"elst",),
    b"mdia": (b"mdhd", b"hdlr", b"minf"),
    b"minf": (b"vmhd", b"smhd", b"dinf", b"stbl"),
    b"dinf": (b"dref",),
    b"dref": (b"url ",),
    b"stbl": (b"stsd", b"stts", b"ctts", b"stss", b"stsc", b"stsz", b"stco", b"co64"),
    b"stsd": (b"avc1", b"hev1", b"vp09", b"mp4a", b"tx3g"),
    b"avc1": (b"avcC",), b"hev1": (b"hvcC",), b"vp09": (b"vpcC",), b"mp4a": (b"esds",),
    b"mvex": (b"mehd", b"trex"),
    b"moof": (b"mfhd", b"traf"),
    b"traf": (b"tfhd", b"tfdt", b"trun"),
    b"udta": (b"meta",),
    b"meta": (b"hdlr", b"ilst"),
    b"ilst": (NAM, DAY, b"covr", b"desc"),
    NAM: (b"data",), DAY: (b"data",), b"covr": (b"data",), b"desc": (b"data",),
}
NEEDED = {
    b"moov": (b"mvhd",), b"trak": (b"tkhd", b"mdia"), b"mdia": (b"mdhd", b"hdlr", b"minf"), b"minf": (b"dinf", b"stbl"),
    b"dinf": (b"dref",), b"stbl": (b"stsd", b"stts", b"stsc", b"stsz"), b"avc1": (b"avcC",), b"hev1": (b"hvcC",),
    b"vp09": (b"vpcC",), b"mvex": (b"trex",), b"moof": (b"mfhd",), b"traf": (b"tfhd",),
    NAM: (b"data",), DAY: (b"data",), b"covr": (b"data",), b"desc": (b"data",),
}
ENTRIES = (b"avc1", b"hev1", b"vp09")
OWN = (b"ftyp", b"moov", b"moof", b"emsg")


def shown(code):
    """A type in words; a byte that isn't visible is a full stop."""
    return "".join(chr(byte) if 0x20 <= byte <= 0x7e else "." for byte in code)


def header(data, place, end):
    """The type, the header's bytes and the box's bytes of what begins at a place; of an open end these are
    None."""
    if end - place < 8:
        raise Refused("end of data")
    size, kind = int.from_bytes(data[place:place + 4], "big"), data[place + 4:place + 8]
    if size == 0:
        return kind, 8, None
    if size > 1:
        if size < 8:
            raise Refused(INVALID, "size", size)
        return kind, 8, size
    if end - place < 16:
        raise Refused("end of data")
    large = int.from_bytes(data[place + 8:place + 16], "big")
    if large == 0:
        return kind, 16, None
    if large < 16:
        raise Refused(INVALID, "size", large)
    return kind, 16, large


def children(data, start):
    """The boxes of a payload from a place on: type, place, and payload. Refused after the last where the tail
    is broken."""
    place = start
    while len(data) - place >= 8:
        try:
            kind, front, size = header(data, place, len(data))
        except Refused:
            raise Refused(INVALID) from None
        if size is None or size > len(data) - place:
            raise Refused(INVALID)
        yield kind, place, data[place + front:place + size]
        place += size


def children_start(kind, data):
    """Where the children begin in a payload; None where none is looked at."""
    if kind == b"meta":
        if len(data) < 4:
            return None
        return 4 if data[:4] == bytes(4) else 0 if data[4:8] == b"hdlr" else None
    if kind == b"mp4a":
        return {0: 28, 1: 44}.get(int.from_bytes(data[8:10], "big")) if len(data) >= 10 else None
    if kind in (b"stsd", b"dref"):
        return 8
    return 78 if kind in (b"avc1", b"hev1", b"vp09") else 0 if kind in READ or kind == b"wave" else None


def read_first(kind, data):
    """Of a box of which the first child alone is looked at: its type and value, or its type where it isn't
    read."""
    start = children_start(kind, data)
    if len(data) < start:
        raise Refused(INVALID)
    for child, _, payload in children(data, start):
        if child not in READ[kind]:
            return {"other": child}
        try:
            return {child: [read(child, payload)]}
        except Refused:
            if kind == b"stsd":
                raise Refused(INVALID) from None
            raise
    return {}


def read_all(kind, data, start, wanted):
    """The children of these types, in lists by their types, and the first fault in file order."""
    found = {}
    for child, _, payload in children(data, start):
        if child in wanted:
            found.setdefault(child, []).append(read(child, payload))
    return found


def miss(kind, found):
    for needed in NEEDED.get(kind, ()):
        if needed not in found:
            raise Refused(INVALID if kind in ENTRIES else f"{shown(needed)} not found")
    if kind == b"stbl" and not found.keys() & {b"stco", b"co64"}:
        raise Refused("stco and co64 not found")


def read_meta(data):
    if len(data) < 4:
        raise Refused(INVALID)
    start = children_start(b"meta", data)
    if start is None:
        raise Refused(f"meta version {data[0]} is not supported")
    found = read_all(b"meta", data, start, (b"hdlr",))
    if b"hdlr" not in found:
        raise Refused("hdlr not found")
    if found[b"hdlr"][-1]["handler_type"] == b"mdir":
        found |= read_all(b"meta", data, start, (b"ilst",))
    return found


def wave_and_esds(data):
    """The last wave of a sample entry of sound without an esds beside it, and the last esds in it: their
    places in the entry's payload, and the payload of the esds. None where there is none, or where the boxes
    are broken."""
    start = children_start(b"mp4a", data)
    if start is None or start > len(data):
        return None
    try:
        found = {kind: (place, payload) for kind, place, payload in children(data, start)}
        if b"esds" in found or b"wave" not in found:
            return None
        place, payload = found[b"wave"]
        inner = {kind: (at, part) for kind, at, part in children(payload, 0)}.get(b"esds")
    except Refused:
        return None
    if inner is None:
        return None
    front = 16 if data[place:place + 4] == b"\0\0\0\1" else 8
    return place, place + front + inner[0], inner[1]


def read(kind, data):
    """The value of a payload: of a box of boxes its children by their types, of a leaf its fields by their
    names."""
    if kind == b"meta":
        return read_meta(data)
    if kind in (b"stsd", b"edts"):
        return read_first(kind, data)
    value = {}
    if kind in LEAVES:
        value = {name: said for name, _, said in LEAVES[kind](Payload(data))}
    start = children_start(kind, data)
    if kind == b"mp4a":
        if start is not None and len(data) < start:
            raise Refused(INVALID)
        value |= {} if start is None else read_all(kind, data, start, READ[kind])
        wave = wave_and_esds(data)
        if wave is not None:
            value[b"esds"] = [read(b"esds", wave[2])]
        return value
    if kind in READ:
        if len(data) < start:
            raise Refused(INVALID)
        value |= read_all(kind, data, start, READ[kind])
        miss(kind, value)
    return value
