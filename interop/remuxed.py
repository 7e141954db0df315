"""What a file with its movie box in front has to be, by ISO/IEC 14496-12 and docs/REMUX.md, read of bytes alone.
Places are in bytes and count from 0."""

import struct
from collections import Counter, namedtuple

# A box: its first byte, the first after its header, and the one after its last.
Box = namedtuple("Box", "type begin inside end")

# The boxes around chunk offsets (8.7.5), from the movie box on.
AROUND = ("moov", "trak", "mdia", "minf", "stbl")

# The boxes in which others are looked for.
HOLDS = {*AROUND, "edts", "dinf", "udta", "mvex", "moof", "traf", "gmhd", "tref", "ilst", "mfra", "meta", "tapt"}

# How many samples of a track are compared.
MOST_SAMPLES = 200_000


def boxes_in(data, begin=0, end=None):
    """The boxes among these bytes (4.2). A box of the file whose end is open, or passes the file's, ends with it;
    with any other such box the list ends."""
    is_file = end is None
    end = len(data) if is_file else end
    while end - begin >= 8:
        size, name = struct.unpack_from(">I4s", data, begin)
        inside = begin + 8
        if size == 1 and end - begin >= 16:
            (size,) = struct.unpack_from(">Q", data, begin + 8)
            inside = begin + 16
        after = begin + size if size else end if is_file else end + 1
        if after > end and is_file:
            after = end
        if after > end or after < inside:
            return
        yield Box(name.decode("latin-1"), begin, inside, after)
        begin = after


def only(boxes, name):
    """The box of a type, or None. Of several the last counts (docs/FORMAT.md); the standard has no such files."""
    return next((box for box in reversed(list(boxes)) if box.type == name), None)


def has_to_move(data):
    """Whether there is data before the movie box."""
    boxes = list(boxes_in(data))
    movie = only(boxes, "moov")
    return movie is not None and any(box.type == "mdat" and box.begin < movie.begin for box in boxes)


def kept_pieces(data, movie_len):
    """The file type, the movie box, then all else: each piece of the file but the movie box, as its begin, its end
    and where it begins when the movie box has so many bytes; and where the movie box begins."""
    boxes = list(boxes_in(data))
    file_type, movie = only(boxes, "ftyp"), only(boxes, "moov")
    place = file_type.end - file_type.begin
    pieces = [(file_type.begin, file_type.end, 0)]
    front = place
    place += movie_len
    begin = 0
    for box in sorted((file_type, movie), key=lambda box: box.begin) + [None]:
        end = box.begin if box else len(data)
        if end > begin:
            pieces.append((begin, end, place))
            place += end - begin
        begin = box.end if box else end
    return pieces, front


def moved(pieces, place):
    """Where a byte of the file is then; for one that isn't kept, which no sample has, the end of those before it."""
    before = [piece for piece in pieces if piece[0] <= place]
    if not before:
        return 0
    begin, end, new = max(before)
    return new + min(place, end) - begin


def offsets_in(data, box):
    """The chunk offsets of a table, and the bytes that aren't any."""
    wide = 8 if box.type == "co64" else 4
    payload = data[box.inside:box.end]
    count = struct.unpack_from(">I", payload, 4)[0] if len(payload) >= 8 else 0
    count = min(count, max(0, len(payload) - 8) // wide)
    offsets = struct.unpack_from(f">{count}{'Q' if wide == 8 else 'I'}", payload, 8) if count else ()
    return offsets, payload[:8] + payload[8 + count * wide:]


def table_differences(data, box, other, new, pieces, where):
    old_offsets, old_rest = offsets_in(data, box)
    new_offsets, new_rest = offsets_in(other, new)
    expected = tuple(moved(pieces, place) for place in old_offsets)
    is_wide = box.type == "co64" or any(place >= 1 << 32 for place in expected)
    if old_rest != new_rest:
        yield f"{where}: other bytes beside its entries"
    if new.type != ("co64" if is_wide else "stco"):
        yield f"{where}: {new.type}"
    if new_offsets != expected:
        yield f"{where}: other chunk offsets"


def children_differences(data, begin, end, other, new_begin, new_end, level, pieces, where):
    """How the boxes among some bytes differ from those of the file, but for chunk offsets that were moved."""
    old_boxes, new_boxes = list(boxes_in(data, begin, end)), list(boxes_in(other, new_begin, new_end))
    if len(old_boxes) != len(new_boxes):
        yield f"{where}: {len(new_boxes)} boxes in place of {len(old_boxes)}"
        return
    for old, new in zip(old_boxes, new_boxes):
        path = f"{where}/{old.type}"
        is_table = level == len(AROUND) and old.type in ("stco", "co64")
        if old.type != new.type and not (is_table and new.type == "co64"):
            yield f"{path}: became {new.type}"
        elif old.inside - old.begin != new.inside - new.begin:
            yield f"{path}: a header of another size"
        elif is_table:
            yield from table_differences(data, old, other, new, pieces, path)
        elif level < len(AROUND) and old.type == AROUND[level]:
            yield from children_differences(
                data, old.inside, old.end, other, new.inside, new.end, level + 1, pieces, path)
        elif data[old.begin:old.end] != other[new.begin:new.end]:
            yield f"{path}: other bytes"
    old_end = old_boxes[-1].end if old_boxes else begin
    new_last = new_boxes[-1].end if new_boxes else new_begin
    if data[old_end:end] != other[new_last:new_end]:
        yield f"{where}: other bytes after its boxes"


def differences(data, other):
    """How a file that was made of another differs from what it has to be."""
    if not has_to_move(data):
        return [] if data == other else ["it isn't written as it is"]
    movie = only(boxes_in(data), "moov")
    movie_len = len(other) - len(data) + movie.end - movie.begin
    pieces, front = kept_pieces(data, movie_len)
    found = [f"other bytes in place of {begin} to {end}" for begin, end, new in pieces
             if data[begin:end] != other[new:new + end - begin]]
    found += children_differences(data, movie.begin, movie.end, other, front, front + movie_len, 0, pieces, "")
    return found


def sizes_of(data, boxes):
    """The sizes of a track's samples (8.7.3)."""
    box = only(boxes, "stsz") or only(boxes, "stz2")
    if box is None or box.end - box.inside < 12:
        return []
    size, count = struct.unpack_from(">II", data, box.inside + 4)
    count = min(count, MOST_SAMPLES)
    entries = data[box.inside + 12:box.end]
    if box.type == "stsz" and size:
        return [size] * count
    bits = 32 if box.type == "stsz" else size & 0xff
    if bits == 4:
        return [half for byte in entries for half in (byte >> 4, byte & 15)][:count]
    form, wide = {32: ("I", 4), 16: ("H", 2)}.get(bits, ("B", 1))
    count = min(count, len(entries) // wide)
    return list(struct.unpack_from(f">{count}{form}", entries))


def samples_of(data, boxes):
    """Where the samples of a track lie: pairs of a place and a size (8.7.4)."""
    offsets_box, runs_box = only(boxes, "stco") or only(boxes, "co64"), only(boxes, "stsc")
    if offsets_box is None or runs_box is None:
        return []
    offsets, _ = offsets_in(data, offsets_box)
    sizes = sizes_of(data, boxes)
    entries = data[runs_box.inside + 8:runs_box.end]
    runs = [each[:2] for each in struct.iter_unpack(">III", entries[:len(entries) // 12 * 12])]
    found, run, held = [], 0, 0
    for number, place in enumerate(offsets, 1):
        while run < len(runs) and runs[run][0] <= number:
            held = runs[run][1]
            run += 1
        for size in sizes[len(found):len(found) + held]:
            found.append((place, size))
            place += size
        if len(found) == len(sizes):
            break
    return found


def tracks_of(data):
    """The samples of each track of the movie box, by its id. Of tracks with one id the last counts."""
    movie = only(boxes_in(data), "moov")
    found = {}
    for track in boxes_in(data, movie.inside, movie.end) if movie else ():
        header = only(boxes_in(data, track.inside, track.end), "tkhd") if track.type == "trak" else None
        inner = track if header else None
        for name in AROUND[2:]:
            inner = inner and only(boxes_in(data, inner.inside, inner.end), name)
        if inner:
            place = header.inside + (20 if data[header.inside] == 1 else 12)
            found[data[place:place + 4]] = samples_of(data, list(boxes_in(data, inner.inside, inner.end)))
    return found


def sample_differences(data, other):
    """How many samples there are, and the first whose bytes are in the file and not read of the other."""
    count = 0
    tracks, others = tracks_of(data), tracks_of(other)
    for track, old in tracks.items():
        new = others.get(track, [])
        if len(old) != len(new):
            return count, [f"{len(new)} samples of track {int.from_bytes(track, 'big')} in place of {len(old)}"]
        for number, ((place, size), (new_place, new_size)) in enumerate(zip(old, new), 1):
            count += 1
            if place + size <= len(data) and data[place:place + size] != other[new_place:new_place + new_size]:
                return count, [f"sample {number} of track {int.from_bytes(track, 'big')} has other bytes"]
    return count, []


def is_wrong_index(data, box):
    """Whether a segment index (8.16.3) can't be read, or the movie box or the file type, which move, is between it and
    the end of what it refers to."""
    payload = data[box.inside:box.end]
    size = data[box.begin:box.begin + 4] if box.inside == box.begin + 8 else data[box.begin + 8:box.inside]
    head = {b"\0": 20, b"\1": 28}.get(payload[:1])
    if int.from_bytes(size, "big") != box.end - box.begin or head is None or len(payload) < head + 4:
        return True
    (count,) = struct.unpack_from(">H", payload, head + 2)
    if len(payload) < head + 4 + 12 * count:
        return True
    offset = payload[16:20] if head == 20 else payload[20:28]
    sizes = [struct.unpack_from(">I", payload, head + 4 + 12 * index)[0] & 0x7fffffff for index in range(count)]
    end = box.end + int.from_bytes(offset, "big") + sum(sizes)
    return any(box.end <= each.begin < end for each in boxes_in(data) if each.type in ("ftyp", "moov"))


def says_places(data):
    """The first box that says places that aren't rewritten, of a file whose movie box has to move."""
    for path in paths(data):
        if path.rpartition("/")[2] in ("moof", "mfra", "iloc", "saio"):
            return path
    return next((box.type for box in boxes_in(data) if box.type == "sidx" and is_wrong_index(data, box)), None)


def paths(data, begin=0, end=None, where=""):
    """The paths of all boxes; a box that isn't entered ends its path."""
    for box in boxes_in(data, begin, end):
        path = f"{where}{box.type}"
        yield path
        if box.type in HOLDS:
            inside = box.inside
            if box.type == "meta" and data[inside:inside + 4] == bytes(4):
                inside += 4
            yield from paths(data, inside, box.end, path + "/")


def lost(data, other):
    """The boxes of a file that another lacks, by their paths; a table of wider offsets is the same table."""
    def counted(of):
        return Counter(path.replace("co64", "stco") for path in paths(of))
    return sorted((counted(data) - counted(other)).elements())
