"""What mp4_inspect why says of a file, written again from the file's bytes: the first fault of docs/FORMAT.md
in file order, the path down to the innermost box at fault, as docs/DECISIONS.md says it, and the rule in the
words that docs/INSPECT.md and the cases of report_why.txt have. A fault without such words has None in their
place."""

from box_grammar import (ENTRIES, LEAVES, NEEDED, OWN, READ, Payload, Refused, children_start, header, read,
                         shown)
from report_boxes import NUMBERED
from report_texts import MOST, code, grouped
from report_tracks import past_end

# Types whose list has a count and stands alone: the words of a list that passes its box's end are theirs.
LISTS = (b"elst", b"stts", b"ctts", b"stsc", b"stsz", b"stco", b"co64", b"stss")


class Fault(Exception):
    def __init__(self, path, place, words):
        self.path, self.place, self.words = path or "the file", place, words

    def text(self):
        return f"{self.path} at byte {grouped(self.place)}: " + ("" if self.words is None else f"{self.words}\n")

    def known(self, said):
        """What is said of a fault, without the words of a rule that no document has."""
        return said if self.words is not None else said[:said.find(": ") + 2]


class Box:
    """A box that is looked at: its type, its path, the place of its first byte, its bytes, and how many its
    header has."""

    def __init__(self, kind, path, place, front, data):
        self.kind, self.path, self.place, self.front, self.data = kind, path, place, front, data
        self.payload = data[front:]

    def fault(self, words=None):
        return Fault(self.path, self.place, words)

    def is_cut(self):
        return self.fault(f"its fields have to be whole, and it ends after {grouped(len(self.data))} bytes")


def step(counts, path, kind):
    """The path of the next box of a type in its container."""
    counts[kind] = number = counts.get(kind, 0) + 1
    name = code(kind) + (f"[{number}]" if kind in NUMBERED or number > 1 else "")
    return f"{path}/{name}" if path else name


def child_at(box, at, counts):
    """The child that begins at a place in a payload; where there is none, the tail of its container is
    broken."""
    data, place = box.payload, box.place + box.front + at
    left, size, kind = len(data) - at, int.from_bytes(data[at:at + 4], "big"), data[at + 4:at + 8]
    path = step(counts, box.path, kind)
    name = f"{path.split('/')[-1]} at byte {grouped(place)}"
    front = 16 if size == 1 else 8
    if left < front:
        raise box.fault("each box in it begins with its size and its type, and "
                        f"{name} has {left} bytes for a header of 16")
    if size == 1:
        size = int.from_bytes(data[at + 8:at + 16], "big")
    if size == 0:
        raise box.fault(f"each box in it has to say its size, and {name} says 0")
    if size < front:
        raise box.fault(f"each box in it has a size that counts its header of {front} bytes, and "
                        f"{name} says {size}")
    if size > left:
        raise box.fault(f"each box in it has to end within it, and {name} has {grouped(size)} bytes of {grouped(left)} "
                        "that are left")
    return Box(kind, path, place, front, data[at:at + size])


def children_of(box, start, is_first_alone=False):
    counts, at = {}, start
    while len(box.payload) - at >= 8:
        child = child_at(box, at, counts)
        yield child
        if is_first_alone:
            return
        at += len(child.data)


def look_at_leaf(box):
    try:
        LEAVES[box.kind](Payload(box.payload))
    except Refused as refused:
        rule, number = refused.rule
        size = grouped(len(box.data))
        if rule == "fields":
            raise box.is_cut() from None
        if rule == "list" and box.kind in LISTS:
            words = f"its list has to end within it, and it says {grouped(number)} entries in {size} bytes"
            raise box.fault(words) from None
        if rule == "version":
            raise box.fault(f"its version has to be one that the library reads, and it is {number}") from None
        raise box.fault() from None


def look_at_children(box, start, wanted, is_first_alone=False):
    """Looks at the children of these types, and answers all, by their types."""
    found = {}
    for child in children_of(box, start, is_first_alone):
        if child.kind in wanted:
            look_at(child)
        found.setdefault(child.kind, []).append(child)
    for needed in NEEDED.get(box.kind, ()):
        if needed not in found:
            words = f"a box {shown(needed)} has to be there, and there is none"
            raise box.fault(None if box.kind in ENTRIES else words)
    if box.kind == b"stbl" and not found.keys() & {b"stco", b"co64"}:
        raise box.fault()
    return found


def look_at_meta(box):
    """The framing and the handlers of metadata first, and then, where it is of iTunes, its lists of items."""
    if len(box.payload) < 4:
        raise box.is_cut()
    start = children_start(b"meta", box.payload)
    if start is None:
        raise box.fault()
    found = look_at_children(box, start, (b"hdlr",))
    if b"hdlr" not in found:
        raise box.fault("a box hdlr has to be there, and there is none")
    if read(b"hdlr", found[b"hdlr"][-1].payload)["handler_type"] == b"mdir":
        for child in found.get(b"ilst", ()):
            look_at(child)


def look_at_wave(found):
    """The last esds of the last wave, where no esds lies beside it; a wave whose children are no boxes has
    none."""
    if b"esds" in found or b"wave" not in found:
        return
    try:
        inner = [child for child in children_of(found[b"wave"][-1], 0) if child.kind == b"esds"]
    except Fault:
        return
    for last in inner[-1:]:
        look_at(last)


def look_at(box):
    """Raises the fault of a box that the reading of the file looks at, if it has one."""
    if box.kind == b"meta":
        return look_at_meta(box)
    if box.kind in LEAVES:
        look_at_leaf(box)
    start = children_start(box.kind, box.payload)
    if start is None:
        return
    if start > len(box.payload):
        raise box.is_cut()
    found = look_at_children(box, start, READ[box.kind], box.kind in (b"stsd", b"edts"))
    if box.kind == b"mp4a":
        look_at_wave(found)


def own_boxes(data):
    """Looks at the file's own boxes up to the first fault. Answers those that are read, and the one with an
    open end."""
    counts, place, found = {}, 0, []
    while place < len(data):
        try:
            kind, front, size = header(data, place, len(data))
        except Refused as refused:
            rule, said = refused.rule
            words = f"the size of a box counts its header of 8 bytes or 16, and it says {said}" if rule == "size" else None
            raise Fault(None, place, words) from None
        path = step(counts, "", kind)
        if size is None:
            return found, Box(kind, path, place, front, data[place:])
        left = len(data) - place
        if size - front + 8 > len(data):
            sizes = f"{grouped(size)} bytes of {grouped(left)}"
            raise Fault(path, place, f"a box has to end within the file, and this one has {sizes} that are left")
        if kind in OWN:
            if size > left:
                sizes = f"{grouped(size)} bytes {grouped(left)}"
                raise Fault(path, place, f"it has to be whole, and of its {sizes} are there")
            box = Box(kind, path, place, front, data[place:place + size])
            look_at(box)
            found.append(box)
        place += size
        if place > MOST:
            raise Fault(path, place - size, None)
    return found, None


def last_of(box, kind):
    return [child for child in children_of(box, 0) if child.kind == kind][-1]


def track_id(box):
    return read(box.kind, box.payload)["track_id"]


def look_at_file(data):
    """Raises the first fault of a file, if it has one."""
    found, open_ended = own_boxes(data)
    for needed in (b"ftyp", b"moov"):
        if needed not in [box.kind for box in found]:
            if open_ended and open_ended.kind == needed:
                raise open_ended.fault("it has to say its size, since a box up to the end of the file isn't read, "
                                       "and it says 0")
            raise Fault(None, len(data), f"a box {shown(needed)} has to be there, and there is none")
    moov = [box for box in found if box.kind == b"moov"][-1]
    headers = [last_of(trak, b"tkhd") for trak in children_of(moov, 0) if trak.kind == b"trak"]
    for tkhd in headers:
        if track_id(tkhd) == 0:
            raise tkhd.fault("the id of a track must not be 0, and it is 0")
    ids = [track_id(tkhd) for tkhd in headers]
    for moof in (box for box in found if box.kind == b"moof"):
        for traf in (child for child in children_of(moof, 0) if child.kind == b"traf"):
            tfhd = last_of(traf, b"tfhd")
            if track_id(tfhd) not in ids:
                raise tfhd.fault("a fragment has to be of a track of the movie, and there is no track "
                                 f"{track_id(tfhd)}")


def first_fault(data):
    """The first fault of a file; None of one that opens."""
    try:
        look_at_file(data)
    except Fault as fault:
        return fault
    return None


def begins_unlike_a_box(data):
    """Whether the program may say that the bytes are no MP4 file: they don't begin with a box, whose type is
    four letters."""
    return len(data) < 8 or not data[4:8].isalpha()


def past_end_text(movie):
    lines = ["opens"]
    for number in sorted(movie.tracks):
        past = past_end(movie.tracks[number], len(movie.data))
        if past:
            noun = "sample" if len(past) == 1 else "samples"
            lines.append(f"track {number}, past the end of the file: {grouped(len(past))} {noun}, from sample "
                         f"{grouped(past[0][0])} at byte {grouped(past[0][1].offset)}")
    return "\n".join(lines) + "\n"
