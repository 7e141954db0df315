"""What mp4_inspect boxes says of a file, written again from the file's bytes."""

from box_grammar import (INVALID, LEAVES, OWN, READ, Payload, Refused, children, children_start, header, read,
                         shown, wave_and_esds)
from report_texts import code, grouped, value_json, value_text, whole

NUMBERED = (b"trak", b"trex", b"moof", b"traf", b"trun", b"emsg")
FEW = 8


class Level:
    """The file, or a box whose children are listed."""

    def __init__(self, kind, path, end, reads=()):
        self.kind, self.path, self.end, self.reads = kind, path, end, reads
        self.counts, self.is_looked_at, self.inside_wave = {}, True, None

    def step(self, kind):
        self.counts[kind] = number = self.counts.get(kind, 0) + 1
        name = code(kind) + (f"[{number}]" if kind in NUMBERED or number > 1 else "")
        return f"{self.path}/{name}" if self.path else name

    def looks_at(self, kind, place):
        """Whether the reading of the file looks at the next box in it, of this type."""
        if kind == b"wave" and self.kind == b"mp4a" or kind == b"esds" and self.kind == b"wave":
            return self.inside_wave is not None and place in self.inside_wave
        return self.is_looked_at and kind in self.reads


def reads_items(payload):
    """Whether metadata is of iTunes: its boxes and handlers have no fault, and the last handler is mdir."""
    start = children_start(b"meta", payload)
    try:
        found = [read(kind, part) for kind, _, part in children(payload, start) if kind == b"hdlr"]
    except Refused:
        return False
    return bool(found) and found[-1]["handler_type"] == b"mdir"


def is_refused_within(kind, payload):
    """Whether an entry is refused for a box in it, which has a line of its own that says so."""
    start = children_start(kind, payload)
    if start is None or start > len(payload):
        return False
    try:
        for child, _, part in children(payload, start):
            if child in READ.get(kind, ()):
                read(child, part)
    except Refused:
        return not is_tail(kind, payload, start)
    wave = wave_and_esds(payload) if kind == b"mp4a" else None
    try:
        if wave is not None:
            read(b"esds", wave[2])
    except Refused:
        return True
    return False


def is_tail(kind, payload, start):
    """Whether the first fault of a box of boxes is that its tail is broken, and not that a child is
    refused."""
    try:
        for child, _, part in children(payload, start):
            if child in READ.get(kind, ()):
                try:
                    read(child, part)
                except Refused:
                    return False
    except Refused:
        return True
    return False


def own_refusal(kind, payload):
    """Why a box of boxes is refused, if that is for itself: for fields before its children that aren't whole, for
    a child that it lacks, or for its version."""
    if len(payload) < (4 if kind == b"meta" else children_start(kind, payload) or 0):
        return INVALID
    try:
        read(kind, payload)
    except Refused as refused:
        words = str(refused)
        lacks = [f"{shown(child)} not found" for child in READ[kind]]
        lacks += ["stco and co64 not found"] if kind == b"stbl" else []
        if words in lacks or words.startswith(f"{shown(kind)} version"):
            return words
    return None


def payload_said(kind, payload):
    """The fields of a payload, where they are listed and can be read, and why the box is refused."""
    if kind not in LEAVES:
        return None, own_refusal(kind, payload) if kind in READ else None
    try:
        fields = LEAVES[kind](Payload(payload))
        read(kind, payload)
        return fields, None
    except Refused as refused:
        within = kind in READ and is_refused_within(kind, payload)
        return None, None if within else str(refused)


class Boxes:
    """The boxes of a file in file order, down to a depth."""

    def __init__(self, data, depth):
        self.data, self.depth = data, depth
        self.has = set()
        self.is_settled = False

    def missing(self):
        """The box that the file lacks, if nothing else was said of it yet."""
        lacks = [kind for kind in (b"ftyp", b"moov") if kind not in self.has]
        return lacks[0] if lacks and not self.is_settled else None

    def rows(self):
        levels, place = [Level(None, "", len(self.data), OWN)], 0
        while True:
            while len(levels) > 1 and levels[-1].end - place < 8:
                place = max(place, levels.pop().end)
            level = levels[-1]
            if place >= level.end:
                break
            try:
                row, kind, payload, is_read = self.row(level, len(levels), place)
            except Refused as fault:
                row = self.broken(level, place, str(fault))
                place = level.end
            else:
                end = place + row["size"]
                place = self.enter(levels, row, kind, place + row["header_size"], end, is_read)
            self.is_settled |= row["refused"] is not None
            yield row
        if self.missing():
            yield self.lacking(self.missing())

    def broken(self, level, place, fault):
        return dict(path=level.path, type=None, place=place, size=level.end - place, past_end=0, header_size=0,
                    fields=None, refused=fault if level.is_looked_at else None)

    def lacking(self, kind):
        return dict(path="", type=None, place=len(self.data), size=0, past_end=0, header_size=0, fields=None,
                    refused=f"{shown(kind)} not found")

    def row(self, level, depth, place):
        kind, front, said = header(self.data, place, level.end)
        left = level.end - place
        fault = self.framing_fault(level, kind, front, said, left)
        is_read = said is not None and level.looks_at(kind, place)
        was_looked_at, level.is_looked_at = level.is_looked_at, level.is_looked_at and level.kind not in (b"stsd", b"edts")
        size = left if said is None else min(said, left)
        self.is_settled |= was_looked_at and fault is not None
        if depth == 1 and is_read:
            self.has.add(kind)
        payload = self.data[place + front:place + size]
        fields, refusal = payload_said(kind, payload) if is_read or kind in LEAVES else (None, None)
        refused = (fault if was_looked_at else None) or (refusal if is_read else None)
        if depth == 1 and said is None and self.missing() == kind:
            refused = refused or INVALID
        past_end = max(0, said - left) if depth == 1 and said is not None else 0
        row = dict(path=level.step(kind), type=code(kind), place=place, size=size, past_end=past_end, header_size=front,
                   fields=fields, refused=refused)
        return row, kind, payload, is_read

    def framing_fault(self, level, kind, front, said, left):
        """Why the reading refuses how a box is framed. A box of the file that is skipped may pass the end."""
        if level.kind is not None:
            return INVALID if said is None or said > left else None
        if said is None:
            return None
        if said - front + 8 > len(self.data):
            return INVALID
        return "end of data" if said > left and kind in OWN else None

    def enter(self, levels, row, kind, payload, end, is_read):
        """Goes to the first child of a box that is read, or past it; the place where that is."""
        data = self.data[payload:end]
        start = children_start(kind, data) if is_read else None
        if start is None or start > len(data) or len(levels) >= self.depth:
            return end
        reads = READ.get(kind, ())
        if kind == b"meta" and not reads_items(data):
            reads = (b"hdlr",)
        level = Level(kind, row["path"], end, reads)
        if kind == b"mp4a":
            wave = wave_and_esds(data)
            level.inside_wave = wave and (payload + wave[0], payload + wave[1])
        elif kind == b"wave":
            level.inside_wave = levels[-1].inside_wave
        levels.append(level)
        return payload + start


def text(data, depth=None, everything=False):
    rows = Boxes(data, depth or 1 << 32).rows()
    number = max(5, len(grouped(len(data))))
    path = min(2 + 8 * min(depth or 5, 5), 42)
    lines = [f"{'box':<{path}}  {'place':>{number}}  {'bytes':>{number}}"]
    for row in rows:
        name = "the file" if row["type"] is None and not row["path"] else row["path"]
        lines.append(f"{name:<{path}}  {grouped(row['place']):>{number}}  {grouped(row['size']):>{number}}")
        if row["refused"] is not None:
            lines.append(f"    REFUSED: {row['refused']}")
        elif row["past_end"]:
            lines.append(f"    it says {grouped(row['past_end'])} bytes more, past the end of the file")
        for field, kind, value in row["fields"] or ():
            lines.append(f"    {field:<25} {value_text(kind, value, None if everything else FEW)}")
    return "\n".join(lines) + "\n"


def json(data, depth=None, everything=False):
    most = None if everything else FEW
    boxes = []
    for row in Boxes(data, depth or 1 << 32).rows():
        for name in ("place", "size", "past_end"):
            row[name] = whole(row[name])
        if row["fields"] is not None:
            row["fields"] = [(name, value_json(kind, value, most)) for name, kind, value in row["fields"]]
        boxes.append(list(row.items()))
    return [("file_size", whole(len(data))), ("boxes", boxes)]
