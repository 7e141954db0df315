"""What mp4_inspect metadata says of a file, written again from the file's bytes: title, year, summary and
picture as docs/FORMAT.md reads them, and the tags whose names docs/INSPECT.md or a case has."""

from box_grammar import DAY, NAM, Refused, children, children_start, lossy, read

# The names of items of iTunes and of texts of user data, as far as they are documented.
NAMES = {NAM: "title", DAY: "date", b"\xa9ART": "artist", b"\xa9alb": "album", b"trkn": "track", b"tmpo": "tempo"}
PICTURES = {(13, b"\xff\xd8\xff"): "JPEG", (14, b"\x89PN"): "PNG"}


class Untried(Exception):
    """Tags of which no document says how they are shown."""


def last(payload, kind, start=0):
    """The payload of the last child of a type; None where there is none, or no container."""
    found = [] if payload is None else [part for child, _, part in children(payload, start) if child == kind]
    return found[-1] if found else None


def last_items(moov):
    """The last list of items of the last metadata of the last user data, where its handler is that of iTunes."""
    meta = last(last(moov, b"udta"), b"meta")
    if meta is None:
        return None
    start = children_start(b"meta", meta)
    handler = read(b"hdlr", last(meta, b"hdlr", start))["handler_type"]
    return last(meta, b"ilst", start) if handler == b"mdir" else None


def is_plain(text):
    return all(c.isprintable() for c in text)


def year_of(number, value):
    if number == 0:
        return int.from_bytes(value, "big") if len(value) == 4 else None
    digits = value.decode("latin-1").removeprefix("+")
    if number != 1 or not digits or not all(c in "0123456789" for c in digits):
        return None
    return int(digits) if int(digits) < 1 << 32 else None


class Metadata:
    """What a movie's metadata says."""

    def __init__(self, moov):
        items = last_items(moov)
        data = {kind: last(last(items, kind), b"data") for kind in (NAM, DAY, b"desc", b"covr")}
        said = {kind: (int.from_bytes(part[:4], "big"), part[8:]) for kind, part in data.items() if part is not None}
        text = lambda kind: lossy(said[kind][1]) if kind in said else None
        self.title, self.summary = text(NAM), text(b"desc")
        self.year = year_of(*said[DAY]) if DAY in said else None
        self.cover = said.get(b"covr")

    def format(self):
        """That of the picture, where its type and its first bytes agree on one."""
        number, value = self.cover
        return PICTURES.get((number, value[:3]))

    def cover_json(self):
        return None if self.cover is None else [("format", self.format()), ("bytes", len(self.cover[1]))]

    def json(self, tags):
        """The members of the document; of tags that aren't documented, None."""
        listed = tags and [list(zip(("key", "value", "language"), tag)) for tag in tags]
        said = (self.title, self.year, self.summary, self.cover_json(), listed)
        return list(zip(("title", "year", "summary", "cover", "tags"), said))

    def known(self, document, tags):
        """A document without what no document says of it."""
        known = []
        for name, value in document or ():
            if name == "tags" and tags is None:
                value = None
            if name == "cover" and value and self.cover and self.format() is None:
                value = [(part, None if part == "format" else said) for part, said in value]
            known.append((name, value))
        return known

    def text(self, tags):
        """The words with which the text begins: names, and their values as far as they are of visible
        characters."""
        if tags == [] and (self.title, self.year, self.summary, self.cover) == (None, None, None, None):
            return ["no", "metadata"]
        words = []
        for name, said in (("title", self.title), ("year", self.year), ("summary", self.summary)):
            if said is not None and not is_plain(str(said)):
                break
            words += [] if said is None else [name, *str(said).split()]
        return words


def value_of(kind, payload):
    """The value of an item of iTunes whose only data is a text, or one of the numbers that cases have."""
    datas = [part for child, _, part in children(payload, 0) if child == b"data"]
    if len(datas) != 1 or len(datas[0]) < 8:
        raise Untried
    number, value = int.from_bytes(datas[0][:4], "big"), datas[0][8:]
    if kind == b"trkn" and number == 0 and len(value) == 8 and value[2:4] != b"\0\0" != value[4:6]:
        return f"{int.from_bytes(value[2:4], 'big')}/{int.from_bytes(value[4:6], 'big')}"
    if kind == b"tmpo" and number == 21 and len(value) == 2:
        return str(int.from_bytes(value, "big"))
    if number != 1 or kind in (b"trkn", b"tmpo"):
        raise Untried
    return plain_text(value, "utf-8")


def plain_text(data, coding):
    try:
        text = data.decode(coding)
    except UnicodeDecodeError:
        raise Untried from None
    if not text or not is_plain(text):
        raise Untried
    return text


def name_of(payload):
    """The name of an item `----`: who says what it means, and the name there."""
    said = {child: part for child, _, part in children(payload, 0)}
    if b"mean" not in said or b"name" not in said:
        raise Untried
    return ":".join(plain_text(said[kind][4:], "ascii") for kind in (b"mean", b"name"))


def items_of(ilst):
    for kind, _, payload in children(ilst, 0):
        if kind == b"covr":
            continue
        if kind not in NAMES and kind != b"----":
            raise Untried
        key = NAMES[kind] if kind in NAMES else name_of(payload)
        yield key, value_of(kind, payload), None


def keyed_items(meta, start):
    """The items of QuickTime's metadata, each by the key of its number."""
    inner = {kind: payload for kind, _, payload in children(meta, start)}
    if b"keys" not in inner or b"ilst" not in inner:
        raise Untried
    keys = [plain_text(name, "ascii") for _, _, name in children(inner[b"keys"], 8)]
    for kind, _, payload in children(inner[b"ilst"], 0):
        number = int.from_bytes(kind, "big")
        if not 0 < number <= len(keys):
            raise Untried
        yield keys[number - 1], value_of(kind, payload), None


def texts_of(kind, payload):
    """The texts of a box of user data (QuickTime File Format, "User Data Text Strings"): of each its length,
    its language, packed or a number of Macintosh's, and its characters."""
    while payload:
        size, language, text = payload[:2], int.from_bytes(payload[2:4], "big"), payload[4:]
        length = int.from_bytes(size, "big")
        if len(payload) < 4 or length > len(text) or 0 < language < 0x400 or language == 0x7fff:
            raise Untried
        value = plain_text(text[:length], "utf-8" if language else "mac_roman")
        letters = "".join(chr(0x60 + (language >> shift) % 32) for shift in (10, 5, 0)) if language else None
        if letters is not None and not letters.isalpha():
            raise Untried
        yield NAMES[kind], value, letters
        payload = text[length:]


def meta_tags(meta):
    start = children_start(b"meta", meta)
    inner = {}
    for kind, _, payload in children(meta, start):
        inner.setdefault(kind, []).append(payload)
    handler = read(b"hdlr", inner[b"hdlr"][-1])["handler_type"]
    if handler == b"mdta":
        yield from keyed_items(meta, start)
    elif handler == b"mdir" and len(inner.get(b"ilst", ())) == 1:
        yield from items_of(inner[b"ilst"][0])
    else:
        raise Untried


def tags_of(moov):
    """The tags of a payload of moov in file order."""
    for kind, _, payload in children(moov, 0):
        if kind == b"meta":
            yield from meta_tags(payload)
        elif kind == b"udta":
            for inner, _, part in children(payload, 0):
                if inner == b"meta":
                    yield from meta_tags(part)
                elif inner in NAMES:
                    yield from texts_of(inner, part)
                elif inner[:1] == b"\xa9":
                    raise Untried


def tags(moov):
    """The tags, or None where no document says how one of them is shown."""
    try:
        return list(tags_of(moov))
    except (Untried, Refused):
        return None
