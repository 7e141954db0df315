"""Files that are damaged at random: bytes, numbers, types and sizes written over, and boxes cut, taken out,
doubled, or put from one file in another, where the boxes around them are made to fit."""

from box_grammar import LEAVES, READ
from report_boxes import Boxes

NUMBERS = (0, 1, 2, 3, 4, 7, 8, 15, 16, 100, 1000, 0xffff, 0x7fffffff, 0x80000000, 0xfffffffe, 0xffffffff)


def boxes_of(data):
    return [row for row in Boxes(data, 1 << 32).rows() if row["type"] is not None]


def bytes_written(data, row, chance):
    data = bytearray(data)
    for _ in range(chance.randint(1, 3)):
        place = chance.randrange(row["place"], row["place"] + row["size"])
        data[place] = chance.choice((0, 1, 2, 0x7f, 0x80, 0xff, chance.randrange(256)))
    return bytes(data)


def number_written(data, row, chance):
    """A number of 32 bits, at a multiple of 4 bytes in a box."""
    place = row["place"] + 4 * chance.randrange(row["size"] // 4)
    return data[:place] + chance.choice(NUMBERS).to_bytes(4, "big") + data[place + 4:]


def type_written(data, row, chance):
    place = row["place"] + 4
    return data[:place] + chance.choice([*LEAVES, *READ, b"free", b"wave"]) + data[place + 4:]


def size_written(data, row, chance):
    place = row["place"]
    size = max(0, row["size"] + chance.choice((-8, -4, -1, 1, 4, 8, 9)))
    return data[:place] + size.to_bytes(4, "big") + data[place + 4:]


def replaced(data, row, part):
    """A file with other bytes in place of a box, and the sizes of the boxes around it to suit."""
    begin, end = row["place"], row["place"] + row["size"]
    out = bytearray(data)
    for outer in boxes_of(data):
        if outer["place"] < begin and end <= outer["place"] + outer["size"]:
            at, wide = (outer["place"] + 8, 8) if outer["header_size"] == 16 else (outer["place"], 4)
            size = int.from_bytes(data[at:at + wide], "big") + len(part) - (end - begin)
            if 8 <= size < 1 << 8 * wide - 1:
                out[at:at + wide] = size.to_bytes(wide, "big")
    return bytes(out[:begin]) + part + bytes(out[end:])


def own_bytes(data, row):
    return data[row["place"]:row["place"] + row["size"]]


def resized(data, row, chance):
    """A box that ends earlier, or with a few zeros more."""
    size = chance.choice((*range(row["header_size"], row["size"]), row["size"] + 1, row["size"] + 4))
    part = bytearray(own_bytes(data, row)[:size].ljust(size, b"\0"))
    if row["header_size"] == 8:
        part[:4] = size.to_bytes(4, "big")
    return replaced(data, row, bytes(part))


def taken_out(data, row, chance):
    return replaced(data, row, b"")


def doubled(data, row, chance):
    return replaced(data, row, own_bytes(data, row) * 2)


def put_in(files):
    def put(data, row, chance):
        """A box of another file in place of one of its type, or beside it."""
        _, other = chance.choice(files)
        there = [own_bytes(other, found) for found in boxes_of(other) if found["type"] == row["type"]]
        part = chance.choice(there) if there else b""
        return replaced(data, row, part + chance.choice((b"", own_bytes(data, row))))
    return put


def container_of(path):
    """The type of the box around the one at a path; of the file itself, none."""
    outer = path.rpartition("/")[0].rpartition("/")[2]
    return outer.partition("[")[0]


def grafted(files):
    def graft(data, row, chance):
        """A box of another file after one that lies in a container of the same type."""
        _, other = chance.choice(files)
        container = container_of(row["path"])
        there = [own_bytes(other, found) for found in boxes_of(other) if container_of(found["path"]) == container]
        return replaced(data, row, own_bytes(data, row) + (chance.choice(there) if there else b""))
    return graft


def damaged(files, chance):
    """One of the files, damaged at up to three places, and its name."""
    name, data = chance.choice(files)
    changes = (bytes_written, number_written, number_written, type_written, size_written, taken_out, doubled,
               resized, resized, put_in(files), put_in(files), grafted(files), grafted(files))
    for _ in range(chance.choice((1, 1, 2, 3))):
        rows = [row for row in boxes_of(data) if row["size"] >= 8]
        if rows:
            data = chance.choice(changes)(data, chance.choice(rows), chance)
    return name, data
