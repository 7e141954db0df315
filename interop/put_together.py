"""Files that ffmpeg doesn't make, put together of one that it does, whose boxes are ftyp, free, mdat and moov:
put_together.py FILE OUT. Each is written as OUT_NAME.mp4."""

import pathlib
import struct
import sys

from remuxed import AROUND, boxes_in, only

UNKNOWN = "wxyz"


def box(name, payload):
    return struct.pack(">I4s", len(payload) + 8, name.encode("latin-1")) + payload


def wide_box(name, payload):
    return struct.pack(">I4sQ", 1, name.encode("latin-1"), len(payload) + 16) + payload


def rewritten(data, path, change, begin=0, end=None):
    """Bytes in which the payloads of the boxes at a path are changed, and the sizes around them to suit."""
    out = b""
    for each in boxes_in(data, begin, end):
        payload = data[each.inside:each.end]
        if each.type == path[0]:
            payload = rewritten(data, path[1:], change, each.inside, each.end) if path[1:] else change(payload)
            out += box(each.type, payload)
        else:
            out += data[each.begin:each.end]
    return out


def with_wide_offsets(movie):
    """A movie box whose chunk offsets have 64 bits."""
    def widened(payload):
        out = b""
        for each in boxes_in(payload, 0, len(payload)):
            part = payload[each.inside:each.end]
            if each.type == "stco":
                offsets = struct.unpack(f">{(len(part) - 8) // 4}I", part[8:])
                out += box("co64", part[:8] + struct.pack(f">{len(offsets)}Q", *offsets))
            else:
                out += box(each.type, part)
        return out
    return rewritten(movie, AROUND, widened)


def put_together(data):
    """The names of the files, and their bytes. The data begins where it did, so that the offsets hold."""
    parts = {each.type: data[each.begin:each.end] for each in boxes_in(data)}
    payload = {each.type: data[each.inside:each.end] for each in boxes_in(data)}
    front, movie = parts["ftyp"], parts["moov"]
    media = parts["free"] + parts["mdat"]
    yield "data_of_64_bits", front + wide_box("mdat", payload["mdat"]) + movie
    yield "movie_of_64_bits", front + media + wide_box("moov", payload["moov"])
    yield "offsets_of_64_bits", front + media + with_wide_offsets(movie)
    yield "boxes_after_the_movie", front + media + movie + box("free", bytes(5)) + box("uuid", bytes(range(40)))
    yield "unknown_boxes", front + media + box(UNKNOWN, b"one") + rewritten(
        rewritten(movie, ("moov",), lambda part: part + box(UNKNOWN, b"two") + box("udta", box(UNKNOWN, b"three"))),
        ("moov", "trak", "mdia", "minf", "stbl"), lambda part: part + box(UNKNOWN, b"four"))
    yield "user_data_that_ends_with_zeros", front + media + rewritten(
        movie, ("moov", "trak"), lambda part: part + box("udta", box(UNKNOWN, b"five") + bytes(4)))
    yield "data_around_the_movie", front + media + movie + box("mdat", b"of no sample")
    metadata = box("meta", bytes(4) + box("hdlr", bytes(8) + b"null" + bytes(13)))
    yield "metadata_of_the_file", front + media + movie + metadata
    yield "file_type_behind_free", parts["free"] + front + parts["mdat"] + movie
    yield "last_box_of_open_end", front + media + movie + b"\0\0\0\0free" + bytes(30)


def main(name, out):
    for kind, data in put_together(pathlib.Path(name).read_bytes()):
        pathlib.Path(f"{out}_{kind}.mp4").write_bytes(data)


if __name__ == "__main__":
    main(*sys.argv[1:])
