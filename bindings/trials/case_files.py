"""Writes the files that the cases of crates/mp4_vectors are about: case_files.py DATA OUT.

docs/VECTORS.md says how bytes are written in cases. Each subject `file` or `report` becomes a file
of its own, without the changes that questions make to it, up to a size.
"""

import itertools
import pathlib
import re
import sys

# Larger files are left out: their subject is a size, not a table.
MOST_BYTES = 1 << 20


def items_of(text):
    """The items of a file of cases, each on one line, without comments."""
    lines = [re.sub(r"(^| )#.*", "", line) for line in text.splitlines()]
    item = ""
    for line in [*lines, ""]:
        if line.startswith(" "):
            item += " " + line.strip()
            continue
        if item:
            yield item
        item = line.strip()


def bytes_of(words, names):
    """The bytes that words write."""
    made = bytearray()
    begun = []
    for word in words:
        closed = len(word) - len(word.rstrip("]"))
        word = word.rstrip("]")
        if word.startswith("["):
            begun.append(len(made))
            kind = word[1:]
            made += bytes(4) + (kind.encode() if len(kind) == 4 else bytes.fromhex(kind))
        elif word:
            piece, _, times = word.partition("*")
            if piece.startswith("'"):
                part = piece.strip("'").encode()
            else:
                part = names[piece[1:]] if piece.startswith("$") else bytes.fromhex(piece)
            if len(part) * int(times or 1) > MOST_BYTES:
                raise OverflowError
            made += part * int(times or 1)
        for _ in range(closed):
            start = begun.pop()
            made[start : start + 4] = (len(made) - start).to_bytes(4, "big")
    return bytes(made)


def files_in(text):
    """The bytes of each subject `file` or `report`."""
    names = {}
    for item in items_of(text):
        kind, *words = item.split()
        try:
            if kind == "let":
                names[words[0]] = bytes_of(words[2:], names)
            elif kind in ("file", "report") and " = " not in item:
                yield bytes_of(words, names)
        except (OverflowError, KeyError):
            continue


def main():
    """Writes the files."""
    data, out = map(pathlib.Path, sys.argv[1:])
    seen = set()
    for source in sorted(data.glob("*.txt")):
        if source.name == "spoiled.txt":
            continue
        for number, made in zip(itertools.count(1), files_in(source.read_text(encoding="utf-8"))):
            if made not in seen:
                seen.add(made)
                (out / f"{source.stem}_{number}.mp4").write_bytes(made)


main()
