"""The files of the cases in crates/mp4_vectors/data, in the form that docs/VECTORS.md states."""

import re

SUBJECTS = ("file", "report", "box")


def without_comment(line):
    return re.sub(r"(^|\s)#.*", "", line)


def items(text):
    """The items of a file of cases: a line that doesn't begin with a space, and those after it that do."""
    item = None
    for line in text.splitlines():
        bare = without_comment(line)
        if not bare.strip():
            if not (line.startswith(" ") and line.strip()):
                if item:
                    yield item
                item = None
        elif line.startswith(" "):
            item = (item or "") + bare
        else:
            if item:
                yield item
            item = bare
    if item:
        yield item


def code_of(word):
    return bytes.fromhex(word) if len(word) == 8 else word.encode("latin-1")


def bytes_of(words, named):
    """The bytes that words mean; a `[` begins a box, whose size its `]` fills in."""
    out, open_boxes = bytearray(), []
    for word in words:
        bare = word.rstrip("]")
        if bare.startswith("["):
            open_boxes.append(len(out))
            out += bytes(4) + code_of(bare[1:])
        elif bare:
            part, _, times = bare.partition("*")
            if part.startswith("$"):
                part = named[part[1:]]
            elif part.startswith("'"):
                part = part.strip("'").encode()
            else:
                part = bytes.fromhex(part)
            out += part * int(times or 1)
        for _ in range(len(word) - len(bare)):
            begin = open_boxes.pop()
            out[begin:begin + 4] = (len(out) - begin).to_bytes(4, "big")
    if open_boxes:
        raise ValueError("a box isn't ended")
    return bytes(out)


def changed(data, words, named):
    """A subject's bytes with others written over them: `01 at 8, 'free' at 60`. What follows isn't looked
    at."""
    data = bytearray(data)
    while "at" in words:
        at = words.index("at")
        part, place = bytes_of(words[:at], named), words[at + 1]
        offset = int(place.rstrip(","))
        data[offset:offset + len(part)] = part
        words = words[at + 2:] if place.endswith(",") else []
    return bytes(data)


def question_bytes(data, words, named):
    """The bytes that a question asks of: its subject's, or these cut or changed."""
    for index, word in enumerate(words):
        if words[index:index + 2] == ["cut", "to"]:
            return data[:int(words[index + 2])]
        if word == "with":
            return changed(data, words[index + 1:], named)
    return data


def files_in(path, most):
    """The files that the cases of a file of cases ask of, of at most so many bytes: each with its case, and
    what it is: a `file`, a `box` alone, or bytes `changed` by a question."""
    named, case, seen, data, subject = {}, "", set(), None, None
    for item in items(path.read_text()):
        word, *rest = item.split()
        question, is_answer, _ = item.partition(" =")
        if word == "case":
            case = " ".join(rest)
        elif word == "let":
            named[rest[0]] = bytes_of(rest[2:], named)
        elif not is_answer:
            subject = word
            data = bytes_of([w for w in rest if w != "''"], named) if word in SUBJECTS else None
        if word in ("case", "let") or data is None:
            continue
        asked = question_bytes(data, question.split(), named) if is_answer else data
        if len(asked) <= most and asked not in seen:
            seen.add(asked)
            yield case, asked, "changed" if is_answer else "box" if subject == "box" else "file"
