"""How mp4_inspect writes numbers, times and values, as docs/INSPECT.md says: in texts for people, and in
JSON."""

import datetime
from decimal import Decimal

EXACT = 1 << 53  # past it a number is a text in JSON (RFC 8259, 6)
MOST = (1 << 64) - 1


def grouped(number):
    return f"{number:,}"


def whole(number):
    return number if -EXACT <= number <= EXACT else str(number)


def code(data):
    """A code of four bytes: what is neither visible, nor a space, nor ©, is a full stop."""
    return "".join(chr(byte) if 0x20 <= byte <= 0x7e or byte == 0xa9 else "." for byte in data)


def date(seconds):
    """A time in seconds from the beginning of 1904 on. Python's calendar ends with the year 9999: as the
    Gregorian one has the same days every 400 years, a later time is that of so many times 400 years
    earlier."""
    if seconds == 0:
        return "not set"
    era = 146097 * 86400
    day = datetime.datetime(1904, 1, 1) + datetime.timedelta(seconds=seconds % era)
    return f"{day.year + seconds // era * 400}-{day:%m-%d %H:%M:%S} UTC"


def decimals_of(timescale):
    """As many as tell two ticks apart, three at least."""
    return max(3, len(str(timescale - 1))) if timescale > 1 else 3


def rounded(ticks, timescale, second):
    """Parts of a second, rounded towards what is later."""
    magnitude = min(abs(ticks), MOST)
    return magnitude * second // timescale if ticks < 0 else -(-magnitude * second // timescale)


def clock_of(parts, decimals):
    seconds, part = divmod(parts, 10 ** decimals)
    return f"{seconds // 3600}:{seconds // 60 % 60:02}:{seconds % 60:02}.{part:0{decimals}}"


def clock(ticks, timescale):
    if timescale == 0:
        return "-"
    decimals = decimals_of(timescale)
    return ("-" if ticks < 0 else "") + clock_of(rounded(ticks, timescale, 10 ** decimals), decimals)


def seconds_of(ticks, timescale):
    if timescale == 0:
        return "-"
    decimals = decimals_of(timescale)
    second, part = divmod(rounded(ticks, timescale, 10 ** decimals), 10 ** decimals)
    return f"{second}.{part:0{decimals}}"


def fraction(number):
    return format(Decimal(repr(number)), "f").removesuffix(".0")


QUOTED = {'"': '\\"', "\\": "\\\\", "\n": "\\n", "\r": "\\r", "\t": "\\t", "\0": "\\0"}


def quoted(text):
    """A text as Rust prints it: what isn't printable by its number."""
    one = lambda c: QUOTED.get(c) or (c if c.isprintable() else f"\\u{{{ord(c):x}}}")
    return f'"{"".join(map(one, text))}"'


def listed(values, most, show, between):
    few = values if most is None else values[:most]
    more = " .." if len(few) < len(values) else ""
    return f"({grouped(len(values))})" + (between if values else "") + show(few) + more


def table(names, rows, most):
    few = rows if most is None else rows[:most]
    lines = [f"({grouped(len(rows))})"]
    if rows:
        lines.append("".join(f"  {name}" for name in names))
        cell = lambda number: grouped(number) if number >= 0 else str(number)
        lines += ["".join(f"  {cell(n):>{len(name)}}" for name, n in zip(names, row)) for row in few]
        lines += ["  .."] if len(few) < len(rows) else []
    return "\n    ".join(lines)


def value_text(kind, value, most):
    """A field's value for people; of a list the first values alone, where there is a most."""
    simple = {
        "missing": lambda v: "-", "number": grouped, "signed": str, "fixed": fraction, "time": date, "code": code,
        "flags": lambda v: f"0x{v:06x}", "text": quoted,
        "all fixed": lambda v: " ".join(map(fraction, v)),
        "bytes": lambda v: listed(v, most, lambda few: few.hex(), " "),
        "codes": lambda v: listed(v, most, lambda few: " ".join(map(code, few)), " "),
        "numbers": lambda v: listed(v, most, lambda few: " ".join(map(grouped, few)), " "),
    }
    return simple[kind](value) if isinstance(kind, str) else table(kind, value, most)


def value_json(kind, value, most):
    """The same in JSON, an object being a list of its members."""
    few = lambda show: [("count", len(value)), ("first", [show(v) for v in value[:most]])]
    if not isinstance(kind, str):
        return few(lambda row: [(name, whole(n)) for name, n in zip(kind, row)])
    simple = {
        "missing": lambda: None, "number": lambda: whole(value), "signed": lambda: whole(value),
        "time": lambda: whole(value), "code": lambda: code(value), "bytes": lambda: few(int),
        "codes": lambda: few(code), "numbers": lambda: few(whole),
    }
    return simple.get(kind, lambda: value)()
