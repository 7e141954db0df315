"""What mp4_inspect tracks says of a file, written again from the file's bytes: names of codecs by RFC 6381,
sums over the samples one by one, and the rest as the boxes have it."""

import re

from box_grammar import Refused
from report_texts import MOST, clock_of, code, grouped, whole

# More samples aren't summed up here. A language of Macintosh isn't compared, whose names are a table of Apple's.
MOST_SAMPLES = 3000
UNCOMPARED = "a language of Macintosh"
UNKNOWN = (0, (1 << 32) - 1, MOST)
FREQUENCIES = (96000, 88200, 64000, 48000, 44100, 32000, 24000, 22050, 16000, 12000, 11025, 8000, 7350)
CHANNELS = {1: 1, 2: 2, 3: 3, 4: 4, 5: 5, 6: 6, 7: 8}
KINDS = {b"vide": "video", b"soun": "audio", b"sbtl": "subtitles", b"subt": "subtitles", b"text": "subtitles"}


class Untried(Exception):
    """A file of which this report isn't written again."""


def entry_of(track):
    """The sample entry of a track: its type, and its value where it is read."""
    stsd = track.stbl[b"stsd"][-1]
    for kind, values in stsd.items():
        return (values, None) if kind == "other" else (kind, values[-1])
    return None, None


def hevc_name(config):
    """ISO/IEC 14496-15, E.3."""
    general = config[1]
    space = ("", "A", "B", "C")[general >> 6]
    flags = int(f"{int.from_bytes(config[2:6], 'big'):032b}"[::-1], 2)
    constraints = config[6:12].rstrip(b"\0")
    tier = "H" if general & 0x20 else "L"
    shown = "".join(f".{byte:X}" for byte in constraints)
    return f"hev1.{space}{general & 0x1f}.{flags:X}.{tier}{config[12]}{shown}"


def codec_of(kind, entry):
    if kind == b"avc1":
        avcc = entry[b"avcC"][-1]
        names = ("avc_profile_indication", "profile_compatibility", "avc_level_indication")
        return "avc1." + "".join(f"{avcc[name]:02x}" for name in names)
    if kind == b"hev1":
        config = entry[b"hvcC"][-1]["configuration"]
        return hevc_name(config) if len(config) >= 13 else "hev1"
    if kind == b"vp09":
        config = entry[b"vpcC"][-1]["configuration"]
        return f"vp09.{config[4]:02}.{config[5]:02}.{config[6] >> 4:02}" if len(config) >= 7 else "vp09"
    if kind == b"mp4a" and b"esds" in entry:
        esds = entry[b"esds"][-1]
        if esds["object_type_indication"] != 0x40:
            return f"mp4a.{esds['object_type_indication']:02x}"
        return "mp4a.40" + (f".{esds['audio_object_type']}" if esds["audio_object_type"] else "")
    return None if kind is None else code(kind)


def sound_of(entry):
    """Frequency as played, the encoded one where that is half of it, and channels (ISO/IEC 14496-3, 1.5.1.2,
    1.6.3)."""
    frequency, core, channels = int(entry["samplerate"]), None, entry["channelcount"]
    esds = entry[b"esds"][-1] if b"esds" in entry else None
    kind = esds["audio_object_type"] if esds and esds["object_type_indication"] == 0x40 else 0
    if kind:
        channels = CHANNELS.get(esds["channel_configuration"], channels)
        channels = 2 if kind == 29 and channels == 1 else channels
        if esds["sampling_frequency_index"] < len(FREQUENCIES):
            frequency = FREQUENCIES[esds["sampling_frequency_index"]]
            frequency, core = (2 * frequency, frequency) if kind in (5, 29) else (frequency, None)
    return [("sampling_frequency", frequency), ("core_frequency", core), ("channels", channels)]


def pictures_of(track, kind, entry):
    if kind in (b"avc1", b"hev1", b"vp09"):
        return [("width", entry["width"]), ("height", entry["height"])]
    tkhd = track.trak[b"tkhd"][-1]
    return [("width", int(tkhd["width"])), ("height", int(tkhd["height"]))]


def language_of(characters):
    if characters[0] == "`":
        return UNCOMPARED
    if characters == "\x7f" * 3:
        return "und"
    return characters if all("a" <= c <= "z" for c in characters) else None


def samples_of(track):
    """The samples of a track up to the first that is refused."""
    rows = []
    if track.is_empty():
        return rows
    runs = track.in_fragments(MOST_SAMPLES + 1) if track.trafs else []
    if sum(count for _, count in runs) > MOST_SAMPLES:
        raise Untried
    added = [place for shown, _ in runs for place in shown]
    for number in range(1, MOST_SAMPLES + 2):
        if number > MOST_SAMPLES:
            raise Untried
        if track.trafs and number > track.count:
            if number - track.count > len(added):
                return rows
            place = added[number - track.count - 1]
            if place.offset is None or place.start is None:
                return rows
        else:
            try:
                place = track.in_tables(number)
            except Refused:
                return rows
            if place is None:
                return rows
        rows.append((number, place))
    return rows


def past_end(track, file_size):
    """The samples that don't lie whole in the file."""
    return [(n, place) for n, place in samples_of(track) if place.offset + place.size > file_size]


def range_of(track):
    """How many ticks there are from the first sample up to the end of the last, where both times are
    known."""
    runs = track.in_fragments(MOST_SAMPLES + 1) if track.trafs else []
    added = [place for shown, _ in runs for place in shown]
    times = lambda place: (place.start, place.duration)

    def timing(number):
        if number > track.count:
            return times(added[number - track.count - 1])
        start, duration = track.time_of(number)
        return (start if start <= MOST else None), duration

    last = track.count + len(added)
    if last == 0:
        return None
    try:
        (start, _), (begin, lasts) = timing(1), timing(last)
    except Refused:
        return None
    if start is None or begin is None or begin + lasts > MOST:
        return None
    return max(0, begin + lasts - start)


def within(number):
    return number if number <= MOST else None


def nearest_ms(ticks, times, timescale):
    second = times * timescale
    return within((ticks * 2000 + second) // (2 * second)) if second else None


def report(track, file_size):
    kind, entry = entry_of(track)
    handler = track.mdia[b"hdlr"][-1]["handler_type"]
    is_video = handler == b"vide"
    language = language_of(track.letters)
    rows = samples_of(track)
    header = track.mdia[b"mdhd"][-1]["duration"]
    ticks = range_of(track) if track.trafs or header in UNKNOWN else header
    rate = within((len(rows) * 2000 * track.timescale + ticks) // (2 * ticks)) if ticks and is_video else None
    size = min(sum(place.size for _, place in rows) * 8, MOST)
    sync = [place.start for _, place in rows if place.is_sync]
    gaps = [max(0, after - before) for before, after in zip(sync, sync[1:])]
    past = past_end(track, file_size)
    edts = track.trak[b"edts"][-1] if b"edts" in track.trak else {}
    duration = within(ticks * 1000 // track.timescale) if ticks is not None and track.timescale else None
    return [
        ("id", track.id),
        ("kind", KINDS.get(handler) or code(handler)),
        ("codec", codec_of(kind, entry)),
        ("pictures", pictures_of(track, kind, entry) if is_video else None),
        ("frame_rate", rate),
        ("sound", sound_of(entry) if kind == b"mp4a" else None),
        ("bit_rate", within(size * track.timescale // ticks) if ticks else None),
        ("language", language),
        ("timescale", track.timescale),
        ("duration_ms", duration),
        ("samples", len(rows)),
        ("sync_samples", len(sync)),
        ("sync_longest_ms", nearest_ms(max(gaps), 1, track.timescale) if gaps else None),
        ("sync_mean_ms", nearest_ms(max(0, sync[-1] - sync[0]), len(gaps), track.timescale) if gaps else None),
        ("edits", len(edts[b"elst"][-1]["entries"]) if b"elst" in edts else 0),
        ("fragments", len(track.trafs)),
        ("past_end", [("count", len(past)), ("first", past[0][0]), ("place", past[0][1].offset)] if past else None),
    ]


def json(movie):
    tracks = []
    for number in sorted(movie.tracks):
        row = dict(report(movie.tracks[number], len(movie.data)))
        for name in ("bit_rate", "duration_ms", "sync_longest_ms", "sync_mean_ms"):
            row[name] = None if row[name] is None else whole(row[name])
        if row["frame_rate"] is not None:
            row["frame_rate"] = row["frame_rate"] / 1000 if row["frame_rate"] < 1 << 32 else whole(row["frame_rate"] // 1000)
        if row["past_end"] is not None:
            row["past_end"] = [(name, whole(value)) for name, value in row["past_end"]]
        tracks.append(list(row.items()))
    return [("tracks", tracks)]


def sound_text(sound):
    frequency, core, channels = (value for _, value in sound)
    of = f" of {grouped(core)} Hz encoded" if core is not None else ""
    return f"{grouped(frequency)} Hz{of}, {channels} channel{'' if channels == 1 else 's'}"


def track_text(r):
    lines = [f"track {r['id']}: {r['kind']}" + (f", {r['codec']}" if r["codec"] else "")]
    line = lambda name, said: lines.append(f"  {name:<13} {said}")
    if r["pictures"]:
        rate = r["frame_rate"]
        said = "" if rate is None else f", {rate // 1000}.{rate % 1000:03} in a second"
        line("pictures", f"{r['pictures'][0][1]} x {r['pictures'][1][1]}{said}")
    if r["sound"]:
        line("sound", sound_text(r["sound"]))
    line("language", r["language"] or "not known")
    if r["duration_ms"] is not None:
        line("duration", clock_of(r["duration_ms"], 3))
    if r["bit_rate"] is not None:
        line("bit rate", f"{grouped(r['bit_rate'])} bits in a second")
    line("samples", grouped(r["samples"]))
    gaps = [r["sync_longest_ms"], r["sync_mean_ms"]]
    if r["samples"] and r["samples"] == r["sync_samples"]:
        line("sync samples", "all")
    else:
        apart = "" if None in gaps else f", at most {clock_of(gaps[0], 3)} apart, {clock_of(gaps[1], 3)} on average"
        line("sync samples", grouped(r["sync_samples"]) + apart)
    line("edits", grouped(r["edits"]))
    line("fragments", grouped(r["fragments"]))
    if r["past_end"]:
        count, first, place = (value for _, value in r["past_end"])
        noun = "sample" if count == 1 else "samples"
        line("past the end", f"{grouped(count)} {noun}, from sample {grouped(first)} at byte {grouped(place)}")
    return "\n".join(lines) + "\n"


def known_text(movie, said):
    """What is said of the tracks, without the names of languages of Macintosh."""
    parts = re.split(r"^(?=track )", said, flags=re.MULTILINE)
    for index, number in enumerate(sorted(movie.tracks), 1):
        if index < len(parts) and language_of(movie.tracks[number].letters) == UNCOMPARED:
            parts[index] = re.sub(r"(?<=  language      ).*", UNCOMPARED, parts[index])
    return "".join(parts)


def known_json(movie, document):
    tracks = document and dict(document).get("tracks")
    for track, number in zip(tracks or (), sorted(movie.tracks)):
        if language_of(movie.tracks[number].letters) == UNCOMPARED:
            track[:] = [(name, UNCOMPARED if name == "language" else said) for name, said in track]
    return document


def text(movie):
    reports = [dict(report(movie.tracks[number], len(movie.data))) for number in sorted(movie.tracks)]
    return "\n".join(map(track_text, reports)) or "no tracks\n"
