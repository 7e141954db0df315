"""Compares what mp4_inspect tracks --json says of a file with ffprobe's streams: compare_tracks.py TRACKS STREAMS
FILE, two files of JSON and the file itself. A line for each stream: `agrees ID`, `excused ID REASON` or `differs ID
WHAT`."""

import json
import sys

# How ffprobe's names of codecs begin in RFC 6381; any other codec goes by the code of its sample entry.
NAMES = {"h264": ("avc1.",), "hevc": ("hev1.", "hvc1."), "aac": ("mp4a.40.",), "vp9": ("vp09.",), "av1": ("av01",)}


def codec_of(stream):
    """How the name of a stream's codec may begin."""
    code = stream.get("codec_tag_string", "")
    name = stream.get("codec_name", "")
    return NAMES[name] + (code,) if name in NAMES else (code,)


def difference(track, stream):
    """What differs between a track and a stream, if anything does."""
    codec = track["codec"] or ""
    if not codec.startswith(codec_of(stream)):
        return f"codec {codec} and {stream.get('codec_name')} {stream.get('codec_tag_string')}"
    if stream.get("codec_name") == "h264" and codec.startswith("avc1.") and int(codec[-2:], 16) != stream["level"]:
        return f"level of {codec} and {stream['level']}"
    if stream["codec_type"] == "video" and track["pictures"]:
        ours = (track["pictures"]["width"], track["pictures"]["height"])
        theirs = (stream["width"], stream["height"])
        if ours != theirs:
            return f"pictures {ours} and {theirs}"
    if stream["codec_type"] == "audio" and track["sound"]:
        ours = (track["sound"]["sampling_frequency"], track["sound"]["channels"])
        theirs = (int(stream["sample_rate"]), stream["channels"])
        if ours != theirs:
            return f"sound {ours} and {theirs}"
    if "duration" in stream and track["duration_ms"] is not None:
        theirs = float(stream["duration"]) * 1000
        if abs(track["duration_ms"] - theirs) > 1:
            return f"duration {track['duration_ms']} and {theirs:.0f} ms"
    return None


def children(data):
    """The boxes that bytes are, as their types and payloads."""
    while len(data) >= 8:
        size, front = int.from_bytes(data[:4], "big"), 8
        if size == 1:
            size, front = int.from_bytes(data[8:16], "big"), 16
        elif size == 0:
            size = len(data)
        if size < front:
            return
        yield data[4:8].decode("latin-1"), data[front:size]
        data = data[size:]


def child(data, *path):
    """The payload of the last box at a path of types."""
    for kind in path:
        data = dict(children(data))[kind]
    return data


def header_ticks(mdhd):
    """The timescale of a media header, and its duration in ticks."""
    if mdhd[0] == 0:
        return int.from_bytes(mdhd[12:16], "big"), int.from_bytes(mdhd[16:20], "big")
    return int.from_bytes(mdhd[20:24], "big"), int.from_bytes(mdhd[24:32], "big")


def sample_ticks(stts):
    """How many ticks all samples of a table of durations last."""
    entries = (stts[at:at + 8] for at in range(8, 8 + 8 * int.from_bytes(stts[4:8], "big"), 8))
    return sum(int.from_bytes(each[:4], "big") * int.from_bytes(each[4:], "big") for each in entries)


def samples_end_before_header(track, stream, file):
    """Whether the file's bytes say that the track's samples together don't last as long as its media header says, where
    the program goes by the header and ffprobe by the samples."""
    for kind, trak in children(child(open(file, "rb").read(), "moov")):
        if kind != "trak":
            continue
        tkhd = child(trak, "tkhd")
        if int.from_bytes(tkhd[12:16] if tkhd[0] == 0 else tkhd[20:24], "big") != track["id"]:
            continue
        timescale, header = header_ticks(child(trak, "mdia", "mdhd"))
        lasts = sample_ticks(child(trak, "mdia", "minf", "stbl", "stts"))
        is_ours = abs(track["duration_ms"] - header * 1000 / timescale) <= 1
        return is_ours and lasts == stream["duration_ts"] and lasts < header
    return False


def reason(track, stream, said, file):
    """Why ffprobe is known to say something else of a stream, if it is."""
    if stream.get("codec_tag_string") in ("mp4a",) and stream.get("codec_name") != "aac" and said.startswith("sound"):
        return "sound of mp4a that isn't AAC, which ffprobe takes of the sound itself"
    if track["codec"] in ("encv", "enca"):
        return "encrypted samples, whose code ffprobe replaces by that of what was encrypted"
    if stream.get("codec_name") == "h263" and said.startswith("pictures"):
        return "the size of H.263, which ffprobe takes of the pictures"
    if not said.startswith("duration"):
        return None
    if track["fragments"]:
        return "the duration of a track with fragments: the media header's, and ffprobe's of all samples"
    if stream["codec_type"] in ("subtitle", "data"):
        return "the duration of texts and data, which ffprobe says is the movie's"
    if samples_end_before_header(track, stream, file):
        return "the duration of the media header, where the samples, by which ffprobe goes, together last less"
    return None


def line(track, stream, file):
    """What is said of a track and a stream."""
    said = difference(track, stream)
    if not said:
        return f"agrees {track['id']}"
    known = reason(track, stream, said, file)
    return f"excused {track['id']} {known}" if known else f"differs {track['id']} {said}"


def main():
    tracks = {track["id"]: track for track in json.load(open(sys.argv[1]))["tracks"]}
    for stream in json.load(open(sys.argv[2]))["streams"]:
        track_id = int(stream.get("id", "0"), 16)
        if stream.get("disposition", {}).get("attached_pic"):
            print(f"excused {track_id} a cover, which ffprobe says is a stream")
        elif track_id not in tracks:
            print(f"differs {track_id} no such track")
        else:
            print(line(tracks[track_id], stream, sys.argv[3]))


main()
