"""Compares files with what mp4_remux gather and mp4_remux tracks make of them:
compare_rewritten.py PROGRAM FOLDER FILE... FOLDER is for what is written. interop/gather says more."""

import json
import os
import pathlib
import random
import re
import shutil
import struct
import sys
from collections import Counter

sys.dont_write_bytecode = True

from compare_remuxed import LONGEST, MOST_BYTES, MOST_TIME, changed, ran  # noqa: E402
from damage import damaged  # noqa: E402
from movie_samples import inside, samples_in, tracks_in  # noqa: E402
from remuxed import boxes_in, lost, paths  # noqa: E402
from rewritten import OF_FRAGMENTS, TABLES, edits_in, has_fragments, rewritten_differences  # noqa: E402

DAMAGED = int(os.environ.get("DAMAGED", 2000))
SEED = 6

# A buffer as GStreamer's fakesink tells it, and how many tracks of a kind are asked for.
BUFFER = re.compile(rb"chain .*?\((\d+) bytes, dts: ([^,]+), pts: ([^,]+), .* flags: [0-9a-f]+ ([^,]*), meta")
MOST_PADS = 4

# The boxes in a fragment that say no more of samples than tables do, and those elsewhere that say more.
OF_RUNS = ("mfhd", "traf", "tfhd", "tfdt", "trun", "free", "skip")
OF_SAMPLES = ("sdtp", "stdp", "padb", "saiz", "senc")

# A file that ffprobe reads otherwise than the standard says: it begins each run without a place of its own at the movie
# fragment, and not after the run before it (8.8.8).
NOT_PROBED = "odd_runs_without_places.mp4"

# What the reader of this folder can't make of bytes that are damaged.
UNREADABLE = (struct.error, IndexError, KeyError, AttributeError, MemoryError, ZeroDivisionError)


def probed(path):
    """What ffprobe reads of each track, by its id: its codec and language, and of each packet the hash of its bytes,
    whether it is a key frame, and its times."""
    words = ["-show_packets", "-show_data_hash", "sha256", "-show_streams"]
    _, out, _, _ = ran(["ffprobe", "-v", "fatal", *words, "-of", "json", path])
    said = json.loads(out or b"{}")
    tracks = {}
    for stream in said.get("streams", ()):
        names = ("codec_name", "codec_tag", "width", "height", "sample_rate", "time_base")
        about = [*map(stream.get, names), stream.get("tags", {}).get("language")]
        tracks[stream["index"]] = (int(stream.get("id", "0"), 0), about, [], [])
    for packet in said.get("packets", ()):
        _, _, packets, times = tracks[packet["stream_index"]]
        packets.append((packet.get("data_hash"), packet["flags"][0]))
        times.append((packet.get("pts"), packet.get("dts")))
    return {number: (about, packets, times) for number, about, packets, times in tracks.values()}


def packet_differences(path, other, keep, shifted):
    """How many packets ffprobe reads of the tracks that are kept, and what it reads otherwise. Of tracks with rendering
    offsets below 0 it shifts the times of one of the two files."""
    before, after = probed(path), probed(other)
    count, found = 0, []
    for number in keep:
        if number not in before:
            continue
        about, packets, times = before[number]
        if not packets:
            # Chapters, which are none where their track is kept alone.
            continue
        count += len(packets)
        new_about, new_packets, new_times = after.get(number, (None, [], []))
        if about != new_about or packets != new_packets:
            found.append(f"ffprobe reads another track {number}: {len(new_packets)} packets of {len(packets)}")
        elif times != new_times and number not in shifted:
            found.append(f"ffprobe reads other times of track {number}")
    return count, found


def decoded(path):
    """Whether ffmpeg fails to decode a file, and of how much it complains."""
    words = ["-map", "0:v?", "-map", "0:a?", "-f", "null", "-"]
    status, _, error, _ = ran(["ffmpeg", "-v", "error", "-nostdin", "-i", path, *words])
    return status != 0, error.count(b"\n")


def buffers(path):
    """What GStreamer's reader hands on of each picture and sound track: of each buffer its bytes, its times, and
    whether it is a key frame. None where there is no GStreamer here."""
    if not shutil.which("gst-launch-1.0"):
        return None
    found = []
    for kind in ("video", "audio"):
        for number in range(MOST_PADS):
            _, out, _, _ = ran(["timeout", "20", "gst-launch-1.0", "-v", "filesrc", f"location={path}", "!", "qtdemux",
                                "name=reader", f"reader.{kind}_{number}", "!", "queue", "!", "fakesink", "silent=false",
                                "sync=false"])
            rows = BUFFER.findall(out)
            if not rows:
                break
            found.append([(*row[:3], b"delta-unit" in row[3]) for row in rows])
    return found


def says_more(data, track):
    """Whether a track says that it has more samples than the file has bytes."""
    sizes = inside(data, track, "mdia", "minf", "stbl", "stsz")
    return sizes is not None and struct.unpack_from(">I", data, sizes.inside + 8)[0] > len(data)


def reason_of(data, keep):
    """Why a whole file may be refused; None where it may not."""
    for path in paths(data):
        name = path.rpartition("/")[2]
        if name in ("saio", "iloc") or name in ("sidx", "mfra") and not has_fragments(data):
            return "places"
        is_more = path.startswith("moof/") and name not in OF_RUNS or name in OF_SAMPLES
        if has_fragments(data) and is_more:
            return "says of samples"
    samples = samples_in(data)
    most = max(map(len, samples.values()), default=0)
    if most > len(data) or any(says_more(data, track) for _, track in tracks_in(data)):
        return "counts"
    for number in keep if has_fragments(data) else ():
        end = 0
        for each in samples.get(number, ()):
            if each.start != end:
                return "times"
            end = each.start + each.duration
    return None


def choices(numbers):
    """The tracks that are kept: each alone, all but each, and all."""
    found = [[number] for number in numbers] + [[each for each in numbers if each != number] for number in numbers]
    unique = []
    for keep in [*found, list(numbers)]:
        if keep and keep not in unique:
            unique.append(keep)
    return unique


def is_among(rows, others):
    """Whether rows are there, in their order, among others."""
    left = iter(others)
    return all(row in left for row in rows)


class Trial:
    def __init__(self, program, folder):
        self.program, self.out = program, folder / "out"
        self.files = self.compared = self.differed = self.samples = self.packets = self.buffers = 0
        self.refused, self.damage = Counter(), Counter()
        self.tools = {name: Counter() for name in ("mp4_remux", "ffmpeg")}
        self.missing = {name: Counter() for name in self.tools}
        self.slowest = 0

    def note(self, name, found):
        """Counts a comparison, and prints what differs."""
        self.compared += 1
        if found:
            self.differed += 1
            print(f"{name}: DIFFERS: {'; '.join(found[:5])}", flush=True)

    def made(self, name, path, words, limit=MOST_TIME):
        """The file that the program makes of another; None where it refuses to, and why."""
        self.out.unlink(missing_ok=True)
        command, *more = words
        status, said, error, took = ran([self.program, command, path, self.out, *more], LONGEST)
        self.slowest = max(self.slowest, took)
        begin = f"mp4_remux: {path}: ".encode()
        found = []
        if status not in (0, 1):
            found.append(f"status {status}, {error!r}")
        if took > limit:
            found.append(f"it takes {took:.1f} seconds")
        if status == 1 and (said or error.count(b"\n") != 1 or not error.startswith(begin)):
            found.append(f"it says {said!r} and {error!r}")
        if self.out.exists() != (status == 0):
            found.append(f"status {status}, but a file is {'' if self.out.exists() else 'not '}there")
        for left in self.out.parent.iterdir():
            if left.name.startswith(".mp4_remux"):
                found.append(f"it leaves {left.name}")
                left.unlink()
        written = self.out.read_bytes() if status == 0 and self.out.exists() else None
        if status == 0 and said != f"wrote {len(written or b'')} bytes\n".encode():
            found.append(f"it says {said!r} of {len(written or b'')} bytes")
        self.note(name, found)
        return written, error.removeprefix(begin).decode("utf-8", "replace").strip()

    def differences(self, name, data, written, words, keep):
        """Compares a file that was made of another, by its bytes."""
        if words[0] == "gather" and not has_fragments(data):
            self.note(name, [] if written == data else ["it isn't written as it is"])
            return
        count, found = rewritten_differences(data, written, keep)
        self.samples += count
        self.note(name, found)

    def counted(self, tool, path, data, out):
        """Counts what a tool made of a file of fragments; where it refused to, there is no file. The boxes of fragments
        and of tables aren't missed."""
        counts = self.tools[tool]
        counts["tried"] += 1
        if not out.exists():
            counts["refused"] += 1
            return
        written = out.read_bytes()
        numbers = [number for number, _ in tracks_in(data)]
        _, found = rewritten_differences(data, written, numbers)
        before, after = samples_in(data), samples_in(written)
        values = [[[(of[each.place:each.place + each.size], *each[1:]) for each in track] for track in tracks.values()]
                  for of, tracks in ((data, before), (written, after))]
        counts["samples kept"] += values[0] == values[1]
        counts["kept"] += not found
        made = (*OF_FRAGMENTS, "mdat", "mvex", *TABLES)
        gone = [box for box in lost(data, written) if not set(box.split("/")) & {*made}]
        counts["boxes missing"] += bool(gone)
        self.missing[tool].update(set(gone))

    def played(self, name, path, data):
        """Compares what GStreamer reads: no buffer may be lost. Of a track with edits it leaves out the last, as it
        does of ffmpeg's own files whose edits say how long they last; it shifts times where offsets are below 0; and
        uncompressed sound it hands on by chunks, so of that the bytes are counted."""
        before, after = buffers(path), buffers(self.out)
        if before is None:
            return
        self.buffers += sum(map(len, before))
        has_edits = any(edits_in(data, track) for _, track in tracks_in(data))
        samples = [each for track in samples_in(data).values() for each in track]
        is_raw = len({each.size for each in samples}) == 1
        found = []
        for k, (old, new) in enumerate(zip(before, after), 1):
            if any(each.offset < 0 for each in samples):
                old, new = [(row[0], row[3]) for row in old], [(row[0], row[3]) for row in new]
            is_there = is_among(old, new) or has_edits and is_among(old[:-1], new)
            if not is_there and not (is_raw and sum(int(row[0]) for row in old) == sum(int(row[0]) for row in new)):
                found.append(f"GStreamer reads {len(new)} buffers of {len(old)} of its {k}. track")
        if len(before) != len(after):
            found = [f"GStreamer reads {len(after)} tracks of {len(before)}"]
        self.note(name, found)

    def beside(self, path, data):
        """Counts what the program made of a file of fragments, and what ffmpeg makes of it."""
        self.counted("mp4_remux", path, data, self.out)
        other = self.out.with_name(f"other{path.suffix}")
        other.unlink(missing_ok=True)
        if ran(["ffmpeg", "-v", "error", "-nostdin", "-y", "-i", path, "-map", "0", "-c", "copy", other])[0]:
            other.unlink(missing_ok=True)
        self.counted("ffmpeg", path, data, other)

    def say_tools(self):
        for tool, counts in self.tools.items():
            print(f"{tool}: of {counts['tried']} files of fragments {counts['refused']} refused, "
                  f"{counts['samples kept']} with every sample as it was, {counts['kept']} with all else too, "
                  f"{counts['boxes missing']} without boxes that were there beside these")
            for path, count in self.missing[tool].most_common(12):
                print(f"    without {path}: {count}")

    def file(self, path):
        """Gathers a file, and keeps tracks of it."""
        data = path.read_bytes()
        numbers = [number for number, _ in tracks_in(data)]
        negative = {number for number, samples in samples_in(data).items() if any(each.offset < 0 for each in samples)}
        self.files += 1
        for words, keep in [(["gather"], numbers),
                            *((["tracks", "--keep", ",".join(map(str, keep))], keep) for keep in choices(numbers))]:
            name = f"{path.name}, {' '.join(words)}"
            written, error = self.made(name, path, [*words, "--check"], LONGEST)
            if written is None:
                self.refused[error] += 1
                self.note(name, [] if reason_of(data, keep) else [f"refused: {error}"])
            else:
                self.differences(name, data, written, words, keep)
                if path.name != NOT_PROBED:
                    count, found = packet_differences(path, self.out, keep, negative)
                    self.packets += count
                    self.note(name, found)
            if words == ["gather"]:
                if written is not None:
                    self.note(name, [] if decoded(self.out) <= decoded(path) else ["ffmpeg complains of it"])
                    self.played(name, path, data)
                if has_fragments(data):
                    self.beside(path, data)
        self.note(path.name, [] if path.read_bytes() == data else ["the file that is read is another now"])

    def damaged_file(self, name, data, chance):
        path = self.out.with_name("damaged.mp4")
        path.write_bytes(data)
        self.files += 1
        try:
            numbers = list(dict.fromkeys(number for number, _ in tracks_in(data)))
        except UNREADABLE:
            numbers = []
        keep = chance.choice(choices(numbers)) if numbers and chance.random() < 0.5 else numbers
        words = ["gather"] if keep is numbers else ["tracks", "--keep", ",".join(map(str, keep))]
        if "0" in words[-1].split(","):
            words, keep = ["gather"], numbers
        written, _ = self.made(f"{name}, {' '.join(words)}", path, words)
        self.damage["refused" if written is None else "written"] += 1
        if written is None:
            return
        try:
            self.differences(f"{name}, {' '.join(words)}", data, written, words, keep)
        except UNREADABLE:
            self.damage["not read here"] += 1


def main(program, folder, names):
    folder = pathlib.Path(folder)
    trial, chance = Trial(program, folder), random.Random(SEED)
    for name in names:
        trial.file(pathlib.Path(name))
    print(f"{trial.files} files, {sum(trial.refused.values())} runs refused; {trial.packets} packets, "
          f"{trial.samples} samples, {trial.buffers} buffers of GStreamer")
    for reason, count in trial.refused.most_common():
        print(f"refused, {count} times: {reason}")
    trial.say_tools()
    files = [(pathlib.Path(name).name, pathlib.Path(name).read_bytes()) for name in names]
    small = [(name, data) for name, data in files if len(data) <= MOST_BYTES and any(
        box.type in ("moof", "moov") for box in boxes_in(data))]
    for number in range(DAMAGED if small else 0):
        if number % 2:
            name, data = damaged(small, chance)
        else:
            name, data = chance.choice(small)
            data = changed(data, chance)
        trial.damaged_file(f"{name}, damaged {number}", data, chance)
    print("damaged: " + ", ".join(f"{count} {what}" for what, count in sorted(trial.damage.items())) +
          f"; the slowest run took {trial.slowest:.2f} seconds")
    verdict = f"{trial.differed} differ" if trial.differed else "all agree"
    print(f"{trial.files} files, {trial.compared} comparisons, {verdict}")
    return 1 if trial.differed or not trial.compared else 0


if __name__ == "__main__":
    if len(sys.argv) < 4:
        raise SystemExit(__doc__)
    sys.exit(main(sys.argv[1], sys.argv[2], sys.argv[3:]))
