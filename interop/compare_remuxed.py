"""Compares files with what mp4_remux makes of them, and with what ffmpeg and qt-faststart make:
compare_remuxed.py PROGRAM FOLDER FILE... FOLDER is for what is written. interop/remux says more."""

import json
import os
import pathlib
import random
import resource
import subprocess
import sys
from collections import Counter

sys.dont_write_bytecode = True

from damage import damaged  # noqa: E402
from remuxed import differences, has_to_move, lost, sample_differences, says_places  # noqa: E402

DAMAGED = int(os.environ.get("DAMAGED", 2000))
SEED = 5
# Files of more bytes aren't damaged.
MOST_BYTES = 60_000
# The time of the processor that a run may take, in seconds, and how long it is waited for at most.
MOST_TIME = 1
LONGEST = 120


def ran(words, limit=None):
    """The status of a command, what it wrote on standard output and error, and the processor's time it took."""
    before = resource.getrusage(resource.RUSAGE_CHILDREN)
    try:
        process = subprocess.run(
            [str(word) for word in words], stdin=subprocess.DEVNULL, capture_output=True, timeout=limit)
    except subprocess.TimeoutExpired:
        return None, b"", b"", limit
    after = resource.getrusage(resource.RUSAGE_CHILDREN)
    took = after.ru_utime + after.ru_stime - before.ru_utime - before.ru_stime
    return process.returncode, process.stdout, process.stderr, took


def probed(path):
    """What ffprobe reads of a file but for the places: streams, chapters, metadata, and of each packet all with a
    hash of its bytes."""
    words = ["-show_packets", "-show_data_hash", "sha256", "-show_streams", "-show_chapters", "-show_format"]
    _, out, _, _ = ran(["ffprobe", "-v", "fatal", *words, "-of", "json", path])
    said = json.loads(out or b"{}")
    for packet in said.get("packets", ()):
        packet.pop("pos", None)
    for name in ("filename", "size", "bit_rate", "probe_score"):
        said.get("format", {}).pop(name, None)
    return said


class Trial:
    def __init__(self, program, folder):
        self.program, self.out = program, folder / "out"
        self.files = self.compared = self.differed = self.samples = self.packets = 0
        self.refused, self.damage = Counter(), Counter()
        self.tools = {name: Counter() for name in ("mp4_remux", "ffmpeg", "qt-faststart")}
        self.missing = {name: Counter() for name in self.tools}
        self.slowest = 0

    def note(self, name, found):
        """Counts a comparison, and prints what differs."""
        self.compared += 1
        if found:
            self.differed += 1
            print(f"{name}: DIFFERS: {'; '.join(found[:5])}", flush=True)

    def made(self, name, path):
        """The file that the program makes of another; None where it refuses to."""
        self.out.unlink(missing_ok=True)
        status, said, error, took = ran([self.program, "faststart", path, self.out, "--check"], LONGEST)
        begin = f"mp4_remux: {path}: ".encode()
        self.slowest = max(self.slowest, took)
        found = []
        if status not in (0, 1):
            found.append(f"status {status}")
        if took > MOST_TIME:
            found.append(f"it takes {took:.1f} seconds")
        if status == 1 and (said or error.count(b"\n") != 1 or not error.startswith(begin)):
            found.append(f"it says {said!r} and {error!r}")
        if self.out.exists() != (status == 0):
            found.append(f"status {status}, but a file is {'' if self.out.exists() else 'not '}there")
        left = [entry for entry in self.out.parent.iterdir() if entry.name.startswith(".mp4_remux")]
        if left:
            found.append(f"it leaves {left[0].name}")
            left[0].unlink()
        written = self.out.read_bytes() if status == 0 and self.out.exists() else None
        if status == 0 and said != f"wrote {len(written or b'')} bytes\n".encode():
            found.append(f"it says {said!r} of {len(written or b'')} bytes")
        self.note(name, found)
        return written, error.removeprefix(begin).decode("utf-8", "replace").strip()

    def bytes_and_samples(self, name, data, written):
        self.note(name, differences(data, written))
        count, found = sample_differences(data, written)
        self.samples += count
        self.note(name, found)

    def counted(self, tool, path, data, out):
        """Counts what a tool made of a file whose movie box has to move; where it refused to, there is no file."""
        counts = self.tools[tool]
        counts["tried"] += 1
        if not out.exists():
            counts["refused"] += 1
            return
        written = out.read_bytes()
        is_kept = not differences(data, written)
        counts["in front"] += not has_to_move(written)
        counts["bytes"] += len(written) - len(data)
        counts["kept"] += is_kept
        counts["wrong places"] += is_kept and bool(says_places(data))
        counts["read otherwise"] += probed(path) != probed(out)
        missing = lost(data, written)
        counts["boxes missing"] += bool(missing)
        self.missing[tool].update(set(missing))

    def beside(self, path, data):
        """Counts what the program made of a file whose movie box has to move, and what the other tools make of it."""
        self.counted("mp4_remux", path, data, self.out)
        other = self.out.with_name(f"other{path.suffix}")
        copied = ["-map", "0", "-c", "copy", "-movflags", "+faststart", other]
        for tool, words in (
                ("ffmpeg", ["ffmpeg", "-v", "error", "-nostdin", "-y", "-i", path, *copied]),
                ("qt-faststart", ["qt-faststart", path, other])):
            other.unlink(missing_ok=True)
            if ran(words)[0]:
                other.unlink(missing_ok=True)
            self.counted(tool, path, data, other)

    def say_tools(self):
        """Prints what each tool refused, kept and lost of the files whose movie box has to move."""
        for tool, counts in self.tools.items():
            print(f"{tool}: of {counts['tried']} files whose movie box has to move {counts['refused']} refused, "
                  f"{counts['in front']} with it in front, {counts['kept']} of them as they were but for chunk offsets "
                  f"({counts['wrong places']} with a box that says places which are wrong now), "
                  f"{counts['read otherwise']} that ffprobe reads otherwise, "
                  f"{counts['boxes missing']} without boxes that were there, {counts['bytes']:+} bytes")
            for path, count in self.missing[tool].most_common(12):
                print(f"    without {path}: {count}")

    def file(self, path):
        name, data = path.name, path.read_bytes()
        self.files += 1
        written, error = self.made(name, path)
        self.note(name, [] if path.read_bytes() == data else ["the file that is read is another now"])
        if written is None:
            self.refused[error] += 1
            self.note(name, [] if has_to_move(data) and says_places(data) else [f"refused: {error}"])
        else:
            self.bytes_and_samples(name, data, written)
            before = probed(path)
            self.packets += len(before.get("packets", ()))
            self.note(name, [] if before == probed(self.out) else ["ffprobe reads something else"])
        if has_to_move(data):
            self.beside(path, data)

    def damaged_file(self, name, data):
        path = self.out.with_name("damaged.mp4")
        path.write_bytes(data)
        self.files += 1
        written, _ = self.made(name, path)
        self.damage["refused" if written is None else "moved" if has_to_move(data) else "written as it is"] += 1
        if written is not None:
            self.bytes_and_samples(name, data, written)


def changed(data, chance):
    """A file with some bytes changed, most of them in the movie box, or cut."""
    if chance.random() < 0.15:
        return data[:chance.randrange(len(data))]
    out = bytearray(data)
    begin = max(0, data.find(b"moov") - 4)
    end = min(len(data), begin + int.from_bytes(data[begin:begin + 4], "big"))
    for _ in range(chance.choice((1, 1, 2, 4, 8))):
        place = chance.randrange(begin, end) if chance.random() < 0.9 and end > begin else chance.randrange(len(data))
        out[place] = chance.choice((0, 1, 2, 0x7f, 0x80, 0xff, chance.randrange(256)))
    return bytes(out)


def main(program, folder, names):
    folder = pathlib.Path(folder)
    trial, chance = Trial(program, folder), random.Random(SEED)
    for name in names:
        trial.file(pathlib.Path(name))
    print(f"{trial.files} files, of which {sum(trial.refused.values())} are refused; {trial.packets} packets, "
          f"{trial.samples} samples")
    for reason, count in trial.refused.most_common():
        print(f"refused, {count} times: {reason}")
    trial.say_tools()
    files = [(pathlib.Path(name).name, pathlib.Path(name).read_bytes()) for name in names]
    small = [(name, data) for name, data in files if len(data) <= MOST_BYTES]
    for number in range(DAMAGED if small else 0):
        if number % 2:
            name, data = damaged(small, chance)
        else:
            name, data = chance.choice(small)
            data = changed(data, chance)
        trial.damaged_file(f"{name}, damaged {number}", data)
    print("damaged: " + ", ".join(f"{count} {what}" for what, count in sorted(trial.damage.items())) +
          f"; the slowest run took {trial.slowest:.2f} seconds")
    verdict = f"{trial.differed} differ" if trial.differed else "all agree"
    print(f"{trial.files} files, {trial.compared} comparisons, {verdict}")
    return 1 if trial.differed or not trial.compared else 0


if __name__ == "__main__":
    if len(sys.argv) < 4:
        raise SystemExit(__doc__)
    sys.exit(main(sys.argv[1], sys.argv[2], sys.argv[3:]))
