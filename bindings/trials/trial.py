"""What scripts/callers asks of the library from Python: trial.c says what each command does."""

import itertools
import sys
import threading
import time

import maqelsun


def sample_lines(movie, track):
    """The samples of a track, a line each, as `mp4_tool samples` prints them."""
    yield f"track {track.id}"
    number = 0
    try:
        for sample in movie.samples(track.id):
            number = sample.number
            yield (
                f"{number} {sample.offset} {sample.size} {sample.start_time} {sample.duration} "
                f"{sample.rendering_offset} {int(sample.is_sync)}"
            )
    except maqelsun.Error as refused:
        yield str(refused) if track.sample_count is None else f"{number + 1} {refused}"
        return
    if number < track.sample_count:
        yield f"{number + 1} none"


def file_lines(source):
    """The lines of all tracks of a file, or why it doesn't open."""
    try:
        movie = maqelsun.Movie(source)
    except maqelsun.Error as refused:
        return [str(refused)]
    with movie:
        return [line for track in movie.tracks for line in sample_lines(movie, track)]


def fault_lines(source):
    """Why a file doesn't open, or an empty line."""
    try:
        maqelsun.Movie(source).close()
    except maqelsun.Error as refused:
        return [str(refused)]
    return [""]


def reason_lines(source):
    """The same, and what it is that is invalid."""
    try:
        maqelsun.Movie(source).close()
    except maqelsun.Error as refused:
        return [f"{refused}: {refused.reason}" if refused.reason else str(refused)]
    return [""]


def digits(value):
    """Bytes in digits; a full stop for none."""
    return value.hex() or "."


def marked(value):
    """A value that the file may not say."""
    return "-" if value is None else value


def seconds(ticks, timescale):
    """So many ticks in whole seconds, and the nanoseconds after them; a dash without ticks in a
    second."""
    if timescale == 0:
        return "-"
    return f"{ticks // timescale} {ticks % timescale * 10**9 // timescale}"


def answered(call, shown, *words):
    """What a call answered."""
    try:
        return shown(call(*words))
    except maqelsun.Error as refused:
        return refused


def first_times(movie, track):
    """When the first samples of a track begin."""
    try:
        for sample in itertools.islice(movie.samples(track.id), 8):
            yield sample.start_time
    except maqelsun.Error:
        return


def track_lines(movie, track):
    """What a file says of a track, as trial.c prints it."""
    entry = track.sample_entry and digits(track.sample_entry.encode("latin-1"))
    words = [
        track.id, digits(track.handler.encode("latin-1")), marked(entry),
        digits(track.language.encode()), track.timescale, track.duration, track.width, track.height,
        *map(marked, (
            track.sample_count, track.frames_per_second, track.bits_per_second, track.audio_profile,
            track.frequency_index, track.channels, *(track.video_profile or (None, None, None)),
        )),
        seconds(track.duration, track.timescale),
    ]
    yield " ".join(["track", *map(str, words)])
    yield f"set 1 {answered(movie.sequence_parameter_set, digits, track.id)}"
    yield f"set 2 {answered(movie.picture_parameter_set, digits, track.id)}"
    few = [0, 1, 2, 3, 5, 10, 20, 50, 100, 200, 500, 1000, 2000, 5000, 10000, 20000, 50000, 100000]
    for time_in_ticks in [*few, max(track.duration - 1, 0), track.duration, 2**64 - 1]:
        yield f"at {time_in_ticks} {answered(movie.sample_at, marked, track.id, time_in_ticks)}"
    for start in first_times(movie, track):
        for time_in_ticks in range(max(start - 1, 0), min(start + 2, 2**64)):
            yield f"at {time_in_ticks} {answered(movie.sample_at, marked, track.id, time_in_ticks)}"
    last = track.sample_count or 0
    for number in [0, 1, 2, last, (last + 1) % 2**32, 2**32 - 1]:
        found = answered(movie.sync_sample_at_or_before, marked, track.id, number)
        yield f"sync {number} {found}"


def fact_lines(source):
    """All that a file says, as trial.c prints it."""
    try:
        movie = maqelsun.Movie(source)
    except maqelsun.Error as refused:
        yield str(refused)
        return
    with movie:
        major = digits(movie.major_brand.encode("latin-1"))
        yield (
            f"movie {movie.size} {movie.duration} {movie.creation_time} {movie.modification_time} "
            f"{movie.header_version} {movie.timescale} {movie.minor_version} "
            f"{int(movie.is_fragmented)} {major} {seconds(movie.duration, movie.timescale)}"
        )
        brands = [digits(brand.encode("latin-1")) for brand in movie.compatible_brands]
        yield " ".join(["brands", *brands])
        metadata = movie.metadata
        year = None if metadata.year is None else str(metadata.year)
        items = [metadata.title, year, metadata.poster, metadata.summary]
        for key, item in enumerate(items, 1):
            value = item.encode() if isinstance(item, str) else item
            yield f"metadata {key} {'not present' if value is None else digits(value)}"
        for track in movie.tracks:
            yield from track_lines(movie, track)


def each_file(lines_of):
    """Prints the lines of each file that a line of standard input names, after its name."""
    for name in sys.stdin.read().splitlines():
        print("\n".join([name, *lines_of(name)]))


def track_of(words):
    """The track of a line of a script."""
    kind, timescale, *rest = words
    if kind == "text":
        return maqelsun.NewTrack("tx3g", int(timescale))
    if kind == "aac":
        bits, profile, frequency, channels = map(int, rest)
        return maqelsun.NewTrack(
            "mp4a", int(timescale), bits_per_second=bits, audio_profile=profile,
            frequency_index=frequency, channels=channels,
        )
    entry = {"avc": "avc1", "hevc": "hev1", "vp9": "vp09"}[kind]
    sets = [bytes.fromhex(digits) for digits in rest[2:]] or [b"", b""]
    return maqelsun.NewTrack(
        entry, int(timescale), width=int(rest[0]), height=int(rest[1]),
        sequence_set=sets[0], picture_set=sets[1],
    )


def sample_of(line):
    """The sample of a line of a script."""
    _, track, duration, offset, is_sync, text = line.split(b" ", 5)
    return maqelsun.NewSample(int(track), text, int(duration), int(offset), is_sync == b"1")


def write_movie(name):
    """Makes the movie of a script from standard input."""
    lines = sys.stdin.buffer.read().split(b"\n")[:-1]
    tracks = [track_of(line.decode().split()[1:]) for line in lines if line.startswith(b"track")]
    samples = [sample_of(line) for line in lines if line.startswith(b"sample")]
    movie = maqelsun.write(tracks, samples)
    with open(name, "wb") as out:
        out.write(movie)


def rewrite_files(folder, rewrite):
    """Rewrites each file that a line of standard input names: what comes of the file of line K is the
    file K of the folder."""
    for line, name in enumerate(sys.stdin.read().splitlines(), 1):
        print(name)
        with open(name, "rb") as file:
            source = file.read()
        try:
            rewritten = rewrite(source)
        except maqelsun.Error as refused:
            print(refused)
            continue
        with open(f"{folder}/{line}", "wb") as out:
            out.write(rewritten)
        print(f"wrote {len(rewritten)} bytes")


def resident_kib():
    """How many KiB this process holds in memory, those of mapped files among them."""
    with open("/proc/self/status", encoding="ascii") as status:
        return next(int(line.split()[1]) for line in status if line.startswith("VmRSS:"))


def list_large(name):
    """The samples of a file; on standard error the microseconds and the KiB of memory it took."""
    fault_lines(b"")  # the first call loads code, which isn't of the file
    before = resident_kib()
    begun = time.monotonic()
    with maqelsun.Movie(name) as movie:
        lines = [line for track in movie.tracks for line in sample_lines(movie, track)]
        taken = int((time.monotonic() - begun) * 1000000)
        print(taken, resident_kib() - before, file=sys.stderr)
    print("\n".join(lines))


def list_by_threads(name):
    """The samples of a file, by eight threads at once over one movie: all have to find the same."""
    found = []
    with maqelsun.Movie(name) as movie:

        def listed():
            found.append([line for track in movie.tracks for line in sample_lines(movie, track)])

        threads = [threading.Thread(target=listed) for _ in range(8)]
        for thread in threads:
            thread.start()
        for thread in threads:
            thread.join()
    if len(found) != 8 or any(lines != found[0] for lines in found):
        sys.exit("trial: the threads differ")
    print("\n".join(found[0]))


def main():
    """Runs the command that the arguments name."""
    commands = {
        "list": lambda: each_file(file_lines),
        "faults": lambda: each_file(fault_lines),
        "reasons": lambda: each_file(reason_lines),
        "facts": lambda: each_file(fact_lines),
        "front": lambda folder: rewrite_files(folder, maqelsun.move_to_front),
        "gather": lambda folder: rewrite_files(folder, maqelsun.gather),
        "choose": lambda folder, *ids: rewrite_files(
            folder, lambda file: maqelsun.choose(file, list(map(int, ids)))
        ),
        "write": write_movie,
        "large": list_large,
        "threads": list_by_threads,
    }
    _, command, *words = sys.argv
    commands[command](*words)


main()
