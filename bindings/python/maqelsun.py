"""MP4 files (ISO base media files, ISO/IEC 14496-12), read and written.

The work is done by the library ``mp4_c``, each function of which is proved before it is compiled:
what is written is read back, and no bytes of a file make it crash. This module calls it by ctypes
and needs nothing but Python 3.8.

    with maqelsun.Movie("film.mp4") as movie:
        for track in movie.tracks:
            for sample in movie.samples(track.id):
                print(sample.number, sample.offset, sample.size, movie.read(sample)[:4])
        print(movie.samples(1)[-1], len(movie.samples(1)))

    sizes = numpy.asarray(movie.table(1))["size"]

    lines = [maqelsun.NewSample.text(1, "first", 1000), maqelsun.NewSample.text(1, "second", 1000)]
    file = maqelsun.write([maqelsun.NewTrack("tx3g")], lines)
    file = maqelsun.move_to_front(file)

The shared object ``libmaqelsun.so`` is looked for at the first call: where MAQELSUN_LIBRARY says,
else beside this file, else where ``scripts/callers build`` of the repository leaves it.
"""

import ctypes
import enum
import functools
import itertools
import mmap
import operator
import os
import struct
import threading
from dataclasses import dataclass
from typing import (
    Callable,
    Dict,
    Iterable,
    Iterator,
    List,
    NamedTuple,
    Optional,
    Sequence,
    Tuple,
    Union,
    overload,
)

__all__ = [
    "Code", "Error", "Limit", "Metadata", "Movie", "NewSample", "NewTrack", "OutOfMemory", "Sample",
    "Samples", "Track", "choose", "gather", "move_to_front", "write",
]

__version__ = "0.1.0"

# What has bytes at one place.
BytesLike = Union[bytes, bytearray, memoryview, mmap.mmap]

# The structs that cross to the library, as bindings/c/mp4.h declares them.


def _struct(name: str, size: int, *fields: Tuple[str, type, int]) -> type:
    """A struct of the header: its size, and of each field its type and its offset."""
    made = type(name, (ctypes.Structure,), {"_fields_": [each[:2] for each in fields]})
    agrees = all(getattr(made, field).offset == offset for field, _, offset in fields)
    if ctypes.sizeof(made) != size or not agrees:
        raise ImportError(f"the layout of {name} isn't that of mp4.h on this machine")
    return made


_u8, _u16, _u32, _u64 = ctypes.c_uint8, ctypes.c_uint16, ctypes.c_uint32, ctypes.c_uint64
_i32 = ctypes.c_int32
_code = _u8 * 4

_Answer = _struct(
    "mp4_answer", 56,
    ("count", _u64, 0), ("filled", _u64, 8), ("index", _u64, 16), ("code", _u32, 24),
    ("part", _u32, 28), ("limit", _u32, 32), ("track_id", _u32, 36), ("number", _u32, 40),
    ("box_type", _code, 44), ("second_box_type", _code, 48), ("reserved", _u32, 52),
)
_Movie = _struct(
    "mp4_movie", 64,
    ("size", _u64, 0), ("duration", _u64, 8), ("creation_time", _u64, 16),
    ("modification_time", _u64, 24), ("track_count", _u64, 32), ("brand_count", _u64, 40),
    ("timescale", _u32, 48), ("minor_version", _u32, 52), ("major_brand", _code, 56),
    ("is_fragmented", _u8, 60), ("header_version", _u8, 61), ("reserved", _u8 * 2, 62),
)
_Brand = _struct("mp4_brand", 4, ("code", _code, 0))
_Track = _struct(
    "mp4_track", 64,
    ("duration", _u64, 0), ("frames_per_second", _u64, 8), ("id", _u32, 16),
    ("timescale", _u32, 20), ("sample_count", _u32, 24), ("bits_per_second", _u32, 28),
    ("handler", _code, 32), ("sample_entry", _code, 36), ("language", _code, 40),
    ("width", _u16, 44), ("height", _u16, 46), ("audio_profile", _u8, 48),
    ("frequency_index", _u8, 49), ("channels", _u8, 50), ("video_profile", _u8, 51),
    ("video_compatibility", _u8, 52), ("video_level", _u8, 53), ("has_frames_per_second", _u8, 54),
    ("has_sample_count", _u8, 55), ("has_bits_per_second", _u8, 56), ("has_sample_entry", _u8, 57),
    ("has_audio_profile", _u8, 58), ("has_frequency_index", _u8, 59), ("has_channels", _u8, 60),
    ("has_video_profile", _u8, 61), ("reserved", _u8 * 2, 62),
)
_Sample = _struct(
    "mp4_sample", 40,
    ("offset", _u64, 0), ("start_time", _u64, 8), ("track_id", _u32, 16), ("size", _u32, 20),
    ("duration", _u32, 24), ("rendering_offset", _i32, 28), ("is_sync", _u8, 32),
    ("reserved", _u8 * 7, 33),
)
_NewMovie = _struct(
    "mp4_new_movie", 12,
    ("timescale", _u32, 0), ("minor_version", _u32, 4), ("major_brand", _code, 8),
)
_NewTrack = _struct(
    "mp4_new_track", 48,
    ("sequence_set", _u64, 0), ("picture_set", _u64, 8), ("sequence_set_size", _u32, 16),
    ("picture_set_size", _u32, 20), ("timescale", _u32, 24), ("bits_per_second", _u32, 28),
    ("sample_entry", _code, 32), ("language", _code, 36), ("width", _u16, 40), ("height", _u16, 42),
    ("audio_profile", _u8, 44), ("frequency_index", _u8, 45), ("channels", _u8, 46),
    ("reserved", _u8, 47),
)

# An mp4_sample, packed and unpacked many at a time: offset, start_time, track_id, size, duration,
# rendering_offset and is_sync.
_SAMPLE_ROW = struct.Struct("=QQIIIi?7x")
if _SAMPLE_ROW.size != ctypes.sizeof(_Sample):
    raise ImportError("the layout of mp4_sample isn't that of mp4.h on this machine")


# What the library of this version answers to `mp4_c_version`.
_VERSION = sum(int(part) * weight for part, weight in zip(__version__.split("."), (10000, 100, 1)))


@functools.lru_cache(maxsize=None)
def _library() -> ctypes.CDLL:
    """The shared object, with what its functions take and answer; loaded once."""
    here = os.path.dirname(os.path.abspath(__file__))
    name = "libmaqelsun.so"
    built = os.path.join(here, "..", "..", "crates", "mp4_c", "out")
    places = [os.path.join(folder, name) for folder in (here, built)]
    chosen = os.environ.get("MAQELSUN_LIBRARY") or next(filter(os.path.exists, places), None)
    if chosen is None:
        raise ImportError(
            f"there is no {name} beside {os.path.basename(__file__)}: build it by scripts/callers build "
            "at the top of the repository of Maqelsun, or let MAQELSUN_LIBRARY name it"
        )
    # While a function of it runs, other threads of Python do too.
    library = ctypes.CDLL(chosen)
    pointer, size = ctypes.c_void_p, ctypes.c_size_t
    file, room = (pointer, size), (pointer, size)
    if getattr(library, "mp4_c_version", lambda: None)() != _VERSION:
        raise ImportError(f"{chosen} isn't of version {__version__}, as this module is")
    functions: Dict[str, Tuple[type, ...]] = {
        "open": (*file, pointer),
        "brands": (*file, *room),
        "tracks": (*file, *room),
        "samples": (*file, _u32, _u32, *room),
        "sample_at": (*file, _u32, _u64, pointer),
        "sync_sample_at_or_before": (*file, _u32, _u32, pointer),
        "row_at": (*room, _u64, pointer),
        "sync_row_at_or_before": (*room, _u64, pointer),
        "metadata": (*file, _u32, *room),
        "parameter_set": (*file, _u32, _u32, *room),
        "write": (pointer, pointer, size, pointer, size, pointer, size, *file, *room),
        "move_to_front": (*file, *room),
        "gather": (*file, *room),
        "choose": (*file, pointer, size, *room),
        "error_text": (pointer, *room),
        "open_error_text": (*file, *room),
    }
    for each, arguments in functions.items():
        function = getattr(library, "mp4_c_" + each)
        function.argtypes, function.restype = arguments, _Answer
    return library


class Code(enum.IntEnum):
    """Why a call was refused, as ``enum mp4_code`` of mp4.h says it."""

    END_OF_DATA = 1
    """The bytes end before what has to be read."""
    OUT_OF_MEMORY = 2
    """A request for memory was refused."""
    INVALID_DATA = 3
    """The bytes, or the numbers asked for, mean nothing."""
    BOX_NOT_FOUND = 4
    """A required box is missing: ``box_type``."""
    BOX2_NOT_FOUND = 5
    """Neither of two boxes is there: ``box_type``, ``second_box_type``."""
    TRAK_NOT_FOUND = 6
    """There is no such track: ``track_id``."""
    BOX_IN_TRAK_NOT_FOUND = 7
    """A track lacks a box: ``track_id``, ``box_type``."""
    BOX_IN_TRAF_NOT_FOUND = 8
    """A fragment of a track lacks a box: ``track_id``, ``box_type``."""
    BOX_IN_STBL_NOT_FOUND = 9
    """A track's sample table lacks a box: ``track_id``, ``box_type``."""
    ENTRY_IN_STBL_NOT_FOUND = 10
    """A box of the sample table lacks an entry: ``track_id``, ``box_type``, ``number``."""
    ENTRY_IN_TRUN_NOT_FOUND = 11
    """A run of a fragment lacks an entry: ``track_id``, ``box_type``, ``number``."""
    UNSUPPORTED_BOX_VERSION = 12
    """A box is of a version that isn't read: ``box_type``, ``number``."""
    ENDED = 13
    """The writer has written its last byte; no call of this module answers it."""
    ZERO_TIMESCALE = 14
    """A quotient by a timescale of 0 was asked for."""
    TOO_LARGE = 15
    """Something passes its limit: ``limit``."""
    UNREPRESENTABLE = 16
    """A value has no encoding in its field."""
    NOT_PRESENT = 17
    """The file has no such metadata."""
    UNKNOWN_CHOICE = 18
    """A number that isn't one of a list of choices."""
    NULL_POINTER = 19
    """A pointer to nothing; no call of this module answers it."""
    TWICE = 20
    """There are two boxes of a type of which a movie has one: ``box_type``."""
    SAYS_PLACES = 21
    """A box says places of the file that would be wrong: ``box_type``, and ``index`` is the byte at
    which it begins."""
    TOO_MANY_SAMPLES = 22
    """A track has more samples than are compared: ``track_id``."""
    OTHER_TRACKS = 23
    """The tracks would be others."""
    DIFFERS = 24
    """A sample wouldn't be read as before: ``track_id``, ``number``."""
    SAYS_OF_SAMPLES = 25
    """A box says of samples what tables don't: ``box_type``, and ``index`` is the byte at which it
    begins."""
    STARTS_ELSEWHERE = 26
    """A sample doesn't begin when the one before it ends: ``track_id``, ``number``."""
    SAME_IDS = 27
    """Two tracks have the same id."""


class Limit(enum.IntEnum):
    """What passes its limit, as ``enum mp4_limit`` of mp4.h says it."""

    NONE = 0
    """Nothing does."""
    SAMPLE_BYTES = 1
    """The bytes of one sample: at most 2**32 - 1."""
    SAMPLE_COUNT = 2
    """The samples of one track: at most 2**32 - 1."""
    TRACK_DURATION = 3
    """A track's duration in ticks of the movie: at most 2**64 - 1."""
    TRACK_COUNT = 4
    """The tracks of a movie: at most 2**32 - 1."""
    BOX_SIZE = 5
    """The bytes of a box that is written: at most 2**32 - 1."""
    VALUE = 6
    """A number that has to fit its field or its answer."""


class Error(Exception):
    """Why a call was refused. Its text is that of the programs ``mp4_tool`` and ``mp4_remux``.

    ``code`` says why, and of a file that doesn't open by ``INVALID_DATA``, ``reason`` what it is that
    is invalid, as "a box is larger than the file"; else it is empty. ``box_type``,
    ``second_box_type``, ``track_id``, ``number`` and ``limit`` are what the refusal names, or empty
    and 0. After a refused :func:`write`, ``part`` says what was refused, "movie", "track", "sample"
    or "end", and ``index`` which one, from 0 on; with ``SAYS_PLACES`` and ``SAYS_OF_SAMPLES``
    ``index`` is a place in the file.
    It can be pickled and copied, so a process of a pool may raise it.
    """

    def __init__(self, answer: "_Answer", reason: str = ""):
        super().__init__(_text_of(answer))
        self._answer = bytes(answer)
        self.reason = reason
        self.code = Code(answer.code)
        self.box_type = bytes(answer.box_type).rstrip(b"\0")
        self.second_box_type = bytes(answer.second_box_type).rstrip(b"\0")
        self.track_id: int = answer.track_id
        self.number: int = answer.number
        self.limit = Limit(answer.limit)
        self.part: Optional[str] = {1: "movie", 2: "track", 3: "sample", 4: "end"}.get(answer.part)
        self.index: int = answer.index

    def __reduce__(self) -> Tuple[Callable[[bytes, str], "Error"], Tuple[bytes, str]]:
        return _error_of, (self._answer, self.reason)


class OutOfMemory(Error, MemoryError):
    """A request for memory was refused: an :class:`Error`, and a MemoryError as Python's own."""


def _text_of(answer: "_Answer") -> str:
    """What an answer says in words."""
    text = (_u8 * 90)()
    filled = _library().mp4_c_error_text(ctypes.byref(answer), text, len(text)).filled
    return bytes(text[:filled]).decode("ascii")


def _refusal(answer: "_Answer") -> Error:
    """The error of an answer that is a refusal."""
    return OutOfMemory(answer) if answer.code == Code.OUT_OF_MEMORY else Error(answer)


def _error_of(answer: bytes, reason: str) -> Error:
    """The error of the bytes of an answer."""
    error = _refusal(_Answer.from_buffer_copy(answer))
    error.reason = reason
    return error


def _accepted(answer: "_Answer") -> "_Answer":
    """The answer, unless it is a refusal."""
    if answer.code:
        raise _refusal(answer)
    return answer


def _end_of_data() -> Error:
    """The refusal of a sample that isn't whole in its file."""
    return Error(_Answer(code=Code.END_OF_DATA))


class _Buffer(ctypes.Structure):
    """Python's Py_buffer: it says where an object's bytes lie, also where they are read-only."""

    _fields_ = [
        ("buf", ctypes.c_void_p), ("obj", ctypes.py_object), ("len", ctypes.c_ssize_t),
        ("itemsize", ctypes.c_ssize_t), ("readonly", ctypes.c_int), ("ndim", ctypes.c_int),
        ("format", ctypes.c_char_p), ("shape", ctypes.c_void_p), ("strides", ctypes.c_void_p),
        ("suboffsets", ctypes.c_void_p), ("internal", ctypes.c_void_p),
    ]


class _Bytes:
    """The bytes of an object that has the buffer protocol, at one place until they are released."""

    _held = False

    def __init__(self, source: BytesLike):
        self._buffer = _Buffer()
        ctypes.pythonapi.PyObject_GetBuffer(source, ctypes.byref(self._buffer), 0)
        self._held = True
        self.size: int = self._buffer.len
        # A pointer to no bytes may be NULL in Python, but not for the library.
        self.address: int = self._buffer.buf or ctypes.addressof(_NOTHING)

    def release(self) -> None:
        """Lets the bytes go."""
        if self._held:
            self._held = False
            ctypes.pythonapi.PyBuffer_Release(ctypes.byref(self._buffer))

    __del__ = release


ctypes.pythonapi.PyObject_GetBuffer.argtypes = (ctypes.py_object, ctypes.c_void_p, ctypes.c_int)
ctypes.pythonapi.PyBuffer_Release.argtypes = (ctypes.c_void_p,)
ctypes.pythonapi.PyBuffer_Release.restype = None
_NOTHING = _u64(0)


class Sample(NamedTuple):
    """Where a sample lies, and when it is decoded and shown, in ticks of its track."""

    number: int
    """From 1 on."""
    offset: int
    """The place of its first byte in the file."""
    start_time: int
    """When it is decoded."""
    track_id: int
    """The track that it is of."""
    size: int
    """How many bytes it has."""
    duration: int
    """How long it lasts."""
    rendering_offset: int
    """How much later it is shown than decoded."""
    is_sync: bool
    """Whether decoding can begin with it."""


@dataclass(frozen=True)
class Track:
    """What a file says of a track. What it doesn't say is None."""

    id: int
    handler: str
    """What the track is for: vide, soun, sbtl or another."""
    sample_entry: Optional[str]
    """How its samples are coded: avc1, hev1, vp09, mp4a or tx3g."""
    timescale: int
    """Ticks in a second, of the track's times; it may be 0."""
    duration: int
    """In ticks, as the media header says it: without fragments."""
    sample_count: Optional[int]
    """None where there are more than 2**32 - 1."""
    language: str
    """Three letters of ISO 639-2/T."""
    width: int
    height: int
    frames_per_second: Optional[int]
    bits_per_second: Optional[int]
    audio_profile: Optional[int]
    """Of AAC sound, the audio object type: 2 is AAC LC."""
    frequency_index: Optional[int]
    """Of AAC sound: 0 is 96000 Hz, 3 is 48000, 4 is 44100, .. 12 is 7350."""
    channels: Optional[int]
    """Of AAC sound: 1 is mono, 2 stereo, .. 7 is 7.1."""
    video_profile: Optional[Tuple[int, int, int]]
    """Of AVC video: the profile, its constraint flags, and ten times the level."""

    def seconds(self, ticks: int) -> float:
        """How long so many ticks of the track last: of a sample's ``start_time``, its time from the
        beginning. :class:`Error` where the timescale is 0."""
        return _seconds(ticks, self.timescale)


def _seconds(ticks: int, timescale: int) -> float:
    """So many ticks in seconds."""
    if timescale == 0:
        raise Error(_Answer(code=Code.ZERO_TIMESCALE))
    return ticks / timescale


@dataclass(frozen=True)
class Metadata:
    """What a file says of the work that it holds."""

    title: Optional[str] = None
    year: Optional[int] = None
    poster: Optional[bytes] = None
    summary: Optional[str] = None


def _code_text(code: "ctypes.Array[ctypes.c_uint8]") -> str:
    """A code of four bytes as text, a character for each, so that no two codes are one text."""
    return bytes(code).decode("latin-1")


def _track_of(row: "_Track") -> Track:
    """What a row of the library says."""

    def marked(mark: int, value: object) -> object:
        return value if mark else None

    profile = (row.video_profile, row.video_compatibility, row.video_level)
    return Track(
        id=row.id,
        handler=_code_text(row.handler),
        sample_entry=marked(row.has_sample_entry, _code_text(row.sample_entry)),
        timescale=row.timescale,
        duration=row.duration,
        sample_count=marked(row.has_sample_count, row.sample_count),
        language=bytes(row.language[:3]).decode("utf-8", "replace"),
        width=row.width,
        height=row.height,
        frames_per_second=marked(row.has_frames_per_second, row.frames_per_second),
        bits_per_second=marked(row.has_bits_per_second, row.bits_per_second),
        audio_profile=marked(row.has_audio_profile, row.audio_profile),
        frequency_index=marked(row.has_frequency_index, row.frequency_index),
        channels=marked(row.has_channels, row.channels),
        video_profile=marked(row.has_video_profile, profile),
    )


def _filled(kind: type, guess: int, ask: Callable[..., "_Answer"]) -> Tuple["ctypes.Array", int]:
    """All rows that a call of the library gives, and how many they are: it is asked with room for
    ``guess`` rows, and again with more where there are more."""
    rows = (kind * max(guess, 1))()
    answer = _accepted(ask(rows, len(rows)))
    if answer.count > len(rows):
        rows = (kind * answer.count)()
        answer = _accepted(ask(rows, len(rows)))
    return rows, answer.filled


def _all_rows(kind: type, guess: int, ask: Callable[..., "_Answer"]) -> list:
    """All rows that a call of the library gives."""
    rows, count = _filled(kind, guess, ask)
    return rows[:count]


def _reason_of(ask: Callable[..., "_Answer"]) -> str:
    """What it is that makes a file invalid, which doesn't open: the call is asked for the words."""
    text = (_u8 * 120)()
    filled = ask(text, len(text)).filled
    return bytes(text[:filled]).decode("ascii").partition(": ")[2]


def _all_bytes(guess: int, ask: Callable[..., "_Answer"]) -> bytes:
    """All bytes that a call of the library gives."""
    rows, count = _filled(_u8, guess, ask)
    return ctypes.string_at(rows, count)


def _in_range(name: str, value: int, bits: int) -> int:
    """The number, if its field holds it: ctypes would cut it."""
    if not 0 <= value < 1 << bits:
        raise OverflowError(f"{name} is {value}, and has to be from 0 to 2**{bits} - 1")
    return value


# How many rows of samples are asked for first, and how many times as many next, up to a part of a
# track's: each time the file is opened anew. At most 168 MB of them are.
_FIRST_ROWS = 1024
_GROWTH = 16
_PARTS = 16
_LARGE_BLOCK = 1 << 19
_MOST_ROWS = 1 << 22

# How many rows are made samples at a time: so few that the processor's cache holds their columns.
_RUN = 1024


class _Rows:
    """The rows of a track's samples, up to the first that is refused."""

    def __init__(self, movie: "Movie", track_id: int, count: int):
        ask, room = movie._ask, max(_FIRST_ROWS, movie._bytes.size // _SAMPLE_ROW.size)
        blocks = []
        self.count = 0
        self.refusal: Optional[Error] = None
        while self.count < count:
            block = (_Sample * min(count - self.count, room, _MOST_ROWS))()
            answer = ask("samples", track_id, self.count + 1, block, len(block))
            blocks.append((block, answer.filled))
            self.count += answer.filled
            if answer.code or answer.filled < len(block):
                self.refusal = _refusal(answer) if answer.code else None
                break
            room *= _GROWTH
        if isinstance(self.refusal, OutOfMemory):
            raise self.refusal
        self.rows = _joined(blocks)
        self.are_all = self.count == count
        self.bytes = memoryview(self.rows).cast("B")[: self.count * _SAMPLE_ROW.size]
        self.rise = self.are_all and self._all_rise() and self._last_in_time(ask, track_id) == count

    def _all_rise(self) -> bool:
        starts = self.bytes.cast("Q")[1 :: _SAMPLE_ROW.size // 8]
        return all(map(operator.le, starts, starts[1:]))

    @staticmethod
    def _last_in_time(ask: Callable[..., "_Answer"], track_id: int) -> int:
        """The number of the last sample that has a time; 0 where there is none."""
        number = _u32()
        _accepted(ask("sample_at", track_id, 2**64 - 1, ctypes.byref(number)))
        return number.value

    def found(self, name: str, key: int) -> Optional[int]:
        """The number of the row that a call of the library finds among these."""
        number = _u64()
        function = getattr(_library(), "mp4_c_" + name)
        _accepted(function(self.rows, self.count, key, ctypes.byref(number)))
        return number.value or None


def _joined(blocks: List[Tuple["ctypes.Array", int]]) -> "ctypes.Array":
    """The first rows of each block, one after the other; there is at least one row, so that they
    have a place."""
    if len(blocks) == 1:
        return blocks[0][0]
    rows = (_Sample * max(sum(filled for _, filled in blocks), 1))()
    place, whole = 0, memoryview(rows).cast("B")
    for block, filled in blocks:
        end = place + filled * _SAMPLE_ROW.size
        whole[place:end] = memoryview(block).cast("B")[: end - place]
        place = end
    return rows


def _column(numbers: memoryview) -> Iterable[int]:
    """The numbers of a column. One that all rows have, as their duration often is, is made once."""
    is_one = numbers[1:] == numbers[:-1]
    return itertools.repeat(numbers[0]) if is_one else numbers.tolist()


class Samples(Sequence[Sample]):
    """The samples of a track, in order, as :meth:`Movie.samples` gives them.

    It may be gone through any number of times. An index counts from 0, so that of all samples the
    one with number 1 is at 0; a slice is a list. The first index makes the table of
    :meth:`Movie.table`, and from then on each sample is found at once; going through them doesn't.
    """

    def __init__(self, movie: "Movie", track: Track, first: int):
        if track.sample_count is None:
            raise Error(_Answer(code=Code.TOO_LARGE, limit=Limit.VALUE))
        self._movie = movie
        self._track = track
        self._first = max(first, 0)
        self._last: int = track.sample_count

    def __len__(self) -> int:
        """How many there are, as the file says. A TypeError where that is more than it has bytes,
        so that nobody makes room for them; they can be gone through all the same."""
        if self._last > self._movie._bytes.size:
            raise TypeError(f"the file says that track {self._track.id} has {self._last} samples")
        return max(self._last - self._first + 1, 0)

    def __iter__(self) -> Iterator[Sample]:
        """Ends after the last sample. The first that can't be found, or isn't whole in the file,
        raises :class:`Error`. Where there is no table of them, the library is asked for blocks: for
        a sixteenth first, at least 1,024 and at most 32,768 samples, and then for more."""
        kept = self._movie._kept_rows(self._track)
        if kept is not None and kept.are_all and self._first > 0:
            return itertools.chain.from_iterable(self._kept_runs(kept))
        return itertools.chain.from_iterable(self._read_runs())

    def _kept_runs(self, kept: _Rows) -> Iterator[Iterable[Sample]]:
        rows = kept.bytes[(self._first - 1) * _SAMPLE_ROW.size :]
        return self._movie._runs_in(rows, kept.count - self._first + 1, self._track, self._first)

    def _read_runs(self) -> Iterator[Iterable[Sample]]:
        movie, track, first = self._movie, self._track, self._first
        part = self._last // _PARTS
        most = min(max(part, _LARGE_BLOCK), _MOST_ROWS)
        room = min(max(part, _FIRST_ROWS), _LARGE_BLOCK // _GROWTH)
        rows = (_Sample * 0)()
        while first <= self._last:
            room = min(room, self._last - first + 1)
            # The rows before are samples by now: new memory would take longer than what fills it.
            if room > len(rows):
                rows = (_Sample * room)()
            answer = movie._ask("samples", track.id, first, rows, room)
            yield from movie._runs_in(memoryview(rows).cast("B"), answer.filled, track, first)
            _accepted(answer)
            if answer.filled < room:
                return
            first += room
            room = min(room * _GROWTH, most)

    @overload
    def __getitem__(self, index: int) -> Sample: ...

    @overload
    def __getitem__(self, index: slice) -> List[Sample]: ...

    def __getitem__(self, index: Union[int, slice]) -> Union[Sample, List[Sample]]:
        numbers = range(self._first, self._last + 1)[index]
        if isinstance(numbers, range):
            return [self._at(number) for number in numbers]
        return self._at(numbers)

    def _at(self, number: int) -> Sample:
        found = self._movie.sample(self._track.id, number)
        if found is None:
            raise IndexError(f"the track has no sample {number}")
        return found

    def __repr__(self) -> str:
        return f"<samples {self._first} to {self._last} of track {self._track.id}>"


class Movie:
    """A movie that is opened: a file, which is mapped into memory, or bytes.

    What the file says of its movie and its tracks is read once. The places of a track's samples are
    read when one is first asked for by its number, its time or its index, in one pass over the
    track's tables, and kept: 40 bytes for each. From then on each is found at once. Of a track that
    says that it has more than four million samples, or more than one for four bytes of the file,
    they are kept where :meth:`table` is called, and else each such call opens the file anew.

    Threads may share a movie; closing it waits for their calls to end, and what they ask for after
    that is a ValueError.

    A mapped file must not be cut while it is open: what is read past its new end ends the process.
    """

    size: int
    """How many bytes the file has, up to the end of its last box."""
    duration: int
    """In ticks of the movie, as its header says."""
    timescale: int
    """Ticks in a second, of the movie's duration; it may be 0."""
    creation_time: int
    """When the movie was made, in seconds since the beginning of 1904, UTC; 0 says nothing."""
    modification_time: int
    """When it was last changed, likewise."""
    header_version: int
    """Of the movie header: 1 where its times have 64 bits, else 0."""
    major_brand: str
    """The specification that the file follows first of all: four characters of Latin-1, one for
    each of its bytes."""
    minor_version: int
    """The version of the major brand."""
    is_fragmented: bool
    """Whether the file has movie fragments."""
    tracks: List[Track]
    """The tracks, by rising ids."""

    def __init__(self, source: Union[str, "os.PathLike[str]", BytesLike]):
        """Opens the file of this name, or these bytes; :class:`Error` if they are no MP4 file."""
        self._mapped: Optional[mmap.mmap] = None
        self._calls = 0
        self._no_call = threading.Condition()
        self._tables: Dict[int, _Rows] = {}
        if isinstance(source, (str, os.PathLike)):
            source = self._map(source)
        self._source = source
        self._bytes = _Bytes(source)
        try:
            self._read_header()
        except BaseException:
            self.close()
            raise

    def _map(self, path: Union[str, "os.PathLike[str]"]) -> BytesLike:
        """The bytes of a file, mapped into memory, but of an empty one, which can't be mapped."""
        with open(path, "rb") as file:
            if os.fstat(file.fileno()).st_size == 0:
                return file.read()
            self._mapped = mmap.mmap(file.fileno(), 0, access=mmap.ACCESS_READ)
            return self._mapped

    def _read_header(self) -> None:
        facts = _Movie()
        answer = self._ask("open", ctypes.byref(facts))
        if answer.code == Code.INVALID_DATA:
            raise Error(answer, self._reason())
        _accepted(answer)
        self.size = facts.size
        self.duration = facts.duration
        self.timescale = facts.timescale
        self.creation_time = facts.creation_time
        self.modification_time = facts.modification_time
        self.header_version = facts.header_version
        self.major_brand = _code_text(facts.major_brand)
        self.minor_version = facts.minor_version
        self.is_fragmented = facts.is_fragmented != 0
        self._brand_count = facts.brand_count
        rows = _all_rows(_Track, facts.track_count, lambda *room: self._ask("tracks", *room))
        self.tracks = [_track_of(row) for row in rows]
        self._by_id = {track.id: track for track in self.tracks}

    def _begin_call(self) -> None:
        """Holds the file, so that no other thread lets it go before the call ends."""
        with self._no_call:
            if self._source is None:
                raise ValueError("the movie is closed")
            self._calls += 1

    def _end_call(self) -> None:
        with self._no_call:
            self._calls -= 1
            if self._calls == 0:
                self._no_call.notify_all()

    def _reason(self) -> str:
        """What it is that makes the file invalid, which doesn't open."""
        return _reason_of(lambda *room: self._ask("open_error_text", *room))

    def _ask(self, name: str, *words: object) -> "_Answer":
        """The library's answer to a question about the file."""
        function = getattr(_library(), "mp4_c_" + name)
        self._begin_call()
        try:
            return function(self._bytes.address, self._bytes.size, *words)
        finally:
            self._end_call()

    def close(self) -> None:
        """Lets the file go, once no thread is in a call."""
        with self._no_call:
            self._source = None
            self._no_call.wait_for(lambda: self._calls == 0)
            self._bytes.release()
            if self._mapped is not None:
                self._mapped.close()

    def seconds(self, ticks: int) -> float:
        """How long so many ticks of the movie last, as its ``duration`` has. :class:`Error` where
        the timescale is 0."""
        return _seconds(ticks, self.timescale)

    def __repr__(self) -> str:
        kinds = ", ".join(track.sample_entry or track.handler for track in self.tracks)
        return f"<Movie of {self.size} bytes: {kinds or 'no tracks'}>"

    def __enter__(self) -> "Movie":
        return self

    def __exit__(self, *_: object) -> None:
        self.close()

    @property
    def compatible_brands(self) -> List[str]:
        """All specifications that the file follows, in its order."""
        rows = _all_rows(_Brand, self._brand_count, lambda *room: self._ask("brands", *room))
        return [_code_text(row.code) for row in rows]

    def track(self, track_id: int) -> Track:
        """The track with this id; :class:`Error` without one."""
        track = self._by_id.get(track_id)
        if track is not None:
            return track
        absent = _in_range("track_id", track_id, 32)
        raise Error(_Answer(code=Code.TRAK_NOT_FOUND, track_id=absent))

    def samples(self, track_id: int, first: int = 1) -> Samples:
        """The samples of a track, in order, from a number on: a sequence of which the length is
        known. Going through it raises :class:`Error` at the first that can't be found, or isn't
        whole in the file."""
        return Samples(self, self.track(track_id), first)

    def _runs_in(
        self, rows: memoryview, filled: int, track: Track, first: int
    ) -> Iterator[Iterable[Sample]]:
        """The first ``filled`` samples of a track's block that begins with number ``first``."""
        rows = rows[: filled * _SAMPLE_ROW.size]
        places, starts = (rows.cast("Q")[field::5] for field in range(2))
        sizes, durations = (rows.cast("I")[field::10] for field in (5, 6))
        offsets, marks = rows.cast("i")[7::10], rows.cast("?")[32::40]
        for begin in range(0, filled, _RUN):
            run = slice(begin, begin + _RUN)
            run_places, run_sizes = places[run].tolist(), sizes[run].tolist()
            # Columns, and no look at a row by itself: a third of the time. Lists of a whole block's
            # columns, which the cache doesn't hold, would take half as long again.
            fields = zip(
                itertools.count(first + begin), run_places, starts[run].tolist(),
                itertools.repeat(track.id), run_sizes, _column(durations[run]),
                _column(offsets[run]), _column(marks[run]),
            )
            samples = map(tuple.__new__, itertools.repeat(Sample), fields)
            # Nearly always the file has room for all sizes after the last place, so for each.
            fits = max(run_places) + sum(run_sizes) <= self._bytes.size
            yield samples if fits else map(self._whole, samples)

    def _whole(self, sample: Sample) -> Sample:
        """The sample, if its bytes are in the file."""
        if sample.offset + sample.size > self._bytes.size:
            raise _end_of_data()
        return sample

    def _rows(self, track: Track) -> _Rows:
        """The rows of a track's samples, which are read the first time."""
        rows = self._tables.get(track.id)
        if rows is None:
            if track.sample_count is None:
                raise Error(_Answer(code=Code.TOO_LARGE, limit=Limit.VALUE))
            rows = self._tables[track.id] = _Rows(self, track.id, track.sample_count)
        return rows

    def _kept_rows(self, track: Track) -> Optional[_Rows]:
        """The same, where they were read before."""
        if self._source is None:
            raise ValueError("the movie is closed")
        return self._tables.get(track.id)

    def _few_rows(self, track: Track) -> Optional[_Rows]:
        """The same, but of a track that says that it has so many samples that they aren't kept
        unasked."""
        kept, few = self._kept_rows(track), min(self._bytes.size // 4, _MOST_ROWS)
        if kept is None and track.sample_count is not None and track.sample_count <= few:
            return self._rows(track)
        return kept

    def table(self, track_id: int) -> memoryview:
        """The places, the sizes and the times of all samples of a track, as one buffer of rows with
        named fields, which numpy.asarray takes as it is: offset, start_time, track_id, size,
        duration, rendering_offset, is_sync and reserved. It is made the first time, takes 40 bytes
        for each sample, and stays when the movie is closed.

        :class:`Error` where a sample can't be found. A few hundred bytes may say that a track has
        2**32 - 1 samples, which would be 172 GB: of a file that isn't yours, look before whether its
        ``sample_count`` is at most a fourth of the file's bytes, as it is where each sample has a size
        of its own there.
        """
        rows = self._rows(self.track(track_id))
        if rows.refusal is not None:
            raise rows.refusal
        return memoryview(rows.rows)[: rows.count]

    def sample(self, track_id: int, number: int) -> Optional[Sample]:
        """One sample, by its number from 1 on; None past the last."""
        track = self.track(track_id)
        rows = self._few_rows(track)
        if rows is not None and 0 < number <= rows.count:
            return self._unpacked(number, rows.bytes, (number - 1) * _SAMPLE_ROW.size)
        found = (_Sample * 1)()
        first = _in_range("number", number, 32)
        answer = _accepted(self._ask("samples", track.id, first, found, 1))
        return self._unpacked(number, found, 0) if answer.filled else None

    def _unpacked(
        self, number: int, rows: Union[memoryview, "ctypes.Array"], place: int
    ) -> Sample:
        """The sample with this number, from its place in rows."""
        return self._whole(Sample(number, *_SAMPLE_ROW.unpack_from(rows, place)))

    def read(self, sample: Sample) -> bytes:
        """The bytes of a sample."""
        self._begin_call()
        try:
            if sample.size < 0 or not 0 <= sample.offset <= self._bytes.size - sample.size:
                raise _end_of_data()
            return ctypes.string_at(self._bytes.address + sample.offset, sample.size)
        finally:
            self._end_call()

    def sample_at(self, track_id: int, time: int) -> Optional[int]:
        """The number of the last sample that is decoded at or before a time in ticks."""
        track, time = self.track(track_id), _in_range("time", time, 64)
        rows = self._few_rows(track)
        if rows is not None and rows.rise:
            return rows.found("row_at", time)
        number = _u32()
        _accepted(self._ask("sample_at", track.id, time, ctypes.byref(number)))
        return number.value or None

    def sync_sample_at_or_before(self, track_id: int, number: int) -> Optional[int]:
        """The number of the last sample up to this one from which decoding can begin."""
        track, number = self.track(track_id), _in_range("number", number, 32)
        rows = self._few_rows(track)
        if rows is not None and rows.are_all:
            return rows.found("sync_row_at_or_before", number)
        found = _u32()
        _accepted(self._ask("sync_sample_at_or_before", track.id, number, ctypes.byref(found)))
        return found.value or None

    def sequence_parameter_set(self, track_id: int) -> bytes:
        """The first sequence parameter set of a track of AVC video."""
        return self._item("parameter_set", self.track(track_id).id, 1)

    def picture_parameter_set(self, track_id: int) -> bytes:
        """The first picture parameter set of a track of AVC video."""
        return self._item("parameter_set", self.track(track_id).id, 2)

    @property
    def metadata(self) -> Metadata:
        """What the file says of the work that it holds."""
        title, year, poster, summary = map(self._metadata_at, (1, 2, 3, 4))
        return Metadata(
            title=None if title is None else title.decode("utf-8", "replace"),
            year=None if year is None else int(year),
            poster=poster,
            summary=None if summary is None else summary.decode("utf-8", "replace"),
        )

    def _item(self, name: str, *words: int) -> bytes:
        """Bytes that a call gives."""
        return _all_bytes(1024, lambda *room: self._ask(name, *words, *room))

    def _metadata_at(self, key: int) -> Optional[bytes]:
        try:
            return self._item("metadata", key)
        except Error as refused:
            if refused.code != Code.NOT_PRESENT:
                raise
            return None


@dataclass(frozen=True)
class NewTrack:
    """What a track is added with. The first has id 1, and each next one the id after it."""

    sample_entry: str
    """How its samples are coded: avc1, hev1, vp09, mp4a or tx3g. A track of hev1 is written without
    the parameter sets that a decoder of HEVC is begun with: they have to be in its samples."""
    timescale: int = 1000
    """Ticks in a second, of the track's times; not 0."""
    language: str = "und"
    """Three small letters of ISO 639-2/T."""
    width: int = 0
    """Of video: pixels."""
    height: int = 0
    """Of video: pixels."""
    sequence_set: bytes = b""
    """Of AVC video: 4 to 65535 bytes."""
    picture_set: bytes = b""
    """Of AVC video: at most 65535 bytes."""
    bits_per_second: int = 0
    """Of AAC sound."""
    audio_profile: int = 2
    """Of AAC sound, the audio object type: 2 is AAC LC."""
    frequency_index: int = 3
    """Of AAC sound: 0 is 96000 Hz, 3 is 48000, 4 is 44100, .. 12 is 7350."""
    channels: int = 2
    """Of AAC sound: 1 is mono, 2 stereo, .. 7 is 7.1."""


class NewSample(NamedTuple):
    """A sample that is written, in ticks of its track."""

    track_id: int
    data: bytes
    """Its bytes, which are taken when the sample is. Those of a text of tx3g begin with how many
    there are, in two bytes: :meth:`text`."""
    duration: int
    rendering_offset: int = 0
    is_sync: bool = True

    @classmethod
    def text(cls, track_id: int, text: str, duration: int) -> "NewSample":
        """A text of a track of tx3g; an empty one is a gap (3GPP TS 26.245, 5.17)."""
        encoded = text.encode("utf-8")
        size = _in_range("the size of a text in UTF-8", len(encoded), 16)
        return cls(track_id, struct.pack(">H", size) + encoded, duration)


class _Data:
    """Bytes that are added one after the other."""

    def __init__(self) -> None:
        self.parts: List[bytes] = []
        self.size = 0

    def add(self, part: bytes) -> Tuple[int, int]:
        """Adds a part, and answers where it begins and how many bytes it has. They are taken now:
        what is changed in it later isn't written."""
        start, taken = self.size, part if isinstance(part, bytes) else bytes(memoryview(part))
        self.parts.append(taken)
        self.size += len(taken)
        return start, len(taken)


def _four(text: Union[str, bytes]) -> "ctypes.Array[ctypes.c_uint8]":
    """A code of four bytes, which are given or are characters of Latin-1."""
    code = text.encode("latin-1") if isinstance(text, str) else bytes(text)
    if len(code) != 4:
        raise ValueError(f"{text!r} isn't a code of four characters")
    return _code(*code)


def _track_row(track: NewTrack, index: int, data: _Data) -> "_NewTrack":
    """The row of a track, whose parameter sets are added to the data."""
    language = track.language.encode("ascii", "replace")
    if len(language) != 3 or language[0] == 0:
        raise Error(_Answer(code=Code.UNREPRESENTABLE, part=2, index=index))
    row = _NewTrack(sample_entry=_four(track.sample_entry), language=_code(*language, 0))
    for name in ("sequence_set", "picture_set"):
        place, size = data.add(getattr(track, name))
        setattr(row, name, place)
        setattr(row, f"{name}_size", _in_range(f"{name}_size", size, 32))
    for name, kind in _NewTrack._fields_:
        if hasattr(track, name) and kind in (_u8, _u16, _u32):
            setattr(row, name, _in_range(name, getattr(track, name), 8 * ctypes.sizeof(kind)))
    return row


def _sample_rows(samples: Iterable[NewSample], data: _Data) -> bytearray:
    """The rows of samples, whose bytes are added to the data."""
    rows = bytearray()
    for track_id, part, duration, later, is_sync in samples:
        place, size = data.add(part)
        rows += _SAMPLE_ROW.pack(place, 0, track_id, size, duration, later, bool(is_sync))
    return rows


def _list_of(kind: type, rows: list) -> "ctypes.Array":
    """Rows one after the other; there is at least one, so that it has a place."""
    return (kind * max(len(rows), 1))(*rows)


def write(
    tracks: Sequence[NewTrack],
    samples: Iterable[NewSample],
    *,
    major_brand: Union[str, bytes] = "isom",
    minor_version: int = 512,
    compatible_brands: Sequence[Union[str, bytes]] = ("isom", "iso2", "avc1", "mp41"),
    timescale: int = 1000,
) -> bytes:
    """The bytes of a movie of these tracks and samples, in this order. ``timescale`` is that of the
    movie's durations.

    :class:`Error` where a track or a sample can't be written: its ``part`` and ``index`` say which.
    A number that its field doesn't hold is an OverflowError or a struct.error.
    """
    data = _Data()
    movie = _NewMovie(
        timescale=_in_range("timescale", timescale, 32),
        minor_version=_in_range("minor_version", minor_version, 32),
        major_brand=_four(major_brand),
    )
    brands = _list_of(_Brand, [_Brand(_four(brand)) for brand in compatible_brands])
    track_rows = [_track_row(track, index, data) for index, track in enumerate(tracks)]
    new_tracks = _list_of(_NewTrack, track_rows)
    rows = _sample_rows(samples, data)
    count = len(rows) // _SAMPLE_ROW.size
    new_samples = (_Sample * max(count, 1)).from_buffer(rows or bytearray(_SAMPLE_ROW.size))
    whole = _Bytes(b"".join(data.parts))
    parts = (ctypes.byref(movie), brands, len(compatible_brands), new_tracks, len(tracks))
    parts += (new_samples, count, whole.address, whole.size)
    likely = 1024 + 4 * len(compatible_brands) + 1024 * len(tracks) + 40 * count + whole.size
    return _all_bytes(likely, lambda *room: _library().mp4_c_write(*parts, *room))


def _rewritten(name: str, file: BytesLike, *words: object) -> bytes:
    """The bytes that a call makes of a file's."""
    function, source = getattr(_library(), "mp4_c_" + name), _Bytes(file)
    place = (source.address, source.size)
    try:
        return _all_bytes(source.size, lambda *room: function(*place, *words, *room))
    except Error as refused:
        if refused.code == Code.INVALID_DATA:
            ask = _library().mp4_c_open_error_text
            refused.reason = _reason_of(lambda *room: ask(*place, *room))
        raise
    finally:
        source.release()


def move_to_front(file: BytesLike) -> bytes:
    """The file of these bytes with its movie box before its data, as players want it that begin
    before they have the whole file: the file type, the movie box, then all other boxes in their
    order. Of the movie box the chunk offsets are others, 64 bits wide where one passes 32; every
    other byte is there as it was. A file whose movie box is before its data already stays as it is.

    :class:`Error` where the file doesn't open. Where the movie box has to move, each sample of each
    track is looked up in the file and in what would be written: :class:`Error` where one isn't
    found, or would be another (``DIFFERS``), for two file types or two movie boxes (``TWICE``), and
    for a box that says places which aren't rewritten, as that of a fragment does (``SAYS_PLACES``).
    """
    return _rewritten("move_to_front", file)


def gather(file: BytesLike) -> bytes:
    """The file of these bytes with all samples in its tables and none in fragments: the file type,
    the movie box, the other boxes in their order, and the data of all samples in the order of the
    file, in one mdat. A file without fragments, in which none may follow, stays as it is.

    The boxes of fragments are left out, and bytes of mdat that are no sample's. Beside times,
    sizes, places, descriptions and sync marks nothing of what fragments say of a sample has a table
    here: flags of dependency and of priority are lost.

    :class:`Error` where the file doesn't open or a sample isn't found; where a sample doesn't begin
    when the one before it ends, or the first of a track at 0 (``STARTS_ELSEWHERE``), for a box that
    says more of samples than tables do (``SAYS_OF_SAMPLES``), for two tracks of one id
    (``SAME_IDS``), and else as :func:`move_to_front`.
    """
    return _rewritten("gather", file)


def choose(file: BytesLike, track_ids: Sequence[int]) -> bytes:
    """The file of these bytes with the tracks of these ids alone and with the data of their
    samples: the file type, the movie box, the other boxes in their order, and the data in the order
    of the file, in one mdat. In the movie box the other tracks are left out, and the references to
    them; the movie is as long as the longest of its tracks. The order of the ids makes no
    difference: tracks are in that of the file. Fragments are gathered, as by :func:`gather`.

    :class:`Error` as for :func:`gather`, and for an id that no track has (``TRAK_NOT_FOUND``).
    """
    ids = _list_of(_u32, [_in_range("track_id", each, 32) for each in track_ids])
    return _rewritten("choose", file, ids, len(track_ids))
