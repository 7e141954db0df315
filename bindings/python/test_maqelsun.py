"""Tests of the module: movies that are written, read and rewritten."""

import copy
import mmap
import os
import pickle
import struct
import subprocess
import sys
import tempfile
import threading
import unittest
from concurrent.futures import ProcessPoolExecutor
from unittest import mock

import maqelsun
from maqelsun import Code, Error, Limit, Movie, NewSample, NewTrack, OutOfMemory
from maqelsun import choose, gather, move_to_front, write


def numbers(count, **movie):
    """A movie of one text track with this many samples; each has the digits of its number."""
    samples = (NewSample(1, b"%d" % number, number % 3) for number in range(1, count + 1))
    return write([NewTrack("tx3g")], samples, **movie)


def boxed(kind, payload):
    """A box of this type around bytes."""
    return struct.pack(">I", len(payload) + 8) + kind + payload


def with_metadata(*items):
    """A movie with these items of metadata: each has a type, the type of its data, and its data."""
    data = [
        boxed(kind, boxed(b"data", bytes([0, 0, 0, data_type, 0, 0, 0, 0]) + value))
        for kind, data_type, value in items
    ]
    handler = boxed(b"hdlr", bytes(8) + b"mdir" + bytes(13))
    added = boxed(b"udta", boxed(b"meta", bytes(4) + handler + boxed(b"ilst", b"".join(data))))
    file = bytearray(numbers(1) + added)
    movie = file.index(b"moov") - 4
    file[movie : movie + 4] = struct.pack(">I", len(file) - movie)
    return bytes(file)


def fragmented():
    """A movie of one text track, whose two samples are in a fragment (ISO/IEC 14496-12, 8.8)."""
    ids = boxed(b"mvex", boxed(b"trex", struct.pack(">6I", 0, 1, 1, 0, 0, 0)))
    file = bytearray(write([NewTrack("tx3g")], []) + ids)
    movie = file.index(b"moov") - 4
    file[movie : movie + 4] = struct.pack(">I", len(file) - movie)
    head = boxed(b"mfhd", struct.pack(">2I", 0, 1))
    track = boxed(b"tfhd", struct.pack(">2I", 0x20000, 1))  # places count from the moof
    rows = struct.pack(">4I", 500, 3, 700, 4)  # each has a duration and a size
    run = boxed(b"trun", struct.pack(">3I", 0x301, 2, 92) + rows)
    moof = boxed(b"moof", head + boxed(b"traf", track + run))
    return bytes(file) + moof + boxed(b"mdat", b"onetwo.")


class Reading(unittest.TestCase):
    """Movies that are read."""

    def refused(self, text, call, *words, **named):
        """The error of a call, which has to have this text."""
        with self.assertRaises(Error) as caught:
            call(*words, **named)
        self.assertEqual(str(caught.exception), text)
        return caught.exception

    def test_each_kind_of_track_is_read_as_it_was_written(self):
        sets = {"sequence_set": b"\x67\x64\0\x1f\xac", "picture_set": b"\x68"}
        tracks = [
            NewTrack("avc1", width=1920, height=1080, **sets),
            NewTrack("hev1", width=320, height=240),
            NewTrack("vp09", width=320, height=240),
            NewTrack("mp4a", 48000, "deu", bits_per_second=128000),
            NewTrack("tx3g"),
        ]
        samples = [NewSample(4, b"sound", 48000), NewSample(5, b"text", 500, -2, False)]
        movie = Movie(write(tracks, samples))
        entries = [track.sample_entry for track in movie.tracks]
        self.assertEqual(entries, [track.sample_entry for track in tracks])
        handlers = [track.handler for track in movie.tracks]
        self.assertEqual(handlers, ["vide", "vide", "vide", "soun", "sbtl"])
        sound = movie.track(4)
        self.assertEqual((sound.audio_profile, sound.frequency_index, sound.channels), (2, 3, 2))
        self.assertEqual((sound.bits_per_second, sound.duration), (128000, 48000))
        self.assertEqual(sound.language, "deu")
        self.assertEqual(movie.track(1).video_profile, (0x64, 0, 0x1F))
        self.assertEqual((movie.track(1).width, movie.track(2).height), (1920, 240))
        self.assertEqual(movie.sequence_parameter_set(1), b"\x67\x64\0\x1f\xac")
        self.assertEqual(movie.picture_parameter_set(1), b"\x68")
        refused = self.refused("trak[5].stbl.avc1 not found", movie.picture_parameter_set, 5)
        self.assertEqual(refused.code, Code.BOX_IN_STBL_NOT_FOUND)
        self.assertEqual((refused.track_id, refused.box_type), (5, b"avc1"))
        (sample,) = movie.samples(5)
        self.assertEqual(movie.read(sample), b"text")
        self.assertEqual(sample[2:3] + sample[4:], (0, 4, 500, -2, False))

    def test_a_movie_says_what_it_was_begun_with(self):
        brands = {"major_brand": b"mp42", "compatible_brands": ["mp42", b"\xa9nam"]}
        movie = Movie(write([], [], minor_version=7, timescale=9, **brands))
        self.assertEqual((movie.major_brand, movie.minor_version), ("mp42", 7))
        self.assertEqual(movie.compatible_brands, ["mp42", "\xa9nam"])
        self.assertEqual((movie.timescale, movie.duration, movie.tracks), (9, 0, []))
        self.assertFalse(movie.is_fragmented)

    def test_samples_of_several_blocks_are_read_in_order(self):
        movie = Movie(numbers(40000))
        start = 0
        for number, sample in enumerate(movie.samples(1), 1):
            self.assertEqual(movie.read(sample), b"%d" % number)
            self.assertEqual((sample.number, sample.start_time), (number, start))
            self.assertEqual(sample.duration, number % 3)
            start += sample.duration
        self.assertEqual(number, 40000)

    def test_samples_begin_at_any_number(self):
        movie = Movie(numbers(2000))
        for first in [1, 2, 1024, 1025, 1999, 2000, 2001, 5000, 2**40]:
            found = [sample.number for sample in movie.samples(1, first)]
            self.assertEqual(found, list(range(first, 2001)))
        self.refused("invalid data", list, movie.samples(1, 0))

    def test_samples_that_are_kept_are_not_asked_for_again(self):
        movie = Movie(numbers(5))
        asked_for = list(movie.samples(1))
        self.assertEqual(movie.samples(1)[-1].number, 5)
        with mock.patch.object(movie, "_ask", side_effect=AssertionError):
            for first in [1, 2, 5, 6, 2**40]:
                self.assertEqual(list(movie.samples(1, first)), asked_for[first - 1 :])
        self.refused("invalid data", list, movie.samples(1, 0))
        movie.close()
        with self.assertRaises(ValueError):
            list(movie.samples(1))

    def test_one_sample_is_read_by_its_number(self):
        movie = Movie(numbers(3))
        self.assertEqual(movie.read(movie.sample(1, 2)), b"2")
        self.assertIsNone(movie.sample(1, 4))
        self.refused("invalid data", movie.sample, 1, 0)
        self.refused("trak[2] not found", movie.sample, 2, 1)
        self.refused("trak[2] not found", movie.samples, 2)
        with self.assertRaises(OverflowError):
            movie.sample(1, 2**32 + 1)

    def test_samples_are_a_sequence(self):
        movie = Movie(numbers(2000))
        samples = movie.samples(1)
        self.assertEqual((len(samples), repr(samples)), (2000, "<samples 1 to 2000 of track 1>"))
        self.assertEqual(movie.read(samples[0]), b"1")
        self.assertEqual(samples[-1], movie.sample(1, 2000))
        self.assertEqual([sample.number for sample in samples[5:12:3]], [6, 9, 12])
        self.assertEqual(samples[1990:], list(samples)[1990:])
        self.assertEqual(list(samples), list(samples))
        later = movie.samples(1, 1999)
        self.assertEqual((len(later), later[1].number, list(reversed(later))[0]), (2, 2000, later[1]))
        self.assertEqual(len(movie.samples(1, 2001)), 0)
        for index in [2000, -2001]:
            with self.assertRaises(IndexError):
                samples[index]

    def test_a_table_has_named_fields(self):
        movie = Movie(numbers(300))
        table = movie.table(1)
        self.assertEqual((len(table), table.itemsize), (300, 40))
        names = ["offset", "start_time", "track_id", "size", "duration", "rendering_offset", "is_sync"]
        places = [table.format.index(f":{name}:") for name in names]
        self.assertEqual(places, sorted(places))
        rows = struct.iter_unpack("=QQIIIiB7x", table.cast("B"))
        expected = [tuple(map(int, sample[1:])) for sample in movie.samples(1)]
        self.assertEqual(list(rows), expected)

    def test_a_refused_file_says_what_is_invalid(self):
        error = self.refused("invalid data", Movie, b"\0\0\1\0free")
        self.assertEqual(error.reason, "a box is larger than the file")
        self.assertEqual(pickle.loads(pickle.dumps(error)).reason, error.reason)
        self.assertEqual(self.refused("ftyp not found", Movie, b"").reason, "")

    def test_a_table_of_a_refused_sample_is_refused(self):
        file = bytearray(numbers(12))
        file[file.rindex(b"stsc") + 19] = 0  # the samples of each chunk
        movie = Movie(file)
        self.refused("invalid data", list, movie.samples(1))
        self.refused("invalid data", movie.table, 1)
        self.assertEqual(movie.sample_at(1, 0), 1)

    def test_a_table_ends_where_the_samples_do(self):
        file = bytearray(numbers(12))
        file[file.rindex(b"stsc") + 19] = 5  # the samples of each chunk, of which there is one
        movie = Movie(file)
        self.assertEqual((len(list(movie.samples(1))), len(movie.table(1))), (5, 5))
        self.assertEqual((movie.sample(1, 5).number, movie.sample(1, 6)), (5, None))
        self.assertEqual(movie.sync_sample_at_or_before(1, 9), 9)

    def test_a_track_of_more_samples_than_bytes_has_no_length(self):
        file = bytearray(write([NewTrack("tx3g")], [NewSample(1, b"same", 1)] * 3))
        count = file.rindex(b"stsz") + 12
        file[count : count + 4] = struct.pack(">I", 2**32 - 1)
        samples = Movie(file).samples(1)
        self.assertEqual(samples[0].size, 4)
        with self.assertRaises(TypeError):
            len(samples)
        self.assertLessEqual(len(list(samples)), 3)

    def test_ticks_are_seconds(self):
        movie = Movie(numbers(6, timescale=600))
        self.assertEqual((movie.seconds(900), movie.track(1).seconds(1500)), (1.5, 1.5))
        still = Movie(numbers(1, timescale=0))
        self.refused("timescale is zero", still.seconds, 1)

    def test_the_header_says_when_a_movie_was_made(self):
        file = bytearray(numbers(1))
        header = file.index(b"mvhd") + 4
        file[header + 4 : header + 12] = struct.pack(">II", 3_000_000_000, 7)
        movie = Movie(file)
        found = (movie.creation_time, movie.modification_time, movie.header_version)
        self.assertEqual(found, (3_000_000_000, 7, 0))

    def test_an_opened_movie_says_what_it_is(self):
        file = numbers(1)
        self.assertEqual(repr(Movie(file)), f"<Movie of {len(file)} bytes: tx3g>")

    def test_a_library_of_another_version_is_not_used(self):
        with mock.patch.object(maqelsun, "_VERSION", 1):
            maqelsun._library.cache_clear()
            with self.assertRaises(ImportError):
                maqelsun._library()
        maqelsun._library.cache_clear()

    def test_samples_are_found_by_their_times(self):
        movie = Movie(numbers(6))  # they last 1, 2, 0, 1, 2 and 0 ticks
        self.assertEqual([movie.sample_at(1, time) for time in range(7)], [1, 2, 2, 4, 5, 5, 6])
        self.assertEqual(movie.sync_sample_at_or_before(1, 4), 4)
        self.assertIsNone(movie.sync_sample_at_or_before(1, 0))
        self.refused("trak[2] not found", movie.sample_at, 2, 0)
        with self.assertRaises(OverflowError):
            movie.sample_at(2**32 + 1, 0)

    def test_a_sample_that_is_not_whole_in_the_file_ends_the_samples(self):
        file = bytearray(numbers(12))  # whose sizes aren't all the same, so that they are listed
        file[file.rindex(b"stsz") + 20] = 0x7F  # the high byte of the size of the second sample
        movie = Movie(file)
        samples = iter(movie.samples(1))
        first = next(samples)
        self.assertEqual(movie.read(first), b"1")
        self.refused("end of data", next, samples)
        self.refused("end of data", movie.sample, 1, 2)
        self.assertEqual(movie.samples(1)[0], first)
        self.refused("end of data", movie.samples(1).__getitem__, 1)
        for place in [{"offset": len(file)}, {"offset": -1}, {"size": -1}, {"size": 2**40}]:
            self.refused("end of data", movie.read, first._replace(**place))

    def test_metadata_is_read(self):
        long = "long " * 1000
        movie = Movie(
            with_metadata(
                (b"\xa9nam", 1, b"Title \xff"), (b"\xa9day", 1, b"2019"), (b"covr", 13, b"\1\2\3"),
                (b"desc", 1, long.encode()),
            )
        )
        self.assertEqual(movie.metadata, maqelsun.Metadata("Title \ufffd", 2019, b"\1\2\3", long))
        self.assertEqual(Movie(numbers(1)).metadata, maqelsun.Metadata())

    def test_each_cut_of_a_movie_is_answered(self):
        file = numbers(3)
        for end in range(len(file)):
            try:
                self.assertLessEqual(len(list(Movie(file[:end]).samples(1))), 3)
            except Error:
                pass
        self.refused("ftyp not found", Movie, b"")

    def test_each_source_of_bytes_is_opened(self):
        file = numbers(3)
        mapped = mmap.mmap(-1, len(file))
        mapped.write(file)
        for source in [file, bytearray(file), memoryview(file), mapped]:
            with Movie(source) as movie:
                self.assertEqual(len(list(movie.samples(1))), 3)
        mapped.close()
        with self.assertRaises(TypeError):
            Movie(7)

    def test_a_file_is_mapped_and_closed(self):
        with tempfile.TemporaryDirectory() as folder:
            name = os.path.join(folder, "movie.mp4")
            with open(name, "wb") as out:
                out.write(numbers(3))
            with Movie(name) as movie:
                sample = movie.sample(1, 3)
                self.assertEqual(movie.read(sample), b"3")
                samples, table = movie.samples(1), movie.table(1)
            with self.assertRaises(ValueError):
                movie.read(sample)
            with self.assertRaises(ValueError):
                next(iter(samples))
            for ask in [movie.sample, movie.sample_at, movie.sync_sample_at_or_before]:
                with self.assertRaises(ValueError):
                    ask(1, 1)
            self.assertEqual(len(table), 3)
            movie.close()
            with open(name, "wb"):
                pass
            self.refused("ftyp not found", Movie, name)
            with self.assertRaises(FileNotFoundError):
                Movie(os.path.join(folder, "none.mp4"))

    def test_threads_share_a_movie(self):
        movie = Movie(numbers(3000))
        counts = []

        def counted():
            counts.append(len(list(movie.samples(1))))

        threads = [threading.Thread(target=counted) for _ in range(8)]
        for thread in threads:
            thread.start()
        for thread in threads:
            thread.join()
        self.assertEqual(counts, [3000] * 8)

    def test_a_movie_is_closed_while_threads_are_in_calls(self):
        for _ in range(20):
            movie = Movie(bytearray(numbers(5000)))
            ends = []

            def walk():
                try:
                    while True:
                        for sample in movie.samples(1):
                            movie.read(sample)
                except ValueError as closed:
                    ends.append(str(closed))

            threads = [threading.Thread(target=walk) for _ in range(4)]
            for thread in threads:
                thread.start()
            movie.close()
            for thread in threads:
                thread.join()
            self.assertEqual(ends, ["the movie is closed"] * 4)

    def test_closing_waits_for_a_call(self):
        movie = Movie(numbers(3))
        begun, may_end = threading.Event(), threading.Event()

        class Slow:
            """A library whose only call lasts until it may end."""

            def mp4_c_parameter_set(self, *_):
                begun.set()
                may_end.wait(60)
                return maqelsun._Answer()

        with mock.patch.object(maqelsun, "_library", Slow):
            caller = threading.Thread(target=movie.picture_parameter_set, args=(1,))
            caller.start()
            begun.wait(60)
            closer = threading.Thread(target=movie.close)
            closer.start()
            closer.join(0.2)
            self.assertTrue(closer.is_alive())
            may_end.set()
            caller.join()
            closer.join()
        with self.assertRaises(ValueError):
            movie.sample_at(1, 0)

    def test_an_error_is_pickled_and_copied(self):
        error = self.refused("trak[2] not found", Movie(numbers(1)).sample, 2, 1)
        for other in [pickle.loads(pickle.dumps(error)), copy.copy(error), copy.deepcopy(error)]:
            self.assertIs(type(other), Error)
            self.assertEqual(str(other), "trak[2] not found")
            self.assertEqual((other.code, other.track_id), (Code.TRAK_NOT_FOUND, 2))

    def test_an_error_leaves_a_process_of_a_pool(self):
        with ProcessPoolExecutor(1) as pool:
            self.refused("ftyp not found", pool.submit(len_of_movie, b"").result)
            self.assertEqual(pool.submit(len_of_movie, numbers(3)).result(), 3)

    def test_a_limit_has_a_name(self):
        error = maqelsun._refusal(maqelsun._Answer(code=15, limit=6))
        self.assertEqual((error.code, error.limit), (Code.TOO_LARGE, Limit.VALUE))

    def test_refused_memory_is_a_memory_error(self):
        error = maqelsun._refusal(maqelsun._Answer(code=2))
        self.assertIsInstance(error, MemoryError)
        self.assertIsInstance(pickle.loads(pickle.dumps(error)), OutOfMemory)
        self.assertEqual((str(error), error.code), ("out of memory", Code.OUT_OF_MEMORY))

    def test_the_page_is_shown_without_a_library(self):
        folder = os.path.dirname(os.path.abspath(maqelsun.__file__))
        environment = dict(os.environ, MAQELSUN_LIBRARY=os.path.join(folder, "none.so"))
        command = [sys.executable, "-m", "pydoc", "maqelsun"]
        page = subprocess.run(command, cwd=folder, env=environment, stdout=subprocess.PIPE)
        self.assertIn(b"class Movie", page.stdout)


def len_of_movie(file):
    """How many samples the first track of a file has: what a process of a pool is asked."""
    return Movie(file).tracks[0].sample_count


class Writing(unittest.TestCase):
    """Movies that are written, and what refuses them."""

    refused = Reading.refused

    def test_samples_that_were_read_can_be_written(self):
        file = numbers(2500)
        movie = Movie(file)
        samples = [
            NewSample(1, movie.read(each), each.duration, each.rendering_offset, each.is_sync)
            for each in movie.samples(1)
        ]
        self.assertEqual(write([NewTrack("tx3g")], samples), file)

    def test_a_refused_track_is_named(self):
        text = NewTrack("tx3g")
        refused = self.refused("timescale is zero", write, [text, NewTrack("tx3g", 0)], [])
        self.assertEqual((refused.part, refused.index), ("track", 1))
        for language in ["", "en", "deut", "DEU", "\0de", "\xfcbe"]:
            self.refused("unrepresentable", write, [NewTrack("tx3g", language=language)], [])
        self.refused("unrepresentable", write, [NewTrack("avc1")], [])
        self.refused("invalid data", write, [NewTrack("mp4a", frequency_index=13)], [])
        self.refused("invalid data", write, [NewTrack("abcd")], [])

    def test_a_refused_sample_is_named(self):
        samples = [NewSample(1, b"", 1), NewSample(2, b"", 1)]
        refused = self.refused("trak[2] not found", write, [NewTrack("tx3g")], samples)
        self.assertEqual((refused.part, refused.index, refused.track_id), ("sample", 1, 2))

    def test_each_kind_of_bytes_is_written(self):
        parts = [b"abcd", bytearray(b"abcd"), memoryview(b"abcd").cast("I")]
        movie = Movie(write([NewTrack("tx3g")], [NewSample(1, part, 1) for part in parts]))
        self.assertEqual([movie.read(sample) for sample in movie.samples(1)], [b"abcd"] * 3)
        with self.assertRaises(TypeError):
            write([NewTrack("tx3g")], [NewSample(1, "text", 1)])

    def test_bytes_are_taken_when_a_sample_is(self):
        room = bytearray(2)

        def filled_again():
            for number in range(4):
                room[:] = b"%02d" % number
                yield NewSample(1, room, 1)

        movie = Movie(write([NewTrack("tx3g")], filled_again()))
        read = [movie.read(sample) for sample in movie.samples(1)]
        self.assertEqual(read, [b"00", b"01", b"02", b"03"])

    def test_a_text_begins_with_its_size(self):
        samples = [NewSample.text(1, "\xf6", 1000), NewSample.text(1, "", 500)]
        movie = Movie(write([NewTrack("tx3g")], samples))
        read = [(movie.read(sample), sample.is_sync) for sample in movie.samples(1)]
        self.assertEqual(read, [(b"\0\2\xc3\xb6", True), (b"\0\0", True)])
        with self.assertRaises(OverflowError):
            NewSample.text(1, "x" * 2**16, 1)

    def test_numbers_are_not_cut(self):
        for words in [{"timescale": 2**32}, {"timescale": -1}, {"minor_version": 2**32}]:
            with self.assertRaises(OverflowError):
                write([], [], **words)
        for words in [{"width": 2**16}, {"timescale": 2**32}, {"channels": 256}]:
            with self.assertRaises(OverflowError):
                write([NewTrack("vp09", **words)], [])
        with self.assertRaises(struct.error):
            write([NewTrack("tx3g")], [NewSample(1, b"", 2**32)])
        with self.assertRaises(ValueError):
            write([NewTrack("avc")], [])

    def test_a_movie_with_a_chunk_for_each_sample_is_written(self):
        samples = [NewSample(1, b"x", 1 + k % 2, k % 2) for k in range(3000)]
        movie = Movie(write([NewTrack("tx3g", 1)], samples))
        self.assertEqual(len(list(movie.samples(1))), 3000)


class Rewriting(unittest.TestCase):
    """Movies that are rewritten, and what refuses them."""

    refused = Reading.refused

    def test_a_movie_box_that_moved_has_the_samples_that_it_had(self):
        file = numbers(2000)
        moved = move_to_front(file)
        self.assertLess(file.index(b"mdat"), file.index(b"moov"))
        self.assertLess(moved.index(b"moov"), moved.index(b"mdat"))
        before, after = Movie(file), Movie(moved)
        texts = [[movie.read(sample) for sample in movie.samples(1)] for movie in (before, after)]
        self.assertEqual(texts[0], texts[1])
        self.assertEqual(move_to_front(moved), moved)

    def test_fragments_are_gathered(self):
        file = fragmented()
        film = gather(file)
        for movie in (Movie(file), Movie(film)):
            samples = [(movie.read(each), each.start_time) for each in movie.samples(1)]
            self.assertEqual(samples, [(b"one", 0), (b"two.", 500)])
        self.assertEqual((Movie(file).is_fragmented, Movie(film).is_fragmented), (True, False))
        self.assertEqual(gather(numbers(3)), numbers(3))
        self.assertEqual(self.refused("ftyp not found", gather, b"").reason, "")

    def test_tracks_are_chosen(self):
        samples = [NewSample(1 + k % 3, b"%d" % k, 1) for k in range(9)]
        file = write([NewTrack("tx3g")] * 3, samples)
        movie = Movie(choose(file, (3, 1)))
        self.assertEqual([track.id for track in movie.tracks], [1, 3])
        for track, texts in [(1, [b"0", b"3", b"6"]), (3, [b"2", b"5", b"8"])]:
            self.assertEqual([movie.read(each) for each in movie.samples(track)], texts)
        self.assertEqual(self.refused("trak[4] not found", choose, file, [1, 4]).track_id, 4)
        self.assertEqual(Movie(choose(file, [])).tracks, [])
        with self.assertRaises(OverflowError):
            choose(file, [2**32])

    def test_each_kind_of_bytes_is_rewritten(self):
        file = numbers(3)
        moved = move_to_front(file)
        room = bytearray(file)
        for source in [room, memoryview(file)]:
            self.assertEqual(move_to_front(source), moved)
        room.append(0)  # it isn't held any more
        with self.assertRaises(TypeError):
            move_to_front("film.mp4")

    def test_a_refused_file_says_why(self):
        file = numbers(3)
        head = file[: file.index(b"mdat") - 4]
        self.assertEqual(self.refused("two boxes ftyp", move_to_front, file + head).code, Code.TWICE)
        text = f"a box sidx at byte {len(file)} says places of the file, which would be wrong"
        refused = self.refused(text, move_to_front, file + boxed(b"sidx", bytes(8)))
        self.assertEqual((refused.code, refused.box_type), (Code.SAYS_PLACES, b"sidx"))
        self.assertEqual(refused.index, len(file))
        refused = self.refused("invalid data", move_to_front, b"\0\0\1\0free")
        self.assertEqual(refused.reason, "a box is larger than the file")
        self.assertEqual(self.refused("ftyp not found", move_to_front, b"").reason, "")


if __name__ == "__main__":
    unittest.main()
