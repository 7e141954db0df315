//! Movies that are read.

use crate::error::{of_opening, NOT_PRESENT};
use crate::layout::{Answer, BrandRow, MovieRow, SampleRow, TrackRow};
use crate::sample_list::{Rows, SampleList};
use crate::samples::{Sample, Samples};
use crate::{ffi, Error, FourCC, Limit, Result, Track};
use std::fmt;
use std::io::Read;
use std::sync::OnceLock;
use std::time::Duration;

/// A movie that was opened, over the bytes of its file.
///
/// The bytes are whatever gives a slice: a vector, which the movie then owns, a slice, an `Arc`, or a
/// mapping of a file into memory, of which only what is asked for is loaded. They have to stay the
/// same while the movie is there.
///
/// What the file says of its movie and its tracks is read once, by [`Movie::open`]. The places of a
/// track's samples are read when one is first asked for by its number or its time, in one pass over
/// the track's tables, and kept: 40 bytes for each sample. From then on each is found at once.
/// [`Movie::samples`] goes through them without keeping them.
///
/// A `Movie` can be shared by threads.
///
/// ```
/// # fn main() -> Result<(), maqelsun::Error> {
/// use maqelsun::{Movie, MovieConfig, TrackConfig, Writer};
///
/// let mut writer = Writer::new(&MovieConfig::default());
/// let id = writer.add_track(&TrackConfig::text())?;
/// writer.write_text(id, "first", 500)?;
/// let file = writer.finish()?;
///
/// let movie = Movie::open(file)?;
/// assert_eq!(movie.tracks().len(), 1);
/// for sample in movie.samples(id)? {
///     assert_eq!(sample?.bytes, b"\0\x05first");
/// }
/// assert_eq!(movie.read_sample(id, 1)?.map(|sample| sample.duration), Some(500));
/// # Ok(())
/// # }
/// ```
#[derive(Clone)]
pub struct Movie<B = Vec<u8>> {
    file: B,
    facts: MovieRow,
    tracks: Vec<Track>,
    /// Of each track the rows of its samples, once they were asked for.
    rows: Vec<OnceLock<Rows>>,
}

/// What the file says, and not its bytes.
impl<B> fmt::Debug for Movie<B> {
    fn fmt(&self, f: &mut fmt::Formatter) -> fmt::Result {
        let mut shown = f.debug_struct("Movie");
        shown.field("facts", &self.facts).field("tracks", &self.tracks).finish_non_exhaustive()
    }
}

/// A list of `count` empty values, to be filled in; [`Error::OutOfMemory`] where they have no room.
pub(crate) fn room_for<T: Clone + Default>(count: u64) -> Result<Vec<T>> {
    let count = usize::try_from(count).map_err(|_| Error::OutOfMemory)?;
    let mut room = Vec::new();
    room.try_reserve_exact(count)?;
    room.resize(count, T::default());
    Ok(room)
}

/// All rows that a call of the library gives: it is asked with room for `guess` rows, and again
/// with more where there are more.
pub(crate) fn all_rows<T: Clone + Default>(
    guess: u64,
    ask: impl Fn(&mut [T]) -> Answer,
) -> Result<Vec<T>> {
    let mut rows = room_for(guess)?;
    let mut answer = ask(&mut rows).accepted()?;
    if answer.count > guess {
        rows = room_for(answer.count)?;
        answer = ask(&mut rows).accepted()?;
    }
    rows.truncate(usize::try_from(answer.filled).unwrap_or(usize::MAX));
    Ok(rows)
}

/// How many bytes a text is expected to have at most: where there are more, the library is asked
/// once more.
const SHORT: u64 = 1024;

/// The most samples of a track whose rows are kept without being asked for as a list: 168 MB of
/// them, and no more than one for so many bytes of the file. A few hundred bytes may say that a track
/// has a thousand times as many; where that is true, its tables are small, and opening the file takes
/// no time.
const MOST_KEPT: usize = 1 << 22;
const BYTES_A_ROW: usize = 4;

/// Reads a file to its end, and opens it as [`Movie::open`] does.
///
/// [`Error::IoError`] where it can't be read.
pub fn read_mp4(mut file: impl Read) -> Result<Movie> {
    let mut bytes = Vec::new();
    file.read_to_end(&mut bytes)?;
    Movie::open(bytes)
}

impl<B: AsRef<[u8]>> Movie<B> {
    /// Opens the file of these bytes.
    ///
    /// Bytes that are no MP4 file are refused with the first fault that they have. No bytes make it
    /// panic.
    pub fn open(file: B) -> Result<Self> {
        let mut facts = MovieRow::default();
        let bytes = file.as_ref();
        ffi::open(bytes, &mut facts).accepted().map_err(|error| of_opening(error, bytes))?;
        let rows = all_rows(facts.track_count, |rows: &mut [TrackRow]| ffi::tracks(bytes, rows))?;
        let tracks: Vec<Track> = rows.into_iter().map(Track::new).collect();
        let rows = tracks.iter().map(|_| OnceLock::new()).collect();
        Ok(Movie { file, facts, tracks, rows })
    }

    /// The bytes that were opened.
    pub fn file(&self) -> &[u8] {
        self.file.as_ref()
    }

    /// Gives the bytes back.
    pub fn into_file(self) -> B {
        self.file
    }

    /// How many bytes the file has, up to the end of its last box.
    pub fn size(&self) -> u64 {
        self.facts.size
    }

    /// The specification that the file follows first of all.
    pub fn major_brand(&self) -> FourCC {
        self.facts.major_brand.into()
    }

    /// The version of the major brand.
    pub fn minor_version(&self) -> u32 {
        self.facts.minor_version
    }

    /// All specifications that the file follows, in its order.
    pub fn compatible_brands(&self) -> Result<Vec<FourCC>> {
        let ask = |rows: &mut [BrandRow]| ffi::brands(self.file(), rows);
        let rows = all_rows(self.facts.brand_count, ask)?;
        Ok(rows.iter().map(|row| row.code.into()).collect())
    }

    /// Ticks in a second, of the movie's duration. It may be 0.
    pub fn timescale(&self) -> u32 {
        self.facts.timescale
    }

    /// How long the movie lasts, in ticks, as its header says.
    pub fn duration_in_ticks(&self) -> u64 {
        self.facts.duration
    }

    /// How long the movie lasts, as its header says, rounded down to a nanosecond.
    /// [`Error::ZeroTimescale`] where the timescale is 0.
    pub fn duration(&self) -> Result<Duration> {
        duration_of(self.facts.duration, self.facts.timescale)
    }

    /// When the movie was made, in seconds since the beginning of 1904, UTC, as its header says. It
    /// may be 0, which says nothing.
    pub fn creation_time(&self) -> u64 {
        self.facts.creation_time
    }

    /// When the movie was last changed, as [`Movie::creation_time`] says when it was made.
    pub fn modification_time(&self) -> u64 {
        self.facts.modification_time
    }

    /// The version of the movie header: 1 where its times have 64 bits, else 0.
    pub fn header_version(&self) -> u8 {
        self.facts.header_version
    }

    /// Whether the file has movie fragments.
    pub fn is_fragmented(&self) -> bool {
        self.facts.is_fragmented != 0
    }

    /// The tracks, by rising ids.
    pub fn tracks(&self) -> &[Track] {
        &self.tracks
    }

    /// The track with this id; [`Error::TrakNotFound`] without one.
    pub fn track(&self, id: u32) -> Result<&Track> {
        self.place_of(id).map(|place| &self.tracks[place])
    }

    /// Where the track with this id is among the tracks.
    fn place_of(&self, id: u32) -> Result<usize> {
        let found = self.tracks.binary_search_by_key(&id, Track::id);
        found.map_err(|_| Error::TrakNotFound(id))
    }

    /// The rows of a track's samples, which are read the first time.
    fn rows_of(&self, track_id: u32) -> Result<&Rows> {
        let kept = &self.rows[self.place_of(track_id)?];
        if let Some(rows) = kept.get() {
            return Ok(rows);
        }
        let rows = Rows::of(self.file(), track_id, self.sample_count(track_id)?)?;
        Ok(kept.get_or_init(|| rows))
    }

    /// The same, but of a track that says that it has so many samples that they aren't kept unasked.
    fn few_rows_of(&self, track_id: u32) -> Result<Option<&Rows>> {
        let few = MOST_KEPT.min(self.file().len() / BYTES_A_ROW);
        let count = self.track(track_id)?.sample_count();
        let are_kept = self.rows[self.place_of(track_id)?].get().is_some();
        match count {
            Some(count) if are_kept || count as usize <= few => self.rows_of(track_id).map(Some),
            _ => Ok(None),
        }
    }

    /// How many samples a track has, those of fragments too. [`Error::TooLarge`] where they are
    /// more than 2^32 - 1.
    pub fn sample_count(&self, track_id: u32) -> Result<u32> {
        let count = self.track(track_id)?.sample_count();
        count.ok_or(Error::TooLarge(Limit::Value))
    }

    /// The samples of a track, in order, each with its bytes.
    ///
    /// It ends after the last sample, and after the first that is refused.
    pub fn samples(&self, track_id: u32) -> Result<Samples<'_>> {
        self.samples_from(track_id, 1)
    }

    /// The samples of a track from a number on; the first has number 1.
    pub fn samples_from(&self, track_id: u32, number: u32) -> Result<Samples<'_>> {
        let count = self.sample_count(track_id)?;
        Ok(Samples::new(self.file(), track_id, number, count))
    }

    /// All samples of a track up to the first that is refused, as a list of which the length is
    /// known and each sample is found at once. It is made the first time, and kept.
    ///
    /// It takes 40 bytes for each sample that is there. A few hundred bytes may say that a track has
    /// 2^32 - 1, which would be 172 GB: of a file that isn't yours, look before whether its
    /// [`Movie::sample_count`] is at most a fourth of the file's bytes, as it is where each sample has
    /// a size of its own there.
    pub fn sample_list(&self, track_id: u32) -> Result<SampleList<'_>> {
        Ok(SampleList::new(self.file(), self.rows_of(track_id)?))
    }

    /// One sample of a track, by its number from 1 on: [`None`] past the last, and
    /// [`Error::EndOfData`] where it isn't whole in the file.
    ///
    /// The first such call reads the places of all samples of the track, unless it says that it has
    /// more than four million, or more than one for four bytes of the file; then each call opens the
    /// file anew.
    pub fn read_sample(&self, track_id: u32, number: u32) -> Result<Option<Sample<'_>>> {
        if let Some(row) = self.few_rows_of(track_id)?.and_then(|rows| rows.get(number)) {
            return Sample::of(self.file(), row).map(Some);
        }
        let mut row = [SampleRow::default()];
        let answer = ffi::samples(self.file(), track_id, number, &mut row).accepted()?;
        match answer.filled {
            0 => Ok(None),
            _ => Sample::of(self.file(), &row[0]).map(Some),
        }
    }

    /// The number of the last sample that is decoded at or before a time in ticks of the track. It
    /// is looked for as [`Movie::read_sample`] looks for one.
    pub fn sample_at(&self, track_id: u32, time: u64) -> Result<Option<u32>> {
        if let Some(found) = self.few_rows_of(track_id)?.and_then(|rows| rows.at(time)) {
            return Ok(found);
        }
        let mut number = 0;
        ffi::sample_at(self.file(), track_id, time, &mut number).accepted()?;
        Ok(Some(number).filter(|number| *number != 0))
    }

    /// The number of the last sample up to this one from which decoding can begin: the sample
    /// itself, if it is a sync sample. It is looked for as [`Movie::read_sample`] looks for one.
    pub fn sync_sample_at_or_before(&self, track_id: u32, number: u32) -> Result<Option<u32>> {
        let rows = self.few_rows_of(track_id)?;
        if let Some(found) = rows.and_then(|rows| rows.sync_at_or_before(number)) {
            return Ok(found);
        }
        let mut sync = 0;
        ffi::sync_sample(self.file(), track_id, number, &mut sync).accepted()?;
        Ok(Some(sync).filter(|sync| *sync != 0))
    }

    /// The first sequence parameter set of a track of AVC video.
    ///
    /// [`Error::BoxInStblNotFound`] where the track is no AVC video, [`Error::EntryInStblNotFound`]
    /// without such a set.
    pub fn sequence_parameter_set(&self, track_id: u32) -> Result<Vec<u8>> {
        all_rows(SHORT, |bytes: &mut [u8]| ffi::parameter_set(self.file(), track_id, 1, bytes))
    }

    /// The first picture parameter set of a track of AVC video; refused as the sequence parameter
    /// set is.
    pub fn picture_parameter_set(&self, track_id: u32) -> Result<Vec<u8>> {
        all_rows(SHORT, |bytes: &mut [u8]| ffi::parameter_set(self.file(), track_id, 2, bytes))
    }

    /// What the file says of the work that it holds.
    pub fn metadata(&self) -> Result<Metadata> {
        let year = self.item(2)?.and_then(|digits| String::from_utf8(digits).ok()?.parse().ok());
        Ok(Metadata {
            title: self.item(1)?.map(text_of),
            year,
            poster: self.item(3)?,
            summary: self.item(4)?.map(text_of),
        })
    }

    /// The metadata at a key of the library.
    fn item(&self, key: u32) -> Result<Option<Vec<u8>>> {
        match all_rows(SHORT, |bytes: &mut [u8]| ffi::metadata(self.file(), key, bytes)) {
            Ok(bytes) => Ok(Some(bytes)),
            Err(Error::Unknown(NOT_PRESENT)) => Ok(None),
            Err(error) => Err(error),
        }
    }
}

/// Text that the library gives, which is UTF-8.
fn text_of(bytes: Vec<u8>) -> String {
    String::from_utf8_lossy(&bytes).into_owned()
}

/// So many ticks of a timescale, rounded down to a nanosecond.
pub(crate) fn duration_of(ticks: u64, timescale: u32) -> Result<Duration> {
    if timescale == 0 {
        return Err(Error::ZeroTimescale);
    }
    let (seconds, rest) = (ticks / u64::from(timescale), ticks % u64::from(timescale));
    let nanoseconds = rest * 1_000_000_000 / u64::from(timescale);
    Ok(Duration::from_secs(seconds) + Duration::from_nanos(nanoseconds))
}

/// What a file says of the work that it holds: items of its metadata.
#[derive(Clone, Debug, Default, PartialEq, Eq)]
#[non_exhaustive]
pub struct Metadata {
    /// The title.
    pub title: Option<String>,
    /// The year of release.
    pub year: Option<u32>,
    /// The bytes of a picture.
    pub poster: Option<Vec<u8>>,
    /// The description.
    pub summary: Option<String>,
}
