//! Movies that are written.

use crate::config::{MediaConfig, MovieConfig, TrackConfig};
use crate::error::{FinishError, Part};
use crate::ffi;
use crate::layout::{BrandRow, NewMovieRow, NewTrackRow, Parts, SampleRow};
use crate::movie::all_rows;
use crate::samples::Sample;
use crate::{Error, Limit, Result};
use std::cell::Cell;
use std::fmt;
use std::io::Write;

/// Collects the tracks and the samples of a movie, and writes it.
///
/// All bytes are in memory: those of the samples, and in [`Writer::finish`] those of the movie.
/// [`Writer::finish_to`] writes them to a file or another [`Write`].
///
/// ```
/// # fn main() -> Result<(), maqelsun::Error> {
/// use maqelsun::{MovieConfig, TrackConfig, Writer};
///
/// let mut writer = Writer::new(&MovieConfig::default());
/// let track = writer.add_track(&TrackConfig::text())?;
/// for line in ["first", "second"] {
///     writer.write_text(track, line, 1000)?;
/// }
/// let file: Vec<u8> = writer.finish()?;
/// assert_eq!(maqelsun::Movie::open(&file)?.sample_count(track)?, 2);
/// # Ok(())
/// # }
/// ```
#[derive(Clone)]
pub struct Writer {
    movie: NewMovieRow,
    brands: Vec<BrandRow>,
    tracks: Vec<NewTrackRow>,
    samples: Vec<SampleRow>,
    /// The bytes of all parameter sets and samples, one after the other.
    data: Vec<u8>,
}

/// What was collected, and not the bytes of the samples.
impl fmt::Debug for Writer {
    fn fmt(&self, f: &mut fmt::Formatter) -> fmt::Result {
        let mut shown = f.debug_struct("Writer");
        shown.field("movie", &self.movie).field("tracks", &self.tracks);
        shown.field("samples", &self.samples.len()).finish_non_exhaustive()
    }
}

/// The most bytes that a movie takes beside its brands, its tracks and its samples, and for each of
/// these: guesses, as a movie that takes more is written a second time.
const MOVIE_BYTES: u64 = 1024;
const BRAND_BYTES: u64 = 4;
const TRACK_BYTES: u64 = 1024;
const SAMPLE_BYTES: u64 = 40;

/// The language of a row: three letters and a zero.
fn language_of(text: &str) -> Result<[u8; 4]> {
    match text.as_bytes() {
        [first, second, third] if *first != 0 => Ok([*first, *second, *third, 0]),
        _ => Err(Error::Unrepresentable),
    }
}

/// Adds bytes to the data, and answers where they begin.
fn add_bytes(data: &mut Vec<u8>, bytes: &[u8]) -> Result<u64> {
    let start = data.len() as u64;
    data.try_reserve(bytes.len())?;
    data.extend_from_slice(bytes);
    Ok(start)
}

/// How many bytes there are, in 32 bits.
fn size_of_bytes(bytes: &[u8], refusal: Error) -> Result<u32> {
    u32::try_from(bytes.len()).map_err(|_| refusal)
}

/// Adds a parameter set to the data, and answers where it begins and its size.
fn add_set(data: &mut Vec<u8>, set: &[u8]) -> Result<(u64, u32)> {
    let size = size_of_bytes(set, Error::Unrepresentable)?;
    Ok((add_bytes(data, set)?, size))
}

/// The row of a track, whose parameter sets are added to the data.
fn row_of(config: &TrackConfig, data: &mut Vec<u8>) -> Result<NewTrackRow> {
    let mut row = NewTrackRow {
        timescale: config.timescale,
        sample_entry: config.media.sample_entry().value,
        language: language_of(&config.language)?,
        ..NewTrackRow::default()
    };
    (row.width, row.height) = config.media.picture_size();
    match &config.media {
        MediaConfig::Avc(avc) => {
            (row.sequence_set, row.sequence_set_size) = add_set(data, &avc.seq_param_set)?;
            (row.picture_set, row.picture_set_size) = add_set(data, &avc.pic_param_set)?;
        }
        MediaConfig::Aac(aac) => {
            row.bits_per_second = aac.bitrate;
            row.audio_profile = aac.profile.number();
            row.frequency_index = aac.freq_index.number();
            row.channels = aac.chan_conf.number();
        }
        MediaConfig::Hevc(_) | MediaConfig::Vp9(_) | MediaConfig::Text => {}
    }
    Ok(row)
}

impl Writer {
    /// Begins a movie.
    pub fn new(config: &MovieConfig) -> Self {
        let row = |brand: &crate::FourCC| BrandRow { code: brand.value };
        Writer {
            movie: NewMovieRow {
                timescale: config.timescale,
                minor_version: config.minor_version,
                major_brand: config.major_brand.value,
            },
            brands: config.compatible_brands.iter().map(row).collect(),
            tracks: Vec::new(),
            samples: Vec::new(),
            data: Vec::new(),
        }
    }

    /// Adds a track without samples, and answers its id: the first has 1, and each next one the id
    /// after it.
    ///
    /// [`Error::ZeroTimescale`], and [`Error::Unrepresentable`] for a language, a parameter set or a
    /// type of sound that has no encoding. After a refusal the track isn't added.
    pub fn add_track(&mut self, config: &TrackConfig) -> Result<u32> {
        let id = u32::try_from(self.tracks.len() + 1);
        let id = id.map_err(|_| Error::TooLarge(Limit::TrackCount))?;
        let before = self.data.len();
        let row = row_of(config, &mut self.data).and_then(|row| self.checked(row));
        match row {
            Ok(row) => self.tracks.push(row),
            Err(_) => self.data.truncate(before),
        }
        row.map(|_| id)
    }

    /// The row, if the library writes a movie with this track alone.
    fn checked(&self, row: NewTrackRow) -> Result<NewTrackRow> {
        let alone = Parts {
            movie: &NewMovieRow::default(),
            brands: &[],
            tracks: &[row],
            samples: &[],
            data: &self.data,
        };
        ffi::write(alone, &mut []).accepted().map(|_| row)
    }

    /// Writes a sample of a track after those that were written of it. Its offset and its start
    /// time aren't looked at.
    ///
    /// [`Error::TrakNotFound`] for an id that no track has, and [`Error::TooLarge`] past 2^32 - 1
    /// bytes.
    pub fn write_sample(&mut self, track_id: u32, sample: &Sample) -> Result<()> {
        if track_id == 0 || u64::from(track_id) > self.tracks.len() as u64 {
            return Err(Error::TrakNotFound(track_id));
        }
        let size = size_of_bytes(sample.bytes, Error::TooLarge(Limit::SampleBytes))?;
        self.samples.try_reserve(1)?;
        self.samples.push(SampleRow {
            offset: add_bytes(&mut self.data, sample.bytes)?,
            start_time: 0,
            track_id,
            size,
            duration: sample.duration,
            rendering_offset: sample.rendering_offset,
            is_sync: sample.is_sync.into(),
            reserved: [0; 7],
        });
        Ok(())
    }

    /// Writes a text of a track of text, from which decoding can begin: its length in two bytes,
    /// and the text in UTF-8. An empty one is a gap (3GPP TS 26.245, 5.17).
    ///
    /// Refused as [`Writer::write_sample`] is, and by [`Error::Unrepresentable`] past 65,535 bytes.
    pub fn write_text(&mut self, track_id: u32, text: &str, duration: u32) -> Result<()> {
        let size = u16::try_from(text.len()).map_err(|_| Error::Unrepresentable)?;
        let bytes = [&size.to_be_bytes(), text.as_bytes()].concat();
        let sample = Sample { duration, is_sync: true, bytes: &bytes, ..Sample::default() };
        self.write_sample(track_id, &sample)
    }

    /// The bytes of the movie.
    ///
    /// [`Error::TooLarge`] past one of the limits [`Limit::SampleCount`], [`Limit::TrackDuration`]
    /// and [`Limit::BoxSize`]. The refusal names the track or the sample, and gives the writer
    /// back.
    pub fn finish(self) -> std::result::Result<Vec<u8>, FinishError> {
        self.bytes().map_err(|(error, part)| FinishError::new(error, part, self))
    }

    /// The bytes of the movie, or why there are none, and of which part.
    fn bytes(&self) -> std::result::Result<Vec<u8>, (Error, Part)> {
        let parts = Parts {
            movie: &self.movie,
            brands: &self.brands,
            tracks: &self.tracks,
            samples: &self.samples,
            data: &self.data,
        };
        let part = Cell::new(Part::Movie);
        let written = all_rows(self.likely_size(), |file| {
            let answer = ffi::write(parts, file);
            part.set(Part::of(&answer));
            answer
        });
        written.map_err(|error| (error, part.get()))
    }

    /// Writes the bytes of the movie to a file, or to another [`Write`], of which they are the
    /// next bytes.
    ///
    /// Refused as [`Writer::finish`] is, and by [`Error::IoError`] where they can't be written; then
    /// some of them may be.
    pub fn finish_to(self, out: &mut impl Write) -> std::result::Result<(), FinishError> {
        let file = self.bytes();
        let written = file.and_then(|file| {
            let written = out.write_all(&file).and_then(|()| out.flush());
            written.map_err(|error| (error.into(), Part::End))
        });
        written.map_err(|(error, part)| FinishError::new(error, part, self))
    }

    /// So much room that most movies fit.
    fn likely_size(&self) -> u64 {
        let parts = [
            (self.brands.len(), BRAND_BYTES),
            (self.tracks.len(), TRACK_BYTES),
            (self.samples.len(), SAMPLE_BYTES),
            (self.data.len(), 1),
        ];
        parts.iter().fold(MOVIE_BYTES, |sum, (count, each)| sum + *count as u64 * each)
    }
}
