//! Why a call is refused.

use crate::layout::Answer;
use crate::{ffi, FourCC, Writer};
use std::collections::{BTreeSet, TryReserveError};
use std::sync::{Mutex, PoisonError};
use std::{fmt, io};

/// What this crate's calls answer.
pub type Result<T> = std::result::Result<T, Error>;

/// What passes its limit, in [`Error::TooLarge`].
#[derive(Clone, Copy, Debug, PartialEq, Eq, Hash)]
#[non_exhaustive]
pub enum Limit {
    /// The bytes of one sample: at most 2^32 - 1.
    SampleBytes,
    /// The samples of one track: at most 2^32 - 1.
    SampleCount,
    /// A track's duration in ticks of the movie: at most 2^64 - 1.
    TrackDuration,
    /// The tracks of a movie: at most 2^32 - 1.
    TrackCount,
    /// The bytes of a box that is written: at most 2^32 - 1.
    BoxSize,
    /// A number that has to fit its field or its answer.
    Value,
}

/// Why a call is refused. Its text, as [`Display`](fmt::Display) gives it, is that of the programs
/// `mp4_tool` and `mp4_remux`.
///
/// Numbers of samples and of entries count from 1, but for an entry of `avcC`, which counts from 0.
#[derive(Clone, Copy, Debug, PartialEq, Eq, Hash)]
#[non_exhaustive]
pub enum Error {
    /// The bytes end before what has to be read.
    EndOfData,
    /// A request for memory was refused.
    OutOfMemory,
    /// The bytes, or the numbers asked for, mean nothing. The text says what is wrong where a file
    /// doesn't open or a number has no value; else it is empty.
    InvalidData(&'static str),
    /// A required box is missing.
    BoxNotFound(FourCC),
    /// Neither of two boxes is there, of which one is required.
    Box2NotFound(FourCC, FourCC),
    /// There is no track of this id.
    TrakNotFound(u32),
    /// A track lacks a box.
    BoxInTrakNotFound(u32, FourCC),
    /// A fragment of a track lacks a box.
    BoxInTrafNotFound(u32, FourCC),
    /// A track's sample table lacks a box.
    BoxInStblNotFound(u32, FourCC),
    /// A box of a track's sample table lacks an entry.
    EntryInStblNotFound(u32, FourCC, u32),
    /// A run of a track's fragment lacks an entry.
    EntryInTrunNotFound(u32, FourCC, u32),
    /// A box is of a version that is not read.
    UnsupportedBoxVersion(FourCC, u32),
    /// The writer has written its last byte. No call of this crate answers it:
    /// [`finish`](crate::Writer::finish) takes the writer.
    Ended,
    /// A quotient by a timescale of 0 was asked for.
    ZeroTimescale,
    /// Something passes its limit.
    TooLarge(Limit),
    /// A value has no encoding in its field.
    Unrepresentable,
    /// There are two boxes of a type of which a movie has one.
    Twice(FourCC),
    /// A box of this type, which begins at this byte, says places of the file that would be wrong.
    SaysPlaces(FourCC, u64),
    /// The track of this id has more samples than are compared: with those of the tracks before it,
    /// more than the file has bytes.
    TooManySamples(u32),
    /// The tracks would be others.
    OtherTracks,
    /// This sample of the track of this id wouldn't be read as before: a table or a fragment says
    /// its place in a way that isn't rewritten.
    Differs(u32, u32),
    /// A box of this type, which begins at this byte, says something of samples that the tables
    /// which are made of fragments don't say.
    SaysOfSamples(FourCC, u64),
    /// This sample of the track of this id doesn't begin when the one before it ends, or the first
    /// at 0, and tables can't say so.
    StartsElsewhere(u32, u32),
    /// Two tracks have one id.
    SameIds,
    /// A file couldn't be read or written. No call of the library answers it.
    IoError(io::ErrorKind),
    /// The library answered with a code that this crate doesn't know: it is newer.
    Unknown(u32),
}

/// What of a movie [`finish`](Writer::finish) was refused at.
#[derive(Clone, Copy, Debug, PartialEq, Eq, Hash)]
#[non_exhaustive]
pub enum Part {
    /// The movie and its brands.
    Movie,
    /// The track at this index of those that were added, from 0 on.
    Track(u64),
    /// The sample at this index of those that were written, of all tracks, from 0 on.
    Sample(u64),
    /// The end of the movie, after all tracks and samples were accepted.
    End,
}

impl Part {
    /// What an answer of a writer was refused at.
    pub(crate) fn of(answer: &Answer) -> Self {
        match answer.part {
            2 => Part::Track(answer.index),
            3 => Part::Sample(answer.index),
            4 => Part::End,
            _ => Part::Movie,
        }
    }
}

/// Why a movie isn't finished, and at what. It holds the writer as it was.
///
/// `?` makes an [`Error`] of it, where that is what a function answers.
#[derive(Clone, Debug)]
pub struct FinishError {
    /// Why.
    pub error: Error,
    /// At what.
    pub part: Part,
    writer: Box<Writer>,
}

impl FinishError {
    pub(crate) fn new(error: Error, part: Part, writer: Writer) -> Self {
        FinishError { error, part, writer: Box::new(writer) }
    }

    /// The writer, with all that was added to it.
    pub fn into_writer(self) -> Writer {
        *self.writer
    }
}

impl From<FinishError> for Error {
    fn from(refused: FinishError) -> Self {
        refused.error
    }
}

impl fmt::Display for FinishError {
    fn fmt(&self, f: &mut fmt::Formatter) -> fmt::Result {
        let error = self.error;
        match self.part {
            Part::Movie => write!(f, "the movie: {error}"),
            Part::Track(index) => write!(f, "the track at {index}: {error}"),
            Part::Sample(index) => write!(f, "the sample at {index}: {error}"),
            Part::End => write!(f, "the end: {error}"),
        }
    }
}

impl std::error::Error for FinishError {
    fn source(&self) -> Option<&(dyn std::error::Error + 'static)> {
        Some(&self.error)
    }
}

/// The code of metadata that a file doesn't have.
pub(crate) const NOT_PRESENT: u32 = 17;

impl Error {
    /// The error of a code above 0.
    fn of(answer: &Answer) -> Self {
        let (track, number) = (answer.track_id, answer.number);
        let kind = FourCC::from(answer.box_type);
        match answer.code {
            1 => Error::EndOfData,
            2 => Error::OutOfMemory,
            3 => Error::InvalidData(""),
            4 => Error::BoxNotFound(kind),
            5 => Error::Box2NotFound(kind, answer.second_box_type.into()),
            6 => Error::TrakNotFound(track),
            7 => Error::BoxInTrakNotFound(track, kind),
            8 => Error::BoxInTrafNotFound(track, kind),
            9 => Error::BoxInStblNotFound(track, kind),
            10 => Error::EntryInStblNotFound(track, kind, number),
            11 => Error::EntryInTrunNotFound(track, kind, number),
            12 => Error::UnsupportedBoxVersion(kind, number),
            13 => Error::Ended,
            14 => Error::ZeroTimescale,
            15 => limit_of(answer.limit).map_or(Error::Unknown(15), Error::TooLarge),
            16 => Error::Unrepresentable,
            20 => Error::Twice(kind),
            21 => Error::SaysPlaces(kind, answer.index),
            22 => Error::TooManySamples(track),
            23 => Error::OtherTracks,
            24 => Error::Differs(track, number),
            25 => Error::SaysOfSamples(kind, answer.index),
            26 => Error::StartsElsewhere(track, number),
            27 => Error::SameIds,
            code => Error::Unknown(code),
        }
    }
}

/// The texts of [`Error::InvalidData`] that were met so far: the library has a few dozen.
static TEXTS: Mutex<BTreeSet<&'static str>> = Mutex::new(BTreeSet::new());

/// A text that is kept for good: once, however often it is met.
fn kept(text: &str) -> &'static str {
    let mut texts = TEXTS.lock().unwrap_or_else(PoisonError::into_inner);
    if let Some(text) = texts.get(text) {
        return text;
    }
    let text: &'static str = Box::leak(text.into());
    texts.insert(text);
    text
}

/// The error of a file that doesn't open, with the text of [`Error::InvalidData`].
pub(crate) fn of_opening(error: Error, file: &[u8]) -> Error {
    if error != Error::InvalidData("") {
        return error;
    }
    let mut words = [0; 120];
    let length = ffi::open_error_text(file, &mut words).filled as usize;
    let words = std::str::from_utf8(&words[..length]).unwrap_or_default();
    match words.split_once(": ") {
        Some((_, text)) => Error::InvalidData(kept(text)),
        None => error,
    }
}

/// The limit of a number.
fn limit_of(number: u32) -> Option<Limit> {
    match number {
        1 => Some(Limit::SampleBytes),
        2 => Some(Limit::SampleCount),
        3 => Some(Limit::TrackDuration),
        4 => Some(Limit::TrackCount),
        5 => Some(Limit::BoxSize),
        6 => Some(Limit::Value),
        _ => None,
    }
}

impl Answer {
    /// The answer, unless it is a refusal.
    pub(crate) fn accepted(self) -> Result<Answer> {
        match self.code {
            0 => Ok(self),
            _ => Err(Error::of(&self)),
        }
    }
}

impl From<TryReserveError> for Error {
    fn from(_: TryReserveError) -> Self {
        Error::OutOfMemory
    }
}

/// By its kind.
impl From<io::Error> for Error {
    fn from(error: io::Error) -> Self {
        Error::IoError(error.kind())
    }
}

impl fmt::Display for Limit {
    fn fmt(&self, f: &mut fmt::Formatter) -> fmt::Result {
        f.write_str(match self {
            Limit::SampleBytes => "sample bytes",
            Limit::SampleCount => "sample count",
            Limit::TrackDuration => "track duration",
            Limit::TrackCount => "track count",
            Limit::BoxSize => "box size",
            Limit::Value => "value",
        })
    }
}

impl fmt::Display for Error {
    fn fmt(&self, f: &mut fmt::Formatter) -> fmt::Result {
        match self {
            Error::EndOfData => f.write_str("end of data"),
            Error::OutOfMemory => f.write_str("out of memory"),
            Error::InvalidData(_) => f.write_str("invalid data"),
            Error::BoxNotFound(kind) => write!(f, "{kind} not found"),
            Error::Box2NotFound(one, other) => write!(f, "{one} and {other} not found"),
            Error::TrakNotFound(id) => write!(f, "trak[{id}] not found"),
            Error::BoxInTrakNotFound(id, kind) => write!(f, "trak[{id}].{kind} not found"),
            Error::BoxInTrafNotFound(id, kind) => write!(f, "traf[{id}].{kind} not found"),
            Error::BoxInStblNotFound(id, kind) => write!(f, "trak[{id}].stbl.{kind} not found"),
            Error::EntryInStblNotFound(id, kind, entry) => {
                write!(f, "trak[{id}].stbl.{kind}.entry[{entry}] not found")
            }
            Error::EntryInTrunNotFound(id, kind, entry) => {
                write!(f, "traf[{id}].trun.{kind}.entry[{entry}] not found")
            }
            Error::UnsupportedBoxVersion(kind, version) => {
                write!(f, "{kind} version {version} is not supported")
            }
            Error::Ended => f.write_str("writer ended"),
            Error::ZeroTimescale => f.write_str("timescale is zero"),
            Error::TooLarge(limit) => write!(f, "too large: {limit}"),
            Error::Unrepresentable => f.write_str("unrepresentable"),
            Error::Twice(kind) => write!(f, "two boxes {kind}"),
            Error::SaysPlaces(kind, place) => {
                write!(
                    f,
                    "a box {kind} at byte {place} says places of the file, which would be wrong"
                )
            }
            Error::TooManySamples(id) => {
                write!(f, "track {id} has more samples than the file has bytes")
            }
            Error::OtherTracks => f.write_str("the tracks would be others"),
            Error::Differs(id, number) => {
                write!(f, "sample {number} of track {id} would not be read as before")
            }
            Error::SaysOfSamples(kind, place) => {
                write!(
                    f,
                    "a box {kind} at byte {place} says of samples what tables do not"
                )
            }
            Error::StartsElsewhere(id, number) => {
                write!(
                    f,
                    "sample {number} of track {id} does not begin when the one before it ends"
                )
            }
            Error::SameIds => f.write_str("two tracks have the same id"),
            Error::IoError(kind) => write!(f, "{kind}"),
            Error::Unknown(code) => write!(f, "an answer of another version, code {code}"),
        }
    }
}

impl std::error::Error for Error {}

#[cfg(test)]
mod tests {
    use super::*;

    /// What the library says of an answer.
    fn text_of(answer: &Answer) -> String {
        let mut text = vec![0; 90];
        let length = ffi::error_text(answer, &mut text).filled;
        text.truncate(length as usize);
        String::from_utf8(text).expect("it is ASCII")
    }

    #[test]
    fn each_error_has_the_text_of_the_library() {
        for code in (1..=16).chain(20..=27) {
            for limit in 1..=6 {
                let answer = Answer {
                    code,
                    limit,
                    track_id: 7,
                    number: 9,
                    index: u64::MAX,
                    box_type: *b"stco",
                    second_box_type: *b"\xa9nam",
                    ..Answer::default()
                };
                assert_eq!(Error::of(&answer).to_string(), text_of(&answer));
            }
        }
    }
}
