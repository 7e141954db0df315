//! Movies that are rewritten.

use crate::error::of_opening;
use crate::ffi;
use crate::layout::Answer;
use crate::movie::all_rows;
use crate::Result;

/// What a call makes of a file. It is asked with as much room as the file has.
fn rewritten(file: &[u8], ask: impl Fn(&mut [u8]) -> Answer) -> Result<Vec<u8>> {
    all_rows(file.len() as u64, ask).map_err(|error| of_opening(error, file))
}

/// The file with its movie box before its data, as players want it that begin before they have the
/// whole file: the file type, the movie box, then all other boxes in their order. Of the movie box
/// the chunk offsets are others, 64 bits wide where one passes 32; every other byte is there as it
/// was. A file whose movie box is before its data already stays as it is.
///
/// Refused as [`Movie::open`](crate::Movie::open). Where the movie box has to move, each sample of
/// each track is looked up in the file and in what would be written; then also refused where a
/// sample isn't found, and by [`Twice`](crate::Error::Twice) for two file types or two movie boxes,
/// [`SaysPlaces`](crate::Error::SaysPlaces) for a box that says places which aren't rewritten, as
/// that of a fragment does, [`TooManySamples`](crate::Error::TooManySamples),
/// [`OtherTracks`](crate::Error::OtherTracks) and [`Differs`](crate::Error::Differs).
///
/// ```
/// # fn main() -> Result<(), maqelsun::Error> {
/// use maqelsun::{Movie, MovieConfig, TrackConfig, Writer};
///
/// let mut writer = Writer::new(&MovieConfig::default());
/// let track = writer.add_track(&TrackConfig::text())?;
/// writer.write_text(track, "first", 1000)?;
/// let file: Vec<u8> = writer.finish()?; // with its movie box last
///
/// let moved = maqelsun::move_to_front(&file)?;
/// let place_of = |kind: &[u8; 4]| moved.windows(4).position(|bytes| bytes == kind);
/// assert!(place_of(b"moov") < place_of(b"mdat"));
/// assert_eq!(Movie::open(&moved)?.sample_count(track)?, 1);
/// # Ok(())
/// # }
/// ```
pub fn move_to_front(file: &[u8]) -> Result<Vec<u8>> {
    rewritten(file, |out| ffi::move_to_front(file, out))
}

/// The file with all samples in its tables and none in fragments: the file type, the movie box, the
/// other boxes in their order, and the data of all samples in the order of the file, in one `mdat`.
/// A file without fragments, in which none may follow, stays as it is.
///
/// The boxes of fragments are left out, and bytes of `mdat` that are no sample's. Beside times,
/// sizes, places, descriptions and sync marks nothing of what fragments say of a sample has a table
/// here: flags of dependency and of priority are lost.
///
/// Refused as [`Movie::open`](crate::Movie::open), and where a sample isn't found; and by
/// [`StartsElsewhere`](crate::Error::StartsElsewhere) where a sample doesn't begin when the one
/// before it ends, or the first of a track at 0,
/// [`SaysOfSamples`](crate::Error::SaysOfSamples) for a box that says more of samples than tables
/// do, [`SameIds`](crate::Error::SameIds), and else as [`move_to_front`].
///
/// ```no_run
/// # fn main() -> Result<(), Box<dyn std::error::Error>> {
/// let recording = std::fs::read("recording.mp4")?; // of fragments
/// let film = maqelsun::gather(&recording)?;
/// assert!(!maqelsun::Movie::open(&film)?.is_fragmented());
/// std::fs::write("film.mp4", film)?;
/// # Ok(())
/// # }
/// ```
pub fn gather(file: &[u8]) -> Result<Vec<u8>> {
    rewritten(file, |out| ffi::gather(file, out))
}

/// The file with the tracks of these ids alone and with the data of their samples: the file type,
/// the movie box, the other boxes in their order, and the data in the order of the file, in one
/// `mdat`. In the movie box the other tracks are left out, and the references to them; the movie is
/// as long as the longest of its tracks. The order of the ids makes no difference: tracks are in
/// that of the file. Fragments are gathered, as by [`gather`].
///
/// Refused as [`gather`] is, and by [`TrakNotFound`](crate::Error::TrakNotFound) for an id that no
/// track has.
///
/// ```
/// # fn main() -> Result<(), maqelsun::Error> {
/// use maqelsun::{Movie, MovieConfig, TrackConfig, Writer};
///
/// let mut writer = Writer::new(&MovieConfig::default());
/// let english = writer.add_track(&TrackConfig::text())?;
/// let german = writer.add_track(&TrackConfig::text())?;
/// writer.write_text(english, "first", 1000)?;
/// writer.write_text(german, "zuerst", 1000)?;
///
/// let file = maqelsun::choose(&writer.finish()?, &[german])?;
/// let movie = Movie::open(&file)?;
/// assert_eq!(movie.tracks().iter().map(|track| track.id()).collect::<Vec<_>>(), [german]);
/// assert_eq!(movie.read_sample(german, 1)?.unwrap().bytes, b"\0\x06zuerst");
/// # Ok(())
/// # }
/// ```
pub fn choose(file: &[u8], track_ids: &[u32]) -> Result<Vec<u8>> {
    rewritten(file, |out| ffi::choose(file, track_ids, out))
}
