//! Samples, and the samples of a track in order.

use crate::layout::SampleRow;
use crate::movie::room_for;
use crate::{ffi, Error, Result};
use std::fmt;
use std::iter::FusedIterator;

/// A sample, with its bytes, which are borrowed from the file. Times are in ticks of its track.
///
/// A sample that is read can be written as it is. A new one is a sample of no bytes and no
/// duration, from which decoding can't begin, with what is said of it; a text of a track of text
/// begins with its length, as [`Writer::write_text`](crate::Writer::write_text) writes it.
///
/// ```
/// use maqelsun::Sample;
///
/// let sample = Sample { duration: 500, is_sync: true, bytes: b"\0\x03abc", ..Sample::default() };
/// assert_eq!(sample.rendering_offset, 0);
/// ```
#[derive(Clone, Copy, Default, PartialEq, Eq, Hash)]
pub struct Sample<'a> {
    /// The place of its first byte in the file. A writer doesn't look at it.
    pub offset: u64,
    /// When it is decoded. A writer doesn't look at it: the durations say it.
    pub start_time: u64,
    /// How long it lasts.
    pub duration: u32,
    /// How much later it is shown than decoded.
    pub rendering_offset: i32,
    /// Whether decoding can begin with it.
    pub is_sync: bool,
    /// What it holds.
    pub bytes: &'a [u8],
}

/// How many bytes it has, and not which.
impl fmt::Debug for Sample<'_> {
    fn fmt(&self, f: &mut fmt::Formatter) -> fmt::Result {
        f.debug_struct("Sample")
            .field("offset", &self.offset)
            .field("start_time", &self.start_time)
            .field("duration", &self.duration)
            .field("rendering_offset", &self.rendering_offset)
            .field("is_sync", &self.is_sync)
            .field("bytes", &format_args!("{} bytes", self.bytes.len()))
            .finish()
    }
}

impl<'a> Sample<'a> {
    /// The sample of a row; [`Error::EndOfData`] where it isn't whole in the file.
    pub(crate) fn of(file: &'a [u8], row: &SampleRow) -> Result<Self> {
        let bytes = part_of(file, row).ok_or(Error::EndOfData)?;
        Ok(Sample {
            offset: row.offset,
            start_time: row.start_time,
            duration: row.duration,
            rendering_offset: row.rendering_offset,
            is_sync: row.is_sync != 0,
            bytes,
        })
    }
}

/// The bytes of a row's sample, if they are in the file.
fn part_of<'a>(file: &'a [u8], row: &SampleRow) -> Option<&'a [u8]> {
    let start = usize::try_from(row.offset).ok()?;
    let end = start.checked_add(usize::try_from(row.size).ok()?)?;
    file.get(start..end)
}

/// How many rows are asked for first.
const FIRST_ROWS: usize = 1024;

/// How many times as many are asked for next.
const GROWTH: usize = 16;

/// How many are asked for at most, where the track has no more than a few million: 10 MB of them.
const LARGE_BLOCK: usize = 1 << 18;

/// The most rows that are asked for at once: 168 MB of them.
const MOST_ROWS: usize = 1 << 22;

/// Which part of a track's samples is asked for at once, where they are more than a few: so many
/// times at most the file is opened anew.
const PARTS: usize = 16;

/// The samples of a track in order, as [`Movie::samples`](crate::Movie::samples) gives them. It
/// ends after the last sample, and after the first that is refused.
///
/// The library is asked for their places in blocks, since each call opens the file anew: for 1,024
/// first, so that the first samples come soon, and then for more and more, up to a sixteenth of the
/// track's, or to 262,144 of a short track. So all samples together take a time that grows with
/// their number and with the file's boxes, and a block takes 168 MB at most.
/// A [`SampleList`](crate::SampleList) knows its length and finds each at once.
#[derive(Clone)]
pub struct Samples<'a> {
    file: &'a [u8],
    track_id: u32,
    /// The rows of the block that aren't taken yet are those from `taken` on.
    block: Vec<SampleRow>,
    taken: usize,
    /// The number of the first sample after the block; None where no more are asked for.
    next: Option<u32>,
    /// The number of the track's last sample.
    last: u32,
    /// How many rows are asked for next.
    room: usize,
    /// Why the library refused the sample after the block.
    refusal: Option<Error>,
}

impl<'a> Samples<'a> {
    /// The samples from a number on, of a track that has so many.
    pub(crate) fn new(file: &'a [u8], track_id: u32, first: u32, count: u32) -> Self {
        Samples {
            file,
            track_id,
            block: Vec::new(),
            taken: 0,
            next: Some(first),
            last: count,
            room: FIRST_ROWS,
            refusal: None,
        }
    }

    /// How many samples there are from a number on, if none is refused.
    fn left_from(&self, number: u32) -> u64 {
        (u64::from(self.last) + 1).saturating_sub(u64::from(number))
    }

    /// Asks for the next block.
    fn fetch(&mut self) {
        let Some(first) = self.next.take() else {
            return;
        };
        let room = (self.room as u64).min(self.left_from(first));
        self.taken = 0;
        self.refusal = self.fill(first, room).err();
        let filled = self.block.len() as u64;
        if filled == room && self.refusal.is_none() {
            self.next = u32::try_from(u64::from(first) + filled).ok();
        }
        let part = (self.last as usize / PARTS).clamp(LARGE_BLOCK, MOST_ROWS);
        self.room = self.room.saturating_mul(GROWTH).min(part);
    }

    /// Gives nothing any more.
    fn end(&mut self) {
        self.block = Vec::new();
        self.taken = 0;
        self.next = None;
        self.refusal = None;
    }

    /// Fills the block with so many samples from a number on. After a refusal it has those before
    /// it.
    fn fill(&mut self, first: u32, room: u64) -> Result<()> {
        self.block = Vec::new();
        if room == 0 {
            return Ok(());
        }
        self.block = room_for(room)?;
        let answer = ffi::samples(self.file, self.track_id, first, &mut self.block);
        self.block.truncate(usize::try_from(answer.filled).unwrap_or(usize::MAX));
        answer.accepted().map(|_| ())
    }
}

impl<'a> Iterator for Samples<'a> {
    type Item = Result<Sample<'a>>;

    fn next(&mut self) -> Option<Self::Item> {
        if self.taken == self.block.len() && self.refusal.is_none() {
            self.fetch();
        }
        let Some(row) = self.block.get(self.taken) else {
            return self.refusal.take().map(Err);
        };
        self.taken += 1;
        let sample = Sample::of(self.file, row);
        if sample.is_err() {
            self.end();
        }
        Some(sample)
    }

    fn size_hint(&self) -> (usize, Option<usize>) {
        let in_block = self.block.len() - self.taken;
        let after = self.next.map_or(0, |number| self.left_from(number));
        let refused = usize::from(self.refusal.is_some());
        let most = usize::try_from(after).ok();
        (0, most.and_then(|after| after.checked_add(in_block + refused)))
    }
}

impl FusedIterator for Samples<'_> {}

/// Of which track they are, and not the bytes of the file.
impl fmt::Debug for Samples<'_> {
    fn fmt(&self, f: &mut fmt::Formatter) -> fmt::Result {
        f.debug_struct("Samples").field("track_id", &self.track_id).finish_non_exhaustive()
    }
}
