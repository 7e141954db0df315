//! The places of all samples of a track, found once and kept.

use crate::layout::SampleRow;
use crate::samples::Sample;
use crate::{ffi, Error, Result};
use std::fmt;
use std::iter::FusedIterator;
use std::mem::size_of;

/// How many rows are asked for first, unless the file has more bytes than they; how many times as
/// many next, and the most: 168 MB of them. So a file that says that a track has more samples than it
/// has takes little more than those that are there.
const FIRST_ROWS: usize = 1024;
const GROWTH: usize = 16;
const MOST_ROWS: usize = 1 << 22;

/// The rows of a track's samples, up to the first that is refused.
#[derive(Clone, Debug)]
pub(crate) struct Rows {
    rows: Vec<SampleRow>,
    /// The numbers of those from which decoding can begin.
    syncs: Vec<u32>,
    /// Why the sample after them was refused.
    refusal: Option<Error>,
    /// Whether all samples that the track says that it has are here.
    are_all: bool,
    /// Whether the last that is decoded at or before a time is found here as the library finds it:
    /// the times of all rise.
    rise: bool,
}

impl Rows {
    /// The rows of a track that says that it has so many samples.
    pub(crate) fn of(file: &[u8], track_id: u32, count: u32) -> Result<Self> {
        let mut rows = Vec::new();
        let mut refusal = None;
        let mut room = FIRST_ROWS.max(file.len() / size_of::<SampleRow>());
        let count = count as usize;
        while rows.len() < count {
            let end = rows.len() + room.min(MOST_ROWS).min(count - rows.len());
            match next_rows(file, track_id, end, &mut rows) {
                Err(Error::OutOfMemory) => return Err(Error::OutOfMemory),
                found => refusal = found.err(),
            }
            if rows.len() < end {
                break;
            }
            room = room.saturating_mul(GROWTH);
        }
        let are_all = rows.len() == count;
        let rise = are_all
            && rows.windows(2).all(|pair| pair[0].start_time <= pair[1].start_time)
            && last_in_time(file, track_id)? as usize == count;
        Ok(Rows { syncs: syncs_of(&rows)?, rows, refusal, are_all, rise })
    }

    /// The row of the sample with this number, if it is one of those before the first refusal.
    pub(crate) fn get(&self, number: u32) -> Option<&SampleRow> {
        self.rows.get((number as usize).checked_sub(1)?)
    }

    /// The number of the last that is decoded at or before a time, if these say it.
    pub(crate) fn at(&self, time: u64) -> Option<Option<u32>> {
        let count = self.rows.partition_point(|row| row.start_time <= time) as u32;
        self.rise.then_some(Some(count).filter(|count| *count != 0))
    }

    /// The number of the last up to this one from which decoding can begin, if these say it.
    pub(crate) fn sync_at_or_before(&self, number: u32) -> Option<Option<u32>> {
        let count = self.syncs.partition_point(|sync| *sync <= number);
        self.are_all.then(|| self.syncs[..count].last().copied())
    }
}

/// Adds the rows of samples up to a number to those of the samples before them. After a refusal those
/// before it are added.
fn next_rows(file: &[u8], track_id: u32, end: usize, rows: &mut Vec<SampleRow>) -> Result<()> {
    let before = rows.len();
    rows.try_reserve_exact(end - before)?;
    rows.resize(end, SampleRow::default());
    let answer = ffi::samples(file, track_id, before as u32 + 1, &mut rows[before..]);
    rows.truncate(before + answer.filled as usize);
    answer.accepted().map(|_| ())
}

/// The numbers of the rows from which decoding can begin.
fn syncs_of(rows: &[SampleRow]) -> Result<Vec<u32>> {
    let mut syncs = Vec::new();
    syncs.try_reserve_exact(rows.iter().filter(|row| row.is_sync != 0).count())?;
    syncs.extend((1..).zip(rows).filter(|(_, row)| row.is_sync != 0).map(|(number, _)| number));
    Ok(syncs)
}

/// The number of the last sample that has a time; 0 where there is none.
fn last_in_time(file: &[u8], track_id: u32) -> Result<u32> {
    let mut number = 0;
    ffi::sample_at(file, track_id, u64::MAX, &mut number).accepted()?;
    Ok(number)
}

/// All samples of a track, as [`Movie::sample_list`](crate::Movie::sample_list) gives them: how many
/// there are is known, and each is found at once. They are those before the first that is refused.
///
/// Indexes count from 0, so the sample with number 1 is at index 0.
#[derive(Clone, Copy)]
pub struct SampleList<'m> {
    file: &'m [u8],
    rows: &'m Rows,
}

impl<'m> SampleList<'m> {
    pub(crate) fn new(file: &'m [u8], rows: &'m Rows) -> Self {
        SampleList { file, rows }
    }

    /// How many samples there are.
    pub fn len(&self) -> usize {
        self.rows.rows.len()
    }

    /// Whether there is none.
    pub fn is_empty(&self) -> bool {
        self.rows.rows.is_empty()
    }

    /// The sample at an index; [`None`] past the last.
    /// [`Error::EndOfData`] where its bytes aren't whole in the file.
    pub fn get(&self, index: usize) -> Option<Result<Sample<'m>>> {
        self.rows.rows.get(index).map(|row| Sample::of(self.file, row))
    }

    /// Why the track has more samples than are here, if one after them was refused.
    pub fn refusal(&self) -> Option<Error> {
        self.rows.refusal
    }

    /// The samples in order, from either end.
    pub fn iter(&self) -> SampleListIter<'m> {
        SampleListIter { file: self.file, rows: self.rows.rows.iter() }
    }
}

/// How many samples there are.
impl fmt::Debug for SampleList<'_> {
    fn fmt(&self, f: &mut fmt::Formatter) -> fmt::Result {
        f.debug_struct("SampleList").field("len", &self.len()).finish_non_exhaustive()
    }
}

impl<'m> IntoIterator for SampleList<'m> {
    type Item = Result<Sample<'m>>;
    type IntoIter = SampleListIter<'m>;

    fn into_iter(self) -> SampleListIter<'m> {
        self.iter()
    }
}

/// The samples of a [`SampleList`], in order.
#[derive(Clone)]
pub struct SampleListIter<'m> {
    file: &'m [u8],
    rows: std::slice::Iter<'m, SampleRow>,
}

impl<'m> Iterator for SampleListIter<'m> {
    type Item = Result<Sample<'m>>;

    fn next(&mut self) -> Option<Self::Item> {
        self.rows.next().map(|row| Sample::of(self.file, row))
    }

    fn nth(&mut self, skipped: usize) -> Option<Self::Item> {
        self.rows.nth(skipped).map(|row| Sample::of(self.file, row))
    }

    fn size_hint(&self) -> (usize, Option<usize>) {
        self.rows.size_hint()
    }
}

impl DoubleEndedIterator for SampleListIter<'_> {
    fn next_back(&mut self) -> Option<Self::Item> {
        self.rows.next_back().map(|row| Sample::of(self.file, row))
    }
}

impl ExactSizeIterator for SampleListIter<'_> {}

impl FusedIterator for SampleListIter<'_> {}

/// How many samples are left.
impl fmt::Debug for SampleListIter<'_> {
    fn fmt(&self, f: &mut fmt::Formatter) -> fmt::Result {
        f.debug_struct("SampleListIter").field("len", &self.len()).finish_non_exhaustive()
    }
}
