//! The calls of the proved library, each wrapped by a safe function; all unsafe code is here.
//!
//! What the library asks of its caller (`bindings/c/mp4.h`): no pointer is null, each is aligned
//! for its type and points to as many elements as its number says, and what is filled in overlaps
//! nothing else that the call is given. Rust's references and slices are like this, also a slice
//! without elements. The library keeps no pointer after a call, and writes only whole numbers, of
//! which any bytes are a value.
#![allow(unsafe_code)]

use crate::layout::{
    Answer, BrandRow, MovieRow, NewMovieRow, NewTrackRow, Parts, SampleRow, TrackRow,
};

extern "C" {
    fn mp4_c_open(file: *const u8, size: usize, movie: *mut MovieRow) -> Answer;
    fn mp4_c_brands(file: *const u8, size: usize, brands: *mut BrandRow, room: usize) -> Answer;
    fn mp4_c_tracks(file: *const u8, size: usize, tracks: *mut TrackRow, room: usize) -> Answer;
    fn mp4_c_samples(
        file: *const u8,
        size: usize,
        track_id: u32,
        first: u32,
        samples: *mut SampleRow,
        room: usize,
    ) -> Answer;
    fn mp4_c_sample_at(
        file: *const u8,
        size: usize,
        track_id: u32,
        time: u64,
        number: *mut u32,
    ) -> Answer;
    fn mp4_c_sync_sample_at_or_before(
        file: *const u8,
        size: usize,
        track_id: u32,
        number: u32,
        sync_number: *mut u32,
    ) -> Answer;
    fn mp4_c_metadata(
        file: *const u8,
        size: usize,
        key: u32,
        bytes: *mut u8,
        room: usize,
    ) -> Answer;
    fn mp4_c_parameter_set(
        file: *const u8,
        size: usize,
        track_id: u32,
        kind: u32,
        bytes: *mut u8,
        room: usize,
    ) -> Answer;
    fn mp4_c_write(
        movie: *const NewMovieRow,
        brands: *const BrandRow,
        brand_count: usize,
        tracks: *const NewTrackRow,
        track_count: usize,
        samples: *const SampleRow,
        sample_count: usize,
        data: *const u8,
        data_size: usize,
        out: *mut u8,
        room: usize,
    ) -> Answer;
    fn mp4_c_move_to_front(file: *const u8, size: usize, out: *mut u8, room: usize) -> Answer;
    fn mp4_c_gather(file: *const u8, size: usize, out: *mut u8, room: usize) -> Answer;
    fn mp4_c_choose(
        file: *const u8,
        size: usize,
        track_ids: *const u32,
        track_count: usize,
        out: *mut u8,
        room: usize,
    ) -> Answer;
    fn mp4_c_open_error_text(file: *const u8, size: usize, bytes: *mut u8, room: usize) -> Answer;
    #[cfg(test)]
    fn mp4_c_error_text(answer: *const Answer, bytes: *mut u8, room: usize) -> Answer;
}

/// What a file says of its movie.
pub(crate) fn open(file: &[u8], movie: &mut MovieRow) -> Answer {
    // SAFETY: the slice and the reference are what the library asks for, as said above.
    unsafe { mp4_c_open(file.as_ptr(), file.len(), movie) }
}

/// The compatible brands.
pub(crate) fn brands(file: &[u8], rows: &mut [BrandRow]) -> Answer {
    // SAFETY: both slices are what the library asks for.
    unsafe { mp4_c_brands(file.as_ptr(), file.len(), rows.as_mut_ptr(), rows.len()) }
}

/// The tracks by rising ids.
pub(crate) fn tracks(file: &[u8], rows: &mut [TrackRow]) -> Answer {
    // SAFETY: both slices are what the library asks for.
    unsafe { mp4_c_tracks(file.as_ptr(), file.len(), rows.as_mut_ptr(), rows.len()) }
}

/// The samples of a track from number `first` on.
pub(crate) fn samples(file: &[u8], track: u32, first: u32, rows: &mut [SampleRow]) -> Answer {
    let (room, rows) = (rows.len(), rows.as_mut_ptr());
    // SAFETY: both slices are what the library asks for.
    unsafe { mp4_c_samples(file.as_ptr(), file.len(), track, first, rows, room) }
}

/// The number of the last sample that is decoded at or before a time.
pub(crate) fn sample_at(file: &[u8], track: u32, time: u64, number: &mut u32) -> Answer {
    // SAFETY: the slice and the reference are what the library asks for.
    unsafe { mp4_c_sample_at(file.as_ptr(), file.len(), track, time, number) }
}

/// The number of the last sync sample up to sample `number`.
pub(crate) fn sync_sample(file: &[u8], track: u32, number: u32, sync: &mut u32) -> Answer {
    // SAFETY: the slice and the reference are what the library asks for.
    unsafe { mp4_c_sync_sample_at_or_before(file.as_ptr(), file.len(), track, number, sync) }
}

/// The metadata at a key.
pub(crate) fn metadata(file: &[u8], key: u32, bytes: &mut [u8]) -> Answer {
    // SAFETY: both slices are what the library asks for.
    unsafe { mp4_c_metadata(file.as_ptr(), file.len(), key, bytes.as_mut_ptr(), bytes.len()) }
}

/// The first parameter set of a kind.
pub(crate) fn parameter_set(file: &[u8], track: u32, kind: u32, bytes: &mut [u8]) -> Answer {
    let (room, bytes) = (bytes.len(), bytes.as_mut_ptr());
    // SAFETY: both slices are what the library asks for.
    unsafe { mp4_c_parameter_set(file.as_ptr(), file.len(), track, kind, bytes, room) }
}

/// Writes a movie, if all of it fits.
pub(crate) fn write(parts: Parts, out: &mut [u8]) -> Answer {
    let (brands, tracks) = (parts.brands, parts.tracks);
    let (samples, data) = (parts.samples, parts.data);
    // SAFETY: the slices and the reference are what the library asks for.
    unsafe {
        mp4_c_write(
            parts.movie,
            brands.as_ptr(),
            brands.len(),
            tracks.as_ptr(),
            tracks.len(),
            samples.as_ptr(),
            samples.len(),
            data.as_ptr(),
            data.len(),
            out.as_mut_ptr(),
            out.len(),
        )
    }
}

/// A file with its movie box before its data, if all of it fits.
pub(crate) fn move_to_front(file: &[u8], out: &mut [u8]) -> Answer {
    // SAFETY: both slices are what the library asks for.
    unsafe { mp4_c_move_to_front(file.as_ptr(), file.len(), out.as_mut_ptr(), out.len()) }
}

/// A file with its samples in its tables, if all of it fits.
pub(crate) fn gather(file: &[u8], out: &mut [u8]) -> Answer {
    // SAFETY: both slices are what the library asks for.
    unsafe { mp4_c_gather(file.as_ptr(), file.len(), out.as_mut_ptr(), out.len()) }
}

/// A file of the tracks with these ids, if all of it fits.
pub(crate) fn choose(file: &[u8], track_ids: &[u32], out: &mut [u8]) -> Answer {
    let (ids, count) = (track_ids.as_ptr(), track_ids.len());
    let (room, out) = (out.len(), out.as_mut_ptr());
    // SAFETY: the slices are what the library asks for.
    unsafe { mp4_c_choose(file.as_ptr(), file.len(), ids, count, out, room) }
}

/// Why a file doesn't open, in words.
pub(crate) fn open_error_text(file: &[u8], bytes: &mut [u8]) -> Answer {
    // SAFETY: both slices are what the library asks for.
    unsafe { mp4_c_open_error_text(file.as_ptr(), file.len(), bytes.as_mut_ptr(), bytes.len()) }
}

/// What an answer says in words.
#[cfg(test)]
pub(crate) fn error_text(answer: &Answer, bytes: &mut [u8]) -> Answer {
    // SAFETY: the reference and the slice are what the library asks for.
    unsafe { mp4_c_error_text(answer, bytes.as_mut_ptr(), bytes.len()) }
}
