//! The structs that cross to the library, as `bindings/c/mp4.h` declares them. Each has only whole
//! numbers, so that any bytes are a value of it, and no padding.

use std::mem::{offset_of, size_of};

/// Declares structs, each with its size and the offset of each field, which have to be those of the
/// header.
macro_rules! layouts {
    ($(
        $(#[$doc:meta])*
        $name:ident: $size:literal { $($field:ident: $type:ty = $offset:literal,)* }
    )*) => {$(
        $(#[$doc])*
        #[repr(C)]
        #[derive(Clone, Copy, Debug, Default, PartialEq, Eq)]
        pub(crate) struct $name {
            $(pub(crate) $field: $type,)*
        }

        const _: () = assert!(size_of::<$name>() == $size);
        $(const _: () = assert!(offset_of!($name, $field) == $offset);)*
    )*};
}

layouts! {
    /// What each call answers.
    Answer: 56 {
        count: u64 = 0,
        filled: u64 = 8,
        index: u64 = 16,
        code: u32 = 24,
        part: u32 = 28,
        limit: u32 = 32,
        track_id: u32 = 36,
        number: u32 = 40,
        box_type: [u8; 4] = 44,
        second_box_type: [u8; 4] = 48,
        reserved: u32 = 52,
    }

    /// What a file says of its movie.
    MovieRow: 64 {
        size: u64 = 0,
        duration: u64 = 8,
        creation_time: u64 = 16,
        modification_time: u64 = 24,
        track_count: u64 = 32,
        brand_count: u64 = 40,
        timescale: u32 = 48,
        minor_version: u32 = 52,
        major_brand: [u8; 4] = 56,
        is_fragmented: u8 = 60,
        header_version: u8 = 61,
        reserved: [u8; 2] = 62,
    }

    /// A specification that a file follows.
    BrandRow: 4 {
        code: [u8; 4] = 0,
    }

    /// What a file says of a track.
    TrackRow: 64 {
        duration: u64 = 0,
        frames_per_second: u64 = 8,
        id: u32 = 16,
        timescale: u32 = 20,
        sample_count: u32 = 24,
        bits_per_second: u32 = 28,
        handler: [u8; 4] = 32,
        sample_entry: [u8; 4] = 36,
        language: [u8; 4] = 40,
        width: u16 = 44,
        height: u16 = 46,
        audio_profile: u8 = 48,
        frequency_index: u8 = 49,
        channels: u8 = 50,
        video_profile: u8 = 51,
        video_compatibility: u8 = 52,
        video_level: u8 = 53,
        has_frames_per_second: u8 = 54,
        has_sample_count: u8 = 55,
        has_bits_per_second: u8 = 56,
        has_sample_entry: u8 = 57,
        has_audio_profile: u8 = 58,
        has_frequency_index: u8 = 59,
        has_channels: u8 = 60,
        has_video_profile: u8 = 61,
        reserved: [u8; 2] = 62,
    }

    /// A sample that is read or written.
    SampleRow: 40 {
        offset: u64 = 0,
        start_time: u64 = 8,
        track_id: u32 = 16,
        size: u32 = 20,
        duration: u32 = 24,
        rendering_offset: i32 = 28,
        is_sync: u8 = 32,
        reserved: [u8; 7] = 33,
    }

    /// What a movie is begun with.
    NewMovieRow: 12 {
        timescale: u32 = 0,
        minor_version: u32 = 4,
        major_brand: [u8; 4] = 8,
    }

    /// What a track is added with.
    NewTrackRow: 48 {
        sequence_set: u64 = 0,
        picture_set: u64 = 8,
        sequence_set_size: u32 = 16,
        picture_set_size: u32 = 20,
        timescale: u32 = 24,
        bits_per_second: u32 = 28,
        sample_entry: [u8; 4] = 32,
        language: [u8; 4] = 36,
        width: u16 = 40,
        height: u16 = 42,
        audio_profile: u8 = 44,
        frequency_index: u8 = 45,
        channels: u8 = 46,
        reserved: u8 = 47,
    }
}

/// What a movie is written of; `data` has the bytes of all samples.
#[derive(Clone, Copy)]
pub(crate) struct Parts<'a> {
    pub(crate) movie: &'a NewMovieRow,
    pub(crate) brands: &'a [BrandRow],
    pub(crate) tracks: &'a [NewTrackRow],
    pub(crate) samples: &'a [SampleRow],
    pub(crate) data: &'a [u8],
}
