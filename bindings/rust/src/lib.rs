//! MP4 files (ISO base media files, ISO/IEC 14496-12), read and written.
//!
//! The work is done by the static library `libmp4_c.a`, each function of which is proved before it
//! is compiled: what is written is read back, and no bytes of a file make it crash. This crate
//! calls it: a [`Movie`] is opened from the bytes of a file, a [`Writer`] makes the bytes of one,
//! and [`move_to_front`], [`gather`] and [`choose`] rewrite them.
//! What is trusted beside the proofs is in `bindings/README.md`; how to come from the crate `mp4`
//! is in `MIGRATION.md`.
//!
//! ```
//! # fn main() -> Result<(), Box<dyn std::error::Error>> {
//! use maqelsun::{Movie, MovieConfig, TrackConfig, Writer};
//!
//! let mut writer = Writer::new(&MovieConfig::default());
//! let id = writer.add_track(&TrackConfig::text())?;
//! writer.write_text(id, "first", 500)?;
//! writer.write_text(id, "second", 500)?;
//! let file: Vec<u8> = writer.finish()?;
//!
//! let movie = Movie::open(file)?;
//! for track in movie.tracks() {
//!     for sample in movie.samples(track.id())? {
//!         let sample = sample?;
//!         println!("{} bytes at {}", sample.bytes.len(), sample.offset);
//!     }
//! }
//! # Ok(())
//! # }
//! ```

mod config;
mod error;
mod ffi;
mod four_cc;
mod layout;
mod movie;
mod remux;
mod sample_list;
mod samples;
mod sound;
mod track;
mod writer;

pub use config::{AacConfig, AvcConfig, MediaConfig, MovieConfig, PictureSize, TrackConfig};
pub use error::{Error, FinishError, Limit, Part, Result};
pub use four_cc::FourCC;
pub use movie::{read_mp4, Metadata, Movie};
pub use remux::{choose, gather, move_to_front};
pub use sample_list::{SampleList, SampleListIter};
pub use samples::{Sample, Samples};
pub use sound::{AudioObjectType, ChannelConfig, SampleFreqIndex};
pub use track::{AvcProfile, MediaType, Track, TrackType};
pub use writer::Writer;

/// The program of MIGRATION.md is compiled with the other examples.
#[cfg(doctest)]
#[doc = include_str!("../MIGRATION.md")]
struct Migration;
