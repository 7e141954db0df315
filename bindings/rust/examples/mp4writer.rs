//! Writes a movie of a second of silent sound: `mp4writer OUT`. It is what a program of this name
//! for the crate `mp4` became by MIGRATION.md.

use maqelsun::{AacConfig, FourCC, MovieConfig, Sample, TrackConfig, Writer};
use std::env;
use std::error::Error;
use std::fs::File;

/// A frame of AAC LC in which both channels are silent: an element of a channel pair without
/// spectral data, and the end (ISO/IEC 14496-3, 4.4.2).
const SILENCE: [u8; 9] = [0x21, 0x00, 0x49, 0x90, 0x02, 0x19, 0x00, 0x23, 0x80];

/// How many samples of sound a frame has.
const FRAME: u32 = 1024;

fn main() -> Result<(), Box<dyn Error>> {
    let out = env::args_os().nth(1).ok_or("usage: mp4writer OUT")?;
    let mut writer = Writer::new(&MovieConfig {
        major_brand: "isom".parse()?,
        minor_version: 512,
        compatible_brands: vec![FourCC::from(*b"isom"), FourCC::from(*b"mp41")],
        timescale: 1000,
    });
    let sound = TrackConfig { timescale: 48000, ..TrackConfig::from(AacConfig::default()) };
    let id = writer.add_track(&sound)?;
    for _ in 0..48000 / FRAME {
        let frame = Sample { duration: FRAME, is_sync: true, bytes: &SILENCE, ..Sample::default() };
        writer.write_sample(id, &frame)?;
    }
    writer.finish_to(&mut File::create(out)?)?;
    Ok(())
}
