//! Copies the tracks of a file to a new one, sample by sample: `mp4copy FILE OUT` all of them, or
//! `mp4copy FILE OUT TRACK..` those with these ids. It is what a program of this name for the crate
//! `mp4` became by MIGRATION.md. A track of HEVC isn't copied: what its decoder is begun with can't be
//! given to a writer.

use maqelsun::{
    read_mp4, AacConfig, AvcConfig, MediaConfig, MediaType, Movie, MovieConfig, PictureSize, Track,
    TrackConfig, Writer,
};
use std::error::Error;
use std::fs::File;
use std::{env, fs};

fn media_of(movie: &Movie, track: &Track) -> Result<MediaConfig, Box<dyn Error>> {
    let (width, height) = (track.width(), track.height());
    Ok(match track.media_type().ok_or("samples of this kind can't be written")? {
        MediaType::H264 => MediaConfig::Avc(AvcConfig {
            width,
            height,
            seq_param_set: movie.sequence_parameter_set(track.id())?,
            pic_param_set: movie.picture_parameter_set(track.id())?,
        }),
        MediaType::H265 => return Err("HEVC would be copied without its parameter sets".into()),
        MediaType::VP9 => MediaConfig::Vp9(PictureSize { width, height }),
        MediaType::AAC => MediaConfig::Aac(AacConfig {
            bitrate: track.bitrate().unwrap_or(0),
            profile: track.audio_profile().ok_or("the type of sound isn't known")?,
            freq_index: track.sample_freq_index().ok_or("the frequency isn't known")?,
            chan_conf: track.channel_config().ok_or("the channels aren't known")?,
        }),
        MediaType::TTXT => MediaConfig::Text,
    })
}

/// Adds a track with all its samples.
fn copy_track(movie: &Movie, track: &Track, writer: &mut Writer) -> Result<(), Box<dyn Error>> {
    let id = writer.add_track(&TrackConfig {
        timescale: track.timescale(),
        language: track.language().to_owned(),
        media: media_of(movie, track)?,
    })?;
    for sample in movie.samples(track.id())? {
        writer.write_sample(id, &sample?)?;
    }
    Ok(())
}

/// The bytes of a movie that has the tracks with these ids.
fn copied(movie: &Movie, ids: &[u32]) -> Result<Vec<u8>, Box<dyn Error>> {
    let mut writer = Writer::new(&MovieConfig {
        major_brand: movie.major_brand(),
        minor_version: movie.minor_version(),
        compatible_brands: movie.compatible_brands()?,
        timescale: movie.timescale(),
    });
    for id in ids {
        copy_track(movie, movie.track(*id)?, &mut writer)?;
    }
    Ok(writer.finish()?)
}

fn main() -> Result<(), Box<dyn Error>> {
    let words: Vec<String> = env::args().skip(1).collect();
    let [name, out, ids @ ..] = &words[..] else {
        return Err("usage: mp4copy FILE OUT [TRACK..]".into());
    };
    let movie = read_mp4(File::open(name)?)?;
    let mut ids = ids.iter().map(|id| id.parse()).collect::<Result<Vec<u32>, _>>()?;
    if ids.is_empty() {
        ids = movie.tracks().iter().map(Track::id).collect();
    }
    fs::write(out, copied(&movie, &ids)?)?;
    Ok(())
}
