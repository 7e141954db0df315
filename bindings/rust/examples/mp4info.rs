//! Prints what a file says of itself and of its tracks: `mp4info FILE`. It is what a program of this
//! name for the crate `mp4` became by MIGRATION.md.

use maqelsun::{read_mp4, MediaType, Movie, Track, TrackType};
use std::env;
use std::error::Error;
use std::fs::File;

/// The seconds from the beginning of 1904 to that of 1970, from which clocks count.
const EPOCH: u64 = 2_082_844_800;

/// A value as text, or a dash without one.
fn shown<T: ToString>(value: Option<T>) -> String {
    value.map_or("-".to_owned(), |value| value.to_string())
}

fn print_movie(movie: &Movie) -> maqelsun::Result<()> {
    let brands: Vec<String> = movie.compatible_brands()?.iter().map(ToString::to_string).collect();
    println!("File:");
    println!("  size:               {} bytes", movie.size());
    println!("  major brand:        {}, version {}", movie.major_brand(), movie.minor_version());
    println!("  compatible brands:  {}", brands.join(" "));
    println!("Movie:");
    println!("  header version:     {}", movie.header_version());
    println!("  made at:            {} s of 1970", shown(movie.creation_time().checked_sub(EPOCH)));
    println!("  duration:           {:?}", movie.duration()?);
    println!("  timescale:          {}", movie.timescale());
    println!("  fragments:          {}", movie.is_fragmented());
    Ok(())
}

/// The pictures of a track.
fn video(track: &Track) -> String {
    let profile = match track.media_type() {
        Some(MediaType::H264) => format!(" {}", shown(track.video_profile())),
        _ => String::new(),
    };
    let rate = track.frame_rate().unwrap_or(0.0);
    let kilobits = track.bitrate().unwrap_or(0) / 1000;
    format!("{}x{},{profile} {kilobits} kb/s, {rate:.2} fps", track.width(), track.height())
}

/// The sound of a track.
fn audio(track: &Track) -> String {
    format!(
        "{}, {}, {}, {} kb/s",
        shown(track.audio_profile()),
        shown(track.sample_freq_index()),
        shown(track.channel_config()),
        track.bitrate().unwrap_or(0) / 1000
    )
}

fn print_track(track: &Track) -> maqelsun::Result<()> {
    let described = match track.track_type() {
        Some(TrackType::Video) => video(track),
        Some(TrackType::Audio) => audio(track),
        Some(TrackType::Subtitle) => "text".to_owned(),
        None => format!("handler {}", track.handler()),
    };
    println!(
        "  #{} ({}) {}: {described}, {} samples, {:?}",
        track.id(),
        track.language(),
        shown(track.media_type()),
        shown(track.sample_count()),
        track.duration()?
    );
    Ok(())
}

fn main() -> Result<(), Box<dyn Error>> {
    let name = env::args_os().nth(1).ok_or("usage: mp4info FILE")?;
    let movie = read_mp4(File::open(name)?)?;
    print_movie(&movie)?;
    println!("{} tracks:", movie.tracks().len());
    for track in movie.tracks() {
        print_track(track)?;
    }
    Ok(())
}
