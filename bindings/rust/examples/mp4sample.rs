//! Prints where the samples of a file lie, and when they are shown: `mp4sample FILE [TRACK [NUMBER]]`
//! of all tracks, of one, or of one sample. It is what a program of this name for the crate `mp4`
//! became by MIGRATION.md.

use maqelsun::{read_mp4, Movie, Sample};
use std::env;
use std::error::Error;
use std::fs::File;

fn print_sample(track_id: u32, number: u32, sample: &Sample) {
    println!(
        "[{track_id}:{number}] {} bytes at {}, start {}, duration {}, rendering offset {}, sync {}",
        sample.bytes.len(),
        sample.offset,
        sample.start_time,
        sample.duration,
        sample.rendering_offset,
        sample.is_sync
    );
}

/// The loop of a program for the crate `mp4`: each sample is asked for by its number.
fn print_samples(movie: &Movie, track_id: u32) -> maqelsun::Result<()> {
    for number in 1..=movie.sample_count(track_id)? {
        if let Some(sample) = movie.read_sample(track_id, number)? {
            print_sample(track_id, number, &sample);
        }
    }
    Ok(())
}

fn main() -> Result<(), Box<dyn Error>> {
    let words: Vec<String> = env::args().skip(1).collect();
    let name = words.first().ok_or("usage: mp4sample FILE [TRACK [NUMBER]]")?;
    let movie = read_mp4(File::open(name)?)?;
    match &words[1..] {
        [] => {
            for track in movie.tracks() {
                print_samples(&movie, track.id())?;
            }
        }
        [track_id] => print_samples(&movie, track_id.parse()?)?,
        [track_id, number, ..] => {
            let (track_id, number) = (track_id.parse()?, number.parse()?);
            let sample = movie.read_sample(track_id, number)?.ok_or("there is no such sample")?;
            print_sample(track_id, number, &sample);
        }
    }
    Ok(())
}
