//! Lists the samples of all tracks of a file: `list_samples FILE`.

use maqelsun::Movie;
use std::error::Error;
use std::{env, fs};

fn main() -> Result<(), Box<dyn Error>> {
    let name = env::args_os().nth(1).ok_or("usage: list_samples FILE")?;
    let file = fs::read(name)?;
    let movie = Movie::open(file)?;
    for track in movie.tracks() {
        println!("track {} ({})", track.id(), track.handler());
        for sample in movie.samples(track.id())? {
            let sample = sample?;
            let mark = if sample.is_sync { ", sync" } else { "" };
            println!(
                "  {} bytes at {}, from {} for {} ticks{mark}",
                sample.bytes.len(),
                sample.offset,
                sample.start_time,
                sample.duration
            );
        }
    }
    Ok(())
}
