//! Makes a movie of the subtitles that standard input has in the form SubRip (.srt):
//! `write_subtitles OUT`.

use maqelsun::{MovieConfig, TrackConfig, Writer};
use std::error::Error;
use std::{env, fs, io};

/// The milliseconds of a clock, as 00:01:02,500.
fn milliseconds(clock: &str) -> Option<u32> {
    let (clock, thousandths) = clock.trim().split_once(',')?;
    let mut seconds: u32 = 0;
    for part in clock.split(':') {
        seconds = seconds.checked_mul(60)?.checked_add(part.parse().ok()?)?;
    }
    seconds.checked_mul(1000)?.checked_add(thousandths.parse().ok()?)
}

/// A text that is shown from one millisecond to another.
struct Subtitle {
    from: u32,
    to: u32,
    text: String,
}

/// The subtitle of a block: its number, its times, and its lines.
fn subtitle_of(block: &str) -> Option<Subtitle> {
    let mut lines = block.lines();
    let (_number, times) = (lines.next()?, lines.next()?);
    let (from, to) = times.split_once("-->")?;
    let text = lines.collect::<Vec<_>>().join("\n");
    Some(Subtitle { from: milliseconds(from)?, to: milliseconds(to)?, text })
}

/// The bytes of a movie of these subtitles; what is between two of them is an empty text.
fn movie_of(subtitles: &[Subtitle]) -> Result<Vec<u8>, Box<dyn Error>> {
    let mut writer = Writer::new(&MovieConfig::default());
    let track = writer.add_track(&TrackConfig::text())?;
    let mut end = 0;
    for Subtitle { from, to, text } in subtitles {
        if *from < end || to < from {
            return Err(format!("'{text}' is shown before the one in front of it ends").into());
        }
        if *from > end {
            writer.write_text(track, "", from - end)?;
        }
        writer.write_text(track, text, to - from)?;
        end = *to;
    }
    Ok(writer.finish()?)
}

fn main() -> Result<(), Box<dyn Error>> {
    let out = env::args_os().nth(1).ok_or("usage: write_subtitles OUT < FILE.srt")?;
    let text = io::read_to_string(io::stdin())?.replace("\r\n", "\n");
    let blocks = text.split("\n\n").map(str::trim).filter(|block| !block.is_empty());
    let subtitles: Option<Vec<Subtitle>> = blocks.map(subtitle_of).collect();
    let movie = movie_of(&subtitles.ok_or("these aren't subtitles in the form SubRip")?)?;
    fs::write(out, movie)?;
    Ok(())
}
