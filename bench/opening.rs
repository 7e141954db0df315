//! How long a file takes to open, beside a stand-in for the Rust crate `mp4` 0.14: it does a part of what
//! that crate does when it opens a file. Each number of each table is read out of a cursor, one after the
//! other, and each track is copied out of the movie. Both are timed by turns, in seconds of the processor.
//! With `folder` what `scripts/callers build` made:
//!
//!     rustc -O --edition 2021 bench/opening.rs -o opening -C link-arg=folder/libmp4_c.a -C link-arg=folder/liblibc_c.a
//!     ./opening FILE..

use std::collections::HashMap;
use std::io::{Cursor, Read, Result, Seek, SeekFrom};

const TURNS: usize = 15;

#[derive(Clone, Default)]
struct Track {
    id: u32,
    stts: Vec<(u32, u32)>,
    ctts: Vec<(u32, i32)>,
    stss: Vec<u32>,
    stsc: Vec<(u32, u32, u32, u32)>,
    sizes: Vec<u32>,
    stco: Vec<u32>,
    co64: Vec<u64>,
}

type Bytes<'a> = Cursor<&'a [u8]>;

fn number(bytes: &mut Bytes) -> Result<u32> {
    let mut field = [0; 4];
    bytes.read_exact(&mut field)?;
    Ok(u32::from_be_bytes(field))
}

fn long_number(bytes: &mut Bytes) -> Result<u64> {
    let mut field = [0; 8];
    bytes.read_exact(&mut field)?;
    Ok(u64::from_be_bytes(field))
}

/// The entries of a table, after its version and flags.
fn entries<T>(bytes: &mut Bytes, read: impl Fn(&mut Bytes) -> Result<T>) -> Result<Vec<T>> {
    number(bytes)?;
    let count = number(bytes)?;
    let mut list = Vec::with_capacity(count as usize);
    for _ in 0..count {
        list.push(read(bytes)?);
    }
    Ok(list)
}

fn sizes(bytes: &mut Bytes) -> Result<Vec<u32>> {
    number(bytes)?;
    let (size, count) = (number(bytes)?, number(bytes)?);
    let mut list = Vec::new();
    if size == 0 {
        list.reserve(count as usize);
        for _ in 0..count {
            list.push(number(bytes)?);
        }
    }
    Ok(list)
}

/// The first sample of each entry of stsc.
fn number_samples(track: &mut Track) {
    let mut sample = 1;
    for i in 0..track.stsc.len() {
        track.stsc[i].3 = sample;
        if i + 1 < track.stsc.len() {
            sample += (track.stsc[i + 1].0 - track.stsc[i].0) * track.stsc[i].1;
        }
    }
}

fn read_boxes(bytes: &mut Bytes, end: u64, track: &mut Track, tracks: &mut Vec<Track>) -> Result<()> {
    while bytes.position() < end {
        let begin = bytes.position();
        let (short, kind) = (number(bytes)?, number(bytes)?);
        let size = if short == 1 {
            long_number(bytes)?
        } else {
            u64::from(short)
        };
        if size < 8 {
            break;
        }
        match &kind.to_be_bytes() {
            b"moov" | b"mdia" | b"minf" | b"stbl" => read_boxes(bytes, begin + size, track, tracks)?,
            b"trak" => {
                let mut own = Track::default();
                read_boxes(bytes, begin + size, &mut own, tracks)?;
                number_samples(&mut own);
                tracks.push(own);
            }
            b"tkhd" => {
                let version = number(bytes)? >> 24;
                bytes.seek(SeekFrom::Current(if version == 1 { 16 } else { 8 }))?;
                track.id = number(bytes)?;
            }
            b"stts" => track.stts = entries(bytes, |b| Ok((number(b)?, number(b)?)))?,
            b"ctts" => track.ctts = entries(bytes, |b| Ok((number(b)?, number(b)? as i32)))?,
            b"stss" => track.stss = entries(bytes, number)?,
            b"stsc" => track.stsc = entries(bytes, |b| Ok((number(b)?, number(b)?, number(b)?, 0)))?,
            b"stsz" => track.sizes = sizes(bytes)?,
            b"stco" => track.stco = entries(bytes, number)?,
            b"co64" => track.co64 = entries(bytes, long_number)?,
            _ => {}
        }
        bytes.seek(SeekFrom::Start(begin + size))?;
    }
    Ok(())
}

/// The movie's tracks, which stay, and a copy of each by its id.
fn open_by_stand_in(file: &[u8]) -> Result<(Vec<Track>, HashMap<u32, Track>)> {
    let mut tracks = Vec::new();
    read_boxes(
        &mut Cursor::new(file),
        file.len() as u64,
        &mut Track::default(),
        &mut tracks,
    )?;
    let by_id = tracks.iter().map(|track| (track.id, track.clone())).collect();
    Ok((tracks, by_id))
}

/// As `mp4_movie` and `mp4_answer` of `bindings/c/mp4.h`.
#[repr(C)]
struct Movie([u64; 6]);
#[repr(C)]
struct Answer {
    counts: [u64; 3],
    code: u32,
    rest: [u32; 7],
}
#[repr(C)]
struct Timespec {
    seconds: i64,
    nanoseconds: i64,
}

extern "C" {
    fn mp4_c_open(file: *const u8, size: usize, movie: *mut Movie) -> Answer;
    fn clock_gettime(clock: i32, time: *mut Timespec) -> i32;
}

/// Seconds of the processor that this thread has taken.
fn seconds() -> f64 {
    const CLOCK_THREAD_CPUTIME_ID: i32 = 3;
    let mut time = Timespec {
        seconds: 0,
        nanoseconds: 0,
    };
    unsafe { clock_gettime(CLOCK_THREAD_CPUTIME_ID, &mut time) };
    time.seconds as f64 + time.nanoseconds as f64 / 1e9
}

fn open(file: &[u8]) {
    let mut movie = Movie([0; 6]);
    let answer = unsafe { mp4_c_open(file.as_ptr(), file.len(), &mut movie) };
    assert_eq!(answer.code, 0, "the file doesn't open");
}

fn timed(job: impl Fn()) -> f64 {
    let begun = seconds();
    job();
    seconds() - begun
}

fn median(mut times: Vec<f64>) -> f64 {
    times.sort_by(f64::total_cmp);
    times[times.len() / 2] * 1000.0
}

fn main() -> Result<()> {
    for name in std::env::args().skip(1) {
        let file = std::fs::read(&name)?;
        let (mut ours, mut stand_in) = (Vec::new(), Vec::new());
        for _ in 0..TURNS {
            ours.push(timed(|| open(&file)));
            stand_in.push(timed(|| drop(std::hint::black_box(open_by_stand_in(&file)))));
        }
        let (ours, stand_in) = (median(ours), median(stand_in));
        println!(
            "{name}: {ours:.1} ms, the stand-in {stand_in:.1} ms: {:.2}",
            ours / stand_in
        );
    }
    Ok(())
}
