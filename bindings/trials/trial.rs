//! What scripts/callers asks of the library from Rust: trial.c says what each command does.

use maqelsun::{
    AacConfig, AudioObjectType, AvcConfig, ChannelConfig, MediaConfig, Movie, MovieConfig,
    PictureSize, Sample, SampleFreqIndex, Track, TrackConfig, Writer,
};
use std::error::Error;
use std::fmt::Write as _;
use std::io::Read;
use std::time::{Duration, Instant};
use std::{env, fs, io, process, thread};

type Outcome<T> = Result<T, Box<dyn Error>>;

/// The samples of a track, a line each, as `mp4_tool samples` prints them.
fn track_lines(movie: &Movie<&[u8]>, track: &Track) -> String {
    let mut lines = format!("track {}\n", track.id());
    let samples = match movie.samples(track.id()) {
        Ok(samples) => samples,
        Err(refused) => return lines + &refused.to_string() + "\n",
    };
    let mut number = 0;
    for sample in samples {
        number += 1;
        match sample {
            Ok(sample) => writeln!(
                lines,
                "{number} {} {} {} {} {} {}",
                sample.offset,
                sample.bytes.len(),
                sample.start_time,
                sample.duration,
                sample.rendering_offset,
                u8::from(sample.is_sync)
            ),
            Err(refused) => return lines + &format!("{number} {refused}\n"),
        }
        .expect("a text takes a line");
    }
    if Some(number) < track.sample_count() {
        lines += &format!("{} none\n", number + 1);
    }
    lines
}

/// The lines of all tracks of a file, or why it doesn't open.
fn file_lines(file: &[u8]) -> String {
    match Movie::open(file) {
        Ok(movie) => movie.tracks().iter().map(|track| track_lines(&movie, track)).collect(),
        Err(refused) => format!("{refused}\n"),
    }
}

/// Why a file doesn't open, or an empty line.
fn fault_line(file: &[u8]) -> String {
    Movie::open(file).err().map_or("\n".to_owned(), |refused| format!("{refused}\n"))
}

/// The same, and what it is that is invalid.
fn reason_line(file: &[u8]) -> String {
    match Movie::open(file).err() {
        Some(maqelsun::Error::InvalidData(text)) => format!("invalid data: {text}\n"),
        refused => refused.map_or("\n".to_owned(), |refused| format!("{refused}\n")),
    }
}

/// Bytes in digits; a full stop for none.
fn digits(bytes: &[u8]) -> String {
    match bytes {
        [] => ".".to_owned(),
        bytes => bytes.iter().map(|byte| format!("{byte:02x}")).collect(),
    }
}

/// A value that the file may not say.
fn marked<T: ToString>(value: Option<T>) -> String {
    value.map_or("-".to_owned(), |value| value.to_string())
}

/// A time in whole seconds, and the nanoseconds after them; a dash without ticks in a second.
fn seconds(time: maqelsun::Result<Duration>) -> String {
    time.map_or("-".to_owned(), |time| format!("{} {}", time.as_secs(), time.subsec_nanos()))
}

/// What a file says of a track, as trial.c prints it.
fn track_facts(track: &Track) -> String {
    let entry = track.sample_entry().map(|code| digits(&code.value));
    let video = track.video_profile();
    let words = [
        track.id().to_string(),
        digits(&track.handler().value),
        marked(entry),
        digits(track.language().as_bytes()),
        track.timescale().to_string(),
        track.duration_in_ticks().to_string(),
        track.width().to_string(),
        track.height().to_string(),
        marked(track.sample_count()),
        marked(track.frame_rate().map(|rate| rate as u64)),
        marked(track.bitrate()),
        marked(track.audio_profile().map(AudioObjectType::number)),
        marked(track.sample_freq_index().map(SampleFreqIndex::number)),
        marked(track.channel_config().map(ChannelConfig::number)),
        marked(video.map(|video| video.profile)),
        marked(video.map(|video| video.compatibility)),
        marked(video.map(|video| video.level)),
        seconds(track.duration()),
    ];
    format!("track {}\n", words.join(" "))
}

/// What a call answered, after a word and what was asked.
fn answer_line<T>(
    name: &str,
    key: u64,
    answer: maqelsun::Result<T>,
    shown: fn(T) -> String,
) -> String {
    let text = answer.map_or_else(|refused| refused.to_string(), shown);
    format!("{name} {key} {text}\n")
}

/// The parameter sets of a track, and the samples that are found at the edges of its times and
/// numbers.
fn found_lines(movie: &Movie<&[u8]>, track: &Track) -> String {
    let (id, duration) = (track.id(), track.duration_in_ticks());
    let last = track.sample_count().unwrap_or(0);
    let bytes = |bytes: Vec<u8>| digits(&bytes);
    let mut lines = answer_line("set", 1, movie.sequence_parameter_set(id), bytes);
    lines += &answer_line("set", 2, movie.picture_parameter_set(id), bytes);
    let few = [
        0, 1, 2, 3, 5, 10, 20, 50, 100, 200, 500, 1000, 2000, 5000, 10000, 20000, 50000, 100_000,
    ];
    for time in few.into_iter().chain([duration.saturating_sub(1), duration, u64::MAX]) {
        lines += &answer_line("at", time, movie.sample_at(id, time), marked);
    }
    let first = movie.samples(id).into_iter().flatten().map_while(Result::ok).take(8);
    for start in first.map(|sample| sample.start_time) {
        for time in start.saturating_sub(1)..=start.saturating_add(1) {
            lines += &answer_line("at", time, movie.sample_at(id, time), marked);
        }
    }
    for number in [0, 1, 2, last, last.wrapping_add(1), u32::MAX] {
        let sync = movie.sync_sample_at_or_before(id, number);
        lines += &answer_line("sync", number.into(), sync, marked);
    }
    lines
}

/// The metadata of a file, an item of it a line. What isn't there is said in the words of the
/// library.
fn metadata_lines(movie: &Movie<&[u8]>) -> maqelsun::Result<String> {
    let metadata = movie.metadata()?;
    let items = [
        metadata.title.map(String::into_bytes),
        metadata.year.map(|year| year.to_string().into_bytes()),
        metadata.poster,
        metadata.summary.map(String::into_bytes),
    ];
    let line = |(key, item): (u32, Option<Vec<u8>>)| {
        let shown = item.map_or("not present".to_owned(), |bytes| digits(&bytes));
        format!("metadata {key} {shown}\n")
    };
    Ok((1..).zip(items).map(line).collect())
}

/// All that a file says, as trial.c prints it.
fn facts_of(movie: &Movie<&[u8]>) -> maqelsun::Result<String> {
    let mut lines = format!(
        "movie {} {} {} {} {} {} {} {} {} {}\nbrands",
        movie.size(),
        movie.duration_in_ticks(),
        movie.creation_time(),
        movie.modification_time(),
        movie.header_version(),
        movie.timescale(),
        movie.minor_version(),
        u8::from(movie.is_fragmented()),
        digits(&movie.major_brand().value),
        seconds(movie.duration())
    );
    for brand in movie.compatible_brands()? {
        lines = lines + " " + &digits(&brand.value);
    }
    lines = lines + "\n" + &metadata_lines(movie)?;
    for track in movie.tracks() {
        lines = lines + &track_facts(track) + &found_lines(movie, track);
    }
    Ok(lines)
}

fn facts(file: &[u8]) -> String {
    let lines = Movie::open(file).and_then(|movie| facts_of(&movie));
    lines.unwrap_or_else(|refused| format!("{refused}\n"))
}

/// Prints the lines of each file that a line of standard input names, after its name.
fn each_file(lines_of: fn(&[u8]) -> String) -> Outcome<()> {
    for name in io::stdin().lines() {
        let name = name?;
        print!("{name}\n{}", lines_of(&fs::read(&name)?));
    }
    Ok(())
}

/// The bytes that hexadecimal digits write.
fn bytes_of(digits: &str) -> Outcome<Vec<u8>> {
    let pairs = digits.as_bytes().chunks(2);
    pairs.map(|pair| Ok(u8::from_str_radix(std::str::from_utf8(pair)?, 16)?)).collect()
}

/// The track of a line of a script.
fn track_of(line: &str) -> Outcome<TrackConfig> {
    let words: Vec<&str> = line.split(' ').collect();
    let size = || -> Outcome<PictureSize> {
        Ok(PictureSize { width: words[3].parse()?, height: words[4].parse()? })
    };
    let media = match words[1] {
        "avc" => MediaConfig::Avc(AvcConfig {
            width: size()?.width,
            height: size()?.height,
            seq_param_set: bytes_of(words[5])?,
            pic_param_set: bytes_of(words[6])?,
        }),
        "hevc" => MediaConfig::Hevc(size()?),
        "vp9" => MediaConfig::Vp9(size()?),
        "aac" => MediaConfig::Aac(AacConfig {
            bitrate: words[3].parse()?,
            profile: words[4].parse::<u8>()?.try_into()?,
            freq_index: words[5].parse::<u8>()?.try_into()?,
            chan_conf: words[6].parse::<u8>()?.try_into()?,
        }),
        _ => MediaConfig::Text,
    };
    Ok(TrackConfig { timescale: words[2].parse()?, ..TrackConfig::new(media) })
}

/// Writes the sample of a line of a script: five words, and then its bytes.
fn write_sample(writer: &mut Writer, line: &[u8]) -> Outcome<()> {
    let parts: Vec<&[u8]> = line.splitn(6, |byte| *byte == b' ').collect();
    let text = |place: usize| std::str::from_utf8(parts[place]);
    let sample = Sample {
        duration: text(2)?.parse()?,
        rendering_offset: text(3)?.parse()?,
        is_sync: parts[4] == b"1",
        bytes: parts[5],
        ..Sample::default()
    };
    Ok(writer.write_sample(text(1)?.parse()?, &sample)?)
}

/// Makes the movie of a script from standard input.
fn write_movie(name: &str) -> Outcome<()> {
    let mut script = Vec::new();
    io::stdin().read_to_end(&mut script)?;
    let mut writer = Writer::new(&MovieConfig::default());
    for line in script.split(|byte| *byte == b'\n') {
        if line.starts_with(b"track") {
            writer.add_track(&track_of(std::str::from_utf8(line)?)?)?;
        } else if !line.is_empty() {
            write_sample(&mut writer, line)?;
        }
    }
    Ok(fs::write(name, writer.finish()?)?)
}

/// Rewrites each file that a line of standard input names: what comes of the file of line K is the
/// file K of the folder.
fn rewrite_files(
    folder: &str,
    rewrite: impl Fn(&[u8]) -> maqelsun::Result<Vec<u8>>,
) -> Outcome<()> {
    for (line, name) in (1..).zip(io::stdin().lines()) {
        let name = name?;
        println!("{name}");
        match rewrite(&fs::read(&name)?) {
            Ok(file) => {
                fs::write(format!("{folder}/{line}"), &file)?;
                println!("wrote {} bytes", file.len());
            }
            Err(refused) => println!("{refused}"),
        }
    }
    Ok(())
}

/// Chooses the tracks of these ids of each file likewise.
fn choose_tracks(folder: &str, ids: &[&str]) -> Outcome<()> {
    let ids = ids.iter().map(|id| Ok(id.parse()?)).collect::<Outcome<Vec<u32>>>()?;
    rewrite_files(folder, |file| maqelsun::choose(file, &ids))
}

/// How many KiB this process holds in memory, those of mapped files among them.
fn resident_kib() -> Outcome<i64> {
    let status = fs::read_to_string("/proc/self/status")?;
    let line = status.lines().find_map(|line| line.strip_prefix("VmRSS:"));
    let words = line.ok_or("there is no VmRSS")?.split_whitespace().next();
    Ok(words.ok_or("there is no VmRSS")?.parse()?)
}

/// The samples of a file; on standard error the microseconds and the KiB of memory it took.
fn list_large(name: &str) -> Outcome<()> {
    fault_line(b""); // the first call loads code, which isn't of the file
    let before = resident_kib()?;
    let begun = Instant::now();
    let mapped = mapping::Mapping::of(&fs::File::open(name)?)?;
    let lines = file_lines(mapped.bytes());
    let taken = begun.elapsed();
    eprintln!("{} {}", taken.as_micros(), resident_kib()? - before);
    print!("{lines}");
    Ok(())
}

/// The samples of a file, by eight threads at once over one movie: they have to find the same.
fn list_by_threads(name: &str) -> Outcome<()> {
    let file = fs::read(name)?;
    let movie = Movie::open(&file[..])?;
    let lines =
        || -> String { movie.tracks().iter().map(|track| track_lines(&movie, track)).collect() };
    let found: Vec<String> = thread::scope(|scope| {
        let threads: Vec<_> = (0..8).map(|_| scope.spawn(lines)).collect();
        threads.into_iter().map(|thread| thread.join().expect("a thread ends")).collect()
    });
    if found.iter().any(|lines| *lines != found[0]) {
        return Err("the threads differ".into());
    }
    print!("{}", found[0]);
    Ok(())
}

/// A file that is mapped into memory, which the standard library doesn't offer.
mod mapping {
    use std::ffi::c_void;
    use std::fs::File;
    use std::os::fd::AsRawFd;
    use std::{io, ptr, slice};

    extern "C" {
        fn mmap(
            at: *mut c_void,
            size: usize,
            may: i32,
            kind: i32,
            file: i32,
            from: i64,
        ) -> *mut c_void;
        fn munmap(at: *mut c_void, size: usize) -> i32;
    }

    pub struct Mapping {
        start: *mut c_void,
        size: usize,
    }

    impl Mapping {
        pub fn of(file: &File) -> io::Result<Self> {
            let size = file.metadata()?.len() as usize;
            // SAFETY: a new mapping, to be read (1) and private (2), touches no memory that is
            // there.
            let start = unsafe { mmap(ptr::null_mut(), size, 1, 2, file.as_raw_fd(), 0) };
            if start as isize == -1 {
                return Err(io::Error::last_os_error());
            }
            Ok(Mapping { start, size })
        }

        pub fn bytes(&self) -> &[u8] {
            // SAFETY: the mapping has so many bytes until it is dropped, and nobody cuts the file.
            unsafe { slice::from_raw_parts(self.start.cast(), self.size) }
        }
    }

    impl Drop for Mapping {
        fn drop(&mut self) {
            // SAFETY: the mapping is there, and no borrow of its bytes is left.
            unsafe { munmap(self.start, self.size) };
        }
    }
}

fn run() -> Outcome<()> {
    let words: Vec<String> = env::args().skip(1).collect();
    let words: Vec<&str> = words.iter().map(String::as_str).collect();
    match words[..] {
        ["list"] => each_file(file_lines),
        ["faults"] => each_file(fault_line),
        ["reasons"] => each_file(reason_line),
        ["facts"] => each_file(facts),
        ["front", folder] => rewrite_files(folder, maqelsun::move_to_front),
        ["gather", folder] => rewrite_files(folder, maqelsun::gather),
        ["choose", folder, ref ids @ ..] => choose_tracks(folder, ids),
        ["write", out] => write_movie(out),
        ["large", file] => list_large(file),
        ["threads", file] => list_by_threads(file),
        _ => {
            let rewriting = "front FOLDER | gather FOLDER | choose FOLDER ID..";
            let others = "write OUT | large FILE | threads FILE";
            Err(format!("list | faults | reasons | facts | {rewriting} | {others}").into())
        }
    }
}

fn main() {
    if let Err(error) = run() {
        eprintln!("trial: {error}");
        process::exit(1);
    }
}
