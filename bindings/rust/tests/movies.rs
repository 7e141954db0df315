//! Movies that are written, read and rewritten.

use maqelsun::{
    choose, gather, move_to_front, read_mp4, AacConfig, AudioObjectType, AvcConfig, ChannelConfig,
    Error, FourCC, Limit, MediaConfig, MediaType, Metadata, Movie, MovieConfig, Part, PictureSize,
    Sample, TrackConfig, TrackType, Writer,
};
use std::io::ErrorKind;
use std::sync::Arc;
use std::time::Duration;
use std::{fs, io, thread};

/// A movie of one text track with this many samples; each has the digits of its number.
fn numbers(count: u32) -> Vec<u8> {
    let mut writer = Writer::new(&MovieConfig::default());
    let id = writer.add_track(&TrackConfig::text()).unwrap();
    for number in 1..=count {
        let bytes = &number.to_string().into_bytes()[..];
        let sample = Sample { duration: number % 3, is_sync: true, bytes, ..Sample::default() };
        writer.write_sample(id, &sample).unwrap();
    }
    writer.finish().unwrap()
}

/// A configuration of each kind of track.
fn five_kinds() -> Vec<TrackConfig> {
    let size = PictureSize { width: 320, height: 240 };
    let avc = AvcConfig {
        width: 1920,
        height: 1080,
        seq_param_set: vec![0x67, 0x64, 0, 0x1f, 0xac],
        pic_param_set: vec![0x68, 0xce],
    };
    let media = [
        MediaConfig::Avc(avc),
        MediaConfig::Hevc(size),
        MediaConfig::Vp9(size),
        MediaConfig::Aac(AacConfig { bitrate: 128_000, ..AacConfig::default() }),
        MediaConfig::Text,
    ];
    media.map(TrackConfig::from).to_vec()
}

/// A box of this type around bytes.
fn boxed(kind: &[u8; 4], payload: &[u8]) -> Vec<u8> {
    let size = u32::try_from(payload.len() + 8).unwrap();
    [&size.to_be_bytes(), &kind[..], payload].concat()
}

/// A movie with these items of metadata: each has a type, the type of its data, and its data.
fn with_metadata(items: &[(&[u8; 4], u8, &[u8])]) -> Vec<u8> {
    let item = |(kind, data_type, data): &(&[u8; 4], u8, &[u8])| {
        boxed(kind, &boxed(b"data", &[&[0, 0, 0, *data_type, 0, 0, 0, 0], *data].concat()))
    };
    let list = boxed(b"ilst", &items.iter().flat_map(item).collect::<Vec<u8>>());
    let handler = boxed(b"hdlr", &[&[0; 8], &b"mdir"[..], &[0; 13]].concat());
    let meta = boxed(b"meta", &[&[0; 4], &handler[..], &list].concat());
    let added = boxed(b"udta", &meta);
    let mut file = numbers(1);
    let movie = file.windows(4).position(|kind| kind == b"moov").unwrap() - 4;
    let size = u32::try_from(file.len() - movie + added.len()).unwrap();
    file[movie..movie + 4].copy_from_slice(&size.to_be_bytes());
    file.extend(added);
    file
}

#[test]
fn each_kind_of_track_is_read_as_it_was_written() {
    let mut writer = Writer::new(&MovieConfig::default());
    let ids: Vec<u32> =
        five_kinds().iter().map(|config| writer.add_track(config).unwrap()).collect();
    assert_eq!(ids, [1, 2, 3, 4, 5]);
    for id in ids {
        let sample = Sample { duration: 1000, is_sync: true, bytes: &[7; 9], ..Sample::default() };
        writer.write_sample(id, &sample).unwrap();
    }
    let file = writer.finish().unwrap();
    let movie = Movie::open(&file).unwrap();
    let kinds: Vec<_> = movie.tracks().iter().map(|track| track.media_type().unwrap()).collect();
    use MediaType::{AAC, H264, H265, TTXT, VP9};
    assert_eq!(kinds, [H264, H265, VP9, AAC, TTXT]);
    assert_eq!(movie.track(4).unwrap().track_type(), Some(TrackType::Audio));
    assert_eq!(movie.track(4).unwrap().sampling_frequency(), Some(48000));
    assert_eq!(movie.track(4).unwrap().channel_config(), Some(ChannelConfig::Stereo));
    let profile = movie.track(4).unwrap().audio_profile();
    assert_eq!(profile, Some(AudioObjectType::AacLowComplexity));
    assert_eq!(movie.track(4).unwrap().bitrate(), Some(128_000));
    assert_eq!(movie.track(1).unwrap().width(), 1920);
    assert_eq!(movie.track(1).unwrap().video_profile().unwrap().profile, 0x64);
    assert_eq!(movie.track(2).unwrap().height(), 240);
    assert_eq!(movie.track(5).unwrap().duration(), Ok(Duration::from_secs(1)));
    assert_eq!(movie.sequence_parameter_set(1).unwrap(), [0x67, 0x64, 0, 0x1f, 0xac]);
    assert_eq!(movie.picture_parameter_set(1).unwrap(), [0x68, 0xce]);
    let avc1 = FourCC::from(*b"avc1");
    assert_eq!(movie.picture_parameter_set(5), Err(Error::BoxInStblNotFound(5, avc1)));
}

#[test]
fn a_movie_says_what_it_was_begun_with() {
    let config = MovieConfig {
        major_brand: FourCC::from(*b"mp42"),
        minor_version: 7,
        compatible_brands: vec![FourCC::from(*b"mp42"), FourCC::from(*b"\xa9nam")],
        timescale: 90000,
    };
    let file = Writer::new(&config).finish().unwrap();
    let movie = Movie::open(&file).unwrap();
    assert_eq!(movie.major_brand(), config.major_brand);
    assert_eq!(movie.minor_version(), 7);
    assert_eq!(movie.compatible_brands().unwrap(), config.compatible_brands);
    assert_eq!(movie.timescale(), 90000);
    assert_eq!(movie.duration(), Ok(Duration::ZERO));
    assert_eq!(movie.size(), file.len() as u64);
    assert!(!movie.is_fragmented() && movie.tracks().is_empty());
}

#[test]
fn a_timescale_of_zero_has_no_duration() {
    let config = MovieConfig { timescale: 0, ..MovieConfig::default() };
    let file = Writer::new(&config).finish().unwrap();
    assert_eq!(Movie::open(&file).unwrap().duration(), Err(Error::ZeroTimescale));
}

#[test]
fn samples_of_several_blocks_are_read_in_order() {
    let file = numbers(40_000);
    let movie = Movie::open(&file).unwrap();
    let mut start = 0;
    let mut samples = movie.samples(1).unwrap();
    for number in 1..=40_000u32 {
        let sample = samples.next().unwrap().unwrap();
        assert_eq!(sample.bytes, number.to_string().as_bytes());
        assert_eq!((sample.start_time, sample.duration), (start, number % 3));
        start += u64::from(sample.duration);
    }
    assert_eq!(samples.next(), None);
    assert_eq!(samples.next(), None);
}

#[test]
fn samples_begin_at_any_number() {
    let file = numbers(2000);
    let movie = Movie::open(&file).unwrap();
    for first in [1, 2, 1024, 1025, 1999, 2000, 2001, 5000, u32::MAX] {
        let expected = 2001usize.saturating_sub(first as usize);
        assert_eq!(movie.samples_from(1, first).unwrap().count(), expected, "from {first}");
    }
    assert_eq!(movie.samples_from(1, 0).unwrap().next(), Some(Err(Error::InvalidData(""))));
}

#[test]
fn a_file_that_is_invalid_says_why() {
    let error = Movie::open(b"\0\0\x01\0free").err();
    assert_eq!(error, Some(Error::InvalidData("a box is larger than the file")));
}

#[test]
fn one_sample_is_read_by_its_number() {
    let file = numbers(3);
    let movie = Movie::open(&file).unwrap();
    assert_eq!(movie.read_sample(1, 2).unwrap().unwrap().bytes, b"2");
    assert_eq!(movie.read_sample(1, 4), Ok(None));
    assert_eq!(movie.read_sample(1, 0), Err(Error::InvalidData("")));
    assert_eq!(movie.read_sample(2, 1), Err(Error::TrakNotFound(2)));
    assert_eq!(movie.samples(2).err(), Some(Error::TrakNotFound(2)));
}

#[test]
fn samples_are_found_by_their_times() {
    let file = numbers(6); // they last 1, 2, 0, 1, 2 and 0 ticks
    let movie = Movie::open(&file).unwrap();
    let found: Vec<_> = (0..7).map(|time| movie.sample_at(1, time).unwrap()).collect();
    assert_eq!(found, [1, 2, 2, 4, 5, 5, 6].map(Some));
    assert_eq!(movie.sync_sample_at_or_before(1, 4), Ok(Some(4)));
    assert_eq!(movie.sync_sample_at_or_before(1, 0), Ok(None));
    assert_eq!(movie.sample_at(9, 0), Err(Error::TrakNotFound(9)));
}

#[test]
fn a_sample_that_is_not_whole_in_the_file_ends_the_samples() {
    let mut file = numbers(12); // whose sizes aren't all the same, so that they are listed
    let table = file.windows(4).rposition(|kind| kind == b"stsz").unwrap();
    file[table + 20] = 0x7f; // the high byte of the size of the second sample
    let movie = Movie::open(&file).unwrap();
    let mut samples = movie.samples(1).unwrap();
    assert_eq!(samples.next().unwrap().unwrap().bytes, b"1");
    assert_eq!(samples.next(), Some(Err(Error::EndOfData)));
    assert_eq!(samples.next(), None);
    assert_eq!(movie.read_sample(1, 2), Err(Error::EndOfData));
}

#[test]
fn samples_that_were_read_can_be_written() {
    let file = numbers(2500);
    let movie = Movie::open(&file).unwrap();
    let mut writer = Writer::new(&MovieConfig::default());
    let id = writer.add_track(&TrackConfig::text()).unwrap();
    for sample in movie.samples(1).unwrap() {
        writer.write_sample(id, &sample.unwrap()).unwrap();
    }
    assert_eq!(writer.finish().unwrap(), file);
}

#[test]
fn metadata_is_read() {
    let long = "long ".repeat(1000);
    let file = with_metadata(&[
        (b"\xa9nam", 1, b"Title \xff"),
        (b"\xa9day", 1, b"2019"),
        (b"covr", 13, &[1, 2, 3]),
        (b"desc", 1, long.as_bytes()),
    ]);
    let found = Movie::open(&file).unwrap().metadata().unwrap();
    assert_eq!(found.title.as_deref(), Some("Title \u{fffd}"));
    assert_eq!(found.year, Some(2019));
    assert_eq!(found.poster.as_deref(), Some(&[1, 2, 3][..]));
    assert_eq!(found.summary.as_deref(), Some(&long[..]));
    let none = numbers(1);
    assert_eq!(Movie::open(&none).unwrap().metadata().unwrap(), Metadata::default());
}

#[test]
fn each_cut_of_a_movie_is_answered() {
    let file = numbers(3);
    for end in 0..file.len() {
        if let Ok(movie) = Movie::open(&file[..end]) {
            assert!(movie.samples(1).unwrap().count() <= 4);
        }
    }
    assert_eq!(Movie::open(&[]).err(), Some(Error::BoxNotFound(FourCC::from(*b"ftyp"))));
}

#[test]
fn a_refused_track_is_not_added() {
    let mut writer = Writer::new(&MovieConfig::default());
    let zero = TrackConfig { timescale: 0, ..TrackConfig::text() };
    assert_eq!(writer.add_track(&zero), Err(Error::ZeroTimescale));
    for language in ["", "en", "deut", "DEU", "\0de", "\u{fc}b"] {
        let config = TrackConfig { language: language.to_owned(), ..TrackConfig::text() };
        assert_eq!(writer.add_track(&config), Err(Error::Unrepresentable), "{language}");
    }
    let profile = AudioObjectType::Layer3; // past the numbers that are written in five bits
    let compressed = TrackConfig::from(AacConfig { profile, ..AacConfig::default() });
    assert_eq!(writer.add_track(&compressed), Err(Error::Unrepresentable));
    let short = TrackConfig::from(AvcConfig::default());
    assert_eq!(writer.add_track(&short), Err(Error::Unrepresentable));
    let german = TrackConfig { language: "deu".to_owned(), ..TrackConfig::text() };
    assert_eq!(writer.add_track(&german), Ok(1));
    let file = writer.finish().unwrap();
    assert_eq!(Movie::open(&file).unwrap().track(1).unwrap().language(), "deu");
}

#[test]
fn a_sample_of_no_track_is_refused() {
    let mut writer = Writer::new(&MovieConfig::default());
    assert_eq!(writer.write_sample(1, &Sample::default()), Err(Error::TrakNotFound(1)));
    writer.add_track(&TrackConfig::text()).unwrap();
    assert_eq!(writer.write_sample(0, &Sample::default()), Err(Error::TrakNotFound(0)));
    assert_eq!(writer.write_sample(2, &Sample::default()), Err(Error::TrakNotFound(2)));
    let file = writer.finish().unwrap();
    assert_eq!(Movie::open(&file).unwrap().sample_count(1), Ok(0));
}

#[test]
fn a_movie_with_a_chunk_for_each_sample_is_written() {
    let mut writer = Writer::new(&MovieConfig::default());
    let id = writer.add_track(&TrackConfig { timescale: 1, ..TrackConfig::text() }).unwrap();
    for number in 0..3000u32 {
        let sample = Sample {
            duration: 1 + number % 2, // a chunk, and an entry of each table, for each sample
            rendering_offset: (number % 2) as i32,
            is_sync: true,
            bytes: &[1],
            ..Sample::default()
        };
        writer.write_sample(id, &sample).unwrap();
    }
    let file = writer.finish().unwrap();
    assert_eq!(Movie::open(&file).unwrap().samples(id).unwrap().count(), 3000);
}

#[test]
fn a_text_begins_with_its_length() {
    let mut writer = Writer::new(&MovieConfig::default());
    let id = writer.add_track(&TrackConfig::text()).unwrap();
    assert_eq!(writer.write_text(id, "\u{f6}", 1000), Ok(()));
    assert_eq!(writer.write_text(id, "", 500), Ok(()));
    assert_eq!(writer.write_text(id, &"x".repeat(65_536), 500), Err(Error::Unrepresentable));
    assert_eq!(writer.write_text(2, "x", 500), Err(Error::TrakNotFound(2)));
    let file = writer.finish().unwrap();
    let movie = Movie::open(&file).unwrap();
    let samples: Vec<_> = movie.samples(id).unwrap().map(Result::unwrap).collect();
    let bytes: Vec<_> = samples.iter().map(|sample| sample.bytes).collect();
    assert_eq!(bytes, [b"\0\x02\xc3\xb6".as_slice(), b"\0\0"]);
    assert!(samples.iter().all(|sample| sample.is_sync));
}

#[test]
fn a_refused_end_names_its_part_and_gives_the_writer_back() {
    let mut writer = Writer::new(&MovieConfig { timescale: u32::MAX, ..MovieConfig::default() });
    let id = writer.add_track(&TrackConfig { timescale: 1, ..TrackConfig::text() }).unwrap();
    for _ in 0..2 {
        let sample = Sample { duration: u32::MAX, ..Sample::default() };
        writer.write_sample(id, &sample).unwrap();
    }
    let refused = writer.finish().unwrap_err();
    assert_eq!(refused.error, Error::TooLarge(Limit::TrackDuration));
    assert_eq!(refused.part, Part::Sample(1));
    assert_eq!(refused.to_string(), "the sample at 1: too large: track duration");
    let again = refused.into_writer().finish().unwrap_err();
    assert_eq!(Error::from(again), Error::TooLarge(Limit::TrackDuration));
}

#[test]
fn kinds_and_profiles_have_names() {
    let mut writer = Writer::new(&MovieConfig::default());
    five_kinds().iter().for_each(|config| assert!(writer.add_track(config).is_ok()));
    let file = writer.finish().unwrap();
    let movie = Movie::open(&file).unwrap();
    let kinds: Vec<String> =
        movie.tracks().iter().map(|track| track.track_type().unwrap().to_string()).collect();
    assert_eq!(kinds, ["Video", "Video", "Video", "Audio", "Subtitle"]);
    let media: Vec<String> =
        movie.tracks().iter().map(|track| track.media_type().unwrap().to_string()).collect();
    assert_eq!(media, ["h264", "h265", "vp9", "aac", "ttxt"]);
    assert_eq!(movie.track(1).unwrap().video_profile().unwrap().to_string(), "High");
}

#[test]
fn the_bytes_of_a_sample_are_not_printed() {
    let sample = Sample { bytes: b"abc", ..Sample::default() };
    let text = format!("{sample:?}");
    assert!(text.ends_with("is_sync: false, bytes: 3 bytes }"), "{text}");
}

#[test]
fn threads_share_a_movie() {
    let file = numbers(3000);
    let movie = Movie::open(&file).unwrap();
    thread::scope(|scope| {
        for _ in 0..8 {
            scope.spawn(|| assert_eq!(movie.samples(1).unwrap().flatten().count(), 3000));
        }
    });
}

#[test]
fn a_movie_may_own_its_bytes() {
    fn opened() -> Movie {
        Movie::open(numbers(3)).unwrap()
    }
    let movie = opened();
    assert_eq!(movie.samples(1).unwrap().count(), 3);
    assert_eq!(movie.into_file(), numbers(3));
    let shared: Arc<[u8]> = numbers(3).into();
    let movies = [Movie::open(shared.clone()).unwrap(), Movie::open(shared).unwrap()];
    assert!(movies.iter().all(|movie| movie.read_sample(1, 3).unwrap().unwrap().bytes == b"3"));
    let movie = read_mp4(&numbers(2)[..]).unwrap();
    assert_eq!(movie.sample_count(1), Ok(2));
    let absent = read_mp4(Absent).err();
    assert_eq!(absent, Some(Error::IoError(ErrorKind::NotFound)));
}

/// A file that can't be read and can't be written.
struct Absent;

impl io::Read for Absent {
    fn read(&mut self, _: &mut [u8]) -> io::Result<usize> {
        Err(ErrorKind::NotFound.into())
    }
}

impl io::Write for Absent {
    fn write(&mut self, _: &[u8]) -> io::Result<usize> {
        Err(ErrorKind::NotFound.into())
    }

    fn flush(&mut self) -> io::Result<()> {
        Ok(())
    }
}

#[test]
fn a_movie_is_written_to_any_sink() {
    let writer = || {
        let mut writer = Writer::new(&MovieConfig::default());
        let id = writer.add_track(&TrackConfig::text()).unwrap();
        writer.write_text(id, "text", 1000).unwrap();
        writer
    };
    let mut bytes = b"before".to_vec();
    writer().finish_to(&mut bytes).unwrap();
    let file = writer().finish().unwrap();
    assert_eq!(bytes[6..], file);
    let refused = writer().finish_to(&mut Absent).unwrap_err();
    assert_eq!((refused.error, refused.part), (Error::IoError(ErrorKind::NotFound), Part::End));
    assert_eq!(refused.into_writer().finish().unwrap(), file);
    assert_eq!(
        fs::read("/none/such").map_err(Error::from),
        Err(Error::IoError(ErrorKind::NotFound))
    );
}

#[test]
fn a_list_finds_each_sample_at_once() {
    let file = numbers(20_000);
    let movie = Movie::open(&file).unwrap();
    let list = movie.sample_list(1).unwrap();
    assert_eq!((list.len(), list.iter().len(), list.refusal()), (20_000, 20_000, None));
    assert_eq!(list.get(19_999).unwrap().unwrap().bytes, b"20000");
    assert!(list.get(20_000).is_none() && !list.is_empty());
    assert_eq!(list.iter().nth(4_999).unwrap().unwrap().bytes, b"5000");
    assert_eq!(list.iter().next_back().unwrap().unwrap().bytes, b"20000");
    assert!(list.into_iter().eq(movie.samples(1).unwrap()));
    assert_eq!(format!("{list:?}"), "SampleList { len: 20000, .. }");
}

#[test]
fn a_list_ends_before_a_refused_sample() {
    let mut file = numbers(12);
    let table = file.windows(4).rposition(|kind| kind == b"stsc").unwrap();
    file[table + 19] = 0; // the samples of each chunk
    let movie = Movie::open(&file).unwrap();
    let list = movie.sample_list(1).unwrap();
    assert_eq!((list.len(), list.refusal()), (0, Some(Error::InvalidData(""))));
    assert_eq!(movie.read_sample(1, 1), Err(Error::InvalidData("")));
    assert_eq!(movie.sample_at(1, 0), Ok(Some(1)));
    assert_eq!(movie.sync_sample_at_or_before(1, 5), Ok(Some(5)));
}

#[test]
fn a_list_ends_where_the_samples_do() {
    let mut file = numbers(12);
    let table = file.windows(4).rposition(|kind| kind == b"stsc").unwrap();
    file[table + 19] = 5; // the samples of each chunk, of which there is one
    let movie = Movie::open(&file).unwrap();
    let list = movie.sample_list(1).unwrap();
    assert_eq!((list.len(), list.refusal()), (5, None));
    assert_eq!(movie.read_sample(1, 6), Ok(None));
    assert_eq!(movie.sync_sample_at_or_before(1, 9), Ok(Some(9)));
}

#[test]
fn the_header_says_when_a_movie_was_made() {
    let mut file = numbers(1);
    let header = file.windows(4).position(|kind| kind == b"mvhd").unwrap() + 4;
    file[header + 4..header + 8].copy_from_slice(&3_000_000_000u32.to_be_bytes());
    file[header + 8..header + 12].copy_from_slice(&7u32.to_be_bytes());
    let movie = Movie::open(file).unwrap();
    assert_eq!((movie.creation_time(), movie.modification_time()), (3_000_000_000, 7));
    assert_eq!(movie.header_version(), 0);
    assert_eq!(movie.track(1).unwrap().time_of(1500), Ok(Duration::from_millis(1500)));
}

/// Where a box of this type begins for the first time.
fn place_of(file: &[u8], kind: &[u8; 4]) -> usize {
    file.windows(4).position(|bytes| bytes == kind).unwrap() - 4
}

#[test]
fn a_movie_box_that_moved_has_the_samples_that_it_had() {
    let file = numbers(2000);
    let moved = move_to_front(&file).unwrap();
    assert!(place_of(&file, b"mdat") < place_of(&file, b"moov"));
    assert!(place_of(&moved, b"moov") < place_of(&moved, b"mdat"));
    let (before, after) = (Movie::open(&file).unwrap(), Movie::open(&moved).unwrap());
    let texts = |movie: &Movie<_>| -> Vec<Vec<u8>> {
        movie.samples(1).unwrap().map(|sample| sample.unwrap().bytes.to_vec()).collect()
    };
    assert_eq!(texts(&after), texts(&before));
    assert_eq!(move_to_front(&moved), Ok(moved.clone()));
}

/// A movie of one text track, whose two samples are in a fragment (ISO/IEC 14496-12, 8.8).
fn fragmented() -> Vec<u8> {
    let words = |numbers: &[u32]| numbers.iter().flat_map(|n| n.to_be_bytes()).collect::<Vec<u8>>();
    let added = boxed(b"mvex", &boxed(b"trex", &words(&[0, 1, 1, 0, 0, 0])));
    let mut file = numbers(0);
    let movie = place_of(&file, b"moov");
    let size = u32::try_from(file.len() - movie + added.len()).unwrap();
    file[movie..movie + 4].copy_from_slice(&size.to_be_bytes());
    let head = boxed(b"mfhd", &words(&[0, 1]));
    let track = boxed(b"tfhd", &words(&[0x2_0000, 1])); // places count from the moof
    let run = boxed(b"trun", &words(&[0x301, 2, 92, 500, 3, 700, 4])); // durations and sizes
    let moof = boxed(b"moof", &[head, boxed(b"traf", &[track, run].concat())].concat());
    [file, added, moof, boxed(b"mdat", b"onetwo.")].concat()
}

#[test]
fn fragments_are_gathered() {
    let file = fragmented();
    let film = gather(&file).unwrap();
    for file in [&file, &film] {
        let movie = Movie::open(file).unwrap();
        let samples: Vec<_> = movie.samples(1).unwrap().map(Result::unwrap).collect();
        assert_eq!(samples.iter().map(|one| one.bytes).collect::<Vec<_>>(), [&b"one"[..], b"two."]);
        assert_eq!(samples[1].start_time, 500);
    }
    assert!(Movie::open(&file).unwrap().is_fragmented());
    assert!(!Movie::open(&film).unwrap().is_fragmented());
    assert_eq!(gather(&film), Ok(film));
}

#[test]
fn tracks_are_chosen() {
    let mut writer = Writer::new(&MovieConfig::default());
    for text in ["one", "two", "three"] {
        let id = writer.add_track(&TrackConfig::text()).unwrap();
        writer.write_text(id, text, 1000).unwrap();
    }
    let file = writer.finish().unwrap();
    let chosen = choose(&file, &[3, 1]).unwrap();
    let movie = Movie::open(&chosen).unwrap();
    assert_eq!(movie.tracks().iter().map(|track| track.id()).collect::<Vec<_>>(), [1, 3]);
    assert_eq!(movie.read_sample(3, 1).unwrap().unwrap().bytes, b"\0\x05three");
    assert_eq!(choose(&file, &[1, 4]), Err(Error::TrakNotFound(4)));
}

#[test]
fn a_refused_move_says_why() {
    let file = numbers(3);
    let ftyp = FourCC::from(*b"ftyp");
    let twice = [&file[..], &file[..place_of(&file, b"mdat")]].concat();
    assert_eq!(move_to_front(&twice), Err(Error::Twice(ftyp)));
    let index = [&file[..], &boxed(b"sidx", &[0; 8])].concat();
    let sidx = FourCC::from(*b"sidx");
    assert_eq!(move_to_front(&index), Err(Error::SaysPlaces(sidx, file.len() as u64)));
    let larger = Error::InvalidData("a box is larger than the file");
    assert_eq!(move_to_front(b"\0\0\x01\0free"), Err(larger));
}
