//! What a file says of a track.

use crate::layout::TrackRow;
use crate::movie::duration_of;
use crate::{AudioObjectType, ChannelConfig, FourCC, Result, SampleFreqIndex};
use std::fmt;
use std::time::Duration;

/// The kind of a track, by its handler.
#[derive(Clone, Copy, Debug, PartialEq, Eq, Hash)]
pub enum TrackType {
    /// Pictures, `vide`.
    Video,
    /// Sound, `soun`.
    Audio,
    /// Text, `sbtl`.
    Subtitle,
}

/// How the samples of a track are coded, by its sample entry.
#[derive(Clone, Copy, Debug, PartialEq, Eq, Hash)]
pub enum MediaType {
    /// AVC video, `avc1`.
    H264,
    /// HEVC video, `hev1`.
    H265,
    /// VP9 video, `vp09`.
    VP9,
    /// AAC sound, `mp4a`.
    AAC,
    /// Timed text, `tx3g`.
    TTXT,
}

/// What the decoder of AVC video has to support.
#[derive(Clone, Copy, Debug, PartialEq, Eq, Hash)]
pub struct AvcProfile {
    /// The profile: 66 is Baseline, 77 Main, 88 Extended, 100 High.
    pub profile: u8,
    /// The constraint flags beside the profile.
    pub compatibility: u8,
    /// Ten times the level.
    pub level: u8,
}

impl fmt::Display for TrackType {
    fn fmt(&self, f: &mut fmt::Formatter) -> fmt::Result {
        f.write_str(match self {
            TrackType::Video => "Video",
            TrackType::Audio => "Audio",
            TrackType::Subtitle => "Subtitle",
        })
    }
}

impl fmt::Display for MediaType {
    fn fmt(&self, f: &mut fmt::Formatter) -> fmt::Result {
        f.write_str(match self {
            MediaType::H264 => "h264",
            MediaType::H265 => "h265",
            MediaType::VP9 => "vp9",
            MediaType::AAC => "aac",
            MediaType::TTXT => "ttxt",
        })
    }
}

/// The name of the profile (ISO/IEC 14496-10, Annex A), or its number where it has no name here.
impl fmt::Display for AvcProfile {
    fn fmt(&self, f: &mut fmt::Formatter) -> fmt::Result {
        match (self.profile, self.compatibility & 0x40) {
            (66, 0x40) => f.write_str("Constrained Baseline"),
            (66, _) => f.write_str("Baseline"),
            (77, _) => f.write_str("Main"),
            (88, _) => f.write_str("Extended"),
            (100, _) => f.write_str("High"),
            (profile, _) => write!(f, "profile {profile}"),
        }
    }
}

/// What a file says of a track. What it may not say is an [`Option`].
#[derive(Clone, Debug, PartialEq, Eq)]
pub struct Track {
    row: TrackRow,
    language: String,
}

/// A value, if its mark is set.
fn marked<T>(mark: u8, value: T) -> Option<T> {
    (mark != 0).then_some(value)
}

impl Track {
    /// What a row of the library says.
    pub(crate) fn new(row: TrackRow) -> Self {
        let language = String::from_utf8_lossy(&row.language[..3]).into_owned();
        Track { row, language }
    }

    /// The number that names the track.
    pub fn id(&self) -> u32 {
        self.row.id
    }

    /// What the track is for: `vide`, `soun`, `sbtl` or another.
    pub fn handler(&self) -> FourCC {
        self.row.handler.into()
    }

    /// The kind of the track; [`None`] for another handler.
    pub fn track_type(&self) -> Option<TrackType> {
        match &self.row.handler {
            b"vide" => Some(TrackType::Video),
            b"soun" => Some(TrackType::Audio),
            b"sbtl" => Some(TrackType::Subtitle),
            _ => None,
        }
    }

    /// The type of the sample entry: the first that is there of avc1, hev1, vp09, mp4a and tx3g.
    pub fn sample_entry(&self) -> Option<FourCC> {
        marked(self.row.has_sample_entry, self.row.sample_entry.into())
    }

    /// How the samples are coded; [`None`] for another sample entry.
    pub fn media_type(&self) -> Option<MediaType> {
        match &self.sample_entry()?.value {
            b"avc1" => Some(MediaType::H264),
            b"hev1" => Some(MediaType::H265),
            b"vp09" => Some(MediaType::VP9),
            b"mp4a" => Some(MediaType::AAC),
            b"tx3g" => Some(MediaType::TTXT),
            _ => None,
        }
    }

    /// Ticks in a second, of the track's times. It may be 0.
    pub fn timescale(&self) -> u32 {
        self.row.timescale
    }

    /// How long the track lasts, in ticks, as its media header says: without fragments.
    pub fn duration_in_ticks(&self) -> u64 {
        self.row.duration
    }

    /// How long the track lasts, as its media header says, rounded down to a nanosecond.
    /// [`ZeroTimescale`](crate::Error::ZeroTimescale) where the timescale is 0.
    pub fn duration(&self) -> Result<Duration> {
        self.time_of(self.row.duration)
    }

    /// The language: three letters of ISO 639-2/T.
    pub fn language(&self) -> &str {
        &self.language
    }

    /// How many samples it has, those of fragments too; [`None`] where they are more than 2^32 - 1.
    pub fn sample_count(&self) -> Option<u32> {
        marked(self.row.has_sample_count, self.row.sample_count)
    }

    /// The width of its pictures, in pixels.
    pub fn width(&self) -> u16 {
        self.row.width
    }

    /// The height of its pictures, in pixels.
    pub fn height(&self) -> u16 {
        self.row.height
    }

    /// Samples in a second, rounded down to a whole number.
    pub fn frame_rate(&self) -> Option<f64> {
        marked(self.row.has_frames_per_second, self.row.frames_per_second as f64)
    }

    /// Bits in a second: the average that the sample entry says, or that of the samples.
    pub fn bitrate(&self) -> Option<u32> {
        marked(self.row.has_bits_per_second, self.row.bits_per_second)
    }

    /// Of AVC video, what its decoder has to support.
    pub fn video_profile(&self) -> Option<AvcProfile> {
        let profile = AvcProfile {
            profile: self.row.video_profile,
            compatibility: self.row.video_compatibility,
            level: self.row.video_level,
        };
        marked(self.row.has_video_profile, profile)
    }

    /// Of AAC sound, its audio object type, which says how it is coded.
    pub fn audio_profile(&self) -> Option<AudioObjectType> {
        marked(self.row.has_audio_profile, self.row.audio_profile)?.try_into().ok()
    }

    /// Of AAC sound, its sampling frequency.
    pub fn sample_freq_index(&self) -> Option<SampleFreqIndex> {
        marked(self.row.has_frequency_index, self.row.frequency_index)?.try_into().ok()
    }

    /// Of AAC sound, its sampling frequency in hertz.
    pub fn sampling_frequency(&self) -> Option<u32> {
        self.sample_freq_index().map(SampleFreqIndex::freq)
    }

    /// Of AAC sound, its channels.
    pub fn channel_config(&self) -> Option<ChannelConfig> {
        marked(self.row.has_channels, self.row.channels)?.try_into().ok()
    }

    /// How long so many ticks of the track last, rounded down to a nanosecond: of a sample's
    /// `start_time`, its time from the beginning.
    /// [`ZeroTimescale`](crate::Error::ZeroTimescale) where the timescale is 0.
    pub fn time_of(&self, ticks: u64) -> Result<Duration> {
        duration_of(ticks, self.row.timescale)
    }
}
