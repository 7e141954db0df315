//! What movies and tracks are begun with.

use crate::{AudioObjectType, ChannelConfig, FourCC, SampleFreqIndex};

/// What a movie is begun with.
#[derive(Clone, Debug, PartialEq, Eq, Hash)]
pub struct MovieConfig {
    /// The specification that the file follows first of all.
    pub major_brand: FourCC,
    /// The version of the major brand.
    pub minor_version: u32,
    /// All specifications that the file follows.
    pub compatible_brands: Vec<FourCC>,
    /// Ticks in a second, of the movie's durations.
    pub timescale: u32,
}

/// `isom`, version 512, compatible with `isom`, `iso2`, `avc1` and `mp41`; 1000 ticks in a second.
impl Default for MovieConfig {
    fn default() -> Self {
        MovieConfig {
            major_brand: FourCC::from(*b"isom"),
            minor_version: 512,
            compatible_brands: [*b"isom", *b"iso2", *b"avc1", *b"mp41"].map(FourCC::from).to_vec(),
            timescale: 1000,
        }
    }
}

/// What a track is added with.
#[derive(Clone, Debug, PartialEq, Eq, Hash)]
pub struct TrackConfig {
    /// Ticks in a second, of the track's times; not 0.
    pub timescale: u32,
    /// Three characters of U+0060 to U+007F, as the small letters of ISO 639-2/T.
    pub language: String,
    /// How its samples are coded.
    pub media: MediaConfig,
}

/// How the samples of a track are coded.
#[derive(Clone, Debug, PartialEq, Eq, Hash)]
pub enum MediaConfig {
    /// AVC video, `avc1`.
    Avc(AvcConfig),
    /// HEVC video, `hev1`, which is written without parameter sets: they have to be in the samples,
    /// so a track of a file that has them in its hvcC alone isn't to be copied.
    Hevc(PictureSize),
    /// VP9 video, `vp09`.
    Vp9(PictureSize),
    /// AAC sound, `mp4a`.
    Aac(AacConfig),
    /// Timed text, `tx3g`; [`Writer::write_text`](crate::Writer::write_text) writes its samples.
    Text,
}

/// AVC video.
#[derive(Clone, Debug, Default, PartialEq, Eq, Hash)]
pub struct AvcConfig {
    /// Pixels.
    pub width: u16,
    /// Pixels.
    pub height: u16,
    /// The sequence parameter set: 4 to 65,535 bytes.
    pub seq_param_set: Vec<u8>,
    /// The picture parameter set: at most 65,535 bytes.
    pub pic_param_set: Vec<u8>,
}

/// The size of pictures.
#[derive(Clone, Copy, Debug, Default, PartialEq, Eq, Hash)]
pub struct PictureSize {
    /// Pixels.
    pub width: u16,
    /// Pixels.
    pub height: u16,
}

/// AAC sound (ISO/IEC 14496-3).
#[derive(Clone, Copy, Debug, PartialEq, Eq, Hash)]
pub struct AacConfig {
    /// Bits in a second.
    pub bitrate: u32,
    /// The audio object type, by a number of at most 30: others aren't written.
    pub profile: AudioObjectType,
    /// The sampling frequency.
    pub freq_index: SampleFreqIndex,
    /// The channels.
    pub chan_conf: ChannelConfig,
}

/// AAC LC, 48000 Hz, stereo.
impl Default for AacConfig {
    fn default() -> Self {
        AacConfig {
            bitrate: 0,
            profile: AudioObjectType::AacLowComplexity,
            freq_index: SampleFreqIndex::Freq48000,
            chan_conf: ChannelConfig::Stereo,
        }
    }
}

impl TrackConfig {
    /// 1000 ticks in a second, and the language `und`, which is none.
    pub fn new(media: MediaConfig) -> Self {
        TrackConfig { timescale: 1000, language: "und".to_owned(), media }
    }

    /// A track of timed text, as [`TrackConfig::new`] makes it.
    pub fn text() -> Self {
        Self::new(MediaConfig::Text)
    }
}

impl From<MediaConfig> for TrackConfig {
    fn from(media: MediaConfig) -> Self {
        Self::new(media)
    }
}

impl From<AvcConfig> for TrackConfig {
    fn from(config: AvcConfig) -> Self {
        Self::new(MediaConfig::Avc(config))
    }
}

impl From<AacConfig> for TrackConfig {
    fn from(config: AacConfig) -> Self {
        Self::new(MediaConfig::Aac(config))
    }
}

impl MediaConfig {
    /// The type of the sample entry.
    pub fn sample_entry(&self) -> FourCC {
        FourCC::from(match self {
            MediaConfig::Avc(_) => *b"avc1",
            MediaConfig::Hevc(_) => *b"hev1",
            MediaConfig::Vp9(_) => *b"vp09",
            MediaConfig::Aac(_) => *b"mp4a",
            MediaConfig::Text => *b"tx3g",
        })
    }

    /// The width and the height of the pictures.
    pub(crate) fn picture_size(&self) -> (u16, u16) {
        match self {
            MediaConfig::Avc(avc) => (avc.width, avc.height),
            MediaConfig::Hevc(size) | MediaConfig::Vp9(size) => (size.width, size.height),
            MediaConfig::Aac(_) | MediaConfig::Text => (0, 0),
        }
    }
}
