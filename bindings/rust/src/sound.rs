//! The types, the frequencies and the channels of AAC sound, by the numbers of ISO/IEC 14496-3.

use crate::Error;
use std::fmt;

/// The type of coded sound, by its number: 1 to 95 without 31 (1.5.1).
///
/// It is a number with names, so that a type that has no name here is read all the same:
///
/// ```
/// use maqelsun::AudioObjectType;
///
/// let profile = AudioObjectType::try_from(2)?;
/// assert_eq!(profile, AudioObjectType::AacLowComplexity);
/// assert_eq!((profile.number(), profile.to_string().as_str()), (2, "AAC LC"));
/// # Ok::<(), maqelsun::Error>(())
/// ```
#[derive(Clone, Copy, Debug, PartialEq, Eq, Hash)]
pub struct AudioObjectType(u8);

/// Gives numbers their names, in the source and in text.
macro_rules! object_types {
    ($($name:ident = $number:literal, $text:literal;)*) => {
        #[allow(non_upper_case_globals, missing_docs)]
        impl AudioObjectType {
            $(pub const $name: AudioObjectType = AudioObjectType($number);)*
        }

        /// The name in ISO/IEC 14496-3, or the number where it has none here.
        impl fmt::Display for AudioObjectType {
            fn fmt(&self, f: &mut fmt::Formatter) -> fmt::Result {
                match self.0 {
                    $($number => f.write_str($text),)*
                    number => write!(f, "type {number}"),
                }
            }
        }
    };
}

object_types! {
    AacMain = 1, "AAC Main";
    AacLowComplexity = 2, "AAC LC";
    AacScalableSampleRate = 3, "AAC SSR";
    AacLongTermPrediction = 4, "AAC LTP";
    SpectralBandReplication = 5, "SBR";
    AacScalable = 6, "AAC Scalable";
    TwinVq = 7, "TwinVQ";
    CodeExcitedLinearPrediction = 8, "CELP";
    HarmonicVectorExcitationCoding = 9, "HVXC";
    ErrorResilientAacLowComplexity = 17, "ER AAC LC";
    ErrorResilientAacLongTermPrediction = 19, "ER AAC LTP";
    ErrorResilientAacScalable = 20, "ER AAC Scalable";
    ErrorResilientAacLowDelay = 23, "ER AAC LD";
    ParametricStereo = 29, "PS";
    MpegSurround = 30, "MPEG Surround";
    Layer1 = 32, "Layer-1";
    Layer2 = 33, "Layer-2";
    Layer3 = 34, "Layer-3";
    AudioLossless = 36, "ALS";
    ErrorResilientAacEnhancedLowDelay = 39, "ER AAC ELD";
    UnifiedSpeechAndAudioCoding = 42, "USAC";
}

impl AudioObjectType {
    /// The number, 1 to 95 and not 31.
    pub fn number(self) -> u8 {
        self.0
    }
}

/// [`Error::InvalidData`] for 0, 31 and from 96 on.
impl TryFrom<u8> for AudioObjectType {
    type Error = Error;

    fn try_from(number: u8) -> Result<Self, Error> {
        match number {
            0 | 31 | 96.. => Err(Error::InvalidData("a number of no type of sound")),
            number => Ok(AudioObjectType(number)),
        }
    }
}

/// A sampling frequency that has an index (1.6.3.4). Each is named by its hertz.
#[derive(Clone, Copy, Debug, PartialEq, Eq, Hash)]
#[allow(missing_docs)]
pub enum SampleFreqIndex {
    Freq96000,
    Freq88200,
    Freq64000,
    Freq48000,
    Freq44100,
    Freq32000,
    Freq24000,
    Freq22050,
    Freq16000,
    Freq12000,
    Freq11025,
    Freq8000,
    Freq7350,
}

/// All frequencies, by their indexes.
const FREQUENCIES: [(SampleFreqIndex, u32); 13] = [
    (SampleFreqIndex::Freq96000, 96000),
    (SampleFreqIndex::Freq88200, 88200),
    (SampleFreqIndex::Freq64000, 64000),
    (SampleFreqIndex::Freq48000, 48000),
    (SampleFreqIndex::Freq44100, 44100),
    (SampleFreqIndex::Freq32000, 32000),
    (SampleFreqIndex::Freq24000, 24000),
    (SampleFreqIndex::Freq22050, 22050),
    (SampleFreqIndex::Freq16000, 16000),
    (SampleFreqIndex::Freq12000, 12000),
    (SampleFreqIndex::Freq11025, 11025),
    (SampleFreqIndex::Freq8000, 8000),
    (SampleFreqIndex::Freq7350, 7350),
];

impl SampleFreqIndex {
    /// The index: 0 for 96,000 hertz to 12 for 7,350.
    pub fn number(self) -> u8 {
        self as u8
    }

    /// The frequency in hertz: samples in a second.
    pub fn freq(self) -> u32 {
        FREQUENCIES[self as usize].1
    }
}

/// [`Error::InvalidData`] from 13 on.
impl TryFrom<u8> for SampleFreqIndex {
    type Error = Error;

    fn try_from(number: u8) -> Result<Self, Error> {
        FREQUENCIES
            .get(usize::from(number))
            .map(|(index, _)| *index)
            .ok_or(Error::InvalidData("an index of no frequency"))
    }
}

/// As its hertz.
impl fmt::Display for SampleFreqIndex {
    fn fmt(&self, f: &mut fmt::Formatter) -> fmt::Result {
        write!(f, "{} Hz", self.freq())
    }
}

/// The channels of sound (1.6.3.5).
#[derive(Clone, Copy, Debug, PartialEq, Eq, Hash)]
pub enum ChannelConfig {
    /// 1: one channel.
    Mono = 1,
    /// 2: left and right.
    Stereo = 2,
    /// 3: centre, left and right.
    Three = 3,
    /// 4: those three, and one after.
    Four = 4,
    /// 5: those three, and two after.
    Five = 5,
    /// 6: those five, and one of low frequencies.
    FiveOne = 6,
    /// 7: those six, and two further out in front.
    SevenOne = 7,
}

impl ChannelConfig {
    /// The number, 1 to 7.
    pub fn number(self) -> u8 {
        self as u8
    }
}

/// [`Error::InvalidData`] for 0 and from 8 on.
impl TryFrom<u8> for ChannelConfig {
    type Error = Error;

    fn try_from(number: u8) -> Result<Self, Error> {
        Ok(match number {
            1 => ChannelConfig::Mono,
            2 => ChannelConfig::Stereo,
            3 => ChannelConfig::Three,
            4 => ChannelConfig::Four,
            5 => ChannelConfig::Five,
            6 => ChannelConfig::FiveOne,
            7 => ChannelConfig::SevenOne,
            _ => return Err(Error::InvalidData("a number of no channels")),
        })
    }
}

impl fmt::Display for ChannelConfig {
    fn fmt(&self, f: &mut fmt::Formatter) -> fmt::Result {
        f.write_str(match self {
            ChannelConfig::Mono => "mono",
            ChannelConfig::Stereo => "stereo",
            ChannelConfig::Three => "3.0",
            ChannelConfig::Four => "4.0",
            ChannelConfig::Five => "5.0",
            ChannelConfig::FiveOne => "5.1",
            ChannelConfig::SevenOne => "7.1",
        })
    }
}

#[cfg(test)]
mod tests {
    use super::*;

    #[test]
    fn each_number_comes_back() {
        let types =
            (0..=255).filter_map(|number| Some(AudioObjectType::try_from(number).ok()?.number()));
        assert!(types.eq((1..=95).filter(|number| *number != 31)));
        let frequencies =
            (0..=255).filter_map(|number| Some(SampleFreqIndex::try_from(number).ok()?.number()));
        assert!(frequencies.eq(0..13));
        let channels =
            (0..=255).filter_map(|number| Some(ChannelConfig::try_from(number).ok()?.number()));
        assert!(channels.eq(1..=7));
    }

    #[test]
    fn what_has_no_name_is_a_number() {
        assert_eq!(AudioObjectType::try_from(95).unwrap().to_string(), "type 95");
        assert_eq!(SampleFreqIndex::Freq7350.to_string(), "7350 Hz");
        assert_eq!(ChannelConfig::FiveOne.to_string(), "5.1");
    }
}
