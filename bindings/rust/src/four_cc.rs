//! Codes of four bytes.

use crate::Error;
use std::fmt::{self, Write};
use std::str::FromStr;

/// A code of four bytes, as brands and the types of boxes are.
///
/// ```
/// use maqelsun::FourCC;
///
/// assert_eq!(FourCC::from(*b"isom").to_string(), "isom");
/// assert_eq!("mp41".parse(), Ok(FourCC { value: *b"mp41" }));
/// ```
#[derive(Clone, Copy, Default, PartialEq, Eq, PartialOrd, Ord, Hash)]
pub struct FourCC {
    /// The bytes, in the order of the file.
    pub value: [u8; 4],
}

impl From<[u8; 4]> for FourCC {
    fn from(value: [u8; 4]) -> Self {
        FourCC { value }
    }
}

impl FromStr for FourCC {
    type Err = Error;

    /// The code of a text of four bytes; any other text is [`Error::InvalidData`].
    fn from_str(text: &str) -> Result<Self, Error> {
        match text.as_bytes().try_into() {
            Ok(value) => Ok(FourCC { value }),
            Err(_) => Err(Error::InvalidData("a code has four bytes")),
        }
    }
}

/// Four characters: a full stop for each byte that is no ASCII character that prints.
impl fmt::Display for FourCC {
    fn fmt(&self, f: &mut fmt::Formatter) -> fmt::Result {
        for byte in self.value {
            f.write_char(if matches!(byte, b' '..=b'~') { byte.into() } else { '.' })?;
        }
        Ok(())
    }
}

impl fmt::Debug for FourCC {
    fn fmt(&self, f: &mut fmt::Formatter) -> fmt::Result {
        write!(f, "'{self}'")
    }
}
