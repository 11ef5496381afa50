//! WAV files of 16-bit stereo samples, by their bytes: the header, and frames in and out.
//!
//! ```
//! use sedhavil::wav::{self, Header};
//!
//! # let file = *b"RIFF\x2c\0\0\0WAVEfmt \x10\0\0\0\x01\0\x02\0\x80\xbb\0\0\0\xee\x02\0\x04\0\x10\0data\x08\0\0\0\0\x40\0\xc0\xff\x7f\0\x80";
//! let (header, data) = file.split_at(wav::HEADER);
//! let header = Header::read(header, 192_000)?;
//! assert_eq!((header.rate, header.size), (48_000, 8));
//! let mut samples = [0.0; 4];
//! assert_eq!(wav::frames_in(data, &mut samples), 2);
//! assert_eq!(samples, [0.5, -0.5, 32_767.0 / 32_768.0, -1.0]);
//! # Ok::<(), wav::Refusal>(())
//! ```

use crate::face;
use std::{error, fmt};

/// How many bytes a header has. The data follow.
pub const HEADER: usize = 44;

/// What a header says.
#[derive(Clone, Copy, Debug, PartialEq, Eq, Hash)]
#[non_exhaustive]
pub struct Header {
    /// The rate, in frames a second.
    pub rate: u32,
    /// How many bytes of data are to come.
    pub size: u32,
}

impl Header {
    /// Reads what the first 44 bytes say, for a program that takes rates up to `highest`.
    pub fn read(bytes: &[u8], highest: u32) -> Result<Self, Refusal> {
        let face::WavHeader { number, rate, size } = face::wav_header(bytes, highest);
        match number {
            0 => Ok(Header { rate, size }),
            _ => Err(Refusal::of(number)),
        }
    }
}

/// Why a header is not read: the first reason, `Short` before all others, which are in order.
#[derive(Clone, Copy, Debug, PartialEq, Eq, Hash)]
#[non_exhaustive]
pub enum Refusal {
    /// Refusal 21: a chunk name is wrong, fmt's size is not 16, or RIFF's is not that of the data + 36.
    Names = 21,
    /// Refusal 22: it is not tag 1, two channels, 16 bits, blocks of 4 and a byte rate of 4 times the rate.
    Format = 22,
    /// Refusal 23: the rate is below 8,000, above 192,000 or above the one asked for.
    Rate = 23,
    /// Refusal 24: the size of the data is not a multiple of 4.
    Size = 24,
    /// Refusal 25: there are fewer than 44 bytes.
    Short = 25,
}

impl Refusal {
    const ALL: [Refusal; 5] = [Refusal::Names, Refusal::Format, Refusal::Rate, Refusal::Size, Refusal::Short];

    /// The number that the specification gives this refusal.
    pub fn number(self) -> u32 {
        self as u32
    }

    fn of(number: u32) -> Self {
        let found = Refusal::ALL.into_iter().find(|refusal| refusal.number() == number);
        found.unwrap_or_else(|| unreachable!("a header's answer {number}"))
    }
}

impl fmt::Display for Refusal {
    fn fmt(&self, f: &mut fmt::Formatter<'_>) -> fmt::Result {
        write!(f, "refusal {}: ", self.number())?;
        f.write_str(match self {
            Refusal::Names => "a chunk name or a chunk's size is wrong",
            Refusal::Format => "not 16-bit stereo PCM",
            Refusal::Rate => "the rate is out of range",
            Refusal::Size => "the size of the data is not a multiple of 4",
            Refusal::Short => "there are fewer than 44 bytes",
        })
    }
}

impl error::Error for Refusal {}

/// Turns bytes into samples, each s / 32768: as many whole frames as both sides have room for, and gives
/// their number. What lies past them stays as it was.
pub fn frames_in(bytes: &[u8], samples: &mut [f32]) -> usize {
    face::frames_in(bytes, samples)
}

/// Turns samples into bytes in the same way: each becomes the nearest whole number to 32768 x, ties to even,
/// clamped to -32768..32767, and NaN becomes 0.
pub fn frames_out(samples: &[f32], bytes: &mut [u8]) -> usize {
    face::frames_out(samples, bytes)
}
