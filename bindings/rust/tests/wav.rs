//! The module `wav` against document 01: its whole case, each refusal by name and number, and samples on
//! each side of an edge.

use sedhavil::wav::{HEADER, Header, Refusal, frames_in, frames_out};

/// Document 01's whole case, of 52 bytes.
const FILE: [u8; 52] = [
    0x52, 0x49, 0x46, 0x46, 0x2C, 0x00, 0x00, 0x00, 0x57, 0x41, 0x56, 0x45, 0x66, 0x6D, 0x74, 0x20, 0x10,
    0x00, 0x00, 0x00, 0x01, 0x00, 0x02, 0x00, 0x80, 0xBB, 0x00, 0x00, 0x00, 0xEE, 0x02, 0x00, 0x04, 0x00,
    0x10, 0x00, 0x64, 0x61, 0x74, 0x61, 0x08, 0x00, 0x00, 0x00, 0x00, 0x40, 0x00, 0xC0, 0xFF, 0x7F, 0x00,
    0x80,
];

/// Its header with other bytes at some places, for rates up to `most`.
fn read(changed: &[(usize, u8)], most: u32) -> Result<Header, Refusal> {
    let mut file = FILE;
    for &(at, byte) in changed {
        file[at] = byte;
    }
    Header::read(&file, most)
}

fn told(header: Header) -> (u32, u32) {
    (header.rate, header.size)
}

#[test]
fn headers() {
    assert_eq!(read(&[], 192_000).map(told), Ok((48_000, 8)));
    assert_eq!(Header::read(&FILE[..HEADER], 48_000).map(told), Ok((48_000, 8)));
    assert_eq!(read(&[], 47_999), Err(Refusal::Rate));
    assert_eq!(Header::read(&FILE[..43], 0), Err(Refusal::Short));
    assert_eq!(Header::read(&[], 192_000), Err(Refusal::Short));
    // the names before the rate, RIFF's size, fmt's size
    assert_eq!(read(&[(0, 0x53)], 0), Err(Refusal::Names));
    assert_eq!(read(&[(4, 0x2B)], 192_000), Err(Refusal::Names));
    assert_eq!(read(&[(16, 0x12)], 192_000), Err(Refusal::Names));
    // the tag before the rate, one channel, the byte rate
    assert_eq!(read(&[(20, 0x03)], 0), Err(Refusal::Format));
    assert_eq!(read(&[(22, 0x01)], 192_000), Err(Refusal::Format));
    assert_eq!(read(&[(28, 0x01)], 192_000), Err(Refusal::Format));
    // 10 bytes of data, the rate before them
    assert_eq!(read(&[(4, 0x2E), (40, 0x0A)], 47_999), Err(Refusal::Rate));
    assert_eq!(read(&[(4, 0x2E), (40, 0x0A)], 48_000), Err(Refusal::Size));
}

#[test]
fn numbers() {
    let refusals = [Refusal::Names, Refusal::Format, Refusal::Rate, Refusal::Size, Refusal::Short];
    assert_eq!(refusals.map(Refusal::number), [21, 22, 23, 24, 25]);
    assert_eq!(Refusal::Format.to_string(), "refusal 22: not 16-bit stereo PCM");
}

/// The data of the whole case, in and out; what lies past the frames is as it was.
#[test]
fn frames() {
    let data = &FILE[HEADER..];
    let mut samples = [7.0; 5];
    assert_eq!(frames_in(data, &mut samples), 2);
    assert_eq!(samples, [0.5, -0.5, 32_767.0 / 32_768.0, -1.0, 7.0]);
    let mut bytes = [0x55; 11];
    assert_eq!(frames_out(&samples, &mut bytes), 2);
    assert_eq!(bytes[..8], *data);
    assert_eq!(bytes[8..], [0x55; 3]);
    assert_eq!(frames_in(&data[..7], &mut samples), 1);
    assert_eq!(frames_out(&samples, &mut bytes[..7]), 1);
    assert_eq!(frames_in(data, &mut samples[..1]), 0);
    assert_eq!(frames_in(&[], &mut []), 0);
}

/// Ties to even, clamped to 16 bits, NaN as 0: the samples are given as 32768 x.
#[test]
fn samples_out() {
    let table: [(f32, i16); 12] = [
        (0.5, 0),
        (1.5, 2),
        (2.5, 2),
        (-0.5, 0),
        (-1.5, -2),
        (0.75, 1),
        (32_766.5, 32_766),
        (32_768.0, 32_767),
        (-32_769.0, -32_768),
        (f32::INFINITY, 32_767),
        (f32::NEG_INFINITY, -32_768),
        (f32::NAN, 0),
    ];
    let samples = table.map(|(steps, _)| steps / 32_768.0);
    let mut bytes = [0x55; 24];
    assert_eq!(frames_out(&samples, &mut bytes), 6);
    for ((steps, s), two) in table.into_iter().zip(bytes.chunks(2)) {
        assert_eq!(i16::from_le_bytes([two[0], two[1]]), s, "{steps}");
    }
}

/// s / 32768 is exact, so every 16-bit number comes back as it was.
#[test]
fn every_sample() {
    let all: Vec<u8> = (i16::MIN..=i16::MAX).flat_map(i16::to_le_bytes).collect();
    let mut samples = vec![0.0; 65_536];
    assert_eq!(frames_in(&all, &mut samples), 32_768);
    for (s, x) in (i16::MIN..=i16::MAX).zip(&samples) {
        assert_eq!(x.to_bits(), (f32::from(s) / 32_768.0).to_bits(), "{s}");
    }
    let mut bytes = vec![0; all.len()];
    assert_eq!(frames_out(&samples, &mut bytes), 32_768);
    assert_eq!(bytes, all);
}
