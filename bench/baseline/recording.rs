//! Recordings in the form of rtpdump.

use crate::wire::MOST_PACKET;

/// How many octets a recording may have, and one of more than 16.
pub const LIMIT: usize = 4_194_304;
pub const LIMIT_OF_MANY: usize = 1_048_576;
const LAST_MOMENT: u32 = 14_400_000;
const MAGIC: &[u8] = b"#!rtpplay1.0 ";

/// How a recording that is written begins, and how many octets stand before each packet.
pub const OPENING: &[u8] = b"#!rtpplay1.0 127.0.0.1/5004\n\0\0\0\0\0\0\0\0\x7F\0\0\x01\x13\x8C\0\0";
pub const RECORD_HEAD: usize = 8;

#[derive(Debug)]
pub enum Kind {
    NotDump,
    BadLength,
    EndsInside,
    TooLong,
    TooLarge,
}

/// Where the first record begins.
fn opening(octets: &[u8]) -> Result<usize, (usize, Kind)> {
    let line = octets[..octets.len().min(128)].iter().position(|&octet| octet == b'\n');
    match line {
        Some(end) if octets.starts_with(MAGIC) => {
            if octets.len() < end + 1 + 16 {
                Err((end + 1, Kind::EndsInside))
            } else {
                Ok(end + 1 + 16)
            }
        }
        _ => Err((0, Kind::NotDump)),
    }
}

/// Tells each packet with its time, or the byte at which the recording has no reading. RTCP, and packets that are too large
/// or that were cut, are passed over.
#[inline]
pub fn read<'a>(octets: &'a [u8], limit: usize, mut tell: impl FnMut(u32, &'a [u8])) -> Result<(), (usize, Kind)> {
    let mut at = opening(octets)?;
    while at < octets.len() {
        let Some(head) = octets[at..].first_chunk::<RECORD_HEAD>() else { return Err((at, Kind::EndsInside)) };
        let length = usize::from(u16::from_be_bytes([head[0], head[1]]));
        let size = usize::from(u16::from_be_bytes([head[2], head[3]]));
        let time = u32::from_be_bytes([head[4], head[5], head[6], head[7]]);
        if length < RECORD_HEAD {
            return Err((at, Kind::BadLength));
        }
        let end = at + length;
        if end > limit {
            return Err((at, Kind::TooLarge));
        }
        if end > octets.len() {
            return Err((at, Kind::EndsInside));
        }
        if time > LAST_MOMENT {
            return Err((at, Kind::TooLong));
        }
        if size > 0 && size <= length - RECORD_HEAD && size <= MOST_PACKET {
            tell(time, &octets[at + RECORD_HEAD..at + RECORD_HEAD + size]);
        }
        at = end;
    }
    Ok(())
}
