//! Packets of text: RTP (RFC 3550) with `text/t140` or `text/red` (RFC 2198, RFC 4103).

pub const MOST_PACKET: usize = 4224;
pub const MOST_TEXT: usize = 1023;
const MOST_REPEATS: usize = 8;

/// The payload types of `text/t140` and `text/red`.
#[derive(Clone, Copy)]
pub struct Types {
    pub t140: u8,
    pub red: u8,
}

/// A packet, its blocks where they lie: a header for each text that is repeated, these texts, oldest first, and behind them
/// the new one.
#[derive(Clone, Copy)]
pub struct Packet<'a> {
    pub seq: u16,
    pub stamp: u32,
    /// the only CSRC, or the SSRC
    pub source: u32,
    headers: &'a [[u8; 4]],
    texts: &'a [u8],
}

/// The offset and the size that a block's header says.
fn header(octets: &[u8; 4]) -> (u32, usize) {
    let bits = u32::from_be_bytes(*octets);
    (bits >> 10 & 0x3FFF, (bits & 0x3FF) as usize)
}

impl<'a> Packet<'a> {
    /// How many texts are repeated.
    pub fn repeats(&self) -> usize {
        self.headers.len()
    }

    /// The timestamp of the oldest text.
    pub fn oldest(&self) -> u32 {
        self.headers.first().map_or(self.stamp, |octets| self.stamp.wrapping_sub(header(octets).0))
    }

    /// Tells each text that is repeated, with its timestamp. The answer is the new text.
    #[inline]
    pub fn each_repeated(&self, mut tell: impl FnMut(u32, &'a [u8])) -> &'a [u8] {
        let mut texts = self.texts;
        for octets in self.headers {
            let (offset, size) = header(octets);
            let (text, more) = texts.split_at(size);
            tell(self.stamp.wrapping_sub(offset), text);
            texts = more;
        }
        texts
    }

    #[cold]
    fn each_is_text(&self) -> bool {
        let mut all = true;
        let new = self.each_repeated(|_, text| all &= std::str::from_utf8(text).is_ok());
        all && std::str::from_utf8(new).is_ok()
    }
}

/// Eight octets at once, the last ones a second time where they are no eight; none of fewer.
#[inline]
fn by_eight(text: &[u8], mut tell: impl FnMut(u64)) {
    for eight in text.chunks_exact(8) {
        tell(u64::from_le_bytes(eight.try_into().unwrap()));
    }
    if let Some(last) = text.last_chunk::<8>() {
        tell(u64::from_le_bytes(*last));
    }
}

const HIGH: u64 = 0x8080_8080_8080_8080;
const ONES: u64 = 0x0101_0101_0101_0101;

#[inline]
fn is_ascii(text: &[u8]) -> bool {
    let mut all = 0;
    if text.len() < 8 {
        all = text.iter().fold(0, |all, octet| all | u64::from(*octet));
    }
    by_eight(text, |eight| all |= eight);
    all & HIGH == 0
}

/// All are letters, digits, marks or spaces of ASCII.
#[inline]
pub fn is_plain(text: &[u8]) -> bool {
    if text.len() < 8 {
        return text.iter().all(|octet| matches!(octet, b' '..=b'~'));
    }
    // An octet below 0x20 borrows, and one above 0x7E carries into its highest bit, if that was not set.
    let mut bad = 0;
    by_eight(text, |eight| bad |= eight | eight.wrapping_sub(0x20 * ONES) | eight.wrapping_add(ONES));
    bad & HIGH == 0
}

fn u16_at(octets: &[u8], at: usize) -> u16 {
    u16::from_be_bytes([octets[at], octets[at + 1]])
}

fn u32_at(octets: &[u8], at: usize) -> u32 {
    u32::from_be_bytes([octets[at], octets[at + 1], octets[at + 2], octets[at + 3]])
}

/// The payload of a packet whose header is not the plain one of 12 or 16 octets.
#[cold]
fn payload_of(octets: &[u8]) -> Option<&[u8]> {
    let first = octets[0];
    let mut payload = octets.get(12 + 4 * usize::from(first & 15)..)?;
    if first & 0x10 != 0 {
        let words = usize::from(u16_at(payload.get(..4)?, 2));
        payload = payload.get(4 + 4 * words..)?;
    }
    if first & 0x20 != 0 {
        let padding = usize::from(*payload.last()?);
        if padding == 0 || padding > payload.len() {
            return None;
        }
        payload = &payload[..payload.len() - padding];
    }
    Some(payload)
}

/// The packet of text of this SSRC that the octets are; none where they are refused, or another sender's.
#[inline]
pub fn read(octets: &[u8], ssrc: u32, types: Types) -> Option<Packet<'_>> {
    if octets.len() < 12 || octets.len() > MOST_PACKET || octets[0] >> 6 != 2 || u32_at(octets, 8) != ssrc {
        return None;
    }
    let (source, payload) = match octets[0] {
        0x80 => (ssrc, &octets[12..]),
        0x81 if octets.len() >= 16 => (u32_at(octets, 12), &octets[16..]),
        first => {
            let payload = payload_of(octets)?;
            match first & 15 {
                0 => (ssrc, payload),
                1 => (u32_at(octets, 12), payload),
                _ => return None,
            }
        }
    };
    let mut packet = Packet { seq: u16_at(octets, 2), stamp: u32_at(octets, 4), source, headers: &[], texts: payload };
    let payload_type = octets[1] & 0x7F;
    let mut repeated = 0;
    if payload_type == types.red {
        let (headers, _) = payload.as_chunks::<4>();
        let mut count = 0;
        while let Some(octets) = headers.get(count).filter(|octets| octets[0] >= 0x80) {
            if count == MOST_REPEATS || octets[0] & 0x7F != types.t140 {
                return None;
            }
            repeated += header(octets).1;
            count += 1;
        }
        if *payload.get(4 * count)? != types.t140 {
            return None;
        }
        packet.headers = &headers[..count];
        packet.texts = &payload[4 * count + 1..];
    } else if payload_type != types.t140 {
        return None;
    }
    let fits = repeated <= packet.texts.len() && packet.texts.len() - repeated <= MOST_TEXT;
    (fits && (is_ascii(packet.texts) || packet.each_is_text())).then_some(packet)
}
