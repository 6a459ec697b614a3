//! What the mixer hears of a leg.

use crate::conference::Leg;
use crate::hearing::{Source, Tracker, Used};
use crate::recording;
use crate::wire::{self, Packet};

/// What stands behind texts, so that a short one can be copied by a fixed number of octets.
pub const PAD: [u8; 16] = [0; 16];

/// The heard texts of a leg that count, one behind the other and before `PAD`. Each is kept once, for whomever it is sent to.
pub struct Chunks {
    /// from when each may be mixed, in milliseconds
    pub ready: Vec<u32>,
    /// where each begins in `text`, and where the last one ends
    pub bounds: Vec<u32>,
    pub text: Vec<u8>,
}

/// Nothing but U+FEFF, which terminals send while nobody types.
fn is_keep_alive(text: &[u8]) -> bool {
    text.len().is_multiple_of(3) && text.chunks_exact(3).all(|three| three == b"\xEF\xBB\xBF")
}

/// What is heard of the leg in its recording, while it stays.
pub fn hear(octets: &[u8], limit: usize, leg: &Leg, wait: u32) -> Result<Chunks, (usize, recording::Kind)> {
    let mut chunks = Chunks { ready: Vec::new(), bounds: vec![0], text: Vec::new() };
    let mut tracker: Tracker<Packet> = Tracker::new(wait);
    let mut source = Source::default();
    let stay = u64::from(leg.from)..leg.until.map_or(u64::MAX, u64::from);
    let mut give = |used: Used, packet: Packet| {
        if packet.source == leg.ssrc {
            source.hear(&used, &packet, |text| {
                if stay.contains(&used.ready) && !is_keep_alive(text) {
                    chunks.ready.push(used.ready as u32);
                    chunks.text.extend_from_slice(text);
                    chunks.bounds.push(chunks.text.len() as u32);
                }
            });
        }
    };
    let mut now = 0;
    recording::read(octets, limit, |time, octets| {
        if let Some(packet) = wire::read(octets, leg.ssrc, leg.types) {
            now = now.max(u64::from(time));
            match tracker.use_next(now, packet.seq) {
                Some(used) => give(used, packet),
                None => tracker.arrive(now, packet.seq, packet, &mut give),
            }
        }
    })?;
    tracker.finish(&mut give);
    chunks.text.extend_from_slice(&PAD);
    Ok(chunks)
}
