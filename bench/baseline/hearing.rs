//! Packets put in order, and what is heard of a source: each text once, and a marker where text may be missing.

use crate::wire::Packet;

/// How many packets with greater numbers may come before one that is still used.
const MOST_HELD: usize = 64;
const MARKER: &[u8] = "\u{FFFD}".as_bytes();

/// When a packet is used.
pub struct Used {
    /// how many numbers below its own, from the first on, are not used
    pub skipped: u64,
    /// the moment at which it has come, and each number from the first up to it has come or is given up
    pub ready: u64,
}

struct Held<P> {
    number: u64,
    came: u64,
    packet: P,
}

/// Packets in the order of their numbers; one that is missing is waited for.
pub struct Tracker<P> {
    wait: u64,
    /// the least number that has neither come in time nor been given up; 0 before the first packet
    next: u64,
    /// the greatest number that came
    top: u64,
    /// the latest end of a number below `next`
    ended: u64,
    skipped: u64,
    /// how many packets are used
    pub used: u64,
    /// what came behind a gap, by number
    held: Vec<Held<P>>,
}

impl<P> Tracker<P> {
    pub fn new(wait: u32) -> Self {
        Tracker { wait: wait.into(), next: 0, top: 0, ended: 0, skipped: 0, used: 0, held: Vec::new() }
    }

    /// The packet that comes now is the next one, and nothing is held: then it is used at once.
    #[inline]
    pub fn use_next(&mut self, now: u64, seq: u16) -> Option<Used> {
        if !self.held.is_empty() || seq != self.next as u16 || self.next == 0 {
            return None;
        }
        self.top = self.next;
        self.next += 1;
        self.ended = now;
        self.used += 1;
        Some(Used { skipped: self.skipped, ready: now })
    }

    /// Takes a packet that comes now, and gives each that is used by that.
    #[cold]
    pub fn arrive(&mut self, now: u64, seq: u16, packet: P, mut give: impl FnMut(Used, P)) {
        if self.next == 0 {
            self.top = u64::from(seq) + 65_536;
            self.next = self.top;
        }
        self.expire(now, &mut give);
        let number = self.number(seq);
        if number < self.next {
            return;
        }
        let Err(place) = self.held.binary_search_by_key(&number, |held| held.number) else { return };
        self.held.insert(place, Held { number, came: now, packet });
        self.top = self.top.max(number);
        if self.held[0].number == self.next || self.held.len() > MOST_HELD {
            self.settle(now, &mut give);
        }
    }

    /// The number with this sequence number that is nearest to the greatest one so far, on a tie the lower.
    fn number(&self, seq: u16) -> u64 {
        let low = self.top - 32_768;
        low + u64::from(seq.wrapping_sub(low as u16))
    }

    /// Gives up what was waited for long enough by now.
    fn expire(&mut self, now: u64, give: &mut impl FnMut(Used, P)) {
        while let Some(earliest) = self.held.iter().map(|held| held.came).min() {
            if earliest + self.wait > now {
                break;
            }
            self.settle(earliest + self.wait, give);
        }
    }

    /// The gap before the first packet that is held, if there is one, ends now; that packet is used, and those right behind it.
    fn settle(&mut self, now: u64, give: &mut impl FnMut(Used, P)) {
        self.ended = self.ended.max(now);
        self.skipped += self.held[0].number - self.next;
        self.next = self.held[0].number;
        while self.held.first().is_some_and(|held| held.number == self.next) {
            let held = self.held.remove(0);
            self.ended = self.ended.max(held.came);
            self.next += 1;
            self.used += 1;
            give(Used { skipped: self.skipped, ready: self.ended }, held.packet);
        }
    }

    /// Nothing more comes.
    pub fn finish(&mut self, mut give: impl FnMut(Used, P)) {
        self.expire(u64::MAX, &mut give);
    }
}

/// What is heard of one source.
#[derive(Clone, Default)]
pub struct Source {
    begun: bool,
    /// of the packet of this source that was used last
    skipped: u64,
    stamp: u32,
}

/// `x` is after `y` on the circle of timestamps.
fn is_after(x: u32, y: u32) -> bool {
    matches!(x.wrapping_sub(y), 1..=0x7FFF_FFFF)
}

impl Source {
    /// Tells each text that a used packet of this source adds; a marker is a text of its own.
    #[inline]
    pub fn hear(&mut self, used: &Used, packet: &Packet, mut tell: impl FnMut(&[u8])) {
        let is_new = |stamp: u32| !self.begun || is_after(stamp, self.stamp);
        if used.skipped - self.skipped > packet.repeats() as u64 && is_new(packet.oldest()) {
            tell(MARKER);
        }
        let new = packet.each_repeated(|stamp, text| {
            if !text.is_empty() && is_new(stamp) {
                tell(text);
            }
        });
        if !new.is_empty() {
            tell(new);
        }
        *self = Source { begun: true, skipped: used.skipped, stamp: packet.stamp };
    }
}
