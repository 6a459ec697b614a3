//! The mixer: who holds a place, whose text waits where, and what each turn sends.

use crate::composer::Composer;
use crate::conference::Conference;
use crate::leg::{Chunks, PAD};
use crate::wire::MOST_TEXT;

pub const PLACES: usize = 16;
const MOST_SPAN_OCTETS: u32 = 16_384;
const MOST_SPAN_CHUNKS: u32 = 512;

/// A packet that was sent: when, and its new text, which stands among the texts of its leg, or in the text that was
/// composed for the terminal.
#[derive(Clone, Copy)]
pub struct Sent {
    pub at: u32,
    pub start: u32,
    pub size: u16,
    pub leg: u8,
}

/// All that was sent to a terminal. `PAD` stands behind what was composed.
#[derive(Default)]
pub struct Stream {
    pub sent: Vec<Sent>,
    pub composed: Vec<u8>,
}

impl Stream {
    fn ended(mut self) -> Self {
        self.composed.extend_from_slice(&PAD);
        self
    }
}

/// A source at a terminal.
#[derive(Clone, Default)]
struct Feed {
    /// the chunk that waits first
    next: u32,
    /// where what waits ends, once the terminal listens no more
    end: u32,
    /// from when the source may be served again
    free: u32,
    /// whether each of its last packets had text, the last one in the lowest bit
    texts: u8,
}

enum Outlet {
    /// `work`: the places of which something waits or is still to be repeated; `start`: where the round goes on
    Aware {
        work: u16,
        start: u32,
    },
    Unaware(Box<Composer>),
}

struct Terminal {
    place: Option<u8>,
    listens: bool,
    /// which of the last packets' flags say that text is still to be repeated
    repeats: u8,
    outlet: Outlet,
    feeds: Vec<Feed>,
    stream: Stream,
}

struct Mixer<'a> {
    conference: &'a Conference,
    chunks: &'a [Chunks],
    /// how many chunks of each leg were taken
    taken: Vec<u32>,
    /// a chunk of each leg before which nothing of it waits anywhere
    low: Vec<u32>,
    left: usize,
    terminals: Vec<Terminal>,
    places: [Option<u8>; PLACES],
    /// the legs that hold a place, in leg order
    seated: Vec<u8>,
    /// the legs that did not come yet, and those that hold a place and have an end, in leg order
    coming: Vec<u8>,
    going: Vec<u8>,
}

impl Terminal {
    /// Where what waits here of a leg ends.
    fn end(&self, leg: usize, taken: &[u32]) -> u32 {
        if self.listens {
            taken[leg]
        } else {
            self.feeds[leg].end
        }
    }

    fn waits(&self, leg: usize, taken: &[u32]) -> bool {
        self.feeds[leg].next < self.end(leg, taken)
    }

    /// Nothing waits here, and nothing is still to be repeated.
    fn is_quiet(&self) -> bool {
        match &self.outlet {
            Outlet::Aware { work, .. } => *work == 0,
            Outlet::Unaware(composer) => composer.waits == 0 && self.feeds[usize::from(composer.own)].texts & self.repeats == 0,
        }
    }

    /// Something waits here of the leg at this place, or is still to be repeated.
    fn has_work(&self, leg: usize, place: u8) -> bool {
        match &self.outlet {
            Outlet::Aware { work, .. } => work >> place & 1 != 0,
            Outlet::Unaware(composer) => composer.waits >> leg & 1 != 0,
        }
    }
}

/// The place behind the last chunk of the longest list of whole ones from `next` on that has at most `room` octets.
pub fn front(bounds: &[u32], next: u32, end: u32, room: usize) -> u32 {
    let most = bounds[next as usize] + room as u32;
    let mut last = next;
    while last < end && bounds[last as usize + 1] <= most {
        last += 1;
    }
    last
}

impl<'a> Mixer<'a> {
    fn new(conference: &'a Conference, chunks: &'a [Chunks]) -> Self {
        let legs = conference.legs.len();
        let terminal = |number: usize| {
            let leg = &conference.legs[number];
            Terminal {
                place: None,
                listens: false,
                repeats: (1 << leg.gens) - 1,
                outlet: if leg.aware {
                    Outlet::Aware { work: 0, start: 0 }
                } else {
                    Outlet::Unaware(Box::new(Composer::new(number, conference)))
                },
                feeds: vec![Feed::default(); legs],
                stream: Stream::default(),
            }
        };
        Mixer {
            conference,
            chunks,
            taken: vec![0; legs],
            low: vec![0; legs],
            left: chunks.iter().map(|chunks| chunks.ready.len()).sum(),
            terminals: (0..legs).map(terminal).collect(),
            places: [None; PLACES],
            seated: Vec::new(),
            coming: (0..legs as u8).collect(),
            going: Vec::new(),
        }
    }

    /// Legs whose stay is over listen no more, and leave as soon as nothing of them or for them is left.
    fn go(&mut self, now: u32) {
        let mut place = 0;
        while place < self.going.len() {
            let leg = usize::from(self.going[place]);
            if self.conference.legs[leg].until.is_some_and(|end| end <= now) {
                self.hush(leg);
                if self.may_leave(leg) {
                    self.places[usize::from(self.terminals[leg].place.take().unwrap())] = None;
                    self.seated.retain(|&other| usize::from(other) != leg);
                    self.going.remove(place);
                    continue;
                }
            }
            place += 1;
        }
    }

    fn hush(&mut self, leg: usize) {
        let terminal = &mut self.terminals[leg];
        if terminal.listens {
            terminal.listens = false;
            for (feed, &taken) in terminal.feeds.iter_mut().zip(&self.taken) {
                feed.end = taken;
            }
        }
    }

    fn may_leave(&self, leg: usize) -> bool {
        let Some(place) = self.terminals[leg].place else { return false };
        self.taken[leg] as usize == self.chunks[leg].ready.len()
            && self.terminals[leg].is_quiet()
            && self.terminals.iter().enumerate().all(|(other, terminal)| other == leg || !terminal.has_work(leg, place))
    }

    /// Legs whose stay has begun come to the lowest free place.
    fn come(&mut self, now: u32) {
        let mut number = 0;
        while number < self.coming.len() {
            let leg = self.coming[number];
            let line = &self.conference.legs[usize::from(leg)];
            let free = self.places.iter().position(|holder| holder.is_none());
            let (true, Some(place)) = (line.from <= now, free) else {
                number += 1;
                continue;
            };
            self.places[place] = Some(leg);
            let terminal = &mut self.terminals[usize::from(leg)];
            terminal.place = Some(place as u8);
            terminal.listens = line.until.is_none_or(|end| now < end);
            for (feed, &taken) in terminal.feeds.iter_mut().zip(&self.taken) {
                feed.next = taken;
                feed.end = taken;
            }
            self.coming.remove(number);
            let at = self.seated.partition_point(|&other| other < leg);
            self.seated.insert(at, leg);
            if line.until.is_some() {
                let at = self.going.partition_point(|&other| other < leg);
                self.going.insert(at, leg);
            }
        }
    }

    /// Each leg hands in what is ready and has room.
    fn offer(&mut self, now: u32) {
        let mut places = 0u16;
        let mut legs = 0u64;
        for number in 0..self.seated.len() {
            let leg = usize::from(self.seated[number]);
            let chunks = &self.chunks[leg];
            let before = self.taken[leg];
            while chunks.ready.get(self.taken[leg] as usize).is_some_and(|&ready| ready <= now) && self.has_room(leg) {
                self.taken[leg] += 1;
            }
            if self.taken[leg] > before {
                self.left -= (self.taken[leg] - before) as usize;
                places |= 1 << self.terminals[leg].place.unwrap();
                legs |= 1 << leg;
            }
        }
        if legs != 0 {
            for &leg in &self.seated {
                let terminal = &mut self.terminals[usize::from(leg)];
                if terminal.listens {
                    match &mut terminal.outlet {
                        Outlet::Aware { work, .. } => *work |= places & !(1 << terminal.place.unwrap()),
                        Outlet::Unaware(composer) => composer.waits |= legs & !(1 << leg),
                    }
                }
            }
        }
    }

    /// The leg's span has room for its next chunk.
    fn has_room(&mut self, leg: usize) -> bool {
        let bounds = &self.chunks[leg].bounds;
        let next = self.taken[leg];
        let fits = |low: u32| {
            next + 1 - low <= MOST_SPAN_CHUNKS && bounds[next as usize + 1] - bounds[low as usize] <= MOST_SPAN_OCTETS
        };
        if !fits(self.low[leg]) {
            // What was taken from the oldest chunk on that still waits at some terminal.
            let waiting = self.terminals.iter().enumerate();
            let waiting = waiting.filter(|(other, terminal)| *other != leg && terminal.waits(leg, &self.taken));
            self.low[leg] = waiting.map(|(_, terminal)| terminal.feeds[leg].next).min().unwrap_or(next);
        }
        fits(self.low[leg])
    }

    fn is_over(&self) -> bool {
        self.left == 0 && self.terminals.iter().all(Terminal::is_quiet)
    }

    /// Each terminal that holds a place gets at most one packet.
    fn turn(&mut self, now: u32) {
        for number in 0..self.seated.len() {
            let leg = usize::from(self.seated[number]);
            match self.terminals[leg].outlet {
                Outlet::Aware { work: 0, .. } => {}
                Outlet::Aware { .. } => self.turn_aware(leg, now),
                Outlet::Unaware(_) => self.turn_unaware(leg, now),
            }
        }
    }
}

impl Mixer<'_> {
    fn turn_aware(&mut self, own: usize, now: u32) {
        let terminal = &mut self.terminals[own];
        let Outlet::Aware { work, start } = &mut terminal.outlet else { return };
        let mut round = work.rotate_right(*start);
        while round != 0 {
            let place = (round.trailing_zeros() + *start) % PLACES as u32;
            round &= round - 1;
            let leg = usize::from(self.places[place as usize].unwrap());
            let feed = &mut terminal.feeds[leg];
            if feed.free <= now {
                let end = if terminal.listens { self.taken[leg] } else { feed.end };
                let bounds = &self.chunks[leg].bounds;
                let last = front(bounds, feed.next, end, MOST_TEXT);
                let begin = bounds[feed.next as usize];
                let size = (bounds[last as usize] - begin) as u16;
                terminal.stream.sent.push(Sent { at: now, start: begin, size, leg: leg as u8 });
                feed.next = last;
                feed.free = now + self.conference.spacing;
                feed.texts = feed.texts << 1 | u8::from(size > 0);
                if last == end && feed.texts & terminal.repeats == 0 {
                    *work &= !(1 << place);
                }
                *start = (place + 1) % PLACES as u32;
                return;
            }
        }
    }

    fn turn_unaware(&mut self, own: usize, now: u32) {
        let terminal = &mut self.terminals[own];
        let Outlet::Unaware(composer) = &mut terminal.outlet else { return };
        composer.ask(now);
        if terminal.feeds[own].free > now {
            return;
        }
        let start = terminal.stream.composed.len() as u32;
        if let Some(speaker) = composer.next_speaker(now) {
            let chunks = &self.chunks[speaker];
            let end = if terminal.listens { self.taken[speaker] } else { terminal.feeds[speaker].end };
            let next = terminal.feeds[speaker].next;
            let last = front(&chunks.bounds, next, end, composer.room());
            composer.give(chunks, next, last, &mut terminal.stream.composed);
            terminal.feeds[speaker].next = last;
            composer.given(now, last < end);
        } else if terminal.feeds[own].texts & terminal.repeats == 0 {
            return;
        }
        let size = terminal.stream.composed.len() as u32 - start;
        terminal.stream.sent.push(Sent { at: now, start, size: size as u16, leg: own as u8 });
        let feed = &mut terminal.feeds[own];
        feed.free = now + self.conference.spacing;
        feed.texts = feed.texts << 1 | u8::from(size > 0);
    }
}

/// What is sent to each terminal, or none where mixing is not over within the turns of the conference.
pub fn mix(conference: &Conference, chunks: &[Chunks]) -> Option<Vec<Stream>> {
    let mut mixer = Mixer::new(conference, chunks);
    // A tick is at most the 200 ms by which media time may rise in a turn, so that media time is the moment of the turn.
    for turn in 0..=conference.turns {
        let now = turn * conference.tick;
        mixer.go(now);
        mixer.come(now);
        mixer.offer(now);
        if mixer.is_over() {
            return Some(mixer.terminals.into_iter().map(|terminal| terminal.stream.ended()).collect());
        }
        mixer.turn(now);
    }
    None
}
