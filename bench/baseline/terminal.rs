//! What a terminal shows of the packets that come to it.

use std::cmp::Reverse;
use std::collections::{BTreeMap, BinaryHeap};
use std::io::Write;

use crate::conference::{Conference, Fate, Leg};
use crate::hearing::{Source, Tracker, Used};
use crate::recording::RECORD_HEAD;
use crate::wire::{self, Packet};

/// The text of a source as it is shown, its lines parted by LF.
#[derive(Default)]
struct Display {
    text: Vec<u8>,
    bells: u64,
    after_cr: bool,
}

impl Display {
    #[inline]
    fn put(&mut self, text: &[u8]) {
        if wire::is_plain(text) {
            self.text.extend_from_slice(text);
            self.after_cr = false;
        } else {
            self.put_each(text);
        }
    }

    #[cold]
    fn put_each(&mut self, text: &[u8]) {
        for c in std::str::from_utf8(text).unwrap().chars() {
            match c {
                '\u{8}' => self.erase(),
                '\u{7}' => self.bells += 1,
                '\n' if self.after_cr => {}
                '\n' | '\r' | '\u{2028}' | '\u{2029}' => self.text.push(b'\n'),
                '\0'..='\u{1F}' | '\u{7F}'..='\u{9F}' | '\u{FEFF}' => {}
                _ => self.text.extend_from_slice(c.encode_utf8(&mut [0; 4]).as_bytes()),
            }
            self.after_cr = c == '\r';
        }
    }

    /// Takes back the last character or new line, and no marker.
    fn erase(&mut self) {
        if self.text.ends_with("\u{FFFD}".as_bytes()) {
            return;
        }
        while self.text.pop().is_some_and(|octet| octet & 0xC0 == 0x80) {}
    }

    /// Prints each line behind `before`.
    fn print(&self, before: &str, view: &mut Vec<u8>) {
        for line in std::str::from_utf8(&self.text).unwrap().split('\n') {
            view.extend_from_slice(before.as_bytes());
            view.extend_from_slice(line.as_bytes());
            view.push(b'\n');
        }
    }
}

/// What is heard of each source.
struct Heard {
    /// which of the sources an SSRC is, by a part of its product
    found: [Option<u8>; 256],
    ssrcs: Vec<u32>,
    sources: Vec<Source>,
    displays: Vec<Display>,
}

fn slot(ssrc: u32) -> usize {
    (ssrc.wrapping_mul(0x9E37_79B1) >> 24) as usize
}

impl Heard {
    fn new(ssrcs: Vec<u32>) -> Self {
        let mut found = [None; 256];
        for (number, &ssrc) in ssrcs.iter().enumerate() {
            let mut at = slot(ssrc);
            while found[at].is_some() {
                at = (at + 1) % 256;
            }
            found[at] = Some(number as u8);
        }
        let count = ssrcs.len();
        Heard {
            found,
            ssrcs,
            sources: vec![Source::default(); count],
            displays: (0..count).map(|_| Display::default()).collect(),
        }
    }

    #[inline]
    fn hear(&mut self, used: Used, packet: &Packet) {
        let mut at = slot(packet.source);
        while let Some(number) = self.found[at].map(usize::from) {
            if self.ssrcs[number] == packet.source {
                let display = &mut self.displays[number];
                self.sources[number].hear(&used, packet, |text| display.put(text));
                return;
            }
            at = (at + 1) % 256;
        }
    }
}

/// What the plan says of a packet.
#[derive(Default)]
struct Planned {
    lost: bool,
    delay: Option<u32>,
    twice: bool,
}

pub struct Terminal<'a> {
    conference: &'a Conference,
    leg: &'a Leg,
    /// who is kept apart
    sources: Vec<&'a Leg>,
    heard: Heard,
    /// packets that are held back are kept by their octets
    tracker: Tracker<Vec<u8>>,
    /// by the numbers of packets, of those that are still to be sent
    plan: BTreeMap<u64, Planned>,
    /// delayed packets, by their moments and numbers
    late: BinaryHeap<Reverse<(u64, u64, Vec<u8>)>>,
    sent: u64,
    packets: u64,
    refused: u64,
}

impl<'a> Terminal<'a> {
    pub fn new(conference: &'a Conference, number: usize) -> Self {
        let leg = &conference.legs[number];
        let others = conference.legs.iter().enumerate().filter(|(other, _)| *other != number).map(|(_, other)| other);
        let sources: Vec<_> = if leg.aware { others.collect() } else { Vec::new() };
        let ssrcs = if leg.aware { sources.iter().map(|source| source.ssrc).collect() } else { vec![conference.mixer.ssrc] };
        let mut plan = BTreeMap::<u64, Planned>::new();
        for line in conference.plan.iter().filter(|line| line.leg == number) {
            let planned = plan.entry(line.packet.into()).or_default();
            match line.fate {
                Fate::Lose => planned.lost = true,
                Fate::Delay(late) => planned.delay = Some(late),
                Fate::Twice => planned.twice = true,
            }
        }
        Terminal {
            conference,
            leg,
            sources,
            heard: Heard::new(ssrcs),
            tracker: Tracker::new(conference.wait),
            plan,
            late: BinaryHeap::new(),
            sent: 0,
            packets: 0,
            refused: 0,
        }
    }

    /// Takes records that are sent, and what comes meanwhile.
    pub fn sent(&mut self, mut records: &[u8]) {
        while let Some(head) = records.first_chunk::<RECORD_HEAD>() {
            let (record, more) = records.split_at(u16::from_be_bytes([head[0], head[1]]).into());
            let at = u32::from_be_bytes([head[4], head[5], head[6], head[7]]).into();
            let packet = &record[RECORD_HEAD..];
            if self.plan.is_empty() && self.late.is_empty() {
                self.arrive(at, packet);
            } else {
                self.sent_by_plan(at, packet);
            }
            self.sent += 1;
            records = more;
        }
    }

    #[cold]
    fn sent_by_plan(&mut self, at: u64, packet: &[u8]) {
        self.late_arrive(at);
        let planned = self.plan.remove(&self.sent).unwrap_or_default();
        let copies = if planned.lost {
            0
        } else if planned.twice {
            2
        } else {
            1
        };
        for _ in 0..copies {
            match planned.delay {
                Some(delay) if delay > 0 => self.late.push(Reverse((at + u64::from(delay), self.sent, packet.to_vec()))),
                _ => self.arrive(at, packet),
            }
        }
    }

    /// Delayed packets that come by this moment arrive.
    fn late_arrive(&mut self, now: u64) {
        while self.late.peek().is_some_and(|Reverse((at, _, _))| *at <= now) {
            let Reverse((at, _, packet)) = self.late.pop().unwrap();
            self.arrive(at, &packet);
        }
    }

    #[inline]
    fn arrive(&mut self, now: u64, octets: &[u8]) {
        self.packets += 1;
        let (ssrc, types) = (self.conference.mixer.ssrc, self.leg.types);
        match wire::read(octets, ssrc, types) {
            Some(packet) => match self.tracker.use_next(now, packet.seq) {
                Some(used) => self.heard.hear(used, &packet),
                None => self.tracker.arrive(now, packet.seq, octets.to_vec(), |used, octets| {
                    self.heard.hear(used, &wire::read(&octets, ssrc, types).unwrap());
                }),
            },
            None => self.refused += 1,
        }
    }

    /// All was sent: prints what is shown.
    pub fn print(mut self, view: &mut Vec<u8>) {
        self.late_arrive(u64::MAX);
        let (ssrc, types) = (self.conference.mixer.ssrc, self.leg.types);
        self.tracker.finish(|used, octets| self.heard.hear(used, &wire::read(&octets, ssrc, types).unwrap()));
        let name = &self.leg.name;
        if self.leg.aware {
            put(view, format_args!("== {name} aware\n"));
            for (source, display) in self.sources.iter().zip(&self.heard.displays) {
                display.print(&format!("{}: ", source.name), view);
                put(view, format_args!("-- {} bells {}\n", source.name, display.bells));
            }
        } else {
            put(view, format_args!("== {name} unaware\n"));
            self.heard.displays[0].print("| ", view);
            put(view, format_args!("-- bells {}\n", self.heard.displays[0].bells));
        }
        let (packets, used, refused) = (self.packets, self.tracker.used, self.refused);
        put(view, format_args!("-- packets {packets} used {used} refused {refused} foreign 0\n"));
    }
}

fn put(view: &mut Vec<u8>, line: std::fmt::Arguments) {
    view.write_fmt(line).unwrap();
}
