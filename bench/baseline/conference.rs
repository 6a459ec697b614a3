//! The conference file: its lines, and the first bad one.

use std::collections::HashSet;

use crate::wire::Types;

pub const MOST_OCTETS: usize = 262_144;
const MOST_LEGS: usize = 64;
const MOST_STAYING: usize = 16;
const MOST_PLAN_LINES: usize = 4096;
const LAST_MOMENT: u64 = 14_400_000;
const MOST_TURNS: u64 = 5_000_000;

pub struct Leg {
    pub name: String,
    pub aware: bool,
    pub ssrc: u32,
    pub input: String,
    pub output: String,
    pub types: Types,
    /// how many times each text to the terminal is repeated
    pub gens: usize,
    pub from: u32,
    pub until: Option<u32>,
}

#[derive(Clone, Copy)]
pub struct MixerLine {
    pub ssrc: u32,
    pub seq: u16,
    pub stamp: u32,
}

#[derive(Clone, Copy)]
pub enum Fate {
    Lose,
    Delay(u32),
    Twice,
}

pub struct PlanLine {
    pub leg: usize,
    pub packet: u32,
    pub fate: Fate,
}

/// Times are milliseconds.
pub struct Conference {
    pub legs: Vec<Leg>,
    pub tick: u32,
    pub spacing: u32,
    pub wait: u32,
    pub turns: u32,
    /// after how long without text a run that goes on is labelled again, if it is
    pub relabel: Option<u32>,
    pub mixer: MixerLine,
    pub plan: Vec<PlanLine>,
}

#[derive(Clone, Copy, Debug, PartialEq)]
pub enum Kind {
    NotText,
    Word,
    Count,
    Name,
    Number,
    Many,
    PlanMany,
    Twice,
    Clash,
    Few,
    Crowd,
    Large,
}

#[derive(Default)]
struct Above {
    legs: Vec<Leg>,
    told_gens: HashSet<usize>,
    told_stays: HashSet<usize>,
    tick: Option<u32>,
    spacing: Option<u32>,
    wait: Option<u32>,
    turns: Option<u32>,
    relabel: Option<u32>,
    mixer: Option<MixerLine>,
    plan: Vec<PlanLine>,
    planned: HashSet<(&'static str, usize, u32)>,
}

/// A line ends with LF, and a CR right before it is no part of it.
fn lines(octets: &[u8]) -> impl Iterator<Item = &[u8]> {
    octets.split_inclusive(|&octet| octet == b'\n').map(|line| match line.strip_suffix(b"\n") {
        Some(line) => line.strip_suffix(b"\r").unwrap_or(line),
        None => line,
    })
}

fn number(word: &str, least: u64, most: u64) -> Result<u64, Kind> {
    let is_number = (1..=10).contains(&word.len()) && word.bytes().all(|octet| octet.is_ascii_digit());
    match word.parse::<u64>() {
        Ok(value) if is_number && (least..=most).contains(&value) => Ok(value),
        _ => Err(Kind::Number),
    }
}

fn is_name(word: &str) -> bool {
    word.len() <= 32 && word.bytes().all(|octet| octet.is_ascii_alphanumeric() || b"._-".contains(&octet))
}

fn unless(bad: bool, kind: Kind) -> Result<(), Kind> {
    if bad {
        Err(kind)
    } else {
        Ok(())
    }
}

impl Above {
    fn leg_named(&self, name: &str) -> Result<usize, Kind> {
        self.legs.iter().position(|leg| leg.name == name).ok_or(Kind::Name)
    }

    fn mixer(&mut self, words: &[&str]) -> Result<(), Kind> {
        let &[ssrc, seq, stamp] = words else { return Err(Kind::Count) };
        let line = MixerLine {
            ssrc: number(ssrc, 0, u32::MAX.into())? as u32,
            seq: number(seq, 0, u16::MAX.into())? as u16,
            stamp: number(stamp, 0, u32::MAX.into())? as u32,
        };
        unless(self.mixer.is_some(), Kind::Twice)?;
        unless(self.legs.iter().any(|leg| leg.ssrc == line.ssrc), Kind::Clash)?;
        self.mixer = Some(line);
        Ok(())
    }

    fn leg(&mut self, words: &[&str]) -> Result<(), Kind> {
        let (&[name, mode, ssrc, input, output], types) = match words {
            [first @ .., t140, red] if words.len() == 7 => (first.first_chunk::<5>().unwrap(), Some((*t140, *red))),
            _ => (words.try_into().map_err(|_| Kind::Count)?, None),
        };
        let aware = match mode {
            "aware" => true,
            "unaware" => false,
            _ => return Err(Kind::Word),
        };
        unless(!is_name(name) || input.len() > 255 || output.len() > 255, Kind::Name)?;
        let ssrc = number(ssrc, 0, u32::MAX.into())? as u32;
        let types = match types {
            None => Types { t140: 98, red: 100 },
            Some((t140, red)) => Types { t140: number(t140, 96, 127)? as u8, red: number(red, 96, 127)? as u8 },
        };
        unless(self.legs.len() >= MOST_LEGS, Kind::Many)?;
        unless(self.legs.iter().any(|leg| leg.name == name), Kind::Twice)?;
        let shares = |leg: &Leg| leg.ssrc == ssrc || leg.output == output || leg.input == output || leg.output == input;
        let is_mixers = self.mixer.is_some_and(|mixer| mixer.ssrc == ssrc);
        unless(is_mixers || types.t140 == types.red || input == output || self.legs.iter().any(shares), Kind::Clash)?;
        self.legs.push(Leg {
            name: name.to_string(),
            aware,
            ssrc,
            input: input.to_string(),
            output: output.to_string(),
            types,
            gens: 2,
            from: 0,
            until: None,
        });
        Ok(())
    }

    fn gens(&mut self, words: &[&str]) -> Result<(), Kind> {
        let &[name, gens] = words else { return Err(Kind::Count) };
        let leg = self.leg_named(name)?;
        let gens = number(gens, 0, 3)? as usize;
        unless(!self.told_gens.insert(leg), Kind::Twice)?;
        self.legs[leg].gens = gens;
        Ok(())
    }

    fn stay(&mut self, words: &[&str]) -> Result<(), Kind> {
        let &[name, from, until] = words else { return Err(Kind::Count) };
        let leg = self.leg_named(name)?;
        let from = number(from, 0, LAST_MOMENT)? as u32;
        let until = number(until, 0, LAST_MOMENT)? as u32;
        unless(until <= from, Kind::Number)?;
        unless(!self.told_stays.insert(leg), Kind::Twice)?;
        self.legs[leg].from = from;
        self.legs[leg].until = Some(until);
        Ok(())
    }

    fn plan(&mut self, word: &'static str, words: &[&str]) -> Result<(), Kind> {
        let (name, packet, late) = match *words {
            [name, packet] if word != "delay" => (name, packet, None),
            [name, packet, late] if word == "delay" => (name, packet, Some(late)),
            _ => return Err(Kind::Count),
        };
        let leg = self.leg_named(name)?;
        let packet = number(packet, 0, u32::MAX.into())? as u32;
        let fate = match (word, late) {
            ("lose", _) => Fate::Lose,
            (_, Some(late)) => Fate::Delay(number(late, 0, 60_000)? as u32),
            _ => Fate::Twice,
        };
        unless(self.plan.len() >= MOST_PLAN_LINES, Kind::PlanMany)?;
        unless(!self.planned.insert((word, leg, packet)), Kind::Twice)?;
        self.plan.push(PlanLine { leg, packet, fate });
        Ok(())
    }

    fn line(&mut self, line: &[u8]) -> Result<(), Kind> {
        let line = std::str::from_utf8(line).map_err(|_| Kind::NotText)?;
        let words: Vec<&str> = line.split(' ').filter(|word| !word.is_empty()).collect();
        let more = &words[1..];
        match words[0] {
            "mixer" => self.mixer(more),
            "leg" => self.leg(more),
            "gens" => self.gens(more),
            "stay" => self.stay(more),
            "tick" => setting(&mut self.tick, more, 20, 200),
            "spacing" => setting(&mut self.spacing, more, 100, 500),
            "wait" => setting(&mut self.wait, more, 0, 10_000),
            "turns" => setting(&mut self.turns, more, 1, MOST_TURNS),
            "relabel" => setting(&mut self.relabel, more, 2000, 60_000),
            "lose" => self.plan("lose", more),
            "delay" => self.plan("delay", more),
            "twice" => self.plan("twice", more),
            _ => Err(Kind::Word),
        }
    }

    /// More than 16 legs stay at the moment at which some leg comes.
    fn is_crowd(&self) -> bool {
        let staying = |at: u32| self.legs.iter().filter(|leg| leg.from <= at && leg.until.is_none_or(|end| at < end)).count();
        self.legs.iter().any(|leg| staying(leg.from) > MOST_STAYING)
    }
}

fn setting(above: &mut Option<u32>, words: &[&str], least: u64, most: u64) -> Result<(), Kind> {
    let &[word] = words else { return Err(Kind::Count) };
    let value = number(word, least, most)? as u32;
    unless(above.is_some(), Kind::Twice)?;
    *above = Some(value);
    Ok(())
}

/// The conference, or the number of the first bad line and what is wrong there.
pub fn read(octets: &[u8]) -> Result<Conference, (usize, Kind)> {
    unless(octets.len() > MOST_OCTETS, Kind::Large).map_err(|kind| (0, kind))?;
    let mut above = Above::default();
    let mut last = 0;
    for line in lines(octets) {
        last += 1;
        if line.first() != Some(&b'#') && line.iter().any(|&octet| octet != b' ') {
            above.line(line).map_err(|kind| (last, kind))?;
        }
    }
    let end = last + 1;
    let mixer = above.mixer.ok_or((end, Kind::Few))?;
    unless(above.legs.len() < 2, Kind::Few).map_err(|kind| (end, kind))?;
    unless(above.is_crowd(), Kind::Crowd).map_err(|kind| (end, kind))?;
    Ok(Conference {
        legs: above.legs,
        tick: above.tick.unwrap_or(100),
        spacing: above.spacing.unwrap_or(300),
        wait: above.wait.unwrap_or(1000),
        turns: above.turns.unwrap_or(MOST_TURNS as u32),
        relabel: above.relabel,
        mixer,
        plan: above.plan,
    })
}
