//! `mix CONF` on one thread: a second program that does what `rtt_program mix` does, byte for byte. It was written from
//! docs/FORMATS.md and docs/DEFINITIONS.md, for speed, and nobody proved it. `bench/compare` measures the proved program
//! against it, and `examples/second-program` compares what both write.
//!
//! usage: baseline mix CONF

mod composer;
mod conference;
mod hearing;
mod leg;
mod mixer;
mod outputs;
mod recording;
mod terminal;
mod wire;

use std::fs::File;
use std::io::{self, Read, Write};
use std::process::ExitCode;

use conference::Conference;
use leg::Chunks;
use outputs::Output;
use terminal::Terminal;

const USAGE: &str = "usage: baseline mix CONF\n";

/// Why there is no answer, with the text for standard error.
enum Failure {
    Words,
    Open(String),
    Read(String),
    Line { name: String, line: usize, kind: conference::Kind },
    Byte { name: String, byte: usize, kind: recording::Kind },
    TooLong(u32),
    Write(String),
    Print,
}

impl Failure {
    fn status(&self) -> u8 {
        match self {
            Failure::Words => 2,
            Failure::Open(_) => 3,
            Failure::Read(_) => 4,
            Failure::Line { .. } => 5,
            Failure::Byte { .. } => 6,
            Failure::Write(_) | Failure::Print => 7,
            Failure::TooLong(_) => 9,
        }
    }

    fn message(&self) -> String {
        match self {
            Failure::Words => USAGE.to_string(),
            Failure::Open(name) => format!("cannot open {name}\n"),
            Failure::Read(name) => format!("cannot read {name}\n"),
            Failure::Line { name, line, kind } => format!("{name} line {line}: {kind:?}\n"),
            Failure::Byte { name, byte, kind } => format!("{name} byte {byte}: {kind:?}\n"),
            Failure::TooLong(turns) => format!("conference too long: {turns} turns\n"),
            Failure::Write(name) => format!("cannot write {name}\n"),
            Failure::Print => "cannot write the output\n".to_string(),
        }
    }
}

fn opened(name: &str) -> Result<File, Failure> {
    File::open(name).map_err(|_| Failure::Open(name.to_string()))
}

/// The first `most` octets of a file, into `octets`.
fn read_into(octets: &mut Vec<u8>, file: File, name: &str, most: usize) -> Result<(), Failure> {
    octets.clear();
    octets.reserve(file.metadata().map_or(0, |about| about.len() as usize).min(most) + 32);
    file.take(most as u64).read_to_end(octets).map_err(|_| Failure::Read(name.to_string()))?;
    Ok(())
}

fn read_conference(name: &str) -> Result<Conference, Failure> {
    let mut octets = Vec::new();
    read_into(&mut octets, opened(name)?, name, conference::MOST_OCTETS + 1)?;
    conference::read(&octets).map_err(|(line, kind)| Failure::Line { name: name.to_string(), line, kind })
}

/// What is heard of each leg. All inputs are opened before the first is read.
fn read_legs(conference: &Conference) -> Result<Vec<Chunks>, Failure> {
    let limit = if conference.legs.len() > mixer::PLACES { recording::LIMIT_OF_MANY } else { recording::LIMIT };
    let mut files = Vec::new();
    for leg in &conference.legs {
        files.push(opened(&leg.input)?);
    }
    let mut octets = Vec::new();
    let mut heard = Vec::new();
    for (leg, file) in conference.legs.iter().zip(files) {
        // What decides over a recording stands within its limit and a record's head.
        read_into(&mut octets, file, &leg.input, limit + 8)?;
        heard.push(leg::hear(&octets, limit, leg, conference.wait).map_err(|(byte, kind)| Failure::Byte {
            name: leg.input.clone(),
            byte,
            kind,
        })?);
    }
    Ok(heard)
}

fn mix(name: &str) -> Result<(), Failure> {
    let conference = read_conference(name)?;
    let chunks = read_legs(&conference)?;
    let streams = mixer::mix(&conference, &chunks).ok_or(Failure::TooLong(conference.turns))?;
    let mut views = Vec::new();
    for (number, stream) in streams.into_iter().enumerate() {
        let mut terminal = Terminal::new(&conference, number);
        let name = &conference.legs[number].output;
        let written = Output::create(name).and_then(|mut output| {
            outputs::recording(&conference, number, &stream, &chunks, |records| {
                terminal.sent(records);
                output.write(records)
            })?;
            output.store()
        });
        written.map_err(|_| Failure::Write(name.clone()))?;
        terminal.print(&mut views);
    }
    let mut out = io::stdout().lock();
    out.write_all(&views).and_then(|()| out.flush()).map_err(|_| Failure::Print)
}

fn run() -> Result<(), Failure> {
    let mut words = std::env::args_os().skip(1).map(|word| word.into_string());
    match (words.next(), words.next(), words.next()) {
        (Some(Ok(command)), Some(Ok(name)), None) if command == "mix" && !name.is_empty() && !name.starts_with('-') => {
            mix(&name)
        }
        _ => Err(Failure::Words),
    }
}

fn main() -> ExitCode {
    match run() {
        Ok(()) => ExitCode::SUCCESS,
        Err(failure) => {
            let _ = io::stderr().write_all(failure.message().as_bytes());
            ExitCode::from(failure.status())
        }
    }
}
