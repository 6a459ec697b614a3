//! Recordings of what was sent: their octets, and the files in which they are stored.

use std::fs::{self, File, OpenOptions};
use std::io::{self, Write};
use std::os::unix::fs::MetadataExt;

use crate::conference::Conference;
use crate::leg::{Chunks, PAD};
use crate::mixer::{Sent, Stream};
use crate::recording::{OPENING, RECORD_HEAD};
use crate::wire::MOST_PACKET;

const MOST_GENS: usize = 3;
const FARTHEST: i64 = 16_383;
/// A recording is made, heard and written by pieces of about so many octets.
const PIECE: usize = 1 << 18;

/// A text of a source that was sent, where it stands, and when.
#[derive(Clone, Copy)]
struct Block<'a> {
    at: i64,
    from: &'a [u8],
    start: usize,
    size: usize,
}

/// The last packets of a source, oldest first. Before its first one they lie farther back than an offset can say.
type Window<'a> = [Block<'a>; MOST_GENS];

const NOTHING: Block = Block { at: -FARTHEST - 1, from: &PAD, start: 0, size: 0 };

/// What all packets to a terminal have.
struct Head {
    ssrc: u32,
    stamp: u32,
    t140: u8,
    red: u8,
}

/// Octets that are filled from the front.
struct Piece {
    octets: Box<[u8]>,
    end: usize,
}

impl Piece {
    /// A short text is copied with what stands behind it.
    #[inline]
    fn put_text(&mut self, text: &Block) {
        if text.size <= PAD.len() {
            self.octets[self.end..self.end + PAD.len()].copy_from_slice(&text.from[text.start..text.start + PAD.len()]);
        } else {
            self.octets[self.end..self.end + text.size].copy_from_slice(&text.from[text.start..text.start + text.size]);
        }
        self.end += text.size;
    }

    /// Puts a record with its packet, of which the CSRC is this one, if there is one.
    #[inline]
    fn put_record<const GENS: usize>(&mut self, head: &Head, seq: u16, csrc: Option<u32>, window: &Window, new: &Block) {
        let older: &[Block; GENS] = window.last_chunk().unwrap();
        let is_after_pause = window[MOST_GENS - GENS.max(1)..].iter().all(|block| block.size == 0);
        let at = new.at as u32;
        let mut octets = [0; RECORD_HEAD + 16 + 4 * MOST_GENS + 1];
        octets[4..8].copy_from_slice(&at.to_be_bytes());
        octets[8] = 0x80 | u8::from(csrc.is_some());
        octets[9] = u8::from(is_after_pause) << 7 | if GENS > 0 { head.red } else { head.t140 };
        octets[10..12].copy_from_slice(&seq.to_be_bytes());
        octets[12..16].copy_from_slice(&head.stamp.wrapping_add(at).to_be_bytes());
        octets[16..20].copy_from_slice(&head.ssrc.to_be_bytes());
        let mut end = 20;
        if let Some(csrc) = csrc {
            octets[20..24].copy_from_slice(&csrc.to_be_bytes());
            end = 24;
        }
        let mut size = new.size;
        for block in older {
            let offset = (new.at - block.at).min(FARTHEST) as u32;
            let bits = u32::from(0x80 | head.t140) << 24 | offset << 10 | block.size as u32;
            octets[end..end + 4].copy_from_slice(&bits.to_be_bytes());
            end += 4;
            size += block.size;
        }
        if GENS > 0 {
            octets[end] = head.t140;
            end += 1;
        }
        size += end;
        octets[0..2].copy_from_slice(&(size as u16).to_be_bytes());
        octets[2..4].copy_from_slice(&((size - RECORD_HEAD) as u16).to_be_bytes());
        self.octets[self.end..self.end + octets.len()].copy_from_slice(&octets);
        self.end += end;
        for block in older {
            self.put_text(block);
        }
        self.put_text(new);
    }
}

fn records<const GENS: usize>(
    conference: &Conference,
    number: usize,
    stream: &Stream,
    chunks: &[Chunks],
    mut tell: impl FnMut(&[u8]) -> io::Result<()>,
) -> io::Result<()> {
    let leg = &conference.legs[number];
    let mixer = &conference.mixer;
    let head = Head { ssrc: mixer.ssrc, stamp: mixer.stamp, t140: leg.types.t140, red: leg.types.red };
    let mut windows: Vec<Window> = vec![[NOTHING; MOST_GENS]; conference.legs.len()];
    let room = PIECE + RECORD_HEAD + MOST_PACKET + PAD.len();
    let mut piece = Piece { octets: vec![0; room].into_boxed_slice(), end: 0 };
    let mut seq = mixer.seq;
    for &Sent { at, start, size, leg: source } in &stream.sent {
        let source = usize::from(source);
        let from = if leg.aware { &chunks[source].text } else { &stream.composed };
        let csrc = leg.aware.then(|| conference.legs[source].ssrc);
        let new = Block { at: at.into(), from, start: start as usize, size: size.into() };
        let window = &mut windows[source];
        piece.put_record::<GENS>(&head, seq, csrc, window, &new);
        *window = [window[1], window[2], new];
        seq = seq.wrapping_add(1);
        if piece.end >= PIECE {
            tell(&piece.octets[..piece.end])?;
            piece.end = 0;
        }
    }
    tell(&piece.octets[..piece.end])
}

/// Tells the recording of what was sent to this leg's terminal piece by piece; a piece has whole records.
pub fn recording(
    conference: &Conference,
    number: usize,
    stream: &Stream,
    chunks: &[Chunks],
    tell: impl FnMut(&[u8]) -> io::Result<()>,
) -> io::Result<()> {
    match conference.legs[number].gens {
        0 => records::<0>(conference, number, stream, chunks, tell),
        1 => records::<1>(conference, number, stream, chunks, tell),
        2 => records::<2>(conference, number, stream, chunks, tell),
        _ => records::<3>(conference, number, stream, chunks, tell),
    }
}

/// A file that is written beside its name, which it takes once it is stored. A device, a pipe, a link and a file of several
/// names are written where they stand, and so is what no file can be made beside.
pub struct Output<'a> {
    name: &'a str,
    part: Option<String>,
    file: File,
}

impl<'a> Output<'a> {
    pub fn create(name: &'a str) -> io::Result<Self> {
        let old = fs::symlink_metadata(name).ok();
        let is_usual = old.as_ref().is_none_or(|old| old.is_file() && old.nlink() == 1);
        let part = format!("{name}.rtt-part");
        if is_usual {
            let _ = fs::remove_file(&part);
            if let Ok(file) = OpenOptions::new().write(true).create_new(true).open(&part) {
                let mut output = Output { name, part: Some(part), file };
                if let Some(old) = old {
                    output.file.set_permissions(old.permissions())?;
                }
                output.write(OPENING)?;
                return Ok(output);
            }
        }
        let mut output = Output { name, part: None, file: File::create(name)? };
        output.write(OPENING)?;
        Ok(output)
    }

    pub fn write(&mut self, octets: &[u8]) -> io::Result<()> {
        self.file.write_all(octets)
    }

    /// What was written is stored.
    pub fn store(mut self) -> io::Result<()> {
        match self.file.sync_data() {
            // What stores nothing says so.
            Err(error) if error.kind() == io::ErrorKind::InvalidInput => {}
            stored => stored?,
        }
        if let Some(part) = &self.part {
            fs::rename(part, self.name)?;
            self.part = None;
        }
        Ok(())
    }
}

impl Drop for Output<'_> {
    fn drop(&mut self) {
        if let Some(part) = &self.part {
            let _ = fs::remove_file(part);
        }
    }
}
