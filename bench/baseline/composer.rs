//! The one text of a terminal that is not aware: runs of one speaker behind a label each.

use crate::conference::Conference;
use crate::leg::Chunks;
use crate::wire::MOST_TEXT;

const NEW_LINE: char = '\u{2028}';
/// A speaker of whom nothing waits is left so long after his last text, and one who waits so long may interrupt.
const SILENCE: u32 = 2000;
const PATIENCE: u32 = 7000;

/// What was sent last, bells and silent characters passed over.
#[derive(Clone, Copy, PartialEq)]
enum Shown {
    Nothing,
    NewLine,
    Other,
}

pub struct Composer {
    pub own: u8,
    legs: u32,
    names: Vec<String>,
    relabel: Option<u32>,
    /// the legs of which something waits, by their bits
    pub waits: u64,
    /// the legs that were seen waiting since their last text, and from when on
    known: u64,
    since: Vec<u32>,
    speaker: Option<usize>,
    given_at: u32,
    /// the run has a chunk
    has_chunk: bool,
    /// the last three characters of the run, but for directions
    tail: [char; 3],
    /// how many characters of the run an erasure can take back
    erasable: u64,
    /// the label of the run is still to come
    label_due: bool,
    shown: Shown,
    /// the last character that was sent is a CR
    after_cr: bool,
}

fn is_silent(c: char) -> bool {
    c < ' ' || ('\u{7F}'..='\u{9F}').contains(&c) || c == '\u{FEFF}'
}

/// One that turns the direction in which other text runs.
fn is_direction(c: char) -> bool {
    matches!(c, '\u{202A}'..='\u{202E}' | '\u{2066}'..='\u{2069}')
}

fn ends_line(tail: &[char; 3]) -> bool {
    matches!(tail[2], '\r' | '\n' | NEW_LINE | '\u{2029}')
}

/// The text ends a sentence: a stop, at most one closing mark, and a space, which may be left out behind a wide stop.
fn ends_sentence(tail: &[char; 3]) -> bool {
    const STOPS: [char; 7] = ['.', '?', '!', '\u{61F}', '\u{6D4}', '\u{964}', '\u{2026}'];
    const MARKS: [char; 5] = ['"', '\'', ')', '\u{2019}', '\u{201D}'];
    const WIDE_STOPS: [char; 4] = ['\u{3002}', '\u{FF01}', '\u{FF0E}', '\u{FF1F}'];
    const WIDE_MARKS: [char; 3] = ['\u{300D}', '\u{300F}', '\u{FF09}'];
    let is_mark = |c: char| MARKS.contains(&c);
    let is_any_mark = |c: char| is_mark(c) || WIDE_MARKS.contains(&c);
    let [a, b, c] = *tail;
    let spaced = c == ' ' && (STOPS.contains(&b) || is_mark(b) && STOPS.contains(&a));
    let stops = |before: char, last: char| WIDE_STOPS.contains(&last) || is_any_mark(last) && WIDE_STOPS.contains(&before);
    spaced || stops(b, c) || c == ' ' && stops(a, b)
}

impl Composer {
    pub fn new(own: usize, conference: &Conference) -> Self {
        let legs = &conference.legs;
        Composer {
            own: own as u8,
            legs: legs.len() as u32,
            names: legs.iter().map(|leg| format!("[{}] ", leg.name)).collect(),
            relabel: conference.relabel,
            waits: 0,
            known: 0,
            since: vec![0; legs.len()],
            speaker: None,
            given_at: 0,
            has_chunk: false,
            tail: ['\0'; 3],
            erasable: 0,
            label_due: false,
            shown: Shown::Nothing,
            after_cr: false,
        }
    }

    /// Sees who waits at a turn.
    #[inline]
    pub fn ask(&mut self, now: u32) {
        let mut fresh = self.waits & !self.known;
        self.known = self.waits;
        while fresh != 0 {
            self.since[fresh.trailing_zeros() as usize] = now;
            fresh &= fresh - 1;
        }
    }

    fn is_left(&self, speaker: usize, now: u32) -> bool {
        let mut others = self.waits & !(1 << speaker);
        if !self.has_chunk || others == 0 {
            return false;
        }
        if ends_line(&self.tail) || ends_sentence(&self.tail) {
            return true;
        }
        if self.waits >> speaker & 1 == 0 && self.given_at + SILENCE <= now {
            return true;
        }
        while others != 0 {
            if self.since[others.trailing_zeros() as usize] + PATIENCE <= now {
                return true;
            }
            others &= others - 1;
        }
        false
    }

    fn is_labelled_again(&self, now: u32) -> bool {
        self.has_chunk && self.relabel.is_some_and(|ms| self.given_at + ms <= now)
    }

    /// Whose text is given now, if any is; a run begins where that is another than before, or where the label is due again.
    pub fn next_speaker(&mut self, now: u32) -> Option<usize> {
        match self.speaker {
            None if self.waits == 0 => return None,
            None => self.begin(self.waits.trailing_zeros()),
            Some(speaker) if self.is_left(speaker, now) => {
                let start = (speaker as u32 + 1) % self.legs;
                let behind = self.waits >> start;
                self.begin(if behind != 0 { start + behind.trailing_zeros() } else { self.waits.trailing_zeros() });
            }
            Some(speaker) if self.waits >> speaker & 1 == 0 => return None,
            Some(speaker) if self.is_labelled_again(now) => self.begin(speaker as u32),
            Some(_) => {}
        }
        self.speaker
    }

    fn begin(&mut self, speaker: u32) {
        self.speaker = Some(speaker as usize);
        self.label_due = true;
        self.begin_run();
    }

    fn begin_run(&mut self) {
        self.has_chunk = false;
        self.tail = ['\0'; 3];
        self.erasable = 0;
    }

    fn label(&self) -> &str {
        &self.names[self.speaker.unwrap()]
    }

    /// How many octets of chunks fit into the packet: while the label is to come its room is kept, with that of a new line.
    pub fn room(&self) -> usize {
        if self.label_due {
            MOST_TEXT - NEW_LINE.len_utf8() - self.label().len()
        } else {
            MOST_TEXT
        }
    }

    fn put_label(&mut self, text: &mut Vec<u8>) {
        if self.shown == Shown::Other {
            text.extend_from_slice(NEW_LINE.encode_utf8(&mut [0; 3]).as_bytes());
        }
        text.extend_from_slice(self.label().as_bytes());
        self.label_due = false;
        self.erasable = 0;
        self.shown = Shown::Other;
        self.after_cr = false;
    }

    /// Gives these chunks of the speaker; where none of them fits beside the label, the label alone.
    pub fn give(&mut self, chunks: &Chunks, next: u32, last: u32, text: &mut Vec<u8>) {
        if next == last {
            self.put_label(text);
            self.begin_run();
            return;
        }
        let octets = &chunks.text[chunks.bounds[next as usize] as usize..chunks.bounds[last as usize] as usize];
        self.has_chunk = true;
        if octets.iter().all(|octet| matches!(octet, b' '..=b'~') && !matches!(octet, b'[' | b']')) {
            if self.label_due {
                self.put_label(text);
            }
            text.extend_from_slice(octets);
            self.erasable += octets.len() as u64;
            self.shown = Shown::Other;
            self.after_cr = false;
            for &octet in &octets[octets.len().saturating_sub(3)..] {
                self.tail = [self.tail[1], self.tail[2], octet.into()];
            }
        } else {
            for c in std::str::from_utf8(octets).unwrap().chars().filter(|&c| !is_direction(c)) {
                self.put(c, text);
                self.tail = [self.tail[1], self.tail[2], c];
            }
        }
    }

    fn put(&mut self, c: char, text: &mut Vec<u8>) {
        let mut sent = c;
        match c {
            '\n' | '\r' | NEW_LINE | '\u{2029}' => {
                // CR LF is one new line, also where the CR is another's.
                if !(c == '\n' && self.after_cr) {
                    self.erasable += 1;
                }
                self.shown = Shown::NewLine;
            }
            '\u{8}' if self.erasable > 0 => {
                self.erasable -= 1;
                self.shown = Shown::Other;
            }
            '\u{8}' => {
                if self.label_due {
                    self.put_label(text);
                }
                sent = 'X';
                self.shown = Shown::Other;
            }
            _ if is_silent(c) => {}
            _ => {
                if self.label_due {
                    self.put_label(text);
                }
                sent = match c {
                    '[' => '(',
                    ']' => ')',
                    '\u{FF3B}' => '\u{FF08}',
                    '\u{FF3D}' => '\u{FF09}',
                    _ => c,
                };
                self.erasable = if c == '\u{FFFD}' { 0 } else { self.erasable + 1 };
                self.shown = Shown::Other;
            }
        }
        self.after_cr = c == '\r';
        text.extend_from_slice(sent.encode_utf8(&mut [0; 4]).as_bytes());
    }

    /// The speaker was given text now; `more` says whether more of him waits.
    pub fn given(&mut self, now: u32, more: bool) {
        let bit = 1 << self.speaker.unwrap();
        self.given_at = now;
        self.known &= !bit;
        if !more {
            self.waits &= !bit;
        }
    }
}
