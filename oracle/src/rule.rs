//! What this reader must answer, by claxon's answer, the settings and the room. claxon takes no settings: it goes on
//! whatever the size of a block and its bits are, and multiplies a frame's number by that size.
use crate::frame::{block_size, header_length};
use common::readers::{Answer, Claxon, Report};
use thriftacorn::ReadSettings;

/// The entries of docs/DIFFERENCES.md at which the two answers differ, as far as a family reaches them. At most other
/// entries the two agree and differ only from the RFC.
#[derive(Clone, Copy, Debug, PartialEq, Eq)]
pub enum Entry {
    OneByte,
    BitsSeven,
    NumberFf,
    Room,
    Escaped,
    ShortBlock,
    LargerBlock,
    OtherBits,
}

/// The names of the entries.
pub const LISTED: [&str; 8] = [
    "one byte of input",
    "bits code 7, 32 bits",
    "number starting with FF",
    "room",
    "escaped partition",
    "first sample of a short block",
    "a block larger than the stream's",
    "bits that are not the stream's",
];

/// What a header says that is whole and right.
#[derive(Clone, Copy)]
pub struct Head {
    is_fixed: bool,
    pub size: usize,
    samples: usize,
    /// The bits of a sample, 0 if the header leaves them to the stream.
    pub bits: u32,
}

impl Head {
    /// The header at the start of these bytes. Whether it is right, claxon tells when it reads the header alone: it
    /// then wants more bytes, or the bits that a header without them leaves to the stream.
    pub fn of(bytes: &[u8]) -> Option<Head> {
        // A number that starts with FF, claxon alone takes.
        if bytes.len() < 5 || bytes[4] == 0xFF {
            return None;
        }
        let header = bytes.get(..header_length(bytes))?;
        let bits = match Claxon::new(header, Vec::new()).read() {
            Answer::Refused(2) => [0, 8, 12, 0, 16, 20, 24, 0][usize::from(header[3] >> 1 & 7)],
            Answer::Refused(8) => 0,
            _ => return None,
        };
        let channels = match usize::from(header[3] >> 4) {
            code @ 0..=7 => code + 1,
            _ => 2,
        };
        let size = block_size(header);
        Some(Head { is_fixed: header[1] & 1 == 0, size, samples: channels * size, bits })
    }

    /// Whether the block is larger than the stream's, which matters with fixed blocking only.
    fn is_larger(&self, settings: &ReadSettings) -> bool {
        self.is_fixed && settings.block.is_some_and(|size| self.size > size)
    }
}

/// The settings of a stream whose first frame starts with this header.
pub fn stream_settings(first: Option<&Head>) -> ReadSettings {
    first.map_or(ReadSettings::new(), |head| ReadSettings::new().with_block(head.size))
}

/// What this reader must answer.
pub struct Due {
    pub answer: Answer,
    /// Whether the buffer must be untouched, whatever the number.
    pub untouched: bool,
    /// The entry by which this is not claxon's answer.
    pub entry: Option<Entry>,
}

/// What is due for these bytes, which start with this header, where claxon answers so. A header without bits must not be
/// given bits of the stream up to 24: claxon does not read on there.
pub fn due(bytes: &[u8], head: Option<&Head>, settings: &ReadSettings, room: usize, claxon: Answer) -> Due {
    let refused = |number: u8, entry: Option<Entry>| {
        let answer = Answer::Refused(number);
        Due { answer, untouched: true, entry: entry.filter(|_| answer != claxon) }
    };
    if settings.block.is_some_and(|size| !(1..=65535).contains(&size)) {
        return refused(11, None);
    }
    if settings.stream.is_some_and(|stream| !(4..=32).contains(&stream.bits)) {
        return refused(11, None);
    }
    // This reader answers nothing else, so it never agrees with such an answer.
    if claxon.number().is_none() {
        return Due { answer: claxon, untouched: false, entry: None };
    }
    if let Some((number, entry)) = before_the_sum(bytes) {
        return refused(number, Some(entry));
    }
    match head.filter(|head| head.bits > 0) {
        Some(head) if settings.stream.is_some_and(|stream| stream.bits != head.bits) => {
            refused(9, Some(Entry::OtherBits))
        }
        Some(head) if head.is_larger(settings) => refused(9, Some(Entry::LargerBlock)),
        Some(head) if head.samples > room => refused(7, Some(Entry::Room)),
        _ => placed(head, settings, claxon),
    }
}

/// The refusals at which claxon parts from this reader before it has read a header.
fn before_the_sum(bytes: &[u8]) -> Option<(u8, Entry)> {
    if bytes.len() == 1 {
        return Some((2, Entry::OneByte));
    }
    let &[a, b, c, d, ref rest @ ..] = bytes else { return None };
    if a != 0xFF || b & 0xFE != 0xF8 || c >> 4 == 0 || c & 15 == 15 || d >> 4 > 10 {
        return None;
    }
    match (d >> 1 & 7, d & 1, rest.first()) {
        (7, _, _) => Some((8, Entry::BitsSeven)),
        (0..=2 | 4..=6, 0, Some(0xFF)) => Some((5, Entry::NumberFf)),
        _ => None,
    }
}

/// claxon's answer, with the first sample's number by the stream's block size, and the stream's rate if the frame has
/// none.
fn placed(head: Option<&Head>, settings: &ReadSettings, claxon: Answer) -> Due {
    let rated = match claxon {
        Answer::Frame(frame) => {
            let rate = frame.rate.or(settings.stream.map(|stream| stream.rate));
            Answer::Frame(Report { rate, ..frame })
        }
        _ => claxon,
    };
    let (answer, entry) = match (rated, head.filter(|head| head.is_fixed)) {
        (Answer::Frame(frame), Some(head)) => {
            let number = frame.first.expect("claxon has a number for it") / head.size as u64;
            let first = settings.block.map(|size| number * size as u64);
            let differs = first.is_some() && first != frame.first;
            (Answer::Frame(Report { first, ..frame }), differs.then_some(Entry::ShortBlock))
        }
        _ => (rated, None),
    };
    Due { answer, untouched: false, entry }
}
