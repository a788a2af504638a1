//! The two readers, each reading one frame, and their answers as document 01's numbers.
use std::io::Cursor;
use std::panic::{catch_unwind, AssertUnwindSafe};
pub use thriftacorn::ROOM;
use thriftacorn::{read_frame, Frame, ReadSettings, Refusal};

/// The sample that the buffer holds wherever no reader has written.
const FILL: i32 = 0x5A5A_5A5A;

/// What both readers report about a frame.
#[derive(Clone, Copy, Debug, PartialEq, Eq)]
pub struct Report {
    pub consumed: usize,
    /// The number of the first sample. claxon always has one.
    pub first: Option<u64>,
    pub rate: Option<u32>,
    pub channels: usize,
    pub bits: u32,
    pub block_size: usize,
}

impl From<Frame> for Report {
    fn from(frame: Frame) -> Report {
        let Frame { consumed, first, rate, channels, bits, block_size, .. } = frame;
        Report { consumed, first, rate, channels, bits, block_size }
    }
}

#[derive(Clone, Copy, Debug, PartialEq, Eq)]
pub enum Answer {
    Frame(Report),
    /// A refusal, by its number.
    Refused(u8),
    /// claxon met an escaped partition, which it does not read.
    Escaped,
    Panicked,
    /// A message of claxon's without a number here.
    Unknown(&'static str),
}

impl Answer {
    /// The answer's number, 0 for a frame.
    pub fn number(self) -> Option<u8> {
        match self {
            Answer::Frame(_) => Some(0),
            Answer::Refused(number) => Some(number),
            _ => None,
        }
    }
}

/// This repository's reader, with its buffer.
pub struct Ours {
    buffer: Vec<i32>,
    used: usize,
}

impl Ours {
    pub fn new() -> Ours {
        Ours { buffer: vec![FILL; ROOM + 1], used: 0 }
    }

    /// Reads the frame at the start of these bytes, with these settings and this much room.
    pub fn read(&mut self, bytes: &[u8], settings: &ReadSettings, room: usize) -> Answer {
        self.buffer[..self.used].fill(FILL);
        self.used = 0;
        match read_frame(bytes, settings, &mut self.buffer[..room]) {
            Ok(frame) => {
                self.used = frame.samples();
                Answer::Frame(frame.into())
            }
            Err(refusal) => {
                self.used = self.buffer.iter().position(|sample| *sample != 0).unwrap_or(room);
                Answer::Refused(refusal.number())
            }
        }
    }

    /// The samples of the frame read last.
    pub fn samples(&self) -> &[i32] {
        &self.buffer[..self.used]
    }

    /// Whether the buffer is as the answer requires: untouched by refusals before any subframe, cleared after a wrong
    /// CRC-16, and untouched after the part that was written.
    pub fn is_in_order(&self, answer: Answer) -> bool {
        let front = match answer {
            Answer::Refused(1 | 3 | 5 | 6 | 7 | 11) => self.used == 0,
            Answer::Refused(10) => self.used > 0,
            _ => true,
        };
        front && self.buffer[self.used] == FILL
    }

    /// Whether the front of the buffer is untouched.
    pub fn is_untouched(&self) -> bool {
        self.buffer[..64].iter().all(|sample| *sample == FILL)
    }
}

/// What claxon said of one frame, the same for both builds of it.
enum Said {
    Nothing,
    Block { samples: Vec<i32>, first: u64, channels: u32, block_size: u32 },
    Short,
    Unsupported(&'static str),
    Refused(&'static str),
}

/// Has a build of claxon read a frame from a cursor into a buffer.
macro_rules! ask {
    ($claxon:ident, $cursor:expr, $buffer:expr) => {
        match $claxon::frame::FrameReader::new($cursor).read_next_or_eof($buffer) {
            Ok(None) => Said::Nothing,
            Ok(Some(block)) => {
                let (first, channels, block_size) = (block.time(), block.channels(), block.duration());
                Said::Block { samples: block.into_buffer(), first, channels, block_size }
            }
            Err($claxon::Error::IoError(_)) => Said::Short,
            Err($claxon::Error::Unsupported(why)) => Said::Unsupported(why),
            Err($claxon::Error::FormatError(why)) => Said::Refused(why),
        }
    };
}

/// claxon's reader over one input, frame after frame.
pub struct Claxon<'a> {
    cursor: Cursor<&'a [u8]>,
    /// Where the frame read last starts.
    start: usize,
    pub samples: Vec<i32>,
}

impl<'a> Claxon<'a> {
    /// `samples` is a buffer to reuse.
    pub fn new(bytes: &'a [u8], samples: Vec<i32>) -> Claxon<'a> {
        Claxon { cursor: Cursor::new(bytes), start: 0, samples }
    }

    /// Reads the next frame.
    pub fn read(&mut self) -> Answer {
        self.start = self.cursor.position() as usize;
        let buffer = std::mem::take(&mut self.samples);
        let cursor = &mut self.cursor;
        let said = catch_unwind(AssertUnwindSafe(|| ask!(claxon, cursor, buffer)));
        said.map_or(Answer::Panicked, |said| self.answer(said))
    }

    /// Reads the last frame again, with claxon extended by escaped partitions.
    pub fn read_extended(&mut self) -> Answer {
        self.cursor.set_position(self.start as u64);
        let buffer = std::mem::take(&mut self.samples);
        let cursor = &mut self.cursor;
        let said = catch_unwind(AssertUnwindSafe(|| ask!(claxon_extended, cursor, buffer)));
        said.map_or(Answer::Panicked, |said| self.answer(said))
    }

    /// claxon does not report the bits and the rate, so they are taken from the header.
    fn answer(&mut self, said: Said) -> Answer {
        let bytes = &self.cursor.get_ref()[self.start..];
        match said {
            Said::Nothing => Answer::Refused(Refusal::NothingLeft.number()),
            Said::Short => Answer::Refused(2),
            Said::Unsupported("unencoded binary is not yet implemented") => Answer::Escaped,
            Said::Unsupported(_) => Answer::Refused(8),
            Said::Refused(message) => number_of(message, bytes),
            Said::Block { samples, first, channels, block_size } => {
                self.samples = samples;
                Answer::Frame(Report {
                    consumed: self.cursor.position() as usize - self.start,
                    first: Some(first),
                    rate: rate_of(bytes),
                    channels: channels as usize,
                    bits: [0, 8, 12, 0, 16, 20, 24, 0][usize::from(bytes[3] >> 1 & 7)],
                    block_size: block_size as usize,
                })
            }
        }
    }
}

/// The sample rate in a header that is whole and right (RFC 9639 sections 9.1.2 and 9.1.7). A rate that is not in the
/// table stands right before the CRC-8, after the coded number and the block size.
fn rate_of(header: &[u8]) -> Option<u32> {
    let after = 4 + (header[4].leading_ones() as usize).max(1);
    let at = after + [0, 0, 0, 0, 0, 0, 1, 2, 0, 0, 0, 0, 0, 0, 0, 0][usize::from(header[2] >> 4)];
    let two = || u32::from(u16::from_be_bytes([header[at], header[at + 1]]));
    match header[2] & 15 {
        0 => None,
        1 => Some(88_200),
        2 => Some(176_400),
        3 => Some(192_000),
        4 => Some(8000),
        5 => Some(16_000),
        6 => Some(22_050),
        7 => Some(24_000),
        8 => Some(32_000),
        9 => Some(44_100),
        10 => Some(48_000),
        11 => Some(96_000),
        12 => Some(1000 * u32::from(header[at])),
        13 => Some(two()),
        _ => Some(10 * two()),
    }
}

/// The number that document 01 has for claxon's message on these bytes.
fn number_of(message: &'static str, bytes: &[u8]) -> Answer {
    Answer::Refused(match message {
        "frame sync code missing" => 3,
        // claxon reports the reserved sync bit with the same message as reserved codes.
        "invalid frame header, encountered reserved value" if bytes[1] & 2 != 0 => 3,
        "invalid frame header, encountered reserved value"
        | "invalid frame header"
        | "invalid block size, exceeds 65535"
        | "invalid subframe header"
        | "invalid subframe header, encountered reserved value"
        | "invalid residual, encountered reserved value"
        | "invalid subframe, qlp precision value invalid" => 4,
        "invalid variable-length integer" | "invalid frame header, frame number too large" => 5,
        "frame header CRC mismatch" => 6,
        "wasted bits per sample must not exceed 31"
        | "subframe has no non-wasted bits"
        | "invalid partition order"
        | "invalid residual"
        | "invalid fixed subframe, order is larger than block size"
        | "invalid LPC subframe, lpc order is larger than block size" => 9,
        "frame CRC mismatch" => 10,
        _ => return Answer::Unknown(message),
    })
}
