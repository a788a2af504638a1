//! What a stream header must be answered, worked out plainly here; what claxon says of it; and the entries of
//! docs/DIFFERENCES.md at which the two differ.
use claxon::metadata::MetadataBlockReader;
use claxon::{Error, FlacReader};
use std::io::Cursor;
use std::panic::{catch_unwind, AssertUnwindSafe};
use thriftacorn::StreamInfo;

/// What is reported about a stream header, in the order of its fields, and where it ends.
#[derive(Clone, Debug, PartialEq, Eq)]
pub struct Header {
    blocks: [u32; 2],
    frames: [u32; 2],
    rate: u32,
    channels: u32,
    bits: u32,
    samples: u64,
    md5: [u8; 16],
    end: usize,
}

impl Header {
    pub fn of_ours(info: &StreamInfo, end: usize) -> Header {
        Header {
            blocks: [info.smallest_block, info.largest_block],
            frames: [info.smallest_frame, info.largest_frame],
            rate: info.rate,
            channels: info.channels,
            bits: info.bits,
            samples: info.samples,
            md5: info.md5,
            end,
        }
    }

    /// claxon has no number where 0 is stored.
    fn of_claxon(info: claxon::metadata::StreamInfo, end: usize) -> Header {
        Header {
            blocks: [info.min_block_size.into(), info.max_block_size.into()],
            frames: [info.min_frame_size.unwrap_or(0), info.max_frame_size.unwrap_or(0)],
            rate: info.sample_rate,
            channels: info.channels,
            bits: info.bits_per_sample,
            samples: info.samples.unwrap_or(0),
            md5: info.md5sum,
            end,
        }
    }
}

/// The number of these bytes, the first one the most significant.
fn number(bytes: &[u8]) -> u64 {
    bytes.iter().fold(0, |number, byte| number << 8 | u64::from(*byte))
}

/// The next bytes, or 2.
fn take<'a>(bytes: &'a [u8], at: &mut usize, count: usize) -> Result<&'a [u8], u8> {
    let part = bytes.get(*at..).and_then(|rest| rest.get(..count)).ok_or(2)?;
    *at += count;
    Ok(part)
}

/// What this reader must answer, by RFC 9639 section 8 and document 02: byte by byte, as far as a field needs it.
pub fn due(bytes: &[u8]) -> Result<Header, u8> {
    let mut at = 0;
    if take(bytes, &mut at, 4)? != b"fLaC" {
        return Err(3);
    }
    let mut first = None;
    loop {
        let byte = take(bytes, &mut at, 1)?[0];
        if byte & 0x7F == 127 {
            return Err(4);
        }
        if first.is_none() && byte & 0x7F != 0 {
            return Err(9);
        }
        let length = number(take(bytes, &mut at, 3)?) as usize;
        if first.is_some() {
            take(bytes, &mut at, length)?;
        } else if length != 34 {
            return Err(9);
        } else {
            first = Some(fields(bytes, &mut at)?);
        }
        if byte & 0x80 != 0 {
            return first.map(|header| Header { end: at, ..header }).ok_or(9);
        }
    }
}

/// The fields of STREAMINFO. The bits are judged once their last byte is there.
fn fields(bytes: &[u8], at: &mut usize) -> Result<Header, u8> {
    let sizes = take(bytes, at, 10)?;
    let part = |from: usize, to: usize| number(&sizes[from..to]) as u32;
    let shape = number(take(bytes, at, 4)?);
    let bits = (shape >> 4 & 31) as u32 + 1;
    if bits < 4 {
        return Err(9);
    }
    let samples = (shape & 15) << 32 | number(take(bytes, at, 4)?);
    Ok(Header {
        blocks: [part(0, 2), part(2, 4)],
        frames: [part(4, 7), part(7, 10)],
        rate: (shape >> 12) as u32,
        channels: (shape >> 9 & 7) as u32 + 1,
        bits,
        samples,
        md5: take(bytes, at, 16)?.try_into().expect("sixteen bytes"),
        end: 0,
    })
}

/// What claxon said.
#[derive(Debug)]
pub enum Said {
    Header(Header),
    Short,
    Refused(&'static str),
    Panicked,
}

impl Said {
    /// The number that document 02 has for a refusal of claxon's.
    pub fn number(&self) -> Option<u8> {
        match self {
            Said::Short => Some(2),
            Said::Refused("invalid stream header" | "stream starts with ID3 header rather than FLAC header") => Some(3),
            Said::Refused("invalid metadata block type") => Some(4),
            Said::Refused("streaminfo block missing" | "invalid streaminfo metadata block length") => Some(9),
            _ => None,
        }
    }
}

fn said<T>(result: Result<T, Error>) -> Result<T, Said> {
    result.map_err(|error| match error {
        Error::IoError(_) => Said::Short,
        Error::FormatError(why) | Error::Unsupported(why) => Said::Refused(why),
    })
}

/// claxon's reading of a header. Where it ends, claxon's iterator over the blocks says, since `FlacReader` reads ahead.
pub fn claxon(bytes: &[u8]) -> Said {
    let ask = || {
        let reader = said(FlacReader::new(Cursor::new(bytes)))?;
        let mut cursor = Cursor::new(&bytes[4..]);
        for block in MetadataBlockReader::new(&mut cursor) {
            said(block)?;
        }
        Ok(Header::of_claxon(reader.streaminfo(), 4 + cursor.position() as usize))
    };
    match catch_unwind(AssertUnwindSafe(ask)) {
        Ok(Ok(header)) => Said::Header(header),
        Ok(Err(said)) => said,
        Err(_) => Said::Panicked,
    }
}

/// The entries of docs/DIFFERENCES.md.
#[derive(Clone, Copy, Debug)]
pub enum Entry {
    JudgedEarly,
    FewBits,
    Bounds,
    SecondInfo,
    Tags,
    Application,
    FirstBlock,
}

pub const LISTED: [&str; 7] = [
    "a field judged before its block is whole",
    "stream bits below 4",
    "bounds in STREAMINFO",
    "a second STREAMINFO",
    "the contents of tags",
    "the contents of an application block",
    "the contents of a first block of another type",
];

/// Whether a STREAMINFO of 34 bytes comes first and has fewer than 4 bits.
fn has_few_bits(bytes: &[u8]) -> bool {
    bytes.len() >= 22 && bytes[4] & 0x7F == 0 && bytes[5..8] == [0, 0, 34] && number(&bytes[20..22]) >> 4 & 31 < 3
}

/// The entry by which claxon's answer is not the one due for these bytes.
pub fn entry(bytes: &[u8], due: &Result<Header, u8>, said: &Said) -> Option<Entry> {
    let why = match (due, said) {
        (Err(4 | 9), Said::Short) => return Some(Entry::JudgedEarly),
        // claxon goes on, and may find something else after it.
        (Err(9), Said::Header(_) | Said::Refused(_)) if has_few_bits(bytes) => return Some(Entry::FewBits),
        (_, Said::Refused(why)) => *why,
        _ => return None,
    };
    let starts = |words: &[&str]| words.iter().any(|word| why.starts_with(word));
    let entry = if starts(&["inconsistent bounds", "invalid block size", "invalid sample rate"]) {
        // A later STREAMINFO has bounds too, but there claxon stops at the block itself.
        Entry::Bounds
    } else if starts(&["encountered second streaminfo", "invalid streaminfo metadata block length"]) {
        Entry::SecondInfo
    } else if starts(&["Vorbis comment", "vendor string", "too many entries", "encountered second Vorbis", "vorbis"]) {
        Entry::Tags
    } else if starts(&["application block"]) {
        Entry::Application
    } else {
        return None;
    };
    // A first block of another type is refused here for its type, whatever it holds.
    match (due, entry) {
        (Err(9), Entry::Tags | Entry::Application) => Some(Entry::FirstBlock),
        _ => Some(entry),
    }
}
