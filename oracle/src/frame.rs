//! Whole random frames, with the check sums right.
use crate::fault::Fault::{self, *};
use crate::header::Header;
pub use crate::header::Sizes;
use crate::pen::Pen;
use crate::subframe::Subframe;
use common::draw::Draw;
use common::sums::{crc16, crc8};

/// What kind of frame is wanted.
#[derive(Clone, Copy)]
pub struct Taste {
    pub sizes: Sizes,
    /// Whether the blocking is variable; either if there is no wish.
    pub variable: Option<bool>,
    pub fault: Option<Fault>,
    pub extreme: bool,
    pub edges: bool,
    pub escaped: bool,
}

/// What was written for a frame.
#[derive(Clone, Copy)]
pub struct Written {
    /// The length of the header, including its CRC-8.
    pub header: usize,
    /// The samples per channel.
    pub size: u32,
    /// How many samples the frame has.
    pub samples: usize,
}

/// The faults that lie in a subframe.
fn is_in_subframe(fault: Fault) -> bool {
    !is_in_header(fault) && fault != FrameSum
}

pub fn is_in_header(fault: Fault) -> bool {
    (fault as u32) <= HeaderSum as u32
}

/// Adds a frame to the pen, which must be at the start of a byte.
pub fn write_frame(pen: &mut Pen, draw: &mut Draw, taste: Taste) -> Written {
    let start = pen.bytes.len();
    let mut header = Header::draw(draw, taste.sizes, taste.variable);
    header.suit(draw, taste.fault);
    header.write(pen, draw, taste.fault);
    let length = pen.bytes.len() - start;
    let faulty = draw.below(header.channels());
    // After a faulty header a short body is enough.
    let size = if taste.fault.is_some_and(is_in_header) { header.size.min(9) } else { header.size };
    for channel in 0..header.channels() {
        let fault = taste.fault.filter(|fault| is_in_subframe(*fault) && channel == faulty);
        let width = header.width(channel);
        Subframe { pen, draw, size, width, fault, extreme: taste.extreme, edges: taste.edges, escaped: taste.escaped }
            .write();
    }
    let padding = draw.next();
    pen.align(if draw.once_in(2) { padding } else { 0 });
    let wrong = if taste.fault == Some(FrameSum) { draw.from(1, 65535) as u16 } else { 0 };
    pen.put(u64::from(crc16(&pen.bytes[start..]) ^ wrong), 16);
    Written { header: length, size: header.size, samples: (header.channels() * header.size) as usize }
}

/// Corrects both check sums of a frame after its bytes were changed.
pub fn mend(frame: &mut [u8], header: usize) {
    frame[header - 1] = crc8(&frame[..header - 1]);
    let end = frame.len() - 2;
    let sum = crc16(&frame[..end]);
    frame[end..].copy_from_slice(&sum.to_be_bytes());
}

/// How many bytes the coded number takes, by its first byte.
fn number_length(header: &[u8]) -> usize {
    (header[4].leading_ones() as usize).max(1)
}

/// The length of a header, including its CRC-8, by its codes. There are at least five bytes.
pub fn header_length(header: &[u8]) -> usize {
    let size = match header[2] >> 4 {
        6 => 1,
        7 => 2,
        _ => 0,
    };
    let rate = match header[2] & 15 {
        12 => 1,
        13 | 14 => 2,
        _ => 0,
    };
    4 + number_length(header) + size + rate + 1
}

/// The block size in a header that is whole and right.
pub fn block_size(header: &[u8]) -> usize {
    let more = &header[4 + number_length(header)..];
    match header[2] >> 4 {
        1 => 192,
        code @ 2..=5 => 144 << code,
        6 => usize::from(more[0]) + 1,
        7 => usize::from(u16::from_be_bytes([more[0], more[1]])) + 1,
        code => 1 << code,
    }
}
