//! The binding's tests, and what they share: RFC 9639's first frame, and reports as values that can be compared.
mod block;
mod needs;
mod read;
mod settings;
mod stream;
mod write;

use thriftacorn::{Frame, ReadSettings, Refusal};

/// The frame of RFC 9639's first example.
const WHOLE: [u8; 15] = [0xFF, 0xF8, 0x69, 0x18, 0x00, 0x00, 0xBF, 0x03, 0x58, 0xFD, 0x03, 0x12, 0x8B, 0xAA, 0x9A];

/// A report's values: consumed, first sample, channels, bits, block size.
type Values = (usize, Option<u64>, usize, u32, usize);

const WHOLE_VALUES: Values = (15, Some(0), 2, 16, 1);

fn values(frame: Frame) -> Values {
    (frame.consumed, frame.first, frame.channels, frame.bits, frame.block_size)
}

/// Reads the first frame of a stream: the size of the blocks is its own.
fn read_first(bytes: &[u8], samples: &mut [i32]) -> Result<Frame, Refusal> {
    thriftacorn::read_frame(bytes, &ReadSettings::of_stream(bytes), samples)
}
