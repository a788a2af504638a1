//! FLAC frames, read and written with a proof.
//!
//! [`read_frame`] reads the frame at the start of a slice into a buffer of samples, [`Frames`] reads frame after frame,
//! [`read_stream_header`] reads what a FLAC file starts with, [`Stream`] a whole file, and [`write_frame`] writes a frame
//! into a buffer of bytes. All are proved against a definition of RFC 9639: every input and every buffer gets one answer,
//! and what the buffers hold afterwards is fixed too. No call panics, none but the iterator of [`Stream`] allocates, and
//! nothing is kept between calls.
//!
//! With fixed blocking a frame does not say where in its stream it belongs: that takes the size of the stream's blocks.
//! A frame may also leave its bits and its rate to the stream header. [`ReadSettings`] gives all that to the reader, or
//! says that it is unknown. [`Frames`] takes the size from the first frame, [`Stream`] the rest from the header.
//!
//! ```
//! use thriftacorn::{read_frame, ReadSettings, Refusal};
//!
//! // The frame of RFC 9639's first example: two channels of one sample.
//! let bytes = [0xFF, 0xF8, 0x69, 0x18, 0x00, 0x00, 0xBF, 0x03, 0x58, 0xFD, 0x03, 0x12, 0x8B, 0xAA, 0x9A];
//! let mut samples = [0; 4096];
//! let frame = read_frame(&bytes, &ReadSettings::of_stream(&bytes), &mut samples)?;
//! assert_eq!((frame.consumed, frame.channels, frame.bits, frame.block_size), (15, 2, 16, 1));
//! assert_eq!((frame.first, &samples[..frame.samples()]), (Some(0), &[25588, 10416][..]));
//! # Ok::<(), Refusal>(())
//! ```
//!
//! # What a refusal asks of you
//!
//! A [`Refusal`] needs more bytes, or more room, or is final, and [`Refusal::needs`] says which. Half a frame is not a
//! bad frame. Only after a final refusal may a program skip ahead and search for the next sync code: the sound in a
//! frame can be any bytes, even those of a whole frame with both its check sums right.
//!
//! ```
//! use thriftacorn::{read_frame, Need, ReadSettings, Refusal};
//!
//! // A frame of one channel, 8 bits, 191 verbatim samples. Fifteen of them are the bytes of the frame above.
//! let mut frame = vec![0xFF, 0xF8, 0x60, 0x02, 0x00, 0xBE, 0x0F, 0x02];
//! frame.extend((0..191).map(|i| (i * i % 251 - 125) as u8));
//! let inside = [0xFF, 0xF8, 0x69, 0x18, 0x00, 0x00, 0xBF, 0x03, 0x58, 0xFD, 0x03, 0x12, 0x8B, 0xAA, 0x9A];
//! frame[107..122].copy_from_slice(&inside);
//! frame.extend([0x17, 0x03]);
//! assert_eq!(frame.len(), 201);
//!
//! // Only 161 bytes of it have arrived. The answer is to wait.
//! let (mut samples, unknown) = ([0; 256], ReadSettings::new());
//! let so_far = &frame[..161];
//! let refusal = read_frame(so_far, &unknown, &mut samples).unwrap_err();
//! assert_eq!((refusal, refusal.needs()), (Refusal::CutShort, Need::Wait));
//!
//! // A program that takes this for a bad frame, and searches on, finds one at byte 107 that nobody recorded.
//! let found = (1..so_far.len()).find(|&place| read_frame(&so_far[place..], &unknown, &mut samples).is_ok());
//! assert_eq!(found, Some(107));
//!
//! // A program that waits gets the frame.
//! let whole = read_frame(&frame, &unknown, &mut samples)?;
//! assert_eq!((whole.consumed, whole.channels, whole.block_size), (201, 1, 191));
//! # Ok::<(), Refusal>(())
//! ```
//!
//! # What will not change
//!
//! A refusal keeps its number and an answer its meaning. [`Refusal`], [`Frame`], [`StreamInfo`], [`ReadSettings`]
//! and [`WriteSettings`] are `#[non_exhaustive]`: there may be more causes, reports and settings later.
//!
//! The functions come from the static library `libthriftacorn.a`; `build.rs` says where it is found.
mod block;
mod frames;
mod library;
mod read;
mod refusal;
mod settings;
mod stream;
mod write;

pub use frames::Frames;
pub use read::{read_frame, Frame, ROOM};
pub use refusal::{Need, Refusal};
pub use settings::{ReadSettings, StreamRecord};
pub use stream::{read_stream_header, Block, Stream, StreamInfo};
pub use write::{write_frame, Blocking, WriteSettings};

/// The result for a number that the library returned: 0 means the value, any other a refusal.
fn answer<T>(number: u8, value: T) -> Result<T, Refusal> {
    match number {
        0 => Ok(value),
        _ => Err(Refusal::from_number(number).expect("the contract has no number over 13")),
    }
}
