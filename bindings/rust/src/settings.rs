//! What the reader is told about a frame's stream.
use crate::library;

/// The settings for reading a frame: what is known of its stream. Other crates start from [`ReadSettings::new`] or
/// [`ReadSettings::of_stream`] and may set each field. There may be more fields later; `new` will set them so that
/// nothing changes.
///
/// With fixed blocking a frame has only its own number, which counts blocks of the stream's size. A stream's last block
/// may be smaller, so the size of a frame's own block does not say where it belongs:
///
/// ```
/// use thriftacorn::{read_frame, ReadSettings};
///
/// // The last frame of RFC 9639's second example. Its number is 1: three samples follow a block of sixteen.
/// let last = [
///     0xFF, 0xF8, 0x69, 0x18, 0x01, 0x02, 0xA4, 0x02, 0xC3, 0x82, 0xC4, 0x0B, //
///     0xC1, 0x4A, 0x03, 0xEE, 0x48, 0xDD, 0x03, 0xB6, 0x7C, 0x13, 0x30,
/// ];
/// let mut samples = [0; 6];
/// let known = read_frame(&last, &ReadSettings::new().with_block(16), &mut samples)?;
/// assert_eq!((known.block_size, known.first), (3, Some(16)));
/// let unknown = read_frame(&last, &ReadSettings::new(), &mut samples)?;
/// assert_eq!((unknown.block_size, unknown.first), (3, None));
/// # Ok::<(), thriftacorn::Refusal>(())
/// ```
#[derive(Clone, Copy, Debug, Default, PartialEq, Eq, Hash)]
#[non_exhaustive]
pub struct ReadSettings {
    /// The size of the stream's blocks, in samples per channel: 1 to 65535, or `None` if it is unknown. Any other size
    /// is refused with 11 before a byte is read. Only frames with fixed blocking go by it: their first sample's number
    /// is this size times the frame's, and a block that is larger is refused with 9.
    pub block: Option<usize>,
    /// What the stream header gives to all frames, or `None` if there is none. Bits outside 4 to 32 are refused with 11
    /// before a byte is read. A frame that has no bits or no rate of its own takes these; without them, or with more than
    /// 24 bits, it is refused with 8. A frame whose own bits are others is refused with 9.
    pub stream: Option<StreamRecord>,
}

/// The bits of a sample and the sample rate, as a stream header gives them to the frames of its stream
/// ([`StreamInfo::record`](crate::StreamInfo::record)).
#[derive(Clone, Copy, Debug, PartialEq, Eq, Hash)]
pub struct StreamRecord {
    /// The bits of a sample.
    pub bits: u32,
    /// The samples of a channel in one second.
    pub rate: u32,
}

impl ReadSettings {
    /// Nothing is known of the stream.
    pub const fn new() -> ReadSettings {
        ReadSettings { block: None, stream: None }
    }

    /// The same with this size of the stream's blocks. Nothing is checked here: reading does that.
    pub const fn with_block(self, size: usize) -> ReadSettings {
        ReadSettings { block: Some(size), ..self }
    }

    /// The same with this record of the stream. Nothing is checked here either.
    ///
    /// ```
    /// use thriftacorn::{read_frame, ReadSettings, Refusal, StreamRecord};
    ///
    /// // A frame of one sample of 13 bits: there is no code for 13 bits, so the header leaves them to the stream.
    /// let frame = [0xFF, 0xF8, 0x60, 0x00, 0x00, 0x00, 0xEA, 0x02, 0xFF, 0xF8, 0x14, 0x8E];
    /// let (unknown, mut samples) = (ReadSettings::new(), [7; 1]);
    /// assert_eq!(read_frame(&frame, &unknown, &mut samples), Err(Refusal::NotDone));
    /// let known = unknown.with_stream(StreamRecord { bits: 13, rate: 250_000 });
    /// let report = read_frame(&frame, &known, &mut samples)?;
    /// assert_eq!((report.bits, report.rate, samples), (13, Some(250_000), [-1]));
    /// # Ok::<(), Refusal>(())
    /// ```
    pub const fn with_stream(self, stream: StreamRecord) -> ReadSettings {
        ReadSettings { stream: Some(stream), ..self }
    }

    /// What the first frame of a stream says: the size of its blocks is that of the first, whatever its blocking. It
    /// takes the frame's header, not the rest of the frame. If the bytes do not start with a header that is whole and
    /// right, nothing is known.
    ///
    /// ```
    /// use thriftacorn::ReadSettings;
    /// let header = [0xFF, 0xF8, 0x69, 0x98, 0x00, 0x0F, 0x99];
    /// assert_eq!(ReadSettings::of_stream(&header), ReadSettings::new().with_block(16));
    /// assert_eq!(ReadSettings::of_stream(&header[..6]), ReadSettings::new());
    /// ```
    pub fn of_stream(bytes: &[u8]) -> ReadSettings {
        let mut block = 0;
        // SAFETY: as `library` requires.
        let given = unsafe { library::thriftacorn_stream_block_v1(bytes.as_ptr(), bytes.len(), &mut block) };
        ReadSettings { block: (given == 1).then_some(block), stream: None }
    }

    /// The block as the library takes it: whether it is given, and its size.
    pub(crate) fn given_block(&self) -> (u32, usize) {
        match self.block {
            Some(size) => (1, size),
            None => (0, 0),
        }
    }

    /// The record as the library takes it: whether it is given, the bits and the rate.
    pub(crate) fn given_stream(&self) -> (u32, u32, u32) {
        match self.stream {
            Some(StreamRecord { bits, rate }) => (1, bits, rate),
            None => (0, 0, 0),
        }
    }
}
