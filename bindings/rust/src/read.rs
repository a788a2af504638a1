//! Reading one frame.
use crate::{answer, library, ReadSettings, Refusal};

/// Room for every frame: eight channels of 65535 samples.
pub const ROOM: usize = 8 * 65535;

/// What is reported about a frame that was read. More may be reported later, so other crates cannot construct one.
#[derive(Clone, Copy, Debug, PartialEq, Eq, Hash)]
#[non_exhaustive]
pub struct Frame {
    /// The bytes of the frame, from its sync code through its CRC-16. The next frame starts after them.
    pub consumed: usize,
    /// The number of the block's first sample in its channel: with variable blocking the number in the header, with
    /// fixed blocking that number times the size of the stream's blocks. It is `None` if that size is needed and
    /// [`ReadSettings::block`] does not give it.
    pub first: Option<u64>,
    /// The samples of a channel in one second: the frame's own, or else the stream's. It is `None` if the frame has none
    /// and [`ReadSettings::stream`] is not given. It changes nothing else.
    pub rate: Option<u32>,
    /// How many channels there are, 1 to 8.
    pub channels: usize,
    /// Bits per sample, 4 to 24: the frame's own (8, 12, 16, 20 or 24), or else the stream's.
    pub bits: u32,
    /// Samples per channel, 1 to 65535.
    pub block_size: usize,
}

impl Frame {
    /// How many samples the frame has: channels times block size.
    pub const fn samples(&self) -> usize {
        self.channels * self.block_size
    }
}

/// Where the library stores what it reports about a frame.
#[derive(Default)]
pub(crate) struct Report {
    pub consumed: usize,
    pub first_known: u32,
    pub first: u64,
    pub rate_known: u32,
    pub rate: u32,
    pub channels: usize,
    pub bits: u32,
    pub size: usize,
}

/// The result of a call that reports a frame.
pub(crate) fn reported(call: impl FnOnce(&mut Report) -> u8) -> Result<Frame, Refusal> {
    let mut report = Report::default();
    let number = call(&mut report);
    let Report { consumed, first_known, first, rate_known, rate, channels, bits, size } = report;
    let (first, rate) = ((first_known == 1).then_some(first), (rate_known == 1).then_some(rate));
    answer(number, Frame { consumed, first, rate, channels, bits, block_size: size })
}

/// Reads the frame at the start of `bytes` into `samples`, channel after channel. Neither the bytes after the frame nor
/// what `samples` held before changes the answer.
///
/// With N for [`Frame::samples`], what `samples` holds afterwards:
///
/// | answer | `samples` |
/// |---|---|
/// | a frame | the first N are the samples, the others untouched |
/// | 1, 3, 5, 6, 7, 11 | untouched |
/// | 2, 4, 8, 9, before the first subframe's first bit was read | untouched |
/// | 2, 4, 8, 9, from then on | the first N are zero, the others untouched |
/// | 10 | the first N are zero, the others untouched |
///
/// Settings that no stream has are refused with 11 before a byte is read, so on empty input too. Bits that are not the
/// stream's, and a block larger than the stream's, are refused with 9 after the header, before the room is looked at.
///
/// With the same settings, more bytes can change only the answers 1 and 2, and more room only 7: [`Refusal::needs`]
/// says which it is. [`ROOM`] is enough for every frame.
///
/// ```
/// use thriftacorn::{read_frame, ReadSettings, Refusal};
/// let mut samples = [7; 2];
/// let unknown = ReadSettings::new();
/// assert_eq!(read_frame(&[], &unknown, &mut samples), Err(Refusal::NothingLeft));
/// assert_eq!(read_frame(b"RIFF", &unknown, &mut samples), Err(Refusal::NotSync));
/// assert_eq!(read_frame(&[], &unknown.with_block(65536), &mut samples), Err(Refusal::BadArgument));
/// assert_eq!(samples, [7, 7]);
/// ```
pub fn read_frame(bytes: &[u8], settings: &ReadSettings, samples: &mut [i32]) -> Result<Frame, Refusal> {
    let (block_given, block) = settings.given_block();
    let (stream_given, bits, rate) = settings.given_stream();
    // SAFETY: as `library` requires; the eight pointers are to different fields of `report`.
    reported(|report| unsafe {
        library::thriftacorn_read_frame_v3(
            bytes.as_ptr(),
            bytes.len(),
            block_given,
            block,
            stream_given,
            bits,
            rate,
            samples.as_mut_ptr(),
            samples.len(),
            &mut report.consumed,
            &mut report.first_known,
            &mut report.first,
            &mut report.rate_known,
            &mut report.rate,
            &mut report.channels,
            &mut report.bits,
            &mut report.size,
        )
    })
}
