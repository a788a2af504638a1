//! The stream header, and a whole FLAC file: its header and its frames.
use crate::{answer, library, Frame, Frames, ReadSettings, Refusal, StreamRecord, ROOM};

/// What a stream header says of its stream: its STREAMINFO block (RFC 9639 section 8.2). More may be reported later, so
/// other crates cannot construct one.
#[derive(Clone, Copy, Debug, Default, PartialEq, Eq, Hash)]
#[non_exhaustive]
pub struct StreamInfo {
    /// Samples per channel of the smallest block, the stream's last one aside.
    pub smallest_block: u32,
    /// Samples per channel of the largest block.
    pub largest_block: u32,
    /// The bytes of the smallest frame, 0 if that is unknown.
    pub smallest_frame: u32,
    /// The bytes of the largest frame, 0 if that is unknown.
    pub largest_frame: u32,
    /// The samples of a channel in one second.
    pub rate: u32,
    /// How many channels there are, 1 to 8.
    pub channels: u32,
    /// Bits per sample, 4 to 32.
    pub bits: u32,
    /// The samples of a channel in the whole stream, 0 if that is unknown.
    pub samples: u64,
    /// The MD5 of all samples, as it is stored. It is not checked.
    pub md5: [u8; 16],
}

impl StreamInfo {
    /// What the frames of the stream may leave to it.
    pub const fn record(&self) -> StreamRecord {
        StreamRecord { bits: self.bits, rate: self.rate }
    }
}

/// Reads the stream header at the start of `bytes`: the mark `fLaC` and all metadata blocks. Reported are what it says,
/// and how many bytes it takes: the frames start there. Only the first block, STREAMINFO, is read; the others are
/// skipped by their length, in no more time for a long one than for a short one.
///
/// | refusal | cause |
/// |---|---|
/// | 2 | the input ends before the header does; also if it is empty |
/// | 3 | the first four bytes are not `fLaC` |
/// | 4 | a block's type is 127 |
/// | 9 | the first block is not a STREAMINFO of 34 bytes, or the samples have fewer than 4 bits |
///
/// More bytes can change only the answer 2.
///
/// ```
/// use thriftacorn::{read_stream_header, Refusal};
///
/// // The stream of RFC 9639's first example, appendix D.1: its header has 42 bytes.
/// let mut stream = b"fLaC\x80\x00\x00\x22\x10\x00\x10\x00\x00\x00\x0F\x00\x00\x0F\x0A\xC4\x42\xF0\x00\x00\x00\x01".to_vec();
/// stream.extend([0x3E, 0x84, 0xB4, 0x18, 0x07, 0xDC, 0x69, 0x03, 0x07, 0x58, 0x6A, 0x3D, 0xAD, 0x1A, 0x2E, 0x0F]);
/// let (info, length) = read_stream_header(&stream)?;
/// assert_eq!((length, info.rate, info.channels, info.bits, info.samples), (42, 44100, 2, 16, 1));
/// assert_eq!((info.smallest_block, info.largest_block, info.smallest_frame, info.largest_frame), (4096, 4096, 15, 15));
/// assert_eq!(info.md5[..4], [0x3E, 0x84, 0xB4, 0x18]);
/// assert_eq!(read_stream_header(&stream[..41]), Err(Refusal::CutShort));
/// assert_eq!(read_stream_header(b"RIFF"), Err(Refusal::NotSync));
/// # Ok::<(), Refusal>(())
/// ```
pub fn read_stream_header(bytes: &[u8]) -> Result<(StreamInfo, usize), Refusal> {
    let (mut info, mut consumed, mut high, mut low) = (StreamInfo::default(), 0, 0, 0);
    // SAFETY: as `library` requires; the pointers are to different fields of `info` and to different variables.
    let number = unsafe {
        library::thriftacorn_read_stream_header_v1(
            bytes.as_ptr(),
            bytes.len(),
            &mut consumed,
            &mut info.smallest_block,
            &mut info.largest_block,
            &mut info.smallest_frame,
            &mut info.largest_frame,
            &mut info.rate,
            &mut info.channels,
            &mut info.bits,
            &mut info.samples,
            &mut high,
            &mut low,
        )
    };
    info.md5[..8].copy_from_slice(&u64::to_be_bytes(high));
    info.md5[8..].copy_from_slice(&u64::to_be_bytes(low));
    answer(number, (info, consumed))
}

/// A whole FLAC file in memory: its stream header, and an iterator over its frames.
///
/// Each frame is read with what the header gives to all of them, and placed by the size of the first block. After the
/// last frame the iterator ends. If anything else is wrong there, it gives the refusal once and ends: nothing is
/// skipped, and [`Stream::place`] says where that is. [`Stream::read`] reads into a buffer of the caller's instead.
///
/// ```
/// use thriftacorn::{Refusal, Stream};
///
/// // RFC 9639's third example, appendix D.3: a header, and one frame of 24 samples.
/// let mut file = b"fLaC\x80\x00\x00\x22\x10\x00\x10\x00\x00\x00\x1F\x00\x00\x1F\x07\xD0\x00\x70\x00\x00\x00\x18".to_vec();
/// file.extend([0xF8, 0xF9, 0xE3, 0x96, 0xF5, 0xCB, 0xCF, 0xC6, 0xDC, 0x80, 0x7F, 0x99, 0x77, 0x90, 0x6B, 0x32]);
/// file.extend([0xFF, 0xF8, 0x68, 0x02, 0x00, 0x17, 0xE9, 0x44, 0x00, 0x4F, 0x6F, 0x31, 0x3D, 0x10, 0x47, 0xD2]);
/// file.extend([0x27, 0xCB, 0x6D, 0x09, 0x08, 0x31, 0x45, 0x2B, 0xDC, 0x28, 0x22, 0x22, 0x80, 0x57, 0xA3]);
/// let mut stream = Stream::new(&file)?;
/// assert_eq!((stream.info().rate, stream.info().samples, stream.place()), (32000, 24, 42));
/// let blocks = stream.by_ref().collect::<Result<Vec<_>, _>>()?;
/// assert_eq!((blocks.len(), blocks[0].frame.first, blocks[0].frame.rate), (1, Some(0), Some(32000)));
/// assert_eq!((&blocks[0].samples[..4], stream.place()), (&[0, 79, 111, 78][..], file.len()));
///
/// // Cut short, it has no frame, and says so.
/// let mut short = Stream::new(&file[..60])?;
/// assert_eq!((short.next(), short.next(), short.place()), (Some(Err(Refusal::CutShort)), None, 42));
/// # Ok::<(), Refusal>(())
/// ```
#[derive(Clone, Debug)]
pub struct Stream<'a> {
    info: StreamInfo,
    start: usize,
    frames: Frames<'a>,
    ended: bool,
}

/// A frame of a stream, and its samples, channel after channel.
#[derive(Clone, Debug, PartialEq, Eq)]
pub struct Block {
    /// What is reported about the frame.
    pub frame: Frame,
    /// Its samples, as many as [`Frame::samples`] says.
    pub samples: Vec<i32>,
}

impl<'a> Stream<'a> {
    /// Reads the stream header, as [`read_stream_header`] does.
    pub fn new(bytes: &'a [u8]) -> Result<Stream<'a>, Refusal> {
        let (info, start) = read_stream_header(bytes)?;
        let after = &bytes[start..];
        let settings = ReadSettings::of_stream(after).with_stream(info.record());
        Ok(Stream { info, start, frames: Frames::with_settings(after, settings), ended: false })
    }

    /// What the stream header says.
    pub const fn info(&self) -> StreamInfo {
        self.info
    }

    /// The place of the next frame among the bytes.
    pub const fn place(&self) -> usize {
        self.start + self.frames.place()
    }

    /// Reads the next frame into `samples`, as [`Frames::read`] does.
    pub fn read(&mut self, samples: &mut [i32]) -> Result<Frame, Refusal> {
        self.frames.read(samples)
    }
}

impl Iterator for Stream<'_> {
    type Item = Result<Block, Refusal>;

    fn next(&mut self) -> Option<Result<Block, Refusal>> {
        if self.ended {
            return None;
        }
        let mut samples = vec![0; ROOM];
        match self.frames.read(&mut samples) {
            Ok(frame) => {
                samples.truncate(frame.samples());
                Some(Ok(Block { frame, samples }))
            }
            Err(refusal) => {
                self.ended = true;
                (refusal != Refusal::NothingLeft).then_some(Err(refusal))
            }
        }
    }
}
