//! Writing one frame.
use crate::{answer, library, Refusal};

/// How a stream is cut into blocks, and so what the number in a frame's header counts.
#[derive(Clone, Copy, Debug, PartialEq, Eq, Hash)]
#[repr(u32)]
pub enum Blocking {
    /// Blocks of one size: the number counts frames.
    Fixed = 0,
    /// Blocks of any size: the number counts the samples before the block.
    Variable = 1,
}

/// The settings for writing a frame. Other crates start from [`WriteSettings::new`] and may set each field. There may
/// be more fields later; `new` will set them so that nothing changes.
///
/// ```
/// use thriftacorn::{Blocking, WriteSettings};
/// let mut settings = WriteSettings::new(WriteSettings::MID_SIDE, 24, 4096).fixed(7);
/// assert_eq!((settings.blocking, settings.number), (Blocking::Fixed, 7));
/// settings.number += 1;
/// ```
#[derive(Clone, Copy, Debug, PartialEq, Eq, Hash)]
#[non_exhaustive]
pub struct WriteSettings {
    /// 0 to 7 for 1 to 8 independent channels, or [`WriteSettings::LEFT_SIDE`], [`WriteSettings::SIDE_RIGHT`] or
    /// [`WriteSettings::MID_SIDE`].
    pub channel_code: u32,
    /// Bits per sample: 8, 12, 16, 20 or 24.
    pub bits: u32,
    /// What the number counts.
    pub blocking: Blocking,
    /// The frame's number, at most 2147483647, or its first sample's, below 2^36.
    pub number: u64,
    /// Samples per channel, 1 to 65535.
    pub block_size: usize,
}

impl WriteSettings {
    /// Two channels, stored as the left one and the difference.
    pub const LEFT_SIDE: u32 = 8;
    /// Two channels, stored as the difference and the right one.
    pub const SIDE_RIGHT: u32 = 9;
    /// Two channels, stored as their mean and the difference.
    pub const MID_SIDE: u32 = 10;

    /// The first frame of a stream with fixed blocking. Nothing is checked here: [`write_frame`] does that.
    pub const fn new(channel_code: u32, bits: u32, block_size: usize) -> WriteSettings {
        WriteSettings { channel_code, bits, blocking: Blocking::Fixed, number: 0, block_size }
    }

    /// The same with fixed blocking and the frame's number.
    pub const fn fixed(self, number: u64) -> WriteSettings {
        WriteSettings { blocking: Blocking::Fixed, number, ..self }
    }

    /// The same with variable blocking and the number of the block's first sample.
    pub const fn variable(self, number: u64) -> WriteSettings {
        WriteSettings { blocking: Blocking::Variable, number, ..self }
    }

    /// How many channels there are; 0 for a channel code that does not exist.
    pub const fn channels(&self) -> usize {
        match self.channel_code {
            0..=7 => self.channel_code as usize + 1,
            8..=10 => 2,
            _ => 0,
        }
    }

    /// The length in bytes that no frame with these settings exceeds: an output that long never gets refusal 13. It is
    /// 16 bytes, and the bytes that hold 8 bits and the samples of each channel. It is 0 if the settings are refused.
    ///
    /// ```
    /// use thriftacorn::WriteSettings;
    /// assert_eq!(WriteSettings::new(0, 16, 1).longest(), 19);
    /// assert_eq!(WriteSettings::new(WriteSettings::LEFT_SIDE, 16, 4096).longest(), 16914);
    /// assert_eq!(WriteSettings::new(0, 17, 1).longest(), 0);
    /// ```
    pub fn longest(&self) -> usize {
        let WriteSettings { channel_code, bits, blocking, number, block_size } = *self;
        // SAFETY: as `library` requires; no memory is passed.
        unsafe { library::thriftacorn_longest_v1(channel_code, bits, blocking as u32, number, block_size) }
    }
}

/// Writes one frame to the front of `out` and returns its length. `samples` are given channel after channel: for two
/// channels left, then right, whatever the channel code. Reading the frame gives these samples back, unless it has
/// fixed blocking and [`ReadSettings::block`](crate::ReadSettings::block) is below its block size.
///
/// Past the frame `out` is untouched. A refusal leaves all of `out` untouched. They are checked in this order:
///
/// | answer | cause |
/// |---|---|
/// | 11 | a setting out of range, or a number of samples that is not channels times block size |
/// | 12 | a sample that does not fit its bits |
/// | 13 | exactly when the frame is longer than `out`: [`WriteSettings::longest`] is enough |
///
/// ```
/// use thriftacorn::{read_frame, write_frame, ReadSettings, WriteSettings};
/// let settings = WriteSettings::new(1, 16, 4).fixed(3);
/// let samples = [1, 2, 3, 4, -1, -2, -3, -4];
/// let mut out = vec![0; settings.longest()];
/// let length = write_frame(&samples, &settings, &mut out)?;
/// let mut again = [0; 8];
/// let frame = read_frame(&out[..length], &ReadSettings::new().with_block(4), &mut again)?;
/// assert_eq!((frame.consumed, frame.first, again), (length, Some(12), samples));
/// # Ok::<(), thriftacorn::Refusal>(())
/// ```
pub fn write_frame(samples: &[i32], settings: &WriteSettings, out: &mut [u8]) -> Result<usize, Refusal> {
    let mut length = 0;
    // SAFETY: as `library` requires.
    let number = unsafe {
        library::thriftacorn_write_frame_v1(
            samples.as_ptr(),
            samples.len(),
            settings.channel_code,
            settings.bits,
            settings.blocking as u32,
            settings.number,
            settings.block_size,
            out.as_mut_ptr(),
            out.len(),
            &mut length,
        )
    };
    answer(number, length)
}
