//! A block's samples, which are stored channel after channel: one channel, one sample, a pair.
use crate::{library, Frame};

/// The samples of the frame. Each method returns `None` where the library refuses with 11: for a channel or an index
/// out of range, for a pair of a frame without exactly two channels, and if `samples` has fewer than
/// [`Frame::samples`], whichever of them is asked for. There is no other refusal, and nothing panics.
impl Frame {
    /// The samples of this channel.
    ///
    /// ```
    /// # let bytes = [0xFF, 0xF8, 0x69, 0x18, 0, 0, 0xBF, 0x03, 0x58, 0xFD, 0x03, 0x12, 0x8B, 0xAA, 0x9A];
    /// let mut samples = [0; 2];
    /// let frame = thriftacorn::read_frame(&bytes, &Default::default(), &mut samples)?;
    /// assert_eq!(frame.channel(&samples, 1), Some(&[10416][..]));
    /// assert_eq!(frame.channel(&samples, 2), None);
    /// assert_eq!(frame.channel(&samples[..1], 0), None);
    /// # Ok::<(), thriftacorn::Refusal>(())
    /// ```
    pub fn channel<'a>(&self, samples: &'a [i32], channel: usize) -> Option<&'a [i32]> {
        let (mut start, mut end) = (0, 0);
        // SAFETY: as `library` requires.
        let number = unsafe {
            library::thriftacorn_channel_v1(
                samples.as_ptr(),
                samples.len(),
                self.channels,
                self.block_size,
                channel,
                &mut start,
                &mut end,
            )
        };
        (number == 0).then(|| &samples[start..end])
    }

    /// The sample at an index of a channel.
    ///
    /// ```
    /// # let bytes = [0xFF, 0xF8, 0x69, 0x18, 0, 0, 0xBF, 0x03, 0x58, 0xFD, 0x03, 0x12, 0x8B, 0xAA, 0x9A];
    /// # let mut samples = [0; 2];
    /// # let frame = thriftacorn::read_frame(&bytes, &Default::default(), &mut samples)?;
    /// assert_eq!(frame.sample(&samples, 0, 0), Some(25588));
    /// assert_eq!(frame.sample(&samples, 0, 1), None);
    /// # Ok::<(), thriftacorn::Refusal>(())
    /// ```
    pub fn sample(&self, samples: &[i32], channel: usize, index: usize) -> Option<i32> {
        let mut value = 0;
        // SAFETY: as `library` requires.
        let number = unsafe {
            library::thriftacorn_sample_v1(
                samples.as_ptr(),
                samples.len(),
                self.channels,
                self.block_size,
                channel,
                index,
                &mut value,
            )
        };
        (number == 0).then_some(value)
    }

    /// The left and the right sample at an index, in a frame of two channels.
    ///
    /// ```
    /// # let bytes = [0xFF, 0xF8, 0x69, 0x18, 0, 0, 0xBF, 0x03, 0x58, 0xFD, 0x03, 0x12, 0x8B, 0xAA, 0x9A];
    /// # let mut samples = [0; 2];
    /// # let frame = thriftacorn::read_frame(&bytes, &Default::default(), &mut samples)?;
    /// assert_eq!(frame.pair(&samples, 0), Some((25588, 10416)));
    /// assert_eq!(frame.pair(&samples, 1), None);
    /// # Ok::<(), thriftacorn::Refusal>(())
    /// ```
    pub fn pair(&self, samples: &[i32], index: usize) -> Option<(i32, i32)> {
        let (mut left, mut right) = (0, 0);
        // SAFETY: as `library` requires.
        let number = unsafe {
            library::thriftacorn_pair_v1(
                samples.as_ptr(),
                samples.len(),
                self.channels,
                self.block_size,
                index,
                &mut left,
                &mut right,
            )
        };
        (number == 0).then_some((left, right))
    }
}
