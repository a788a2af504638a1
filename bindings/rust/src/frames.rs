//! Frame after frame of one slice, without a stream header.
use crate::{library, read::reported, Frame, ReadSettings, Refusal};

/// The frames of a slice, one after the other: each starts where the one before ended, and nothing is skipped. Each
/// read takes a buffer for its samples, so this is used in a loop and is not an iterator. All are read with the same
/// settings, so that each block of a stream is placed by the size of its first, the shorter last one too:
///
/// ```
/// use thriftacorn::{Frames, Refusal};
///
/// // The two frames of RFC 9639's second example (appendix D.2): blocks of 16 and of 3 samples.
/// let bytes = [
///     0xFF, 0xF8, 0x69, 0x98, 0x00, 0x0F, 0x99, 0x12, 0x08, 0x67, 0x01, 0x62, 0x3D, 0x14, 0x42, 0x99, //
///     0x8F, 0x5D, 0xF7, 0x0D, 0x6F, 0xE0, 0x0C, 0x17, 0xCA, 0xEB, 0x21, 0x00, 0x0E, 0xE7, 0xA7, 0x7A, //
///     0x24, 0xA1, 0x59, 0x0C, 0x12, 0x17, 0xB6, 0x03, 0x09, 0x7B, 0x78, 0x4F, 0xAA, 0x9A, 0x33, 0xD2, //
///     0x85, 0xE0, 0x70, 0xAD, 0x5B, 0x1B, 0x48, 0x51, 0xB4, 0x01, 0x0D, 0x99, 0xD2, 0xCD, 0x1A, 0x68, //
///     0xF1, 0xE6, 0xB8, 0x10, 0xFF, 0xF8, 0x69, 0x18, 0x01, 0x02, 0xA4, 0x02, 0xC3, 0x82, 0xC4, 0x0B, //
///     0xC1, 0x4A, 0x03, 0xEE, 0x48, 0xDD, 0x03, 0xB6, 0x7C, 0x13, 0x30,
/// ];
/// let (mut samples, mut placed) = ([0; 4096], Vec::new());
/// let mut frames = Frames::new(&bytes);
/// let end = loop {
///     match frames.read(&mut samples) {
///         Ok(frame) => placed.push((frame.first, frame.channel(&samples, 0).unwrap().to_vec())),
///         Err(refusal) => break refusal,
///     }
/// };
/// assert_eq!((frames.place(), end), (91, Refusal::NothingLeft));
/// assert_eq!((placed[0].0, placed[0].1.len()), (Some(0), 16));
/// assert_eq!(placed[1], (Some(16), vec![-15486, -15349, -16054]));
/// ```
///
/// An input that arrives in pieces goes through a window: the bytes of the frames read are dropped, and more are
/// fetched when a refusal needs them. The settings are taken from the first window that has a whole header, and kept
/// for the windows after it: these start with other frames.
///
/// ```
/// use std::io::Read;
/// use thriftacorn::{Frames, Need, ReadSettings, Refusal, ROOM};
///
/// /// The number of frames before the refusal that ends the input, and where the last of them starts.
/// fn count(mut card: impl Read) -> std::io::Result<(usize, Option<u64>, Refusal)> {
///     let (mut window, mut samples) = (Vec::new(), vec![0; ROOM]);
///     let (mut settings, mut found, mut last) = (ReadSettings::new(), 0, None);
///     loop {
///         if settings.block.is_none() {
///             settings = ReadSettings::of_stream(&window);
///         }
///         let mut frames = Frames::with_settings(&window, settings);
///         let refusal = loop {
///             match frames.read(&mut samples) {
///                 Ok(frame) => (found, last) = (found + 1, frame.first),
///                 Err(refusal) => break refusal,
///             }
///         };
///         window.drain(..frames.place());
///         let more = match refusal.needs() {
///             Need::Wait => card.by_ref().take(65536).read_to_end(&mut window)?,
///             Need::Room | Need::Final => 0,
///         };
///         if more == 0 {
///             return Ok((found, last, refusal));
///         }
///     }
/// }
///
/// // A card with ten thousand blocks of 20 samples, and a last one of 3.
/// # use thriftacorn::{write_frame, WriteSettings};
/// # let (mut card, mut out) = (Vec::new(), [0; 64]);
/// # for (number, size) in (0..10_000).map(|number| (number, 20)).chain([(10_000, 3)]) {
/// #     let sound: Vec<i32> = (0..size as i32).map(|i| i * i % 7).collect();
/// #     let length = write_frame(&sound, &WriteSettings::new(0, 16, size).fixed(number), &mut out).unwrap();
/// #     card.extend(&out[..length]);
/// # }
/// # assert!(card.len() > 3 * 65536);
/// assert_eq!(count(&card[..]).unwrap(), (10_001, Some(200_000), Refusal::NothingLeft));
/// assert_eq!(count(&card[..card.len() - 1]).unwrap(), (10_000, Some(199_980), Refusal::CutShort));
/// ```
#[derive(Clone, Debug)]
pub struct Frames<'a> {
    bytes: &'a [u8],
    settings: ReadSettings,
    place: usize,
}

impl<'a> Frames<'a> {
    /// The frames of a stream, from its first one on. The size of the stream's blocks is taken from the first header
    /// ([`ReadSettings::of_stream`]) and kept.
    pub fn new(bytes: &'a [u8]) -> Frames<'a> {
        Frames::with_settings(bytes, ReadSettings::of_stream(bytes))
    }

    /// The frames of a slice that need not start with its stream's first frame.
    pub const fn with_settings(bytes: &'a [u8], settings: ReadSettings) -> Frames<'a> {
        Frames { bytes, settings, place: 0 }
    }

    /// The settings with which every frame is read.
    pub const fn settings(&self) -> ReadSettings {
        self.settings
    }

    /// How many bytes the frames read so far had, which is the place of the next one.
    pub const fn place(&self) -> usize {
        self.place
    }

    /// Reads the next frame, as [`read_frame`](crate::read_frame) does. A refusal moves nothing: the next read starts
    /// at the same place.
    pub fn read(&mut self, samples: &mut [i32]) -> Result<Frame, Refusal> {
        let Frames { bytes, settings, place } = self;
        let (block_given, block) = settings.given_block();
        let (stream_given, bits, rate) = settings.given_stream();
        // SAFETY: as `library` requires; the eight pointers are to different fields of `report`, and `place` is not in
        // the bytes.
        reported(|report| unsafe {
            library::thriftacorn_read_next_v3(
                bytes.as_ptr(),
                bytes.len(),
                place,
                block_given,
                block,
                stream_given,
                bits,
                rate,
                samples.as_mut_ptr(),
                samples.len(),
                &mut report.consumed,
                &mut report.first_known,
                &mut report.first,
                &mut report.rate_known,
                &mut report.rate,
                &mut report.channels,
                &mut report.bits,
                &mut report.size,
            )
        })
    }
}
