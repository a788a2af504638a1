//! Why a frame was not read or not written, and what that asks of the caller.
use std::{error::Error, fmt};

/// Why a frame or a stream header was not read (1 to 11) or a frame not written (11 to 13). Each cause has one number, which it keeps; there may
/// be more causes later. What to do about one is [`Refusal::needs`].
#[derive(Clone, Copy, Debug, PartialEq, Eq, Hash)]
#[non_exhaustive]
#[repr(u8)]
pub enum Refusal {
    /// 1: the input is empty.
    NothingLeft = 1,
    /// 2: the input ends before the frame or the stream header does. More bytes may make it one.
    CutShort = 2,
    /// 3: the sync bits are wrong, or a stream does not start with `fLaC`.
    NotSync = 3,
    /// 4: a reserved or forbidden value, or a one in a bit that must be zero.
    Reserved = 4,
    /// 5: the coded number is malformed or too large.
    BadNumber = 5,
    /// 6: the header's CRC-8 differs.
    HeaderSum = 6,
    /// 7: the frame has more samples than there is room for.
    NoRoom = 7,
    /// 8: a part of the format that is not supported: more than 24 bits, a negative prediction shift; or a bit depth left
    /// to a stream header that is not given.
    NotDone = 8,
    /// 9: sizes that contradict each other: those in the frame; bits that are not the stream's, or with fixed blocking a
    /// block larger than the stream's; a stream header without a STREAMINFO of 34 bytes, or with fewer than 4 bits.
    BadShape = 9,
    /// 10: the frame's CRC-16 differs.
    FrameSum = 10,
    /// 11: a setting out of range, of the reader's or of the writer's, or a number of samples that is not the frame's.
    BadArgument = 11,
    /// 12: a sample that does not fit its bits.
    SampleRange = 12,
    /// 13: the frame is longer than the output.
    OutputRoom = 13,
}

/// Every cause, in the order of the numbers.
const ALL: [Refusal; 13] = [
    Refusal::NothingLeft,
    Refusal::CutShort,
    Refusal::NotSync,
    Refusal::Reserved,
    Refusal::BadNumber,
    Refusal::HeaderSum,
    Refusal::NoRoom,
    Refusal::NotDone,
    Refusal::BadShape,
    Refusal::FrameSum,
    Refusal::BadArgument,
    Refusal::SampleRange,
    Refusal::OutputRoom,
];

impl Refusal {
    /// The number of this cause, 1 to 13.
    ///
    /// ```
    /// assert_eq!(thriftacorn::Refusal::CutShort.number(), 2);
    /// ```
    pub const fn number(self) -> u8 {
        self as u8
    }

    /// The cause with this number, if there is one.
    ///
    /// ```
    /// use thriftacorn::Refusal;
    /// assert_eq!(Refusal::from_number(10), Some(Refusal::FrameSum));
    /// assert_eq!(Refusal::from_number(0), None);
    /// ```
    pub fn from_number(number: u8) -> Option<Refusal> {
        ALL.get(usize::from(number).wrapping_sub(1)).copied()
    }

    /// What this refusal asks of the caller. 11 to 13 are final: other settings, samples or output are needed. The
    /// reader gives 11 for settings that no stream has, and never 12 or 13.
    ///
    /// ```
    /// use thriftacorn::{Need, Refusal};
    /// assert_eq!(Refusal::CutShort.needs(), Need::Wait);
    /// assert_eq!(Refusal::NoRoom.needs(), Need::Room);
    /// assert_eq!(Refusal::NotSync.needs(), Need::Final);
    /// ```
    pub const fn needs(self) -> Need {
        match self {
            Refusal::NothingLeft | Refusal::CutShort => Need::Wait,
            Refusal::NoRoom => Need::Room,
            Refusal::NotSync
            | Refusal::Reserved
            | Refusal::BadNumber
            | Refusal::HeaderSum
            | Refusal::NotDone
            | Refusal::BadShape
            | Refusal::FrameSum
            | Refusal::BadArgument
            | Refusal::SampleRange
            | Refusal::OutputRoom => Need::Final,
        }
    }

    /// Whether more bytes may make it a frame: [`Need::Wait`].
    pub const fn wants_bytes(self) -> bool {
        matches!(self.needs(), Need::Wait)
    }

    /// Whether more room for samples changes the answer: [`Need::Room`].
    pub const fn wants_room(self) -> bool {
        matches!(self.needs(), Need::Room)
    }

    /// Whether neither more bytes nor more room changes it: [`Need::Final`]. Only such a refusal says that no frame
    /// will be read at this place.
    pub const fn is_final(self) -> bool {
        matches!(self.needs(), Need::Final)
    }
}

/// What a refusal asks of the caller. There are only these three, so a `match` needs no other arm.
#[derive(Clone, Copy, Debug, PartialEq, Eq, Hash)]
pub enum Need {
    /// More bytes may make it a frame: wait for them, and read again from the same place.
    Wait,
    /// More room for samples changes the answer. More bytes do not.
    Room,
    /// Neither more bytes nor more room changes it.
    Final,
}

/// The cause in words, as the program `frame_list` says it.
impl fmt::Display for Refusal {
    fn fmt(&self, f: &mut fmt::Formatter<'_>) -> fmt::Result {
        f.write_str(match self {
            Refusal::NothingLeft => "nothing left",
            Refusal::CutShort => "cut short",
            Refusal::NotSync => "no sync code",
            Refusal::Reserved => "a reserved or forbidden value",
            Refusal::BadNumber => "a bad frame or sample number",
            Refusal::HeaderSum => "the header's CRC-8 differs",
            Refusal::NoRoom => "no room for the samples",
            Refusal::NotDone => "a part of the format that is not read",
            Refusal::BadShape => "sizes that contradict each other",
            Refusal::FrameSum => "the frame's CRC-16 differs",
            Refusal::BadArgument => "an argument out of range",
            Refusal::SampleRange => "a sample out of range",
            Refusal::OutputRoom => "no room for the frame",
        })
    }
}

impl Error for Refusal {}
