//! Random frame headers: every size, rate and form of number, with one field wrong on request.
use crate::cover::Field;
use crate::fault::Fault::{self, *};
use crate::pen::Pen;
use common::draw::Draw;
use common::sums::crc8;

/// How large the blocks are.
#[derive(Clone, Copy, Debug, PartialEq, Eq)]
pub enum Sizes {
    /// 1 to 24 samples.
    Tiny,
    /// Mostly below 50 samples, sometimes any size.
    Mixed,
    /// At most this many samples.
    UpTo(u32),
    /// Just this many samples.
    Just(u32),
}

pub struct Header {
    pub size: u32,
    pub channel_code: u32,
    pub bits: u32,
    size_code: u32,
    rate: u32,
    variable: bool,
    number: u64,
    number_bytes: u32,
}

/// A size code and a size that it can hold.
fn draw_size(draw: &mut Draw, sizes: Sizes) -> (u32, u32) {
    let (fixed, size) = match (sizes, draw.below(1000)) {
        (Sizes::Just(size), _) => (0, size),
        (Sizes::UpTo(most), _) => (0, draw.from(1, most)),
        (_, even) if even % 4 == 0 => (0, draw.pick(&[4, 8, 12, 16, 20, 24])),
        (Sizes::Tiny, _) => (0, draw.from(1, 24)),
        (_, 1) => (draw.from(12, 15), 0),
        (_, 2) => (0, draw.from(257, 65535)),
        (_, 3..=29) => (draw.pick(&[1, 2, 3, 4, 5, 8, 9, 10, 11]), 0),
        (_, 30..=99) => (0, draw.from(49, 256)),
        _ => (0, draw.from(1, 48)),
    };
    match fixed {
        0 if size > 256 || draw.once_in(4) => (7, size),
        0 => (6, size),
        1 => (1, 192),
        2..=5 => (fixed, 144 << fixed),
        _ => (fixed, 1 << fixed),
    }
}

/// A number, and how many bytes it is coded in: often more than it needs.
fn draw_number(draw: &mut Draw, variable: bool) -> (u64, u32) {
    let bytes = draw.from(1, 7);
    let room = if bytes == 1 { 7 } else { 5 * bytes + 1 };
    let most = if variable { 36 } else { 31 };
    let used = draw.from(0, room.min(most));
    (draw.bits(used), bytes)
}

impl Header {
    pub fn draw(draw: &mut Draw, sizes: Sizes, variable: Option<bool>) -> Header {
        let (size_code, size) = draw_size(draw, sizes);
        let either = draw.once_in(2);
        let variable = variable.unwrap_or(either);
        let (number, number_bytes) = draw_number(draw, variable);
        let channel_code = if draw.once_in(2) { draw.from(8, 10) } else { draw.below(8).min(draw.below(8)) };
        let bits = draw.pick(&[8, 12, 16, 20, 24]);
        Header { size, channel_code, bits, size_code, rate: draw.below(15), variable, number, number_bytes }
    }

    pub fn channels(&self) -> u32 {
        if self.channel_code < 8 {
            self.channel_code + 1
        } else {
            2
        }
    }

    /// The width of a channel: a side channel is one bit wider (RFC 9639 section 4.2).
    pub fn width(&self, channel: u32) -> u32 {
        let side = match self.channel_code {
            8 | 10 => channel == 1,
            9 => channel == 0,
            _ => false,
        };
        self.bits + u32::from(side)
    }

    /// Changes the header so that this fault can occur in it.
    pub fn suit(&mut self, draw: &mut Draw, fault: Option<Fault>) {
        match fault {
            Some(NumberLimit) => {
                self.variable = false;
                self.number = draw.bits(36).max(1 << 31);
                self.number_bytes = 7;
            }
            Some(NumberFollower) => self.number_bytes = self.number_bytes.max(2),
            Some(Size65535) => (self.size_code, self.size) = (7, 65536),
            Some(WarmUp) => (self.size_code, self.size) = (6, draw.pick(&[4, 8, 16, 32, 12, 24])),
            _ => {}
        }
    }

    /// The whole header with its CRC-8. `pen` must be at the start of a byte.
    pub fn write(&self, pen: &mut Pen, draw: &mut Draw, fault: Option<Fault>) {
        let start = pen.bytes.len();
        self.write_codes(pen, draw, fault);
        self.write_number(pen, draw, fault);
        match self.size_code {
            6 => pen.put(u64::from(self.size - 1), 8),
            7 => pen.put(u64::from(self.size - 1), 16),
            _ => {}
        }
        match self.rate {
            12 => pen.put(draw.next(), 8),
            13 | 14 => pen.put(draw.next(), 16),
            _ => {}
        }
        let wrong = if fault == Some(HeaderSum) { draw.from(1, 255) as u8 } else { 0 };
        pen.put(u64::from(crc8(&pen.bytes[start..]) ^ wrong), 8);
    }

    /// The first four bytes.
    fn write_codes(&self, pen: &mut Pen, draw: &mut Draw, fault: Option<Fault>) {
        let wrong = if fault == Some(Sync) { 1 << draw.below(15) } else { 0 };
        pen.put(0x7FFC ^ wrong, 15);
        pen.put(u64::from(self.variable), 1);
        pen.field(Field::SizeCode, if fault == Some(SizeZero) { 0 } else { self.size_code }, 4);
        pen.field(Field::Rate, if fault == Some(RateFifteen) { 15 } else { self.rate }, 4);
        let channels = if fault == Some(ChannelsReserved) { draw.from(11, 15) } else { self.channel_code };
        pen.field(Field::ChannelCode, channels, 4);
        let bits = match (fault, self.bits) {
            (Some(BitsThree), _) => 3,
            (Some(BitsSeven), _) => 7,
            (Some(BitsZero), _) => 0,
            (_, 8) => 1,
            (_, 12) => 2,
            (_, bits) => bits / 4,
        };
        pen.field(Field::BitsCode, bits, 3);
        pen.put(u64::from(fault == Some(HeaderZeroBit)), 1);
    }

    /// The coded number (RFC 9639 section 9.1.5).
    fn write_number(&self, pen: &mut Pen, draw: &mut Draw, fault: Option<Fault>) {
        let more = self.number_bytes - 1;
        pen.cover.mark(Field::NumberBytes, u64::from(self.number_bytes));
        let bad = if fault == Some(NumberFollower) { draw.below(more) } else { more };
        match fault {
            Some(NumberFollowerFirst) => return pen.put(0x80 | draw.bits(6), 8),
            Some(NumberFf) => return write_eight(pen, draw),
            _ if more == 0 => return pen.put(self.number, 8),
            _ => pen.put(0xFF << (7 - more) | self.number >> (6 * more), 8),
        }
        for i in (0..more).rev() {
            let mark = if i == bad { draw.pick(&[0, 1, 3]) } else { 2 };
            pen.put(mark << 6 | self.number >> (6 * i) & 63, 8);
        }
    }
}

/// A first byte of FF with seven more, which claxon reads as a number.
fn write_eight(pen: &mut Pen, draw: &mut Draw) {
    pen.put(0xFF, 8);
    let used = draw.from(0, 42);
    let number = draw.bits(used);
    for i in (0..7).rev() {
        pen.put(2 << 6 | number >> (6 * i) & 63, 8);
    }
}
