//! The families of random inputs. Each unit draws one frame or a few, changes them, and has the judge read the result.
use crate::fault::{Fault, FAULTS};
use crate::frame::{is_in_header, mend, write_frame, Sizes, Taste, Written};
use crate::judge::Judge;
use crate::pen::Pen;
use common::draw::Draw;
use common::sums::crc8;

pub struct Family {
    pub name: &'static str,
    /// How many units a round has.
    pub units: u32,
    pub unit: fn(&mut Judge, usize, &mut Draw, &mut Pen),
}

pub const FAMILIES: [Family; 16] = [
    Family { name: "built", units: 150, unit: built },
    Family { name: "built-tiny", units: 300, unit: built_tiny },
    Family { name: "extremes", units: 300, unit: extremes },
    Family { name: "edges", units: 12, unit: edges },
    Family { name: "escaped", units: 20, unit: escaped },
    Family { name: "left-bits", units: 20, unit: left_bits },
    Family { name: "faults", units: 6, unit: faults },
    Family { name: "cuts", units: 2, unit: cuts },
    Family { name: "flips", units: 10, unit: flips },
    Family { name: "flips-mended", units: 20, unit: flips_mended },
    Family { name: "noise", units: 60, unit: noise },
    Family { name: "rows", units: 20, unit: rows },
    Family { name: "rows-short", units: 10, unit: rows_short },
    Family { name: "rows-larger", units: 20, unit: rows_larger },
    Family { name: "rows-refused", units: 10, unit: rows_refused },
    Family { name: "room", units: 20, unit: room },
];

const MIXED: Taste =
    Taste { sizes: Sizes::Mixed, variable: None, fault: None, extreme: false, edges: false, escaped: false };
const TINY: Taste = Taste { sizes: Sizes::Tiny, ..MIXED };

/// One frame, with a pen of its own.
fn single(draw: &mut Draw, pen: &mut Pen, taste: Taste) -> Written {
    pen.clear();
    write_frame(pen, draw, taste)
}

/// Any legal frame.
fn built(judge: &mut Judge, family: usize, draw: &mut Draw, pen: &mut Pen) {
    single(draw, pen, MIXED);
    judge.made_for(0, family, &pen.bytes);
}

/// Any legal frame of at most 24 samples.
fn built_tiny(judge: &mut Judge, family: usize, draw: &mut Draw, pen: &mut Pen) {
    single(draw, pen, TINY);
    judge.made_for(0, family, &pen.bytes);
}

/// Samples, coefficients and residuals at the ends of their ranges: residuals out of range, wraps in prediction and in
/// side decoding.
fn extremes(judge: &mut Judge, family: usize, draw: &mut Draw, pen: &mut Pen) {
    single(draw, pen, Taste { extreme: true, ..TINY });
    judge.made_for(0, family, &pen.bytes);
}

/// Codes that end where a word of eight bytes ends, and linear predictors that are fixed ones. The frame is read with
/// nothing after it, with 1 to 17 bytes after it, and with 1 to 17 bytes cut off: so every word that its last codes lie in
/// is there, or is not.
fn edges(judge: &mut Judge, family: usize, draw: &mut Draw, pen: &mut Pen) {
    single(draw, pen, Taste { edges: true, ..TINY });
    let length = pen.bytes.len();
    judge.made_for(0, family, &pen.bytes);
    for cut in 1..=length.min(17) {
        judge.one(family, &pen.bytes[..length - cut]);
    }
    for _ in 0..17 {
        pen.bytes.push(draw.pick(&[0, 0xFF, 0x55, 1, 0x80]));
        judge.made_for(0, family, &pen.bytes);
    }
}

/// Partitions whose residuals are stored as they are. Each frame is read whole, cut short, and with bits changed and the
/// check sums corrected.
fn escaped(judge: &mut Judge, family: usize, draw: &mut Draw, pen: &mut Pen) {
    let sizes = if draw.once_in(8) { Sizes::Mixed } else { Sizes::Tiny };
    let extreme = draw.once_in(4);
    let written = single(draw, pen, Taste { sizes, extreme, escaped: true, ..MIXED });
    judge.made_for(0, family, &pen.bytes);
    for _ in 0..8 {
        judge.one(family, &pen.bytes[..draw.below(pen.bytes.len() as u32) as usize]);
        let mut bytes = pen.bytes.clone();
        damage(draw, &mut bytes, written.header);
        judge.one(family, &bytes);
    }
}

/// Frames whose bits are left to the stream: whole, cut short, and without the CRC-16 and with bits changed after the
/// header. claxon reads the same frames with the bits in the header.
fn left_bits(judge: &mut Judge, family: usize, draw: &mut Draw, pen: &mut Pen) {
    let sizes = if draw.once_in(8) { Sizes::Mixed } else { Sizes::Tiny };
    let extreme = draw.once_in(4);
    let written = single(draw, pen, Taste { sizes, extreme, ..MIXED });
    let bits = [0, 8, 12, 0, 16, 20, 24, 0][usize::from(pen.bytes[3] >> 1 & 7)];
    let without = |coded: &[u8]| {
        let mut left = coded.to_vec();
        left[3] &= 0xF1;
        mend(&mut left, written.header);
        left
    };
    judge.left(family, &pen.bytes, &without(&pen.bytes), bits, false);
    for _ in 0..8 {
        let (whole, cut) = (without(&pen.bytes), draw.below(pen.bytes.len() as u32) as usize);
        judge.left(family, &pen.bytes[..cut], &whole[..cut], bits, false);
        let mut copy = pen.bytes.clone();
        let end = copy.len() - 2;
        flip(draw, &mut copy[written.header..end]);
        // The check sums of the two frames differ, and what is read of a damaged one may go into them.
        judge.left(family, &copy[..end], &without(&copy)[..end], bits, true);
    }
}

/// Each field wrong in turn, with the check sums right.
fn faults(judge: &mut Judge, family: usize, draw: &mut Draw, pen: &mut Pen) {
    for (fault, number) in FAULTS {
        single(draw, pen, Taste { fault: Some(fault), ..TINY });
        judge.made_for(number, family, &pen.bytes);
    }
}

/// A frame cut at every byte; a long one at some bytes only.
fn cuts(judge: &mut Judge, family: usize, draw: &mut Draw, pen: &mut Pen) {
    let taste = if draw.once_in(4) { MIXED } else { TINY };
    single(draw, pen, taste);
    let length = pen.bytes.len();
    let step = 1 + length / 300;
    for cut in (0..length).step_by(step) {
        judge.one(family, &pen.bytes[..cut]);
    }
}

/// Changes one to three bits.
fn flip(draw: &mut Draw, bytes: &mut [u8]) {
    for _ in 0..draw.from(1, 3) {
        let at = draw.below(8 * bytes.len() as u32);
        bytes[at as usize / 8] ^= 1 << (at % 8);
    }
}

/// Bits changed anywhere, with the check sums left as they are.
fn flips(judge: &mut Judge, family: usize, draw: &mut Draw, pen: &mut Pen) {
    single(draw, pen, TINY);
    let mut bytes = pen.bytes.clone();
    for _ in 0..16 {
        bytes.copy_from_slice(&pen.bytes);
        flip(draw, &mut bytes);
        judge.one(family, &bytes);
    }
}

/// Bits changed anywhere, with the check sums corrected.
fn flips_mended(judge: &mut Judge, family: usize, draw: &mut Draw, pen: &mut Pen) {
    let written = single(draw, pen, TINY);
    let mut bytes = Vec::with_capacity(pen.bytes.len() + 8);
    for _ in 0..16 {
        bytes.clone_from(&pen.bytes);
        damage(draw, &mut bytes, written.header);
        judge.one(family, &bytes);
    }
}

/// Changes a few bits of a frame, mostly after its header, sometimes its length too, and corrects its check sums.
pub fn damage(draw: &mut Draw, frame: &mut Vec<u8>, header: usize) {
    let end = frame.len() - 2;
    let from = if draw.once_in(3) { 0 } else { header };
    flip(draw, &mut frame[from..end]);
    if draw.once_in(4) {
        let length = (end + draw.below(8) as usize).max(header + 4) - 3;
        frame.resize(length + 2, 0x55);
    }
    mend(frame, header);
}

/// A correct header, a subframe type, then anything.
fn noise(judge: &mut Judge, family: usize, draw: &mut Draw, pen: &mut Pen) {
    let written = single(draw, pen, TINY);
    pen.bytes.truncate(written.header);
    let kind = draw.pick(&[0, 1, 8, 9, 10, 11, 12, 32, 33, 34, 39, 43, 44]);
    pen.bytes.push(kind << 1 | u8::from(draw.once_in(8)));
    let dense = draw.next();
    for _ in 0..draw.below(60) {
        let byte = draw.next();
        pen.bytes.push(if draw.once_in(2) { byte & dense } else { byte } as u8);
    }
    if pen.bytes.len() >= written.header + 2 {
        mend(&mut pen.bytes, written.header);
    }
    judge.one(family, &pen.bytes);
}

/// Several frames in a row, none with a larger block than the first, then rubbish.
fn rows(judge: &mut Judge, family: usize, draw: &mut Draw, pen: &mut Pen) {
    let escaped = draw.once_in(8);
    let first = single(draw, pen, Taste { escaped, ..TINY });
    for _ in 0..draw.from(1, 5) {
        let escaped = draw.once_in(8);
        write_frame(pen, draw, Taste { sizes: Sizes::UpTo(first.size), escaped, ..TINY });
    }
    let end = pen.bytes.len();
    match draw.below(5) {
        0 => {}
        1 => pen.bytes.extend([0xFF, 0xF8]),
        2 => pen.bytes.resize(end + draw.below(9) as usize, 0),
        3 => {
            write_frame(pen, draw, TINY);
            let more = pen.bytes.len() - end;
            pen.bytes.truncate(end + draw.below(more as u32) as usize);
        }
        _ => (0..draw.below(20)).for_each(|_| pen.bytes.push(draw.next() as u8)),
    }
    judge.row(family, &pen.bytes);
}

/// Adds so many frames of just this size.
fn blocks(draw: &mut Draw, pen: &mut Pen, count: u32, size: u32, variable: Option<bool>) {
    for _ in 0..count {
        let escaped = draw.once_in(8);
        write_frame(pen, draw, Taste { sizes: Sizes::Just(size), variable, escaped, ..TINY });
    }
}

/// A stream with fixed blocking: blocks of one size, and a shorter last one.
fn rows_short(judge: &mut Judge, family: usize, draw: &mut Draw, pen: &mut Pen) {
    let (count, size) = (draw.from(1, 4), draw.from(2, 24));
    let last = draw.from(1, size - 1);
    pen.clear();
    blocks(draw, pen, count, size, Some(false));
    blocks(draw, pen, 1, last, Some(false));
    judge.row_made_for(count as usize + 1, 1, family, &pen.bytes);
}

/// Blocks of one size, one that is larger, and then others. With variable blocking the larger one is read. With fixed
/// blocking it is refused as soon as its header is read, if nothing in that is wrong, and whatever comes after it.
fn rows_larger(judge: &mut Judge, family: usize, draw: &mut Draw, pen: &mut Pen) {
    use Fault::*;
    let (count, size, more) = (draw.from(1, 3), draw.from(1, 23), draw.from(0, 2));
    let sizes = Sizes::Just(draw.from(size + 1, 24));
    let fault = draw.pick(&[None, None, Some(BitsZero), Some(HeaderSum), Some(TypeReserved), Some(FrameSum)]);
    let variable = draw.once_in(3);
    pen.clear();
    blocks(draw, pen, count, size, None);
    let start = pen.bytes.len();
    let larger = write_frame(pen, draw, Taste { sizes, variable: Some(variable), fault, ..TINY });
    if fault.is_none() && draw.once_in(2) {
        let length = pen.bytes.len() - start;
        let cut = draw.below(length as u32) as usize;
        pen.bytes.truncate(start + cut);
        let number = match cut {
            0 => 1,
            cut if cut < larger.header || variable => 2,
            _ => 9,
        };
        return judge.row_made_for(count as usize, number, family, &pen.bytes);
    }
    blocks(draw, pen, more, size, None);
    let own = FAULTS.iter().find(|(known, _)| Some(*known) == fault).map(|(_, number)| *number);
    let (frames, number) = match own {
        Some(number) if variable || fault.is_some_and(is_in_header) => (count, number),
        None if variable => (count + 1 + more, 1),
        _ => (count, 9),
    };
    judge.row_made_for(frames as usize, number, family, &pen.bytes);
}

/// A first frame that is refused, and then others.
fn rows_refused(judge: &mut Judge, family: usize, draw: &mut Draw, pen: &mut Pen) {
    let (fault, number) = draw.pick(&FAULTS);
    let first = single(draw, pen, Taste { fault: Some(fault), ..TINY });
    let count = draw.from(1, 3);
    blocks(draw, pen, count, first.size.min(24), None);
    judge.row_made_for(0, number, family, &pen.bytes);
}

/// Frames with too little room, just enough, and more; sometimes cut short or with a wrong check sum.
fn room(judge: &mut Judge, family: usize, draw: &mut Draw, pen: &mut Pen) {
    let written = single(draw, pen, TINY);
    match draw.below(4) {
        0 => pen.bytes.truncate(draw.from(0, pen.bytes.len() as u32) as usize),
        1 => *pen.bytes.last_mut().expect("a frame has bytes") ^= 1,
        2 => pen.bytes[written.header - 1] = crc8(&pen.bytes[..written.header - 1]) ^ draw.below(2) as u8,
        _ => {}
    }
    let some = draw.below(written.samples as u32) as usize;
    for room in [0, some, written.samples - 1, written.samples, written.samples + 1] {
        judge.lent(family, &pen.bytes, room);
    }
}
