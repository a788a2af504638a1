//! Which values of each field occurred in the random frames.

#[derive(Clone, Copy)]
pub enum Field {
    SizeCode,
    Rate,
    ChannelCode,
    BitsCode,
    NumberBytes,
    Type,
    Wasted,
    Precision,
    Shift,
    Method,
    PartitionOrder,
    FourBitParameter,
    FiveBitParameter,
    FourBitWidth,
    FiveBitWidth,
}

/// Each field with its name and its legal values. Wasted bits are legal up to the width: 24 in the widest channel.
const FIELDS: [(&str, u64); 15] = [
    ("size codes", 0xFFFE),
    ("rate codes", 0x7FFF),
    ("channel codes", 0x7FF),
    ("bits codes", 0b111_0110),
    ("number forms", 0xFE),
    ("subframe types", 0xFFFF_FFFF_0000_1F03),
    ("wasted bits", 0x1FF_FFFF),
    ("precisions", 0x7FFF),
    ("shifts", 0xFFFF),
    ("residual methods", 0b11),
    ("partition orders", 0xFFFF),
    ("four-bit parameters", 0x7FFF),
    ("five-bit parameters", 0x7FFF_FFFF),
    ("escaped widths in the four-bit method", 0xFFFF_FFFF),
    ("in the five-bit method", 0xFFFF_FFFF),
];

#[derive(Default)]
pub struct Cover([u64; FIELDS.len()]);

impl Cover {
    pub fn mark(&mut self, field: Field, value: u64) {
        self.0[field as usize] |= 1 << (value & 63);
    }

    /// How many of its legal values were seen, for each field.
    pub fn print(&self) {
        let parts = FIELDS
            .iter()
            .zip(self.0)
            .map(|((name, legal), seen)| format!("{name} {} of {}", (seen & legal).count_ones(), legal.count_ones()));
        println!("drawn frames had: {}", parts.collect::<Vec<_>>().join(", "));
    }
}
