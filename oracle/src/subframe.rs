//! Random subframes: any legal one, with one field wrong on request. The samples are whatever the bits decode to.
use crate::cover::Field;
use crate::fault::Fault::{self, *};
use crate::pen::Pen;
use common::draw::Draw;

/// A channel's subframe while it is being written.
pub struct Subframe<'a> {
    pub pen: &'a mut Pen,
    pub draw: &'a mut Draw,
    pub size: u32,
    pub width: u32,
    pub fault: Option<Fault>,
    /// Samples, coefficients and residuals at the ends of their ranges.
    pub extreme: bool,
    /// Codes near the end of a word of eight bytes, and linear predictors that have a fixed one's coefficients.
    pub edges: bool,
    /// About every second partition is escaped.
    pub escaped: bool,
}

/// The coefficients of the fixed predictors, by order (RFC 9639 section 9.2.5).
const FIXED: [&[i64]; 5] = [&[], &[1], &[2, -1], &[3, -3, 1], &[4, -6, 4, -1]];

impl Subframe<'_> {
    pub fn write(&mut self) {
        let order = self.draw_order();
        match (self.fault, self.draw.below(8)) {
            (Some(OrderOverSize | Precision | Shift | Method | PartitionOrder | WarmUp), _) => {
                self.write_predicted(order);
            }
            (_, 0) => self.write_plain(0, 1),
            (_, 1) => self.write_plain(1, self.size),
            _ => self.write_predicted(order),
        }
    }

    /// A predictor's order: for a fixed one the order itself, below 5; for a linear one the order plus 32.
    fn draw_order(&mut self) -> u32 {
        let linear = match self.fault {
            Some(Precision | Shift) => true,
            _ => self.draw.once_in(2),
        };
        let most = if linear { 32 } else { 4 };
        let (least, most) = match self.fault {
            Some(OrderOverSize) => (self.size + 1, most),
            Some(WarmUp) => ((self.size >> self.size.trailing_zeros()) + 1, most.min(self.size)),
            _ => (u32::from(linear), most.min(self.size)),
        };
        if least > most {
            // There is no such fixed order, so it takes a linear one.
            return 32 + self.draw.from(least, 32);
        }
        let order = if self.draw.once_in(4) { most } else { self.draw.from(least, most) };
        if linear {
            32 + order
        } else {
            order
        }
    }

    /// The zero bit, the type, the wasted bits. Reduces the width by the wasted bits.
    fn write_head(&mut self, kind: u32) {
        self.pen.put(u64::from(self.fault == Some(SubframeZeroBit)), 1);
        let kind = match self.fault {
            Some(TypeReserved) if self.draw.once_in(2) => self.draw.from(13, 31),
            Some(TypeReserved) => self.draw.from(2, 7),
            _ => kind,
        };
        self.pen.field(Field::Type, kind, 6);
        let wasted = match self.fault {
            Some(WastedWidth) => self.draw.from(self.width, 31),
            Some(WastedOver31) => 32 + self.draw.below(200),
            _ if self.draw.once_in(4) => self.draw.from(1, self.width - 1),
            _ => 0,
        };
        self.pen.cover.mark(Field::Wasted, u64::from(wasted));
        self.pen.put(u64::from(wasted > 0), 1);
        if wasted > 0 {
            self.pen.unary(wasted - 1);
        }
        self.width = self.width.saturating_sub(wasted).max(1);
    }

    /// A signed number of this width.
    fn draw_number(&mut self, width: u32) -> u64 {
        if self.extreme || self.draw.once_in(16) {
            let top = 1 << (width - 1);
            self.draw.pick(&[top, top - 1, top, top - 1, 0, top + 1])
        } else {
            self.draw.next()
        }
    }

    /// Constant and verbatim.
    fn write_plain(&mut self, kind: u32, count: u32) {
        self.write_head(kind);
        for _ in 0..count {
            let sample = self.draw_number(self.width);
            self.pen.put(sample, self.width);
        }
    }

    /// Fixed and linear prediction (RFC 9639 sections 9.2.5 and 9.2.6).
    fn write_predicted(&mut self, order: u32) {
        let (kind, warm) = if order < 32 { (8 + order, order) } else { (order - 1, order - 32) };
        self.write_head(kind);
        for _ in 0..warm {
            let sample = self.draw_number(self.width);
            self.pen.put(sample, self.width);
        }
        if order >= 32 {
            if self.edges && warm <= 4 && self.draw.once_in(2) {
                self.write_fixed_row(warm);
            } else {
                self.write_coefficients(warm);
            }
        }
        self.write_residual(warm);
    }

    /// The precision, the shift and the coefficients of a linear predictor.
    fn write_coefficients(&mut self, order: u32) {
        let precision = if self.fault == Some(Precision) { 16 } else { self.draw.from(1, 15) };
        self.pen.field(Field::Precision, precision - 1, 4);
        let shift = if self.fault == Some(Shift) { self.draw.from(16, 31) } else { self.draw.below(16) };
        self.pen.field(Field::Shift, if self.extreme { shift & 17 } else { shift }, 5);
        for _ in 0..order {
            let coefficient = self.draw_number(precision);
            self.pen.put(coefficient, precision);
        }
    }

    /// The same with the coefficients of a fixed predictor, sometimes with one of them changed; mostly without a shift.
    fn write_fixed_row(&mut self, order: u32) {
        let precision = self.draw.from(4, 15);
        self.pen.field(Field::Precision, precision - 1, 4);
        let shift = if self.draw.once_in(4) { self.draw.below(16) } else { 0 };
        self.pen.field(Field::Shift, shift, 5);
        let other = if self.draw.once_in(4) { self.draw.below(order) } else { order };
        for (at, coefficient) in (0..).zip(FIXED[order as usize]) {
            self.pen.put((coefficient ^ i64::from(at == other)) as u64, precision);
        }
    }

    fn draw_partition_order(&mut self, warm: u32) -> u32 {
        let zeros = self.size.trailing_zeros();
        match self.fault {
            Some(PartitionOrder) => (zeros + 1 + self.draw.next().trailing_zeros()).min(15),
            Some(WarmUp) => zeros,
            _ => {
                let fits = (0..=zeros.min(15)).take_while(|order| self.size >> order >= warm).count();
                self.draw.below(fits.max(1) as u32)
            }
        }
    }

    /// The residual (RFC 9639 section 9.2.7). A partition may be as short as the warm-up, as in claxon.
    fn write_residual(&mut self, warm: u32) {
        let method = self.draw.below(2);
        let stored = if self.fault == Some(Method) { self.draw.from(2, 3) } else { method };
        self.pen.field(Field::Method, stored, 2);
        let order = self.draw_partition_order(warm);
        self.pen.field(Field::PartitionOrder, order, 4);
        let (partitions, length) = (1 << order, self.size >> order);
        for partition in 0..partitions {
            let count = if partition == 0 { length.saturating_sub(warm) } else { length };
            if self.escaped && self.draw.once_in(2) {
                self.write_escaped(method, count);
            } else {
                self.write_partition(method, count);
            }
        }
    }

    fn write_partition(&mut self, method: u32, count: u32) {
        let (field, most) = if method == 0 { (Field::FourBitParameter, 14) } else { (Field::FiveBitParameter, 30) };
        let parameter = if self.extreme { most } else { self.draw.from(0, most) };
        self.pen.field(field, parameter, 4 + method);
        let mut before = self.pen.position();
        for _ in 0..count {
            let rest = if self.extreme && self.draw.once_in(2) { u64::MAX } else { self.draw.next() };
            let quotient = match self.draw.below(1024) {
                _ if self.extreme => self.draw.pick(&[0, 1, 2, 3, 3, 4, 5, 7]),
                _ if self.edges => self.draw_edge(before, parameter),
                0 => self.draw.below(4000),
                1..=8 => self.draw.below(80),
                _ => self.draw.next().trailing_zeros(),
            };
            before = self.pen.position();
            self.pen.unary(quotient);
            self.pen.put(rest, parameter);
        }
    }

    /// A quotient whose code ends near the end of the eight bytes that start where this code does, or where the code
    /// before it does; or whose code has about 64 bits; or with a long run of zeros.
    fn draw_edge(&mut self, before: u32, parameter: u32) -> u32 {
        let here = self.pen.position();
        let near = self.draw.below(7);
        let most = match self.draw.below(8) {
            0..=2 => before / 8 * 8 + 61 + near,
            3 => here / 8 * 8 + 61 + near,
            4 => here + 61 + near,
            5 => here + self.draw.below(200),
            _ => here + parameter + 1 + self.draw.next().trailing_zeros(),
        };
        most.saturating_sub(here + parameter + 1)
    }

    /// A partition whose residuals are stored as they are (RFC 9639 section 9.2.7.1).
    fn write_escaped(&mut self, method: u32, count: u32) {
        let field = if method == 0 { Field::FourBitWidth } else { Field::FiveBitWidth };
        self.pen.put(31, 4 + method);
        let width = self.draw.below(32);
        self.pen.field(field, width, 5);
        for _ in 0..if width == 0 { 0 } else { count } {
            let residual = self.draw_number(width);
            self.pen.put(residual, width);
        }
    }
}
