//! All short inputs, and all values of a few bytes where there are not too many.
use crate::judge::Judge;
use common::sums::{crc16, crc8};

pub fn run(judge: &mut Judge) {
    let family = judge.family("short");
    judge.one(family, &[]);
    for a in 0..=255 {
        judge.one(family, &[a]);
        for b in 0..=255 {
            judge.one(family, &[a, b]);
        }
    }
    let family = judge.family("short-codes");
    for blocking in [0xF8, 0xF9] {
        every_two(|a, b| judge.one(family, &[0xFF, blocking, a, b]));
    }
    let family = judge.family("short-numbers");
    every_two(|a, b| judge.one(family, &[0xFF, 0xF8, 0x60, 0x08, a, b]));
    every_two(|a, b| judge.one(family, &[0xFF, 0xF9, 0x60, 0x08, 0xFE, a, b, 0x80, 0x80, 0x80, 0x80, 0, 0]));
    every_two(|a, b| judge.one(family, &[0xFF, 0xF8, 0x60, 0x08, 0xFE, a, b, 0x80, 0x80, 0x80, 0x80, 0, 0]));
    let family = judge.family("short-sums");
    every_two(|a, b| judge.one(family, &[0xFF, 0xF8, 0x60, 0x08, 0x00, a, b, 0x00]));
    every_two(|a, b| judge.one(family, &[0xFF, 0xF8, 0x60, 0x08, 0x00, 0x00, 0xBB, 0x00, 0x00, 0x05, a, b]));
    subframes(judge);
}

fn every_two(mut f: impl FnMut(u8, u8) -> u8) {
    for a in 0..=255 {
        for b in 0..=255 {
            f(a, b);
        }
    }
}

/// Subframes of one to four samples of 8 bits: a beginning, then all values of two bytes, then zeros or nothing, and
/// the check sum.
fn subframes(judge: &mut Judge) {
    let family = judge.family("short-subframes");
    let beginnings: [(u8, &[u8]); 12] = [
        (1, &[]),
        (2, &[]),
        (4, &[]),
        (1, &[0x03]),
        (1, &[0x10]),
        (2, &[0x12, 0x7F]),
        (3, &[0x14, 0x7F, 0x80]),
        (4, &[0x10]),
        (2, &[0x40, 0x7F]),
        (2, &[0x40, 0x80, 0xE0]),
        (4, &[0x10, 0x44, 0x81]),
        (2, &[0x10, 0x43, 0xC3, 0xFF, 0xFF]),
    ];
    for (size, beginning) in beginnings {
        for more in [0, 1, 4] {
            let mut frame = vec![0xFF, 0xF8, 0x60, 0x02, 0x00, size - 1];
            frame.push(crc8(&frame));
            frame.extend(beginning);
            let at = frame.len();
            frame.resize(at + 2 + more + 2, 0);
            every_two(|a, b| {
                frame[at..at + 2].copy_from_slice(&[a, b]);
                let sum = crc16(&frame[..at + 2 + more]);
                frame[at + 2 + more..].copy_from_slice(&sum.to_be_bytes());
                judge.one(family, &frame)
            });
        }
    }
}
