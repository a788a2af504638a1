//! One frame that is too long for the random families: its count of wasted bits is 2^32 zeros, at which claxon's
//! counter wraps. Both readers read it once. It ends with status 1 if an answer is not the one that
//! docs/DIFFERENCES.md gives.
use common::readers::{Answer, Claxon, Ours};
use common::sums::crc16;
use std::time::Instant;
use thriftacorn::ReadSettings;

/// As many bytes as hold 2^32 bits.
const ZEROS: usize = 1 << 29;

/// One channel, 16 bits, one sample. The header, a constant subframe with its flag for wasted bits, the zeros, the one
/// that ends them, 15 bits with the sample 5, and the check sum.
fn frame() -> Vec<u8> {
    let mut bytes = Vec::with_capacity(ZEROS + 16);
    bytes.extend([0xFF, 0xF8, 0x60, 0x08, 0x00, 0x00, 0xBB, 0x01]);
    bytes.resize(bytes.len() + ZEROS, 0);
    bytes.extend([0x80, 0x05]);
    let sum = crc16(&bytes);
    bytes.extend(sum.to_be_bytes());
    bytes
}

fn main() {
    let bytes = frame();
    println!("a frame of {} bytes, with 2^32 zeros before the one that ends its count of wasted bits", bytes.len());
    let start = Instant::now();
    let ours = Ours::new().read(&bytes, &ReadSettings::of_stream(&bytes), 1);
    println!("ours   {ours:?}, in {:.1} s", start.elapsed().as_secs_f64());
    let start = Instant::now();
    let mut claxon = Claxon::new(&bytes, Vec::new());
    let theirs = claxon.read();
    println!("claxon {theirs:?}, samples {:?}, in {:.1} s", claxon.samples, start.elapsed().as_secs_f64());
    // claxon's counter wraps to zero, so it sees one wasted bit: the sample is 5 times 2.
    let accepted = matches!(theirs, Answer::Frame(frame) if frame.consumed == bytes.len()) && claxon.samples == [10];
    if ours != Answer::Refused(9) || !accepted {
        println!("these are not the answers of docs/DIFFERENCES.md");
        std::process::exit(1);
    }
}
