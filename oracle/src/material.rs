//! Streams that the program `flac` encodes, whole and damaged.
use crate::families::damage;
use crate::frame::header_length;
use crate::judge::Judge;
use common::draw::Draw;
use common::flac::{encode, frames_of};
use common::readers::ROOM;
use common::signal::{interleaved, Kind};
use std::path::Path;
use thriftacorn::Frames;

/// Reads every stream frame after frame, and damaged copies of its short frames. Returns how many streams there were.
pub fn run(judge: &mut Judge, folder: &Path, seed: u64) -> usize {
    let whole = judge.family("flac");
    let damaged = judge.family("flac-damaged");
    let mut draw = Draw::new(seed, "flac-damaged");
    let mut samples = vec![0; ROOM];
    let mut streams = 0;
    each_stream(folder, seed, |bytes| {
        streams += 1;
        judge.row(whole, bytes);
        let mut frames = Frames::new(bytes);
        let mut start = 0;
        while frames.read(&mut samples).is_ok() {
            let frame = &bytes[start..frames.place()];
            start = frames.place();
            if frame.len() <= 600 {
                copies(judge, damaged, &mut draw, frame);
            }
        }
    });
    streams
}

fn copies(judge: &mut Judge, family: usize, draw: &mut Draw, frame: &[u8]) {
    for _ in 0..4 {
        let mut copy = frame.to_vec();
        damage(draw, &mut copy, header_length(frame));
        judge.one(family, &copy);
        judge.one(family, &frame[..draw.below(frame.len() as u32) as usize]);
    }
}

/// Streams at all levels, bits and channel counts, as they are made.
fn each_stream(folder: &Path, seed: u64, mut with: impl FnMut(&[u8])) {
    let mut draw = Draw::new(seed, "flac");
    let levels: [&[&str]; 6] = [
        &["-0"],
        &["-5"],
        &["-8"],
        &["--lax", "-l", "32"],
        &["--lax", "-l", "32", "-b", "48"],
        &["--lax", "-5", "-b", "100"],
    ];
    for bits in [8, 12, 16, 20, 24] {
        for channels in 1..=8 {
            let kind = draw.pick(&[Kind::Sines, Kind::Sines, Kind::Wasted, Kind::Noise, Kind::Silence]);
            let samples = interleaved(&mut draw, 9000, channels, bits, kind);
            for words in levels {
                if let Some(stream) = encode(folder, &samples, channels, bits, words) {
                    with(frames_of(&stream));
                }
            }
        }
    }
}
