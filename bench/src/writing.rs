//! Writing: how fast it is, and how long its frames are compared with those of the program `flac`. Prints a table for
//! docs/SPEED.md.

use common::draw::Draw;
use common::flac;
use common::signal::{interleaved, Kind};
use std::path::Path;
use std::time::{Duration, Instant};
use thriftacorn::{write_frame, WriteSettings};

const RATE: usize = 48000;
const CHANNELS: usize = 2;
const BITS: u32 = 24;
const BLOCK: usize = 4096;
/// How often each block is written; the shortest time counts.
const PASSES: usize = 5;

/// The sound's blocks, channel after channel.
fn blocks(sound: &[i32]) -> Vec<Vec<i32>> {
    let planar = |part: &[i32]| {
        let channel = |c: usize| part.iter().skip(c).step_by(CHANNELS).copied();
        (0..CHANNELS).flat_map(channel).collect()
    };
    sound.chunks(BLOCK * CHANNELS).map(planar).collect()
}

/// Writes every block with this channel code. Returns how many bytes that took, and the sum of the shortest times.
fn write(blocks: &[Vec<i32>], channel_code: u32) -> (usize, Duration) {
    let mut out = vec![0; WriteSettings::new(channel_code, BITS, BLOCK).longest()];
    let mut length = 0;
    let mut least = vec![Duration::MAX; blocks.len()];
    for _ in 0..PASSES {
        length = 0;
        for (number, (block, least)) in blocks.iter().zip(&mut least).enumerate() {
            let settings = WriteSettings::new(channel_code, BITS, block.len() / CHANNELS).fixed(number as u64);
            let start = Instant::now();
            let written = write_frame(block, &settings, &mut out);
            *least = start.elapsed().min(*least);
            length += written.expect("the block is written");
        }
    }
    (length, least.iter().sum())
}

fn main() {
    let words: Vec<String> = std::env::args().collect();
    let (folder, seconds) = (Path::new(&words[1]), words[2].parse::<usize>().expect("a number of seconds"));
    let sound = interleaved(&mut Draw::new(9639, "bench"), RATE * seconds, CHANNELS, BITS, Kind::Sines);
    let raw = sound.len() * BITS as usize / 8;
    print!("Writing 24-bit stereo, {seconds} seconds at {RATE} Hz, blocks of {BLOCK}; ");
    println!("of each block the least time of {PASSES} passes:\n");
    println!("| written by | bytes | of the raw samples | million samples a second |\n|---|---|---|---|");
    for (name, code) in [("ours, left and right", 1), ("ours, mid and side", WriteSettings::MID_SIDE)] {
        let (length, time) = write(&blocks(&sound), code);
        let speed = sound.len() as f64 / time.as_secs_f64() / 1e6;
        println!("| {name} | {length} | {:.3} | {speed:.1} |", length as f64 / raw as f64);
    }
    for level in ["-0", "-5"] {
        let stream = flac::encode(folder, &sound, CHANNELS, BITS, &[level]).expect("flac encodes the sound");
        let length = flac::frames_of(&stream).len();
        println!("| flac {level} | {length} | {:.3} | |", length as f64 / raw as f64);
    }
}
