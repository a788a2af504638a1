//! Frames written by this repository's writer, read by claxon and, wrapped into a stream, by the program `flac`: the
//! samples must come back. It ends with status 1 if they do not.
use common::draw::Draw;
use common::flac;
use common::readers::{Answer, Claxon};
use common::signal::{interleaved, Kind};
use std::path::{Path, PathBuf};
use thriftacorn::{write_frame, Blocking, WriteSettings};

/// How many frames a stream has. The last is shorter if it can be.
const FRAMES: usize = 4;

/// The block sizes for every channel code and bit depth; the largest are used for some only.
const SIZES: [usize; 22] =
    [1, 2, 3, 4, 5, 15, 16, 17, 64, 192, 255, 256, 257, 576, 1000, 1152, 2304, 4096, 4608, 5000, 16384, 65535];

fn stop(settings: &WriteSettings, what: &str, who: &str) -> ! {
    println!("{who} parts from the writer: {what}, {settings:?}");
    std::process::exit(1)
}

/// One frame of these samples, channel after channel, read by claxon.
fn write_one(samples: &[i32], settings: &WriteSettings) -> Vec<u8> {
    let mut frame = vec![0; settings.longest()];
    match write_frame(samples, settings, &mut frame) {
        Ok(length) => frame.truncate(length),
        Err(refusal) => stop(settings, &format!("{refusal}"), "nobody"),
    }
    let mut claxon = Claxon::new(&frame, Vec::new());
    let Answer::Frame(read) = claxon.read() else { stop(settings, "it refuses a frame", "claxon") };
    let first = match settings.blocking {
        Blocking::Fixed => settings.number * settings.block_size as u64,
        Blocking::Variable => settings.number,
    };
    if (read.consumed, read.first, read.bits) != (frame.len(), Some(first), settings.bits) {
        stop(settings, &format!("it reports {read:?}"), "claxon");
    }
    if claxon.samples != samples {
        stop(settings, "other samples", "claxon");
    }
    frame
}

/// A stream header for frames of these settings.
fn stream_header(settings: &WriteSettings, total: usize) -> Vec<u8> {
    let blocks = match settings.blocking {
        Blocking::Fixed => (settings.block_size as u16, settings.block_size as u16),
        Blocking::Variable => (16, 65535),
    };
    flac::stream_header(blocks, settings.channels(), settings.bits, total)
}

/// A stream of some frames, and its samples. RFC 9639 allows only the last block of a stream to be shorter than 16
/// samples; `flac` accepts shorter ones with variable blocking.
fn write_stream(draw: &mut Draw, settings: &WriteSettings) -> (Vec<u8>, Vec<i32>) {
    let (channels, size) = (settings.channels(), settings.block_size);
    let last = if size > 16 { draw.from(1, size as u32) as usize } else { size };
    let total = (FRAMES - 1) * size + last;
    let kind = draw.pick(&[Kind::Sines, Kind::Sines, Kind::Noise, Kind::Silence, Kind::Wasted]);
    let sound = interleaved(draw, total, channels, settings.bits, kind);
    let mut stream = stream_header(settings, total);
    for (index, part) in sound.chunks(size * channels).enumerate() {
        let block_size = part.len() / channels;
        let planar: Vec<i32> = (0..channels).flat_map(|c| part.iter().skip(c).step_by(channels).copied()).collect();
        // With fixed blocking, a short last block is numbered by its frame like the others.
        let number = match settings.blocking {
            Blocking::Fixed => index,
            Blocking::Variable => index * size,
        };
        let mut settings = *settings;
        (settings.number, settings.block_size) = (number as u64, block_size);
        stream.extend(write_one(&planar, &settings));
    }
    (stream, sound)
}

/// A stream with these settings, compared with `flac` if there is a folder for its files.
fn check(draw: &mut Draw, settings: &WriteSettings, folder: Option<&Path>) {
    let (stream, sound) = write_stream(draw, settings);
    let Some(folder) = folder else { return };
    match flac::decode(folder, &stream, settings.bits) {
        None => stop(settings, "it refuses a stream", "flac"),
        Some(read) if read != sound => stop(settings, "other samples", "flac"),
        Some(_) => {}
    }
}

/// Every channel code, bit depth and block size, with fixed and variable blocking. Returns how many streams there were.
fn run(folder: Option<&Path>) -> usize {
    let mut draw = Draw::new(9639, "written");
    let mut streams = 0;
    for channel_code in 0..=10 {
        for bits in [8, 12, 16, 20, 24] {
            for block_size in SIZES {
                let mut settings = WriteSettings::new(channel_code, bits, block_size);
                if block_size < 16 || !draw.once_in(2) {
                    settings.blocking = Blocking::Variable;
                }
                if block_size <= 5000 || draw.once_in(8) {
                    check(&mut draw, &settings, folder);
                    streams += 1;
                }
            }
        }
    }
    streams
}

fn main() {
    let folder = PathBuf::from(std::env::args().nth(1).expect("a folder for files on the way"));
    let flac = flac::is_there();
    let streams = run(flac.then_some(&folder));
    println!("claxon reads {} written frames, all with their samples", streams * FRAMES);
    if flac {
        println!("flac reads {streams} streams of them, all with their samples");
    } else {
        println!("not compared: flac with what the writer writes, since there is no flac that runs");
    }
}
