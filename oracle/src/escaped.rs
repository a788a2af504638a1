//! The stored frames with escaped partitions, decoded by the program `flac`: it must give the stored samples. It ends
//! with status 1 if it does not.
use common::flac;
use std::path::{Path, PathBuf};

/// A stored case whose output is one frame and the end of the input.
struct Stored {
    bytes: Vec<u8>,
    channels: usize,
    bits: u32,
    block_size: u16,
    /// Channel after channel.
    samples: Vec<i32>,
}

fn unhex(text: &str) -> Vec<u8> {
    let digits = |at: usize| u8::from_str_radix(&text[at..at + 2], 16).expect("a stored case is in hex");
    (0..text.len()).step_by(2).map(digits).collect()
}

/// The frame of an input and of what `runner` writes for it; `None` if that is not one frame.
fn stored(input: &str, output: &str) -> Option<Stored> {
    let (bytes, output) = (unhex(input), unhex(output));
    let rest = output.strip_suffix(&[3, 1])?;
    let (head, records) = rest.split_at_checked(17)?;
    let samples =
        records.chunks(5).map(|record| i32::from_le_bytes(record[1..].try_into().expect("a sample's record")));
    let block_size = u16::from_le_bytes([head[15], head[16]]);
    Some(Stored { bytes, channels: head[13].into(), bits: head[14].into(), block_size, samples: samples.collect() })
}

/// Whether `flac` gives the stored samples.
fn is_decoded(folder: &Path, stored: &Stored) -> bool {
    let Stored { bytes, channels, bits, block_size, samples } = stored;
    let size = usize::from(*block_size);
    let mut stream = flac::stream_header((*block_size, *block_size), *channels, *bits, size);
    stream.extend(bytes);
    let sound: Vec<i32> = (0..size).flat_map(|t| (0..*channels).map(move |c| samples[c * size + t])).collect();
    flac::decode(folder, &stream, *bits) == Some(sound)
}

fn main() {
    let words: Vec<PathBuf> = std::env::args().skip(1).map(PathBuf::from).collect();
    let [list, folder] = &words[..] else { panic!("the list of stored cases, and a folder for files on the way") };
    if !flac::is_there() {
        println!(
            "not compared: flac with stored frames that have escaped partitions, since there is no flac that runs"
        );
        return;
    }
    let list = std::fs::read_to_string(list).expect("the stored cases can be read");
    let mut frames = 0;
    for line in list.lines() {
        let [name, input, output] = line.split(' ').collect::<Vec<_>>()[..] else { panic!("a case has three words") };
        if !name.starts_with("escaped-") {
            continue;
        }
        let Some(stored) = stored(input, output) else { continue };
        if !is_decoded(folder, &stored) {
            println!("flac does not give the stored samples of {name}");
            std::process::exit(1);
        }
        frames += 1;
    }
    assert!(frames > 0, "there are stored frames with escaped partitions");
    println!("flac decodes {frames} stored frames with escaped partitions, all to their samples");
}
