//! The program `flac`, run on files in a folder.
use crate::signal::{raw, shift_bytes, unraw, wave};
use std::fs;
use std::path::Path;
use std::process::{Command, Stdio};

/// Whether `flac` is installed.
pub fn is_there() -> bool {
    succeeds(Command::new("flac").arg("--version"))
}

fn succeeds(command: &mut Command) -> bool {
    let status = command.stdout(Stdio::null()).stderr(Stdio::null()).status();
    status.is_ok_and(|status| status.success())
}

/// What a successful command wrote to this file. A file left by an earlier command does not count.
fn written(command: &mut Command, output: &Path) -> Option<Vec<u8>> {
    let _ = fs::remove_file(output);
    succeeds(command).then(|| fs::read(output).ok()).flatten()
}

/// The options for samples without a file header, which `flac` reads and writes in whole bytes only.
const RAW: [&str; 3] = ["--force-raw-format", "--endian=little", "--sign=signed"];

/// Encodes interleaved samples with these options and no padding; `None` if `flac` does not accept them.
pub fn encode(folder: &Path, samples: &[i32], channels: usize, bits: u32, words: &[&str]) -> Option<Vec<u8>> {
    let words: Vec<String> = ["--no-padding"].iter().chain(words).map(|word| word.to_string()).collect();
    encode_with(folder, samples, channels, bits, &words)
}

/// The same with these options alone.
pub fn encode_with(folder: &Path, samples: &[i32], channels: usize, bits: u32, words: &[String]) -> Option<Vec<u8>> {
    let input = folder.join("material.sound");
    let output = folder.join("material.flac");
    let mut command = Command::new("flac");
    command.args(["-s", "-f", "--channel-map=none"]);
    if bits % 8 == 0 {
        fs::write(&input, raw(samples, bits)).expect("the sound is written");
        command.args(RAW).arg("--sample-rate=48000");
        command.args([format!("--channels={channels}"), format!("--bps={bits}")]);
    } else {
        fs::write(&input, wave(samples, channels, bits)).expect("the sound is written");
    }
    written(command.args(words).arg("-o").args([&output, &input]), &output)
}

/// Decodes a stream to interleaved samples; `None` if `flac` does not accept it.
pub fn decode(folder: &Path, stream: &[u8], bits: u32) -> Option<Vec<i32>> {
    let input = folder.join("again.flac");
    let output = folder.join("again.sound");
    fs::write(&input, stream).expect("the stream is written");
    let mut command = Command::new("flac");
    command.args(["-d", "-s", "-f", "--channel-map=none"]);
    if bits % 8 == 0 {
        command.args(RAW);
    }
    let mut bytes = written(command.arg("-o").args([&output, &input]), &output)?;
    // A WAVE file's samples follow the word 'data' and their length. An odd number of bytes is padded.
    if bits % 8 != 0 {
        let start = bytes.windows(4).position(|word| word == b"data").expect("a WAVE file has data") + 8;
        let length = u32::from_le_bytes(bytes[start - 4..start].try_into().expect("four bytes")) as usize;
        bytes = bytes[start..start + length].to_vec();
        shift_bytes(&mut bytes, bits);
    }
    Some(unraw(&bytes, bits))
}

/// A stream header: the mark and STREAMINFO (RFC 9639 section 8.2), with the smallest and the largest block, and the number
/// of samples in each channel. It gives no MD5.
pub fn stream_header(blocks: (u16, u16), channels: usize, bits: u32, samples: usize) -> Vec<u8> {
    let mut header = b"fLaC\x80\0\0\x22".to_vec();
    header.extend(blocks.0.to_be_bytes());
    header.extend(blocks.1.to_be_bytes());
    header.extend([0; 6]);
    let rest = 48000 << 44 | (channels as u64 - 1) << 41 | u64::from(bits - 1) << 36 | samples as u64;
    header.extend(rest.to_be_bytes());
    header.extend([0; 16]);
    header
}

/// A stream's frames: the bytes after the metadata.
pub fn frames_of(stream: &[u8]) -> &[u8] {
    assert_eq!(&stream[..4], b"fLaC");
    let mut at = 4;
    loop {
        let length = u32::from_be_bytes([0, stream[at + 1], stream[at + 2], stream[at + 3]]) as usize;
        let last = stream[at] & 0x80 != 0;
        at += 4 + length;
        if last {
            return &stream[at..];
        }
    }
}
