//! Stream headers, read by claxon 0.4.3 and by this repository's reader side by side, and whole files that the program
//! `flac` encodes, read here and decoded by `flac`. It ends with status 1 at the first difference that
//! docs/DIFFERENCES.md does not list, and prints that input.
mod metadata;
mod stream_rule;

use common::draw::Draw;
use common::flac;
use common::signal::{interleaved, Kind};
use metadata::{blocks, info_block, made, MARK};
use std::path::Path;
use stream_rule::{claxon, due, entry, Header, Said, LISTED};
use thriftacorn::{read_stream_header, Refusal, Stream};

/// How many headers are drawn. Each is read whole, cut short and damaged.
const HEADERS: u32 = 4000;

pub fn hex(bytes: &[u8]) -> String {
    bytes.iter().map(|byte| format!("{byte:02x}")).collect()
}

#[derive(Default)]
struct Judge {
    inputs: u64,
    accepted: u64,
    listed: [u64; LISTED.len()],
}

impl Judge {
    /// Reads one input with both readers. This reader must answer what is due, and so must claxon, or an entry says why
    /// not.
    fn read(&mut self, bytes: &[u8]) {
        let ours = read_stream_header(bytes).map(|(info, end)| Header::of_ours(&info, end)).map_err(Refusal::number);
        let (due, said) = (due(bytes), claxon(bytes));
        self.inputs += 1;
        self.accepted += u64::from(ours.is_ok());
        let agrees = match (&due, &said) {
            (Ok(header), Said::Header(other)) => header == other,
            (Err(number), said) => said.number() == Some(*number),
            _ => false,
        };
        let entry = if agrees { None } else { entry(bytes, &due, &said) };
        if ours != due || !(agrees || entry.is_some()) {
            println!("a difference off the list, input {}", self.inputs);
            println!("input  {}", hex(bytes));
            println!("ours   {ours:?}");
            println!("due    {due:?}");
            println!("claxon {said:?}");
            std::process::exit(1)
        }
        if let Some(entry) = entry {
            self.listed[entry as usize] += 1;
        }
    }

    /// A header whole, with bytes after it, cut at every byte, and with bits changed.
    fn try_all(&mut self, draw: &mut Draw, header: &[u8]) {
        self.read(header);
        self.read(&[header, &[0xFF, 0xF8]].concat());
        for length in 0..header.len() {
            self.read(&header[..length]);
        }
        for _ in 0..16 {
            let mut copy = header.to_vec();
            for _ in 0..draw.from(1, 3) {
                let at = draw.below(8 * header.len() as u32);
                copy[at as usize / 8] ^= 1 << (at % 8);
            }
            self.read(&copy);
        }
    }
}

/// Random headers, most of them right or nearly so.
fn drawn(judge: &mut Judge, seed: u64) {
    let mut draw = Draw::new(seed, "stream headers");
    for _ in 0..HEADERS {
        let header = made(&mut draw);
        judge.try_all(&mut draw, &header);
    }
    // Every type and last flag, of the first block and of a later one.
    for byte in 0..=255 {
        let mut first = [MARK, &info_block(&mut draw, true)].concat();
        first[4] = byte;
        judge.read(&first);
        let mut later = [MARK, &info_block(&mut draw, false), &[byte, 0, 0, 8], &[0; 8], &[0x81, 0, 0, 0]].concat();
        judge.read(&later);
        later.truncate(42 + 1);
        judge.read(&later);
    }
}

/// The words for one file, and how its sound is drawn.
struct File {
    channels: usize,
    bits: u32,
    words: &'static [&'static str],
}

/// Every kind of metadata that `flac` writes, in several orders and lengths.
const WORDS: [&[&str]; 6] = [
    &["--no-padding"],
    &["-P", "4000", "-T", "TITLE=Owl", "-T", "ARTIST=Strix aluco", "-T", "EMPTY="],
    &["-S", "10x", "-S", "500", "-P", "1"],
    &["--picture=3|image/png|an owl|1x1x24|PICTURE", "-P", "100"],
    &["--cuesheet=CUE", "-S", "-", "-T", "X=y"],
    &[
        "--picture=3|image/png|an owl|1x1x24|PICTURE",
        "--cuesheet=CUE",
        "-S",
        "3x",
        "-T",
        "NIGHT=Waldkauz \u{e4}\u{df}",
        "-P",
        "9",
    ],
];

/// The files: all bits from 4 to 24, most of which the frames leave to the stream header, and 1 to 8 channels.
fn files() -> impl Iterator<Item = File> {
    (4..=24).flat_map(|bits| {
        let channels = [1, 2, 1 + bits as usize % 8];
        channels.into_iter().enumerate().map(move |(i, channels)| File {
            channels,
            bits,
            words: WORDS[(bits as usize + 2 * i) % WORDS.len()],
        })
    })
}

/// Encodes a file, reads its header with both readers, whole and cut at every byte, and its frames with this one:
/// `flac` must decode the same samples, as many as STREAMINFO says. Returns how many samples there were.
fn whole_file(judge: &mut Judge, folder: &Path, draw: &mut Draw, file: &File) -> u64 {
    let File { channels, bits, words } = *file;
    let kind = draw.pick(&[Kind::Sines, Kind::Noise, Kind::Wasted]);
    let sound = interleaved(draw, 1500, channels, bits, kind);
    let places = |word: &&str| word.replace("PICTURE", &name(folder, "picture")).replace("CUE", &name(folder, "cue"));
    let mut all = vec!["--lax".to_string(), "-b".into(), draw.pick(&["576", "192", "4096"]).into()];
    all.extend(words.iter().map(places));
    let Some(bytes) = flac::encode_with(folder, &sound, channels, bits, &all) else {
        fail(&format!("flac does not encode {channels} channels of {bits} bits with {all:?}"), &[])
    };
    let mut stream = Stream::new(&bytes).unwrap_or_else(|_| fail("the header of a file is refused", &bytes));
    let (info, start) = (stream.info(), stream.place());
    for length in (0..=start).chain([bytes.len()]) {
        judge.read(&bytes[..length]);
    }
    let mut read = Vec::new();
    for block in stream.by_ref() {
        let block =
            block.unwrap_or_else(|refusal| fail(&format!("a frame is refused with {}", refusal.number()), &bytes));
        let (size, samples) = (block.frame.block_size, &block.samples);
        if block.frame.rate != Some(48000) || block.frame.bits != bits {
            fail("a frame has another rate or other bits than the stream", &bytes);
        }
        read.extend((0..size).flat_map(|t| (0..channels).map(move |c| samples[c * size + t])));
    }
    let decoded = flac::decode(folder, &bytes, bits);
    if stream.place() != bytes.len() || read != sound || decoded.as_ref() != Some(&sound) {
        fail("the samples are not those that flac gives", &bytes);
    }
    if info.samples * channels as u64 != sound.len() as u64 || info.bits != bits || info.channels != channels as u32 {
        fail("STREAMINFO does not say what the frames are", &bytes);
    }
    info.samples
}

fn name(folder: &Path, file: &str) -> String {
    folder.join(file).to_str().expect("a folder with a plain name").into()
}

fn fail(words: &str, bytes: &[u8]) -> ! {
    println!("{words}");
    println!("input  {}", hex(bytes));
    std::process::exit(1)
}

/// All files, if `flac` is installed.
fn encoded(judge: &mut Judge, folder: &Path, seed: u64) {
    if !flac::is_there() {
        println!("not compared: whole files with flac (oracle/streams.sh), since there is no flac that runs");
        return;
    }
    let mut draw = Draw::new(seed, "whole files");
    let picture: Vec<u8> = (0..700).map(|_| draw.bits(8) as u8).collect();
    std::fs::write(folder.join("picture"), picture).expect("a file for the picture");
    let cue = "FILE \"a.wav\" WAVE\n  TRACK 01 AUDIO\n    INDEX 01 00:00:00\n";
    std::fs::write(folder.join("cue"), cue).expect("a file for the cue sheet");
    let (mut count, mut samples) = (0, 0);
    for file in files() {
        samples += whole_file(judge, folder, &mut draw, &file);
        count += 1;
    }
    println!("{count} files encoded by flac: {samples} samples of a channel, all as flac decodes them");
}

fn main() {
    let words: Vec<String> = std::env::args().skip(1).collect();
    let [folder] = &words[..] else { panic!("a folder for files on the way") };
    std::panic::set_hook(Box::new(|_| {}));
    let mut judge = Judge::default();
    drawn(&mut judge, 9639);
    blocks(|bytes| judge.read(bytes));
    encoded(&mut judge, Path::new(folder), 9639);
    for (name, count) in LISTED.iter().zip(judge.listed) {
        println!("listed difference, {name}: {count} times");
        if count == 0 {
            println!("no input shows it");
            std::process::exit(1)
        }
    }
    println!("{} stream headers, {} of them accepted, 0 differences off the list", judge.inputs, judge.accepted);
}
