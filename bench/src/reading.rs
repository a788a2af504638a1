//! Reading, timed against claxon and libFLAC on the same bytes in one process. Prints tables for docs/SPEED.md.

mod readers;

use common::draw::Draw;
use common::flac;
use common::signal::{interleaved, Kind};
use readers::{Claxon, LibFlac, Ours, Reader};
use std::ops::Range;
use std::path::Path;
use std::time::{Duration, Instant};
use thriftacorn::ROOM;

/// Samples per second of sound, in each of two channels of 24 bits.
const RATE: usize = 48000;
const CHANNELS: usize = 2;
const BITS: u32 = 24;
/// The least number of passes over all inputs, and the least time that they take together.
const PASSES: usize = 12;
const WHILE: Duration = Duration::from_secs(60);

/// Passes on each frame's samples and the range of its bytes, in order. Returns how many bytes were read.
fn walk(bytes: &[u8], mut reader: impl Reader, mut with: impl FnMut(&[i32], Range<usize>)) -> usize {
    let mut place = 0;
    reader.open(bytes);
    while let Some(length) = reader.read(&bytes[place..]) {
        with(reader.samples(), place..place + length);
        place += length;
    }
    place
}

/// An input, with the shortest time that each reader took for each of its frames.
struct Input<'a> {
    name: String,
    /// The stream, with its metadata, and the frames in it.
    stream: &'a [u8],
    bytes: &'a [u8],
    samples: usize,
    /// Where each frame starts, and its times: ours, claxon's, libFLAC's.
    frames: Vec<(usize, [Duration; 3])>,
}

impl<'a> Input<'a> {
    /// All readers must read all of this stream, and give the same samples.
    fn new(name: String, stream: &'a [u8]) -> Input<'a> {
        let bytes = flac::frames_of(stream);
        let (mut frames, mut samples, mut claxon) = (Vec::new(), 0, Claxon::new());
        let (mut libflac, mut copy) = (LibFlac::open(stream), vec![0; ROOM]);
        let end = walk(bytes, Ours::new(), |block, range| {
            let length = claxon.read(&bytes[range.start..]);
            assert!(length == Some(range.len()) && claxon.samples() == block, "the readers part at {}", range.start);
            if let Some(decoder) = &mut libflac {
                let count = decoder.next_into(&mut copy);
                assert!(copy[..count] == *block, "libFLAC parts from the readers at {}", range.start);
            }
            frames.push((range.start, [Duration::MAX; 3]));
            samples += block.len();
        });
        assert_eq!(end, bytes.len(), "a frame is refused");
        Input { name, stream, bytes, samples, frames }
    }

    /// Runs the readers on each frame. The second one finds the bytes in the cache, so ours and claxon swap places from
    /// pass to pass. libFLAC, which goes through the whole stream by itself, is always last.
    fn pass(&mut self, ours: &mut Ours, claxon: &mut Claxon, ours_first: bool) {
        let mut libflac = LibFlac::open(self.stream);
        ours.open(self.bytes);
        for (start, [best, other, third]) in &mut self.frames {
            let rest = &self.bytes[*start..];
            if ours_first {
                time(best, || ours.read(rest).is_some());
                time(other, || claxon.read(rest).is_some());
            } else {
                time(other, || claxon.read(rest).is_some());
                time(best, || ours.read(rest).is_some());
            }
            if let Some(decoder) = &mut libflac {
                time(third, || decoder.next() > 0);
            }
        }
    }

    /// A row of a table: the sums of the frames' shortest times.
    fn print(&self) {
        let sum = |who: usize| self.frames.iter().map(|(_, times)| times[who]).sum::<Duration>().as_secs_f64();
        let byte = |time: f64| time * 1e9 / self.bytes.len() as f64;
        let (ours, claxon) = (sum(0), sum(1));
        print!("| {} | {} | {} ", self.name, self.bytes.len(), self.samples);
        print!("| {:.2} | {:.2} ", byte(ours), byte(claxon));
        let libflac = if cfg!(libflac) { Some(sum(2)) } else { None };
        print!("| {} ", libflac.map_or("-".into(), |time| format!("{:.2}", byte(time))));
        print!("| {:.1} | {:.2} ", self.samples as f64 / ours / 1e6, ours / claxon);
        println!("| {} |", libflac.map_or("-".into(), |time| format!("{:.2}", ours / time)));
    }
}

const HEAD: &str = "| input | bytes | samples | ours, ns a byte | claxon, ns a byte | libFLAC, ns a byte \
| ours, million samples a second | ours / claxon | ours / libFLAC |\n|---|---|---|---|---|---|---|---|---|";

/// Has a frame read, and keeps the time if it is shorter than before.
fn time(least: &mut Duration, read: impl FnOnce() -> bool) {
    *least = timed(read).min(*least);
}

fn timed(read: impl FnOnce() -> bool) -> Duration {
    let start = Instant::now();
    let is_read = read();
    let time = start.elapsed();
    assert!(is_read, "a frame is refused");
    time
}

/// Makes the passes over all inputs. Other work of the machine disturbs different frames in each pass, and a busy time
/// disturbs a few passes of every input instead of all passes of one.
fn measure(tables: &mut [(String, Vec<Input>)]) {
    let (mut ours, mut claxon) = (Ours::new(), Claxon::new());
    let (begin, mut pass) = (Instant::now(), 0);
    while pass < PASSES || begin.elapsed() < WHILE {
        for input in tables.iter_mut().flat_map(|(_, inputs)| inputs) {
            input.pass(&mut ours, &mut claxon, pass % 2 == 0);
        }
        pass += 1;
    }
}

/// The beginning of a stream: its metadata, and the frames that end within this many bytes.
fn first_frames(stream: &[u8], length: usize) -> &[u8] {
    let bytes = flac::frames_of(stream);
    let mut within = 0;
    walk(bytes, Ours::new(), |_, range| {
        if range.end <= length {
            within = range.end;
        }
    });
    &stream[..stream.len() - bytes.len() + within]
}

fn sound(seconds: usize) -> Vec<i32> {
    interleaved(&mut Draw::new(9639, "bench"), RATE * seconds, CHANNELS, BITS, Kind::Sines)
}

/// This sound, encoded with these options. The file material.flac in the folder holds it too.
fn stream(folder: &Path, sound: &[i32], words: &[&str]) -> Vec<u8> {
    flac::encode(folder, sound, CHANNELS, BITS, words).expect("flac encodes the sound")
}

fn tables(folder: &Path, seconds: usize) {
    let sound = sound(seconds);
    let levels = [&["-5"][..], &["-8"], &["-0"], &["--lax", "-l", "32"]]
        .map(|words| (format!("flac {}", words.join(" ")), stream(folder, &sound, words)));
    let sizes = ["192", "576", "1152", "2304", "4096", "8192", "16384", "32768", "65535"]
        .map(|size| (size, stream(folder, &sound[..sound.len() / 8], &["--lax", "-5", "-b", size])));
    let five = &levels[0].1;
    let length = flac::frames_of(five).len();
    let part = |parts: usize| Input::new(format!("{parts} of 8"), first_frames(five, length * parts / 8));
    let mut tables = [
        (
            format!("24-bit stereo, {seconds} seconds at {RATE} Hz; of each frame the least of {PASSES} times or more"),
            levels.iter().map(|(name, stream)| Input::new(name.clone(), stream)).collect::<Vec<_>>(),
        ),
        ("With the length of the input (flac -5)".into(), (1..=8).map(part).collect()),
        (
            "With the size of the blocks (flac -5, an eighth of the sound)".into(),
            sizes.iter().map(|(size, stream)| Input::new(format!("blocks of {size}"), stream)).collect(),
        ),
    ];
    measure(&mut tables);
    for (title, inputs) in tables {
        println!("{title}:\n\n{HEAD}");
        inputs.iter().for_each(Input::print);
        println!();
    }
}

/// The most memory that this process has had, in kB, as Linux counts it.
fn peak() -> String {
    let status = std::fs::read_to_string("/proc/self/status").unwrap_or_default();
    let line = status.lines().find_map(|line| line.strip_prefix("VmHWM:"));
    line.map_or("not known".into(), |rest| rest.trim().into())
}

/// A stream read over and over, frame by frame by turns, until the sound is this long: a row with the whole time of each
/// reader, and the most memory after the first round and at the end.
fn hours(name: &str, file: &str, hours: usize) {
    let stream = std::fs::read(file).expect("the stream is read");
    let bytes = flac::frames_of(&stream);
    let (mut ours, mut claxon, mut times, mut samples) = (Ours::new(), Claxon::new(), [Duration::ZERO; 2], 0);
    let (mut round, mut first) = (0, String::new());
    ours.open(bytes);
    while samples < hours * 3600 * RATE * CHANNELS {
        let mut place = 0;
        while place < bytes.len() {
            let rest = &bytes[place..];
            let mut length = None;
            let mut turn = |reader: &mut dyn Reader, time: &mut Duration| {
                *time += timed(|| {
                    length = reader.read(rest);
                    length.is_some()
                })
            };
            if round % 2 == 0 {
                turn(&mut ours, &mut times[0]);
                turn(&mut claxon, &mut times[1]);
            } else {
                turn(&mut claxon, &mut times[1]);
                turn(&mut ours, &mut times[0]);
            }
            samples += ours.samples().len();
            place += length.expect("both have read the frame");
        }
        round += 1;
        if round == 1 {
            first = peak();
        }
    }
    let [ours, claxon] = times.map(|time| time.as_secs_f64());
    print!("| {name} | {:.2} h | {} ", samples as f64 / (3600 * RATE * CHANNELS) as f64, bytes.len() * round);
    println!("| {ours:.1} s | {claxon:.1} s | {:.2} | {first} | {} |", ours / claxon, peak());
}

/// Reads a stream's frames once, or nothing: for counting instructions.
fn once(who: &str, file: &str) {
    let stream = std::fs::read(file).expect("the stream is read");
    let bytes = flac::frames_of(&stream);
    let end = match who {
        "ours" => walk(bytes, Ours::new(), |_, _| ()),
        "claxon" => walk(bytes, Claxon::new(), |_, _| ()),
        "libflac" => {
            let mut decoder = LibFlac::open(&stream).expect("libFLAC is there");
            while decoder.next() > 0 {}
            bytes.len()
        }
        _ => bytes.len(),
    };
    assert_eq!(end, bytes.len());
    println!("{end}");
}

fn main() {
    let words: Vec<String> = std::env::args().skip(1).collect();
    let number = |word: &str| word.parse().expect("a number");
    match words.iter().map(String::as_str).collect::<Vec<_>>()[..] {
        ["tables", folder, seconds] => tables(Path::new(folder), number(seconds)),
        ["make", folder, seconds, ref options @ ..] => {
            drop(stream(Path::new(folder), &sound(number(seconds)), options))
        }
        ["hours", name, file, count] => hours(name, file, number(count)),
        ["once", who, file] => once(who, file),
        ["has-libflac"] => println!("{}", if cfg!(libflac) { "yes" } else { "no" }),
        _ => panic!(
            "tables FOLDER SECONDS, make FOLDER SECONDS OPTIONS, hours NAME FILE COUNT, once WHO FILE, or has-libflac"
        ),
    }
}
