//! The oracle: claxon 0.4.3 and this repository's reader on the same inputs, in one process. It ends with status 1 at
//! the first difference that docs/DIFFERENCES.md does not list, and prints that input.
mod cover;
mod families;
mod fault;
mod frame;
mod header;
mod judge;
mod material;
mod pen;
mod program;
mod rule;
mod sample;
mod short;
mod subframe;

use common::draw::Draw;
use common::flac;
use families::FAMILIES;
use judge::{Judge, OTHERS, RECORDS};
use pen::Pen;
use rule::LISTED;
use sample::Sample;
use std::path::PathBuf;
use std::time::{Duration, Instant};

pub fn hex(bytes: &[u8]) -> String {
    bytes.iter().map(|byte| format!("{byte:02x}")).collect()
}

/// What the command line asks for.
struct Wish {
    inputs: u64,
    time: Duration,
    seed: u64,
    /// How to run the program `runner`; empty if it is missing.
    runner: String,
    /// Where to write stored cases, instead of running `runner`.
    list: Option<PathBuf>,
    /// A folder for temporary files.
    work: PathBuf,
}

fn wish() -> Wish {
    let mut wish = Wish {
        inputs: u64::MAX,
        time: Duration::MAX,
        seed: 9639,
        runner: String::new(),
        list: None,
        work: std::env::temp_dir(),
    };
    let mut words = std::env::args().skip(1);
    while let Some(word) = words.next() {
        let value = words.next().unwrap_or_else(|| usage(&word));
        let number = || value.parse().unwrap_or_else(|_| usage(&word));
        match word.as_str() {
            "--inputs" => wish.inputs = number(),
            "--seconds" => wish.time = Duration::from_secs(number()),
            "--seed" => wish.seed = number(),
            "--runner" => wish.runner = value,
            "--list" => wish.list = Some(value.into()),
            "--work" => wish.work = value.into(),
            _ => usage(&word),
        }
    }
    if wish.inputs == u64::MAX && wish.time == Duration::MAX {
        wish.inputs = 5_000_000;
    }
    wish
}

fn usage(word: &str) -> ! {
    eprintln!(
        "oracle: what is '{word}'? [--inputs N] [--seconds N] [--seed N] [--runner COMMAND] [--list FILE] [--work DIR]"
    );
    std::process::exit(2)
}

/// Runs rounds of all random families until there are enough inputs or the time is up, but at least one.
fn rounds(judge: &mut Judge, wish: &Wish, start: Instant) {
    let mut streams: Vec<Draw> = FAMILIES.iter().map(|family| Draw::new(wish.seed, family.name)).collect();
    let mut pen = Pen::default();
    loop {
        for (family, draw) in FAMILIES.iter().zip(&mut streams) {
            let index = judge.family(family.name);
            for _ in 0..family.units {
                (family.unit)(judge, index, draw, &mut pen);
            }
        }
        if judge.total >= wish.inputs || start.elapsed() >= wish.time {
            break;
        }
    }
    pen.cover.print();
}

/// How many inputs each family had, and how often each answer came.
fn report(judge: &Judge, seconds: f64) {
    print!("{:<16}{:>10}{:>10}", "family", "inputs", "frames");
    (1..=10).for_each(|number| print!("{number:>9}"));
    println!();
    for tally in &judge.tallies {
        print!("{:<16}{:>10}{:>10}", tally.name, tally.inputs, tally.numbers[0]);
        tally.numbers[1..].iter().for_each(|count| print!("{count:>9}"));
        println!();
    }
    for (name, count) in LISTED.iter().zip(judge.listed) {
        println!("listed difference, {name}: {count} times");
    }
    let others = OTHERS.iter().zip(judge.others).map(|(name, count)| format!("{name} {count} times"));
    println!("read again with another block size: {}", others.collect::<Vec<_>>().join(", "));
    let records = RECORDS.iter().zip(judge.records).map(|(name, count)| format!("{name} {count} times"));
    println!("and with the stream's bits: {}", records.collect::<Vec<_>>().join(", "));
    println!("{} inputs in {seconds:.0} s, 0 differences off the list", judge.total);
}

/// Streams that `flac` encodes, if it is installed. Then it must encode some.
fn encoded(judge: &mut Judge, wish: &Wish) {
    if !flac::is_there() {
        println!("not compared: claxon with this reader on what flac encodes, since there is no flac that runs");
        return;
    }
    let streams = material::run(judge, &wish.work, wish.seed);
    println!("{streams} streams encoded by flac");
    if streams == 0 {
        std::process::exit(1);
    }
}

fn main() {
    let wish = wish();
    std::panic::set_hook(Box::new(|_| {}));
    let sample = match wish.list {
        Some(_) => Sample::new(3, 600, 4000),
        None => Sample::new(4, 32768, 50000),
    };
    let start = Instant::now();
    let mut judge = Judge::new(sample, wish.seed);
    short::run(&mut judge);
    encoded(&mut judge, &wish);
    rounds(&mut judge, &wish, start);
    report(&judge, start.elapsed().as_secs_f64());
    match &wish.list {
        Some(path) => program::write_list(&judge.sample.kept, path),
        None if wish.runner.is_empty() => println!("not compared: claxon with runner, since it is not built"),
        None => program::compare(&judge.sample.kept, &wish.runner),
    }
}
