//! Inputs kept from every family for other uses: the program `runner`, and the list of stored cases.
use crate::rule::{due, stream_settings, Entry, Head};
use common::readers::{Answer, Claxon};

/// What the program `runner` reads of its input, and the samples that it has room for.
const RUNNER_BYTES: usize = 32768;
const RUNNER_ROOM: usize = 8192;

pub struct Kept {
    pub name: String,
    pub bytes: Vec<u8>,
    /// What `runner` must write.
    pub output: Vec<u8>,
}

/// Keeps at most `quota` inputs of each refusal in each family, and four times as many frames. None is longer than
/// `longest`, and no output is longer than `widest`.
pub struct Sample {
    pub quota: u64,
    pub longest: usize,
    pub widest: usize,
    pub kept: Vec<Kept>,
    /// By family and answer: how many were seen, which one to keep next, how many are kept.
    counts: Vec<[[u64; 3]; 11]>,
}

impl Sample {
    pub fn new(quota: u64, longest: usize, widest: usize) -> Sample {
        Sample { quota, longest, widest, kept: Vec::new(), counts: Vec::new() }
    }

    /// Keeps the first of a kind, then one at ever longer intervals, so that the sample is spread over the run.
    pub fn offer(&mut self, family: usize, name: &str, bytes: &[u8], answer: Answer) {
        if self.counts.len() <= family {
            self.counts.resize(family + 1, [[0; 3]; 11]);
        }
        let number = usize::from(answer.number().unwrap_or(0));
        let quota = if number == 0 { 4 * self.quota } else { self.quota };
        let [seen, next, kept] = &mut self.counts[family][number];
        *seen += 1;
        if *seen < *next || *kept == quota || bytes.len() > self.longest {
            return;
        }
        if self.kept.iter().any(|case| case.bytes == bytes) {
            return;
        }
        if let Some(output) = render(bytes).filter(|output| output.len() <= self.widest) {
            let name = format!("{name}-{number}-{kept}");
            self.kept.push(Kept { name, bytes: bytes.to_vec(), output });
            *next = *seen + *seen / 2;
            *kept += 1;
        }
    }
}

/// What `runner` must write, from claxon's answers. With fixed blocking it goes by the first frame's block size; `None`
/// if one of the frames is on the list of differences for another reason.
pub fn render(bytes: &[u8]) -> Option<Vec<u8>> {
    let bytes = &bytes[..bytes.len().min(RUNNER_BYTES)];
    let settings = stream_settings(Head::of(bytes).as_ref());
    let mut claxon = Claxon::new(bytes, Vec::new());
    let mut at = 0;
    let mut out = Vec::new();
    loop {
        let rest = &bytes[at..];
        let due = due(rest, Head::of(rest).as_ref(), &settings, RUNNER_ROOM, claxon.read());
        if !matches!(due.entry, None | Some(Entry::ShortBlock | Entry::LargerBlock)) {
            return None;
        }
        match due.answer {
            Answer::Frame(frame) => {
                at += frame.consumed;
                out.push(1);
                out.extend((frame.consumed as u32).to_le_bytes());
                out.extend(frame.first.expect("the first header gives a size").to_le_bytes());
                out.extend([frame.channels as u8, frame.bits as u8]);
                out.extend((frame.block_size as u16).to_le_bytes());
                for sample in &claxon.samples {
                    out.push(2);
                    out.extend(sample.to_le_bytes());
                }
            }
            Answer::Refused(number) => {
                out.extend([3, number]);
                return Some(out);
            }
            Answer::Escaped | Answer::Panicked | Answer::Unknown(_) => return None,
        }
    }
}
