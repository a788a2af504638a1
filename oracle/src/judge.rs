//! Compares the two readers' answers, input by input, and counts them.
use crate::rule::{due, stream_settings, Entry, Head, LISTED};
use crate::sample::Sample;
use common::draw::Draw;
use common::readers::{Answer, Claxon, Ours, ROOM};
use thriftacorn::{ReadSettings, StreamRecord};

/// One in this many single inputs is read again, with other settings.
const AGAIN: u32 = 4;

/// The settings of those reads.
pub const OTHERS: [&str; 5] = ["unknown", "not below the block", "below the block", "0", "above 65535"];

/// The stream's bits in those reads.
pub const RECORDS: [&str; 4] = ["unknown", "the frame's", "others", "out of range"];

/// How often each answer was seen in one family, by number. An input that got 7 is read again with enough room, and
/// counted by that answer too.
pub struct Tally {
    pub name: &'static str,
    pub inputs: u64,
    pub numbers: [u64; 11],
}

/// One frame of an input, as claxon has it.
struct Asked<'a> {
    family: usize,
    bytes: &'a [u8],
    head: Option<Head>,
    /// Where claxon stops at an escaped partition, this is the answer of claxon extended.
    answer: Answer,
    escaped: bool,
    samples: &'a [i32],
}

impl<'a> Asked<'a> {
    /// Has claxon read the frame at the start of these bytes, where it has arrived.
    fn new(family: usize, bytes: &'a [u8], claxon: &'a mut Claxon) -> Asked<'a> {
        let read = claxon.read();
        let escaped = read == Answer::Escaped;
        let answer = if escaped { claxon.read_extended() } else { read };
        Asked { family, bytes, head: Head::of(bytes), answer, escaped, samples: &claxon.samples }
    }
}

pub struct Judge {
    ours: Ours,
    spare: Vec<i32>,
    /// Chooses the inputs that are read again, and their settings.
    draw: Draw,
    pub tallies: Vec<Tally>,
    pub total: u64,
    pub listed: [u64; LISTED.len()],
    pub others: [u64; OTHERS.len()],
    pub records: [u64; RECORDS.len()],
    pub sample: Sample,
}

impl Judge {
    pub fn new(sample: Sample, seed: u64) -> Judge {
        Judge {
            ours: Ours::new(),
            spare: Vec::new(),
            draw: Draw::new(seed, "settings"),
            tallies: Vec::new(),
            total: 0,
            listed: [0; LISTED.len()],
            others: [0; OTHERS.len()],
            records: [0; RECORDS.len()],
            sample,
        }
    }

    /// Counts what follows under this name.
    pub fn family(&mut self, name: &'static str) -> usize {
        let known = self.tallies.iter().position(|tally| tally.name == name);
        known.unwrap_or_else(|| {
            self.tallies.push(Tally { name, inputs: 0, numbers: [0; 11] });
            self.tallies.len() - 1
        })
    }

    /// Reads one frame of these bytes, which were made to get this number.
    pub fn made_for(&mut self, number: u8, family: usize, bytes: &[u8]) {
        let got = self.one(family, bytes);
        if got != number {
            self.unmade(family, bytes, &format!("{got}"), &format!("{number}"));
        }
    }

    /// Reads frame after frame of these bytes, which were made to get so many frames and then this number.
    pub fn row_made_for(&mut self, frames: usize, number: u8, family: usize, bytes: &[u8]) {
        let got = self.row(family, bytes);
        if got != (frames, number) {
            let words = |(frames, number)| format!("{number} after {frames} frames");
            self.unmade(family, bytes, &words(got), &words((frames, number)));
        }
    }

    /// Ends the run at an input that gets another answer than it was made for.
    fn unmade(&self, family: usize, bytes: &[u8], got: &str, wanted: &str) -> ! {
        println!("family {}: the answer is {got}, and the input was made for {wanted}", self.tallies[family].name);
        println!("input  {}", crate::hex(bytes));
        std::process::exit(1)
    }

    /// Reads one frame of these bytes. Returns this reader's number.
    pub fn one(&mut self, family: usize, bytes: &[u8]) -> u8 {
        let mut claxon = Claxon::new(bytes, std::mem::take(&mut self.spare));
        let asked = Asked::new(family, bytes, &mut claxon);
        let settings = self.stream(&asked);
        let number = self.step(&asked, &settings, ROOM).map_or_else(|number| number, |_| 0);
        self.again(&asked, ROOM);
        self.spare = claxon.samples;
        number
    }

    /// Reads one frame of these bytes with this much room. If that is too little, the readers must agree with enough.
    pub fn lent(&mut self, family: usize, bytes: &[u8], room: usize) {
        let mut claxon = Claxon::new(bytes, std::mem::take(&mut self.spare));
        let asked = Asked::new(family, bytes, &mut claxon);
        let settings = self.stream(&asked);
        let too_little = self.hold(&asked, &settings, room).0 == Answer::Refused(7);
        if too_little {
            self.listed[Entry::Room as usize] += 1;
            self.tallies[family].numbers[7] += 1;
        }
        let _ = self.step(&asked, &settings, if too_little { ROOM } else { room });
        self.again(&asked, room);
        self.spare = claxon.samples;
    }

    /// Reads frame after frame of these bytes, up to the first refusal, all with the settings that the first header
    /// gives. Returns how many frames there are, and the refusal.
    pub fn row(&mut self, family: usize, bytes: &[u8]) -> (usize, u8) {
        let mut claxon = Claxon::new(bytes, std::mem::take(&mut self.spare));
        let (mut at, mut frames, mut first) = (0, 0, None);
        let number = loop {
            let asked = Asked::new(family, &bytes[at..], &mut claxon);
            let settings = *first.get_or_insert_with(|| self.stream(&asked));
            match self.step(&asked, &settings, ROOM) {
                Ok(consumed) => (at, frames) = (at + consumed, frames + 1),
                Err(number) => break number,
            }
        };
        self.spare = claxon.samples;
        (frames, number)
    }

    /// The settings of a stream that starts with this frame. This reader must find the same.
    fn stream(&mut self, first: &Asked) -> ReadSettings {
        let settings = stream_settings(first.head.as_ref());
        let found = ReadSettings::of_stream(first.bytes);
        if found != settings {
            println!("a difference off the list, family {}, input {}", self.tallies[first.family].name, self.total);
            println!("input  {}", crate::hex(first.bytes));
            println!("the settings of the stream are {found:?}, and by claxon {settings:?}");
            std::process::exit(1)
        }
        settings
    }

    /// Both readers on the same bytes. Returns the bytes consumed, or this reader's refusal.
    fn step(&mut self, asked: &Asked, settings: &ReadSettings, room: usize) -> Result<usize, u8> {
        let (ours, entry) = self.hold(asked, settings, room);
        let name = self.tallies[asked.family].name;
        if let Some(entry) = entry {
            self.listed[entry as usize] += 1;
        }
        match entry {
            None | Some(Entry::ShortBlock) if asked.escaped => self.listed[Entry::Escaped as usize] += 1,
            None => self.sample.offer(asked.family, name, asked.bytes, ours),
            // At the other entries this reader has met no partition.
            Some(_) => {}
        }
        let number = ours.number().expect("this reader has a number for everything");
        self.total += 1;
        self.tallies[asked.family].inputs += 1;
        self.tallies[asked.family].numbers[usize::from(number)] += 1;
        match ours {
            Answer::Frame(frame) => Ok(frame.consumed),
            _ => Err(number),
        }
    }

    /// Reads one frame whose bits are left to the stream, with these bits as the stream's. claxon reads the same frame with
    /// the bits in its header: `coded`. The two must have the same answer. The CRC-16 of the two differs, so of a damaged
    /// frame that gets as far as that nothing is said.
    pub fn left(&mut self, family: usize, coded: &[u8], left: &[u8], bits: u32, is_damaged: bool) {
        let mut claxon = Claxon::new(coded, std::mem::take(&mut self.spare));
        let asked = Asked::new(family, coded, &mut claxon);
        if is_damaged && matches!(asked.answer, Answer::Frame(_) | Answer::Refused(10)) {
            self.spare = claxon.samples;
            return;
        }
        let settings = self.stream(&asked).with_stream(StreamRecord { bits, rate: self.draw.bits(20) as u32 });
        let (ours, _) = self.hold_on(&asked, left, &settings, ROOM);
        let number = ours.number().expect("this reader has a number for everything");
        self.total += 1;
        self.tallies[family].inputs += 1;
        self.tallies[family].numbers[usize::from(number)] += 1;
        self.spare = claxon.samples;
    }

    /// Has this reader read, and holds its answer to what claxon's requires. Returns its answer, and the entry by which
    /// that is not claxon's.
    fn hold(&mut self, asked: &Asked, settings: &ReadSettings, room: usize) -> (Answer, Option<Entry>) {
        self.hold_on(asked, asked.bytes, settings, room)
    }

    /// The same where this reader reads other bytes than claxon did, which must have the same answer.
    fn hold_on(
        &mut self,
        asked: &Asked,
        bytes: &[u8],
        settings: &ReadSettings,
        room: usize,
    ) -> (Answer, Option<Entry>) {
        let ours = self.ours.read(bytes, settings, room);
        let due = due(asked.bytes, asked.head.as_ref(), settings, room, asked.answer);
        let samples_equal = !matches!(ours, Answer::Frame(_)) || self.ours.samples() == asked.samples;
        let in_order = self.ours.is_in_order(ours) && (!due.untouched || self.ours.is_untouched());
        if ours != due.answer || !samples_equal || !in_order {
            println!("a difference off the list, family {}, input {}", self.tallies[asked.family].name, self.total);
            println!("input  {}", crate::hex(bytes));
            println!("read with {settings:?} and room for {room} samples");
            println!("ours   {ours:?}");
            println!("claxon {:?}, by which {:?} is due", asked.answer, due.answer);
            println!("samples equal: {samples_equal}; buffer as it must be: {in_order}");
            std::process::exit(1)
        }
        (ours, due.entry)
    }

    /// Has this reader read some of the inputs with other settings than their own.
    fn again(&mut self, asked: &Asked, room: usize) {
        if !self.draw.once_in(AGAIN) {
            return;
        }
        let own = asked.head.map_or_else(|| self.draw.from(1, 65535), |head| head.size as u32);
        let kind = match self.draw.below(5) {
            2 if own == 1 => 1,
            kind => kind as usize,
        };
        let size = match kind {
            1 if self.draw.once_in(2) => (own + self.draw.below(3)).min(65535) as usize,
            1 => self.draw.from(own, 65535) as usize,
            2 if self.draw.once_in(2) => own as usize - 1,
            2 => self.draw.from(1, own - 1) as usize,
            4 => self.draw.pick(&[65536, 65537, usize::MAX]),
            _ => 0,
        };
        let unknown = ReadSettings::new();
        let blocks = if kind == 0 { unknown } else { unknown.with_block(size) };
        let record = self.record(asked.head.map(|head| head.bits));
        let settings = record.map_or(blocks, |record| blocks.with_stream(record));
        let (_, entry) = self.hold(asked, &settings, room);
        self.others[kind] += 1;
        if let Some(entry @ (Entry::ShortBlock | Entry::LargerBlock | Entry::OtherBits)) = entry {
            self.listed[entry as usize] += 1;
        }
    }

    /// A record of the stream, or none, for a frame with these bits in its header.
    fn record(&mut self, own: Option<u32>) -> Option<StreamRecord> {
        let kind = self.draw.below(4) as usize;
        let bits = match (kind, own) {
            (0, _) => 0,
            // A header without bits gets more than are read: with fewer, claxon says nothing of the frame.
            (1 | 2, Some(0)) => self.draw.from(25, 32),
            (1, Some(bits)) => bits,
            (1 | 2, _) => {
                let bits = self.draw.from(4, 32);
                if own == Some(bits) {
                    4
                } else {
                    bits
                }
            }
            _ => self.draw.pick(&[0, 1, 3, 33, 64, u32::MAX]),
        };
        self.records[kind] += 1;
        (kind > 0).then_some(StreamRecord { bits, rate: self.draw.bits(20) as u32 })
    }
}
