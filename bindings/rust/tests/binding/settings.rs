//! What the settings change: which are refused, the number of a frame's first sample, and blocks that are too large.
use crate::{values, Values, WHOLE, WHOLE_VALUES};
use thriftacorn::{read_frame, write_frame, Blocking, Frames, ReadSettings, Refusal, WriteSettings};

/// The frames of RFC 9639's second example, appendix D.2: 16 samples, then the stream's last 3. Both have two channels.
const FIRST: [u8; 68] = [
    0xFF, 0xF8, 0x69, 0x98, 0x00, 0x0F, 0x99, 0x12, 0x08, 0x67, 0x01, 0x62, 0x3D, 0x14, 0x42, 0x99, 0x8F, 0x5D, 0xF7,
    0x0D, 0x6F, 0xE0, 0x0C, 0x17, 0xCA, 0xEB, 0x21, 0x00, 0x0E, 0xE7, 0xA7, 0x7A, 0x24, 0xA1, 0x59, 0x0C, 0x12, 0x17,
    0xB6, 0x03, 0x09, 0x7B, 0x78, 0x4F, 0xAA, 0x9A, 0x33, 0xD2, 0x85, 0xE0, 0x70, 0xAD, 0x5B, 0x1B, 0x48, 0x51, 0xB4,
    0x01, 0x0D, 0x99, 0xD2, 0xCD, 0x1A, 0x68, 0xF1, 0xE6, 0xB8, 0x10,
];
const LAST: [u8; 23] = [
    0xFF, 0xF8, 0x69, 0x18, 0x01, 0x02, 0xA4, 0x02, 0xC3, 0x82, 0xC4, 0x0B, 0xC1, 0x4A, 0x03, 0xEE, 0x48, 0xDD, 0x03,
    0xB6, 0x7C, 0x13, 0x30,
];
const LAST_SAMPLES: [i32; 7] = [-15486, -15349, -16054, -9072, -8958, -9410, 7];

const FIRST_VALUES: Values = (68, Some(0), 2, 16, 16);

/// The report of `LAST` with this number for its first sample.
fn last_values(first: Option<u64>) -> Values {
    (23, first, 2, 16, 3)
}

const UNKNOWN: ReadSettings = ReadSettings::new();

fn blocks_of(size: usize) -> ReadSettings {
    UNKNOWN.with_block(size)
}

/// What a read answers, and what it leaves of seven samples that each held 7.
fn read(bytes: &[u8], settings: ReadSettings) -> (Result<Values, Refusal>, [i32; 7]) {
    let mut samples = [7; 7];
    (read_frame(bytes, &settings, &mut samples).map(values), samples)
}

fn refused(refusal: Refusal) -> (Result<Values, Refusal>, [i32; 7]) {
    (Err(refusal), [7; 7])
}

/// A frame of one channel that counts up from 1.
fn written(blocking: Blocking, number: u64, size: usize) -> Vec<u8> {
    let mut settings = WriteSettings::new(0, 24, size);
    (settings.blocking, settings.number) = (blocking, number);
    let samples: Vec<i32> = (1..).take(size).collect();
    let mut out = vec![0; settings.longest()];
    let length = write_frame(&samples, &settings, &mut out).unwrap();
    out.truncate(length);
    out
}

#[test]
fn the_settings_start_with_nothing_known() {
    assert_eq!((UNKNOWN.block, ReadSettings::default()), (None, UNKNOWN));
    assert_eq!((blocks_of(0).block, blocks_of(usize::MAX).block), (Some(0), Some(usize::MAX)));
}

#[test]
fn a_size_that_no_stream_has_is_refused_before_anything() {
    let variable = written(Blocking::Variable, 5, 2);
    for size in [0, 65536, 65537, usize::MAX / 2 + 2, usize::MAX] {
        let settings = blocks_of(size);
        for bytes in [&[][..], &[0xFF], b"RIFF", &[0xFF, 0xF8, 0x00], &WHOLE[..7], &WHOLE, &LAST, &variable] {
            assert_eq!(read(bytes, settings), refused(Refusal::BadArgument), "{size}, {bytes:?}");
            assert_eq!(read_frame(bytes, &settings, &mut []), Err(Refusal::BadArgument));
            let mut frames = Frames::with_settings(bytes, settings);
            for _ in 0..2 {
                assert_eq!((frames.read(&mut [7; 7]), frames.place()), (Err(Refusal::BadArgument), 0));
            }
        }
    }
}

#[test]
fn the_smallest_and_the_largest_size_are_taken() {
    for size in [1, 65535] {
        assert_eq!(read(&[], blocks_of(size)), refused(Refusal::NothingLeft));
        assert_eq!(read(&WHOLE, blocks_of(size)), (Ok(WHOLE_VALUES), [25588, 10416, 7, 7, 7, 7, 7]));
    }
    assert_eq!(read(&LAST, blocks_of(65535)), (Ok(last_values(Some(65535))), LAST_SAMPLES));
    // The largest number that a first sample can have.
    let (most, mut samples) = ((1 << 31) - 1, [0; 2]);
    let frame = read_frame(&written(Blocking::Fixed, most, 2), &blocks_of(65535), &mut samples).unwrap();
    assert_eq!((frame.first, samples), (Some(most * 65535), [1, 2]));
}

#[test]
fn a_short_last_block_is_placed_by_the_size_of_the_streams() {
    for size in [3, 4, 16, 4096] {
        assert_eq!(read(&LAST, blocks_of(size)), (Ok(last_values(Some(size as u64))), LAST_SAMPLES));
    }
}

#[test]
fn without_the_size_a_frame_number_places_nothing() {
    // Not even where the number is 0.
    let (consumed, _, channels, bits, size) = WHOLE_VALUES;
    let samples = [25588, 10416, 7, 7, 7, 7, 7];
    assert_eq!(read(&WHOLE, UNKNOWN), (Ok((consumed, None, channels, bits, size)), samples));
    assert_eq!(read(&LAST, UNKNOWN), (Ok(last_values(None)), LAST_SAMPLES));
    // With variable blocking the header has the first sample's own number.
    for number in [0, 5, (1 << 36) - 1] {
        let frame = written(Blocking::Variable, number, 2);
        let answer = (Ok((frame.len(), Some(number), 1, 24, 2)), [1, 2, 7, 7, 7, 7, 7]);
        for settings in [UNKNOWN, blocks_of(2), blocks_of(3), blocks_of(65535)] {
            assert_eq!(read(&frame, settings), answer, "{settings:?}");
        }
    }
}

#[test]
fn a_block_larger_than_the_streams_is_refused_with_fixed_blocking_alone() {
    for size in [1, 2] {
        assert_eq!(read(&LAST, blocks_of(size)), refused(Refusal::BadShape));
    }
    let variable = written(Blocking::Variable, 9, 3);
    for size in [1, 2] {
        let answer = (Ok((variable.len(), Some(9), 1, 24, 3)), [1, 2, 3, 7, 7, 7, 7]);
        assert_eq!(read(&variable, blocks_of(size)), answer);
    }
    let largest = written(Blocking::Fixed, 0, 65535);
    assert_eq!(read(&largest, blocks_of(65534)), refused(Refusal::BadShape));
    assert_eq!(read(&largest, blocks_of(65535)), refused(Refusal::NoRoom));
}

#[test]
fn a_larger_block_is_refused_after_the_header_and_before_the_room() {
    // The header has 7 bytes. No byte after them is needed, and none changes the answer.
    for length in 0..LAST.len() {
        let refusal = match length {
            0 => Refusal::NothingLeft,
            1..=6 => Refusal::CutShort,
            _ => Refusal::BadShape,
        };
        assert_eq!(read(&LAST[..length], blocks_of(2)), refused(refusal), "first {length} bytes");
    }
    for room in 0..6 {
        let mut samples = vec![7; room];
        assert_eq!(read_frame(&LAST, &blocks_of(2), &mut samples), Err(Refusal::BadShape));
        assert_eq!(read_frame(&LAST, &blocks_of(3), &mut samples), Err(Refusal::NoRoom));
        assert_eq!(read_frame(&LAST, &UNKNOWN, &mut samples), Err(Refusal::NoRoom));
        assert_eq!(samples, vec![7; room]);
    }
    // What is wrong in the header comes first: its CRC-8, and that it leaves the bits to the stream's header.
    let mut wrong = LAST;
    wrong[6] ^= 1;
    assert_eq!(read(&wrong, blocks_of(2)), refused(Refusal::HeaderSum));
    let without_bits = [0xFF, 0xF8, 0x60, 0x00, 0x00, 0x01, 0xED];
    for settings in [UNKNOWN, blocks_of(1), blocks_of(2)] {
        assert_eq!(read(&without_bits, settings), refused(Refusal::NotDone), "{settings:?}");
    }
}

#[test]
fn a_stream_says_its_size_in_its_first_header() {
    assert_eq!(ReadSettings::of_stream(&FIRST), blocks_of(16));
    assert_eq!(ReadSettings::of_stream(&LAST), blocks_of(3));
    assert_eq!(ReadSettings::of_stream(&written(Blocking::Variable, 9, 5)), blocks_of(5));
    assert_eq!(ReadSettings::of_stream(&written(Blocking::Fixed, 9, 65535)), blocks_of(65535));
    for length in 0..LAST.len() {
        let settings = if length < 7 { UNKNOWN } else { blocks_of(3) };
        assert_eq!(ReadSettings::of_stream(&LAST[..length]), settings, "first {length} bytes");
    }
    // It takes a header that is right, but not a frame that can be read.
    assert_eq!(ReadSettings::of_stream(&[0xFF, 0xF8, 0x60, 0x00, 0x00, 0x01, 0xED]), blocks_of(2));
    for bytes in [&[][..], b"RIFF", &[0xFF, 0xF8, 0x60, 0x00, 0x00, 0x01, 0xEC], &[0xFF, 0xF8, 0x60, 0x02, 0x80, 0]] {
        assert_eq!(ReadSettings::of_stream(bytes), UNKNOWN, "{bytes:?}");
    }
}

/// Every frame of a row, and the refusal that ends it with its place. The samples before that refusal are not touched.
fn row(mut frames: Frames) -> (Vec<Values>, Refusal, usize) {
    let mut list = Vec::new();
    let mut samples = [7; 64];
    loop {
        let before = samples;
        match frames.read(&mut samples) {
            Ok(frame) => list.push(values(frame)),
            Err(refusal) => {
                assert_eq!(before, samples);
                return (list, refusal, frames.place());
            }
        }
    }
}

#[test]
fn frames_keep_the_size_of_the_first() {
    let stream = [&FIRST[..], &LAST].concat();
    let frames = Frames::new(&stream);
    assert_eq!((frames.settings(), frames.place()), (blocks_of(16), 0));
    assert_eq!(row(frames), (vec![FIRST_VALUES, last_values(Some(16))], Refusal::NothingLeft, 91));
    let unknown = Frames::with_settings(&stream, UNKNOWN);
    assert_eq!(unknown.settings(), UNKNOWN);
    assert_eq!(row(unknown), (vec![(68, None, 2, 16, 16), last_values(None)], Refusal::NothingLeft, 91));
    // From the middle of a stream, the caller gives its size.
    let rest = Frames::with_settings(&LAST, blocks_of(16));
    assert_eq!(row(rest), (vec![last_values(Some(16))], Refusal::NothingLeft, 23));
    assert_eq!(row(Frames::new(&LAST)), (vec![last_values(Some(3))], Refusal::NothingLeft, 23));
}

#[test]
fn a_larger_block_ends_the_frames() {
    let stream = [&LAST[..], &FIRST, &LAST].concat();
    assert_eq!(row(Frames::new(&stream)), (vec![last_values(Some(3))], Refusal::BadShape, 23));
    // With variable blocking the blocks may have any sizes.
    let blocks = [(0, 2), (2, 7), (9, 1)].map(|(number, size)| written(Blocking::Variable, number, size));
    let frames: Vec<Values> = [(0, 2), (2, 7), (9, 1)]
        .iter()
        .zip(&blocks)
        .map(|(&(number, size), bytes)| (bytes.len(), Some(number), 1, 24, size))
        .collect();
    let stream = blocks.concat();
    assert_eq!(row(Frames::new(&stream)), (frames, Refusal::NothingLeft, stream.len()));
}

#[test]
fn a_first_frame_that_is_refused_ends_the_frames() {
    // Its header is right, and its CRC-16 is not.
    let mut stream = [&FIRST[..], &LAST].concat();
    stream[67] ^= 1;
    let (mut frames, mut samples) = (Frames::new(&stream), [7; 33]);
    assert_eq!(frames.settings(), blocks_of(16));
    assert_eq!((frames.read(&mut samples), frames.place()), (Err(Refusal::FrameSum), 0));
    assert_eq!((&samples[..32], samples[32]), (&[0; 32][..], 7));
    // Its header is not.
    stream[6] ^= 1;
    let frames = Frames::new(&stream);
    assert_eq!(frames.settings(), UNKNOWN);
    assert_eq!(row(frames), (vec![], Refusal::HeaderSum, 0));
}
