//! The stream header, what it gives to the frames, and whole streams.
use crate::{values, WHOLE};
use thriftacorn::{
    read_frame, read_stream_header, write_frame, Block, Frames, ReadSettings, Refusal, Stream, StreamRecord,
    WriteSettings,
};

/// The header of RFC 9639's first stream, appendix D.1. Its frame is `WHOLE`.
const HEADER: [u8; 42] = [
    0x66, 0x4C, 0x61, 0x43, 0x80, 0x00, 0x00, 0x22, 0x10, 0x00, 0x10, 0x00, 0x00, 0x00, 0x0F, 0x00, 0x00, 0x0F, 0x0A,
    0xC4, 0x42, 0xF0, 0x00, 0x00, 0x00, 0x01, 0x3E, 0x84, 0xB4, 0x18, 0x07, 0xDC, 0x69, 0x03, 0x07, 0x58, 0x6A, 0x3D,
    0xAD, 0x1A, 0x2E, 0x0F,
];

/// One sample of 13 bits, -1. The frame's header leaves its bits and its rate to the stream.
const LEFT: [u8; 12] = [0xFF, 0xF8, 0x60, 0x00, 0x00, 0x00, 0xEA, 0x02, 0xFF, 0xF8, 0x14, 0x8E];

const UNKNOWN: ReadSettings = ReadSettings::new();

fn record(bits: u32, rate: u32) -> ReadSettings {
    UNKNOWN.with_stream(StreamRecord { bits, rate })
}

/// The header with another byte.
fn with(place: usize, byte: u8) -> [u8; 42] {
    let mut bytes = HEADER;
    bytes[place] = byte;
    bytes
}

/// The header, not the last block, and the blocks after it.
fn followed_by(blocks: &[u8]) -> Vec<u8> {
    [&with(4, 0)[..], blocks].concat()
}

#[test]
fn a_header_is_read_in_full() {
    let (info, length) = read_stream_header(&HEADER).unwrap();
    assert_eq!((length, info.md5[..] == HEADER[26..]), (42, true));
    assert_eq!((info.smallest_block, info.largest_block), (4096, 4096));
    assert_eq!((info.smallest_frame, info.largest_frame), (15, 15));
    assert_eq!((info.rate, info.channels, info.bits, info.samples), (44100, 2, 16, 1));
    assert_eq!(info.record(), StreamRecord { bits: 16, rate: 44100 });
    // All bits of the fields.
    let mut ones = [0xFF; 42];
    ones[..8].copy_from_slice(&HEADER[..8]);
    let (most, _) = read_stream_header(&ones).unwrap();
    assert_eq!((most.smallest_block, most.largest_block), (0xFFFF, 0xFFFF));
    assert_eq!((most.smallest_frame, most.largest_frame), (0xFF_FFFF, 0xFF_FFFF));
    assert_eq!((most.rate, most.channels, most.bits, most.samples), (0xF_FFFF, 8, 32, 0xF_FFFF_FFFF));
    assert_eq!(most.md5, [0xFF; 16]);
}

#[test]
fn more_bytes_change_only_a_header_that_is_cut_short() {
    for length in 0..42 {
        assert_eq!(read_stream_header(&HEADER[..length]), Err(Refusal::CutShort), "first {length} bytes");
    }
    let whole = read_stream_header(&HEADER);
    for more in [&[][..], &[0], &WHOLE, &HEADER] {
        assert_eq!(read_stream_header(&[&HEADER, more].concat()), whole);
    }
}

#[test]
fn each_refusal_is_judged_where_its_field_ends() {
    let refused = |bytes: &[u8], from: usize, refusal: Refusal| {
        for length in 0..=bytes.len() {
            let wanted = if length < from { Refusal::CutShort } else { refusal };
            assert_eq!(read_stream_header(&bytes[..length]), Err(wanted), "{refusal:?}, first {length} bytes");
        }
    };
    refused(&with(0, b'F'), 4, Refusal::NotSync);
    refused(&with(3, b'X'), 4, Refusal::NotSync);
    refused(&with(4, 0x7F), 5, Refusal::Reserved);
    refused(&with(4, 0xFF), 5, Refusal::Reserved);
    for kind in 1..127 {
        refused(&with(4, kind), 5, Refusal::BadShape);
    }
    for length in [0, 33, 35] {
        refused(&with(7, length), 8, Refusal::BadShape);
    }
    refused(&with(5, 1), 8, Refusal::BadShape);
    // Three bits: 2 is stored, its highest bit in byte 20 and the rest in byte 21.
    refused(&with(21, 0x20), 22, Refusal::BadShape);
    assert_eq!(read_stream_header(&with(21, 0x30)).map(|(info, _)| info.bits), Ok(4));
}

#[test]
fn later_blocks_are_skipped_and_must_be_there() {
    let (info, _) = read_stream_header(&HEADER).unwrap();
    for kind in 0..127 {
        let bytes = followed_by(&[kind, 0, 0, 2, 9, 9, 0x80 | kind, 0, 0, 0]);
        assert_eq!(read_stream_header(&bytes), Ok((info, 52)), "type {kind}");
        for length in 42..52 {
            assert_eq!(read_stream_header(&bytes[..length]), Err(Refusal::CutShort));
        }
    }
    assert_eq!(read_stream_header(&followed_by(&[0x7F])), Err(Refusal::Reserved));
    assert_eq!(read_stream_header(&followed_by(&[0xFF])), Err(Refusal::Reserved));
    // A block of 2^24 - 1 bytes.
    let mut long = followed_by(&[0x86, 0xFF, 0xFF, 0xFF]);
    long.resize(46 + 0xFF_FFFE, 0);
    assert_eq!(read_stream_header(&long), Err(Refusal::CutShort));
    long.push(0);
    assert_eq!(read_stream_header(&long), Ok((info, 46 + 0xFF_FFFF)));
}

#[test]
fn a_record_that_no_stream_has_is_refused_before_anything() {
    for bits in [0, 1, 2, 3, 33, 64, u32::MAX] {
        for bytes in [&[][..], &[0xFF], b"RIFF", &WHOLE, &LEFT] {
            let mut samples = [7; 2];
            assert_eq!(read_frame(bytes, &record(bits, 44100), &mut samples), Err(Refusal::BadArgument));
            assert_eq!(samples, [7; 2]);
        }
    }
    for bits in 4..=32 {
        assert_eq!(read_frame(&[], &record(bits, 44100), &mut []), Err(Refusal::NothingLeft));
    }
}

#[test]
fn what_the_frame_leaves_to_the_stream_is_taken_from_the_record() {
    let read = |settings: &ReadSettings| {
        let mut samples = [7; 1];
        (read_frame(&LEFT, settings, &mut samples).map(|frame| (frame.bits, frame.rate)), samples[0])
    };
    assert_eq!(read(&UNKNOWN), (Err(Refusal::NotDone), 7));
    for rate in [0, 44100, u32::MAX] {
        assert_eq!(read(&record(13, rate)), (Ok((13, Some(rate))), -1));
    }
    for bits in 25..=32 {
        assert_eq!(read(&record(bits, 1)), (Err(Refusal::NotDone), 7), "{bits} bits");
    }
    // The frame's own rate comes first, and nothing else goes by either.
    let mut samples = [7; 2];
    let own = read_frame(&WHOLE, &record(16, 8000), &mut samples).unwrap();
    assert_eq!((own.rate, values(own), samples), (Some(44100), (15, None, 2, 16, 1), [25588, 10416]));
    assert_eq!(read_frame(&WHOLE, &UNKNOWN, &mut samples).map(|frame| frame.rate), Ok(Some(44100)));
}

#[test]
fn own_bits_that_are_not_the_streams_are_refused_before_the_room() {
    for bits in (4..=32).filter(|&bits| bits != 16) {
        for room in 0..3 {
            let mut samples = vec![7; room];
            let settings = record(bits, 44100).with_block(1);
            assert_eq!(read_frame(&WHOLE, &settings, &mut samples), Err(Refusal::BadShape), "{bits} bits");
            assert_eq!(samples, vec![7; room]);
        }
    }
    assert_eq!(read_frame(&WHOLE, &record(16, 1), &mut [0; 1]), Err(Refusal::NoRoom));
    let mut wrong = WHOLE;
    wrong[6] ^= 1;
    assert_eq!(read_frame(&wrong, &record(24, 1), &mut [0; 2]), Err(Refusal::HeaderSum));
}

#[test]
fn what_is_written_reads_back_with_equal_bits() {
    let settings = WriteSettings::new(1, 24, 3);
    let mut out = vec![0; settings.longest()];
    let length = write_frame(&[1, -2, 3, 8_388_607, 0, -8_388_608], &settings, &mut out).unwrap();
    let mut samples = [7; 6];
    let frame = read_frame(&out[..length], &record(24, 96000), &mut samples).unwrap();
    assert_eq!((frame.rate, samples), (Some(96000), [1, -2, 3, 8_388_607, 0, -8_388_608]));
    assert_eq!(read_frame(&out[..length], &record(16, 96000), &mut samples), Err(Refusal::BadShape));
}

#[test]
fn a_whole_stream_is_its_header_and_its_frames() {
    let file = [&HEADER[..], &WHOLE, &WHOLE].concat();
    let mut stream = Stream::new(&file).unwrap();
    assert_eq!((stream.info(), stream.place()), (read_stream_header(&HEADER).unwrap().0, 42));
    let blocks: Vec<Block> = stream.by_ref().map(Result::unwrap).collect();
    assert_eq!((blocks.len(), stream.place(), stream.next()), (2, 72, None));
    for block in blocks {
        assert_eq!((block.frame.rate, &block.samples[..]), (Some(44100), &[25588, 10416][..]));
    }
    // The same by reads into a buffer.
    let (mut stream, mut samples) = (Stream::new(&file).unwrap(), [0; 2]);
    for place in [57, 72] {
        assert_eq!((stream.read(&mut samples).is_ok(), stream.place()), (true, place));
    }
    assert_eq!(stream.read(&mut samples), Err(Refusal::NothingLeft));
    // Bare frames are no stream, and a stream is no bare frame.
    assert_eq!(Stream::new(&WHOLE).unwrap_err(), Refusal::NotSync);
    assert_eq!(Frames::new(&file).read(&mut samples), Err(Refusal::NotSync));
}

#[test]
fn a_stream_says_once_why_it_ends_and_skips_nothing() {
    let mut damaged = WHOLE;
    damaged[14] ^= 1;
    let (short, wrong) = ([&HEADER[..], &WHOLE, &WHOLE[..14]], [&HEADER[..], &WHOLE, &damaged]);
    for (file, refusal) in [(short.concat(), Refusal::CutShort), (wrong.concat(), Refusal::FrameSum)] {
        let mut stream = Stream::new(&file).unwrap();
        assert!(stream.next().unwrap().is_ok());
        assert_eq!((stream.next(), stream.next(), stream.place()), (Some(Err(refusal)), None, 57));
    }
    // A header alone has no frames, and one whose bits are others is refused at the first.
    assert_eq!(Stream::new(&HEADER).unwrap().next(), None);
    let file = [&with(21, 0x70)[..], &WHOLE].concat();
    assert_eq!(Stream::new(&file).unwrap().next(), Some(Err(Refusal::BadShape)));
}
