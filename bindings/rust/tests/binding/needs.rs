//! What each refusal asks of the caller, and an input on which a caller who ignores that finds a frame inside the
//! sound.
use crate::{read_first, values, Values, WHOLE, WHOLE_VALUES};
use thriftacorn::{write_frame, Frames, Need, ReadSettings, Refusal, WriteSettings};

/// The place of RFC 9639's first frame inside the sound.
const INSIDE: usize = 107;
const HOLDING_VALUES: Values = (201, Some(0), 1, 8, 191);

/// One channel, 8 bits, 191 verbatim samples, block size code 6. Fifteen of the samples are the bytes of `WHOLE`, with
/// both its check sums. It is the stored case `frame-in-sound` of cases/runner.txt.
fn holding() -> Vec<u8> {
    let mut frame = vec![0xFF, 0xF8, 0x60, 0x02, 0x00, 0xBE, 0x0F, 0x02];
    frame.extend((0..191).map(|i| (i * i % 251 - 125) as u8));
    frame[INSIDE..INSIDE + WHOLE.len()].copy_from_slice(&WHOLE);
    frame.extend([0x17, 0x03]);
    frame
}

/// The first place after the start at which a frame is read.
fn hunt(bytes: &[u8]) -> Option<(usize, Values)> {
    let mut samples = [0; 256];
    (1..bytes.len()).find_map(|place| Some((place, values(read_first(&bytes[place..], &mut samples).ok()?))))
}

#[test]
fn each_refusal_says_what_it_needs() {
    for number in 1..=13 {
        let refusal = Refusal::from_number(number).unwrap();
        let need = match number {
            1 | 2 => Need::Wait,
            7 => Need::Room,
            _ => Need::Final,
        };
        assert_eq!(refusal.needs(), need, "{refusal:?}");
        let said = (refusal.wants_bytes(), refusal.wants_room(), refusal.is_final());
        assert_eq!(said, (need == Need::Wait, need == Need::Room, need == Need::Final), "{refusal:?}");
    }
}

#[test]
fn half_a_frame_waits_though_a_frame_stands_inside_it() {
    let frame = holding();
    assert_eq!((frame.len(), &frame[INSIDE..INSIDE + 15]), (201, &WHOLE[..]));
    let mut samples = [0; 256];
    for length in 0..frame.len() {
        let refusal = read_first(&frame[..length], &mut samples).unwrap_err();
        assert_eq!(refusal.needs(), Need::Wait, "first {length} bytes");
        assert_eq!(refusal, if length == 0 { Refusal::NothingLeft } else { Refusal::CutShort });
    }
    assert_eq!(hunt(&frame[..INSIDE + 14]), None);
    assert_eq!(hunt(&frame[..161]), Some((INSIDE, WHOLE_VALUES)));
    assert_eq!(read_first(&frame, &mut samples).map(values), Ok(HOLDING_VALUES));
    let sound: Vec<i32> = frame[8..199].iter().map(|&byte| i32::from(byte as i8)).collect();
    assert_eq!(samples[..191], sound[..]);
}

#[test]
fn the_writer_writes_that_frame() {
    let frame = holding();
    let sound: Vec<i32> = frame[8..199].iter().map(|&byte| i32::from(byte as i8)).collect();
    let mut out = [0; 256];
    assert_eq!(write_frame(&sound, &WriteSettings::new(0, 8, 191), &mut out), Ok(201));
    assert_eq!(out[..201], frame[..]);
}

/// Reads an input that arrives in pieces of this length, going by `needs` alone. The first whole header gives the
/// settings for all pieces.
fn in_pieces(input: &[u8], length: usize) -> (Vec<Values>, Refusal) {
    let mut pieces = input.chunks(length);
    let (mut window, mut list, mut samples) = (Vec::new(), Vec::new(), [0; 256]);
    let mut settings = ReadSettings::new();
    loop {
        if settings.block.is_none() {
            settings = ReadSettings::of_stream(&window);
        }
        let mut frames = Frames::with_settings(&window, settings);
        let refusal = loop {
            match frames.read(&mut samples) {
                Ok(frame) => list.push(values(frame)),
                Err(refusal) => break refusal,
            }
        };
        window.drain(..frames.place());
        match (refusal.needs(), pieces.next()) {
            (Need::Wait, Some(piece)) => window.extend(piece),
            _ => return (list, refusal),
        }
    }
}

#[test]
fn however_an_input_is_cut_its_frames_are_the_same() {
    let sound: Vec<i32> = (0..20).collect();
    let mut last = [0; 64];
    let length = write_frame(&sound, &WriteSettings::new(0, 16, 20).fixed(3), &mut last).unwrap();
    let row = [&holding()[..], &WHOLE, &holding(), &last[..length], &WHOLE[..14]].concat();
    // The stream's blocks have 191 samples, so frame 3 starts at sample 573.
    let frames = vec![HOLDING_VALUES, WHOLE_VALUES, HOLDING_VALUES, (length, Some(573), 1, 16, 20)];
    for length in 1..=row.len() {
        assert_eq!(in_pieces(&row, length), (frames.clone(), Refusal::CutShort), "pieces of {length}");
    }
}

#[test]
fn more_bytes_and_more_room_do_as_needs_says() {
    let mut samples = [0; 256];
    let longer = [&WHOLE[..], &[0xFF; 40]].concat();
    assert_eq!(read_first(&longer, &mut samples[..1]), Err(Refusal::NoRoom));
    assert_eq!(read_first(&longer, &mut samples[..2]).map(values), Ok(WHOLE_VALUES));
    for place in 0..WHOLE.len() {
        let mut changed = longer.clone();
        changed[place] ^= 0x10;
        let refusal = read_first(&changed[..15], &mut samples).unwrap_err();
        assert!(refusal.is_final(), "byte {place} changed");
        assert_eq!(read_first(&changed, &mut samples), Err(refusal), "byte {place} changed");
    }
}
