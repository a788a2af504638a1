//! The reader's answers through the binding, with what the buffer holds after each.
use crate::{read_first, values, Values, WHOLE, WHOLE_VALUES};
use thriftacorn::{Frames, Refusal, ROOM};

/// What a read answers, and what it leaves of four samples that each held 7.
fn read(bytes: &[u8]) -> (Result<Values, Refusal>, [i32; 4]) {
    let mut samples = [7; 4];
    (read_first(bytes, &mut samples).map(values), samples)
}

fn bytes(hex: &str) -> Vec<u8> {
    hex.as_bytes().chunks(2).map(|pair| u8::from_str_radix(std::str::from_utf8(pair).unwrap(), 16).unwrap()).collect()
}

#[test]
fn whole_case() {
    assert_eq!(read(&WHOLE), (Ok(WHOLE_VALUES), [25588, 10416, 7, 7]));
    let mut followed = WHOLE.to_vec();
    followed.extend([0, 1]);
    assert_eq!(read(&followed), (Ok(WHOLE_VALUES), [25588, 10416, 7, 7]));
}

#[test]
fn every_cut_is_short_and_the_buffer_is_zero_from_the_first_subframe_on() {
    assert_eq!(read(&[]), (Err(Refusal::NothingLeft), [7; 4]));
    for n in 1..WHOLE.len() {
        let left = if n <= 7 { [7; 4] } else { [0, 0, 7, 7] };
        assert_eq!(read(&WHOLE[..n]), (Err(Refusal::CutShort), left), "first {n} bytes");
    }
}

#[test]
fn each_refusal_has_its_buffer() {
    let untouched = [7; 4];
    for (hex, refusal, left) in [
        ("fffa", Refusal::NotSync, untouched),
        ("fff800", Refusal::Reserved, untouched),
        ("fff8600880", Refusal::BadNumber, untouched),
        ("fff860080000ba", Refusal::HeaderSum, untouched),
        ("fff87008002000b40000016269", Refusal::NoRoom, untouched),
        ("fff8100e", Refusal::NotDone, untouched),
        ("fff860000000ea", Refusal::NotDone, untouched),
        ("fff860080000bb80", Refusal::Reserved, [0, 7, 7, 7]),
        ("fff860080000bb14", Refusal::BadShape, [0, 7, 7, 7]),
        ("fff8600200013b40013f88", Refusal::NotDone, [0, 0, 7, 7]),
        ("fff8600200013b14010203c0", Refusal::CutShort, [0, 0, 7, 7]),
        ("fff860080000bb000005483d", Refusal::FrameSum, [0, 7, 7, 7]),
    ] {
        assert_eq!(read(&bytes(hex)), (Err(refusal), left), "{hex}");
    }
}

#[test]
fn room_is_needed_for_every_sample() {
    for room in 0..2 {
        let mut samples = vec![7; room];
        assert_eq!(read_first(&WHOLE, &mut samples), Err(Refusal::NoRoom));
        assert_eq!(samples, vec![7; room]);
    }
    let mut samples = [7; 2];
    assert_eq!(read_first(&WHOLE, &mut samples).map(values), Ok(WHOLE_VALUES));
    assert_eq!(samples, [25588, 10416]);
}

#[test]
fn empty_slices_are_lent_like_others() {
    assert_eq!(read_first(&[], &mut []), Err(Refusal::NothingLeft));
    assert_eq!(read_first(&WHOLE[..1], &mut []), Err(Refusal::CutShort));
    assert_eq!(read_first(&Vec::new(), &mut Vec::new()), Err(Refusal::NothingLeft));
    assert_eq!(read_first(&WHOLE[15..], &mut [7][1..]), Err(Refusal::NothingLeft));
}

#[test]
fn frames_stop_at_the_first_refusal_and_stay_there() {
    let row = [&WHOLE[..], &WHOLE[..], &WHOLE[..9]].concat();
    let mut frames = Frames::new(&row);
    let mut samples = [0; 2];
    assert_eq!(frames.read(&mut []), Err(Refusal::NoRoom));
    assert_eq!(frames.place(), 0);
    for n in 1..=2 {
        assert_eq!(frames.read(&mut samples).map(values), Ok(WHOLE_VALUES));
        assert_eq!((frames.place(), samples), (15 * n, [25588, 10416]));
    }
    for _ in 0..2 {
        assert_eq!(frames.read(&mut samples), Err(Refusal::CutShort));
        assert_eq!((frames.place(), samples), (30, [0, 0]));
    }
}

#[test]
fn a_final_refusal_ends_the_frames_too() {
    let row = [&WHOLE[..], b"RIFF", &WHOLE[..]].concat();
    let (mut frames, mut samples) = (Frames::new(&row), [0; 2]);
    assert_eq!(frames.read(&mut samples).map(values), Ok(WHOLE_VALUES));
    for _ in 0..2 {
        assert_eq!((frames.read(&mut samples), frames.place()), (Err(Refusal::NotSync), 15));
    }
    assert_eq!(samples, [25588, 10416]);
}

#[test]
fn frames_end_with_nothing_left() {
    let row = [WHOLE; 100].concat();
    let (mut frames, mut samples, mut count) = (Frames::new(&row), vec![0; ROOM], 0);
    while let Ok(frame) = frames.read(&mut samples) {
        assert_eq!((values(frame), frame.channel(&samples, 0)), (WHOLE_VALUES, Some(&[25588][..])));
        count += 1;
    }
    assert_eq!((count, frames.place()), (100, row.len()));
    assert_eq!(frames.read(&mut samples), Err(Refusal::NothingLeft));
    assert_eq!(Frames::new(&[]).read(&mut []), Err(Refusal::NothingLeft));
}

#[test]
fn a_refusal_tells_its_number_and_cause() {
    for number in 1..=13 {
        let refusal = Refusal::from_number(number).unwrap();
        assert_eq!(refusal.number(), number);
        assert!(!refusal.to_string().is_empty());
    }
    assert_eq!((Refusal::from_number(0), Refusal::from_number(14)), (None, None));
    let error: Box<dyn std::error::Error> = Refusal::NotSync.into();
    assert_eq!(error.to_string(), "no sync code");
}
