//! The writer's answers through the binding, with what the output holds after each, and that frames read back.
use crate::values;
use thriftacorn::{read_frame, write_frame, Blocking, ReadSettings, Refusal, WriteSettings};

const ONE: WriteSettings = WriteSettings::new(0, 16, 1);

/// `ONE` with one setting changed.
fn but(change: impl FnOnce(&mut WriteSettings)) -> WriteSettings {
    let mut settings = ONE;
    change(&mut settings);
    settings
}

/// Settings that are refused.
fn wrong() -> Vec<WriteSettings> {
    vec![
        but(|set| set.channel_code = 11),
        but(|set| set.channel_code = u32::MAX),
        but(|set| set.bits = 0),
        but(|set| set.bits = 17),
        but(|set| set.bits = 32),
        but(|set| set.block_size = 0),
        but(|set| set.block_size = 65536),
        but(|set| set.block_size = usize::MAX),
        ONE.fixed(1 << 31),
        ONE.variable(1 << 36),
    ]
}

/// What a write answers, and what it leaves of an output of twenty bytes that each held 9.
fn write(samples: &[i32], settings: &WriteSettings) -> (Result<usize, Refusal>, [u8; 20]) {
    let mut out = [9; 20];
    (write_frame(samples, settings, &mut out), out)
}

#[test]
fn a_frame_is_written_to_the_front() {
    let head = [0xFF, 0xF8, 0x60, 0x08, 0x00, 0x00, 0xBB];
    // A constant takes 24 bits; a residual of 10, folded, takes 23.
    for (sample, body) in [(12345, [0x00, 0x30, 0x39, 0xE8, 0xB4]), (5, [0x10, 0x00, 0x8C, 0x4A, 0x4A])] {
        let (answer, out) = write(&[sample], &ONE);
        assert_eq!(answer, Ok(12));
        assert_eq!((&out[..7], &out[7..12], &out[12..]), (&head[..], &body[..], &[9; 8][..]));
    }
}

#[test]
fn settings_out_of_range_are_refused_first() {
    let refused = (Err(Refusal::BadArgument), [9; 20]);
    for settings in wrong() {
        assert_eq!(write(&[1 << 20], &settings), refused, "{settings:?}");
    }
    assert_eq!(write(&[], &ONE), refused);
    assert_eq!(write(&[1 << 20; 2], &ONE), refused);
}

#[test]
fn samples_must_fit_the_bits() {
    for bits in [8, 12, 16, 20, 24] {
        let top = 1 << (bits - 1);
        let settings = but(|set| set.bits = bits);
        assert_eq!(write(&[top], &settings), (Err(Refusal::SampleRange), [9; 20]));
        assert_eq!(write(&[-top - 1], &settings), (Err(Refusal::SampleRange), [9; 20]));
        assert!(write(&[top - 1], &settings).0.is_ok());
        assert!(write(&[-top], &settings).0.is_ok());
    }
}

#[test]
fn an_output_that_is_too_short_stays_as_it_was() {
    for room in 0..12 {
        let mut out = vec![9; room];
        assert_eq!(write_frame(&[5], &ONE, &mut out), Err(Refusal::OutputRoom));
        assert_eq!(out, vec![9; room]);
    }
    assert_eq!(write_frame(&[5], &ONE, &mut [9; 12]), Ok(12));
    assert_eq!(write_frame(&[], &ONE, &mut []), Err(Refusal::BadArgument));
}

#[test]
fn the_longest_frame_is_bounded() {
    assert_eq!(ONE.longest(), 19);
    assert_eq!(ONE.variable((1 << 36) - 1).longest(), 19);
    assert_eq!(WriteSettings::new(WriteSettings::LEFT_SIDE, 16, 4096).longest(), 16914);
    for settings in wrong() {
        assert_eq!(settings.longest(), 0, "{settings:?}");
    }
}

/// Samples of these bits, from loud noise to silence as `kind` goes from 0 to 3.
fn signal(count: usize, bits: u32, kind: u32, seed: &mut u64) -> Vec<i32> {
    let draw = |i: usize, seed: &mut u64| {
        *seed = seed.wrapping_mul(6364136223846793005).wrapping_add(1442695040888963407);
        let noise = (*seed >> 32) as i32 >> (32 - bits);
        match kind {
            0 => noise,
            1 => (noise >> 5) + ((i as f64 / 9.0).sin() * f64::from(1 << (bits - 2))) as i32,
            2 => (i as i32 % 50) - 20,
            _ => -3,
        }
    };
    (0..count).map(|i| draw(i, seed)).collect()
}

/// The number of the first sample that a frame with these settings must report, in a stream with blocks of this size.
fn first_of(settings: &WriteSettings, block: Option<usize>) -> Option<u64> {
    match settings.blocking {
        Blocking::Fixed => block.map(|size| settings.number * size as u64),
        Blocking::Variable => Some(settings.number),
    }
}

/// Writes these samples, reads them back with the stream's block size unknown, the frame's own and larger, and compares
/// the report with the settings. With a smaller one the frame must be refused, unless its blocking is variable.
fn reads_back(samples: &[i32], settings: &WriteSettings) {
    let mut out = vec![0; settings.longest()];
    let length = write_frame(samples, settings, &mut out).unwrap();
    let own = settings.block_size;
    for block in [None, Some(own), Some((own + 1).min(65535)), Some(65535), Some(own - 1).filter(|size| *size > 0)] {
        let mut given = ReadSettings::new();
        given.block = block;
        let mut again = vec![7; samples.len()];
        let answer = read_frame(&out[..length], &given, &mut again).map(values);
        if settings.blocking == Blocking::Fixed && block.is_some_and(|size| size < own) {
            assert_eq!(answer, Err(Refusal::BadShape), "{settings:?} {given:?}");
            assert!(again.iter().all(|sample| *sample == 7), "{settings:?} {given:?}");
        } else {
            let report = (length, first_of(settings, block), settings.channels(), settings.bits, own);
            assert_eq!(answer, Ok(report), "{settings:?} {given:?}");
            assert!(again == samples, "{settings:?} {given:?}");
        }
    }
}

#[test]
fn frames_read_back() {
    let mut seed = 1;
    for channel_code in 0..=10 {
        for bits in [8, 12, 16, 20, 24] {
            for (n, block_size) in [1, 2, 3, 4, 5, 16, 192, 255, 257, 1000].into_iter().enumerate() {
                let (settings, number) = (WriteSettings::new(channel_code, bits, block_size), 1 << (3 * n));
                let settings = if n % 2 == 0 { settings.fixed(number) } else { settings.variable(number) };
                let kind = (n as u32 + channel_code + bits / 4) % 4;
                reads_back(&signal(settings.channels() * block_size, bits, kind, &mut seed), &settings);
            }
        }
    }
}

#[test]
fn the_largest_block_reads_back() {
    reads_back(&signal(8 * 65535, 24, 0, &mut 5), &WriteSettings::new(7, 24, 65535));
}
