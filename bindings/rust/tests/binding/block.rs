//! Access to a block's samples through the binding: a channel, one sample, a pair, and what is refused.
use crate::read_first;
use thriftacorn::{write_frame, Frame, WriteSettings};

/// A frame with this many channels and samples per channel, and its samples, which count up from 1.
fn counted(channels: u32, block_size: usize) -> (Frame, Vec<i32>) {
    let settings = WriteSettings::new(channels - 1, 16, block_size);
    let samples: Vec<i32> = (1..).take(channels as usize * block_size).collect();
    let mut out = vec![0; settings.longest()];
    let length = write_frame(&samples, &settings, &mut out).unwrap();
    let mut again = vec![0; samples.len()];
    let frame = read_first(&out[..length], &mut again).unwrap();
    assert_eq!((again, frame.samples()), (samples.clone(), samples.len()));
    (frame, samples)
}

#[test]
fn channels_and_samples_are_parts_of_the_samples() {
    for (channels, size) in [(1, 1), (1, 4), (2, 3), (3, 2), (8, 5)] {
        let (frame, mut samples) = counted(channels, size);
        // Samples after those of the block belong to no channel.
        samples.extend([-1; 3]);
        let channels = channels as usize;
        for channel in 0..channels + 2 {
            let part = (channel < channels).then(|| &samples[channel * size..(channel + 1) * size]);
            assert_eq!(frame.channel(&samples, channel), part);
            for index in 0..size + 2 {
                let value = part.and_then(|part| part.get(index).copied());
                assert_eq!(frame.sample(&samples, channel, index), value);
            }
        }
        assert_eq!(frame.channel(&samples, usize::MAX), None);
        assert_eq!(frame.sample(&samples, usize::MAX, 0), None);
        assert_eq!(frame.sample(&samples, 0, usize::MAX), None);
    }
}

#[test]
fn fewer_samples_than_the_block_has_are_refused_whatever_is_asked_for() {
    let (frame, samples) = counted(2, 3);
    for length in 0..samples.len() {
        let fewer = &samples[..length];
        assert_eq!(frame.channel(fewer, 0), None);
        assert_eq!(frame.sample(fewer, 0, 0), None);
        assert_eq!(frame.pair(fewer, 0), None);
    }
    assert_eq!(frame.channel(&samples, 0), Some(&[1, 2, 3][..]));
}

#[test]
fn pairs_are_of_two_channels() {
    let (frame, samples) = counted(2, 3);
    let pairs: Vec<_> = (0..3).map(|index| frame.pair(&samples, index)).collect();
    assert_eq!(pairs, [Some((1, 4)), Some((2, 5)), Some((3, 6))]);
    assert_eq!((frame.pair(&samples, 3), frame.pair(&samples, usize::MAX)), (None, None));
    for channels in [1, 3, 8] {
        let (frame, samples) = counted(channels, 3);
        assert_eq!(frame.pair(&samples, 0), None);
    }
}

#[test]
fn a_report_that_was_changed_is_answered_too() {
    let (mut frame, samples) = counted(2, 3);
    (frame.channels, frame.block_size) = (usize::MAX, usize::MAX);
    assert_eq!(frame.channel(&samples, 1), None);
    assert_eq!(frame.sample(&samples, 1, 1), None);
    (frame.channels, frame.block_size) = (2, usize::MAX);
    assert_eq!(frame.pair(&samples, 0), None);
    (frame.channels, frame.block_size) = (2, 0);
    assert_eq!(frame.channel(&samples, 1), Some(&[][..]));
    assert_eq!(frame.pair(&samples, 0), None);
}
