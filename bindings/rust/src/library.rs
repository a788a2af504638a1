//! The functions of `libthriftacorn.a` as they are, as far as this crate calls them. A slice is passed as its pointer
//! and its length. Each function answers on every argument, and `_v1` to `_v3` mean that it will not change: one with
//! more settings gets a new name.
//!
//! What every call here must ensure. A pointer and its length come from one slice, so that it may be read, or written
//! if it is `mut`; an empty slice's pointer is aligned and not null. Each value that is returned through a pointer
//! has memory of its own, and nothing overlaps. The functions require nothing else, touch no other memory, and
//! return.

#[link(name = "thriftacorn", kind = "static")]
extern "C" {
    pub fn thriftacorn_read_frame_v3(
        bytes: *const u8,
        bytes_len: usize,
        block_given: u32,
        block: usize,
        stream_given: u32,
        stream_bits: u32,
        stream_rate: u32,
        samples: *mut i32,
        samples_len: usize,
        consumed: *mut usize,
        first_known: *mut u32,
        first: *mut u64,
        rate_known: *mut u32,
        rate: *mut u32,
        channels: *mut usize,
        bits: *mut u32,
        size: *mut usize,
    ) -> u8;

    pub fn thriftacorn_read_next_v3(
        bytes: *const u8,
        bytes_len: usize,
        place: *mut usize,
        block_given: u32,
        block: usize,
        stream_given: u32,
        stream_bits: u32,
        stream_rate: u32,
        samples: *mut i32,
        samples_len: usize,
        consumed: *mut usize,
        first_known: *mut u32,
        first: *mut u64,
        rate_known: *mut u32,
        rate: *mut u32,
        channels: *mut usize,
        bits: *mut u32,
        size: *mut usize,
    ) -> u8;

    pub fn thriftacorn_stream_block_v1(bytes: *const u8, bytes_len: usize, block: *mut usize) -> u32;

    pub fn thriftacorn_read_stream_header_v1(
        bytes: *const u8,
        bytes_len: usize,
        consumed: *mut usize,
        smallest_block: *mut u32,
        largest_block: *mut u32,
        smallest_frame: *mut u32,
        largest_frame: *mut u32,
        rate: *mut u32,
        channels: *mut u32,
        bits: *mut u32,
        samples: *mut u64,
        md5_high: *mut u64,
        md5_low: *mut u64,
    ) -> u8;

    pub fn thriftacorn_write_frame_v1(
        samples: *const i32,
        samples_len: usize,
        channels: u32,
        bits: u32,
        blocking: u32,
        number: u64,
        size: usize,
        out: *mut u8,
        out_len: usize,
        length: *mut usize,
    ) -> u8;

    pub fn thriftacorn_longest_v1(channels: u32, bits: u32, blocking: u32, number: u64, size: usize) -> usize;

    pub fn thriftacorn_channel_v1(
        samples: *const i32,
        samples_len: usize,
        channels: usize,
        size: usize,
        channel: usize,
        start: *mut usize,
        end: *mut usize,
    ) -> u8;

    pub fn thriftacorn_sample_v1(
        samples: *const i32,
        samples_len: usize,
        channels: usize,
        size: usize,
        channel: usize,
        index: usize,
        value: *mut i32,
    ) -> u8;

    pub fn thriftacorn_pair_v1(
        samples: *const i32,
        samples_len: usize,
        channels: usize,
        size: usize,
        index: usize,
        left: *mut i32,
        right: *mut i32,
    ) -> u8;
}
