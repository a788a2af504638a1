//! The readers that are timed, each with its buffer.

use claxon::frame::FrameReader;
use std::hint::black_box;
use std::io::Cursor;
use thriftacorn::{read_frame, ReadSettings, ROOM};

/// A reader of single frames.
pub trait Reader {
    /// Takes what it needs from the beginning of a stream's frames. That is done once, and no frame's time has it.
    fn open(&mut self, bytes: &[u8]);
    /// Reads the frame at the start of these bytes, and passes its samples to black_box, so that the compiler removes
    /// none of the reading. Returns its length; `None` if there is no frame.
    fn read(&mut self, bytes: &[u8]) -> Option<usize>;
    /// The samples of the frame read last.
    fn samples(&self) -> &[i32];
}

pub struct Ours {
    settings: ReadSettings,
    buffer: Vec<i32>,
    used: usize,
}

impl Ours {
    pub fn new() -> Ours {
        Ours { settings: ReadSettings::new(), buffer: vec![0; ROOM], used: 0 }
    }
}

impl Reader for Ours {
    fn open(&mut self, bytes: &[u8]) {
        self.settings = ReadSettings::of_stream(bytes);
    }

    fn read(&mut self, bytes: &[u8]) -> Option<usize> {
        let frame = read_frame(bytes, &self.settings, &mut self.buffer).ok()?;
        self.used = frame.samples();
        black_box(self.samples());
        Some(frame.consumed)
    }

    fn samples(&self) -> &[i32] {
        &self.buffer[..self.used]
    }
}

pub struct Claxon {
    buffer: Vec<i32>,
}

impl Claxon {
    pub fn new() -> Claxon {
        Claxon { buffer: vec![0; ROOM] }
    }
}

impl Reader for Claxon {
    fn open(&mut self, _: &[u8]) {}

    fn read(&mut self, bytes: &[u8]) -> Option<usize> {
        let mut reader = FrameReader::new(Cursor::new(bytes));
        let block = reader.read_next_or_eof(std::mem::take(&mut self.buffer)).ok()??;
        self.buffer = block.into_buffer();
        black_box(self.samples());
        Some(reader.into_inner().position() as usize)
    }

    fn samples(&self) -> &[i32] {
        &self.buffer
    }
}

/// libFLAC's decoder, if its headers were there when this was built. It reads a stream from the start, with metadata,
/// and keeps its samples in buffers of its own.
#[cfg(libflac)]
mod libflac {
    use std::ffi::c_void;
    use std::marker::PhantomData;
    use std::ptr::null_mut;

    extern "C" {
        fn libflac_open(stream: *const u8, length: usize) -> *mut c_void;
        fn libflac_next(state: *mut c_void, copy: *mut i32, room: usize) -> usize;
        fn libflac_close(state: *mut c_void);
    }

    pub struct LibFlac<'a> {
        state: *mut c_void,
        stream: PhantomData<&'a [u8]>,
    }

    impl<'a> LibFlac<'a> {
        pub fn open(stream: &'a [u8]) -> Option<LibFlac<'a>> {
            let state = unsafe { libflac_open(stream.as_ptr(), stream.len()) };
            assert!(!state.is_null(), "libFLAC opens the stream");
            Some(LibFlac { state, stream: PhantomData })
        }

        /// Reads the next frame. Returns how many samples it has; 0 if there is no frame.
        pub fn next(&mut self) -> usize {
            unsafe { libflac_next(self.state, null_mut(), 0) }
        }

        /// The same, with the samples copied.
        pub fn next_into(&mut self, copy: &mut [i32]) -> usize {
            unsafe { libflac_next(self.state, copy.as_mut_ptr(), copy.len()) }
        }
    }

    impl Drop for LibFlac<'_> {
        fn drop(&mut self) {
            unsafe { libflac_close(self.state) }
        }
    }
}

/// Without libFLAC there is no decoder to open.
#[cfg(not(libflac))]
mod libflac {
    pub enum LibFlac {}

    impl LibFlac {
        pub fn open(_: &[u8]) -> Option<LibFlac> {
            None
        }

        pub fn next(&mut self) -> usize {
            match *self {}
        }

        pub fn next_into(&mut self, _: &mut [i32]) -> usize {
            match *self {}
        }
    }
}

pub use libflac::LibFlac;
