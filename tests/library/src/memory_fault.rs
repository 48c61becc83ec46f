//! Says which call was being made when a memory fault ends the run.

use crate::input::{Call, Source};
use std::cell::Cell;
use std::ffi::c_void;
use std::fmt::{self, Write};

extern "C" {
    fn signal(number: i32, handler: usize) -> usize;
    fn write(file: i32, bytes: *const c_void, length: usize) -> isize;
}

/// Bus error and invalid reference.
const FAULTS: [i32; 2] = [7, 11];
const STANDARD_ERROR: i32 = 2;
const DEFAULT: usize = 0;

thread_local! {
    static TEST: Cell<&'static str> = const { Cell::new("") };
    static CURRENT: Cell<Option<(Source, Call)>> = const { Cell::new(None) };
}

/// Notes the call that this thread is about to make.
pub fn entering(source: Source, call: Call) {
    CURRENT.set(Some((source, call)));
}

/// Has a fault in this thread's test reported before it ends the process.
pub fn report(test: &'static str) {
    TEST.set(test);
    for number in FAULTS {
        unsafe { signal(number, report_and_end as *const () as usize) };
    }
}

/// Runs in the thread that faulted; allocates nothing. The access is then tried again, and ends
/// the process.
extern "C" fn report_and_end(number: i32) {
    let mut line = Line { bytes: [0; 512], length: 0 };
    if let Some((source, call)) = CURRENT.get() {
        let _ = writeln!(line, "{}: memory fault in {call:?} of {source}", TEST.get());
    }
    unsafe {
        write(STANDARD_ERROR, line.bytes.as_ptr().cast(), line.length);
        signal(number, DEFAULT);
    }
}

/// A text that is written at once.
struct Line {
    bytes: [u8; 512],
    length: usize,
}

impl Write for Line {
    fn write_str(&mut self, text: &str) -> fmt::Result {
        let room = &mut self.bytes[self.length..];
        let count = text.len().min(room.len());
        room[..count].copy_from_slice(&text.as_bytes()[..count]);
        self.length += count;
        Ok(())
    }
}
