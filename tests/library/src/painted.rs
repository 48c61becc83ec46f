//! A stack of its own for a call (Linux on x86-64), painted before: what is no longer painted
//! afterwards was used. Inaccessible pages stand below it, so that a call that needs more ends the
//! process instead of writing elsewhere.

use crate::pages::{Pages, NONE, READ_WRITE};
use std::arch::asm;
use std::ffi::c_void;

/// Bytes of the stack: more than any call may use.
const ROOM: usize = 1 << 20;
const GUARD: usize = 1 << 18;
const PAINT: u8 = 0xa5;

pub struct Painted {
    pages: Pages,
}

impl Painted {
    pub fn new() -> Painted {
        let pages = Pages::map(GUARD + ROOM, READ_WRITE);
        pages.protect(0, GUARD, NONE);
        let mut painted = Painted { pages };
        painted.stack().fill(PAINT);
        painted
    }

    fn stack(&mut self) -> &mut [u8] {
        // The pages are this value's own, and no call runs on them meanwhile.
        unsafe { std::slice::from_raw_parts_mut(self.pages.start.add(GUARD), ROOM) }
    }

    /// Makes the call on the painted stack; how many bytes of it were used. What the closure itself
    /// takes is among them. It must not unwind.
    pub fn used(&mut self, mut call: impl FnMut()) -> usize {
        let mut call: &mut dyn FnMut() = &mut call;
        // The top is a multiple of 16, as a call wants it; nothing else knows this memory.
        unsafe {
            let top = self.pages.start.add(GUARD + ROOM);
            on_stack(top, (&raw mut call).cast());
        }
        let stack = self.stack();
        let first = stack.iter().position(|byte| *byte != PAINT).unwrap_or(ROOM);
        stack[first..].fill(PAINT);
        ROOM - first
    }
}

impl Default for Painted {
    fn default() -> Painted {
        Painted::new()
    }
}

extern "C" fn make(call: *mut c_void) {
    // Only `used` hands one over, and it waits until this returns.
    let call = unsafe { &mut *call.cast::<&mut dyn FnMut()>() };
    call();
}

/// Runs `make` with the stack that ends at `top`.
unsafe fn on_stack(top: *mut u8, call: *mut c_void) {
    asm!(
        "mov r12, rsp",
        "mov rsp, {top}",
        "call {make}",
        "mov rsp, r12",
        top = in(reg) top,
        make = in(reg) make as extern "C" fn(*mut c_void),
        in("rdi") call,
        out("r12") _,
        clobber_abi("C"),
    );
}
