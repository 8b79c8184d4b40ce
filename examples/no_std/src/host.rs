//! What a program without std brings along: its start, its output, and an end to
//! panics.

use core::ffi::{c_char, c_int, CStr};
use core::fmt::{self, Write};
use core::panic::PanicInfo;

extern "C" {
    fn puts(text: *const c_char) -> c_int;
    fn abort() -> !;
}

#[no_mangle]
extern "C" fn main() -> c_int {
    c_int::from(crate::run().is_err())
}

/// A line of output; what is too long for it is left out.
struct Line {
    bytes: [u8; 80],
    len: usize,
}

impl Write for Line {
    fn write_str(&mut self, text: &str) -> fmt::Result {
        let room = self.bytes.get_mut(self.len..self.len + text.len()).ok_or(fmt::Error)?;
        room.copy_from_slice(text.as_bytes());
        self.len += text.len();
        Ok(())
    }
}

pub fn print(text: fmt::Arguments) {
    let mut line = Line { bytes: [0; 80], len: 0 };
    let _ = line.write_fmt(text);
    if let Ok(text) = CStr::from_bytes_until_nul(&line.bytes) {
        // SAFETY: a C string, which `puts` only reads.
        unsafe { puts(text.as_ptr()) };
    }
}

#[panic_handler]
fn panic(_: &PanicInfo) -> ! {
    // SAFETY: `abort` asks for nothing.
    unsafe { abort() }
}

/// A host's core is built to unwind and names this function. Here panics abort, so
/// nobody calls it.
#[no_mangle]
extern "C" fn rust_eh_personality() {}
