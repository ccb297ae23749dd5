//! Output that was closed before the program began.

use std::fs;
use std::io::{self, Write};
use std::path::Path;

/// Rust's start puts /dev/null, open both ways, in the place of a closed standard output, and what is written there is lost without an error. Nobody
/// else opens it both ways to write to it. (Told where the system has /proc.)
fn is_closed() -> bool {
    let is_null = fs::read_link("/proc/self/fd/1").is_ok_and(|path| path == Path::new("/dev/null"));
    let opened = fs::read_to_string("/proc/self/fdinfo/1").unwrap_or_default();
    let flags = opened.lines().find_map(|line| line.strip_prefix("flags:"));
    // An octal number; its lowest digit is 0 to read, 1 to write, 2 for both.
    is_null && flags.is_some_and(|flags| flags.trim().ends_with('2'))
}

/// Standard output: an error where it was closed and something is written.
pub struct Checked<W> {
    inner: W,
    is_closed: bool,
}

impl<W: Write> Checked<W> {
    pub fn new(inner: W) -> Checked<W> {
        Checked { inner, is_closed: is_closed() }
    }
}

impl<W: Write> Write for Checked<W> {
    fn write(&mut self, bytes: &[u8]) -> io::Result<usize> {
        if self.is_closed {
            return Err(io::Error::other("it is closed"));
        }
        self.inner.write(bytes)
    }

    fn flush(&mut self) -> io::Result<()> {
        self.inner.flush()
    }
}
