//! Standard output, whose reader may go away.

use std::io::{self, BufWriter, ErrorKind, Write};

/// A buffered output that drops what is written once its reader is gone, as under `ed2k show k known.met | head`. The
/// command then ends as it would have.
pub struct Output<W: Write> {
    inner: BufWriter<W>,
}

impl<W: Write> Output<W> {
    pub fn new(inner: W) -> Output<W> {
        Output { inner: BufWriter::new(inner) }
    }
}

fn unless_gone<T>(result: io::Result<T>, gone: T) -> io::Result<T> {
    match result {
        Err(error) if error.kind() == ErrorKind::BrokenPipe => Ok(gone),
        other => other,
    }
}

impl<W: Write> Write for Output<W> {
    fn write(&mut self, bytes: &[u8]) -> io::Result<usize> {
        unless_gone(self.inner.write(bytes), bytes.len())
    }

    fn flush(&mut self) -> io::Result<()> {
        unless_gone(self.inner.flush(), ())
    }
}
