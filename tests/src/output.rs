//! Standard output, with nothing lost unnoticed.

use std::io::{self, Write};

/// Writes these bytes, all of them.
pub fn write(bytes: &[u8]) -> io::Result<()> {
    let mut out = io::stdout().lock();
    out.write_all(bytes)?;
    out.flush()
}
