//! Streams of inputs for a program, each with the text that it must print; as frames, and their names.
use crate::order_edges::Named;
use std::io::{self, BufWriter, Write};

/// Takes a case: the input, and what must be printed for it.
pub type HandOn<'a> = &'a mut dyn FnMut(Vec<u8>, String) -> io::Result<()>;

/// Hands on so many cases of a seed.
pub type Stream = fn(u64, usize, HandOn) -> io::Result<()>;

/// Writes the cases of a seed as frames: length and bytes of the input, length and bytes of the text.
pub fn generate(stream: Stream, seed: u64, count: usize) -> io::Result<()> {
    let mut out = BufWriter::with_capacity(1 << 16, io::stdout().lock());
    stream(seed, count, &mut |input, text| {
        for part in [&input[..], text.as_bytes()] {
            out.write_all(&(part.len() as u64).to_le_bytes())?;
            out.write_all(part)?;
        }
        Ok(())
    })?;
    out.flush()
}

/// Writes the names of the cases that a stream starts with, a line each.
pub fn names(edges: &[Named]) -> io::Result<()> {
    let mut out = io::stdout().lock();
    edges.iter().try_for_each(|(name, _)| writeln!(out, "{name}"))
}
