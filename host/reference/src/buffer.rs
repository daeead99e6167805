//! Result buffers, lent to `list` and `read`.

use crate::reply::{Refusal, Reply};

/// Writes a result to the start of the buffer and leaves what follows it
/// (§8.8), or gives refusal 16 (§7.16) and leaves all.
pub fn give(result: &[u8], out: &mut [u8]) -> Reply {
    if result.len() > out.len() {
        return Refusal::BufferTooShort(result.len()).reply();
    }
    out[..result.len()].copy_from_slice(result);
    Reply::done_with(result.len())
}
