//! Memory that is lent to a call.

/// Bytes before and after the lent ones.
const MARGIN: usize = 67;

/// What these bytes hold.
const GUARD: u8 = 0xA7;

/// Bytes to lend, between bytes that no call may change. They begin at an
/// odd address as often as not.
pub struct Lent {
    bytes: Vec<u8>,
}

impl Lent {
    pub fn new(contents: &[u8]) -> Lent {
        let margin = [GUARD; MARGIN];
        Lent {
            bytes: [&margin, contents, &margin].concat(),
        }
    }

    /// The bytes, to lend them.
    pub fn bytes(&mut self) -> &mut [u8] {
        let end = self.bytes.len() - MARGIN;
        &mut self.bytes[MARGIN..end]
    }

    /// The bytes after a call; those around them are unchanged.
    pub fn after(&self) -> &[u8] {
        let end = self.bytes.len() - MARGIN;
        let around = self.bytes[..MARGIN].iter().chain(&self.bytes[end..]);
        assert!(
            around.into_iter().all(|&byte| byte == GUARD),
            "bytes changed that were not lent"
        );
        &self.bytes[MARGIN..end]
    }
}
