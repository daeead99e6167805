//! The calls as the shared tests make them, answered by the reference. A
//! refusal changes nothing.

use crate::shared::build::pattern;
use reference::Reply;

/// Number and places.
pub type Parts = [usize; 4];

/// The reply to a call, and the lent bytes afterwards.
fn lent(bytes: &[u8], call: impl FnOnce(&mut [u8]) -> Reply) -> (Parts, Vec<u8>) {
    let mut after = bytes.to_vec();
    let reply = call(&mut after).parts();
    let kept = after == bytes;
    assert!(reply[0] == 0 || kept, "bytes changed by refusal {reply:?}");
    (reply, after)
}

pub fn unpack_into(hfe: &[u8], image: &[u8]) -> (Parts, Vec<u8>) {
    lent(image, |image| reference::unpack(hfe, image))
}

pub fn pack_into(image: &[u8], hfe: &[u8]) -> (Parts, Vec<u8>) {
    lent(hfe, |hfe| reference::pack(image, hfe))
}

pub fn rewrite(hfe: &[u8], track: usize, side: usize, r: usize, data: &[u8]) -> (Parts, Vec<u8>) {
    lent(hfe, |hfe| reference::rewrite(hfe, track, side, r, data))
}

pub fn place(block: usize, sector: usize) -> Parts {
    reference::place(block, sector).parts()
}

/// The reply to unpacking.
pub fn unpack(hfe: &[u8]) -> Parts {
    unpack_into(hfe, pattern()).0
}

/// Asserts that the HFE image is refused so.
pub fn assert_refused(hfe: &[u8], expected: Parts) {
    assert_eq!(unpack(hfe), expected);
}

/// Asserts that the HFE image unpacks to this block image.
pub fn assert_unpacks(hfe: &[u8], expected: &[u8]) {
    let (reply, image) = unpack_into(hfe, pattern());
    assert_eq!(reply, [0; 4]);
    assert!(image == expected, "another block image");
}
