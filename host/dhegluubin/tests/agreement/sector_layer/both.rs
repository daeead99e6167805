//! A call made twice, in the library and in the reference.

use super::build::pattern;
use crate::lent::Lent;
use dhegluubin::raw;

/// Number and places.
pub type Parts = [usize; 4];

/// Unpacks with the library into these bytes. A refusal changes nothing, and
/// no call changes the HFE image.
pub fn unpack_into(hfe: &[u8], image: &[u8]) -> (Parts, Vec<u8>) {
    let lent_hfe = hfe.to_vec();
    let mut lent = Lent::new(image);
    let reply = raw::unpack(&lent_hfe, lent.bytes()).parts();
    assert!(lent_hfe == hfe, "HFE image changed");
    let bytes = lent.after().to_vec();
    assert!(
        reply[0] == 0 || bytes == image,
        "block image changed by refusal {reply:?}"
    );
    (reply, bytes)
}

/// Packs with the library into these bytes. A refusal changes nothing, and
/// no call changes the block image.
pub fn pack_into(image: &[u8], hfe: &[u8]) -> (Parts, Vec<u8>) {
    let lent_image = image.to_vec();
    let mut lent = Lent::new(hfe);
    let reply = raw::pack(&lent_image, lent.bytes()).parts();
    assert!(lent_image == image, "block image changed");
    let bytes = lent.after().to_vec();
    assert!(
        reply[0] == 0 || bytes == hfe,
        "HFE image changed by refusal {reply:?}"
    );
    (reply, bytes)
}

/// Rewrites a sector in these bytes, with the library and with the reference:
/// both must give the same reply and leave the same bytes. A refusal changes
/// nothing, and no call changes the data.
pub fn rewrite(hfe: &[u8], track: usize, side: usize, r: usize, data: &[u8]) -> (Parts, Vec<u8>) {
    let lent_data = data.to_vec();
    let mut lent = Lent::new(hfe);
    let reply = raw::rewrite(lent.bytes(), track, side, r, &lent_data).parts();
    assert!(lent_data == data, "data changed");
    assert!(
        reply[0] == 0 || lent.after() == hfe,
        "HFE image changed by refusal {reply:?}"
    );
    let mut bytes = hfe.to_vec();
    let expected = reference::rewrite(&mut bytes, track, side, r, data).parts();
    assert_eq!(reply, expected, "library, then reference");
    assert!(lent.after() == bytes, "other bytes than the reference");
    (reply, bytes)
}

/// The reply to unpacking, which library and reference must share, with all
/// bytes of the block image.
pub fn unpack(hfe: &[u8]) -> Parts {
    let (reply, bytes) = unpack_into(hfe, pattern());
    let mut image = pattern().to_vec();
    let expected = reference::unpack(hfe, &mut image).parts();
    assert_eq!(reply, expected, "library, then reference");
    assert!(bytes == image, "other bytes than the reference");
    reply
}

/// Asserts that the library refuses the HFE image so.
pub fn assert_refused(hfe: &[u8], expected: Parts) {
    assert_eq!(unpack_into(hfe, pattern()).0, expected);
}

/// Asserts that the library unpacks the HFE image to this block image.
pub fn assert_unpacks(hfe: &[u8], expected: &[u8]) {
    let (reply, image) = unpack_into(hfe, pattern());
    assert_eq!(reply, [0; 4]);
    assert!(image == expected, "another block image");
}

/// Where a sector of a block stands, by both.
pub fn place(block: usize, sector: usize) -> Parts {
    let reply = raw::place(block, sector).parts();
    let expected = reference::place(block, sector).parts();
    assert_eq!(reply, expected, "library, then reference");
    reply
}
