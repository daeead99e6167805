//! The calls as the shared tests make them, answered by the reference. A
//! refusal changes nothing.

use reference::Reply;

/// Number and places.
pub type Parts = [usize; 4];

/// How many cases a random test runs: more than where the library answers
/// too.
pub fn cases(usual: u32) -> u32 {
    support::cases::cases(6 * usual)
}

/// Lends bytes to a call.
fn lent(bytes: &mut [u8], call: impl FnOnce(&mut [u8]) -> Reply) -> Parts {
    let before = bytes.to_vec();
    let reply = call(bytes).parts();
    let kept = bytes == before;
    assert!(reply[0] == 0 || kept, "bytes changed by refusal {reply:?}");
    reply
}

pub fn format(image: &mut [u8], name: &[u8], number: u16) -> Parts {
    lent(image, |image| reference::format(image, name, number))
}

pub fn format_bad(image: &mut [u8], name: &[u8], number: u16, bad: &[u16]) -> Parts {
    lent(image, |image| {
        reference::format_bad(image, name, number, bad)
    })
}

pub fn add(image: &mut [u8], name: &[u8], date: u32, data: &[u8]) -> Parts {
    lent(image, |image| reference::add(image, name, date, data))
}

pub fn remove(image: &mut [u8], name: &[u8]) -> Parts {
    lent(image, |image| reference::remove(image, name))
}

/// Of a batch the items before the refused one stand; a refusal of the first item
/// or of the whole call changes nothing.
pub fn batch(image: &mut [u8], list: &[u8]) -> Parts {
    let before = image.to_vec();
    let reply = reference::batch(image, list).parts();
    let none_done = reply[0] == 20 || (reply[0] != 0 && reply[3] < 2);
    assert!(!none_done || image == before, "changed by {reply:?}");
    reply
}

pub fn check(image: &[u8]) -> Parts {
    reference::check(image).parts()
}

/// The reply, and the buffer afterwards.
pub fn list(image: &[u8], buffer: &[u8]) -> (Parts, Vec<u8>) {
    let mut out = buffer.to_vec();
    let reply = lent(&mut out, |out| reference::list(image, out));
    (reply, out)
}

/// The reply, and the buffer afterwards.
pub fn read(image: &[u8], name: &[u8], buffer: &[u8]) -> (Parts, Vec<u8>) {
    let mut out = buffer.to_vec();
    let reply = lent(&mut out, |out| reference::read(image, name, out));
    (reply, out)
}

/// Reply and counts for a first track.
pub fn first_track(track: &[u8]) -> (Parts, [usize; 3]) {
    let judged = reference::first_track(track);
    let counts = [judged.free, judged.good, judged.held];
    (judged.reply.parts(), counts)
}

/// What the program prints of a first track.
pub fn first_track_text(track: &[u8]) -> String {
    reference::first_track_text(track)
}
