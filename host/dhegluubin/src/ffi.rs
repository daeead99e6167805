//! The calls of the proved library. All unsafe code of the binding is here.
//!
//! Each function below is safe for any arguments: the library has no
//! precondition, reads and writes only the memory it is lent, keeps nothing
//! after a call and holds no state between calls.

use crate::reply::{FirstTrack, Reply};

/// The C type `dheg_reply`.
#[repr(C)]
struct CReply {
    number: usize,
    first: usize,
    second: usize,
    third: usize,
}

impl From<CReply> for Reply {
    fn from(reply: CReply) -> Reply {
        Reply {
            number: reply.number,
            first: reply.first,
            second: reply.second,
            third: reply.third,
        }
    }
}

/// The C type `dheg_first_track_result`.
#[repr(C)]
struct CFirstTrack {
    reply: CReply,
    free: usize,
    good: usize,
    held: usize,
}

// Names and types are those of `include/dhegluubin.h`; `size_t` is `usize`.
extern "C" {
    fn dheg_unpack(hfe: *const u8, hfe_len: usize, image: *mut u8, image_len: usize) -> CReply;
    fn dheg_pack(image: *const u8, image_len: usize, hfe: *mut u8, hfe_len: usize) -> CReply;
    fn dheg_rewrite(
        hfe: *mut u8,
        hfe_len: usize,
        track: usize,
        side: usize,
        r: usize,
        data: *const u8,
        data_len: usize,
    ) -> CReply;
    fn dheg_place(block: usize, sector: usize) -> CReply;
    fn dheg_format(
        image: *mut u8,
        image_len: usize,
        name: *const u8,
        name_len: usize,
        number: u16,
    ) -> CReply;
    fn dheg_format_bad(
        image: *mut u8,
        image_len: usize,
        name: *const u8,
        name_len: usize,
        number: u16,
        bad: *const u16,
        bad_count: usize,
    ) -> CReply;
    fn dheg_check(image: *const u8, image_len: usize) -> CReply;
    fn dheg_list(image: *const u8, image_len: usize, out: *mut u8, out_len: usize) -> CReply;
    fn dheg_read(
        image: *const u8,
        image_len: usize,
        name: *const u8,
        name_len: usize,
        out: *mut u8,
        out_len: usize,
    ) -> CReply;
    fn dheg_add(
        image: *mut u8,
        image_len: usize,
        name: *const u8,
        name_len: usize,
        date: u32,
        data: *const u8,
        data_len: usize,
    ) -> CReply;
    fn dheg_remove(image: *mut u8, image_len: usize, name: *const u8, name_len: usize) -> CReply;
    fn dheg_batch(image: *mut u8, image_len: usize, list: *const u8, list_len: usize) -> CReply;
    fn dheg_first_track(track: *const u8, track_len: usize) -> CFirstTrack;
}

/// [`unpack`](crate::unpack), with the reply as it is given.
pub fn unpack(hfe: &[u8], image: &mut [u8]) -> Reply {
    // SAFETY: each pointer comes with the length of its own slice, `image`
    // is lent for writing and so overlaps nothing, both live for the call.
    unsafe { dheg_unpack(hfe.as_ptr(), hfe.len(), image.as_mut_ptr(), image.len()) }.into()
}

/// [`pack`](crate::pack), with the reply as it is given.
pub fn pack(image: &[u8], hfe: &mut [u8]) -> Reply {
    // SAFETY: each pointer comes with the length of its own slice, `hfe` is
    // lent for writing and so overlaps nothing, both live for the call.
    unsafe { dheg_pack(image.as_ptr(), image.len(), hfe.as_mut_ptr(), hfe.len()) }.into()
}

/// [`rewrite`](crate::rewrite), with the reply as it is given.
pub fn rewrite(hfe: &mut [u8], track: usize, side: usize, r: usize, data: &[u8]) -> Reply {
    // SAFETY: each pointer comes with the length of its own slice, `hfe` is
    // lent for reading and writing and so overlaps nothing, both live for
    // the call; any numbers may be passed.
    unsafe {
        dheg_rewrite(
            hfe.as_mut_ptr(),
            hfe.len(),
            track,
            side,
            r,
            data.as_ptr(),
            data.len(),
        )
    }
    .into()
}

/// [`place`](crate::place), with the reply as it is given.
pub fn place(block: usize, sector: usize) -> Reply {
    // SAFETY: the call takes numbers only and is defined for all of them.
    unsafe { dheg_place(block, sector) }.into()
}

/// [`format`](crate::format), with the reply as it is given.
pub fn format(image: &mut [u8], name: &[u8], number: u16) -> Reply {
    // SAFETY: each pointer comes with the length of its own slice, `image`
    // is lent for writing and so overlaps nothing, both live for the call.
    unsafe {
        dheg_format(
            image.as_mut_ptr(),
            image.len(),
            name.as_ptr(),
            name.len(),
            number,
        )
    }
    .into()
}

/// [`format_bad`](crate::format_bad), with the reply as it is given.
pub fn format_bad(image: &mut [u8], name: &[u8], number: u16, bad: &[u16]) -> Reply {
    // SAFETY: each pointer comes with the length of its own slice, that of
    // `bad` counted in numbers and aligned for them, `image` is lent for
    // writing and so overlaps nothing, all live for the call.
    unsafe {
        dheg_format_bad(
            image.as_mut_ptr(),
            image.len(),
            name.as_ptr(),
            name.len(),
            number,
            bad.as_ptr(),
            bad.len(),
        )
    }
    .into()
}

/// [`check`](crate::check), with the reply as it is given.
pub fn check(image: &[u8]) -> Reply {
    // SAFETY: the pointer comes with the length of its slice, which lives for
    // the call and is only read.
    unsafe { dheg_check(image.as_ptr(), image.len()) }.into()
}

/// [`list`](crate::list), with the reply as it is given.
pub fn list(image: &[u8], out: &mut [u8]) -> Reply {
    // SAFETY: each pointer comes with the length of its own slice, `out` is
    // lent for writing and so overlaps nothing, both live for the call.
    unsafe { dheg_list(image.as_ptr(), image.len(), out.as_mut_ptr(), out.len()) }.into()
}

/// [`read`](crate::read), with the reply as it is given.
pub fn read(image: &[u8], name: &[u8], out: &mut [u8]) -> Reply {
    // SAFETY: each pointer comes with the length of its own slice, `out` is
    // lent for writing and so overlaps nothing, all live for the call.
    unsafe {
        dheg_read(
            image.as_ptr(),
            image.len(),
            name.as_ptr(),
            name.len(),
            out.as_mut_ptr(),
            out.len(),
        )
    }
    .into()
}

/// [`add`](crate::add), with the reply as it is given.
pub fn add(image: &mut [u8], name: &[u8], date: u32, data: &[u8]) -> Reply {
    // SAFETY: each pointer comes with the length of its own slice, `image`
    // is lent for writing and so overlaps nothing, all live for the call.
    unsafe {
        dheg_add(
            image.as_mut_ptr(),
            image.len(),
            name.as_ptr(),
            name.len(),
            date,
            data.as_ptr(),
            data.len(),
        )
    }
    .into()
}

/// [`remove`](crate::remove), with the reply as it is given.
pub fn remove(image: &mut [u8], name: &[u8]) -> Reply {
    // SAFETY: each pointer comes with the length of its own slice, `image`
    // is lent for writing and so overlaps nothing, both live for the call.
    unsafe { dheg_remove(image.as_mut_ptr(), image.len(), name.as_ptr(), name.len()) }.into()
}

/// [`batch`](crate::batch), with the list as bytes and the reply as it is given:
/// of a refused item the third place is its number, from 1.
///
/// Bytes that are no list are refused with 20. [`Reply::batch_result`] names the
/// item and its refusal.
pub fn batch(image: &mut [u8], list: &[u8]) -> Reply {
    // SAFETY: each pointer comes with the length of its own slice, `image`
    // is lent for writing and so overlaps nothing, both live for the call.
    unsafe { dheg_batch(image.as_mut_ptr(), image.len(), list.as_ptr(), list.len()) }.into()
}

/// [`first_track`](crate::first_track), with the reply as it is given and the
/// counts, which are 0 where it is refused.
pub fn first_track(track: &[u8]) -> (Reply, FirstTrack) {
    // SAFETY: the pointer comes with the length of its slice, which lives for
    // the call and is only read.
    let CFirstTrack {
        reply,
        free,
        good,
        held,
    } = unsafe { dheg_first_track(track.as_ptr(), track.len()) };
    (reply.into(), FirstTrack { free, good, held })
}
