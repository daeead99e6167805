//! Files on a block image.

use crate::batch::{BatchList, BatchRefusal};
use crate::ffi;
use crate::refusal::Refusal;
use crate::reply::FirstTrack;

/// Bytes of the first track of a block image.
pub const FIRST_TRACK_LEN: usize = 9_216;

/// Bytes of a directory entry, as [`list`] gives them.
pub const ENTRY_LEN: usize = 64;

/// Most bytes of a file name.
pub const FILE_NAME_LEN: usize = 36;

/// Most bytes of a disk name.
pub const DISK_NAME_LEN: usize = 10;

/// Writes an empty disk over a block image of [`IMAGE_LEN`](crate::IMAGE_LEN)
/// bytes, whatever that held; no old byte stays. The name has 0 to
/// [`DISK_NAME_LEN`] bytes. It is [`format_bad`] with no bad block.
///
/// Refused with 1 and 12: [`Length`](Refusal::Length),
/// [`Argument`](Refusal::Argument).
///
/// ```
/// use dhegluubin::{format, Refusal, IMAGE_LEN};
///
/// let mut image = vec![0xE5; IMAGE_LEN];
/// assert_eq!(format(&mut image, b"much too long", 1), Err(Refusal::Argument));
/// assert_eq!(image[0], 0xE5);
/// format(&mut image, b"WORK", 1)?;
/// assert_eq!(image[..8], *b"QL5AWORK");
/// # Ok::<(), Refusal>(())
/// ```
pub fn format(image: &mut [u8], name: &[u8], number: u16) -> Result<(), Refusal> {
    ffi::format(image, name, number).result().map(|_| ())
}

/// Writes an empty disk over a block image, as [`format()`] does, on which the
/// blocks in the list are bad: no file is given one of them, and neither [`add`]
/// nor [`remove`] writes to them. The list may have any length, and blocks, 2 to
/// 479, in any order and more than once.
///
/// The records of these blocks are written FE FF FF (hex), their bytes are zero.
/// With B for the number of different ones the free word is 3 x (478 - B) and
/// the good word 1440 - 3 x B.
///
/// Refused with 1 and 12: [`Length`](Refusal::Length),
/// [`Argument`](Refusal::Argument).
///
/// ```
/// use dhegluubin::{first_track, format_bad, Refusal, FIRST_TRACK_LEN, IMAGE_LEN};
///
/// let mut image = vec![0; IMAGE_LEN];
/// assert_eq!(format_bad(&mut image, b"OLD", 1, &[17, 1]), Err(Refusal::Argument));
/// format_bad(&mut image, b"OLD", 1, &[17, 18, 17])?;
/// let counts = first_track(&image[..FIRST_TRACK_LEN])?;
/// assert_eq!((counts.free, counts.good, counts.held), (1428, 1434, 4));
/// # Ok::<(), Refusal>(())
/// ```
pub fn format_bad(image: &mut [u8], name: &[u8], number: u16, bad: &[u16]) -> Result<(), Refusal> {
    ffi::format_bad(image, name, number, bad)
        .result()
        .map(|_| ())
}

/// Judges a block image: its length, the disk header, the map, the good word,
/// the directory and the free word.
///
/// Refused with 1, 8, 9, 19, 10, 11, in this order: [`Length`](Refusal::Length),
/// [`DiskHeader`](Refusal::DiskHeader), [`MapRecord`](Refusal::MapRecord),
/// [`GoodWord`](Refusal::GoodWord), [`Directory`](Refusal::Directory),
/// [`FreeWord`](Refusal::FreeWord).
///
/// ```
/// use dhegluubin::{check, format, Refusal, IMAGE_LEN};
///
/// let mut image = vec![0; IMAGE_LEN];
/// assert_eq!(check(&image), Err(Refusal::DiskHeader { offset: 0 }));
/// format(&mut image, b"WORK", 1)?;
/// assert_eq!(check(&image), Ok(()));
/// # Ok::<(), Refusal>(())
/// ```
pub fn check(image: &[u8]) -> Result<(), Refusal> {
    ffi::check(image).result().map(|_| ())
}

/// Writes the directory entries of the files present into the buffer,
/// [`ENTRY_LEN`] bytes each, in slot order, as they stand. Gives the count of
/// bytes; those after them are left as they were.
///
/// An entry has, highest byte first: 0-3 the length of the file (64 more than
/// its data), 14-15 the length of the name, 16-51 the name in the spelling that
/// the disk keeps, 52-55 the date.
///
/// Refused as [`check`], then with 16:
/// [`BufferTooShort`](Refusal::BufferTooShort).
///
/// ```
/// use dhegluubin::{add, format, list, Refusal, ENTRY_LEN, IMAGE_LEN};
///
/// let mut image = vec![0; IMAGE_LEN];
/// format(&mut image, b"WORK", 1)?;
/// add(&mut image, b"letter_txt", 0, b"Dear client")?;
///
/// let mut out = [0; 10 * ENTRY_LEN];
/// let count = list(&image, &mut out)?;
/// assert_eq!(count, ENTRY_LEN);
/// assert_eq!(out[16..26], *b"letter_txt");
///
/// assert_eq!(
///     list(&image, &mut []),
///     Err(Refusal::BufferTooShort { needed: ENTRY_LEN })
/// );
/// # Ok::<(), Refusal>(())
/// ```
pub fn list(image: &[u8], out: &mut [u8]) -> Result<usize, Refusal> {
    ffi::list(image, out).result()
}

/// Writes the data of a file into the buffer. Gives the count of bytes; those
/// after them are left as they were. A name has 1 to [`FILE_NAME_LEN`] bytes
/// of any value; A to Z in it count as a to z.
///
/// Refused as [`check`], then with 12, 14, 16:
/// [`Argument`](Refusal::Argument), [`NoSuchName`](Refusal::NoSuchName),
/// [`BufferTooShort`](Refusal::BufferTooShort).
///
/// ```
/// use dhegluubin::{add, format, read, Refusal, IMAGE_LEN};
///
/// let mut image = vec![0; IMAGE_LEN];
/// format(&mut image, b"WORK", 1)?;
/// add(&mut image, b"letter_txt", 0, b"Dear client")?;
///
/// let mut out = [0; 100];
/// let count = read(&image, b"LETTER_txt", &mut out)?;
/// assert_eq!(out[..count], *b"Dear client");
/// assert_eq!(read(&image, b"letter.txt", &mut out), Err(Refusal::NoSuchName));
/// # Ok::<(), Refusal>(())
/// ```
pub fn read(image: &[u8], name: &[u8], out: &mut [u8]) -> Result<usize, Refusal> {
    ffi::read(image, name, out).result()
}

/// Adds a file to a disk. It takes the lowest vacant slot and the lowest free
/// blocks, (64 + bytes of data) / 1536 rounded up, and a block more where the
/// directory grows. The disk keeps the name as it is spelled here; compared
/// with those of other files, A to Z in it count as a to z. Free records whose
/// blocks are not taken stay as they are, all three bytes.
///
/// Refused as [`check`], then with 12, 13, 15:
/// [`Argument`](Refusal::Argument), [`NamePresent`](Refusal::NamePresent),
/// [`TooFewBlocks`](Refusal::TooFewBlocks).
///
/// ```
/// use dhegluubin::{add, format, Refusal, IMAGE_LEN};
///
/// let mut image = vec![0; IMAGE_LEN];
/// format(&mut image, b"WORK", 1)?;
/// add(&mut image, b"letter_txt", 0x1234_5678, b"Dear client")?;
/// assert_eq!(
///     add(&mut image, b"LETTER_TXT", 0, b"again"),
///     Err(Refusal::NamePresent { slot: 1 })
/// );
/// assert_eq!(
///     add(&mut image, b"all", 0, &vec![0; IMAGE_LEN]),
///     Err(Refusal::TooFewBlocks)
/// );
/// # Ok::<(), Refusal>(())
/// ```
pub fn add(image: &mut [u8], name: &[u8], date: u32, data: &[u8]) -> Result<(), Refusal> {
    ffi::add(image, name, date, data).result().map(|_| ())
}

/// Removes a file from a disk. Its blocks and its slot are filled with zero
/// bytes: none of its bytes stays in the image. Its records are written FD FF
/// FF (hex); those that were free or bad before stay as they are. A to Z in the
/// name count as a to z.
///
/// Refused as [`check`], then with 12, 14: [`Argument`](Refusal::Argument),
/// [`NoSuchName`](Refusal::NoSuchName).
///
/// ```
/// use dhegluubin::{add, format, remove, Refusal, IMAGE_LEN};
///
/// let mut image = vec![0; IMAGE_LEN];
/// format(&mut image, b"WORK", 1)?;
/// add(&mut image, b"letter_txt", 0, b"Dear client")?;
/// remove(&mut image, b"letter_txt")?;
/// assert!(!image.windows(6).any(|bytes| bytes == b"client"));
/// assert_eq!(remove(&mut image, b"letter_txt"), Err(Refusal::NoSuchName));
/// # Ok::<(), Refusal>(())
/// ```
pub fn remove(image: &mut [u8], name: &[u8]) -> Result<(), Refusal> {
    ffi::remove(image, name).result().map(|_| ())
}

/// Makes the removes and adds of a list in one call, each as [`remove`] and
/// [`add`] do it, one after the other up to the first that is refused. That one
/// changes no byte, those before it stand, and those after it are not tried.
///
/// Refused with 1, [`Length`](Refusal::Length), for the whole call, which changes
/// nothing; then as [`remove`] and [`add`] refuse an item, which is named. An
/// empty list is done on every disk, sound or not.
///
/// ```
/// use dhegluubin::{add, batch, format, read, BatchList, Refusal, IMAGE_LEN};
///
/// let mut image = vec![0; IMAGE_LEN];
/// format(&mut image, b"STAGE", 1)?;
/// add(&mut image, b"cue_1", 0, b"house lights")?;
///
/// let mut list = BatchList::new();
/// list.remove(b"cue_1");
/// list.add(b"cue_1", 0, b"curtain").add(b"cue_2", 0, b"applause");
/// batch(&mut image, &list)?;
/// let mut out = [0; 100];
/// let count = read(&image, b"cue_1", &mut out)?;
/// assert_eq!(out[..count], *b"curtain");
///
/// // Once more: the first two items are accepted again, cue_2 is present.
/// let refused = batch(&mut image, &list).unwrap_err();
/// assert_eq!(refused.item, Some(3));
/// assert_eq!(refused.refusal, Refusal::NamePresent { slot: 2 });
/// # Ok::<(), Box<dyn std::error::Error>>(())
/// ```
pub fn batch(image: &mut [u8], list: &BatchList) -> Result<(), BatchRefusal> {
    ffi::batch(image, list.bytes()).batch_result()
}

/// Judges the first track of a block image, [`FIRST_TRACK_LEN`] bytes, and
/// tells its counts. The directory is not looked at.
///
/// Refused with 1, 8, 9, 19, 11: [`Length`](Refusal::Length),
/// [`DiskHeader`](Refusal::DiskHeader), [`MapRecord`](Refusal::MapRecord),
/// [`GoodWord`](Refusal::GoodWord), [`FreeWord`](Refusal::FreeWord).
///
/// ```
/// use dhegluubin::{first_track, format, FirstTrack, Refusal, FIRST_TRACK_LEN, IMAGE_LEN};
///
/// let mut image = vec![0; IMAGE_LEN];
/// format(&mut image, b"WORK", 1)?;
/// let counts = first_track(&image[..FIRST_TRACK_LEN])?;
/// assert_eq!(counts, FirstTrack { free: 1434, good: 1440, held: 2 });
/// # Ok::<(), Refusal>(())
/// ```
pub fn first_track(track: &[u8]) -> Result<FirstTrack, Refusal> {
    let (reply, counts) = ffi::first_track(track);
    reply.result().map(|_| counts)
}
