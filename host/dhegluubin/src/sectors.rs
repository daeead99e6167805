//! HFE images and the placement of blocks.

use crate::ffi;
use crate::refusal::Refusal;

/// Bytes of a block image: 80 tracks, 2 sides, 9 sectors of 512 bytes.
pub const IMAGE_LEN: usize = 737_280;

/// Bytes of an HFE image as it is written.
pub const HFE_LEN: usize = 2_008_064;

/// Fewest bytes of an HFE image that is read.
pub const SHORTEST_HFE_LEN: usize = 1024;

/// Bytes of a sector.
pub const SECTOR_LEN: usize = 512;

/// Reads an HFE image of version 1 or 3 into a block image of [`IMAGE_LEN`]
/// bytes: its sectors by track, side and sector number.
///
/// All 1,440 sectors are judged before the first byte is written. The HFE
/// image may have any length from [`SHORTEST_HFE_LEN`] on, its tracks may
/// stand anywhere in it, even one over another.
///
/// In version 3 codes may stand among the bytes of a side. They give no cells,
/// and one of them drops the first cells of a byte. A weak area and codes that
/// are reserved are not accepted.
///
/// Refused with 1 to 3, 18, then 4 to 7: [`Length`](Refusal::Length),
/// [`HfeHeader`](Refusal::HfeHeader), [`TrackTable`](Refusal::TrackTable),
/// [`WrongCode`](Refusal::WrongCode), [`NoHeader`](Refusal::NoHeader),
/// [`SeveralHeaders`](Refusal::SeveralHeaders),
/// [`NoDataField`](Refusal::NoDataField), [`DataCrc`](Refusal::DataCrc).
///
/// ```
/// use dhegluubin::{pack, unpack, Refusal, HFE_LEN, IMAGE_LEN};
///
/// let mut hfe = vec![0; HFE_LEN];
/// pack(&vec![0; IMAGE_LEN], &mut hfe)?;
/// // Wipe track 12, which begins at unit 2 + 49 x 12.
/// hfe[512 * 590..512 * 639].fill(0);
///
/// let mut image = vec![0; IMAGE_LEN];
/// assert_eq!(
///     unpack(&hfe, &mut image),
///     Err(Refusal::NoHeader { track: 12, side: 0, sector: 1 })
/// );
/// # Ok::<(), Refusal>(())
/// ```
pub fn unpack(hfe: &[u8], image: &mut [u8]) -> Result<(), Refusal> {
    ffi::unpack(hfe, image).result().map(|_| ())
}

/// Writes a block image of [`IMAGE_LEN`] bytes as an HFE image of version 1 with
/// [`HFE_LEN`] bytes, every byte of it.
///
/// [`unpack`] accepts what is written, and gives the block image back.
///
/// Refused with 1: [`Length`](Refusal::Length).
///
/// ```
/// use dhegluubin::{pack, Lent, Refusal, HFE_LEN, IMAGE_LEN};
///
/// let image = vec![0; IMAGE_LEN];
/// let mut hfe = vec![0; HFE_LEN];
/// pack(&image, &mut hfe)?;
/// assert_eq!(hfe[..8], *b"HXCPICFE");
///
/// let short = &mut hfe[1..];
/// assert_eq!(pack(&image, short), Err(Refusal::Length { lent: Lent::Hfe }));
/// # Ok::<(), Refusal>(())
/// ```
pub fn pack(image: &[u8], hfe: &mut [u8]) -> Result<(), Refusal> {
    ffi::pack(image, hfe).result().map(|_| ())
}

/// Writes [`SECTOR_LEN`] bytes as the data of one sector of an HFE image of
/// version 1: track 0 to 79, side 0 or 1, `r` 1 to 9.
///
/// The data and their CRC are written in the sector's data field, and with
/// them the clock cell after the CRC, where the side has two cells more; all
/// other cells stay, so that gaps are kept. The sector then gives the data, and
/// every other one what it gave before, bytes or refusal, even if it has some
/// of the cells too. The CRC that the field had may be wrong, and [`unpack`]
/// may refuse the image for other sectors.
///
/// Refused with 1, 12, 2, 3, 4 to 6, 17, in this order:
/// [`Length`](Refusal::Length), [`Argument`](Refusal::Argument),
/// [`HfeHeader`](Refusal::HfeHeader), [`TrackTable`](Refusal::TrackTable),
/// [`NoHeader`](Refusal::NoHeader),
/// [`SeveralHeaders`](Refusal::SeveralHeaders),
/// [`NoDataField`](Refusal::NoDataField), [`Misread`](Refusal::Misread). An image
/// of version 3 is an `HfeHeader` at offset 0.
///
/// ```
/// use dhegluubin::{pack, rewrite, unpack, Refusal, HFE_LEN, IMAGE_LEN, SECTOR_LEN};
///
/// let mut hfe = vec![0; HFE_LEN];
/// pack(&vec![0; IMAGE_LEN], &mut hfe)?;
/// let data = [0x51; SECTOR_LEN];
/// rewrite(&mut hfe, 0, 1, 3, &data)?;
///
/// let mut image = vec![0; IMAGE_LEN];
/// unpack(&hfe, &mut image)?;
/// // Side 1 of track 0 has the image sectors from 9 on.
/// let start = SECTOR_LEN * (9 + 2);
/// assert_eq!(image[start..start + SECTOR_LEN], data);
/// assert_eq!(rewrite(&mut hfe, 0, 2, 3, &data), Err(Refusal::Argument));
/// # Ok::<(), Refusal>(())
/// ```
pub fn rewrite(
    hfe: &mut [u8],
    track: usize,
    side: usize,
    r: usize,
    data: &[u8],
) -> Result<(), Refusal> {
    ffi::rewrite(hfe, track, side, r, data).result().map(|_| ())
}

/// The image sector where a sector of a block stands, counted in 512 bytes
/// from the start of a block image. Blocks are 0 to 479, their sectors 0 to 2.
///
/// Refused with 12: [`Argument`](Refusal::Argument).
///
/// ```
/// use dhegluubin::{place, Refusal};
///
/// assert_eq!(place(6, 2), Ok(20));
/// assert_eq!(place(480, 0), Err(Refusal::Argument));
/// ```
pub fn place(block: usize, sector: usize) -> Result<usize, Refusal> {
    ffi::place(block, sector).result()
}
