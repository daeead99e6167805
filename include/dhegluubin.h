/*
 * QL double-density disks in HFE images.
 *
 * An HFE image of version 1 or 3 is read into a block image. One of version 1 is written from a
 * block image, and one sector of it can be rewritten. On the block image a disk is formatted and
 * checked, and files are listed, read, added and removed, one by one or many in one call.
 *
 * For every function:
 *
 * - It answers with a number and three places. Number 0 means done. Every other number is a
 *   refusal, which says what is wrong, with places that say where: see enum dheg_number. Tests run
 *   from number 1 upwards, only that dheg_unpack has 18 right after 3, dheg_rewrite 12 and dheg_batch
 *   20 right after 1, and every function that judges 9 has 19 right after it; the first that fails is
 *   the answer. A place that is not named is 0.
 * - A refused call changes nothing: every lent byte is as it was. Of dheg_batch this holds for 1, 20
 *   and the item that is refused; the items before that one stand.
 * - Any contents and any lengths may be passed; what cannot be done is refused.
 * - File names are equal if they have the same length and the same bytes, where a capital letter
 *   counts as its small one: the bytes 41 to 5A hex, A to Z, as 61 to 7A, a to z. No other byte counts
 *   as another. So `Reel_one` and `REEL_ONE` are one name. A disk keeps the spelling that the file was
 *   added with. Disk names are not compared.
 * - Memory is lent for the time of the call. No pointer is kept, nothing is allocated, nothing
 *   stays to be freed. A pointer must be good for the length or count after it; where that is 0 the
 *   pointer is not used and may be NULL. Memory that a call writes must not overlap anything else
 *   that is lent to the same call. Bytes may be lent at any address; a list of uint16_t must be
 *   aligned as that type asks.
 * - It uses at most DHEG_STACK_LEN bytes of stack.
 * - It keeps no state between calls and has none in common with other calls. Several threads may
 *   call at the same time, each on its own memory; memory that is only read may be shared.
 *
 * Link with libbridge.a.
 */
#ifndef DHEGLUUBIN_H
#define DHEGLUUBIN_H

#include <stddef.h>
#include <stdint.h>

#ifdef __cplusplus
extern "C" {
#endif

/* Bytes of a block image: 80 tracks, 2 sides, 9 sectors of 512 bytes, in this order. */
#define DHEG_IMAGE_LEN 737280

/* Bytes of an HFE image as it is written. */
#define DHEG_HFE_LEN 2008064

/* Fewest bytes of an HFE image that is read. */
#define DHEG_SHORTEST_HFE_LEN 1024

/* Bytes of a sector. */
#define DHEG_SECTOR_LEN 512

/* Bytes of the first track of a block image. */
#define DHEG_FIRST_TRACK_LEN 9216

/* Bytes of a directory entry, as a list gives them. */
#define DHEG_ENTRY_LEN 64

/* Most bytes of a file name, and of a disk name. */
#define DHEG_FILE_NAME_LEN 36
#define DHEG_DISK_NAME_LEN 10

/* Bytes of stack that no call exceeds. Measured, not proved: on a thread's painted stack. */
#define DHEG_STACK_LEN 65536

/* The numbers of a reply, and what their places mean. */
enum dheg_number {
    /* 0 is done: then a list and a read tell in `first` how many bytes they wrote, a placement the
     * image sector. Of a refused batch 8 to 15 and 19 have the item, from 1, in `third`. */
    DHEG_DONE = 0,
    /* A lent length is wrong. `first` says which: 1 the HFE image, 2 the block image or the first
     * track. The HFE image is judged first. */
    DHEG_LENGTH = 1,
    /* The HFE header is wrong. `first` is the offset of the lowest wrong field: 0, 8, 9, 10, 11,
     * 12, 18, 22, 23, 24 or 25. Field 0 are the letters of the version: dheg_unpack takes those of
     * versions 1 and 3, dheg_rewrite those of version 1. */
    DHEG_HFE_HEADER = 2,
    /* An entry of the track table is not good. `first` is the lowest such track. */
    DHEG_TRACK_TABLE = 3,
    /* 4 to 7 name the first bad sector, or the one to rewrite: `first` is the track, `second` the
     * side, `third` the sector number R, 1 to 9. */
    /* It has no header. */
    DHEG_NO_HEADER = 4,
    /* It has two or more headers. */
    DHEG_SEVERAL_HEADERS = 5,
    /* Its data field is not present. */
    DHEG_NO_DATA_FIELD = 6,
    /* The CRC of its data is wrong. */
    DHEG_DATA_CRC = 7,
    /* The disk header is wrong. `first` is the offset of the lowest wrong field: 0, 24, 26, 28, 30,
     * 32, 34 (the directory's length), 38, 40 or 58. The free word at 20 is judged by 11, the good
     * word at 22 by 19. */
    DHEG_DISK_HEADER = 8,
    /* A map record is of no kind, or of a kind that its block cannot have. `first` is the lowest
     * such block. A record is free if its first byte is FD (hex), whatever the two after it are, and
     * bad if it is FE FF FF; so these are wrong only at block 0. FE with any other two bytes after it
     * is of no kind. */
    DHEG_MAP_RECORD = 9,
    /* The directory is not sound. `first` is the lowest file number at fault, 0 for the directory
     * itself. Of two files with equal names the one with the higher number is at fault. */
    DHEG_DIRECTORY = 10,
    /* The free-sector word is not three times the free records. */
    DHEG_FREE_WORD = 11,
    /* A file name has not 1 to 36 bytes, a disk name has over 10, a list of bad blocks has block 0,
     * block 1 or a number over 479, the data of a sector have not 512 bytes, or a block, track, side
     * or sector number is out of range. */
    DHEG_ARGUMENT = 12,
    /* A file has the name to add, in this or another spelling. `first` is its slot. */
    DHEG_NAME_PRESENT = 13,
    /* No file has the name, in any spelling. */
    DHEG_NO_SUCH_NAME = 14,
    /* The file to add needs more blocks than are free. */
    DHEG_TOO_FEW_BLOCKS = 15,
    /* The result does not fit the lent buffer. `first` is the whole count of bytes needed. */
    DHEG_BUFFER_TOO_SHORT = 16,
    /* With the sector rewritten the image would be misread: this sector would not give its new data,
     * another would not give what it gave before, or the track table would be wrong. */
    DHEG_MISREAD = 17,
    /* A side of a version 3 image has a wrong code: a weak area (F4), one that is reserved (F5 to FF),
     * an F3 with a count over 7, or an F2 or F3 that lacks bytes of its own. `first` is the track,
     * `second` the side, `third` the place of the code among the bytes of its side, from 0: the first
     * by track, then side, then place. */
    DHEG_WRONG_CODE = 18,
    /* The good-sector word is not 1440 less three times the bad records. It comes right after 9, so
     * before 10 and 11. */
    DHEG_GOOD_WORD = 19,
    /* An item of a batch's list is wrong: its kind is neither 1 nor 2, or the list's end cuts it.
     * `third` is the first such item, from 1. It comes right after 1, before any item is tried. */
    DHEG_WRONG_ITEM = 20
};

/* An answer. */
typedef struct {
    size_t number, first, second, third;
} dheg_reply;

/* An answer for a first track; the three counts are 0 where it is refused. */
typedef struct {
    dheg_reply reply;
    size_t free; /* free sectors, by the header */
    size_t good; /* good sectors, by the header */
    size_t held; /* blocks whose record is not free: those of header, directory and files, bad ones */
} dheg_first_track_result;

/*
 * Reads an HFE image of at least 1,024 bytes into a block image of 737,280 bytes: its sectors by
 * track, side and sector number. All 1,440 sectors are judged before the first byte is written.
 * Tracks and table may stand anywhere in the HFE image, even one over another.
 *
 * Two versions are read, by bytes 0 to 7: version 1 has HXCPICFE, version 3 HXCHFEV3. In version 1
 * each byte of a side gives eight cells, its lowest bit first. In version 3 codes may stand among
 * these bytes, read with the first cell as the highest bit: F0 to F4 hex are stored as 0F, 8F, 4F, CF
 * and 2F, so that a code is a byte whose lowest four bits are all 1.
 *
 *   F0, F1   nothing; index
 *   F2       the next byte is a bit rate, of any value
 *   F3       the next byte is a count, 0 to 7, read as codes are; of the byte after it so many first
 *            cells, its lowest bits, are dropped, and that byte is data, whatever it looks like
 *   F4       a weak area: not accepted, nor are F5 to FF, which are reserved
 *
 * Only data give cells: eight a byte, but for the byte after a count.
 *
 * Done: all of `image` is written; the places are 0. Refused: nothing is changed, and, in this order,
 *
 *   1      `first`: 1 `hfe` has under 1,024 bytes, 2 `image` has not 737,280
 *   2      `first`: offset of the lowest wrong field of the HFE header
 *   3      `first`: lowest track whose table entry is not good
 *   18     `first`, `second`, `third`: track, side and place of the first wrong code; only of version
 *          3, and all 160 sides are judged for it before any sector is
 *   4..7   `first`, `second`, `third`: track, side and R of the first bad sector; 4 no header, 5 two
 *          or more, 6 no data field, 7 wrong CRC of the data
 *
 * `hfe` is only read. Both are used until the call returns; other threads may call on other memory.
 */
dheg_reply dheg_unpack(const uint8_t *hfe, size_t hfe_len, uint8_t *image, size_t image_len);

/*
 * Writes a block image of 737,280 bytes as an HFE image of version 1 with 2,008,064 bytes. The block
 * image may hold anything. dheg_unpack accepts what is written and gives the same block image back.
 *
 * Done: all of `hfe` is written; the places are 0. Refused: nothing is changed, and
 *
 *   1      `first`: 1 `hfe` has not 2,008,064 bytes, 2 `image` has not 737,280
 *
 * `image` is only read. Both are used until the call returns; other threads may call on other memory.
 */
dheg_reply dheg_pack(const uint8_t *image, size_t image_len, uint8_t *hfe, size_t hfe_len);

/*
 * Writes 512 bytes as the data of one sector of an HFE image of version 1 with at least 1,024 bytes:
 * track 0 to 79, side 0 or 1, `r` 1 to 9. In the sector's data field, after its mark, the cells of
 * the data and of their CRC are written and, where two or more cells follow on the side, the clock
 * cell after the CRC. Every other cell stays, so that gaps are kept. The CRC that the field had may be
 * wrong, and dheg_unpack may refuse the image for other sectors.
 *
 * Done: this sector gives the data, and every other one what it gave before, bytes or refusal, even
 * if it has some of the cells too; the places are 0. Refused: nothing is changed, and, in this order,
 *
 *   1      `first`: 1 `hfe` has under 1,024 bytes
 *   12     `track` is over 79, `side` over 1, `r` is not 1 to 9 or `data` has not 512 bytes; no place
 *          is named
 *   2      `first`: offset of the lowest wrong field of the HFE header; 0 for an image of version 3
 *   3      `first`: lowest track whose table entry is not good
 *   4..6   `first`, `second`, `third`: track, side and R of this sector; 4 no header, 5 two or more,
 *          6 no data field
 *   17     rewritten, this sector would not give the data, another one not what it gave, or the track
 *          table would be wrong; no place is named
 *
 * `hfe` is read and written, `data` is only read. Both are used until the call returns; other threads
 * may call on other memory.
 */
dheg_reply dheg_rewrite(uint8_t *hfe, size_t hfe_len, size_t track, size_t side, size_t r,
                        const uint8_t *data, size_t data_len);

/*
 * Tells where a sector (0 to 2) of a block (0 to 479) stands.
 *
 * Done: `first` is the image sector, counted in 512 bytes from the start of a block image. Refused:
 *
 *   12     `block` is over 479 or `sector` over 2; no place is named
 *
 * No memory is lent, no state is kept, and any thread may call at any time.
 */
dheg_reply dheg_place(size_t block, size_t sector);

/*
 * Writes an empty disk over a block image of 737,280 bytes, whatever that held; no old byte stays.
 * The name has 0 to 10 bytes; the number is kept in the header. It is dheg_format_bad with no bad
 * block.
 *
 * Done: all of `image` is written; the places are 0. Refused: nothing is changed, and
 *
 *   1      `first`: 2 `image` has not 737,280 bytes
 *   12     the name has over 10 bytes; no place is named
 *
 * `name` is only read. Both are used until the call returns; other threads may call on other memory.
 */
dheg_reply dheg_format(uint8_t *image, size_t image_len, const uint8_t *name, size_t name_len,
                       uint16_t number);

/*
 * Writes an empty disk over a block image, as dheg_format does, on which the blocks in `bad` are bad:
 * no file is given one of them, and neither dheg_add nor dheg_remove writes to them. `bad` has
 * `bad_count` block numbers, 2 to 479: any count of them, in any order, and the same block any number
 * of times.
 *
 * Done: all of `image` is written; the places are 0. The map records of the blocks in `bad` are FE FF
 * FF (hex), and their bytes are zero. With B for the number of different blocks among them the free
 * word is 3 x (478 - B) and the good word 1440 - 3 x B. Refused: nothing is changed, and
 *
 *   1      `first`: 2 `image` has not 737,280 bytes
 *   12     the name has over 10 bytes, or a number in `bad` is 0, 1 or over 479; no place is named
 *
 * `name` and `bad` are only read; `bad` is aligned as uint16_t asks, and may be NULL where `bad_count`
 * is 0. All three are used until the call returns; other threads may call on other memory.
 */
dheg_reply dheg_format_bad(uint8_t *image, size_t image_len, const uint8_t *name, size_t name_len,
                           uint16_t number, const uint16_t *bad, size_t bad_count);

/*
 * Judges a block image: its length, the disk header, the map, the good word, the directory and the
 * free word. dheg_list, dheg_read, dheg_add and dheg_remove judge the same before anything else.
 *
 * Done: the disk is sound; the places are 0. Refused, in this order:
 *
 *   1      `first`: 2 `image` has not 737,280 bytes
 *   8      `first`: offset of the lowest wrong field of the disk header (34: directory's length)
 *   9      `first`: lowest block whose map record is wrong; one that begins with FD (hex) is free,
 *          whatever its other two bytes are, and FE FF FF is bad, both wrong only at block 0
 *   19     the good word is not 1440 less three times the bad records; no place is named
 *   10     `first`: lowest file number at fault, 0 for the directory itself; of two files with equal
 *          names, in whatever spelling, the one with the higher number is at fault
 *   11     the free word is not three times the free records; no place is named
 *
 * `image` is only read, until the call returns; several threads may judge the same memory at once.
 */
dheg_reply dheg_check(const uint8_t *image, size_t image_len);

/*
 * Writes the directory entries of the files present into `out`, 64 bytes each, in slot order, as
 * they stand. An entry has, highest byte first: 0-3 the length of the file (64 more than its data),
 * 14-15 the length of the name, 16-51 the name in the spelling that the disk keeps, 52-55 the date.
 *
 * Done: `first` is the count of bytes written; those after them are left as they were. An exact fit
 * is enough; an empty list fits an empty buffer. Refused: nothing is changed, and
 *
 *   1, 8, 9, 19, 10, 11   as dheg_check says, in this order
 *   16                    `first`: bytes needed; `out` has fewer
 *
 * `image` is only read. Both are used until the call returns; other threads may call with another
 * `out`, on the same `image` if none of them writes to it.
 */
dheg_reply dheg_list(const uint8_t *image, size_t image_len, uint8_t *out, size_t out_len);

/*
 * Writes the data of a file into `out`. The name has 1 to 36 bytes, of any value; A to Z in it count
 * as a to z.
 *
 * Done: `first` is the count of bytes written; those after them are left as they were. An exact fit
 * is enough; an empty file fits an empty buffer. Refused: nothing is changed, and
 *
 *   1, 8, 9, 19, 10, 11   as dheg_check says, in this order
 *   12                    the name has not 1 to 36 bytes; no place is named
 *   14                    no file has the name; no place is named
 *   16                    `first`: bytes needed; `out` has fewer
 *
 * `image` and `name` are only read. All three are used until the call returns; other threads may call
 * with another `out`, on the same `image` if none of them writes to it.
 */
dheg_reply dheg_read(const uint8_t *image, size_t image_len, const uint8_t *name, size_t name_len,
                     uint8_t *out, size_t out_len);

/*
 * Adds a file with this name, date and data to a disk. The file takes the lowest vacant slot and
 * the lowest free blocks, (64 + data_len) / 1536 rounded up, and a block more where the directory
 * grows. The data may have any length. The disk keeps the name as it is spelled here; compared with
 * those of other files, A to Z in it count as a to z.
 *
 * Done: map records, the slot, the blocks taken, update count, free word and the directory's length
 * are written to `image`; the places are 0. Free records whose blocks are not taken stay as they
 * are, all three bytes; so do bad blocks, their records and the good word. Refused: nothing is
 * changed, and
 *
 *   1, 8, 9, 19, 10, 11   as dheg_check says, in this order
 *   12                    the name has not 1 to 36 bytes; no place is named
 *   13                    `first`: slot of the file that has the name; its spelling stays
 *   15                    too few blocks are free; no place is named
 *
 * `name` and `data` are only read. All three are used until the call returns; other threads may call
 * on other memory.
 */
dheg_reply dheg_add(uint8_t *image, size_t image_len, const uint8_t *name, size_t name_len,
                    uint32_t date, const uint8_t *data, size_t data_len);

/*
 * Removes a file from a disk. Its blocks and its slot are filled with zero bytes, and its records
 * are written FD FF FF (hex). A to Z in the name count as a to z.
 *
 * Done: map records, the slot, the file's blocks, update count and free word are written to `image`;
 * the places are 0. Records that were free before stay as they are, all three bytes; so do bad
 * blocks, their records and the good word. Refused: nothing is changed, and
 *
 *   1, 8, 9, 19, 10, 11   as dheg_check says, in this order
 *   12                    the name has not 1 to 36 bytes; no place is named
 *   14                    no file has the name; no place is named
 *
 * `name` is only read. Both are used until the call returns; other threads may call on other memory.
 */
dheg_reply dheg_remove(uint8_t *image, size_t image_len, const uint8_t *name, size_t name_len);

/*
 * Removes and adds files by a list, each as dheg_remove and dheg_add do it, one after the other up to
 * the first that is refused. That one changes no byte, those before it stand, and those after it are
 * not tried. The list is items and nothing else; an item is
 *
 *   a remove   the byte 1, a byte with the length of the name, and the name
 *   an add     the byte 2, a byte with the length of the name, the name, the date, the length of the
 *              data, four bytes each with the highest first, and the data
 *
 * Done: `image` is as the single calls leave it; the places are 0. An empty list is done on every
 * disk, sound or not. Refused, in this order:
 *
 *   1                 `first`: 2 `image` has not 737,280 bytes; nothing is changed
 *   20                `third`: the first item, from 1, whose kind is neither 1 nor 2, or that lacks
 *                     bytes; nothing is changed, for the whole list is read before an item is tried
 *   8 to 15, and 19   as dheg_remove or dheg_add refuses the item, with its own `first` and the item,
 *                     from 1, in `third`; so a name that has not 1 to 36 bytes is 12 in its turn
 *
 * `list` is only read. Both are used until the call returns; other threads may call on other memory.
 */
dheg_reply dheg_batch(uint8_t *image, size_t image_len, const uint8_t *list, size_t list_len);

/*
 * Judges the first track of a block image, 9,216 bytes, and counts its blocks. The directory is not
 * looked at.
 *
 * Done: the three counts are given; the places are 0. Refused: the counts are 0, and, in this order,
 *
 *   1      `first`: 2 `track` has not 9,216 bytes
 *   8      `first`: offset of the lowest wrong field of the disk header (34: directory's length)
 *   9      `first`: lowest block whose map record is wrong, as dheg_check says
 *   19     the good word is not 1440 less three times the bad records; no place is named
 *   11     the free word is not three times the free records; no place is named
 *
 * `track` is only read, until the call returns; several threads may judge the same memory at once.
 */
dheg_first_track_result dheg_first_track(const uint8_t *track, size_t track_len);

#ifdef __cplusplus
}
#endif

#endif
