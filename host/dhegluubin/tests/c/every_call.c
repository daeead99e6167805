/* Calls every function of the library, good and refused, and compares replies and lent bytes. What is
 * asked of version 3 images stands in version_3.c, of bad blocks in bad_blocks.c, of batches in
 * batch.c. */

#define _DEFAULT_SOURCE /* for mmap */

#include "checks.h"
#include "packed_disk.h"

#include <stdio.h>
#include <stdlib.h>
#include <string.h>
#include <sys/mman.h>

static const uint8_t *text(const char *letters)
{
    return (const uint8_t *)letters;
}

static dheg_reply add(const char *name, const uint8_t *data, size_t data_len)
{
    return dheg_add(image, sizeof image, text(name), strlen(name), 0x01020304, data, data_len);
}

static dheg_reply remove_file(const char *name)
{
    return dheg_remove(image, sizeof image, text(name), strlen(name));
}

static dheg_reply read_file(const char *name, size_t out_len)
{
    return dheg_read(image, sizeof image, text(name), strlen(name), out, out_len);
}

static dheg_reply list(size_t out_len)
{
    return dheg_list(image, sizeof image, out, out_len);
}

static dheg_reply checked(void)
{
    return dheg_check(image, sizeof image);
}

static void placement(void)
{
    expect("block 0", dheg_place(0, 0), DHEG_DONE, 0, 0, 0);
    expect("block 6", dheg_place(6, 2), DHEG_DONE, 20, 0, 0);
    expect("last block", dheg_place(479, 2), DHEG_DONE, 1438, 0, 0);
    expect("no block", dheg_place(480, 0), DHEG_ARGUMENT, 0, 0, 0);
    expect("no sector", dheg_place(0, 3), DHEG_ARGUMENT, 0, 0, 0);
    expect("no numbers", dheg_place(SIZE_MAX, SIZE_MAX), DHEG_ARGUMENT, 0, 0, 0);
}

static void formatting(void)
{
    memset(image, 0xE5, sizeof image);
    keep();
    refused("format: short image", dheg_format(image, sizeof image - 1, text("DISK"), 4, 7),
            DHEG_LENGTH, 2, 0, 0);
    refused("format: no image", dheg_format(NULL, 0, NULL, 0, 7), DHEG_LENGTH, 2, 0, 0);
    refused("format: long name", dheg_format(image, sizeof image, text("ELEVENBYTES"), 11, 7),
            DHEG_ARGUMENT, 0, 0, 0);
    expect("format: empty name", dheg_format(image, sizeof image, NULL, 0, 7), DHEG_DONE, 0, 0, 0);
    check("ten spaces", memcmp(image, "QL5A          \0\7", 16) == 0);
    expect("format", dheg_format(image, sizeof image, text("DISK"), 4, 0x1234), DHEG_DONE, 0, 0, 0);
    check("name and number", memcmp(image, "QL5ADISK      \x12\x34", 16) == 0);
    expect("check of a fresh disk", checked(), DHEG_DONE, 0, 0, 0);
    expect("empty list", dheg_list(image, sizeof image, NULL, 0), DHEG_DONE, 0, 0, 0);
}

static void files(void)
{
    static uint8_t data[3000];
    size_t i;

    for (i = 0; i < sizeof data; i++)
        data[i] = (uint8_t)(i % 251);
    expect("add", add("first", data, sizeof data), DHEG_DONE, 0, 0, 0);
    expect("add without data", add("second", NULL, 0), DHEG_DONE, 0, 0, 0);
    expect("check", checked(), DHEG_DONE, 0, 0, 0);

    memset(out, 0xAA, sizeof out);
    keep();
    refused("list: short buffer", list(127), DHEG_BUFFER_TOO_SHORT, 128, 0, 0);
    refused("list: no image", dheg_list(NULL, 0, out, 128), DHEG_LENGTH, 2, 0, 0);
    refused("read: short buffer", read_file("first", 2999), DHEG_BUFFER_TOO_SHORT, 3000, 0, 0);
    refused("read: no such name", read_file("third", 3000), DHEG_NO_SUCH_NAME, 0, 0, 0);
    refused("read: no name", dheg_read(image, sizeof image, NULL, 0, out, sizeof out), DHEG_ARGUMENT,
            0, 0, 0);
    refused("read: short image", dheg_read(image, sizeof image - 1, text("first"), 5, out, 10),
            DHEG_LENGTH, 2, 0, 0);
    refused("add: name present", add("second", data, 1), DHEG_NAME_PRESENT, 2, 0, 0);
    refused("add: name present in capitals", add("SECOND", data, 1), DHEG_NAME_PRESENT, 2, 0, 0);
    refused("add: long name", add("a name of more than thirty-six bytes.", data, 1), DHEG_ARGUMENT,
            0, 0, 0);
    refused("add: no image", dheg_add(NULL, 0, text("x"), 1, 0, data, 1), DHEG_LENGTH, 2, 0, 0);
    refused("remove: no such name", remove_file("third"), DHEG_NO_SUCH_NAME, 0, 0, 0);
    refused("remove: no name", remove_file(""), DHEG_ARGUMENT, 0, 0, 0);
    refused("remove: no image", dheg_remove(NULL, 0, text("first"), 5), DHEG_LENGTH, 2, 0, 0);

    expect("list", list(sizeof out), DHEG_DONE, 128, 0, 0);
    check("names in slot order", memcmp(out + 16, "first", 5) == 0);
    check("names in slot order", memcmp(out + DHEG_ENTRY_LEN + 16, "second", 6) == 0);
    check("length of the file", memcmp(out, "\0\0\x0B\xF8", 4) == 0);
    check("date of the file", memcmp(out + 52, "\1\2\3\4", 4) == 0);
    check("bytes after the list", out[128] == 0xAA && out[sizeof out - 1] == 0xAA);
    expect("read", read_file("first", 3000), DHEG_DONE, 3000, 0, 0);
    check("data of the file", memcmp(out, data, 3000) == 0);
    check("bytes after the data", out[3000] == 0xAA);
    expect("read of an empty file", dheg_read(image, sizeof image, text("second"), 6, NULL, 0),
           DHEG_DONE, 0, 0, 0);

    expect("remove", remove_file("first"), DHEG_DONE, 0, 0, 0);
    keep();
    refused("remove again", remove_file("first"), DHEG_NO_SUCH_NAME, 0, 0, 0);
    expect("list after remove", list(64), DHEG_DONE, 64, 0, 0);
}

/* Adds data of a great length, of which a call that refuses it reads nothing. */
static void long_data(void)
{
    static const uint64_t lengths[] = {
        734145, 737280, 4294967231u, 4294967232u, 4294967296u, 4294968704u, 8589934592u};
    const size_t all = (size_t)8589934592u;
    uint8_t *data = mmap(NULL, all, PROT_READ, MAP_PRIVATE | MAP_ANONYMOUS | MAP_NORESERVE, -1, 0);
    size_t i;

    if (data == MAP_FAILED) {
        printf("left out: no room to lend 8 GiB\n");
        return;
    }
    keep();
    for (i = 0; i < sizeof lengths / sizeof lengths[0]; i++)
        refused("add: too few blocks", add("long", data, (size_t)lengths[i]), DHEG_TOO_FEW_BLOCKS, 0,
                0, 0);
    munmap(data, all);
}

/* What check, list, read, add, remove and the first item of a batch say of a disk that is wrong. */
static void wrong_disk(const char *what, size_t number, size_t first)
{
    keep();
    refused(what, checked(), number, first, 0, 0);
    refused(what, list(sizeof out), number, first, 0, 0);
    refused(what, read_file("second", sizeof out), number, first, 0, 0);
    refused(what, add("third", NULL, 0), number, first, 0, 0);
    refused(what, remove_file("second"), number, first, 0, 0);
    refused(what, dheg_batch(image, sizeof image, text("\1\6second"), 8), number, first, 0, 1);
}

static dheg_reply first_track_reply(void)
{
    dheg_first_track_result result = dheg_first_track(image, DHEG_FIRST_TRACK_LEN);
    if (result.reply.number != 0)
        check("no counts", result.free == 0 && result.good == 0 && result.held == 0);
    return result.reply;
}

/* Block 0 begins the image; slot 2 stands in block 1, which begins at image sector 9. */
static void wrong_disks(void)
{
    uint8_t *slot = image + 512 * 9 + 2 * DHEG_ENTRY_LEN;

    image[21] ^= 1;
    wrong_disk("free word", DHEG_FREE_WORD, 0);
    expect("free word", first_track_reply(), DHEG_FREE_WORD, 0, 0, 0);
    slot[15] = 0;
    wrong_disk("name length", DHEG_DIRECTORY, 2);
    expect("the directory is not looked at", first_track_reply(), DHEG_FREE_WORD, 0, 0, 0);
    image[96 + 3 * 100] = 0xFF;
    wrong_disk("map record", DHEG_MAP_RECORD, 100);
    expect("map record", first_track_reply(), DHEG_MAP_RECORD, 100, 0, 0);
    image[0] = 'X';
    wrong_disk("disk header", DHEG_DISK_HEADER, 0);
    expect("disk header", first_track_reply(), DHEG_DISK_HEADER, 0, 0, 0);
    image[0] = 'Q';
    image[96 + 3 * 100] = 0xFD;
    slot[15] = 6;
    image[21] ^= 1;
    expect("all put right", checked(), DHEG_DONE, 0, 0, 0);
}

/* Record 100 is free with the tail 00 10; calls leave it so, and count it. */
static void free_tail(void)
{
    uint8_t *record = image + 96 + 3 * 100;

    record[1] = 0x00;
    record[2] = 0x10;
    expect("a free record with another tail", checked(), DHEG_DONE, 0, 0, 0);
    expect("another tail", first_track_reply(), DHEG_DONE, 0, 0, 0);
    expect("add beside it", add("tail", text("data"), 4), DHEG_DONE, 0, 0, 0);
    expect("remove beside it", remove_file("tail"), DHEG_DONE, 0, 0, 0);
    check("the tail stays", record[0] == 0xFD && record[1] == 0x00 && record[2] == 0x10);
    image[96] = 0xFD;
    wrong_disk("free at block 0", DHEG_MAP_RECORD, 0);
    expect("free at block 0", first_track_reply(), DHEG_MAP_RECORD, 0, 0, 0);
    image[96] = 0xF8;
    expect("the system's at block 0", checked(), DHEG_DONE, 0, 0, 0);
}

static void first_track(void)
{
    dheg_first_track_result result;

    dheg_format(image, sizeof image, text("DISK"), 4, 7);
    result = dheg_first_track(image, DHEG_FIRST_TRACK_LEN);
    expect("first track", result.reply, DHEG_DONE, 0, 0, 0);
    check("its counts", result.free == 1434 && result.good == 1440 && result.held == 2);
    result = dheg_first_track(image, DHEG_FIRST_TRACK_LEN - 1);
    expect("short track", result.reply, DHEG_LENGTH, 2, 0, 0);
    result = dheg_first_track(NULL, 0);
    expect("no track", result.reply, DHEG_LENGTH, 2, 0, 0);
    check("no counts", result.free == 0 && result.good == 0 && result.held == 0);
}

/* Byte `index` of a sector of track 0, side 0, counted from the 00 before its header: two bytes of
 * cells. */
static uint8_t *cell(size_t sector, size_t index)
{
    return side_byte(hfe, 0, 0, in_sector(sector, index));
}

static void spoilt(const char *what, size_t sector, size_t index, size_t number)
{
    uint8_t *byte = cell(sector, index);

    *byte ^= 0xFF;
    keep();
    refused(what, unpack(), number, 0, 0, sector);
    *byte ^= 0xFF;
}

static void hfe_images(void)
{
    static uint8_t original[DHEG_IMAGE_LEN];
    size_t i;

    for (i = 0; i < sizeof image; i++)
        image[i] = (uint8_t)(i * i / 1000);
    memcpy(original, image, sizeof image);
    memset(hfe, 0x55, sizeof hfe);
    keep();
    refused("pack: short HFE image", dheg_pack(image, sizeof image, hfe, sizeof hfe - 1),
            DHEG_LENGTH, 1, 0, 0);
    refused("pack: short image", dheg_pack(image, sizeof image - 1, hfe, sizeof hfe), DHEG_LENGTH, 2,
            0, 0);
    refused("pack: nothing", dheg_pack(NULL, 0, NULL, 0), DHEG_LENGTH, 1, 0, 0);
    expect("pack", dheg_pack(image, sizeof image, hfe, sizeof hfe), DHEG_DONE, 0, 0, 0);
    check("signature", memcmp(hfe, "HXCPICFE", 8) == 0);

    memset(image, 0xAA, sizeof image);
    keep();
    refused("unpack: short HFE image", dheg_unpack(hfe, 1023, image, sizeof image), DHEG_LENGTH, 1, 0,
            0);
    refused("unpack: short image", dheg_unpack(hfe, sizeof hfe, image, 512), DHEG_LENGTH, 2, 0, 0);
    refused("unpack: nothing", dheg_unpack(NULL, 0, NULL, 0), DHEG_LENGTH, 1, 0, 0);
    refused("unpack: cut", dheg_unpack(hfe, sizeof hfe - 1, image, sizeof image), DHEG_TRACK_TABLE,
            79, 0, 0);
    hfe[9] = 79;
    keep();
    refused("unpack: header", unpack(), DHEG_HFE_HEADER, 9, 0, 0);
    hfe[9] = 80;
    hfe[512 + 4 * 5 + 2] ^= 1;
    keep();
    refused("unpack: table", unpack(), DHEG_TRACK_TABLE, 5, 0, 0);
    hfe[512 + 4 * 5 + 2] ^= 1;
    spoilt("unpack: no header", 3, 20, DHEG_NO_HEADER);
    spoilt("unpack: no data field", 4, 59, DHEG_NO_DATA_FIELD);
    spoilt("unpack: data CRC", 9, 60, DHEG_DATA_CRC);

    expect("unpack", unpack(), DHEG_DONE, 0, 0, 0);
    check("the same image", memcmp(image, original, sizeof image) == 0);

    /* The ten bytes of a header once more, after its sector. */
    for (i = 0; i < 10; i++) {
        cell(2, 577 + i)[0] = cell(2, 12 + i)[0];
        cell(2, 577 + i)[1] = cell(2, 12 + i)[1];
    }
    keep();
    refused("unpack: two headers", unpack(), DHEG_SEVERAL_HEADERS, 0, 0, 2);
}

static dheg_reply rewrite(size_t track, size_t side, size_t r, const uint8_t *data, size_t data_len)
{
    return dheg_rewrite(hfe, sizeof hfe, track, side, r, data, data_len);
}

/* Sectors of track 0, side 0, of the packed disk. */
static void rewriting(void)
{
    static uint8_t expected[DHEG_IMAGE_LEN], data[DHEG_SECTOR_LEN + 1];
    size_t i;

    for (i = 0; i < sizeof image; i++)
        image[i] = (uint8_t)(i * 7 + i / 512);
    memcpy(expected, image, sizeof image);
    dheg_pack(image, sizeof image, hfe, sizeof hfe);
    for (i = 0; i < sizeof data; i++)
        data[i] = (uint8_t)(255 - i % 253);
    memset(image, 0xAA, sizeof image);

    expect("rewrite", rewrite(0, 0, 3, data, 512), DHEG_DONE, 0, 0, 0);
    memcpy(expected + 2 * DHEG_SECTOR_LEN, data, 512);
    expect("unpack of the result", unpack(), DHEG_DONE, 0, 0, 0);
    check("the new data", memcmp(image, expected, sizeof image) == 0);

    keep();
    refused("rewrite: short HFE image", dheg_rewrite(hfe, 1023, 80, 2, 0, NULL, 0), DHEG_LENGTH, 1, 0,
            0);
    refused("rewrite: nothing", dheg_rewrite(NULL, 0, 0, 0, 1, data, 512), DHEG_LENGTH, 1, 0, 0);
    refused("rewrite: no track", rewrite(80, 0, 1, data, 512), DHEG_ARGUMENT, 0, 0, 0);
    refused("rewrite: no side", rewrite(0, 2, 1, data, 512), DHEG_ARGUMENT, 0, 0, 0);
    refused("rewrite: R 0", rewrite(0, 0, 0, data, 512), DHEG_ARGUMENT, 0, 0, 0);
    refused("rewrite: R 10", rewrite(0, 0, 10, data, 512), DHEG_ARGUMENT, 0, 0, 0);
    refused("rewrite: no numbers", rewrite(SIZE_MAX, SIZE_MAX, SIZE_MAX, data, 512), DHEG_ARGUMENT, 0,
            0, 0);
    refused("rewrite: 513 bytes", rewrite(0, 0, 3, data, 513), DHEG_ARGUMENT, 0, 0, 0);
    refused("rewrite: no data", rewrite(0, 0, 3, NULL, 0), DHEG_ARGUMENT, 0, 0, 0);
    hfe[512 + 4 * 5 + 2] ^= 1;
    keep();
    refused("rewrite: table", rewrite(0, 0, 3, data, 512), DHEG_TRACK_TABLE, 5, 0, 0);
    hfe[9] = 79;
    keep();
    refused("rewrite: header", rewrite(0, 0, 3, data, 512), DHEG_HFE_HEADER, 9, 0, 0);
    refused("rewrite: arguments first", rewrite(0, 0, 3, data, 511), DHEG_ARGUMENT, 0, 0, 0);
    hfe[9] = 80;
    hfe[512 + 4 * 5 + 2] ^= 1;
    *cell(4, 20) ^= 0xFF;
    *cell(5, 59) ^= 0xFF;
    *cell(6, 60) ^= 0xFF;
    keep();
    refused("rewrite: no sector header", rewrite(0, 0, 4, data, 512), DHEG_NO_HEADER, 0, 0, 4);
    refused("rewrite: no data field", rewrite(0, 0, 5, data, 512), DHEG_NO_DATA_FIELD, 0, 0, 5);
    expect("rewrite: wrong data CRC", rewrite(0, 0, 6, data, 512), DHEG_DONE, 0, 0, 0);

    /* The ten bytes of the header of R 7 once more, in the data of R 8. */
    for (i = 0; i < 10; i++) {
        cell(8, 100 + i)[0] = cell(7, 12 + i)[0];
        cell(8, 100 + i)[1] = cell(7, 12 + i)[1];
    }
    keep();
    refused("rewrite: two headers", rewrite(0, 0, 7, data, 512), DHEG_SEVERAL_HEADERS, 0, 0, 7);
    refused("rewrite: one of them lost", rewrite(0, 0, 8, data, 512), DHEG_MISREAD, 0, 0, 0);
}

int main(void)
{
    placement();
    formatting();
    files();
    long_data();
    wrong_disks();
    free_tail();
    first_track();
    bad_blocks();
    batches();
    hfe_images();
    version_3();
    rewriting();
    printf("%u checks, %u failed\n", checks, failures);
    return failures == 0 ? EXIT_SUCCESS : EXIT_FAILURE;
}
