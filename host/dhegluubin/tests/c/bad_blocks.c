/* Formats with a list of bad blocks, and what the other calls say of the disk. */

#include "checks.h"

#include <string.h>

static const uint8_t name[] = {'S', 'T', 'O', 'C', 'K'};

static dheg_reply format_bad(const uint16_t *bad, size_t bad_count)
{
    return dheg_format_bad(image, sizeof image, name, sizeof name, 7, bad, bad_count);
}

/* The first track is accepted with these counts. */
static void counts(const char *what, size_t free, size_t good, size_t held)
{
    dheg_first_track_result result = dheg_first_track(image, DHEG_FIRST_TRACK_LEN);

    expect(what, result.reply, DHEG_DONE, 0, 0, 0);
    check(what, result.free == free && result.good == good && result.held == held);
    expect(what, dheg_check(image, sizeof image), DHEG_DONE, 0, 0, 0);
}

static void wrong_lists(void)
{
    static const uint16_t wrong[] = {0, 1, 480, 65535};
    uint16_t bad[] = {17, 18, 19};
    size_t i, place;

    memset(image, 0xE5, sizeof image);
    keep();
    for (i = 0; i < sizeof wrong / sizeof wrong[0]; i++)
        for (place = 0; place < 3; place++) {
            bad[place] = wrong[i];
            refused("format: wrong block in the list", format_bad(bad, 3), DHEG_ARGUMENT, 0, 0, 0);
            bad[place] = 17;
        }
    refused("format: short image before the list",
            dheg_format_bad(image, sizeof image - 1, name, sizeof name, 7, wrong, 4), DHEG_LENGTH, 2,
            0, 0);
    refused("format: nothing", dheg_format_bad(NULL, 0, NULL, 0, 7, NULL, 0), DHEG_LENGTH, 2, 0, 0);
    refused("format: long name",
            dheg_format_bad(image, sizeof image, (const uint8_t *)"ELEVENBYTES", 11, 7, bad, 3),
            DHEG_ARGUMENT, 0, 0, 0);
}

/* Every call but the formats, on a disk whose good word is wrong. */
static void wrong_good_word(void)
{
    dheg_first_track_result result;

    image[23] ^= 1;
    keep();
    refused("check: good word", dheg_check(image, sizeof image), DHEG_GOOD_WORD, 0, 0, 0);
    refused("list: good word", dheg_list(image, sizeof image, out, sizeof out), DHEG_GOOD_WORD, 0, 0,
            0);
    refused("read: good word", dheg_read(image, sizeof image, name, 5, out, sizeof out),
            DHEG_GOOD_WORD, 0, 0, 0);
    refused("add: good word", dheg_add(image, sizeof image, name, 4, 0, NULL, 0), DHEG_GOOD_WORD, 0,
            0, 0);
    refused("remove: good word", dheg_remove(image, sizeof image, name, 5), DHEG_GOOD_WORD, 0, 0, 0);
    result = dheg_first_track(image, DHEG_FIRST_TRACK_LEN);
    expect("first track: good word", result.reply, DHEG_GOOD_WORD, 0, 0, 0);
    check("no counts", result.free == 0 && result.good == 0 && result.held == 0);
    image[23] ^= 1;
}

void bad_blocks(void)
{
    static const uint16_t bad[] = {2, 479, 4, 2};
    static uint8_t plain[DHEG_IMAGE_LEN], data[3000];
    static uint16_t all[2 * 478];
    size_t i;

    wrong_lists();
    expect("format", dheg_format(image, sizeof image, name, sizeof name, 7), DHEG_DONE, 0, 0, 0);
    memcpy(plain, image, sizeof image);
    memset(image, 0xE5, sizeof image);
    expect("format: empty list", format_bad(NULL, 0), DHEG_DONE, 0, 0, 0);
    check("that of no list", memcmp(image, plain, sizeof image) == 0);

    expect("format: list", format_bad(bad, 4), DHEG_DONE, 0, 0, 0);
    counts("three bad blocks", 1425, 1431, 5);
    check("records", memcmp(image + 96 + 6, "\xFE\xFF\xFF\xFD\xFF\xFF\xFE\xFF\xFF", 9) == 0);
    expect("add beside bad blocks",
           dheg_add(image, sizeof image, name, sizeof name, 0, data, sizeof data), DHEG_DONE, 0, 0, 0);
    check("blocks 3 and 5",
          memcmp(image + 96 + 6, "\xFE\xFF\xFF\0\x10\0\xFE\xFF\xFF\0\x10\1\xFD", 13) == 0);
    counts("two blocks taken", 1419, 1431, 7);
    wrong_good_word();
    expect("remove beside bad blocks", dheg_remove(image, sizeof image, name, sizeof name), DHEG_DONE,
           0, 0, 0);
    counts("and freed", 1425, 1431, 5);

    for (i = 0; i < sizeof all / sizeof all[0]; i++)
        all[i] = (uint16_t)(479 - i % 478);
    expect("format: all blocks", format_bad(all, sizeof all / sizeof all[0]), DHEG_DONE, 0, 0, 0);
    counts("no block is left", 0, 6, 480);
    keep();
    refused("add: no room", dheg_add(image, sizeof image, name, 5, 0, NULL, 0), DHEG_TOO_FEW_BLOCKS, 0,
            0, 0);
}
