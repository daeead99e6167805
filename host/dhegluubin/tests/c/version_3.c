/* An HFE image of version 3: without codes, with right ones and with wrong ones. */

#include "checks.h"
#include "packed_disk.h"

#include <string.h>

/* Codes that give no cells, as they are stored: nothing, index, and a bit rate. */
static const uint8_t no_cells[] = {0x0F, 0x8F, 0x4F, 0x2F};

/* The code that drops cells of a byte, with a count of none. */
static const uint8_t none_dropped[] = {0xCF, 0x00};

/* What the packed disk holds. */
static uint8_t original[DHEG_IMAGE_LEN];

/* Packs a disk and lets the result be of version 3. */
static void pack_version_3(void)
{
    size_t i;

    for (i = 0; i < sizeof image; i++)
        image[i] = (uint8_t)(i * 5 + i / 700);
    memcpy(original, image, sizeof image);
    dheg_pack(image, sizeof image, hfe, sizeof hfe);
    memcpy(hfe, "HXCHFEV3", 8);
}

/* Puts bytes at a place of a side; those at its end, where there is a gap, fall off. */
static void insert(size_t track, size_t side, size_t at, const uint8_t *bytes, size_t count)
{
    size_t i;

    for (i = SIDE_LEN; i-- > at;)
        *side_byte(hfe, track, side, i) =
            i < at + count ? bytes[i - at] : *side_byte(hfe, track, side, i - count);
}

/* Puts codes on all sides, on each at other places. */
static void insert_codes(void)
{
    size_t i;

    for (i = 0; i < 160; i++) {
        insert(i / 2, i % 2, 10 + 37 * i, no_cells, sizeof no_cells);
        insert(i / 2, i % 2, 6010 + 33 * i, none_dropped, sizeof none_dropped);
    }
}

/* The disk must come back. */
static void unpacked(const char *what)
{
    memset(image, 0xAA, sizeof image);
    expect(what, unpack(), DHEG_DONE, 0, 0, 0);
    check(what, memcmp(image, original, sizeof image) == 0);
}

/* Changes a byte, after which unpacking is refused. */
static void refused_with(const char *what, uint8_t *at, uint8_t byte, size_t number, size_t first,
                         size_t second, size_t third)
{
    *at = byte;
    keep();
    refused(what, unpack(), number, first, second, third);
}

void version_3(void)
{
    pack_version_3();
    unpacked("version 3 without codes");
    insert_codes();
    unpacked("version 3 with codes");

    memset(image, 0xAA, sizeof image);
    keep();
    refused("version 3: not rewritten", dheg_rewrite(hfe, sizeof hfe, 0, 0, 1, original, 512),
            DHEG_HFE_HEADER, 0, 0, 0);
    refused("version 3: no track", dheg_rewrite(hfe, sizeof hfe, 80, 0, 1, original, 512),
            DHEG_ARGUMENT, 0, 0, 0);
    /* The CRC of the first header, after the codes that were put before it. */
    refused_with("version 3: no header", side_byte(hfe, 0, 0, sizeof no_cells + in_sector(1, 20)), 0,
                 DHEG_NO_HEADER, 0, 0, 1);
    refused_with("version 3: cut", side_byte(hfe, 79, 1, SIDE_LEN - 1), 0xCF, DHEG_WRONG_CODE, 79, 1,
                 SIDE_LEN - 1);
    refused_with("version 3: weak area", side_byte(hfe, 40, 0, 12000), 0x2F, DHEG_WRONG_CODE, 40, 0,
                 12000);
    refused_with("version 3: revision", &hfe[8], 1, DHEG_HFE_HEADER, 8, 0, 0);
}
