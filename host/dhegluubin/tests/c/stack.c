/*
 * Tells how much stack each function of the library uses: it is called on a thread whose stack was
 * painted, and the lowest byte that is painted no more is looked for. Prints a line a function with
 * the most of its calls here, and fails where one is over what the header says.
 */

#define _DEFAULT_SOURCE /* for pthread_attr_setstack and posix_memalign */

#include "dhegluubin.h"
#include "packed_disk.h"

#include <pthread.h>
#include <stdio.h>
#include <stdlib.h>
#include <string.h>

#define STACK_LEN (1024 * 1024)
#define PAINT 0xA7
#define FILES 459

/* Entries of the list of bad blocks, more than there are blocks. */
#define BAD_COUNT 1000

/* Where the directory begins in the image: block 1 stands in image sector 9. */
#define DIRECTORY (9 * 512)

static uint8_t image[DHEG_IMAGE_LEN], other[DHEG_IMAGE_LEN], hfe[DHEG_HFE_LEN];
static uint8_t content[DHEG_IMAGE_LEN], out[DHEG_IMAGE_LEN];
static uint16_t bad[BAD_COUNT];

/* The list of a batch, and how many of its bytes are lent. */
static uint8_t list_bytes[2 * DHEG_IMAGE_LEN];
static size_t list_len;

/* The name of the n-th file. Names of one length differ in a few letters. */
static const uint8_t *name_of(size_t n)
{
    static char name[16];
    sprintf(name, "cue_%06lu", (unsigned long)n);
    return (const uint8_t *)name;
}

#define NAME_LEN 10

/* ---- the calls, each as a thread runs it; *done tells whether it was done */

static size_t file, length, sector;

static void *nothing(void *done)
{
    *(int *)done = 1;
    return NULL;
}

#define CALL(NAME, REPLY)                                                                          \
    static void *NAME(void *done)                                                                  \
    {                                                                                              \
        *(int *)done = (REPLY).number == DHEG_DONE;                                                \
        return NULL;                                                                               \
    }

CALL(unpack, dheg_unpack(hfe, sizeof hfe, other, sizeof other))
CALL(pack, dheg_pack(image, sizeof image, hfe, sizeof hfe))
CALL(rewrite, dheg_rewrite(hfe, sizeof hfe, 40, 1, sector, content, DHEG_SECTOR_LEN))
CALL(place, dheg_place(479, 2))
CALL(format, dheg_format(image, sizeof image, (const uint8_t *)"STAGE", 5, 7))
CALL(format_bad,
     dheg_format_bad(image, sizeof image, (const uint8_t *)"STAGE", 5, 7, bad, BAD_COUNT))
CALL(check, dheg_check(image, sizeof image))
CALL(list, dheg_list(image, sizeof image, out, length))
CALL(read, dheg_read(image, sizeof image, name_of(file), NAME_LEN, out, sizeof out))
CALL(add, dheg_add(image, sizeof image, name_of(file), NAME_LEN, 1, content, length))
CALL(take, dheg_remove(image, sizeof image, name_of(file), NAME_LEN))
CALL(batch, dheg_batch(image, sizeof image, list_bytes, list_len))
CALL(first_track, dheg_first_track(image, DHEG_FIRST_TRACK_LEN).reply)

/* ---- the measurement */

static void fail(const char *what)
{
    printf("failed: %s\n", what);
    exit(1);
}

/* How deep a thread that runs the call goes. The call must be done, or refused, as is said. */
static size_t depth(void *(*call)(void *), int wanted)
{
    static uint8_t *stack;
    pthread_attr_t attributes;
    pthread_t thread;
    size_t kept = 0;
    int done = -1;

    if (!stack && posix_memalign((void **)&stack, 4096, STACK_LEN))
        fail("no memory for a stack");
    memset(stack, PAINT, STACK_LEN);
    if (pthread_attr_init(&attributes) || pthread_attr_setstack(&attributes, stack, STACK_LEN)
        || pthread_create(&thread, &attributes, call, &done) || pthread_join(thread, NULL))
        fail("no thread");
    pthread_attr_destroy(&attributes);
    if (done != wanted)
        fail(wanted ? "a call was refused" : "a call was not refused");
    while (kept < STACK_LEN && stack[kept] == PAINT)
        kept++;
    return STACK_LEN - kept;
}

/* dheg_unpack twice: of version 1 and of version 3. */
enum {
    UNPACK,
    UNPACK_3,
    PACK,
    REWRITE,
    PLACE,
    FORMAT,
    FORMAT_BAD,
    CHECK,
    LIST,
    READ,
    ADD,
    REMOVE,
    BATCH,
    FIRST_TRACK,
    COUNT
};

static const char *const names[COUNT] = {
    "dheg_unpack", "dheg_unpack, version 3", "dheg_pack",       "dheg_rewrite", "dheg_place",
    "dheg_format", "dheg_format_bad",        "dheg_check",      "dheg_list",    "dheg_read",
    "dheg_add",    "dheg_remove",            "dheg_batch",      "dheg_first_track"};
static void *(*const calls[COUNT])(void *) = {unpack,     unpack, pack, rewrite, place, format,
                                              format_bad, check,  list, read,    add,   take,
                                              batch,      first_track};
static size_t most[COUNT];

/* What a thread uses without a call. */
static size_t before;

static void measure(int call, int wanted)
{
    size_t used = depth(calls[call], wanted) - before;
    if (used > most[call])
        most[call] = used;
}

/* All functions that only read, on the disk as it is. */
static void measure_readers(int sound)
{
    measure(CHECK, sound);
    length = sizeof out;
    measure(LIST, sound);
    measure(READ, sound);
    measure(FIRST_TRACK, 1);
}

/* A disk with as many files as fit, one by one, so that the directory grows. */
static void fill_disk(void)
{
    for (file = 0; file < FILES; file++) {
        length = file % 7;
        if (file % 23 == 0 || file + 2 >= FILES)
            measure(ADD, 1);
        else if (dheg_add(image, sizeof image, name_of(file), NAME_LEN, 1, content, length).number)
            fail("an add was refused");
    }
    length = 1;
    measure(ADD, 0);
    file = FILES / 2;
}

/* Lists the remove of a file, or its add with data of this length. */
static void list_item(uint8_t kind, size_t n, size_t data_len)
{
    uint8_t *item = list_bytes + list_len;

    item[0] = kind;
    item[1] = NAME_LEN;
    memcpy(item + 2, name_of(n), NAME_LEN);
    list_len += 2 + NAME_LEN;
    if (kind == 1)
        return;
    item += 2 + NAME_LEN;
    memset(item, 1, 4);
    item[4] = (uint8_t)(data_len >> 24);
    item[5] = (uint8_t)(data_len >> 16);
    item[6] = (uint8_t)(data_len >> 8);
    item[7] = (uint8_t)data_len;
    memcpy(item + 8, content, data_len);
    list_len += 8 + data_len;
}

/* On the full disk: files removed and added anew, so that the next list is refused at its last item;
 * then one that is wrong there. */
static void batch_on_full_disk(void)
{
    size_t n;

    list_len = 0;
    for (n = 0; n < 60; n++)
        list_item(1, n, 0);
    for (n = 0; n < 60; n++)
        list_item(2, n, n % 7);
    measure(BATCH, 1);
    list_item(2, FILES, 1);
    measure(BATCH, 0);
    list_len--;
    measure(BATCH, 0);
}

/* Byte `index` of a sector of track 40, side 1, counted from the 00 before its header. */
static uint8_t *cells(size_t r, size_t index)
{
    return side_byte(hfe, 40, 1, in_sector(r, index));
}

/* The packed disk as version 3, which it is left as: without codes; then with a code of each kind in
 * the gap before and after the sectors of all sides; then with a bad sector, and with a wrong code. */
static void unpack_version_3(void)
{
    static const uint8_t codes[] = {0x0F, 0x8F, 0x4F, 0x2F, 0xCF, 0xE0, 0x2F, 0xCF, 0x00, 0x49};
    size_t side, i;

    memcpy(hfe, "HXCHFEV3", 8);
    measure(UNPACK_3, 1);
    for (side = 0; side < 160; side++)
        for (i = 0; i < sizeof codes; i++) {
            *side_byte(hfe, side / 2, side % 2, 20 + i) = codes[i];
            *side_byte(hfe, side / 2, side % 2, 12480 + i) = codes[i];
        }
    measure(UNPACK_3, 1);
    memset(cells(9, 20), 0, 2);
    measure(UNPACK_3, 0);
    *side_byte(hfe, 79, 1, SIDE_LEN - 1) = 0xCF;
    measure(UNPACK_3, 0);
}

/* All sectors of a side; then one that has the header of another in its data, which would be lost;
 * one with two headers, and one that no side has. */
static void rewrite_sectors(void)
{
    size_t i;

    for (sector = 1; sector <= 9; sector++)
        measure(REWRITE, 1);
    for (i = 0; i < 10; i++)
        memcpy(cells(1, 160 + i), cells(2, 12 + i), 2);
    for (sector = 1; sector <= 2; sector++)
        measure(REWRITE, 0);
    sector = 10;
    measure(REWRITE, 0);
}

/* Disks with bad blocks: a list of all blocks from 2 on, some of them more than once; one with a wrong
 * number at its end; and the highest blocks alone, with a file beside them. */
static void format_with_bad(void)
{
    size_t i;

    for (i = 0; i < BAD_COUNT; i++)
        bad[i] = (uint16_t)(479 - i % 478);
    measure(FORMAT_BAD, 1);
    length = 1;
    measure(ADD, 0);
    bad[BAD_COUNT - 1] = 480;
    measure(FORMAT_BAD, 0);
    for (i = 0; i < BAD_COUNT; i++)
        bad[i] = (uint16_t)(479 - i % 100);
    measure(FORMAT_BAD, 1);
    file = 0;
    length = 300 * 1536;
    measure(ADD, 1);
    measure_readers(1);
    measure(REMOVE, 1);
}

/* One file that takes all blocks. */
static void one_file(void)
{
    measure(FORMAT, 1);
    file = 0;
    length = 477 * 1536 - 64;
    measure(ADD, 1);
    measure_readers(1);
    measure(REMOVE, 1);
    measure(REMOVE, 0);
    list_len = 0;
    list_item(2, file, length);
    list_item(1, file, 0);
    list_item(1, file, 0);
    measure(BATCH, 0);
}

int main(void)
{
    size_t byte;
    int call, over = 0;

    for (byte = 0; byte < sizeof content; byte++)
        content[byte] = (uint8_t)(byte * 31 + byte / 251);
    before = depth(nothing, 1);

    measure(PLACE, 1);
    measure(FORMAT, 1);
    fill_disk();
    batch_on_full_disk();
    measure_readers(1);
    measure(PACK, 1);
    measure(UNPACK, 1);
    unpack_version_3();
    file = FILES - 1;
    measure(READ, 1);
    measure(REMOVE, 1);
    length = 1;
    measure(ADD, 1);
    /* The second slot gets the name of the first, so that names are compared byte by byte. */
    memcpy(image + DIRECTORY + 2 * DHEG_ENTRY_LEN + 14, image + DIRECTORY + DHEG_ENTRY_LEN + 14, 38);
    measure_readers(0);
    measure(ADD, 0);
    measure(REMOVE, 0);
    measure(BATCH, 0);
    list_len = 0;
    list_item(1, 1, 0);
    measure(BATCH, 0);
    format_with_bad();
    one_file();
    measure(PACK, 1);
    rewrite_sectors();
    /* A damaged sector, a wrong header, a wrong free word. */
    memset(hfe + 200000, 0x22, 64);
    measure(UNPACK, 0);
    image[0] ^= 1;
    measure(CHECK, 0);
    image[0] ^= 1;
    image[21] ^= 1;
    measure(CHECK, 0);
    measure(LIST, 0);
    measure(FIRST_TRACK, 0);

    for (call = 0; call < COUNT; call++) {
        printf("%s %lu\n", names[call], (unsigned long)most[call]);
        over |= most[call] > DHEG_STACK_LEN;
    }
    return over;
}
