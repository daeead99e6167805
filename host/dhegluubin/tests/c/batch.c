/* Many removes and adds in one call: sessions, refused items, and lists of all kinds of ends. */

#define _DEFAULT_SOURCE /* for mmap */

#include "checks.h"

#include <stdio.h>
#include <string.h>
#include <sys/mman.h>
#include <unistd.h>

/* A list while it is written. */
static uint8_t list[4096];
static size_t length;

static void put(const void *bytes, size_t count)
{
    memcpy(list + length, bytes, count);
    length += count;
}

/* The beginning of every item. */
static void put_name(uint8_t kind, const char *name)
{
    uint8_t head[2] = {kind, (uint8_t)strlen(name)};

    put(head, 2);
    put(name, strlen(name));
}

static void put_number(uint32_t number)
{
    uint8_t bytes[4] = {(uint8_t)(number >> 24), (uint8_t)(number >> 16), (uint8_t)(number >> 8),
                        (uint8_t)number};

    put(bytes, 4);
}

static void put_add(const char *name, const char *data)
{
    put_name(2, name);
    put_number(0x01020304);
    put_number((uint32_t)strlen(data));
    put(data, strlen(data));
}

static dheg_reply batch(void)
{
    return dheg_batch(image, sizeof image, list, length);
}

/* The same files by single calls, for comparison. */
static void add(uint8_t *disk, const char *name, const char *data)
{
    dheg_reply reply = dheg_add(disk, DHEG_IMAGE_LEN, (const uint8_t *)name, strlen(name), 0x01020304,
                                (const uint8_t *)data, strlen(data));
    expect("add", reply, DHEG_DONE, 0, 0, 0);
}

static void take(uint8_t *disk, const char *name)
{
    dheg_reply reply = dheg_remove(disk, DHEG_IMAGE_LEN, (const uint8_t *)name, strlen(name));

    expect("remove", reply, DHEG_DONE, 0, 0, 0);
}

/* A session, and one whose fourth item is refused. */
static void sessions(void)
{
    static uint8_t single[DHEG_IMAGE_LEN];

    dheg_format(image, sizeof image, NULL, 0, 7);
    memcpy(single, image, sizeof image);
    length = 0;
    put_add("cue_1", "house lights");
    put_add("Cue_2", "");
    put_name(1, "CUE_1");
    put_add("cue_3", "curtain");
    expect("batch", batch(), DHEG_DONE, 0, 0, 0);
    add(single, "cue_1", "house lights");
    add(single, "Cue_2", "");
    take(single, "cue_1");
    add(single, "cue_3", "curtain");
    check("as the single calls", memcmp(image, single, sizeof image) == 0);

    expect("batch again: a name is present", batch(), DHEG_NAME_PRESENT, 2, 0, 2);
    add(single, "cue_1", "house lights");
    check("the first item stands", memcmp(image, single, sizeof image) == 0);
    keep();
    refused("batch: the first item", batch(), DHEG_NAME_PRESENT, 3, 0, 1);
}

/* What is judged before the items, and on a disk that is not sound. An empty list is done there, and
 * leaves all as a refusal does. */
static void before_items(void)
{
    length = 0;
    put_name(1, "cue_1");
    keep();
    refused("batch: short image", dheg_batch(image, sizeof image - 1, list, length), DHEG_LENGTH, 2, 0,
            0);
    refused("batch: short image, wrong list", dheg_batch(image, 9216, list, 1), DHEG_LENGTH, 2, 0, 0);
    refused("batch: nothing", dheg_batch(NULL, 0, NULL, 0), DHEG_LENGTH, 2, 0, 0);
    image[0] = 'X';
    keep();
    refused("batch: disk header", batch(), DHEG_DISK_HEADER, 0, 0, 1);
    refused("batch: wrong list before it", dheg_batch(image, sizeof image, list, length - 1),
            DHEG_WRONG_ITEM, 0, 0, 1);
    refused("batch: empty list", dheg_batch(image, sizeof image, NULL, 0), DHEG_DONE, 0, 0, 0);
    image[0] = 'Q';
}

/* A name's length byte of 0 and of 37 to 255: 12 in the item's turn. */
static void long_names(void)
{
    static char name[256];
    size_t name_len;

    keep();
    for (name_len = 0; name_len < 256; name_len++) {
        memset(name, 'n', name_len);
        name[name_len] = 0;
        length = 0;
        put_name(1, name);
        refused("batch: names of all lengths", batch(),
                name_len >= 1 && name_len <= 36 ? DHEG_NO_SUCH_NAME : DHEG_ARGUMENT, 0, 0, 1);
    }
}

/* A list cut at each byte, lent at the end of a page after which none may be read. */
static void cut_lists(void)
{
    size_t page = (size_t)sysconf(_SC_PAGESIZE), cut, second;
    uint8_t *pages = mmap(NULL, 2 * page, PROT_READ | PROT_WRITE, MAP_PRIVATE | MAP_ANONYMOUS, -1, 0);
    uint8_t *lent;

    if (pages == MAP_FAILED || mprotect(pages + page, page, PROT_NONE)) {
        check("pages to lend", 0);
        return;
    }
    length = 0;
    put_name(1, "none");
    second = length;
    put_add("cue_9", "applause");
    keep();
    for (cut = 0; cut <= length; cut++) {
        lent = pages + page - cut;
        memcpy(lent, list, cut);
        if (cut == 0)
            refused("batch: all cut", dheg_batch(image, sizeof image, lent, cut), DHEG_DONE, 0, 0, 0);
        else if (cut == second || cut == length)
            refused("batch: whole items", dheg_batch(image, sizeof image, lent, cut),
                    DHEG_NO_SUCH_NAME, 0, 0, 1);
        else
            refused("batch: a cut item", dheg_batch(image, sizeof image, lent, cut), DHEG_WRONG_ITEM,
                    0, 0, cut < second ? 1 : 2);
    }
    munmap(pages, 2 * page);
}

/* Data of up to 2^32 - 1 bytes, of which a call that refuses them reads nothing, and an item after
 * them. */
static void long_data(void)
{
    static const uint32_t lengths[] = {734145, 737280, 4294967231u, 4294967294u, 4294967295u};
    const size_t all = (size_t)4294967295u + 4096;
    uint8_t *lent = mmap(NULL, all, PROT_READ | PROT_WRITE,
                         MAP_PRIVATE | MAP_ANONYMOUS | MAP_NORESERVE, -1, 0);
    size_t i, end;

    if (lent == MAP_FAILED) {
        printf("left out: no room to lend 4 GiB\n");
        return;
    }
    keep();
    for (i = 0; i < sizeof lengths / sizeof lengths[0]; i++) {
        length = 0;
        put_name(2, "long");
        put_number(0);
        put_number(lengths[i]);
        memcpy(lent, list, length);
        end = length + lengths[i];
        refused("batch: too few blocks", dheg_batch(image, sizeof image, lent, end),
                DHEG_TOO_FEW_BLOCKS, 0, 0, 1);
        refused("batch: a byte of the data lacks", dheg_batch(image, sizeof image, lent, end - 1),
                DHEG_WRONG_ITEM, 0, 0, 1);
        refused("batch: kind 0 after the data", dheg_batch(image, sizeof image, lent, end + 1),
                DHEG_WRONG_ITEM, 0, 0, 2);
    }
    munmap(lent, all);
}

void batches(void)
{
    sessions();
    before_items();
    long_names();
    cut_lists();
    long_data();
}
