/* The checks that the files of one program share. */

#include "checks.h"

#include <stdio.h>
#include <string.h>

uint8_t image[DHEG_IMAGE_LEN], hfe[DHEG_HFE_LEN], out[4096];
unsigned checks, failures;

static uint8_t kept_image[DHEG_IMAGE_LEN], kept_hfe[DHEG_HFE_LEN], kept_out[4096];

void check(const char *what, int holds)
{
    checks++;
    if (!holds) {
        failures++;
        printf("failed: %s\n", what);
    }
}

void keep(void)
{
    memcpy(kept_image, image, sizeof image);
    memcpy(kept_hfe, hfe, sizeof hfe);
    memcpy(kept_out, out, sizeof out);
}

void expect(const char *what, dheg_reply reply, size_t number, size_t first, size_t second,
            size_t third)
{
    int same = reply.number == number && reply.first == first && reply.second == second
               && reply.third == third;
    if (!same)
        printf("reply %lu %lu %lu %lu\n", (unsigned long)reply.number, (unsigned long)reply.first,
               (unsigned long)reply.second, (unsigned long)reply.third);
    check(what, same);
}

void refused(const char *what, dheg_reply reply, size_t number, size_t first, size_t second,
             size_t third)
{
    expect(what, reply, number, first, second, third);
    check(what, memcmp(image, kept_image, sizeof image) == 0);
    check(what, memcmp(hfe, kept_hfe, sizeof hfe) == 0);
    check(what, memcmp(out, kept_out, sizeof out) == 0);
}

dheg_reply unpack(void)
{
    return dheg_unpack(hfe, sizeof hfe, image, sizeof image);
}
