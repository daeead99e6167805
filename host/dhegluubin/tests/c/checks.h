/* Checks that are counted, and the memory that the checked calls are lent. */

#ifndef CHECKS_H
#define CHECKS_H

#include "dhegluubin.h"

extern uint8_t image[DHEG_IMAGE_LEN], hfe[DHEG_HFE_LEN], out[4096];

/* How many checks were made, and how many of them failed. */
extern unsigned checks, failures;

void check(const char *what, int holds);

/* Remembers all memory that is lent for writing. */
void keep(void);

void expect(const char *what, dheg_reply reply, size_t number, size_t first, size_t second,
            size_t third);

/* The same for a refusal, after which all is as it was kept. */
void refused(const char *what, dheg_reply reply, size_t number, size_t first, size_t second,
             size_t third);

/* Unpacks the lent HFE image. */
dheg_reply unpack(void);

/* In version_3.c: the calls on an HFE image of version 3. */
void version_3(void);

/* In bad_blocks.c: formats with bad blocks, and calls on such a disk. */
void bad_blocks(void);

/* In batch.c: many removes and adds in one call. */
void batches(void);

#endif
