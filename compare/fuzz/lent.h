/* What every target has. Each lent output stands between two guard zones, which are poisoned while a call runs and looked
 * at afterwards; each input is a block of its own size. An answer that is not a promised one ends the program. */
#ifndef LENT_H
#define LENT_H

#define _GNU_SOURCE
#include "colorgrad.h"
#ifdef FAULT
#include "faults.h"
#endif
#include <sanitizer/asan_interface.h>
#include <stdio.h>
#include <stdlib.h>
#include <string.h>

#define GUARD 64

static const uint8_t RUBBISH = 0xa5;

static void expect(bool is_so, const char *what)
{
    if (!is_so) {
        fprintf(stderr, "NOT PROMISED: %s\n", what);
        abort();
    }
}

/* ---- lent memory */

typedef struct {
    uint8_t *block;
    size_t bytes;
} Lent;

static void *items(Lent lent)
{
    return lent.block + GUARD;
}

/* An output of so many bytes, all rubbish, its guards poisoned. */
static Lent lend(size_t bytes)
{
    Lent lent = {malloc(bytes + 2 * GUARD), bytes};
    expect(lent.block != NULL, "memory");
    memset(lent.block, RUBBISH, bytes + 2 * GUARD);
    ASAN_POISON_MEMORY_REGION(lent.block, GUARD);
    ASAN_POISON_MEMORY_REGION(lent.block + GUARD + bytes, GUARD);
    return lent;
}

/* Whether every byte from one on is this. */
static bool is_all(Lent lent, size_t from, uint8_t byte)
{
    const uint8_t *bytes = items(lent);
    for (size_t i = from; i < lent.bytes; i++)
        if (bytes[i] != byte)
            return false;
    return true;
}

static void give_back(Lent lent)
{
    ASAN_UNPOISON_MEMORY_REGION(lent.block, lent.bytes + 2 * GUARD);
    for (size_t i = 0; i < GUARD; i++)
        expect(lent.block[i] == RUBBISH && lent.block[GUARD + lent.bytes + i] == RUBBISH, "a guard zone was written");
    free(lent.block);
}

/* A copy in a block of its own size, so that a read past its end shows. */
static void *own(const void *data, size_t bytes)
{
    void *copy = malloc(bytes ? bytes : 1);
    expect(copy != NULL, "memory");
    if (bytes)
        memcpy(copy, data, bytes);
    return copy;
}

/* ---- bytes as they come */

typedef struct {
    const uint8_t *data;
    size_t left;
} Bytes;

static uint8_t byte(Bytes *bytes)
{
    if (bytes->left == 0)
        return 0;
    bytes->left--;
    return *bytes->data++;
}

static float number(Bytes *bytes)
{
    uint8_t raw[4];
    float x;
    for (int i = 0; i < 4; i++)
        raw[i] = byte(bytes);
    memcpy(&x, raw, sizeof x);
    return x;
}

#endif
