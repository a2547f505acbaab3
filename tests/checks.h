/* What the programs that try the calls from C share: buffers of exactly a stated size, and counted checks. */
#ifndef CHECKS_H
#define CHECKS_H

#include <stdio.h>
#include <stdlib.h>
#include <string.h>

#include <tikhoplav.h>

typedef struct {
    uint8_t *bytes;
    size_t len;
} slice;

static const slice NOTHING = { NULL, 0 };

static unsigned checks;

static void check(int holds, const char *what, const char *file, int line)
{
    checks++;
    if (!holds) {
        fprintf(stderr, "%s:%d: does not hold: %s\n", file, line, what);
        exit(1);
    }
}

#define CHECK(condition) check((condition), #condition, __FILE__, __LINE__)

static uint8_t *allocate(size_t len)
{
    uint8_t *bytes = (uint8_t *)calloc(len, 1);

    if (bytes == NULL && len > 0) {
        perror(__FILE__);
        exit(1);
    }
    return bytes;
}

/* A buffer of its own for the bytes first, first + 1, .. */
static slice counting(size_t len, unsigned first)
{
    slice s;
    size_t i;

    s.len = len;
    s.bytes = allocate(len);
    for (i = 0; i < len; i++)
        s.bytes[i] = (uint8_t)(first + i);
    return s;
}

/* Gives a slice another length: a buffer of its own for its first bytes and, behind them, zeros. */
static void resize(slice *s, size_t len)
{
    uint8_t *bytes = allocate(len);

    if (len > 0 && s->len > 0)
        memcpy(bytes, s->bytes, s->len < len ? s->len : len);
    free(s->bytes);
    s->bytes = bytes;
    s->len = len;
}

static int same(slice a, slice b)
{
    return a.len == b.len && (a.len == 0 || memcmp(a.bytes, b.bytes, a.len) == 0);
}

/* An output as it is lent to a call. */
static slice lent(size_t len)
{
    return counting(len, 0x5a);
}

#endif
