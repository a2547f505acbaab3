/* Writes captures, for the programs that try the calls on them from C. */
#ifndef SECTIONS_H
#define SECTIONS_H

#include <string.h>

#include <tikhoplav.h>

enum { COUNT_SIZE = 2, ENTRY_SIZE = 8, FRAME = 0, GROUP = 1 };

/* A section that is being written: where it starts, the entries so far, and where in it the next body begins. */
typedef struct {
    uint8_t *start;
    size_t entries, end;
} section;

static void put_number(uint8_t *at, size_t size, size_t number)
{
    while (size-- > 0) {
        at[size] = (uint8_t)number;
        number >>= 8;
    }
}

static section section_at(uint8_t *start, size_t count)
{
    section s;

    s.start = start;
    s.entries = 0;
    s.end = COUNT_SIZE + ENTRY_SIZE * count;
    put_number(start, COUNT_SIZE, count);
    return s;
}

static uint8_t *next_body(const section *s)
{
    return s->start + s->end;
}

/* Writes the entry for a body that stands where the next one begins. */
static void add(section *s, size_t kind, size_t size)
{
    uint8_t *entry = s->start + COUNT_SIZE + ENTRY_SIZE * s->entries;

    put_number(entry, 1, kind);
    put_number(entry + 1, 3, size);
    put_number(entry + 4, 4, s->end);
    s->entries++;
    s->end += size;
}

/* The body of a frame with a nonce and data of zeros. Answers its length. */
static size_t frame_at(uint8_t *at, uint32_t identifier, uint8_t code)
{
    static const uint8_t lengths[] = { 0, 1, 2, 3, 4, 5, 6, 7, 8, 12, 16, 20, 24, 32, 48, 64 };
    size_t size = (size_t)TIKHOPLAV_CAPTURE_DATA_AT + lengths[code];

    memset(at, 0, size);
    put_number(at, 4, identifier);
    at[TIKHOPLAV_CAPTURE_CODE_AT] = code;
    return size;
}

/* A section of frames without data, the last with data of this code. Answers its length. */
static size_t frames_at(uint8_t *at, size_t count, uint8_t last_code)
{
    section s = section_at(at, count);

    while (s.entries < count)
        add(&s, FRAME, frame_at(next_body(&s), (uint32_t)s.entries, s.entries + 1 < count ? 0 : last_code));
    return s.end;
}

/* Sections in one another, the innermost at this depth and with one frame. Answers the length. */
static size_t chain_at(uint8_t *at, unsigned depth)
{
    section s = section_at(at, 1);

    if (depth > 1)
        add(&s, GROUP, chain_at(next_body(&s), depth - 1));
    else
        add(&s, FRAME, frame_at(next_body(&s), 0x123, 0));
    return s.end;
}

enum { FRAMES_OF_THE_LONGEST = 10 * TIKHOPLAV_CAPTURE_ENTRIES_MAX + 66 };

/* Ten groups of as many frames as a section has and one of the rest: TIKHOPLAV_CAPTURE_MAX bytes, and as many more as
   this code means, which a frame in their midst has. Answers the length. */
static size_t longest_at(uint8_t *at, uint8_t code)
{
    section s = section_at(at, 11);

    while (s.entries < 10)
        add(&s, GROUP, frames_at(next_body(&s), TIKHOPLAV_CAPTURE_ENTRIES_MAX, s.entries == 4 ? code : 0));
    add(&s, GROUP, frames_at(next_body(&s), 66, 12));
    return s.end;
}

#endif
