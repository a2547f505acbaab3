/* The calls on captures as firmware makes them: through the header alone, on buffers of exactly the stated sizes.
   Compiles as C and as C++. */
#include <pthread.h>

#include "checks.h"
#include "sections.h"

/* The sample of the header; the bytes that are not spelled are zeros. */
static const uint8_t SAMPLE[27] = { 0, 1, 0, 0, 0, 0x11, 0, 0, 0, 0x0a, 0, 0, 0x01, 0x23 };

/* Longer than a capture may be. */
static uint8_t scratch[TIKHOPLAV_CAPTURE_MAX + 100];

static int64_t frames_of(slice c)
{
    return tikhoplav_capture_frames(c.bytes, c.len);
}

static int64_t place_of(slice c, uint64_t number)
{
    return tikhoplav_capture_frame(c.bytes, c.len, number);
}

static int64_t size_of(slice c, uint64_t number)
{
    return tikhoplav_capture_frame_size(c.bytes, c.len, number);
}

/* A buffer of its own. */
static slice copy(const uint8_t *bytes, size_t len)
{
    slice s = counting(len, 0);

    if (len > 0)
        memcpy(s.bytes, bytes, len);
    return s;
}

static const uint64_t numbers[] = { 0,          1,          2,          255,           256,
                                    UINT16_MAX, UINT32_MAX, 1ull << 32, 1ull << 63, UINT64_MAX };

enum { NUMBERS = sizeof numbers / sizeof *numbers };

/* All calls refuse so, whatever the number, and leave the capture as it is. */
static void refused(const uint8_t *bytes, size_t len, int64_t answer)
{
    slice c = copy(bytes, len), before = copy(bytes, len);
    size_t i;

    CHECK(frames_of(c) == answer);
    for (i = 0; i < NUMBERS; i++) {
        CHECK(place_of(c, numbers[i]) == answer);
        CHECK(size_of(c, numbers[i]) == answer);
    }
    CHECK(same(c, before));
    free(c.bytes);
    free(before.bytes);
}

/* The capture has so many frames, and is as before. */
static void accepted(const uint8_t *bytes, size_t len, int64_t count)
{
    slice c = copy(bytes, len), before = copy(bytes, len);
    size_t i;

    CHECK(frames_of(c) == count);
    for (i = 0; i < NUMBERS; i++) {
        if (numbers[i] >= (uint64_t)count) {
            CHECK(place_of(c, numbers[i]) == TIKHOPLAV_REFUSED_PAST_LAST_FRAME);
            CHECK(size_of(c, numbers[i]) == TIKHOPLAV_REFUSED_PAST_LAST_FRAME);
        }
    }
    CHECK(place_of(c, (uint64_t)count) == TIKHOPLAV_REFUSED_PAST_LAST_FRAME);
    CHECK(size_of(c, (uint64_t)count) == TIKHOPLAV_REFUSED_PAST_LAST_FRAME);
    CHECK(same(c, before));
    free(c.bytes);
    free(before.bytes);
}

static void nothing(void)
{
    CHECK(frames_of(NOTHING) == TIKHOPLAV_REFUSED_BROKEN_CAPTURE);
    CHECK(tikhoplav_capture_frame(NULL, 0, 0) == TIKHOPLAV_REFUSED_BROKEN_CAPTURE);
    CHECK(tikhoplav_capture_frame_size(NULL, 0, UINT64_MAX) == TIKHOPLAV_REFUSED_BROKEN_CAPTURE);
    CHECK(tikhoplav_capture_frames(SAMPLE, 0) == TIKHOPLAV_REFUSED_BROKEN_CAPTURE);
    refused(SAMPLE, 1, TIKHOPLAV_REFUSED_BROKEN_CAPTURE);
    memset(scratch, 0, 3);
    accepted(scratch, 2, 0);
    refused(scratch, 3, TIKHOPLAV_REFUSED_BROKEN_CAPTURE);
}

/* From memory that can't be written to. */
static void sample(void)
{
    const uint8_t *body = SAMPLE + 10;
    static const uint8_t zeros[TIKHOPLAV_NONCE_SIZE] = { 0 };

    CHECK(tikhoplav_capture_frames(SAMPLE, sizeof SAMPLE) == 1);
    CHECK(tikhoplav_capture_frame(SAMPLE, sizeof SAMPLE, 0) == 10);
    CHECK(tikhoplav_capture_frame_size(SAMPLE, sizeof SAMPLE, 0) == 17);
    CHECK(body[0] == 0 && body[1] == 0 && body[2] == 1 && body[3] == 0x23);
    CHECK(body[TIKHOPLAV_CAPTURE_CODE_AT] == 0);
    CHECK(memcmp(body + TIKHOPLAV_CAPTURE_NONCE_AT, zeros, sizeof zeros) == 0);
    CHECK(body + TIKHOPLAV_CAPTURE_DATA_AT == SAMPLE + sizeof SAMPLE);
    accepted(SAMPLE, sizeof SAMPLE, 1);
}

/* Sound at the length that it has, and at no other. */
static void cut_and_lengthened(const uint8_t *bytes, size_t whole, int64_t count)
{
    slice c = copy(bytes, whole);

    resize(&c, whole + 100);
    while (c.len > 0) {
        resize(&c, c.len - 1);
        if (c.len == whole)
            accepted(c.bytes, c.len, count);
        else
            refused(c.bytes, c.len, TIKHOPLAV_REFUSED_BROKEN_CAPTURE);
    }
    free(c.bytes);
}

/* Each byte in turn has each value. The identifier has 29 bits, and the nonce is any. */
static void sample_with_any_one_byte(void)
{
    size_t place;
    unsigned value;
    int sound;

    for (place = 0; place < sizeof SAMPLE; place++) {
        for (value = 0; value < 256; value++) {
            memcpy(scratch, SAMPLE, sizeof SAMPLE);
            scratch[place] = (uint8_t)value;
            sound = value == SAMPLE[place] || (place == 10 && value < 0x20) || (place > 10 && place != 14);
            if (sound)
                accepted(scratch, sizeof SAMPLE, 1);
            else
                refused(scratch, sizeof SAMPLE, TIKHOPLAV_REFUSED_BROKEN_CAPTURE);
        }
    }
}

/* A frame; a group of a frame, an empty group and a frame; a frame. */
static size_t nested_at(uint8_t *at)
{
    section outer = section_at(at, 3), inner;

    add(&outer, FRAME, frame_at(next_body(&outer), 0x100, 9));
    inner = section_at(next_body(&outer), 3);
    add(&inner, FRAME, frame_at(next_body(&inner), 0x101, 15));
    add(&inner, GROUP, section_at(next_body(&inner), 0).end);
    add(&inner, FRAME, frame_at(next_body(&inner), 0x102, 0));
    add(&outer, GROUP, inner.end);
    add(&outer, FRAME, frame_at(next_body(&outer), 0x103, 1));
    return outer.end;
}

static void nested(void)
{
    static const int64_t places[] = { 26, 81, 164, 181 }, sizes[] = { 29, 81, 17, 18 };
    size_t len = nested_at(scratch);
    slice c = copy(scratch, len);
    uint64_t i;

    CHECK(len == 199);
    accepted(scratch, len, 4);
    for (i = 0; i < 4; i++) {
        CHECK(place_of(c, i) == places[i]);
        CHECK(size_of(c, i) == sizes[i]);
        CHECK(c.bytes[places[i] + 2] == 1 && c.bytes[places[i] + 3] == i);
    }
    free(c.bytes);
}

/* Whatever bit of it is changed: the calls agree, and what they hand out lies in the capture. */
static void nested_with_any_bit(void)
{
    size_t len = nested_at(scratch), bit;
    int64_t count, i, place, size;
    slice c;

    for (bit = 0; bit < 8 * len; bit++) {
        c = copy(scratch, len);
        c.bytes[bit / 8] ^= (uint8_t)(0x80 >> bit % 8);
        count = frames_of(c);
        CHECK(count == 4 || count == TIKHOPLAV_REFUSED_BROKEN_CAPTURE);
        for (i = 0; i < 4; i++) {
            place = place_of(c, (uint64_t)i);
            size = size_of(c, (uint64_t)i);
            CHECK(count == 4 ? place >= 10 && size >= 17 && place + size <= (int64_t)len
                             : place == count && size == count);
        }
        free(c.bytes);
    }
}

/* The same capture at every address of a word. */
static void addresses(void)
{
    size_t len = nested_at(scratch), shift;
    slice all = counting(len + 8, 0), c;

    for (shift = 0; shift < 8; shift++) {
        c.bytes = all.bytes + shift;
        c.len = len;
        memcpy(c.bytes, scratch, len);
        CHECK(frames_of(c) == 4);
        CHECK(place_of(c, 2) == 164);
        CHECK(size_of(c, 1) == 81);
    }
    free(all.bytes);
}

static void depths(void)
{
    unsigned depth;
    size_t len;

    for (depth = 1; depth <= 12; depth++) {
        len = chain_at(scratch, depth);
        if (depth <= TIKHOPLAV_CAPTURE_DEPTH_MAX)
            accepted(scratch, len, 1);
        else
            refused(scratch, len, TIKHOPLAV_REFUSED_TOO_DEEP);
    }
}

/* A group too deep and a frame with too large an identifier: the first in walking order counts. */
static void order_of_bodies(void)
{
    section s;
    unsigned broken_first;

    for (broken_first = 0; broken_first < 2; broken_first++) {
        s = section_at(scratch, 2);
        if (broken_first)
            add(&s, FRAME, frame_at(next_body(&s), 0x20000000, 0));
        add(&s, GROUP, chain_at(next_body(&s), TIKHOPLAV_CAPTURE_DEPTH_MAX));
        if (!broken_first)
            add(&s, FRAME, frame_at(next_body(&s), 0x20000000, 0));
        refused(scratch, s.end,
                broken_first ? TIKHOPLAV_REFUSED_BROKEN_CAPTURE : TIKHOPLAV_REFUSED_TOO_DEEP);
    }
}

/* Every byte of a capture that is too deep: those of the sections above count before the group, its own don't. */
static void order_of_sections(void)
{
    const size_t above = ENTRY_SIZE + COUNT_SIZE, deep = TIKHOPLAV_CAPTURE_DEPTH_MAX * above;
    size_t len = chain_at(scratch, TIKHOPLAV_CAPTURE_DEPTH_MAX + 1), place;
    slice c;

    for (place = 0; place < len; place++) {
        c = copy(scratch, len);
        c.bytes[place] ^= 0x40;
        refused(c.bytes, len, place < deep ? TIKHOPLAV_REFUSED_BROKEN_CAPTURE : TIKHOPLAV_REFUSED_TOO_DEEP);
        free(c.bytes);
    }
    refused(scratch, len - 1, TIKHOPLAV_REFUSED_BROKEN_CAPTURE);
}

/* The entries behind that of a group too deep count before the group. */
static void order_of_entries(void)
{
    section s = section_at(scratch, 2);
    size_t place;

    add(&s, GROUP, chain_at(next_body(&s), TIKHOPLAV_CAPTURE_DEPTH_MAX));
    add(&s, FRAME, frame_at(next_body(&s), 0x123, 0));
    refused(scratch, s.end, TIKHOPLAV_REFUSED_TOO_DEEP);
    for (place = COUNT_SIZE + ENTRY_SIZE; place < COUNT_SIZE + 2 * ENTRY_SIZE; place++) {
        scratch[place] ^= 0x40;
        refused(scratch, s.end, TIKHOPLAV_REFUSED_BROKEN_CAPTURE);
        scratch[place] ^= 0x40;
    }
}

/* A section at this depth, whose one group has a body of a few zeros. Answers the length. */
static size_t zeros_at(uint8_t *at, unsigned depth, size_t zeros)
{
    section s = section_at(at, 1);

    if (depth > 1) {
        add(&s, GROUP, zeros_at(next_body(&s), depth - 1, zeros));
    } else {
        memset(next_body(&s), 0, zeros);
        add(&s, GROUP, zeros);
    }
    return s.end;
}

/* Two zeros are a section, and no body of a group too deep is looked at, not even its length. */
static void short_groups(void)
{
    unsigned depth;
    size_t zeros, len;

    for (depth = 1; depth <= TIKHOPLAV_CAPTURE_DEPTH_MAX; depth++) {
        for (zeros = 0; zeros < 5; zeros++) {
            len = zeros_at(scratch, depth, zeros);
            if (depth == TIKHOPLAV_CAPTURE_DEPTH_MAX)
                refused(scratch, len, TIKHOPLAV_REFUSED_TOO_DEEP);
            else if (zeros == 2)
                accepted(scratch, len, 0);
            else
                refused(scratch, len, TIKHOPLAV_REFUSED_BROKEN_CAPTURE);
        }
    }
}

static void entries(void)
{
    size_t count, len;

    for (count = 253; count <= 258; count++) {
        len = frames_at(scratch, count, 15);
        if (count <= TIKHOPLAV_CAPTURE_ENTRIES_MAX)
            accepted(scratch, len, (int64_t)count);
        else
            refused(scratch, len, TIKHOPLAV_REFUSED_BROKEN_CAPTURE);
    }
}

static void longest(void)
{
    size_t len = longest_at(scratch, 0);
    slice c = copy(scratch, len);

    CHECK(len == TIKHOPLAV_CAPTURE_MAX);
    CHECK(place_of(c, FRAMES_OF_THE_LONGEST - 1) == TIKHOPLAV_CAPTURE_MAX - 41);
    CHECK(size_of(c, FRAMES_OF_THE_LONGEST - 1) == 41);
    accepted(c.bytes, len, FRAMES_OF_THE_LONGEST);
    refused(c.bytes, len - 1, TIKHOPLAV_REFUSED_BROKEN_CAPTURE);
    free(c.bytes);
}

/* In order but for their length. */
static void too_long(void)
{
    uint8_t code;
    size_t len;

    for (code = 1; code <= TIKHOPLAV_LENGTH_CODE_MAX; code++) {
        len = longest_at(scratch, code);
        CHECK((int64_t)len == TIKHOPLAV_CAPTURE_MAX + tikhoplav_coded_length(code));
        refused(scratch, len, TIKHOPLAV_REFUSED_BROKEN_CAPTURE);
    }
}

/* Every frame, once and in order: the bodies follow one another, with nothing but entries and counts between them. */
static void every_frame_of_the_longest(void)
{
    slice c = copy(scratch, longest_at(scratch, 0));
    int64_t i, place, size, end = 0, bodies = 0;

    for (i = 0; i < FRAMES_OF_THE_LONGEST; i++) {
        place = place_of(c, (uint64_t)i);
        size = size_of(c, (uint64_t)i);
        CHECK(place >= end && size >= TIKHOPLAV_CAPTURE_DATA_AT);
        CHECK(c.bytes[place + 3] == i % TIKHOPLAV_CAPTURE_ENTRIES_MAX);
        end = place + size;
        bodies += size;
    }
    CHECK(end == TIKHOPLAV_CAPTURE_MAX);
    CHECK(bodies == TIKHOPLAV_CAPTURE_MAX - COUNT_SIZE * 12 - ENTRY_SIZE * (FRAMES_OF_THE_LONGEST + 11));
    free(c.bytes);
}

enum { MOST_FRAMES = 10 * TIKHOPLAV_CAPTURE_ENTRIES_MAX + 67, MOST_FRAMES_LEN = 65527 };

/* Frames without data, in ten groups of as many as a section has, and the rest beside them: as few bytes as this count
   takes. Answers the length. */
static size_t many_at(uint8_t *at, size_t count)
{
    const size_t beside = count - 10 * TIKHOPLAV_CAPTURE_ENTRIES_MAX;
    section s = section_at(at, 10 + beside);

    while (s.entries < 10)
        add(&s, GROUP, frames_at(next_body(&s), TIKHOPLAV_CAPTURE_ENTRIES_MAX, 0));
    while (s.entries < 10 + beside)
        add(&s, FRAME, frame_at(next_body(&s), (uint32_t)s.entries, 0));
    return s.end;
}

/* As many frames as a capture has at most; with one more it is too long. */
static void most_frames(void)
{
    size_t len = many_at(scratch, MOST_FRAMES);
    slice c = copy(scratch, len);

    CHECK(MOST_FRAMES == 2617 && len == MOST_FRAMES_LEN);
    accepted(c.bytes, len, MOST_FRAMES);
    CHECK(place_of(c, 0) == COUNT_SIZE + ENTRY_SIZE * 77 + COUNT_SIZE + ENTRY_SIZE * TIKHOPLAV_CAPTURE_ENTRIES_MAX);
    CHECK(size_of(c, 0) == TIKHOPLAV_CAPTURE_DATA_AT);
    CHECK(place_of(c, MOST_FRAMES - 1) == MOST_FRAMES_LEN - TIKHOPLAV_CAPTURE_DATA_AT);
    CHECK(size_of(c, MOST_FRAMES - 1) == TIKHOPLAV_CAPTURE_DATA_AT);
    free(c.bytes);
    refused(scratch, many_at(scratch, MOST_FRAMES + 1), TIKHOPLAV_REFUSED_BROKEN_CAPTURE);
}

static const uint8_t key[TIKHOPLAV_KEY_SIZE] = { 1, 2, 3 };

/* The body of a frame that seals so many bytes of zeros; the nonce ends with the same number. */
static size_t sealed_at(uint8_t *at, uint32_t edition, uint8_t message_len)
{
    static const uint8_t zeros[TIKHOPLAV_FRAME_MESSAGE_MAX] = { 0 };
    uint8_t data[TIKHOPLAV_FRAME_MAX], *nonce = at + TIKHOPLAV_CAPTURE_NONCE_AT;
    int64_t n;

    (void)frame_at(at, 0x700u + message_len, 0);
    nonce[TIKHOPLAV_NONCE_SIZE - 1] = message_len;
    n = tikhoplav_frame_make_edition(edition, key, sizeof key, nonce, TIKHOPLAV_NONCE_SIZE, 0x700u + message_len, zeros,
                                     message_len, data, sizeof data);
    CHECK(n > 0);
    at[TIKHOPLAV_CAPTURE_CODE_AT] = (uint8_t)tikhoplav_length_code((size_t)n);
    memcpy(at + TIKHOPLAV_CAPTURE_DATA_AT, data, (size_t)n);
    return TIKHOPLAV_CAPTURE_DATA_AT + (size_t)n;
}

/* What reading a frame by its number answers. */
static int64_t read_frame(slice c, uint32_t edition, uint64_t number)
{
    const uint8_t *body = c.bytes + place_of(c, number);
    size_t size = (size_t)size_of(c, number);
    slice out = lent(TIKHOPLAV_FRAME_MESSAGE_MAX);
    uint32_t identifier = (uint32_t)body[2] << 8 | body[3];
    int64_t answer = tikhoplav_frame_read_edition(edition, key, sizeof key, body + TIKHOPLAV_CAPTURE_NONCE_AT,
                                                  TIKHOPLAV_NONCE_SIZE, identifier, body[TIKHOPLAV_CAPTURE_CODE_AT],
                                                  body + TIKHOPLAV_CAPTURE_DATA_AT, size - TIKHOPLAV_CAPTURE_DATA_AT,
                                                  out.bytes, out.len);

    free(out.bytes);
    return answer;
}

/* A frame of every message length, half of them in a group, opened by their numbers. */
static void sealed_frames(uint32_t edition)
{
    const uint8_t most = TIKHOPLAV_FRAME_MESSAGE_MAX, half = most / 2;
    section outer = section_at(scratch, (size_t)half + 1), inner;
    uint8_t message_len;
    slice c;

    for (message_len = 0; message_len < half; message_len++)
        add(&outer, FRAME, sealed_at(next_body(&outer), edition, message_len));
    inner = section_at(next_body(&outer), (size_t)most - half + 1);
    for (; message_len <= most; message_len++)
        add(&inner, FRAME, sealed_at(next_body(&inner), edition, message_len));
    add(&outer, GROUP, inner.end);
    c = copy(scratch, outer.end);
    CHECK(frames_of(c) == most + 1);
    for (message_len = 0; message_len <= most; message_len++) {
        CHECK(read_frame(c, edition, message_len) == message_len);
        CHECK(read_frame(c, 3 - edition, message_len) == TIKHOPLAV_REFUSED_TAG_DIFFERS);
    }
    free(c.bytes);
}

enum { THREADS = 8, TURNS = 20 };

typedef struct {
    pthread_t thread;
    slice capture;
    int held;
} worker;

/* Goes through a capture that all share. */
static void *work(void *argument)
{
    worker *w = (worker *)argument;
    size_t turn;
    uint64_t i;

    for (turn = 0; turn < TURNS; turn++) {
        w->held &= frames_of(w->capture) == TIKHOPLAV_CAPTURE_ENTRIES_MAX;
        for (i = 0; i < TIKHOPLAV_CAPTURE_ENTRIES_MAX; i++)
            w->held &= place_of(w->capture, i) == (int64_t)(2042 + 17 * i);
    }
    return NULL;
}

static void threads(void)
{
    worker workers[THREADS];
    slice c = copy(scratch, frames_at(scratch, TIKHOPLAV_CAPTURE_ENTRIES_MAX, 0));
    size_t i;

    for (i = 0; i < THREADS; i++) {
        workers[i].capture = c;
        workers[i].held = 1;
        CHECK(pthread_create(&workers[i].thread, NULL, work, &workers[i]) == 0);
    }
    for (i = 0; i < THREADS; i++) {
        CHECK(pthread_join(workers[i].thread, NULL) == 0);
        CHECK(workers[i].held);
    }
    free(c.bytes);
}

int main(void)
{
    CHECK(TIKHOPLAV_CAPTURE_MAX == 65536 && TIKHOPLAV_CAPTURE_DEPTH_MAX == 6 && TIKHOPLAV_CAPTURE_ENTRIES_MAX == 255);
    CHECK(TIKHOPLAV_CAPTURE_CODE_AT == 4 && TIKHOPLAV_CAPTURE_NONCE_AT == 5);
    CHECK(TIKHOPLAV_CAPTURE_DATA_AT == TIKHOPLAV_CAPTURE_NONCE_AT + TIKHOPLAV_NONCE_SIZE);
    nothing();
    sample();
    cut_and_lengthened(SAMPLE, sizeof SAMPLE, 1);
    sample_with_any_one_byte();
    nested();
    nested_with_any_bit();
    cut_and_lengthened(scratch, nested_at(scratch), 4);
    cut_and_lengthened(scratch, chain_at(scratch, TIKHOPLAV_CAPTURE_DEPTH_MAX), 1);
    addresses();
    depths();
    order_of_bodies();
    order_of_sections();
    order_of_entries();
    short_groups();
    entries();
    longest();
    too_long();
    every_frame_of_the_longest();
    most_frames();
    sealed_frames(TIKHOPLAV_EDITION_1);
    sealed_frames(TIKHOPLAV_EDITION_2);
    threads();
    printf("%u checks hold\n", checks);
    return 0;
}
