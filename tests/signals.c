/* The call on signals as firmware makes it: through the header alone, on buffers of exactly the stated sizes. Compiles as
   C and as C++. */
#include <float.h>
#include <pthread.h>

#include "checks.h"

/* The bits that stand where those of the value go. */
#define LENT 0x5a5b5c5d5e5f6061ull

#define POSITIVE_INFINITY 0x7ff0000000000000ull
#define NEGATIVE_INFINITY 0xfff0000000000000ull
#define MINUS_ZERO 0x8000000000000000ull

/* Of what the value of a signal is made, and its limits. */
typedef struct {
    double scale, offset, low, high;
} numbers;

static const numbers PLAIN = { 1.0, 0.0, -DBL_MAX, DBL_MAX };

static uint64_t bits_of(double value)
{
    uint64_t bits;

    memcpy(&bits, &value, sizeof bits);
    return bits;
}

static double double_of(uint64_t bits)
{
    double value;

    memcpy(&value, &bits, sizeof value);
    return value;
}

/* The next double above a positive one, and the one below it. */
static double above(double value)
{
    return double_of(bits_of(value) + 1);
}

static double below(double value)
{
    return double_of(bits_of(value) - 1);
}

static int64_t call(slice m, uint32_t start, uint32_t width, uint32_t is_signed, numbers n, uint64_t *value_bits)
{
    return tikhoplav_signal(m.bytes, m.len, start, width, is_signed, n.scale, n.offset, n.low, n.high, value_bits);
}

/* The call answers so, with these bits, and leaves the message as it is. The number that it writes to has a buffer of
   its own. */
static void gives_bits(slice m, uint32_t start, uint32_t width, uint32_t is_signed, numbers n, int64_t answer,
                       uint64_t bits)
{
    uint64_t *value_bits = (uint64_t *)malloc(sizeof *value_bits);
    slice before = NOTHING;

    CHECK(value_bits != NULL);
    resize(&before, m.len);
    if (m.len > 0)
        memcpy(before.bytes, m.bytes, m.len);
    *value_bits = LENT;
    CHECK(call(m, start, width, is_signed, n, value_bits) == answer);
    CHECK(*value_bits == bits);
    CHECK(same(m, before));
    free(before.bytes);
    free(value_bits);
}

static void gives(slice m, uint32_t start, uint32_t width, uint32_t is_signed, numbers n, int64_t answer, double value)
{
    gives_bits(m, start, width, is_signed, n, answer, bits_of(value));
}

/* With a refusal the bits are as they were lent. */
static void refused(slice m, uint32_t start, uint32_t width, numbers n, int64_t answer)
{
    gives_bits(m, start, width, 0, n, answer, LENT);
    gives_bits(m, start, width, 1, n, answer, LENT);
}

/* A message of one byte, in a buffer of its own. */
static slice byte(uint8_t value)
{
    return counting(1, value);
}

static void sample(void)
{
    static const numbers n = { 0.5, 10.0, 0.0, 10.0 };
    slice m = byte(0xff);

    gives(m, 0, 8, 1, n, TIKHOPLAV_SIGNAL_WITHIN, 9.5);
    gives(m, 0, 8, 0, n, TIKHOPLAV_SIGNAL_ABOVE, 137.5);
    CHECK(bits_of(9.5) == 0x4023000000000000ull);
    free(m.bytes);
}

/* The ends of each width, alone in the message and with other bits around them. */
static void ends_of_raw(void)
{
    uint32_t width, start;
    slice m;
    double half, whole;

    for (width = 1; width <= TIKHOPLAV_SIGNAL_WIDTH_MAX; width++) {
        whole = (double)(1ull << width);
        half = whole / 2;
        for (start = 0; start < 16; start++) {
            m = counting((start + width + 7) / 8, 0);
            memset(m.bytes, 0xff, m.len);
            gives(m, start, width, 0, PLAIN, TIKHOPLAV_SIGNAL_WITHIN, whole - 1);
            gives(m, start, width, 1, PLAIN, TIKHOPLAV_SIGNAL_WITHIN, -1.0);
            m.bytes[start / 8] ^= (uint8_t)(0x80 >> start % 8);
            gives(m, start, width, 0, PLAIN, TIKHOPLAV_SIGNAL_WITHIN, half - 1);
            gives(m, start, width, 1, PLAIN, TIKHOPLAV_SIGNAL_WITHIN, half - 1);
            memset(m.bytes, 0, m.len);
            gives(m, start, width, 1, PLAIN, TIKHOPLAV_SIGNAL_WITHIN, 0.0);
            m.bytes[start / 8] |= (uint8_t)(0x80 >> start % 8);
            gives(m, start, width, 0, PLAIN, TIKHOPLAV_SIGNAL_WITHIN, half);
            gives(m, start, width, 1, PLAIN, TIKHOPLAV_SIGNAL_WITHIN, -half);
            free(m.bytes);
        }
    }
}

/* Every number but 0 is a sign. */
static void signs(void)
{
    slice m = byte(0x80);
    uint32_t bit;

    gives(m, 0, 8, 0, PLAIN, TIKHOPLAV_SIGNAL_WITHIN, 128.0);
    for (bit = 0; bit < 32; bit++)
        gives(m, 0, 8, 1u << bit, PLAIN, TIKHOPLAV_SIGNAL_WITHIN, -128.0);
    gives(m, 0, 8, UINT32_MAX, PLAIN, TIKHOPLAV_SIGNAL_WITHIN, -128.0);
    free(m.bytes);
}

/* Every place in and behind messages of at most nine bytes: the last bit of the message is the last that may be read. */
static void places(void)
{
    size_t len;
    uint32_t start, width;
    slice m;

    for (len = 0; len <= 9; len++) {
        m = counting(len, 0x5a);
        for (start = 0; start <= 8 * len + 1; start++) {
            for (width = 0; width <= TIKHOPLAV_SIGNAL_WIDTH_MAX + 1; width++) {
                if (width == 0 || width > TIKHOPLAV_SIGNAL_WIDTH_MAX || start + width > 8 * len) {
                    refused(m, start, width, PLAIN, TIKHOPLAV_REFUSED_SIGNAL_PLACE);
                } else {
                    uint64_t bits = LENT;

                    CHECK(call(m, start, width, 0, PLAIN, &bits) == TIKHOPLAV_SIGNAL_WITHIN);
                    CHECK(double_of(bits) >= 0.0 && double_of(bits) < (double)(1ull << width));
                }
            }
        }
        free(m.bytes);
    }
}

/* Start and width add up to more than 32 bits hold. */
static void far_places(void)
{
    static const uint32_t far[] = { 1u << 31, UINT32_MAX - 63, UINT32_MAX - 32, UINT32_MAX - 31, UINT32_MAX - 7,
                                    UINT32_MAX - 1, UINT32_MAX };
    slice m = counting(8, 0);
    uint32_t width;
    size_t i;

    for (i = 0; i < sizeof far / sizeof *far; i++) {
        for (width = 0; width <= 64; width++)
            refused(m, far[i], width, PLAIN, TIKHOPLAV_REFUSED_SIGNAL_PLACE);
        for (width = 0; width <= 64; width++)
            refused(m, width, far[i], PLAIN, TIKHOPLAV_REFUSED_SIGNAL_PLACE);
        refused(m, far[i], far[i], PLAIN, TIKHOPLAV_REFUSED_SIGNAL_PLACE);
        refused(NOTHING, far[i], 0u - far[i], PLAIN, TIKHOPLAV_REFUSED_SIGNAL_PLACE);
    }
    free(m.bytes);
}

static void nothing(void)
{
    static const uint8_t unread[1] = { 0xff };
    uint64_t bits = LENT;

    refused(NOTHING, 0, 1, PLAIN, TIKHOPLAV_REFUSED_SIGNAL_PLACE);
    refused(NOTHING, 0, 0, PLAIN, TIKHOPLAV_REFUSED_SIGNAL_PLACE);
    CHECK(tikhoplav_signal(NULL, 0, 0, 8, 0, 1.0, 0.0, 0.0, 1.0, &bits) == TIKHOPLAV_REFUSED_SIGNAL_PLACE);
    CHECK(tikhoplav_signal(unread, 0, 0, 8, 0, 1.0, 0.0, 0.0, 1.0, &bits) == TIKHOPLAV_REFUSED_SIGNAL_PLACE);
    CHECK(bits == LENT);
    CHECK(tikhoplav_signal(unread, 1, 0, 8, 0, 1.0, 0.0, 0.0, 1.0, &bits) == TIKHOPLAV_SIGNAL_ABOVE);
    CHECK(bits == bits_of(255.0));
}

/* 2400.5 at both limits, and an ulp inside and outside each. */
static void limits(void)
{
    const double value = 2400.5;
    slice m = counting(2, 0);
    numbers n = { 1.0, 0.5, value, value };

    m.bytes[0] = 0x09;
    m.bytes[1] = 0x60;
    gives(m, 0, 16, 0, n, TIKHOPLAV_SIGNAL_WITHIN, value);
    n.low = below(value);
    n.high = above(value);
    gives(m, 0, 16, 0, n, TIKHOPLAV_SIGNAL_WITHIN, value);
    n.low = above(value);
    gives(m, 0, 16, 0, n, TIKHOPLAV_SIGNAL_BELOW, value);
    n.high = DBL_MAX;
    gives(m, 0, 16, 0, n, TIKHOPLAV_SIGNAL_BELOW, value);
    n.low = n.high = below(value);
    gives(m, 0, 16, 0, n, TIKHOPLAV_SIGNAL_ABOVE, value);
    n.low = -DBL_MAX;
    gives(m, 0, 16, 0, n, TIKHOPLAV_SIGNAL_ABOVE, value);
    free(m.bytes);
}

static void zeros(void)
{
    static const numbers positive = { 1.0, -0.0, -0.0, -0.0 }, negative = { -1.0, -0.0, 0.0, 0.0 };
    slice m = byte(0);

    gives_bits(m, 0, 8, 0, positive, TIKHOPLAV_SIGNAL_WITHIN, 0);
    gives_bits(m, 0, 8, 0, negative, TIKHOPLAV_SIGNAL_WITHIN, MINUS_ZERO);
    free(m.bytes);
}

/* The product is rounded before the offset is added, ties go to the even one, and nothing small is lost. */
static void roundings(void)
{
    static const double least = 4.9406564584124654e-324;
    numbers n = { 0.1, -0.3, -1.0, 1.0 };
    slice m = byte(3);

    gives_bits(m, 0, 8, 0, n, TIKHOPLAV_SIGNAL_WITHIN, 0x3c90000000000000ull);
    n.offset = 0.0;
    n.high = DBL_MAX;
    n.scale = 3002399751580331.0; /* times 3 is 2^53 + 1 */
    gives(m, 0, 8, 0, n, TIKHOPLAV_SIGNAL_WITHIN, 9007199254740992.0);
    n.scale = 3002399751580333.0; /* times 3 is 2^53 + 7 */
    gives(m, 0, 8, 0, n, TIKHOPLAV_SIGNAL_WITHIN, 9007199254741000.0);
    n.scale = least;
    gives_bits(m, 0, 8, 0, n, TIKHOPLAV_SIGNAL_WITHIN, 3);
    n.offset = -4 * least;
    n.low = n.high = -least;
    gives_bits(m, 0, 8, 0, n, TIKHOPLAV_SIGNAL_WITHIN, MINUS_ZERO + 1);
    free(m.bytes);
}

/* The largest double and what is beyond it; no offset brings an infinite product back. */
static void overflow(void)
{
    numbers n = { DBL_MAX / 2, 0.0, 0.0, DBL_MAX };
    slice m = byte(2), minus = byte(0xfe);

    gives(m, 0, 8, 1, n, TIKHOPLAV_SIGNAL_WITHIN, DBL_MAX);
    gives(minus, 0, 8, 1, n, TIKHOPLAV_SIGNAL_BELOW, -DBL_MAX);
    n.scale = above(n.scale);
    gives_bits(m, 0, 8, 1, n, TIKHOPLAV_SIGNAL_NOT_FINITE, POSITIVE_INFINITY);
    gives_bits(minus, 0, 8, 1, n, TIKHOPLAV_SIGNAL_NOT_FINITE, NEGATIVE_INFINITY);
    n.offset = -DBL_MAX;
    gives_bits(m, 0, 8, 1, n, TIKHOPLAV_SIGNAL_NOT_FINITE, POSITIVE_INFINITY);
    n.scale = DBL_MAX / 2;
    gives_bits(minus, 0, 8, 1, n, TIKHOPLAV_SIGNAL_NOT_FINITE, NEGATIVE_INFINITY);
    gives(m, 0, 8, 1, n, TIKHOPLAV_SIGNAL_WITHIN, 0.0);
    free(m.bytes);
    free(minus.bytes);
}

/* Each of the four numbers in turn. */
static void not_finite(void)
{
    static const uint64_t wrong[] = { POSITIVE_INFINITY, NEGATIVE_INFINITY, 0x7ff8000000000000ull,
                                      0x7ff0000000000001ull, 0xffffffffffffffffull };
    slice m = byte(0);
    size_t i, j;
    numbers n;

    for (i = 0; i < sizeof wrong / sizeof *wrong; i++) {
        for (j = 0; j < 4; j++) {
            n = PLAIN;
            *(j == 0 ? &n.scale : j == 1 ? &n.offset : j == 2 ? &n.low : &n.high) = double_of(wrong[i]);
            refused(m, 0, 8, n, TIKHOPLAV_REFUSED_SIGNAL_NUMBERS);
            refused(m, 1, 8, n, TIKHOPLAV_REFUSED_SIGNAL_PLACE);
            refused(m, 0, 0, n, TIKHOPLAV_REFUSED_SIGNAL_PLACE);
            refused(NOTHING, 0, 33, n, TIKHOPLAV_REFUSED_SIGNAL_PLACE);
        }
    }
    free(m.bytes);
}

static void crossed_limits(void)
{
    numbers n = { 1.0, 0.0, 1.0, 1.0 };
    slice m = byte(1);

    gives(m, 0, 8, 0, n, TIKHOPLAV_SIGNAL_WITHIN, 1.0);
    n.high = below(n.low);
    refused(m, 0, 8, n, TIKHOPLAV_REFUSED_SIGNAL_NUMBERS);
    refused(m, 1, 8, n, TIKHOPLAV_REFUSED_SIGNAL_PLACE);
    n.high = -1.0;
    refused(m, 0, 8, n, TIKHOPLAV_REFUSED_SIGNAL_NUMBERS);
    n.low = 0.0;
    n.high = -0.0;
    gives(m, 0, 8, 0, n, TIKHOPLAV_SIGNAL_ABOVE, 1.0);
    free(m.bytes);
}

/* The same message at every address of a word. */
static void addresses(void)
{
    slice all = counting(16, 0), m;
    size_t shift;

    m.len = 8;
    for (shift = 0; shift < 8; shift++) {
        m.bytes = all.bytes + shift;
        memset(all.bytes, 0xff, all.len);
        memset(m.bytes, 0x01, m.len);
        gives(m, 7, 32, 0, PLAIN, TIKHOPLAV_SIGNAL_WITHIN, 2155905152.0);
        gives(m, 32, 32, 0, PLAIN, TIKHOPLAV_SIGNAL_WITHIN, 16843009.0);
    }
    free(all.bytes);
}

/* A frame is made, read and decoded. */
static void of_a_frame(void)
{
    static const uint8_t key[TIKHOPLAV_KEY_SIZE] = { 1 }, nonce[TIKHOPLAV_NONCE_SIZE] = { 2 };
    static const numbers speed = { 0.25, 0.0, 0.0, 8000.0 }, coolant = { 1.0, -40.0, -40.0, 120.0 };
    slice message = counting(TIKHOPLAV_FRAME_MESSAGE_MAX, 0x25), data = lent(TIKHOPLAV_FRAME_MAX);
    slice opened = lent(TIKHOPLAV_FRAME_MESSAGE_MAX);
    const uint32_t last = 8 * (TIKHOPLAV_FRAME_MESSAGE_MAX - 1);

    CHECK(tikhoplav_frame_make(key, sizeof key, nonce, sizeof nonce, 0x7e8, message.bytes, message.len, data.bytes,
                               data.len) == TIKHOPLAV_FRAME_MAX);
    CHECK(tikhoplav_frame_read(key, sizeof key, nonce, sizeof nonce, 0x7e8, TIKHOPLAV_LENGTH_CODE_MAX, data.bytes,
                               data.len, opened.bytes, opened.len) == TIKHOPLAV_FRAME_MESSAGE_MAX);
    gives(opened, 0, 16, 0, speed, TIKHOPLAV_SIGNAL_WITHIN, (0x25 * 256 + 0x26) * 0.25);
    gives(opened, last, 8, 0, coolant, TIKHOPLAV_SIGNAL_WITHIN, 0x25 + 54 - 40.0);
    refused(opened, last + 1, 8, coolant, TIKHOPLAV_REFUSED_SIGNAL_PLACE);
    free(message.bytes);
    free(data.bytes);
    free(opened.bytes);
}

enum { THREADS = 8, TURNS = 2000 };

typedef struct {
    pthread_t thread;
    slice message;
    uint32_t start;
    int held;
} worker;

/* Signals of a message that all share. */
static void *work(void *argument)
{
    worker *w = (worker *)argument;
    uint64_t bits;
    int turn;

    for (turn = 0; turn < TURNS; turn++) {
        bits = LENT;
        w->held &= call(w->message, w->start, 8, 1, PLAIN, &bits) == TIKHOPLAV_SIGNAL_WITHIN;
        w->held &= bits == bits_of((double)w->start / 8 - 128);
        w->held &= call(w->message, w->start, 33, 1, PLAIN, &bits) == TIKHOPLAV_REFUSED_SIGNAL_PLACE;
    }
    return NULL;
}

static void threads(void)
{
    worker workers[THREADS];
    slice m = counting(THREADS, 0x80);
    uint32_t i;

    for (i = 0; i < THREADS; i++) {
        workers[i].message = m;
        workers[i].start = 8 * i;
        workers[i].held = 1;
        CHECK(pthread_create(&workers[i].thread, NULL, work, &workers[i]) == 0);
    }
    for (i = 0; i < THREADS; i++) {
        CHECK(pthread_join(workers[i].thread, NULL) == 0);
        CHECK(workers[i].held);
    }
    free(m.bytes);
}

int main(void)
{
    CHECK(TIKHOPLAV_SIGNAL_WIDTH_MAX == 32 && TIKHOPLAV_SIGNAL_BELOW == 1 && TIKHOPLAV_SIGNAL_WITHIN == 2);
    CHECK(TIKHOPLAV_SIGNAL_ABOVE == 3 && TIKHOPLAV_SIGNAL_NOT_FINITE == 4);
    CHECK(TIKHOPLAV_REFUSED_SIGNAL_PLACE == -21 && TIKHOPLAV_REFUSED_SIGNAL_NUMBERS == -22);
    sample();
    ends_of_raw();
    signs();
    places();
    far_places();
    nothing();
    limits();
    zeros();
    roundings();
    overflow();
    not_finite();
    crossed_limits();
    addresses();
    of_a_frame();
    threads();
    printf("%u checks hold\n", checks);
    return 0;
}
