/* The calls of Grain-128a as firmware makes them: through the header alone, on buffers of exactly the stated sizes.
   Compiles as C and as C++. */
#include <pthread.h>

#include "checks.h"

/* What a call is given. Crypt is not told tag_bits. */
typedef struct {
    slice key, nonce;
    uint32_t tag_bits;
    slice data, out;
} job;

typedef int64_t call(const job *);

static int64_t seal(const job *j)
{
    return tikhoplav_grain128a_seal(j->key.bytes, j->key.len, j->nonce.bytes, j->nonce.len, j->tag_bits, j->data.bytes,
                                    j->data.len, j->out.bytes, j->out.len);
}

static int64_t open_sealed(const job *j)
{
    return tikhoplav_grain128a_open(j->key.bytes, j->key.len, j->nonce.bytes, j->nonce.len, j->tag_bits, j->data.bytes,
                                    j->data.len, j->out.bytes, j->out.len);
}

static int64_t crypt_message(const job *j)
{
    return tikhoplav_grain128a_crypt(j->key.bytes, j->key.len, j->nonce.bytes, j->nonce.len, j->data.bytes,
                                     j->data.len, j->out.bytes, j->out.len);
}

static size_t tag_size(uint32_t tag_bits)
{
    return TIKHOPLAV_GRAIN128A_TAG_SIZE(tag_bits);
}

/* The key and, but for bit 0, the nonce of the second and the fourth column of the paper's table 3. */
static const uint8_t published_key[] = { 0x01, 0x23, 0x45, 0x67, 0x89, 0xab, 0xcd, 0xef,
                                         0x12, 0x34, 0x56, 0x78, 0x9a, 0xbc, 0xde, 0xf0 };
static const uint8_t published_nonce[] = { 0x01, 0x23, 0x45, 0x67, 0x89, 0xab, 0xcd, 0xef, 0x12, 0x34, 0x56, 0x78 };

static slice copy(const uint8_t *bytes, size_t len)
{
    slice s = counting(len, 0);

    memcpy(s.bytes, bytes, len);
    return s;
}

/* The job on a message without authentication, with exactly the room that it needs. */
static job crypting(size_t message_len)
{
    job j;

    j.key = copy(published_key, sizeof published_key);
    j.nonce = copy(published_nonce, sizeof published_nonce);
    j.tag_bits = 0;
    j.data = counting(message_len, 7);
    j.out = lent(message_len);
    return j;
}

static job sealing(uint32_t tag_bits, size_t message_len)
{
    job j = crypting(message_len);

    j.nonce.bytes[0] |= 0x80;
    j.tag_bits = tag_bits;
    free(j.out.bytes);
    j.out = lent(message_len + tag_size(tag_bits));
    return j;
}

/* The opening of what a sealing gives. */
static job opening(uint32_t tag_bits, size_t message_len)
{
    job j = sealing(tag_bits, message_len);

    CHECK(seal(&j) == (int64_t)j.out.len);
    free(j.data.bytes);
    j.data = j.out;
    j.out = lent(message_len);
    return j;
}

static void release(job *j)
{
    free(j->key.bytes);
    free(j->nonce.bytes);
    free(j->data.bytes);
    free(j->out.bytes);
}

/* The call refuses, and every byte of the output is as it was. */
static void refused(call *f, const job *j, int64_t answer)
{
    slice before = counting(j->out.len, 0);

    if (before.len > 0)
        memcpy(before.bytes, j->out.bytes, before.len);
    CHECK(f(j) == answer);
    CHECK(same(before, j->out));
    free(before.bytes);
}

/* Zeros become the keystream: without authentication, the pre-output of the second column. */
static void published_pre_output(void)
{
    static const uint8_t expected[] = { 0xf8, 0x87, 0x20, 0xc1, 0x3f, 0x46, 0xe6, 0xa4, 0x3c, 0x07,
                                        0xee, 0xed, 0x89, 0x16, 0x1a, 0x4d, 0xd7, 0x3b, 0xd6, 0xb8,
                                        0xbe, 0x8b, 0x6b, 0x11, 0x68, 0x79, 0x71, 0x4e, 0xbb, 0x63,
                                        0x0e, 0x0a, 0x4c, 0x12, 0xf0, 0x39, 0x94, 0x12, 0x98, 0x2c };
    job j = crypting(sizeof expected);

    memset(j.data.bytes, 0, j.data.len);
    CHECK(crypt_message(&j) == (int64_t)sizeof expected);
    CHECK(memcmp(j.out.bytes, expected, sizeof expected) == 0);
    release(&j);
}

/* With authentication, the keystream of the fourth column. */
static void published_keystream(void)
{
    static const uint8_t expected[] = { 0xa4, 0x9d, 0x97, 0x1c, 0x97, 0x6b, 0xf5, 0x96,
                                        0xb4, 0x5f, 0x93, 0xe2, 0x42, 0xde, 0xd8, 0xc1 };
    job j = sealing(TIKHOPLAV_GRAIN128A_TAG_BITS_MAX, sizeof expected);

    memset(j.data.bytes, 0, j.data.len);
    CHECK(seal(&j) == (int64_t)(sizeof expected + 4));
    CHECK(memcmp(j.out.bytes, expected, sizeof expected) == 0);
    release(&j);
}

/* The tag of the empty message, of every length: the last bits of the one of 32, and zeros behind them. */
static void published_tags(void)
{
    uint32_t tag_bits, cut;
    size_t i;
    job j;

    for (tag_bits = 1; tag_bits <= TIKHOPLAV_GRAIN128A_TAG_BITS_MAX; tag_bits++) {
        cut = (uint32_t)0xd2d1bda8 << (32 - tag_bits);
        j = sealing(tag_bits, 0);
        CHECK(seal(&j) == (int64_t)tag_size(tag_bits));
        for (i = 0; i < tag_size(tag_bits); i++)
            CHECK(j.out.bytes[i] == (uint8_t)(cut >> (24 - 8 * i)));
        release(&j);
    }
}

static void round_trip(uint32_t tag_bits, size_t message_len)
{
    slice message = counting(message_len, 7);
    job j = opening(tag_bits, message_len);

    CHECK(open_sealed(&j) == (int64_t)message_len);
    CHECK(same(j.out, message));
    release(&j);
    free(message.bytes);
}

/* What crypt gives, given to it again. */
static void twice(size_t message_len)
{
    slice message = counting(message_len, 7);
    job j = crypting(message_len);

    CHECK(crypt_message(&j) == (int64_t)message_len);
    free(j.data.bytes);
    j.data = j.out;
    j.out = lent(message_len);
    CHECK(crypt_message(&j) == (int64_t)message_len);
    CHECK(same(j.out, message));
    release(&j);
    free(message.bytes);
}

/* The call writes `count` bytes to an output of 100, and leaves the others as they were. */
static void leaves_the_rest(call *f, const job *j, size_t count)
{
    slice before = lent(100);
    job roomy = *j;

    roomy.out = lent(100);
    CHECK(f(&roomy) == (int64_t)count);
    CHECK(memcmp(roomy.out.bytes + count, before.bytes + count, 100 - count) == 0);
    free(roomy.out.bytes);
    free(before.bytes);
}

static void longer_outputs(void)
{
    job s = sealing(13, 20), o = opening(13, 20), c = crypting(20);

    leaves_the_rest(seal, &s, 22);
    leaves_the_rest(open_sealed, &o, 20);
    leaves_the_rest(crypt_message, &c, 20);
    release(&s);
    release(&o);
    release(&c);
}

/* The refusals of key and nonce, on a job of the call that may be wrong further down. Each fault is repaired before the
   next. */
static void keys_and_nonces(call *f, job *j)
{
    uint8_t zeros[TIKHOPLAV_KEY_SIZE] = { 0 };
    slice key;

    resize(&j->key, TIKHOPLAV_KEY_SIZE - 1);
    resize(&j->nonce, TIKHOPLAV_NONCE_SIZE + 1);
    refused(f, j, TIKHOPLAV_REFUSED_KEY_SIZE);
    resize(&j->key, TIKHOPLAV_KEY_SIZE + 1);
    refused(f, j, TIKHOPLAV_REFUSED_KEY_SIZE);
    resize(&j->key, TIKHOPLAV_KEY_SIZE);
    j->key.bytes[TIKHOPLAV_KEY_SIZE - 1] = 0xf0;
    refused(f, j, TIKHOPLAV_REFUSED_NONCE_SIZE);
    resize(&j->nonce, TIKHOPLAV_NONCE_SIZE - 1);
    refused(f, j, TIKHOPLAV_REFUSED_NONCE_SIZE);
    resize(&j->nonce, TIKHOPLAV_NONCE_SIZE);
    j->nonce.bytes[TIKHOPLAV_NONCE_SIZE - 1] = 0x78;
    j->nonce.bytes[0] ^= 0x80;
    key = j->key;
    j->key.bytes = zeros;
    refused(f, j, TIKHOPLAV_REFUSED_BLANK_KEY);
    j->key = key;
    refused(f, j, TIKHOPLAV_REFUSED_NONCE_MODE);
    j->nonce.bytes[0] ^= 0x80;
}

/* Keys with one bit are not blank. */
static void keys_with_one_bit(call *f, const job *legal)
{
    uint8_t key[TIKHOPLAV_KEY_SIZE] = { 0 };
    unsigned bit;
    job j = *legal;

    j.key.bytes = key;
    j.out.len = 0;
    for (bit = 0; bit < 8 * TIKHOPLAV_KEY_SIZE; bit++) {
        key[bit / 8] = (uint8_t)(0x80 >> bit % 8);
        refused(f, &j, TIKHOPLAV_REFUSED_OUTPUT_TOO_SHORT);
        key[bit / 8] = 0;
    }
}

/* The number of the tag's bits, on such a job. */
static void tag_lengths(call *f, job *j)
{
    static const uint32_t numbers[] = { 0,   33,    34,         40,         64,         256,
                                        257, 65568, 0x7fffffff, 0x80000000, 0xfffffff9, 0xffffffff };
    uint32_t legal = j->tag_bits;
    size_t i;

    for (i = 0; i < sizeof numbers / sizeof *numbers; i++) {
        j->tag_bits = numbers[i];
        refused(f, j, TIKHOPLAV_REFUSED_TAG_LENGTH);
        keys_and_nonces(f, j);
    }
    j->tag_bits = legal;
}

static void refusals_of_sealing(void)
{
    job j = sealing(9, 10);

    keys_and_nonces(seal, &j);
    keys_with_one_bit(seal, &j);
    tag_lengths(seal, &j);
    CHECK(seal(&j) == 12);
    resize(&j.out, 11);
    refused(seal, &j, TIKHOPLAV_REFUSED_OUTPUT_TOO_SHORT);
    keys_and_nonces(seal, &j);
    tag_lengths(seal, &j);
    resize(&j.data, TIKHOPLAV_MESSAGE_MAX + 1);
    refused(seal, &j, TIKHOPLAV_REFUSED_MESSAGE_TOO_LONG);
    keys_and_nonces(seal, &j);
    tag_lengths(seal, &j);
    release(&j);
}

static void refusals_of_opening(void)
{
    job j = opening(9, 10);

    CHECK(open_sealed(&j) == 10);
    keys_with_one_bit(open_sealed, &j);
    j.data.bytes[11] ^= 0x80;
    refused(open_sealed, &j, TIKHOPLAV_REFUSED_TAG_DIFFERS);
    resize(&j.out, 9);
    refused(open_sealed, &j, TIKHOPLAV_REFUSED_OUTPUT_TOO_SHORT);
    keys_and_nonces(open_sealed, &j);
    tag_lengths(open_sealed, &j);
    resize(&j.data, 1);
    refused(open_sealed, &j, TIKHOPLAV_REFUSED_SEALED_TOO_SHORT);
    keys_and_nonces(open_sealed, &j);
    tag_lengths(open_sealed, &j);
    resize(&j.data, TIKHOPLAV_MESSAGE_MAX + 3);
    refused(open_sealed, &j, TIKHOPLAV_REFUSED_MESSAGE_TOO_LONG);
    keys_and_nonces(open_sealed, &j);
    tag_lengths(open_sealed, &j);
    resize(&j.data, TIKHOPLAV_MESSAGE_MAX + 2);
    refused(open_sealed, &j, TIKHOPLAV_REFUSED_OUTPUT_TOO_SHORT);
    release(&j);
}

static void refusals_of_crypt(void)
{
    job j = crypting(10);

    keys_and_nonces(crypt_message, &j);
    keys_with_one_bit(crypt_message, &j);
    CHECK(crypt_message(&j) == 10);
    resize(&j.out, 9);
    refused(crypt_message, &j, TIKHOPLAV_REFUSED_OUTPUT_TOO_SHORT);
    keys_and_nonces(crypt_message, &j);
    resize(&j.data, TIKHOPLAV_MESSAGE_MAX + 1);
    refused(crypt_message, &j, TIKHOPLAV_REFUSED_MESSAGE_TOO_LONG);
    keys_and_nonces(crypt_message, &j);
    release(&j);
}

/* Each bit of the tag changed, and each bit past its length set. */
static void damaged_tags(uint32_t tag_bits)
{
    size_t bit, first = 8 * 5;
    job j = opening(tag_bits, 5);

    for (bit = first; bit < 8 * j.data.len; bit++) {
        j.data.bytes[bit / 8] ^= (uint8_t)(0x80 >> bit % 8);
        refused(open_sealed, &j, TIKHOPLAV_REFUSED_TAG_DIFFERS);
        j.data.bytes[bit / 8] ^= (uint8_t)(0x80 >> bit % 8);
    }
    CHECK(open_sealed(&j) == 5);
    release(&j);
}

static void opening_short_inputs(uint32_t tag_bits)
{
    size_t len;
    job j = sealing(tag_bits, 0);

    for (len = 0; len < tag_size(tag_bits); len++) {
        resize(&j.data, len);
        refused(open_sealed, &j, TIKHOPLAV_REFUSED_SEALED_TOO_SHORT);
    }
    release(&j);
}

static void null_pointers_of_length_zero(void)
{
    job s = sealing(32, 0), c = crypting(0), none;

    free(s.data.bytes);
    s.data = NOTHING;
    CHECK(seal(&s) == 4);
    s.data = s.out;
    s.out = NOTHING;
    CHECK(open_sealed(&s) == 0);
    CHECK(seal(&s) == TIKHOPLAV_REFUSED_OUTPUT_TOO_SHORT);
    none = s;
    none.data = NOTHING;
    CHECK(open_sealed(&none) == TIKHOPLAV_REFUSED_SEALED_TOO_SHORT);
    none.nonce = NOTHING;
    CHECK(open_sealed(&none) == TIKHOPLAV_REFUSED_NONCE_SIZE);
    none.key = NOTHING;
    CHECK(seal(&none) == TIKHOPLAV_REFUSED_KEY_SIZE);
    CHECK(crypt_message(&none) == TIKHOPLAV_REFUSED_KEY_SIZE);
    free(c.data.bytes);
    free(c.out.bytes);
    c.data = c.out = NOTHING;
    CHECK(crypt_message(&c) == 0);
    release(&s);
    release(&c);
}

/* Inputs that overlap, at an address that is not even: key, nonce and message are parts of one buffer. */
static void overlapping_inputs(void)
{
    slice all = counting(1 + 40, 0x80);
    uint8_t sealed[40 + 4], opened[40], expected[40];
    job j, apart;

    j.key.bytes = all.bytes + 1;
    j.key.len = TIKHOPLAV_KEY_SIZE;
    j.nonce.bytes = all.bytes + 3;
    j.nonce.len = TIKHOPLAV_NONCE_SIZE;
    j.tag_bits = 32;
    j.data.bytes = all.bytes + 1;
    j.data.len = 40;
    j.out.bytes = sealed;
    j.out.len = sizeof sealed;
    CHECK(seal(&j) == sizeof sealed);
    apart = j;
    apart.key = copy(j.key.bytes, j.key.len);
    apart.nonce = copy(j.nonce.bytes, j.nonce.len);
    apart.data = copy(sealed, sizeof sealed);
    apart.out.bytes = opened;
    apart.out.len = sizeof opened;
    memcpy(expected, j.data.bytes, sizeof expected);
    CHECK(open_sealed(&apart) == sizeof opened);
    CHECK(memcmp(opened, expected, sizeof expected) == 0);
    free(apart.key.bytes);
    free(apart.nonce.bytes);
    free(apart.data.bytes);
    free(all.bytes);
}

enum { THREADS = 8, TURNS = 20 };

typedef struct {
    pthread_t thread;
    size_t number;
    int held;
} worker;

/* Seals and opens, or goes through crypt twice, on buffers of its own. */
static void *work(void *argument)
{
    worker *w = (worker *)argument;
    uint8_t nonce[TIKHOPLAV_NONCE_SIZE], message[500], sealed[sizeof message + 4], out[sizeof message];
    const uint8_t *key = published_key;
    size_t turn, len = sizeof message - w->number;
    uint32_t tag_bits = 25 + (uint32_t)w->number % 8;
    int64_t n;

    memset(message, (int)w->number, sizeof message);
    memcpy(nonce, published_nonce, sizeof nonce);
    for (turn = 0; turn < TURNS; turn++) {
        nonce[0] = (uint8_t)(turn % 2 == 0 ? 0x80 | turn : turn);
        if (turn % 2 == 0) {
            n = tikhoplav_grain128a_seal(key, 16, nonce, 12, tag_bits, message, len, sealed, sizeof sealed);
            w->held &= n == (int64_t)len + 4;
            n = tikhoplav_grain128a_open(key, 16, nonce, 12, tag_bits, sealed, len + 4, out, sizeof out);
        } else {
            n = tikhoplav_grain128a_crypt(key, 16, nonce, 12, message, len, sealed, sizeof sealed);
            w->held &= n == (int64_t)len;
            n = tikhoplav_grain128a_crypt(key, 16, nonce, 12, sealed, len, out, sizeof out);
        }
        w->held &= n == (int64_t)len && memcmp(out, message, len) == 0;
    }
    return NULL;
}

static void threads(void)
{
    worker workers[THREADS];
    size_t i;

    for (i = 0; i < THREADS; i++) {
        workers[i].number = i;
        workers[i].held = 1;
        CHECK(pthread_create(&workers[i].thread, NULL, work, &workers[i]) == 0);
    }
    for (i = 0; i < THREADS; i++) {
        CHECK(pthread_join(workers[i].thread, NULL) == 0);
        CHECK(workers[i].held);
    }
}

static void constants(void)
{
    static const uint8_t tag[TIKHOPLAV_GRAIN128A_TAG_SIZE(TIKHOPLAV_GRAIN128A_TAG_BITS_MAX)] = { 0 };
    uint32_t bits;

    CHECK(TIKHOPLAV_GRAIN128A_TAG_BITS_MAX == 32 && sizeof tag == 4);
    for (bits = 1; bits <= 32; bits++)
        CHECK(tag_size(bits) == (bits <= 8 ? 1u : bits <= 16 ? 2u : bits <= 24 ? 3u : 4u));
    CHECK(TIKHOPLAV_REFUSED_NONCE_MODE == -19);
    CHECK(TIKHOPLAV_REFUSED_TAG_LENGTH == -20);
}

static void of_every_length(void)
{
    static const size_t message_lens[] = { 0, 1, 3, 4, 5, 64, 100 };
    uint32_t tag_bits;
    size_t m;

    for (m = 0; m < sizeof message_lens / sizeof *message_lens; m++)
        twice(message_lens[m]);
    for (tag_bits = 1; tag_bits <= TIKHOPLAV_GRAIN128A_TAG_BITS_MAX; tag_bits++) {
        for (m = 0; m < sizeof message_lens / sizeof *message_lens; m++)
            round_trip(tag_bits, message_lens[m]);
        damaged_tags(tag_bits);
        opening_short_inputs(tag_bits);
    }
    twice(TIKHOPLAV_MESSAGE_MAX);
    round_trip(1, TIKHOPLAV_MESSAGE_MAX);
    round_trip(32, TIKHOPLAV_MESSAGE_MAX);
}

int main(void)
{
    constants();
    published_pre_output();
    published_keystream();
    published_tags();
    of_every_length();
    longer_outputs();
    refusals_of_sealing();
    refusals_of_opening();
    refusals_of_crypt();
    null_pointers_of_length_zero();
    overlapping_inputs();
    threads();
    printf("%u checks hold\n", checks);
    return 0;
}
