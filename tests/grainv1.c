/* The call of Grain v1 as firmware makes it: through the header alone, on buffers of exactly the stated sizes. Compiles
   as C and as C++. */
#include <pthread.h>

#include "checks.h"

enum { KEY_SIZE = TIKHOPLAV_GRAINV1_KEY_SIZE, NONCE_SIZE = TIKHOPLAV_GRAINV1_NONCE_SIZE };

/* What the call is given. */
typedef struct {
    slice key, nonce, message, out;
} job;

static int64_t crypt_message(const job *j)
{
    return tikhoplav_grainv1_crypt(j->key.bytes, j->key.len, j->nonce.bytes, j->nonce.len, j->message.bytes,
                                   j->message.len, j->out.bytes, j->out.len);
}

static slice copy(const uint8_t *bytes, size_t len)
{
    slice s = counting(len, 0);

    if (len > 0)
        memcpy(s.bytes, bytes, len);
    return s;
}

/* A legal job, with exactly the room that it needs. */
static job crypting(size_t message_len)
{
    job j;

    j.key = counting(KEY_SIZE, 0xa0);
    j.nonce = counting(NONCE_SIZE, 0x30);
    j.message = counting(message_len, 7);
    j.out = lent(message_len);
    return j;
}

static void release(job *j)
{
    free(j->key.bytes);
    free(j->nonce.bytes);
    free(j->message.bytes);
    free(j->out.bytes);
}

/* The call refuses, and every byte of the output is as it was. */
static void refused(const job *j, int64_t answer)
{
    slice before = copy(j->out.bytes, j->out.len);

    CHECK(crypt_message(j) == answer);
    CHECK(same(before, j->out));
    free(before.bytes);
}

/* A vector of the designers', in their order of bits. */
typedef struct {
    uint8_t key[KEY_SIZE], nonce[NONCE_SIZE], keystream[10];
} vector;

static const vector published[] = {
    { { 0 }, { 0 }, { 0xde, 0xe9, 0x31, 0xcf, 0x16, 0x62, 0xa7, 0x2f, 0x77, 0xd0 } },
    { { 0x01, 0x23, 0x45, 0x67, 0x89, 0xab, 0xcd, 0xef, 0x12, 0x34 },
      { 0x01, 0x23, 0x45, 0x67, 0x89, 0xab, 0xcd, 0xef },
      { 0x7f, 0x36, 0x2b, 0xd3, 0xf7, 0xab, 0xae, 0x20, 0x36, 0x64 } },
};

/* The bits of every byte turned round. */
static slice turned(const uint8_t *bytes, size_t len)
{
    slice s = counting(len, 0);
    size_t i;
    unsigned bit;

    for (i = 0; i < len; i++) {
        s.bytes[i] = 0;
        for (bit = 0; bit < 8; bit++)
            if (bytes[i] >> bit & 1)
                s.bytes[i] |= (uint8_t)(0x80 >> bit);
    }
    return s;
}

/* Zeros become the keystream, and it becomes zeros. */
static void published_vector(const vector *v)
{
    slice keystream = turned(v->keystream, sizeof v->keystream), zeros = counting(sizeof v->keystream, 0);
    job j;

    memset(zeros.bytes, 0, zeros.len);
    j.key = turned(v->key, sizeof v->key);
    j.nonce = turned(v->nonce, sizeof v->nonce);
    j.message = zeros;
    j.out = lent(zeros.len);
    CHECK(crypt_message(&j) == (int64_t)zeros.len);
    CHECK(same(j.out, keystream));
    free(j.out.bytes);
    j.message = keystream;
    j.out = lent(zeros.len);
    CHECK(crypt_message(&j) == (int64_t)zeros.len);
    CHECK(same(j.out, zeros));
    release(&j);
    free(zeros.bytes);
}

/* The second vector as the header spells it for the call. */
static void vector_of_the_header(void)
{
    static const uint8_t key[] = { 0x80, 0xc4, 0xa2, 0xe6, 0x91, 0xd5, 0xb3, 0xf7, 0x48, 0x2c };
    static const uint8_t keystream[] = { 0xfe, 0x6c, 0xd4, 0xcb, 0xef, 0xd5, 0x75, 0x04, 0x6c, 0x26 };
    static const uint8_t zeros[sizeof keystream] = { 0 };
    uint8_t out[sizeof keystream];

    CHECK(tikhoplav_grainv1_crypt(key, KEY_SIZE, key, NONCE_SIZE, zeros, sizeof zeros, out, sizeof out) == 10);
    CHECK(memcmp(out, keystream, sizeof out) == 0);
}

/* What the call gives, given to it again. */
static void twice(size_t message_len)
{
    job j = crypting(message_len);
    slice message = copy(j.message.bytes, message_len);

    CHECK(crypt_message(&j) == (int64_t)message_len);
    if (message_len >= 8)
        CHECK(!same(j.out, message));
    CHECK(same(j.message, message));
    free(j.message.bytes);
    j.message = j.out;
    j.out = lent(message_len);
    CHECK(crypt_message(&j) == (int64_t)message_len);
    CHECK(same(j.out, message));
    release(&j);
    free(message.bytes);
}

/* Every size up to some hundreds, and those at the limit. */
static void of_every_size(void)
{
    size_t message_len;

    for (message_len = 0; message_len <= 300; message_len++)
        twice(message_len);
    twice(TIKHOPLAV_MESSAGE_MAX - 1);
    twice(TIKHOPLAV_MESSAGE_MAX);
}

/* Outputs of every length: too short ones are refused, and of longer ones the rest is left as it was. */
static void outputs(size_t message_len)
{
    job exact = crypting(message_len), j = exact;
    size_t room;
    slice expected;

    CHECK(crypt_message(&exact) == (int64_t)message_len);
    for (room = 0; room <= message_len + 40; room++) {
        expected = lent(room);
        j.out = lent(room);
        if (room < message_len) {
            refused(&j, TIKHOPLAV_REFUSED_OUTPUT_TOO_SHORT);
        } else {
            if (message_len > 0)
                memcpy(expected.bytes, exact.out.bytes, message_len);
            CHECK(crypt_message(&j) == (int64_t)message_len);
            CHECK(same(j.out, expected));
        }
        free(j.out.bytes);
        free(expected.bytes);
    }
    release(&exact);
}

/* Keys and nonces of other lengths are refused. */
static void sizes_of_keys_and_nonces(void)
{
    size_t len;
    job j = crypting(10);

    for (len = 0; len <= 40; len++) {
        resize(&j.key, len);
        if (len != KEY_SIZE)
            refused(&j, TIKHOPLAV_REFUSED_KEY_SIZE);
    }
    resize(&j.key, KEY_SIZE);
    for (len = 0; len <= 40; len++) {
        resize(&j.nonce, len);
        if (len != NONCE_SIZE)
            refused(&j, TIKHOPLAV_REFUSED_NONCE_SIZE);
    }
    resize(&j.nonce, NONCE_SIZE);
    CHECK(crypt_message(&j) == 10);
    release(&j);
}

static void limit(void)
{
    job j = crypting(TIKHOPLAV_MESSAGE_MAX + 1);

    refused(&j, TIKHOPLAV_REFUSED_MESSAGE_TOO_LONG);
    resize(&j.message, TIKHOPLAV_MESSAGE_MAX);
    CHECK(crypt_message(&j) == TIKHOPLAV_MESSAGE_MAX);
    resize(&j.out, TIKHOPLAV_MESSAGE_MAX - 1);
    refused(&j, TIKHOPLAV_REFUSED_OUTPUT_TOO_SHORT);
    release(&j);
}

/* Every set of faults: the first in the order of the checks is the answer. */
static void order_of_refusals(void)
{
    static const int64_t numbers[] = { TIKHOPLAV_REFUSED_KEY_SIZE, TIKHOPLAV_REFUSED_NONCE_SIZE,
                                       TIKHOPLAV_REFUSED_MESSAGE_TOO_LONG, TIKHOPLAV_REFUSED_OUTPUT_TOO_SHORT };
    unsigned set, first, longer;
    job j;

    for (set = 1; set < 16; set++) {
        for (longer = 0; longer < 2; longer++) {
            j = crypting(set & 4 ? TIKHOPLAV_MESSAGE_MAX + 1 : 10);
            if (set & 1)
                resize(&j.key, longer ? KEY_SIZE + 1 : KEY_SIZE - 1);
            if (set & 2)
                resize(&j.nonce, longer ? NONCE_SIZE + 1 : NONCE_SIZE - 1);
            if (set & 8)
                resize(&j.out, longer ? j.out.len - 1 : 0);
            first = 0;
            while (!(set >> first & 1))
                first++;
            refused(&j, numbers[first]);
            release(&j);
        }
    }
}

/* A key of zeros is taken, with any nonce, and so is every key and every nonce with a single bit. */
static void zeros_and_single_bits(void)
{
    unsigned bit;
    job j = crypting(5);

    memset(j.key.bytes, 0, KEY_SIZE);
    CHECK(crypt_message(&j) == 5);
    for (bit = 0; bit < 8 * KEY_SIZE; bit++) {
        j.key.bytes[bit / 8] = (uint8_t)(0x80 >> bit % 8);
        CHECK(crypt_message(&j) == 5);
        j.key.bytes[bit / 8] = 0;
    }
    memset(j.nonce.bytes, 0, NONCE_SIZE);
    CHECK(crypt_message(&j) == 5);
    for (bit = 0; bit < 8 * NONCE_SIZE; bit++) {
        j.nonce.bytes[bit / 8] = (uint8_t)(0x80 >> bit % 8);
        CHECK(crypt_message(&j) == 5);
        j.nonce.bytes[bit / 8] = 0;
    }
    release(&j);
}

static void null_pointers_of_length_zero(void)
{
    job j = crypting(0), none = j;

    none.message = none.out = NOTHING;
    CHECK(crypt_message(&none) == 0);
    none.message = counting(1, 7);
    CHECK(crypt_message(&none) == TIKHOPLAV_REFUSED_OUTPUT_TOO_SHORT);
    free(none.message.bytes);
    none.message = NOTHING;
    none.nonce = NOTHING;
    CHECK(crypt_message(&none) == TIKHOPLAV_REFUSED_NONCE_SIZE);
    none.key = NOTHING;
    CHECK(crypt_message(&none) == TIKHOPLAV_REFUSED_KEY_SIZE);
    release(&j);
}

/* Inputs that overlap, at an address that is not even: key, nonce and message are parts of one buffer. */
static void overlapping_inputs(void)
{
    slice all = counting(1 + 40, 0x80);
    job j, apart;

    j.key.bytes = all.bytes + 1;
    j.key.len = KEY_SIZE;
    j.nonce.bytes = all.bytes + 3;
    j.nonce.len = NONCE_SIZE;
    j.message.bytes = all.bytes + 1;
    j.message.len = 40;
    j.out = lent(40);
    CHECK(crypt_message(&j) == 40);
    apart.key = copy(j.key.bytes, j.key.len);
    apart.nonce = copy(j.nonce.bytes, j.nonce.len);
    apart.message = copy(j.message.bytes, j.message.len);
    apart.out = lent(40);
    CHECK(crypt_message(&apart) == 40);
    CHECK(same(j.out, apart.out));
    release(&apart);
    free(j.out.bytes);
    free(all.bytes);
}

enum { THREADS = 8, TURNS = 20 };

typedef struct {
    pthread_t thread;
    size_t number;
    int held;
} worker;

/* Enciphers and deciphers on buffers of its own. */
static void *work(void *argument)
{
    worker *w = (worker *)argument;
    uint8_t key[KEY_SIZE] = { 1 }, nonce[NONCE_SIZE] = { 2 }, message[500], enciphered[sizeof message];
    uint8_t out[sizeof message];
    size_t turn, len = sizeof message - w->number;
    int64_t n;

    memset(message, (int)w->number, sizeof message);
    for (turn = 0; turn < TURNS; turn++) {
        nonce[1] = (uint8_t)turn;
        n = tikhoplav_grainv1_crypt(key, sizeof key, nonce, sizeof nonce, message, len, enciphered, sizeof enciphered);
        w->held &= n == (int64_t)len && memcmp(enciphered, message, len) != 0;
        n = tikhoplav_grainv1_crypt(key, sizeof key, nonce, sizeof nonce, enciphered, len, out, sizeof out);
        w->held &= n == (int64_t)len && memcmp(out, message, len) == 0;
    }
    return NULL;
}

static void threads(void)
{
    worker workers[THREADS];
    size_t i;

    for (i = 0; i < THREADS; i++) {
        workers[i].number = i;
        workers[i].held = 1;
        CHECK(pthread_create(&workers[i].thread, NULL, work, &workers[i]) == 0);
    }
    for (i = 0; i < THREADS; i++) {
        CHECK(pthread_join(workers[i].thread, NULL) == 0);
        CHECK(workers[i].held);
    }
}

int main(void)
{
    CHECK(KEY_SIZE == 10 && NONCE_SIZE == 8);
    published_vector(&published[0]);
    published_vector(&published[1]);
    vector_of_the_header();
    of_every_size();
    outputs(0);
    outputs(1);
    outputs(33);
    sizes_of_keys_and_nonces();
    limit();
    order_of_refusals();
    zeros_and_single_bits();
    null_pointers_of_length_zero();
    overlapping_inputs();
    threads();
    printf("%u checks hold\n", checks);
    return 0;
}
