/* The calls as firmware makes them: through the header alone, on buffers of exactly the stated sizes. Compiles as
   C and as C++. */
#include "checks.h"

/* The five slices of a call. */
typedef struct {
    slice key, nonce, ad, data, out;
} job;

typedef int64_t call(const uint8_t *, size_t, const uint8_t *, size_t, const uint8_t *, size_t, const uint8_t *, size_t,
                     uint8_t *, size_t);

/* The edition that the next two calls name. */
static uint32_t named;

static int64_t seal_named(const uint8_t *key, size_t key_len, const uint8_t *nonce, size_t nonce_len, const uint8_t *ad,
                          size_t ad_len, const uint8_t *message, size_t message_len, uint8_t *out, size_t out_len)
{
    return tikhoplav_seal_edition(named, key, key_len, nonce, nonce_len, ad, ad_len, message, message_len, out,
                                  out_len);
}

static int64_t open_named(const uint8_t *key, size_t key_len, const uint8_t *nonce, size_t nonce_len, const uint8_t *ad,
                          size_t ad_len, const uint8_t *sealed, size_t sealed_len, uint8_t *out, size_t out_len)
{
    return tikhoplav_open_edition(named, key, key_len, nonce, nonce_len, ad, ad_len, sealed, sealed_len, out, out_len);
}

/* A pair of calls, and the edition that they seal and open under. */
typedef struct {
    call *seal, *open;
    uint32_t edition;
} pair;

static const pair pairs[] = {
    { tikhoplav_seal, tikhoplav_open, TIKHOPLAV_EDITION_1 },
    { seal_named, open_named, TIKHOPLAV_EDITION_1 },
    { seal_named, open_named, TIKHOPLAV_EDITION_2 },
};

static job sealing(size_t ad_len, size_t message_len)
{
    job j;

    j.key = counting(TIKHOPLAV_KEY_SIZE, 0);
    j.nonce = counting(TIKHOPLAV_NONCE_SIZE, 0);
    j.ad = counting(ad_len, 0);
    j.data = counting(message_len, 0);
    j.out = lent(message_len + TIKHOPLAV_TAG_SIZE);
    return j;
}

static void release(job *j)
{
    free(j->key.bytes);
    free(j->nonce.bytes);
    free(j->ad.bytes);
    free(j->data.bytes);
    free(j->out.bytes);
}

static int64_t run(call *f, const job *j)
{
    return f(j->key.bytes, j->key.len, j->nonce.bytes, j->nonce.len, j->ad.bytes, j->ad.len, j->data.bytes,
             j->data.len, j->out.bytes, j->out.len);
}

/* Turns a sealing that was run into the opening of its payload. */
static void turn(job *j)
{
    size_t message_len = j->data.len;

    free(j->data.bytes);
    j->data = j->out;
    j->out = lent(message_len);
}

/* The call refuses, and every byte of the output is as it was. */
static void refused(call *f, const job *j, int64_t answer)
{
    slice before = counting(j->out.len, 0);

    if (before.len > 0)
        memcpy(before.bytes, j->out.bytes, before.len);
    CHECK(run(f, j) == answer);
    CHECK(same(before, j->out));
    free(before.bytes);
}

/* The payload of counting bytes under each edition: an AD of 8, and a message of 16. */
static void known_answer(const pair *p)
{
    static uint8_t payloads[][24] = {
        { 0x47, 0xfd, 0x82, 0x8e, 0x70, 0xea, 0x67, 0x0e, 0x6e, 0xbe, 0x4f, 0x5a,
          0x8e, 0x9c, 0x94, 0x37, 0xa7, 0xda, 0x12, 0xcc, 0x95, 0x04, 0x40, 0xd2 },
        { 0x96, 0xd1, 0xbd, 0xa7, 0xae, 0x11, 0xf0, 0xba, 0x88, 0xbd, 0x33, 0xea,
          0x86, 0x9b, 0x83, 0xa6, 0xd9, 0x24, 0x0c, 0xb5, 0x1a, 0xcd, 0xec, 0x36 },
    };
    slice expected;
    job j = sealing(8, 16);

    expected.bytes = payloads[p->edition - 1];
    expected.len = sizeof *payloads;
    CHECK(run(p->seal, &j) == (int64_t)expected.len);
    CHECK(same(j.out, expected));
    release(&j);
}

/* The payloads of counting bytes under both editions: an AD of so many, and a message of one. */
typedef struct {
    size_t ad_len;
    uint8_t payloads[2][1 + TIKHOPLAV_TAG_SIZE];
} stored;

/* Around the borders of the forms in which the length of the AD is coded, and at the limit. */
static void coded_ad_lengths(const pair *p)
{
    static stored table[] = {
        { 127, { { 0xa2, 0x20, 0x7c, 0xc5, 0xf6, 0xba, 0x72, 0x6f, 0x2e },
                 { 0x5f, 0xc4, 0xd4, 0x26, 0x67, 0xf6, 0x61, 0x98, 0x4d } } },
        { 128, { { 0x87, 0x4d, 0xa8, 0x61, 0xf8, 0xfc, 0x92, 0x3a, 0xc3 },
                 { 0x8d, 0x22, 0x8e, 0xd2, 0x7e, 0xce, 0x2d, 0x50, 0x97 } } },
        { 255, { { 0xbf, 0xd2, 0x5b, 0xb4, 0x4d, 0xde, 0xde, 0x22, 0x20 },
                 { 0xfb, 0xf2, 0x5b, 0xba, 0x1c, 0xf5, 0x74, 0x74, 0x65 } } },
        { 256, { { 0x53, 0x6e, 0x8b, 0x79, 0xa3, 0xc2, 0xe5, 0x8b, 0xc7 },
                 { 0x9c, 0x16, 0x2b, 0xaa, 0x79, 0x0a, 0x65, 0x84, 0xc3 } } },
        { TIKHOPLAV_AD_MAX, { { 0x85, 0x60, 0xc8, 0xa3, 0x4f, 0x0f, 0xd0, 0xd1, 0xfe },
                              { 0x4a, 0xad, 0xca, 0x1b, 0x3d, 0x20, 0xb9, 0x02, 0xdc } } },
    };
    slice expected;
    size_t i;
    job j;

    expected.len = sizeof *table->payloads;
    for (i = 0; i < sizeof table / sizeof *table; i++) {
        expected.bytes = table[i].payloads[p->edition - 1];
        j = sealing(table[i].ad_len, 1);
        CHECK(run(p->seal, &j) == (int64_t)expected.len);
        CHECK(same(j.out, expected));
        turn(&j);
        CHECK(run(p->open, &j) == 1);
        CHECK(j.out.bytes[0] == 0);
        release(&j);
    }
}

/* Payloads whose AD length is coded with 0x82 and two bytes though it is below 256, as versions before 2.0.0 did under
   edition 1. */
static void payloads_of_earlier_versions(const pair *p)
{
    static const stored table[] = {
        { 128, { { 0x96, 0x35, 0xb9, 0x61, 0xe8, 0xb6, 0x8c, 0x51, 0x25 },
                 { 0x10, 0xce, 0x32, 0x85, 0x7c, 0x6d, 0x2a, 0x56, 0x1b } } },
        { 255, { { 0xd6, 0xc6, 0x6c, 0xd4, 0xca, 0xfa, 0x94, 0xb2, 0x2a },
                 { 0xcb, 0x1b, 0x5a, 0xe7, 0x47, 0x34, 0x0e, 0xa4, 0xd4 } } },
    };
    const uint8_t *payload;
    size_t i;
    job j;

    for (i = 0; i < sizeof table / sizeof *table; i++) {
        payload = table[i].payloads[p->edition - 1];
        j = sealing(table[i].ad_len, 1);
        memcpy(j.out.bytes, payload, sizeof *table->payloads);
        turn(&j);
        refused(p->open, &j, TIKHOPLAV_REFUSED_TAG_DIFFERS);
        release(&j);
    }
}

static void round_trip(const pair *p, size_t ad_len, size_t message_len)
{
    job j = sealing(ad_len, message_len);
    slice message = counting(message_len, 0);

    CHECK(run(p->seal, &j) == (int64_t)(message_len + TIKHOPLAV_TAG_SIZE));
    turn(&j);
    CHECK(run(p->open, &j) == (int64_t)message_len);
    CHECK(same(j.out, message));
    free(message.bytes);
    release(&j);
}

/* The call writes `count` bytes to an output of 100, and leaves the others as they were. */
static void leaves_the_rest(call *f, const job *j, size_t count)
{
    slice before = lent(100);
    job roomy = *j;

    roomy.out = lent(100);
    CHECK(run(f, &roomy) == (int64_t)count);
    CHECK(memcmp(roomy.out.bytes + count, before.bytes + count, 100 - count) == 0);
    free(roomy.out.bytes);
    free(before.bytes);
}

static void longer_outputs(const pair *p)
{
    job j = sealing(3, 20);

    leaves_the_rest(p->seal, &j, 28);
    CHECK(run(p->seal, &j) == 28);
    turn(&j);
    leaves_the_rest(p->open, &j, 20);
    release(&j);
}

/* The blank key on a job that is legal but for its key: alone, with a wrong nonce, and with all else wrong that can
   be. Then zeros of another length, and keys with one bit. */
static void blank_key(call *f, const job *legal)
{
    uint8_t zeros[TIKHOPLAV_KEY_SIZE + 1] = { 0 };
    slice too_much = counting(TIKHOPLAV_AD_MAX + 1, 0); /* over every limit */
    unsigned bit;
    job j = *legal;

    j.key.bytes = zeros;
    j.key.len = TIKHOPLAV_KEY_SIZE;
    refused(f, &j, TIKHOPLAV_REFUSED_BLANK_KEY);
    j.nonce.len--;
    refused(f, &j, TIKHOPLAV_REFUSED_NONCE_SIZE);
    j.nonce.len++;
    j.ad = j.data = too_much;
    j.out.len = 0;
    refused(f, &j, TIKHOPLAV_REFUSED_BLANK_KEY);
    j.data.len = 0;
    refused(f, &j, TIKHOPLAV_REFUSED_BLANK_KEY);
    j.key.len--;
    refused(f, &j, TIKHOPLAV_REFUSED_KEY_SIZE);
    j.key.len += 2;
    refused(f, &j, TIKHOPLAV_REFUSED_KEY_SIZE);
    j = *legal;
    j.key.bytes = zeros;
    j.out.len = 0;
    for (bit = 0; bit < 8 * TIKHOPLAV_KEY_SIZE; bit++) {
        zeros[bit / 8] = (uint8_t)(0x80 >> bit % 8);
        refused(f, &j, TIKHOPLAV_REFUSED_OUTPUT_TOO_SHORT);
        zeros[bit / 8] = 0;
    }
    free(too_much.bytes);
}

/* The refusals of both calls, on a legal job of the call. Each fault is repaired before the next. */
static void common_refusals(call *f, job *j)
{
    size_t room = j->out.len, ad_len = j->ad.len;

    resize(&j->key, TIKHOPLAV_KEY_SIZE - 1);
    resize(&j->nonce, TIKHOPLAV_NONCE_SIZE + 1);
    refused(f, j, TIKHOPLAV_REFUSED_KEY_SIZE);
    resize(&j->key, TIKHOPLAV_KEY_SIZE + 1);
    refused(f, j, TIKHOPLAV_REFUSED_KEY_SIZE);
    resize(&j->key, TIKHOPLAV_KEY_SIZE);
    refused(f, j, TIKHOPLAV_REFUSED_NONCE_SIZE);
    resize(&j->nonce, TIKHOPLAV_NONCE_SIZE - 1);
    refused(f, j, TIKHOPLAV_REFUSED_NONCE_SIZE);
    resize(&j->nonce, TIKHOPLAV_NONCE_SIZE);
    blank_key(f, j);
    resize(&j->ad, TIKHOPLAV_AD_MAX + 1);
    refused(f, j, TIKHOPLAV_REFUSED_AD_TOO_LONG);
    resize(&j->ad, ad_len);
    resize(&j->out, room - 1);
    refused(f, j, TIKHOPLAV_REFUSED_OUTPUT_TOO_SHORT);
    resize(&j->out, room);
}

static void refusals_of_sealing(const pair *p)
{
    job j = sealing(4, 10);

    common_refusals(p->seal, &j);
    resize(&j.data, TIKHOPLAV_MESSAGE_MAX + 1);
    refused(p->seal, &j, TIKHOPLAV_REFUSED_MESSAGE_TOO_LONG);
    release(&j);
}

static void refusals_of_opening(const pair *p)
{
    job j = sealing(4, 10);

    CHECK(run(p->seal, &j) == 18);
    turn(&j);
    common_refusals(p->open, &j);
    j.data.bytes[17] ^= 1;
    refused(p->open, &j, TIKHOPLAV_REFUSED_TAG_DIFFERS);
    resize(&j.out, 9);
    refused(p->open, &j, TIKHOPLAV_REFUSED_OUTPUT_TOO_SHORT);
    resize(&j.data, TIKHOPLAV_TAG_SIZE - 1);
    refused(p->open, &j, TIKHOPLAV_REFUSED_SEALED_TOO_SHORT);
    resize(&j.data, TIKHOPLAV_SEALED_MAX + 1);
    refused(p->open, &j, TIKHOPLAV_REFUSED_MESSAGE_TOO_LONG);
    release(&j);
}

/* The tag is the last 8 bytes, and a shorter input has none: its ciphertext part is the whole input. */
static void sizes_of_ciphertexts(void)
{
    static const int64_t expected[] = { 0, 1, 2, 3, 4, 5, 6, 7, 0, 1, 2, 3, 4, 5, 6, 7, 8, 9, 10, 11, 12 };
    size_t len;
    slice sealed;

    for (len = 0; len < sizeof expected / sizeof *expected; len++) {
        sealed = counting(len, 0);
        CHECK(tikhoplav_ciphertext_size(sealed.bytes, sealed.len) == expected[len]);
        free(sealed.bytes);
    }
    sealed = counting(TIKHOPLAV_SEALED_MAX + 1, 0);
    CHECK(tikhoplav_ciphertext_size(sealed.bytes, sealed.len) == TIKHOPLAV_MESSAGE_MAX + 1);
    free(sealed.bytes);
}

static void opening_short_inputs(const pair *p)
{
    size_t len;
    job j = sealing(4, 0);

    for (len = 0; len < TIKHOPLAV_TAG_SIZE; len++) {
        resize(&j.data, len);
        refused(p->open, &j, TIKHOPLAV_REFUSED_SEALED_TOO_SHORT);
    }
    release(&j);
}

static void null_pointers_of_length_zero(const pair *p)
{
    job j = sealing(0, 0), none;

    free(j.ad.bytes);
    free(j.data.bytes);
    j.ad = j.data = NOTHING;
    CHECK(run(p->seal, &j) == TIKHOPLAV_TAG_SIZE);
    j.data = j.out;
    j.out = NOTHING;
    CHECK(run(p->open, &j) == 0);
    CHECK(run(p->seal, &j) == TIKHOPLAV_REFUSED_OUTPUT_TOO_SHORT);
    none = j;
    none.data = NOTHING;
    CHECK(run(p->open, &none) == TIKHOPLAV_REFUSED_SEALED_TOO_SHORT);
    none.nonce = NOTHING;
    CHECK(run(p->open, &none) == TIKHOPLAV_REFUSED_NONCE_SIZE);
    none.key = NOTHING;
    CHECK(run(p->seal, &none) == TIKHOPLAV_REFUSED_KEY_SIZE);
    CHECK(tikhoplav_ciphertext_size(NULL, 0) == 0);
    release(&j);
}

/* The call that names no edition answers and writes as the one that names edition 1. */
static void same_as_edition_1(size_t ad_len, size_t message_len)
{
    job unnamed = sealing(ad_len, message_len), first = sealing(ad_len, message_len);

    named = TIKHOPLAV_EDITION_1;
    CHECK(run(tikhoplav_seal, &unnamed) == run(seal_named, &first));
    CHECK(same(unnamed.out, first.out));
    turn(&unnamed);
    turn(&first);
    CHECK(run(tikhoplav_open, &unnamed) == run(open_named, &first));
    CHECK(same(unnamed.out, first.out));
    release(&unnamed);
    release(&first);
}

/* What one edition seals the other refuses. */
static void the_other_edition(uint32_t edition, uint32_t other, size_t ad_len, size_t message_len)
{
    job j = sealing(ad_len, message_len);

    named = edition;
    CHECK(run(seal_named, &j) == (int64_t)(message_len + TIKHOPLAV_TAG_SIZE));
    turn(&j);
    named = other;
    refused(open_named, &j, TIKHOPLAV_REFUSED_TAG_DIFFERS);
    named = edition;
    CHECK(run(open_named, &j) == (int64_t)message_len);
    release(&j);
}

/* An edition that is unknown is the answer on a legal job, on one with everything wrong that can be, and on one of
   nothing. */
static void unknown_edition(call *f, const job *legal)
{
    uint8_t zeros[TIKHOPLAV_KEY_SIZE] = { 0 };
    slice too_much = counting(TIKHOPLAV_AD_MAX + 1, 0); /* over every limit */
    job j = *legal;

    refused(f, &j, TIKHOPLAV_REFUSED_UNKNOWN_EDITION);
    j.key.len--;
    refused(f, &j, TIKHOPLAV_REFUSED_UNKNOWN_EDITION);
    j.key.bytes = zeros;
    j.key.len = sizeof zeros;
    refused(f, &j, TIKHOPLAV_REFUSED_UNKNOWN_EDITION);
    j.nonce.len--;
    j.ad = j.data = too_much;
    j.out.len--;
    refused(f, &j, TIKHOPLAV_REFUSED_UNKNOWN_EDITION);
    j.data.len = TIKHOPLAV_TAG_SIZE - 1;
    refused(f, &j, TIKHOPLAV_REFUSED_UNKNOWN_EDITION);
    j.key = j.nonce = j.ad = j.data = j.out = NOTHING;
    refused(f, &j, TIKHOPLAV_REFUSED_UNKNOWN_EDITION);
    free(too_much.bytes);
}

static void unknown_editions(void)
{
    static const uint32_t numbers[] = { 0, 3, 257, 258, 65537, 0x7fffffff, 0x80000000, 0x80000001, 0xffffffff };
    size_t i;
    job seal = sealing(4, 10), open = sealing(4, 10);

    CHECK(run(tikhoplav_seal, &open) == 18);
    turn(&open);
    for (i = 0; i < sizeof numbers / sizeof *numbers; i++) {
        named = numbers[i];
        unknown_edition(seal_named, &seal);
        unknown_edition(open_named, &open);
    }
    release(&seal);
    release(&open);
}

static void constants(void)
{
    CHECK(TIKHOPLAV_EDITION_1 == 1 && TIKHOPLAV_EDITION_2 == 2);
    CHECK(TIKHOPLAV_KEY_SIZE == 16 && TIKHOPLAV_NONCE_SIZE == 12 && TIKHOPLAV_TAG_SIZE == 8);
    CHECK(TIKHOPLAV_REFUSED_KEY_SIZE == -1);
    CHECK(TIKHOPLAV_REFUSED_NONCE_SIZE == -2);
    CHECK(TIKHOPLAV_REFUSED_AD_TOO_LONG == -3);
    CHECK(TIKHOPLAV_REFUSED_MESSAGE_TOO_LONG == -4);
    CHECK(TIKHOPLAV_REFUSED_SEALED_TOO_SHORT == -5);
    CHECK(TIKHOPLAV_REFUSED_OUTPUT_TOO_SHORT == -6);
    CHECK(TIKHOPLAV_REFUSED_TAG_DIFFERS == -7);
    CHECK(TIKHOPLAV_REFUSED_BLANK_KEY == -15);
    CHECK(TIKHOPLAV_REFUSED_UNKNOWN_EDITION == -23);
}

static void of_a_pair(const pair *p)
{
    static const size_t ad_lens[] = { 0, 1, 127, 128, 255, 256, TIKHOPLAV_AD_MAX };
    static const size_t message_lens[] = { 0, 1, 7, 8, 9, 64, TIKHOPLAV_MESSAGE_MAX };
    size_t a, m;

    named = p->edition;
    known_answer(p);
    coded_ad_lengths(p);
    payloads_of_earlier_versions(p);
    for (a = 0; a < sizeof ad_lens / sizeof *ad_lens; a++)
        for (m = 0; m < sizeof message_lens / sizeof *message_lens; m++)
            round_trip(p, ad_lens[a], message_lens[m]);
    longer_outputs(p);
    refusals_of_sealing(p);
    refusals_of_opening(p);
    opening_short_inputs(p);
    null_pointers_of_length_zero(p);
}

static void of_the_editions(void)
{
    static const size_t lens[][2] = { { 0, 0 },   { 0, 1 },   { 1, 0 },   { 4, 10 },
                                      { 127, 5 }, { 128, 5 }, { 256, 5 }, { TIKHOPLAV_AD_MAX, TIKHOPLAV_MESSAGE_MAX } };
    size_t i;

    for (i = 0; i < sizeof lens / sizeof *lens; i++) {
        same_as_edition_1(lens[i][0], lens[i][1]);
        the_other_edition(TIKHOPLAV_EDITION_1, TIKHOPLAV_EDITION_2, lens[i][0], lens[i][1]);
        the_other_edition(TIKHOPLAV_EDITION_2, TIKHOPLAV_EDITION_1, lens[i][0], lens[i][1]);
    }
    unknown_editions();
}

int main(void)
{
    size_t i;

    constants();
    for (i = 0; i < sizeof pairs / sizeof *pairs; i++)
        of_a_pair(&pairs[i]);
    of_the_editions();
    sizes_of_ciphertexts();
    printf("%u checks hold\n", checks);
    return 0;
}
