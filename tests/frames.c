/* The calls on frames as firmware makes them: through the header alone, on buffers of exactly the stated sizes.
   Compiles as C and as C++. */
#include "checks.h"

/* What a call is given. Making is not told the code. */
typedef struct {
    slice key, nonce;
    uint32_t identifier, code;
    slice data, out;
} frame;

typedef int64_t call(const frame *);

/* The edition that the calls that name one name. */
static uint32_t named;

static int64_t make_unnamed(const frame *f)
{
    return tikhoplav_frame_make(f->key.bytes, f->key.len, f->nonce.bytes, f->nonce.len, f->identifier, f->data.bytes,
                                f->data.len, f->out.bytes, f->out.len);
}

static int64_t read_unnamed(const frame *f)
{
    return tikhoplav_frame_read(f->key.bytes, f->key.len, f->nonce.bytes, f->nonce.len, f->identifier, f->code,
                                f->data.bytes, f->data.len, f->out.bytes, f->out.len);
}

static int64_t make_named(const frame *f)
{
    return tikhoplav_frame_make_edition(named, f->key.bytes, f->key.len, f->nonce.bytes, f->nonce.len, f->identifier,
                                        f->data.bytes, f->data.len, f->out.bytes, f->out.len);
}

static int64_t read_named(const frame *f)
{
    return tikhoplav_frame_read_edition(named, f->key.bytes, f->key.len, f->nonce.bytes, f->nonce.len, f->identifier,
                                        f->code, f->data.bytes, f->data.len, f->out.bytes, f->out.len);
}

/* A pair of calls, and the edition that they make and read under. */
typedef struct {
    call *make, *read;
    uint32_t edition;
} pair;

static const pair pairs[] = {
    { make_unnamed, read_unnamed, TIKHOPLAV_EDITION_1 },
    { make_named, read_named, TIKHOPLAV_EDITION_1 },
    { make_named, read_named, TIKHOPLAV_EDITION_2 },
};

/* The length of the data field for a message. */
static size_t field_len(size_t message_len)
{
    static const size_t lens[] = { 12, 16, 20, 24, 32, 48, 64 };
    size_t i = 0;

    while (lens[i] < message_len + 9)
        i++;
    return lens[i];
}

static frame making(uint32_t identifier, size_t message_len)
{
    frame f;

    f.key = counting(TIKHOPLAV_KEY_SIZE, 0);
    f.nonce = counting(TIKHOPLAV_NONCE_SIZE, 0);
    f.identifier = identifier;
    f.code = 0;
    f.data = counting(message_len, 0);
    f.out = lent(field_len(message_len));
    return f;
}

static void release(frame *f)
{
    free(f->key.bytes);
    free(f->nonce.bytes);
    free(f->data.bytes);
    free(f->out.bytes);
}

/* Turns a making that was run into the reading of its frame. */
static void turn(frame *f)
{
    size_t message_len = f->data.len;

    free(f->data.bytes);
    f->data = f->out;
    f->code = (uint32_t)tikhoplav_length_code(f->data.len);
    f->out = lent(message_len);
}

static frame reading(const pair *p, uint32_t identifier, size_t message_len)
{
    frame f = making(identifier, message_len);

    CHECK(p->make(&f) == (int64_t)f.out.len);
    turn(&f);
    return f;
}

/* The call refuses, and every byte of the output is as it was. */
static void refused(call *c, const frame *f, int64_t answer)
{
    slice before = counting(f->out.len, 0);

    if (before.len > 0)
        memcpy(before.bytes, f->out.bytes, before.len);
    CHECK(c(f) == answer);
    CHECK(same(before, f->out));
    free(before.bytes);
}

/* The identifier of the frames that are not about identifiers. */
enum { IDENTIFIER = 0x12345678 };

/* The data fields of counting bytes under both editions, behind which the filler is zeros. */
typedef struct {
    size_t message_len;
    uint32_t code;
    size_t field_len;
    uint8_t fields[2][TIKHOPLAV_FRAME_MAX];
} stored;

static stored stored_frames[] = {
    { 0, 9, 12,
      { { 0x00, 0xb0, 0x76, 0xe6, 0x61, 0x0f, 0xa8, 0x25, 0x26 },
        { 0x00, 0xbb, 0xd4, 0xc9, 0x49, 0x7e, 0x5b, 0x3b, 0xbb } } },
    { 3, 9, 12,
      { { 0x03, 0x38, 0xde, 0x85, 0x70, 0x34, 0x1a, 0xe4, 0x27, 0x06, 0xbd, 0xeb },
        { 0x03, 0x8f, 0xb1, 0x33, 0xe8, 0x32, 0xdb, 0x6e, 0xf5, 0x61, 0x8c, 0x70 } } },
    { 4, 10, 16,
      { { 0x04, 0x38, 0xde, 0x85, 0x44, 0x15, 0x6a, 0x40, 0x92, 0x00, 0xbc, 0xe2, 0xae },
        { 0x04, 0x8f, 0xb1, 0x33, 0x95, 0xb1, 0xff, 0x0a, 0x56, 0x70, 0x75, 0xb0, 0xbc } } },
    { 39, 14, 48,
      { { 0x27, 0x38, 0xde, 0x85, 0x44, 0xf8, 0x85, 0x8b, 0x73, 0xe7, 0x68, 0x03, 0x6d, 0xbb, 0x48, 0x5f, 0x8d,
          0x81, 0x8b, 0x2a, 0x72, 0x95, 0x61, 0xe6, 0x6a, 0x84, 0x38, 0x8a, 0x90, 0x59, 0x7c, 0x9c, 0x8e, 0xc7,
          0x55, 0xf8, 0x89, 0xb2, 0x28, 0x41, 0x0a, 0x2e, 0x49, 0x72, 0x6b, 0x1b, 0x9a, 0x0f },
        { 0x27, 0x8f, 0xb1, 0x33, 0x95, 0xd4, 0xba, 0xa2, 0xad, 0x1c, 0xff, 0xb7, 0x8b, 0xb8, 0x34, 0xef, 0x85,
          0x86, 0x9c, 0xbb, 0x6d, 0xab, 0x53, 0xd0, 0x48, 0xab, 0x5a, 0xf0, 0xcc, 0x10, 0xeb, 0x43, 0x53, 0x1c,
          0xe8, 0xdc, 0x89, 0xec, 0x16, 0xea, 0x65, 0x5a, 0x27, 0x60, 0xcf, 0x04, 0x64, 0x9c } } },
    { 40, 15, 64,
      { { 0x28, 0x38, 0xde, 0x85, 0x44, 0xf8, 0x85, 0x8b, 0x73, 0xe7, 0x68, 0x03, 0x6d, 0xbb, 0x48, 0x5f, 0x8d,
          0x81, 0x8b, 0x2a, 0x72, 0x95, 0x61, 0xe6, 0x6a, 0x84, 0x38, 0x8a, 0x90, 0x59, 0x7c, 0x9c, 0x8e, 0xc7,
          0x55, 0xf8, 0x89, 0xb2, 0x28, 0x41, 0x6c, 0x71, 0x3e, 0xa3, 0x4b, 0x5f, 0x4c, 0x75, 0xfd },
        { 0x28, 0x8f, 0xb1, 0x33, 0x95, 0xd4, 0xba, 0xa2, 0xad, 0x1c, 0xff, 0xb7, 0x8b, 0xb8, 0x34, 0xef, 0x85,
          0x86, 0x9c, 0xbb, 0x6d, 0xab, 0x53, 0xd0, 0x48, 0xab, 0x5a, 0xf0, 0xcc, 0x10, 0xeb, 0x43, 0x53, 0x1c,
          0xe8, 0xdc, 0x89, 0xec, 0x16, 0xea, 0x32, 0x7c, 0xa9, 0xb6, 0xd0, 0xc3, 0x46, 0x90, 0x09 } } },
    { 55, 15, 64,
      { { 0x37, 0x38, 0xde, 0x85, 0x44, 0xf8, 0x85, 0x8b, 0x73, 0xe7, 0x68, 0x03, 0x6d, 0xbb, 0x48, 0x5f, 0x8d,
          0x81, 0x8b, 0x2a, 0x72, 0x95, 0x61, 0xe6, 0x6a, 0x84, 0x38, 0x8a, 0x90, 0x59, 0x7c, 0x9c, 0x8e, 0xc7,
          0x55, 0xf8, 0x89, 0xb2, 0x28, 0x41, 0x6c, 0x12, 0xb6, 0x1e, 0xd7, 0x65, 0x6e, 0x1d, 0x3b, 0x14, 0xf0,
          0x46, 0x0b, 0xa8, 0x2e, 0x89, 0x06, 0x23, 0x49, 0xef, 0x33, 0x62, 0x61, 0x12 },
        { 0x37, 0x8f, 0xb1, 0x33, 0x95, 0xd4, 0xba, 0xa2, 0xad, 0x1c, 0xff, 0xb7, 0x8b, 0xb8, 0x34, 0xef, 0x85,
          0x86, 0x9c, 0xbb, 0x6d, 0xab, 0x53, 0xd0, 0x48, 0xab, 0x5a, 0xf0, 0xcc, 0x10, 0xeb, 0x43, 0x53, 0x1c,
          0xe8, 0xdc, 0x89, 0xec, 0x16, 0xea, 0x32, 0xa5, 0x7b, 0xd9, 0x91, 0x88, 0x94, 0x58, 0x20, 0xbc, 0x80,
          0x74, 0xd0, 0xd9, 0x97, 0xfa, 0x88, 0x43, 0xa1, 0x46, 0xee, 0x4d, 0x1c, 0xf1 } } },
};

static void known_answers(const pair *p)
{
    slice expected, message;
    stored *s;
    size_t i;
    frame f;

    for (i = 0; i < sizeof stored_frames / sizeof *stored_frames; i++) {
        s = &stored_frames[i];
        expected.bytes = s->fields[p->edition - 1];
        expected.len = s->field_len;
        f = making(IDENTIFIER, s->message_len);
        CHECK(p->make(&f) == (int64_t)s->field_len);
        CHECK(same(f.out, expected));
        turn(&f);
        CHECK(f.code == s->code);
        CHECK(p->read(&f) == (int64_t)s->message_len);
        message = counting(s->message_len, 0);
        CHECK(same(f.out, message));
        free(message.bytes);
        release(&f);
    }
}

/* The data field is M, what sealing gives with the AD of the frame, and zeros. */
static void layout(const pair *p, size_t message_len)
{
    static const uint8_t zeros[TIKHOPLAV_FRAME_MAX] = { 0 };
    uint8_t ad[] = { 0x12, 0x34, 0x56, 0x78, 0 };
    size_t sealed_len = message_len + TIKHOPLAV_TAG_SIZE;
    slice sealed = lent(sealed_len);
    frame f = making(IDENTIFIER, message_len);

    ad[4] = (uint8_t)tikhoplav_length_code(1 + sealed_len);
    CHECK(p->make(&f) == tikhoplav_coded_length(ad[4]));
    CHECK(tikhoplav_seal_edition(p->edition, f.key.bytes, f.key.len, f.nonce.bytes, f.nonce.len, ad, sizeof ad,
                                 f.data.bytes, f.data.len, sealed.bytes, sealed.len) == (int64_t)sealed_len);
    CHECK(f.out.bytes[0] == message_len);
    CHECK(memcmp(f.out.bytes + 1, sealed.bytes, sealed_len) == 0);
    CHECK(memcmp(f.out.bytes + 1 + sealed_len, zeros, f.out.len - 1 - sealed_len) == 0);
    free(sealed.bytes);
    release(&f);
}

static void round_trip(const pair *p, uint32_t identifier, size_t message_len)
{
    frame f = reading(p, identifier, message_len);
    slice message = counting(message_len, 0);

    CHECK(p->read(&f) == (int64_t)message_len);
    CHECK(same(f.out, message));
    free(message.bytes);
    release(&f);
}

/* The call writes `count` bytes to an output of 100, and leaves the others as they were. */
static void leaves_the_rest(call *c, const frame *f, size_t count)
{
    slice before = lent(100);
    frame roomy = *f;

    roomy.out = lent(100);
    CHECK(c(&roomy) == (int64_t)count);
    CHECK(memcmp(roomy.out.bytes + count, before.bytes + count, 100 - count) == 0);
    free(roomy.out.bytes);
    free(before.bytes);
}

static void longer_outputs(const pair *p, size_t message_len)
{
    frame f = making(IDENTIFIER, message_len);

    leaves_the_rest(p->make, &f, field_len(message_len));
    CHECK(p->make(&f) == (int64_t)field_len(message_len));
    turn(&f);
    leaves_the_rest(p->read, &f, message_len);
    release(&f);
}

static void short_key(frame *f)
{
    resize(&f->key, TIKHOPLAV_KEY_SIZE - 1);
}

static void long_key(frame *f)
{
    resize(&f->key, TIKHOPLAV_KEY_SIZE + 1);
}

static void short_nonce(frame *f)
{
    resize(&f->nonce, TIKHOPLAV_NONCE_SIZE - 1);
}

static void long_nonce(frame *f)
{
    resize(&f->nonce, TIKHOPLAV_NONCE_SIZE + 1);
}

static void blank_key(frame *f)
{
    memset(f->key.bytes, 0, f->key.len);
}

static void identifier_of_30_bits(frame *f)
{
    f->identifier = TIKHOPLAV_IDENTIFIER_MAX + 1u;
}

static void identifier_of_32_bits(frame *f)
{
    f->identifier = 0x80000000;
}

static void long_message(frame *f)
{
    resize(&f->data, TIKHOPLAV_FRAME_MESSAGE_MAX + 1);
}

static void large_code(frame *f)
{
    f->code = TIKHOPLAV_LENGTH_CODE_MAX + 1;
}

static void next_code(frame *f)
{
    f->code++;
}

static void long_data(frame *f)
{
    resize(&f->data, f->data.len + 1);
}

static void no_data(frame *f)
{
    f->code = 0;
    resize(&f->data, 0);
}

static void large_length(frame *f)
{
    f->data.bytes[0] = TIKHOPLAV_FRAME_MESSAGE_MAX + 1;
}

/* Data of that code's length. */
static void largest_code(frame *f)
{
    f->code = TIKHOPLAV_LENGTH_CODE_MAX;
    resize(&f->data, TIKHOPLAV_FRAME_MAX);
}

static void first_byte_of_the_filler(frame *f)
{
    f->data.bytes[9 + f->data.bytes[0]] = 0x80;
}

static void last_byte_of_the_filler(frame *f)
{
    f->data.bytes[f->data.len - 1] = 0x80;
}

static void short_output(frame *f)
{
    resize(&f->out, f->out.len - 1);
}

static void wrong_tag(frame *f)
{
    f->data.bytes[8 + f->data.bytes[0]] ^= 1;
}

static void wrong_ciphertext(frame *f)
{
    f->data.bytes[1] ^= 1;
}

/* What spoils a legal frame, and the answer then. */
typedef struct {
    void (*spoil)(frame *);
    int64_t answer;
} fault;

/* In the order of the checks. */
static const fault faults_of_making[] = {
    { short_key, TIKHOPLAV_REFUSED_KEY_SIZE },
    { long_key, TIKHOPLAV_REFUSED_KEY_SIZE },
    { short_nonce, TIKHOPLAV_REFUSED_NONCE_SIZE },
    { long_nonce, TIKHOPLAV_REFUSED_NONCE_SIZE },
    { blank_key, TIKHOPLAV_REFUSED_BLANK_KEY },
    { identifier_of_30_bits, TIKHOPLAV_REFUSED_IDENTIFIER_TOO_LARGE },
    { identifier_of_32_bits, TIKHOPLAV_REFUSED_IDENTIFIER_TOO_LARGE },
    { long_message, TIKHOPLAV_REFUSED_FRAME_MESSAGE_TOO_LONG },
    { short_output, TIKHOPLAV_REFUSED_OUTPUT_TOO_SHORT },
};

static const fault faults_of_reading[] = {
    { short_key, TIKHOPLAV_REFUSED_KEY_SIZE },
    { long_key, TIKHOPLAV_REFUSED_KEY_SIZE },
    { short_nonce, TIKHOPLAV_REFUSED_NONCE_SIZE },
    { long_nonce, TIKHOPLAV_REFUSED_NONCE_SIZE },
    { blank_key, TIKHOPLAV_REFUSED_BLANK_KEY },
    { identifier_of_30_bits, TIKHOPLAV_REFUSED_IDENTIFIER_TOO_LARGE },
    { identifier_of_32_bits, TIKHOPLAV_REFUSED_IDENTIFIER_TOO_LARGE },
    { large_code, TIKHOPLAV_REFUSED_NOT_CODED_LENGTH },
    { next_code, TIKHOPLAV_REFUSED_NOT_CODED_LENGTH },
    { long_data, TIKHOPLAV_REFUSED_NOT_CODED_LENGTH },
    { no_data, TIKHOPLAV_REFUSED_WRONG_MESSAGE_LENGTH },
    { large_length, TIKHOPLAV_REFUSED_WRONG_MESSAGE_LENGTH },
    { largest_code, TIKHOPLAV_REFUSED_WRONG_MESSAGE_LENGTH },
    { first_byte_of_the_filler, TIKHOPLAV_REFUSED_FILLER_NOT_ZERO },
    { last_byte_of_the_filler, TIKHOPLAV_REFUSED_FILLER_NOT_ZERO },
    { short_output, TIKHOPLAV_REFUSED_OUTPUT_TOO_SHORT },
    { wrong_tag, TIKHOPLAV_REFUSED_TAG_DIFFERS },
    { wrong_ciphertext, TIKHOPLAV_REFUSED_TAG_DIFFERS },
};

/* A length whose frame has filler. */
enum { WITH_FILLER = 20 };

/* Two faults, the later one made first, so that it can't undo the earlier one; or one. */
static void spoil(frame *f, const fault *earlier, const fault *later)
{
    if (later != earlier)
        later->spoil(f);
    earlier->spoil(f);
}

static void refusals_of_making(const pair *p)
{
    const size_t count = sizeof faults_of_making / sizeof *faults_of_making;
    size_t i, k;
    frame f;

    for (i = 0; i < count; i++)
        for (k = i; k < count; k++) {
            f = making(IDENTIFIER, WITH_FILLER);
            spoil(&f, &faults_of_making[i], &faults_of_making[k]);
            refused(p->make, &f, faults_of_making[i].answer);
            release(&f);
        }
}

static void refusals_of_reading(const pair *p)
{
    const size_t count = sizeof faults_of_reading / sizeof *faults_of_reading;
    size_t i, k;
    frame f;

    for (i = 0; i < count; i++)
        for (k = i; k < count; k++) {
            f = reading(p, IDENTIFIER, WITH_FILLER);
            spoil(&f, &faults_of_reading[i], &faults_of_reading[k]);
            refused(p->read, &f, faults_of_reading[i].answer);
            release(&f);
        }
}

/* Every other value in the place of M: with a code that is not its smallest, with filler that is not zero, and with
   another tag. */
static void other_lengths(const pair *p, size_t message_len)
{
    frame f = reading(p, IDENTIFIER, message_len);
    unsigned m;

    resize(&f.out, TIKHOPLAV_FRAME_MESSAGE_MAX);
    for (m = 0; m < 256; m++) {
        f.data.bytes[0] = (uint8_t)m;
        if (m > TIKHOPLAV_FRAME_MESSAGE_MAX || field_len(m) != f.data.len)
            refused(p->read, &f, TIKHOPLAV_REFUSED_WRONG_MESSAGE_LENGTH);
        else if (m < message_len)
            refused(p->read, &f, TIKHOPLAV_REFUSED_FILLER_NOT_ZERO);
        else if (m > message_len)
            refused(p->read, &f, TIKHOPLAV_REFUSED_TAG_DIFFERS);
    }
    release(&f);
}

/* A frame that is read under another identifier. */
static void other_identifiers(const pair *p)
{
    frame f = reading(p, IDENTIFIER, 10);
    unsigned bit;

    for (bit = 0; bit < 32; bit++) {
        f.identifier = IDENTIFIER ^ (uint32_t)1 << bit;
        refused(p->read, &f, bit < 29 ? TIKHOPLAV_REFUSED_TAG_DIFFERS : TIKHOPLAV_REFUSED_IDENTIFIER_TOO_LARGE);
    }
    release(&f);
}

static void null_pointers_of_length_zero(const pair *p)
{
    frame f = making(IDENTIFIER, 0), none;

    free(f.data.bytes);
    f.data = NOTHING;
    CHECK(p->make(&f) == 12);
    f.data = f.out;
    f.code = 9;
    f.out = NOTHING;
    CHECK(p->read(&f) == 0);
    none = f;
    none.data = NOTHING;
    CHECK(p->make(&none) == TIKHOPLAV_REFUSED_OUTPUT_TOO_SHORT);
    CHECK(p->read(&none) == TIKHOPLAV_REFUSED_NOT_CODED_LENGTH);
    none.code = 0;
    CHECK(p->read(&none) == TIKHOPLAV_REFUSED_WRONG_MESSAGE_LENGTH);
    none.nonce = NOTHING;
    CHECK(p->make(&none) == TIKHOPLAV_REFUSED_NONCE_SIZE);
    CHECK(p->read(&none) == TIKHOPLAV_REFUSED_NONCE_SIZE);
    none.key = NOTHING;
    CHECK(p->make(&none) == TIKHOPLAV_REFUSED_KEY_SIZE);
    CHECK(p->read(&none) == TIKHOPLAV_REFUSED_KEY_SIZE);
    release(&f);
}

/* The call that names no edition answers and writes as the one that names edition 1. */
static void same_as_edition_1(size_t message_len)
{
    frame unnamed = making(IDENTIFIER, message_len), first = making(IDENTIFIER, message_len);

    named = TIKHOPLAV_EDITION_1;
    CHECK(make_unnamed(&unnamed) == make_named(&first));
    CHECK(same(unnamed.out, first.out));
    turn(&unnamed);
    turn(&first);
    CHECK(read_unnamed(&unnamed) == read_named(&first));
    CHECK(same(unnamed.out, first.out));
    release(&unnamed);
    release(&first);
}

/* What one edition makes the other refuses. */
static void the_other_edition(const pair *p, uint32_t other, size_t message_len)
{
    frame f;

    named = p->edition;
    f = reading(p, IDENTIFIER, message_len);
    named = other;
    refused(read_named, &f, TIKHOPLAV_REFUSED_TAG_DIFFERS);
    named = p->edition;
    CHECK(read_named(&f) == (int64_t)message_len);
    release(&f);
}

/* An edition that is unknown is the answer on legal frames, on such with one fault, and on nothing. */
static void unknown_edition(uint32_t number)
{
    static const frame nothing = { { NULL, 0 }, { NULL, 0 }, 0xffffffff, 16, { NULL, 0 }, { NULL, 0 } };
    frame f = making(IDENTIFIER, WITH_FILLER);
    size_t i;

    named = number;
    refused(make_named, &f, TIKHOPLAV_REFUSED_UNKNOWN_EDITION);
    refused(make_named, &nothing, TIKHOPLAV_REFUSED_UNKNOWN_EDITION);
    refused(read_named, &nothing, TIKHOPLAV_REFUSED_UNKNOWN_EDITION);
    release(&f);
    for (i = 0; i < sizeof faults_of_making / sizeof *faults_of_making; i++) {
        f = making(IDENTIFIER, WITH_FILLER);
        faults_of_making[i].spoil(&f);
        refused(make_named, &f, TIKHOPLAV_REFUSED_UNKNOWN_EDITION);
        release(&f);
    }
    for (i = 0; i < sizeof faults_of_reading / sizeof *faults_of_reading; i++) {
        f = reading(&pairs[0], IDENTIFIER, WITH_FILLER);
        refused(read_named, &f, TIKHOPLAV_REFUSED_UNKNOWN_EDITION);
        faults_of_reading[i].spoil(&f);
        refused(read_named, &f, TIKHOPLAV_REFUSED_UNKNOWN_EDITION);
        release(&f);
    }
}

static void length_codes(void)
{
    static const int64_t lens[] = { 0, 1, 2, 3, 4, 5, 6, 7, 8, 12, 16, 20, 24, 32, 48, 64 };
    static const uint32_t no_codes[] = { 16, 17, 255, 256, 257, 65536, 0x7fffffff, 0x80000000, 0xffffffff };
    static const size_t no_lens[] = { 65, 66, 127, 128, 255, 256, 257, 65536, (size_t)1 << 32, (size_t)-1 };
    size_t i, len = 0;

    for (i = 0; i < sizeof lens / sizeof *lens; i++) {
        CHECK(tikhoplav_coded_length((uint32_t)i) == lens[i]);
        for (; len <= (size_t)lens[i]; len++)
            CHECK(tikhoplav_length_code(len) == (int64_t)i);
    }
    CHECK(len == 65);
    for (i = 0; i < sizeof no_codes / sizeof *no_codes; i++)
        CHECK(tikhoplav_coded_length(no_codes[i]) == TIKHOPLAV_REFUSED_NOT_CODED_LENGTH);
    for (i = 0; i < sizeof no_lens / sizeof *no_lens; i++)
        CHECK(tikhoplav_length_code(no_lens[i]) == TIKHOPLAV_REFUSED_NOT_CODED_LENGTH);
}

static void constants(void)
{
    CHECK(TIKHOPLAV_IDENTIFIER_MAX == 536870911 && TIKHOPLAV_FRAME_MESSAGE_MAX == 55);
    CHECK(TIKHOPLAV_LENGTH_CODE_MAX == 15 && TIKHOPLAV_FRAME_MAX == 64);
    CHECK(TIKHOPLAV_REFUSED_IDENTIFIER_TOO_LARGE == -8);
    CHECK(TIKHOPLAV_REFUSED_FRAME_MESSAGE_TOO_LONG == -9);
    CHECK(TIKHOPLAV_REFUSED_NOT_CODED_LENGTH == -10);
    CHECK(TIKHOPLAV_REFUSED_WRONG_MESSAGE_LENGTH == -11);
    CHECK(TIKHOPLAV_REFUSED_FILLER_NOT_ZERO == -12);
}

static void of_a_pair(const pair *p)
{
    static const uint32_t identifiers[] = { 0, 1, 0x7ff, 0x800, IDENTIFIER, TIKHOPLAV_IDENTIFIER_MAX };
    static const size_t some_lens[] = { 0, 3, 4, 20, 39, 40, 55 };
    size_t i, len;

    named = p->edition;
    known_answers(p);
    for (len = 0; len <= TIKHOPLAV_FRAME_MESSAGE_MAX; len++) {
        layout(p, len);
        for (i = 0; i < sizeof identifiers / sizeof *identifiers; i++)
            round_trip(p, identifiers[i], len);
    }
    for (i = 0; i < sizeof some_lens / sizeof *some_lens; i++) {
        longer_outputs(p, some_lens[i]);
        other_lengths(p, some_lens[i]);
    }
    refusals_of_making(p);
    refusals_of_reading(p);
    other_identifiers(p);
    null_pointers_of_length_zero(p);
}

static void of_the_editions(void)
{
    static const uint32_t unknown[] = { 0, 3, 257, 258, 65537, 0x80000001, 0xffffffff };
    size_t i, len;

    for (len = 0; len <= TIKHOPLAV_FRAME_MESSAGE_MAX; len++) {
        same_as_edition_1(len);
        the_other_edition(&pairs[1], TIKHOPLAV_EDITION_2, len);
        the_other_edition(&pairs[2], TIKHOPLAV_EDITION_1, len);
    }
    for (i = 0; i < sizeof unknown / sizeof *unknown; i++)
        unknown_edition(unknown[i]);
}

int main(void)
{
    size_t i;

    constants();
    length_codes();
    for (i = 0; i < sizeof pairs / sizeof *pairs; i++)
        of_a_pair(&pairs[i]);
    of_the_editions();
    printf("%u checks hold\n", checks);
    return 0;
}
