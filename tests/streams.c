/* The calls on streams as firmware makes them: through the header alone, on buffers of exactly the stated sizes.
   Compiles as C and as C++. */
#include <pthread.h>

#include "checks.h"

/* What a call is given. A piece is one of AD, message or ciphertext, or the tag that ends a checking stream. */
typedef struct {
    uint32_t edition;
    slice state, key, nonce;
    size_t ad_len;
    slice piece, out;
} stream;

typedef int64_t call(const stream *);

static int64_t sealing_begin(const stream *s)
{
    return tikhoplav_sealing_begin(s->state.bytes, s->state.len, s->key.bytes, s->key.len, s->nonce.bytes,
                                   s->nonce.len, s->ad_len);
}

static int64_t sealing_begin_named(const stream *s)
{
    return tikhoplav_sealing_begin_edition(s->edition, s->state.bytes, s->state.len, s->key.bytes, s->key.len,
                                           s->nonce.bytes, s->nonce.len, s->ad_len);
}

static int64_t sealing_ad(const stream *s)
{
    return tikhoplav_sealing_ad(s->state.bytes, s->state.len, s->piece.bytes, s->piece.len);
}

static int64_t sealing_message(const stream *s)
{
    return tikhoplav_sealing_message(s->state.bytes, s->state.len, s->piece.bytes, s->piece.len, s->out.bytes,
                                     s->out.len);
}

static int64_t sealing_finish(const stream *s)
{
    return tikhoplav_sealing_finish(s->state.bytes, s->state.len, s->out.bytes, s->out.len);
}

static int64_t checking_begin(const stream *s)
{
    return tikhoplav_checking_begin(s->state.bytes, s->state.len, s->key.bytes, s->key.len, s->nonce.bytes,
                                    s->nonce.len, s->ad_len);
}

static int64_t checking_begin_named(const stream *s)
{
    return tikhoplav_checking_begin_edition(s->edition, s->state.bytes, s->state.len, s->key.bytes, s->key.len,
                                            s->nonce.bytes, s->nonce.len, s->ad_len);
}

static int64_t checking_ad(const stream *s)
{
    return tikhoplav_checking_ad(s->state.bytes, s->state.len, s->piece.bytes, s->piece.len);
}

static int64_t checking_ciphertext(const stream *s)
{
    return tikhoplav_checking_ciphertext(s->state.bytes, s->state.len, s->piece.bytes, s->piece.len);
}

static int64_t checking_finish(const stream *s)
{
    return tikhoplav_checking_finish(s->state.bytes, s->state.len, s->piece.bytes, s->piece.len);
}

enum { SEALING = 1, CHECKING = 2 };

/* The four calls of a kind, and the edition of their streams. */
typedef struct {
    call *begin, *ad, *data, *finish;
    uint8_t kind;
    uint32_t edition;
} calls;

static const calls all[] = {
    { sealing_begin, sealing_ad, sealing_message, sealing_finish, SEALING, TIKHOPLAV_EDITION_1 },
    { sealing_begin_named, sealing_ad, sealing_message, sealing_finish, SEALING, TIKHOPLAV_EDITION_1 },
    { sealing_begin_named, sealing_ad, sealing_message, sealing_finish, SEALING, TIKHOPLAV_EDITION_2 },
    { checking_begin, checking_ad, checking_ciphertext, checking_finish, CHECKING, TIKHOPLAV_EDITION_1 },
    { checking_begin_named, checking_ad, checking_ciphertext, checking_finish, CHECKING, TIKHOPLAV_EDITION_1 },
    { checking_begin_named, checking_ad, checking_ciphertext, checking_finish, CHECKING, TIKHOPLAV_EDITION_2 },
};

/* The clocks of start-up. */
static int64_t start_up(const calls *c)
{
    return c->edition == TIKHOPLAV_EDITION_1 ? 384 : 512;
}

/* The bytes in which the length of the AD is coded. */
static size_t coded_bytes(size_t ad_len)
{
    return ad_len < 128 ? 1 : ad_len < 256 ? 2 : 3;
}

/* The clocks after so many bytes of AD and message. */
static int64_t clocks(const calls *c, size_t ad_len, size_t taken)
{
    return start_up(c) + 16 * (int64_t)(coded_bytes(ad_len) + taken);
}

static stream unbegun(const calls *c, size_t ad_len)
{
    stream s;

    s.edition = c->edition;
    s.state = lent(TIKHOPLAV_STATE_SIZE);
    s.key = counting(TIKHOPLAV_KEY_SIZE, 0);
    s.nonce = counting(TIKHOPLAV_NONCE_SIZE, 0);
    s.ad_len = ad_len;
    s.piece = s.out = NOTHING;
    return s;
}

static stream begun(const calls *c, size_t ad_len)
{
    stream s = unbegun(c, ad_len);

    CHECK(c->begin(&s) == clocks(c, ad_len, 0));
    return s;
}

static void release(stream *s)
{
    free(s->state.bytes);
    free(s->key.bytes);
    free(s->nonce.bytes);
    free(s->piece.bytes);
    free(s->out.bytes);
}

static slice copy(slice s)
{
    slice c = counting(s.len, 0);

    if (s.len > 0)
        memcpy(c.bytes, s.bytes, s.len);
    return c;
}

/* Lends an output of so many bytes. */
static void lend(stream *s, size_t room)
{
    free(s->out.bytes);
    s->out = lent(room);
}

/* The next piece: a part of a whole, in a buffer of its own, and an output of its length. */
static void next_piece(stream *s, slice whole, size_t from, size_t len)
{
    slice part;

    part.bytes = whole.bytes == NULL ? NULL : whole.bytes + from;
    part.len = len;
    free(s->piece.bytes);
    s->piece = copy(part);
    lend(s, len);
}

/* The call refuses, and every byte of state and output is as it was. */
static void refused(call *f, const stream *s, int64_t answer)
{
    slice state = copy(s->state), out = copy(s->out);

    CHECK(f(s) == answer);
    CHECK(same(state, s->state));
    CHECK(same(out, s->out));
    free(state.bytes);
    free(out.bytes);
}

/* What the call on whole strings makes of counting bytes. */
static slice payload(uint32_t edition, size_t ad_len, size_t message_len)
{
    slice key = counting(TIKHOPLAV_KEY_SIZE, 0), nonce = counting(TIKHOPLAV_NONCE_SIZE, 0);
    slice ad = counting(ad_len, 0), message = counting(message_len, 0), out = lent(message_len + TIKHOPLAV_TAG_SIZE);

    CHECK(tikhoplav_seal_edition(edition, key.bytes, key.len, nonce.bytes, nonce.len, ad.bytes, ad.len, message.bytes,
                                 message.len, out.bytes, out.len) == (int64_t)out.len);
    free(key.bytes);
    free(nonce.bytes);
    free(ad.bytes);
    free(message.bytes);
    return out;
}

/* Gives counting bytes as the AD, in pieces of at most so many. */
static void give_ad(const calls *c, stream *s, size_t piece)
{
    slice ad = counting(s->ad_len, 0);
    size_t done, len;

    for (done = 0; done < ad.len; done += len) {
        len = ad.len - done < piece ? ad.len - done : piece;
        next_piece(s, ad, done, len);
        CHECK(c->ad(s) == clocks(c, ad.len, done + len));
    }
    free(ad.bytes);
}

/* Gives this message, or this ciphertext; a sealing stream makes of it what stands in `made`. */
static void give_data(const calls *c, stream *s, slice data, slice made, size_t piece)
{
    size_t done, len;

    for (done = 0; done < data.len; done += len) {
        len = data.len - done < piece ? data.len - done : piece;
        next_piece(s, data, done, len);
        CHECK(c->data(s) == clocks(c, s->ad_len, s->ad_len + done + len));
        if (c->kind == SEALING)
            CHECK(memcmp(s->out.bytes, made.bytes + done, len) == 0);
    }
}

/* What ends the stream is at hand: room for the tag, or the tag. */
static void before_finish(stream *s, slice sealed)
{
    next_piece(s, sealed, sealed.len - TIKHOPLAV_TAG_SIZE, TIKHOPLAV_TAG_SIZE);
}

/* A stream on counting bytes up to its finish, in pieces of at most so many. */
static stream filled(const calls *c, size_t ad_len, size_t message_len, size_t piece)
{
    slice sealed = payload(c->edition, ad_len, message_len), message = counting(message_len, 0), ciphertext = sealed;
    stream s = begun(c, ad_len);

    ciphertext.len = message_len;
    give_ad(c, &s, piece);
    give_data(c, &s, c->kind == SEALING ? message : ciphertext, sealed, piece);
    before_finish(&s, sealed);
    free(message.bytes);
    free(sealed.bytes);
    return s;
}

/* The finish is accepted, and gives the tag of the payload. */
static void finished(const calls *c, stream *s, size_t message_len)
{
    slice tag = copy(s->piece);

    CHECK(c->finish(s) == clocks(c, s->ad_len, s->ad_len + message_len) + 2);
    if (c->kind == SEALING)
        CHECK(same(s->out, tag));
    free(tag.bytes);
}

static void cuttings(const calls *c)
{
    static const size_t ad_lens[] = { 0, 1, 2, 127, 128, 255, 256 }, message_lens[] = { 0, 1, 9, 64, 300 };
    static const size_t pieces[] = { 1, 2, 3, 7, 16, 64, 256 };
    size_t a, m, p;
    stream s;

    for (a = 0; a < sizeof ad_lens / sizeof *ad_lens; a++)
        for (m = 0; m < sizeof message_lens / sizeof *message_lens; m++)
            for (p = 0; p < sizeof pieces / sizeof *pieces; p++) {
                s = filled(c, ad_lens[a], message_lens[m], pieces[p]);
                finished(c, &s, message_lens[m]);
                refused(c->finish, &s, TIKHOPLAV_REFUSED_OUT_OF_TURN);
                release(&s);
            }
}

/* The registers under both editions, for counting bytes: after begin with an AD of 8, after 3 bytes of it and after
   all, after 5 bytes of the message and after 16, and after finish. */
static uint8_t stored_registers[][2][48] = {
    { { 0xdb, 0xa9, 0xe6, 0xf5, 0xa3, 0x47, 0x8e, 0x8e, 0xf2, 0xb4, 0x7c, 0x52, 0x0a, 0xc6, 0x4f, 0x9d,
        0xc7, 0xc0, 0x28, 0x62, 0x4b, 0x84, 0x5b, 0xd7, 0x4f, 0x2d, 0x01, 0x42, 0x8b, 0xb7, 0xff, 0xec,
        0xb8, 0xce, 0xf4, 0x94, 0xea, 0x1a, 0x68, 0xd6, 0xc3, 0x33, 0xae, 0xbd, 0xc2, 0x47, 0x08, 0xb5 },
      { 0xa9, 0xb0, 0xa2, 0x07, 0x0a, 0xe1, 0x23, 0xb3, 0xc6, 0xbf, 0x00, 0x57, 0xcd, 0x08, 0xec, 0xb6,
        0x87, 0x8d, 0x77, 0x83, 0x0f, 0x31, 0xb4, 0x76, 0x75, 0xa9, 0xfe, 0x56, 0x9f, 0x0b, 0x41, 0x2a,
        0x81, 0x0b, 0xf7, 0x94, 0x70, 0x27, 0xad, 0x05, 0x48, 0xb6, 0xeb, 0x45, 0xd8, 0x09, 0xce, 0x5b } },
    { { 0x8e, 0x8e, 0xf2, 0xb4, 0x7c, 0x52, 0x0a, 0xc6, 0x4f, 0x9d, 0x81, 0xc4, 0x71, 0x0b, 0x02, 0xf3,
        0x5b, 0xd7, 0x4f, 0x2d, 0x01, 0x42, 0x8b, 0xb7, 0xff, 0xec, 0x6e, 0x29, 0xf6, 0xe3, 0x54, 0x92,
        0xc0, 0xe0, 0x84, 0x75, 0x43, 0x2c, 0xca, 0x04, 0xbd, 0xc2, 0x47, 0x08, 0xb5, 0xb1, 0xe8, 0x9b },
      { 0x23, 0xb3, 0xc6, 0xbf, 0x00, 0x57, 0xcd, 0x08, 0xec, 0xb6, 0xab, 0xce, 0x2e, 0x27, 0xe5, 0x28,
        0xb4, 0x76, 0x75, 0xa9, 0xfe, 0x56, 0x9f, 0x0b, 0x41, 0x2a, 0x35, 0xef, 0xac, 0xb1, 0xce, 0xd0,
        0xe1, 0x6b, 0x02, 0x5f, 0xe5, 0x5e, 0x83, 0xb0, 0x45, 0xd8, 0x09, 0xce, 0x5b, 0xba, 0x87, 0xa6 } },
    { { 0x81, 0xc4, 0x71, 0x0b, 0x02, 0xf3, 0x48, 0x96, 0x88, 0xe0, 0xbd, 0x87, 0xbd, 0xe2, 0x4a, 0x79,
        0x6e, 0x29, 0xf6, 0xe3, 0x54, 0x92, 0x2a, 0x31, 0x35, 0x4c, 0x16, 0xf6, 0xe8, 0xcf, 0x3a, 0xa6,
        0x45, 0x96, 0x85, 0x13, 0x2e, 0x77, 0xba, 0x71, 0xb1, 0xe8, 0x9b, 0x9e, 0xa6, 0xd2, 0xd9, 0x53 },
      { 0xab, 0xce, 0x2e, 0x27, 0xe5, 0x28, 0xbb, 0xb2, 0x91, 0xe8, 0xfe, 0x01, 0x16, 0x56, 0x0f, 0x6e,
        0x35, 0xef, 0xac, 0xb1, 0xce, 0xd0, 0x25, 0xc7, 0xe6, 0x1d, 0x96, 0x06, 0x13, 0x32, 0x28, 0xa3,
        0x46, 0x2f, 0x1d, 0x53, 0x43, 0xc4, 0x91, 0x3c, 0xba, 0x87, 0xa6, 0x94, 0xd9, 0xdd, 0x1a, 0xe2 } },
    { { 0xbd, 0x87, 0xbd, 0xe2, 0x4a, 0x79, 0x21, 0xec, 0x81, 0x7a, 0x8e, 0xf4, 0x3e, 0xd6, 0x77, 0x0d,
        0x16, 0xf6, 0xe8, 0xcf, 0x3a, 0xa6, 0x42, 0x1a, 0x61, 0x3c, 0xcf, 0xa3, 0xfb, 0x72, 0x7d, 0x6a,
        0xcf, 0x76, 0x92, 0x4d, 0xc6, 0xbd, 0x94, 0x48, 0xd2, 0xd9, 0x53, 0xe6, 0xd2, 0x3f, 0xce, 0x5e },
      { 0xfe, 0x01, 0x16, 0x56, 0x0f, 0x6e, 0x96, 0x9c, 0x72, 0xf6, 0x16, 0x88, 0x66, 0xd4, 0xa4, 0x6c,
        0x96, 0x06, 0x13, 0x32, 0x28, 0xa3, 0x7a, 0x0b, 0x91, 0xa6, 0xc4, 0x96, 0xed, 0x36, 0xd2, 0x2c,
        0x56, 0xbe, 0x36, 0x96, 0xa4, 0x24, 0x40, 0xd0, 0xdd, 0x1a, 0xe2, 0x4a, 0x78, 0x0b, 0xd2, 0xa5 } },
    { { 0x12, 0x94, 0x04, 0x53, 0xeb, 0xe3, 0x87, 0xb2, 0xa5, 0xfd, 0x8f, 0x47, 0x53, 0xc6, 0xf2, 0xa6,
        0x50, 0x4e, 0xdd, 0x42, 0xe2, 0xdb, 0x7b, 0x0f, 0xfd, 0xc5, 0xb3, 0xad, 0x01, 0xdf, 0xe1, 0xfc,
        0x35, 0xaa, 0xe1, 0xbe, 0x54, 0x72, 0x9e, 0xae, 0x92, 0x70, 0xf3, 0x72, 0xc1, 0x76, 0xde, 0x7c },
      { 0x96, 0xc5, 0xef, 0x5c, 0xed, 0x7d, 0xda, 0x60, 0x74, 0xf0, 0x7c, 0x43, 0xb7, 0x39, 0x6e, 0xf0,
        0x7d, 0x71, 0x9c, 0x47, 0x55, 0xdb, 0xbb, 0x23, 0x26, 0x0a, 0xd4, 0x56, 0x6a, 0x30, 0xda, 0x71,
        0x00, 0x02, 0xc2, 0xf6, 0xac, 0x10, 0x96, 0x05, 0x9b, 0x26, 0xf2, 0x5b, 0xf4, 0xa3, 0xa1, 0x69 } },
    { { 0x4a, 0x50, 0x11, 0x4f, 0xaf, 0x8e, 0x1e, 0xca, 0x97, 0xf6, 0x3d, 0x1d, 0x4f, 0x1b, 0xca, 0x9a,
        0x41, 0x3b, 0x75, 0x0b, 0x8b, 0x6d, 0xec, 0x3f, 0xf7, 0x16, 0xce, 0xb4, 0x07, 0x7f, 0x87, 0xf2,
        0xa7, 0xda, 0x12, 0xcc, 0x95, 0x04, 0x40, 0xd2, 0x24, 0xe1, 0xe6, 0xe5, 0x82, 0xed, 0xbc, 0xf8 },
      { 0x5b, 0x17, 0xbd, 0x73, 0xb5, 0xf7, 0x69, 0x81, 0xd3, 0xc1, 0xf1, 0x0e, 0xdc, 0xe5, 0xbb, 0xc3,
        0xf5, 0xc6, 0x71, 0x1d, 0x57, 0x6e, 0xec, 0x8c, 0x98, 0x2b, 0x51, 0x59, 0xa8, 0xc3, 0x69, 0xc6,
        0x9b, 0x24, 0x30, 0xad, 0x58, 0xb3, 0x37, 0x6c, 0x36, 0x4d, 0xe4, 0xb7, 0xe9, 0x47, 0x42, 0xd3 } },
};

/* The state is the stored one of this number, with these counts. */
static void is_stored(const calls *c, const stream *s, unsigned number, uint8_t ad_taken, uint8_t message_taken)
{
    uint8_t rest[16] = { 0 };

    rest[0] = c->kind;
    rest[1] = number == 5;
    rest[3] = 8;
    rest[5] = ad_taken;
    rest[7] = message_taken;
    rest[8] = (uint8_t)c->edition;
    CHECK(memcmp(s->state.bytes, stored_registers[number][c->edition - 1], 48) == 0);
    CHECK(memcmp(s->state.bytes + 48, rest, sizeof rest) == 0);
}

static void known_answers(const calls *c)
{
    static uint8_t payloads[][24] = {
        { 0x47, 0xfd, 0x82, 0x8e, 0x70, 0xea, 0x67, 0x0e, 0x6e, 0xbe, 0x4f, 0x5a,
          0x8e, 0x9c, 0x94, 0x37, 0xa7, 0xda, 0x12, 0xcc, 0x95, 0x04, 0x40, 0xd2 },
        { 0x96, 0xd1, 0xbd, 0xa7, 0xae, 0x11, 0xf0, 0xba, 0x88, 0xbd, 0x33, 0xea,
          0x86, 0x9b, 0x83, 0xa6, 0xd9, 0x24, 0x0c, 0xb5, 0x1a, 0xcd, 0xec, 0x36 },
    };
    slice counted = counting(16, 0), sealed;
    stream s = begun(c, 8);

    sealed.bytes = payloads[c->edition - 1];
    sealed.len = sizeof *payloads;
    is_stored(c, &s, 0, 0, 0);
    next_piece(&s, counted, 0, 3);
    CHECK(c->ad(&s) == start_up(c) + 64);
    is_stored(c, &s, 1, 3, 0);
    next_piece(&s, counted, 3, 5);
    CHECK(c->ad(&s) == start_up(c) + 144);
    is_stored(c, &s, 2, 8, 0);
    next_piece(&s, c->kind == SEALING ? counted : sealed, 0, 5);
    CHECK(c->data(&s) == start_up(c) + 224);
    CHECK(c->kind == CHECKING || memcmp(s.out.bytes, sealed.bytes, 5) == 0);
    is_stored(c, &s, 3, 8, 5);
    next_piece(&s, c->kind == SEALING ? counted : sealed, 5, 11);
    CHECK(c->data(&s) == start_up(c) + 400);
    CHECK(c->kind == CHECKING || memcmp(s.out.bytes, sealed.bytes + 5, 11) == 0);
    is_stored(c, &s, 4, 8, 16);
    before_finish(&s, sealed);
    CHECK(c->finish(&s) == start_up(c) + 402);
    CHECK(c->kind == CHECKING || memcmp(s.out.bytes, sealed.bytes + 16, 8) == 0);
    is_stored(c, &s, 5, 8, 16);
    free(counted.bytes);
    release(&s);
}

static void short_state(stream *s)
{
    resize(&s->state, TIKHOPLAV_STATE_SIZE - 1);
}

static void long_state(stream *s)
{
    resize(&s->state, TIKHOPLAV_STATE_SIZE + 1);
}

static void no_state(stream *s)
{
    resize(&s->state, 0);
}

static void edition_0(stream *s)
{
    s->edition = 0;
}

static void edition_of_32_bits(stream *s)
{
    s->edition |= 0x80000000;
}

static void short_key(stream *s)
{
    resize(&s->key, TIKHOPLAV_KEY_SIZE - 1);
}

static void long_key(stream *s)
{
    resize(&s->key, TIKHOPLAV_KEY_SIZE + 1);
}

static void short_nonce(stream *s)
{
    resize(&s->nonce, TIKHOPLAV_NONCE_SIZE - 1);
}

static void long_nonce(stream *s)
{
    resize(&s->nonce, TIKHOPLAV_NONCE_SIZE + 1);
}

static void blank_key(stream *s)
{
    memset(s->key.bytes, 0, s->key.len);
}

static void long_ad(stream *s)
{
    s->ad_len = TIKHOPLAV_AD_MAX + 1;
}

static void ad_length_of_all_bits(stream *s)
{
    s->ad_len = (size_t)-1;
}

/* Legal, were it cut to 32 bits. */
static void ad_length_of_33_bits(stream *s)
{
    s->ad_len |= (size_t)1 << 32;
}

static void byte_63(stream *s)
{
    s->state.bytes[63] = 0x80;
}

static void other_kind(stream *s)
{
    s->state.bytes[48] ^= SEALING ^ CHECKING;
}

static void finished_already(stream *s)
{
    s->state.bytes[49] = 1;
    memcpy(s->state.bytes + 52, s->state.bytes + 50, 2);
}

/* A byte is missing, and none of the message is there. */
static void ad_incomplete(stream *s)
{
    s->state.bytes[51]++;
    memset(s->state.bytes + 54, 0, 2);
}

static void ad_past_its_length(stream *s)
{
    resize(&s->piece, s->ad_len + 1);
}

/* With the piece, a byte too many. */
static void nearly_full(stream *s)
{
    size_t taken = TIKHOPLAV_MESSAGE_MAX + 1 - s->piece.len;

    s->state.bytes[54] = (uint8_t)(taken >> 8);
    s->state.bytes[55] = (uint8_t)(taken & 0xff);
}

static void long_piece(stream *s)
{
    resize(&s->piece, TIKHOPLAV_MESSAGE_MAX + 1);
}

static void short_tag(stream *s)
{
    resize(&s->piece, TIKHOPLAV_TAG_SIZE - 1);
}

static void long_tag(stream *s)
{
    resize(&s->piece, TIKHOPLAV_TAG_SIZE + 1);
}

static void short_output(stream *s)
{
    resize(&s->out, s->out.len - 1);
}

static void no_output(stream *s)
{
    resize(&s->out, 0);
}

static void first_bit_of_the_tag(stream *s)
{
    s->piece.bytes[0] ^= 0x80;
}

static void last_bit_of_the_tag(stream *s)
{
    s->piece.bytes[s->piece.len - 1] ^= 1;
}

#define COUNT(table) (sizeof(table) / sizeof *(table))

/* A place of the state, and a value with which it can't occur: of kind, phase, AD taken, message taken and edition, and
   each of the zeros. */
static const uint8_t unsound[][2] = {
    { 48, 0 }, { 48, 3 }, { 49, 2 }, { 52, 0xff }, { 54, 0xff }, { 56, 0 }, { 56, 3 },    { 57, 1 },
    { 58, 1 }, { 59, 1 }, { 60, 1 }, { 61, 1 },    { 62, 1 },    { 63, 1 }, { 63, 0x80 },
};

static void unsound_states(call *f, stream *s)
{
    uint8_t *byte, before;
    size_t i;

    for (i = 0; i < COUNT(unsound); i++) {
        byte = &s->state.bytes[unsound[i][0]];
        before = *byte;
        *byte = unsound[i][1];
        refused(f, s, TIKHOPLAV_REFUSED_UNSOUND_STATE);
        *byte = before;
    }
}

/* What spoils a legal call, and the answer then. */
typedef struct {
    void (*spoil)(stream *);
    int64_t answer;
} fault;

/* All in the order of the checks. The first two are of the begins that name an edition. */
static const fault faults_of_begin[] = {
    { edition_0, TIKHOPLAV_REFUSED_UNKNOWN_EDITION },
    { edition_of_32_bits, TIKHOPLAV_REFUSED_UNKNOWN_EDITION },
    { short_key, TIKHOPLAV_REFUSED_KEY_SIZE },
    { long_key, TIKHOPLAV_REFUSED_KEY_SIZE },
    { short_nonce, TIKHOPLAV_REFUSED_NONCE_SIZE },
    { long_nonce, TIKHOPLAV_REFUSED_NONCE_SIZE },
    { blank_key, TIKHOPLAV_REFUSED_BLANK_KEY },
    { long_ad, TIKHOPLAV_REFUSED_AD_TOO_LONG },
    { ad_length_of_all_bits, TIKHOPLAV_REFUSED_AD_TOO_LONG },
    { ad_length_of_33_bits, TIKHOPLAV_REFUSED_AD_TOO_LONG },
    { short_state, TIKHOPLAV_REFUSED_UNSOUND_STATE },
    { long_state, TIKHOPLAV_REFUSED_UNSOUND_STATE },
    { no_state, TIKHOPLAV_REFUSED_UNSOUND_STATE },
};

static const fault faults_of_all_others[] = {
    { short_state, TIKHOPLAV_REFUSED_UNSOUND_STATE },
    { long_state, TIKHOPLAV_REFUSED_UNSOUND_STATE },
    { byte_63, TIKHOPLAV_REFUSED_UNSOUND_STATE },
    { other_kind, TIKHOPLAV_REFUSED_OUT_OF_TURN },
    { finished_already, TIKHOPLAV_REFUSED_OUT_OF_TURN },
};

static const fault faults_of_ad[] = {
    { ad_past_its_length, TIKHOPLAV_REFUSED_OUT_OF_TURN },
};

static const fault faults_of_message[] = {
    { ad_incomplete, TIKHOPLAV_REFUSED_OUT_OF_TURN },
    { nearly_full, TIKHOPLAV_REFUSED_MESSAGE_TOO_LONG },
    { long_piece, TIKHOPLAV_REFUSED_MESSAGE_TOO_LONG },
    { no_output, TIKHOPLAV_REFUSED_OUTPUT_TOO_SHORT },
    { short_output, TIKHOPLAV_REFUSED_OUTPUT_TOO_SHORT },
};

static const fault faults_of_ciphertext[] = {
    { ad_incomplete, TIKHOPLAV_REFUSED_OUT_OF_TURN },
    { nearly_full, TIKHOPLAV_REFUSED_MESSAGE_TOO_LONG },
    { long_piece, TIKHOPLAV_REFUSED_MESSAGE_TOO_LONG },
};

static const fault faults_of_sealing_finish[] = {
    { ad_incomplete, TIKHOPLAV_REFUSED_OUT_OF_TURN },
    { no_output, TIKHOPLAV_REFUSED_OUTPUT_TOO_SHORT },
    { short_output, TIKHOPLAV_REFUSED_OUTPUT_TOO_SHORT },
};

static const fault faults_of_checking_finish[] = {
    { ad_incomplete, TIKHOPLAV_REFUSED_OUT_OF_TURN },
    { short_tag, TIKHOPLAV_REFUSED_SEALED_TOO_SHORT },
    { long_tag, TIKHOPLAV_REFUSED_SEALED_TOO_SHORT },
    { first_bit_of_the_tag, TIKHOPLAV_REFUSED_TAG_DIFFERS },
    { last_bit_of_the_tag, TIKHOPLAV_REFUSED_TAG_DIFFERS },
};

/* A stream for which the call is legal. */
typedef stream maker(const calls *);

enum { AD_LEN = 4, MESSAGE_LEN = 10 };

static stream before_ad(const calls *c)
{
    stream s = begun(c, AD_LEN);

    s.piece = counting(AD_LEN, 0);
    return s;
}

/* Some of the data is taken. */
static stream before_data(const calls *c)
{
    stream s = filled(c, AD_LEN, MESSAGE_LEN, 3);
    slice more = counting(5, 0);

    next_piece(&s, more, 0, 5);
    free(more.bytes);
    return s;
}

static stream before_end(const calls *c)
{
    return filled(c, AD_LEN, MESSAGE_LEN, 7);
}

static stream before_begin(const calls *c)
{
    return unbegun(c, AD_LEN);
}

/* Fault number i of two tables, one behind the other. */
static const fault *of_two(const fault *first, size_t first_count, const fault *second, size_t i)
{
    return i < first_count ? &first[i] : &second[i - first_count];
}

/* Every fault alone, and every two, of which the earlier one is the answer. The later one is made first, so that it
   can't undo the earlier one. */
static void refusals(const calls *c, call *f, maker *make, const fault *first, size_t first_count, const fault *second,
                     size_t second_count)
{
    const fault *earlier, *later;
    size_t i, k;
    stream s;

    for (i = 0; i < first_count + second_count; i++)
        for (k = i; k < first_count + second_count; k++) {
            earlier = of_two(first, first_count, second, i);
            later = of_two(first, first_count, second, k);
            s = make(c);
            if (later != earlier)
                later->spoil(&s);
            earlier->spoil(&s);
            refused(f, &s, earlier->answer);
            release(&s);
        }
    s = make(c);
    if (f != c->begin)
        unsound_states(f, &s);
    CHECK(f(&s) > 0);
    release(&s);
}

#define FAULTS(table) faults_of_all_others, COUNT(faults_of_all_others), table, COUNT(table)

static void all_refusals(const calls *c)
{
    size_t unnamed = c->begin == sealing_begin || c->begin == checking_begin ? 2 : 0;

    refusals(c, c->begin, before_begin, faults_of_begin + unnamed, COUNT(faults_of_begin) - unnamed, NULL, 0);
    refusals(c, c->ad, before_ad, FAULTS(faults_of_ad));
    if (c->kind == SEALING) {
        refusals(c, c->data, before_data, FAULTS(faults_of_message));
        refusals(c, c->finish, before_end, FAULTS(faults_of_sealing_finish));
    } else {
        refusals(c, c->data, before_data, FAULTS(faults_of_ciphertext));
        refusals(c, c->finish, before_end, FAULTS(faults_of_checking_finish));
    }
}

/* A piece of AD, a piece of data and a finish are refused. */
static void all_refused(const calls *c, const stream *s, int64_t answer)
{
    refused(c->ad, s, answer);
    refused(c->data, s, answer);
    refused(c->finish, s, answer);
}

static void out_of_turn(const calls *c, const stream *s)
{
    all_refused(c, s, TIKHOPLAV_REFUSED_OUT_OF_TURN);
}

/* Counts that can't occur together: finished, or with some of the message, before the AD is complete; and a byte over
   the limit. */
static void unsound_counts(const calls *c)
{
    stream s = before_ad(c);

    s.state.bytes[49] = 1;
    all_refused(c, &s, TIKHOPLAV_REFUSED_UNSOUND_STATE);
    s.state.bytes[49] = 0;
    s.state.bytes[55] = 1;
    all_refused(c, &s, TIKHOPLAV_REFUSED_UNSOUND_STATE);
    release(&s);
    s = before_data(c);
    s.state.bytes[54] = (TIKHOPLAV_MESSAGE_MAX + 1) >> 8;
    s.state.bytes[55] = (TIKHOPLAV_MESSAGE_MAX + 1) & 0xff;
    all_refused(c, &s, TIKHOPLAV_REFUSED_UNSOUND_STATE);
    release(&s);
}

/* In each place of a stream, the calls of the other kind; before the AD is complete, what comes after it; after finish,
   all but a begin. */
static void wrong_order(const calls *c)
{
    const calls *other = &all[c->kind == SEALING ? 3 : 0];
    stream s = before_ad(c);

    out_of_turn(other, &s);
    refused(c->data, &s, TIKHOPLAV_REFUSED_OUT_OF_TURN);
    refused(c->finish, &s, TIKHOPLAV_REFUSED_OUT_OF_TURN);
    s.piece.len--;
    CHECK(c->ad(&s) == clocks(c, AD_LEN, AD_LEN - 1));
    out_of_turn(other, &s);
    out_of_turn(c, &s);
    s.piece.len = 0;
    refused(c->data, &s, TIKHOPLAV_REFUSED_OUT_OF_TURN);
    release(&s);
    s = before_end(c);
    out_of_turn(other, &s);
    refused(c->ad, &s, TIKHOPLAV_REFUSED_OUT_OF_TURN);
    finished(c, &s, MESSAGE_LEN);
    out_of_turn(other, &s);
    out_of_turn(c, &s);
    s.piece.len = 0;
    out_of_turn(c, &s);
    CHECK(c->begin(&s) == clocks(c, AD_LEN, 0));
    release(&s);
}

/* Bytes that no begin was called on, and a begin on them. */
static void any_bytes(const calls *c)
{
    stream s = before_ad(c), other = before_ad(c);
    unsigned byte;

    for (byte = 0; byte < 256; byte += 17) {
        memset(s.state.bytes, (int)byte, s.state.len);
        all_refused(c, &s, TIKHOPLAV_REFUSED_UNSOUND_STATE);
        CHECK(c->begin(&s) == clocks(c, AD_LEN, 0));
        CHECK(same(s.state, other.state));
    }
    release(&s);
    release(&other);
}

/* A tag with any bit changed is refused, and the stream stays open for the right one. */
static void still_open(const calls *c)
{
    stream s = before_end(c);
    unsigned bit;

    for (bit = 0; bit < 8 * TIKHOPLAV_TAG_SIZE && c->kind == CHECKING; bit++) {
        s.piece.bytes[bit / 8] ^= (uint8_t)(1u << bit % 8);
        refused(c->finish, &s, TIKHOPLAV_REFUSED_TAG_DIFFERS);
        s.piece.bytes[bit / 8] ^= (uint8_t)(1u << bit % 8);
    }
    finished(c, &s, MESSAGE_LEN);
    release(&s);
}

/* An output that is longer than needed is untouched behind what is written. */
static void longer_outputs(const calls *c)
{
    slice before = lent(100);
    stream s = before_data(c);

    lend(&s, 100);
    CHECK(c->data(&s) > 0);
    CHECK(memcmp(s.out.bytes + 5, before.bytes + 5, 95) == 0);
    release(&s);
    s = before_end(c);
    lend(&s, 100);
    CHECK(c->finish(&s) > 0);
    CHECK(memcmp(s.out.bytes + 8, before.bytes + 8, 92) == 0);
    release(&s);
    free(before.bytes);
}

/* Empty pieces without a buffer, in every place; they change nothing. */
static void null_pointers_of_length_zero(const calls *c)
{
    stream s = begun(c, AD_LEN), none;
    slice before = copy(s.state);

    CHECK(c->ad(&s) == clocks(c, AD_LEN, 0));
    CHECK(same(s.state, before));
    give_ad(c, &s, 1);
    free(before.bytes);
    before = copy(s.state);
    none = s;
    none.piece = none.out = NOTHING;
    CHECK(c->ad(&none) == clocks(c, AD_LEN, AD_LEN));
    CHECK(c->data(&none) == clocks(c, AD_LEN, AD_LEN));
    CHECK(same(s.state, before));
    CHECK(c->finish(&none) == (c->kind == SEALING ? TIKHOPLAV_REFUSED_OUTPUT_TOO_SHORT
                                                  : TIKHOPLAV_REFUSED_SEALED_TOO_SHORT));
    CHECK(same(s.state, before));
    none.state = NOTHING;
    CHECK(c->begin(&none) == TIKHOPLAV_REFUSED_UNSOUND_STATE);
    CHECK(c->ad(&none) == TIKHOPLAV_REFUSED_UNSOUND_STATE);
    CHECK(c->data(&none) == TIKHOPLAV_REFUSED_UNSOUND_STATE);
    CHECK(c->finish(&none) == TIKHOPLAV_REFUSED_UNSOUND_STATE);
    none.nonce = NOTHING;
    CHECK(c->begin(&none) == TIKHOPLAV_REFUSED_NONCE_SIZE);
    none.key = NOTHING;
    CHECK(c->begin(&none) == TIKHOPLAV_REFUSED_KEY_SIZE);
    free(before.bytes);
    release(&s);
}

/* Copies of a state, at every alignment, go on as the state itself. */
static void copied_states(const calls *c)
{
    stream s = before_end(c), moved = s;
    slice tag = copy(s.piece), buffer = lent(TIKHOPLAV_STATE_SIZE + 15);
    size_t shift;

    for (shift = 0; shift < 16; shift++) {
        moved.state.bytes = buffer.bytes + shift;
        memcpy(moved.state.bytes, s.state.bytes, s.state.len);
        CHECK(c->finish(&moved) == clocks(c, AD_LEN, AD_LEN + MESSAGE_LEN) + 2);
        CHECK(c->kind == CHECKING || same(moved.out, tag));
    }
    free(tag.bytes);
    free(buffer.bytes);
    release(&s);
}

/* The largest job, and a byte more of anything. */
static void limits(const calls *c)
{
    stream s = filled(c, TIKHOPLAV_AD_MAX, TIKHOPLAV_MESSAGE_MAX, 4096);

    refused(c->ad, &s, TIKHOPLAV_REFUSED_OUT_OF_TURN);
    refused(c->data, &s, TIKHOPLAV_REFUSED_MESSAGE_TOO_LONG);
    s.piece.len = 1;
    refused(c->ad, &s, TIKHOPLAV_REFUSED_OUT_OF_TURN);
    refused(c->data, &s, TIKHOPLAV_REFUSED_MESSAGE_TOO_LONG);
    s.piece.len = 0;
    CHECK(c->data(&s) == clocks(c, TIKHOPLAV_AD_MAX, TIKHOPLAV_AD_MAX + TIKHOPLAV_MESSAGE_MAX));
    s.piece.len = TIKHOPLAV_TAG_SIZE;
    CHECK(c->finish(&s) == (c->edition == TIKHOPLAV_EDITION_1 ? 2032034 : 2032162));
    release(&s);
}

/* Under one key and nonce the two editions differ, and the begin that names none is that of edition 1. */
static void editions(void)
{
    stream first = begun(&all[1], AD_LEN), second = begun(&all[2], AD_LEN), unnamed = begun(&all[0], AD_LEN);

    CHECK(same(first.state, unnamed.state));
    CHECK(memcmp(first.state.bytes, second.state.bytes, 48) != 0);
    CHECK(first.state.bytes[56] == 1 && second.state.bytes[56] == 2);
    release(&first);
    release(&second);
    release(&unnamed);
}

/* A thread with a stream of its own. It checks nothing itself, but tells whether all was as it should be. */
typedef struct {
    pthread_t thread;
    const calls *c;
    size_t piece;
    slice ad, data, made;
    stream s;
    int held;
} worker;

static int step(worker *w, call *f, slice whole, size_t done)
{
    w->s.piece.bytes = whole.bytes + done;
    w->s.piece.len = whole.len - done < w->piece ? whole.len - done : w->piece;
    w->s.out.bytes = w->made.bytes + done;
    w->s.out.len = w->s.piece.len;
    return f(&w->s) > 0;
}

static void *work(void *argument)
{
    worker *w = (worker *)argument;
    size_t done;

    w->held = w->c->begin(&w->s) > 0;
    for (done = 0; done < w->ad.len; done += w->s.piece.len)
        w->held = step(w, w->c->ad, w->ad, done) && w->held;
    for (done = 0; done < w->data.len; done += w->s.piece.len)
        w->held = step(w, w->c->data, w->data, done) && w->held;
    w->s.piece.bytes = w->s.out.bytes = w->made.bytes + w->data.len;
    w->s.piece.len = w->s.out.len = TIKHOPLAV_TAG_SIZE;
    w->held = w->c->finish(&w->s) == clocks(w->c, w->ad.len, w->ad.len + w->data.len) + 2 && w->held;
    return NULL;
}

enum { THREADS = 12, THREAD_AD = 500, THREAD_MESSAGE = 2500 };

/* What it needs: for sealing the message and room for the payload, for checking the payload. */
static void prepare(worker *w, size_t number)
{
    slice sealed;

    w->c = &all[number % COUNT(all)];
    w->piece = 1 + number;
    sealed = payload(w->c->edition, THREAD_AD, THREAD_MESSAGE);
    w->ad = counting(THREAD_AD, 0);
    w->data = w->c->kind == SEALING ? counting(THREAD_MESSAGE, 0) : copy(sealed);
    w->data.len = THREAD_MESSAGE;
    w->made = w->c->kind == SEALING ? lent(sealed.len) : copy(sealed);
    w->s = unbegun(w->c, THREAD_AD);
    free(sealed.bytes);
}

/* The thread's stream was accepted, and has made, or checked, the payload. */
static void judge(worker *w)
{
    slice sealed = payload(w->c->edition, THREAD_AD, THREAD_MESSAGE);

    CHECK(w->held);
    CHECK(same(w->made, sealed));
    w->s.piece = w->s.out = NOTHING;
    release(&w->s);
    free(w->ad.bytes);
    free(w->data.bytes);
    free(w->made.bytes);
    free(sealed.bytes);
}

static void a_stream_per_thread(void)
{
    static worker workers[THREADS];
    size_t i;

    for (i = 0; i < THREADS; i++) {
        prepare(&workers[i], i);
        CHECK(pthread_create(&workers[i].thread, NULL, work, &workers[i]) == 0);
    }
    for (i = 0; i < THREADS; i++)
        CHECK(pthread_join(workers[i].thread, NULL) == 0);
    for (i = 0; i < THREADS; i++)
        judge(&workers[i]);
}

/* As in the header: seals a byte at a time, checks what came of it, and opens it. */
static void example_of_the_header(void)
{
    static const uint8_t key[TIKHOPLAV_KEY_SIZE] = "no real key", nonce[TIKHOPLAV_NONCE_SIZE] = "never twice";
    static const uint8_t ad[] = { 0x07, 0xe8 }, message[] = "2400 rpm";
    uint8_t sealed[sizeof message + TIKHOPLAV_TAG_SIZE], opened[sizeof message], state[TIKHOPLAV_STATE_SIZE];
    uint8_t *tag = sealed + sizeof message;
    size_t i;

    CHECK(tikhoplav_sealing_begin(state, sizeof state, key, sizeof key, nonce, sizeof nonce, sizeof ad) == 400);
    CHECK(tikhoplav_sealing_ad(state, sizeof state, ad, sizeof ad) == 432);
    for (i = 0; i < sizeof message; i++)
        CHECK(tikhoplav_sealing_message(state, sizeof state, message + i, 1, sealed + i, 1) > 0);
    CHECK(tikhoplav_sealing_finish(state, sizeof state, tag, TIKHOPLAV_TAG_SIZE) == 578);
    CHECK(tikhoplav_checking_begin(state, sizeof state, key, sizeof key, nonce, sizeof nonce, sizeof ad) == 400);
    CHECK(tikhoplav_checking_ad(state, sizeof state, ad, sizeof ad) == 432);
    for (i = 0; i < sizeof message; i++)
        CHECK(tikhoplav_checking_ciphertext(state, sizeof state, sealed + i, 1) > 0);
    CHECK(tikhoplav_checking_finish(state, sizeof state, tag, TIKHOPLAV_TAG_SIZE) == 578);
    CHECK(tikhoplav_open(key, sizeof key, nonce, sizeof nonce, ad, sizeof ad, sealed, sizeof sealed, opened,
                         sizeof opened) == (int64_t)sizeof message);
    CHECK(memcmp(opened, message, sizeof message) == 0);
}

static void constants(void)
{
    CHECK(TIKHOPLAV_STATE_SIZE == 64);
    CHECK(TIKHOPLAV_REFUSED_OUT_OF_TURN == -13);
    CHECK(TIKHOPLAV_REFUSED_UNSOUND_STATE == -14);
}

int main(void)
{
    size_t i;

    constants();
    for (i = 0; i < COUNT(all); i++) {
        known_answers(&all[i]);
        cuttings(&all[i]);
        all_refusals(&all[i]);
        wrong_order(&all[i]);
        unsound_counts(&all[i]);
        any_bytes(&all[i]);
        still_open(&all[i]);
        longer_outputs(&all[i]);
        null_pointers_of_length_zero(&all[i]);
        copied_states(&all[i]);
    }
    for (i = 0; i < COUNT(all); i++)
        if (all[i].begin == sealing_begin_named || all[i].begin == checking_begin_named)
            limits(&all[i]);
    editions();
    example_of_the_header();
    a_stream_per_thread();
    printf("%u checks hold\n", checks);
    return 0;
}
