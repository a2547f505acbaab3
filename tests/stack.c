/* How much stack the calls take. They run on a stack that is filled with a pattern, and what they leave of it is
   counted. */
#include <float.h>
#include <stdio.h>
#include <stdlib.h>
#include <string.h>
#include <ucontext.h>

#include "sections.h"

/* What the header says. */
enum { ENOUGH = 2048 };

enum { STACK_SIZE = 1 << 16, PATTERN = 0xa5 };

static uint8_t stack[STACK_SIZE];
static uint8_t key[TIKHOPLAV_KEY_SIZE] = { 1 }, blank[TIKHOPLAV_KEY_SIZE];
static uint8_t nonce[TIKHOPLAV_NONCE_SIZE], ad[TIKHOPLAV_AD_MAX];
static uint8_t message[TIKHOPLAV_MESSAGE_MAX], sealed[TIKHOPLAV_SEALED_MAX];
static uint8_t field[TIKHOPLAV_FRAME_MAX], frame_message[TIKHOPLAV_FRAME_MESSAGE_MAX];
static uint8_t state[TIKHOPLAV_STATE_SIZE], tag[TIKHOPLAV_TAG_SIZE];
static uint8_t with_authentication[TIKHOPLAV_NONCE_SIZE] = { 0x80 };
static uint8_t short_key[TIKHOPLAV_GRAINV1_KEY_SIZE] = { 1 }, short_nonce[TIKHOPLAV_GRAINV1_NONCE_SIZE];
static uint8_t capture[TIKHOPLAV_CAPTURE_MAX + 1];
static int64_t answer;

/* What the next call on a stream is given: the edition, and the length of AD, piece, output or tag. What the next call
   of Grain-128a is given: the bits of the tag, and the length of message or sealed input. What the next one of Grain v1
   is given: the length of the message. What the next one on captures is given: the length of the capture, and a frame's
   number. What the next one on signals is given: the length of the message, start, width, sign, and a double that is
   scale, offset and high limit, and minus the low one. */
static uint32_t edition, tag_bits, start, width, is_signed;
static size_t len;
static uint64_t frame_number, value_bits;
static double real;

static void no_call(void)
{
    answer = 0;
}

static void seal_nothing(void)
{
    answer = tikhoplav_seal(key, sizeof key, nonce, sizeof nonce, NULL, 0, NULL, 0, sealed, sizeof sealed);
}

static void seal_the_largest(void)
{
    answer = tikhoplav_seal(key, sizeof key, nonce, sizeof nonce, ad, sizeof ad, message, sizeof message, sealed,
                            sizeof sealed);
}

static void seal_too_much(void)
{
    answer = tikhoplav_seal(key, sizeof key, nonce, sizeof nonce, ad, sizeof ad, sealed, sizeof sealed, message,
                            sizeof message);
}

static void seal_under_the_blank_key(void)
{
    answer = tikhoplav_seal(blank, sizeof blank, nonce, sizeof nonce, ad, sizeof ad, message, sizeof message, sealed,
                            sizeof sealed);
}

static void open_the_largest(void)
{
    answer = tikhoplav_open(key, sizeof key, nonce, sizeof nonce, ad, sizeof ad, sealed, sizeof sealed, message,
                            sizeof message);
}

static void open_without_the_ad(void)
{
    answer = tikhoplav_open(key, sizeof key, nonce, sizeof nonce, NULL, 0, sealed, sizeof sealed, message,
                            sizeof message);
}

static void seal_the_largest_of_edition_2(void)
{
    answer = tikhoplav_seal_edition(TIKHOPLAV_EDITION_2, key, sizeof key, nonce, sizeof nonce, ad, sizeof ad, message,
                                    sizeof message, sealed, sizeof sealed);
}

static void open_it_under_edition_1(void)
{
    answer = tikhoplav_open_edition(TIKHOPLAV_EDITION_1, key, sizeof key, nonce, sizeof nonce, ad, sizeof ad, sealed,
                                    sizeof sealed, message, sizeof message);
}

static void open_it_under_edition_2(void)
{
    answer = tikhoplav_open_edition(TIKHOPLAV_EDITION_2, key, sizeof key, nonce, sizeof nonce, ad, sizeof ad, sealed,
                                    sizeof sealed, message, sizeof message);
}

static void seal_the_largest_of_edition_1(void)
{
    answer = tikhoplav_seal_edition(TIKHOPLAV_EDITION_1, key, sizeof key, nonce, sizeof nonce, ad, sizeof ad, message,
                                    sizeof message, sealed, sizeof sealed);
}

static void seal_under_no_edition(void)
{
    answer = tikhoplav_seal_edition(0, key, sizeof key, nonce, sizeof nonce, ad, sizeof ad, message, sizeof message,
                                    sealed, sizeof sealed);
}

static void open_under_no_edition(void)
{
    answer = tikhoplav_open_edition(3, key, sizeof key, nonce, sizeof nonce, ad, sizeof ad, sealed, sizeof sealed,
                                    message, sizeof message);
}

static void size_of_the_largest(void)
{
    answer = tikhoplav_ciphertext_size(sealed, sizeof sealed);
}

static void make_an_empty_frame(void)
{
    answer = tikhoplav_frame_make(key, sizeof key, nonce, sizeof nonce, 0, NULL, 0, field, sizeof field);
}

static void make_the_largest_frame(void)
{
    answer = tikhoplav_frame_make(key, sizeof key, nonce, sizeof nonce, TIKHOPLAV_IDENTIFIER_MAX, frame_message,
                                  sizeof frame_message, field, sizeof field);
}

static void make_the_largest_frame_of_edition_2(void)
{
    answer = tikhoplav_frame_make_edition(TIKHOPLAV_EDITION_2, key, sizeof key, nonce, sizeof nonce,
                                          TIKHOPLAV_IDENTIFIER_MAX, frame_message, sizeof frame_message, field,
                                          sizeof field);
}

static void make_too_large_a_frame(void)
{
    answer = tikhoplav_frame_make(key, sizeof key, nonce, sizeof nonce, 0, field, sizeof field, message,
                                  sizeof message);
}

static void make_a_frame_under_no_edition(void)
{
    answer = tikhoplav_frame_make_edition(0, key, sizeof key, nonce, sizeof nonce, 0, NULL, 0, field, sizeof field);
}

static void read_the_frame(void)
{
    answer = tikhoplav_frame_read(key, sizeof key, nonce, sizeof nonce, TIKHOPLAV_IDENTIFIER_MAX,
                                  TIKHOPLAV_LENGTH_CODE_MAX, field, sizeof field, frame_message,
                                  sizeof frame_message);
}

static void read_the_frame_under_edition_2(void)
{
    answer = tikhoplav_frame_read_edition(TIKHOPLAV_EDITION_2, key, sizeof key, nonce, sizeof nonce,
                                          TIKHOPLAV_IDENTIFIER_MAX, TIKHOPLAV_LENGTH_CODE_MAX, field, sizeof field,
                                          frame_message, sizeof frame_message);
}

static void read_a_frame_of_zeros(void)
{
    answer = tikhoplav_frame_read(key, sizeof key, nonce, sizeof nonce, 0, 9, blank, 12, NULL, 0);
}

static void read_a_frame_of_another_length(void)
{
    answer = tikhoplav_frame_read(key, sizeof key, nonce, sizeof nonce, 0, 9, field, sizeof field, frame_message,
                                  sizeof frame_message);
}

static void read_a_frame_under_no_edition(void)
{
    answer = tikhoplav_frame_read_edition(3, key, sizeof key, nonce, sizeof nonce, 0, 9, field, 12, NULL, 0);
}

static void length_of_the_largest_code(void)
{
    answer = tikhoplav_coded_length(TIKHOPLAV_LENGTH_CODE_MAX);
}

static void code_of_the_largest_frame(void)
{
    answer = tikhoplav_length_code(sizeof field);
}

static void begin_sealing(void)
{
    answer = tikhoplav_sealing_begin(state, sizeof state, key, sizeof key, nonce, sizeof nonce, len);
}

static void begin_checking(void)
{
    answer = tikhoplav_checking_begin(state, sizeof state, key, sizeof key, nonce, sizeof nonce, len);
}

static void begin_sealing_under_the_edition(void)
{
    answer = tikhoplav_sealing_begin_edition(edition, state, sizeof state, key, sizeof key, nonce, sizeof nonce, len);
}

static void begin_checking_under_the_edition(void)
{
    answer = tikhoplav_checking_begin_edition(edition, state, sizeof state, key, sizeof key, nonce, sizeof nonce, len);
}

static void begin_sealing_under_no_edition(void)
{
    answer = tikhoplav_sealing_begin_edition(0, state, sizeof state, key, sizeof key, nonce, sizeof nonce, len);
}

static void begin_checking_under_no_edition(void)
{
    answer = tikhoplav_checking_begin_edition(3, state, sizeof state, key, sizeof key, nonce, sizeof nonce, len);
}

static void begin_sealing_in_a_short_state(void)
{
    answer = tikhoplav_sealing_begin(state, sizeof state - 1, key, sizeof key, nonce, sizeof nonce, len);
}

static void begin_checking_under_the_blank_key(void)
{
    answer = tikhoplav_checking_begin(state, sizeof state, blank, sizeof blank, nonce, sizeof nonce, len);
}

static void sealing_ad(void)
{
    answer = tikhoplav_sealing_ad(state, sizeof state, ad, len);
}

static void checking_ad(void)
{
    answer = tikhoplav_checking_ad(state, sizeof state, ad, len);
}

/* The message is the front of the AD's bytes, which are more than a message may have. */
static void sealing_message(void)
{
    answer = tikhoplav_sealing_message(state, sizeof state, ad, len, sealed, sizeof sealed);
}

static void sealing_message_without_room(void)
{
    answer = tikhoplav_sealing_message(state, sizeof state, ad, len, NULL, 0);
}

static void checking_ciphertext(void)
{
    answer = tikhoplav_checking_ciphertext(state, sizeof state, sealed, len);
}

static void sealing_finish(void)
{
    answer = tikhoplav_sealing_finish(state, sizeof state, tag, len);
}

static void checking_finish(void)
{
    answer = tikhoplav_checking_finish(state, sizeof state, tag, len);
}

static void checking_finish_with_another_tag(void)
{
    answer = tikhoplav_checking_finish(state, sizeof state, key, len);
}

/* The message is the front of the AD's bytes here too. */
static void grain128a_seal(void)
{
    answer = tikhoplav_grain128a_seal(key, sizeof key, with_authentication, sizeof with_authentication, tag_bits, ad,
                                      len, sealed, sizeof sealed);
}

static void grain128a_seal_under_the_blank_key(void)
{
    answer = tikhoplav_grain128a_seal(blank, sizeof blank, with_authentication, sizeof with_authentication, tag_bits,
                                      ad, len, sealed, sizeof sealed);
}

static void grain128a_seal_in_the_other_mode(void)
{
    answer = tikhoplav_grain128a_seal(key, sizeof key, nonce, sizeof nonce, tag_bits, ad, len, sealed, sizeof sealed);
}

static void grain128a_seal_without_room(void)
{
    answer = tikhoplav_grain128a_seal(key, sizeof key, with_authentication, sizeof with_authentication, tag_bits, ad,
                                      len, NULL, 0);
}

static void grain128a_open(void)
{
    answer = tikhoplav_grain128a_open(key, sizeof key, with_authentication, sizeof with_authentication, tag_bits,
                                      sealed, len, message, sizeof message);
}

static void grain128a_open_in_the_other_mode(void)
{
    answer = tikhoplav_grain128a_open(key, sizeof key, nonce, sizeof nonce, tag_bits, sealed, len, message,
                                      sizeof message);
}

static void grain128a_crypt(void)
{
    answer = tikhoplav_grain128a_crypt(key, sizeof key, nonce, sizeof nonce, ad, len, sealed, sizeof sealed);
}

static void grain128a_crypt_in_the_other_mode(void)
{
    answer = tikhoplav_grain128a_crypt(key, sizeof key, with_authentication, sizeof with_authentication, ad, len,
                                       sealed, sizeof sealed);
}

static void grain128a_crypt_without_room(void)
{
    answer = tikhoplav_grain128a_crypt(key, sizeof key, nonce, sizeof nonce, ad, len, NULL, 0);
}

static void grainv1_crypt(void)
{
    answer = tikhoplav_grainv1_crypt(short_key, sizeof short_key, short_nonce, sizeof short_nonce, ad, len, sealed,
                                     sizeof sealed);
}

static void grainv1_crypt_with_a_long_key(void)
{
    answer = tikhoplav_grainv1_crypt(key, sizeof key, short_nonce, sizeof short_nonce, ad, len, sealed, sizeof sealed);
}

static void grainv1_crypt_with_a_long_nonce(void)
{
    answer = tikhoplav_grainv1_crypt(short_key, sizeof short_key, nonce, sizeof nonce, ad, len, sealed, sizeof sealed);
}

static void grainv1_crypt_without_room(void)
{
    answer = tikhoplav_grainv1_crypt(short_key, sizeof short_key, short_nonce, sizeof short_nonce, ad, len, NULL, 0);
}

static void capture_frames(void)
{
    answer = tikhoplav_capture_frames(capture, len);
}

static void capture_frame(void)
{
    answer = tikhoplav_capture_frame(capture, len, frame_number);
}

static void capture_frame_size(void)
{
    answer = tikhoplav_capture_frame_size(capture, len, frame_number);
}

static void signal_of_a_message(void)
{
    answer = tikhoplav_signal(message, len, start, width, is_signed, real, real, -real, real, &value_bits);
}

typedef struct {
    void (*run)(void);
    int64_t expected;
} trial;

static const trial trials[] = {
    { seal_nothing, TIKHOPLAV_TAG_SIZE },
    { seal_the_largest, TIKHOPLAV_SEALED_MAX },
    { seal_too_much, TIKHOPLAV_REFUSED_MESSAGE_TOO_LONG },
    { seal_under_the_blank_key, TIKHOPLAV_REFUSED_BLANK_KEY },
    { open_the_largest, TIKHOPLAV_MESSAGE_MAX },
    { open_without_the_ad, TIKHOPLAV_REFUSED_TAG_DIFFERS },
    { seal_the_largest_of_edition_2, TIKHOPLAV_SEALED_MAX },
    { open_it_under_edition_1, TIKHOPLAV_REFUSED_TAG_DIFFERS },
    { open_it_under_edition_2, TIKHOPLAV_MESSAGE_MAX },
    { seal_the_largest_of_edition_1, TIKHOPLAV_SEALED_MAX },
    { open_it_under_edition_1, TIKHOPLAV_MESSAGE_MAX },
    { seal_under_no_edition, TIKHOPLAV_REFUSED_UNKNOWN_EDITION },
    { open_under_no_edition, TIKHOPLAV_REFUSED_UNKNOWN_EDITION },
    { size_of_the_largest, TIKHOPLAV_MESSAGE_MAX },
    { make_an_empty_frame, 12 },
    { make_the_largest_frame, TIKHOPLAV_FRAME_MAX },
    { read_the_frame, TIKHOPLAV_FRAME_MESSAGE_MAX },
    { read_the_frame_under_edition_2, TIKHOPLAV_REFUSED_TAG_DIFFERS },
    { make_the_largest_frame_of_edition_2, TIKHOPLAV_FRAME_MAX },
    { read_the_frame_under_edition_2, TIKHOPLAV_FRAME_MESSAGE_MAX },
    { read_the_frame, TIKHOPLAV_REFUSED_TAG_DIFFERS },
    { make_too_large_a_frame, TIKHOPLAV_REFUSED_FRAME_MESSAGE_TOO_LONG },
    { make_a_frame_under_no_edition, TIKHOPLAV_REFUSED_UNKNOWN_EDITION },
    { read_a_frame_of_zeros, TIKHOPLAV_REFUSED_TAG_DIFFERS },
    { read_a_frame_of_another_length, TIKHOPLAV_REFUSED_NOT_CODED_LENGTH },
    { read_a_frame_under_no_edition, TIKHOPLAV_REFUSED_UNKNOWN_EDITION },
    { length_of_the_largest_code, TIKHOPLAV_FRAME_MAX },
    { code_of_the_largest_frame, TIKHOPLAV_LENGTH_CODE_MAX },
};

typedef struct {
    void (*run)(void);
    size_t len;
    int64_t expected;
} stream_trial;

/* On a state of zeros, and begins that name no edition. */
static const stream_trial stream_trials[] = {
    { sealing_ad, 0, TIKHOPLAV_REFUSED_UNSOUND_STATE },
    { checking_ad, 0, TIKHOPLAV_REFUSED_UNSOUND_STATE },
    { sealing_message, 0, TIKHOPLAV_REFUSED_UNSOUND_STATE },
    { checking_ciphertext, 0, TIKHOPLAV_REFUSED_UNSOUND_STATE },
    { sealing_finish, 0, TIKHOPLAV_REFUSED_UNSOUND_STATE },
    { checking_finish, 0, TIKHOPLAV_REFUSED_UNSOUND_STATE },
    { begin_sealing_under_no_edition, 0, TIKHOPLAV_REFUSED_UNKNOWN_EDITION },
    { begin_checking_under_no_edition, 0, TIKHOPLAV_REFUSED_UNKNOWN_EDITION },
    { begin_checking_under_the_blank_key, 0, TIKHOPLAV_REFUSED_BLANK_KEY },
    { begin_sealing, TIKHOPLAV_AD_MAX + 1, TIKHOPLAV_REFUSED_AD_TOO_LONG },
    { begin_sealing_in_a_short_state, 0, TIKHOPLAV_REFUSED_UNSOUND_STATE },
    { begin_sealing, 0, 400 },
    { begin_sealing, TIKHOPLAV_AD_MAX, 432 },
    { begin_checking, 0, 400 },
    { begin_checking, TIKHOPLAV_AD_MAX, 432 },
};

/* Streams under each edition: nothing, and the largest job, sealed and checked. What is expected where a call is
   accepted is the clocks without start-up. */
static const stream_trial stream_trials_of_each_edition[] = {
    { begin_sealing_under_the_edition, 0, 16 },
    { sealing_ad, 0, 16 },
    { sealing_ad, 1, TIKHOPLAV_REFUSED_OUT_OF_TURN },
    { sealing_message, 0, 16 },
    { checking_ciphertext, 0, TIKHOPLAV_REFUSED_OUT_OF_TURN },
    { sealing_finish, TIKHOPLAV_TAG_SIZE - 1, TIKHOPLAV_REFUSED_OUTPUT_TOO_SHORT },
    { sealing_finish, TIKHOPLAV_TAG_SIZE, 18 },
    { sealing_finish, TIKHOPLAV_TAG_SIZE, TIKHOPLAV_REFUSED_OUT_OF_TURN },
    { begin_checking_under_the_edition, 0, 16 },
    { checking_ad, 0, 16 },
    { checking_ciphertext, 0, 16 },
    { sealing_message, 0, TIKHOPLAV_REFUSED_OUT_OF_TURN },
    { checking_finish, TIKHOPLAV_TAG_SIZE, 18 },
    { begin_sealing_under_the_edition, TIKHOPLAV_AD_MAX, 48 },
    { sealing_message, 1, TIKHOPLAV_REFUSED_OUT_OF_TURN },
    { sealing_ad, 1, 64 },
    { sealing_ad, TIKHOPLAV_AD_MAX - 1, 1048608 },
    { sealing_message, 1, 1048624 },
    { sealing_message, TIKHOPLAV_MESSAGE_MAX, TIKHOPLAV_REFUSED_MESSAGE_TOO_LONG },
    { sealing_message_without_room, 1, TIKHOPLAV_REFUSED_OUTPUT_TOO_SHORT },
    { begin_sealing_under_the_edition, TIKHOPLAV_AD_MAX, 48 },
    { sealing_ad, TIKHOPLAV_AD_MAX, 1048608 },
    { sealing_message, TIKHOPLAV_MESSAGE_MAX, 2031648 },
    { sealing_finish, TIKHOPLAV_TAG_SIZE, 2031650 },
    { begin_checking_under_the_edition, TIKHOPLAV_AD_MAX, 48 },
    { checking_ad, 1, 64 },
    { checking_ad, TIKHOPLAV_AD_MAX, TIKHOPLAV_REFUSED_OUT_OF_TURN },
    { checking_ad, TIKHOPLAV_AD_MAX - 1, 1048608 },
    { checking_ciphertext, TIKHOPLAV_MESSAGE_MAX, 2031648 },
    { checking_ciphertext, 1, TIKHOPLAV_REFUSED_MESSAGE_TOO_LONG },
    { checking_finish, TIKHOPLAV_TAG_SIZE - 1, TIKHOPLAV_REFUSED_SEALED_TOO_SHORT },
    { checking_finish_with_another_tag, TIKHOPLAV_TAG_SIZE, TIKHOPLAV_REFUSED_TAG_DIFFERS },
    { checking_finish, TIKHOPLAV_TAG_SIZE, 2031650 },
};

typedef struct {
    void (*run)(void);
    uint32_t tag_bits;
    size_t len;
    int64_t expected;
} grain128a_trial;

static const grain128a_trial grain128a_trials[] = {
    { grain128a_seal, 1, 0, 1 },
    { grain128a_seal, 32, 0, 4 },
    { grain128a_open, 32, 4, 0 },
    { grain128a_open, 9, 1, TIKHOPLAV_REFUSED_SEALED_TOO_SHORT },
    { grain128a_seal, 1, TIKHOPLAV_MESSAGE_MAX, TIKHOPLAV_MESSAGE_MAX + 1 },
    { grain128a_open, 1, TIKHOPLAV_MESSAGE_MAX + 1, TIKHOPLAV_MESSAGE_MAX },
    { grain128a_seal, 13, TIKHOPLAV_MESSAGE_MAX, TIKHOPLAV_MESSAGE_MAX + 2 },
    { grain128a_open, 13, TIKHOPLAV_MESSAGE_MAX + 2, TIKHOPLAV_MESSAGE_MAX },
    { grain128a_seal, 32, TIKHOPLAV_MESSAGE_MAX, TIKHOPLAV_MESSAGE_MAX + 4 },
    { grain128a_open, 32, TIKHOPLAV_MESSAGE_MAX + 4, TIKHOPLAV_MESSAGE_MAX },
    { grain128a_open, 32, TIKHOPLAV_MESSAGE_MAX + 3, TIKHOPLAV_REFUSED_TAG_DIFFERS },
    { grain128a_open, 24, TIKHOPLAV_MESSAGE_MAX + 4, TIKHOPLAV_REFUSED_MESSAGE_TOO_LONG },
    { grain128a_seal, 32, TIKHOPLAV_MESSAGE_MAX + 1, TIKHOPLAV_REFUSED_MESSAGE_TOO_LONG },
    { grain128a_seal, 0, 0, TIKHOPLAV_REFUSED_TAG_LENGTH },
    { grain128a_open, 33, 4, TIKHOPLAV_REFUSED_TAG_LENGTH },
    { grain128a_seal_under_the_blank_key, 32, 0, TIKHOPLAV_REFUSED_BLANK_KEY },
    { grain128a_seal_in_the_other_mode, 32, 0, TIKHOPLAV_REFUSED_NONCE_MODE },
    { grain128a_seal_without_room, 32, 0, TIKHOPLAV_REFUSED_OUTPUT_TOO_SHORT },
    { grain128a_open_in_the_other_mode, 32, 4, TIKHOPLAV_REFUSED_NONCE_MODE },
    { grain128a_crypt, 0, 0, 0 },
    { grain128a_crypt, 0, 1, 1 },
    { grain128a_crypt, 0, TIKHOPLAV_MESSAGE_MAX, TIKHOPLAV_MESSAGE_MAX },
    { grain128a_crypt, 0, TIKHOPLAV_MESSAGE_MAX + 1, TIKHOPLAV_REFUSED_MESSAGE_TOO_LONG },
    { grain128a_crypt_in_the_other_mode, 0, 0, TIKHOPLAV_REFUSED_NONCE_MODE },
    { grain128a_crypt_without_room, 0, 1, TIKHOPLAV_REFUSED_OUTPUT_TOO_SHORT },
};

typedef struct {
    void (*run)(void);
    size_t len;
    int64_t expected;
} grainv1_trial;

static const grainv1_trial grainv1_trials[] = {
    { grainv1_crypt, 0, 0 },
    { grainv1_crypt, 1, 1 },
    { grainv1_crypt, 9, 9 },
    { grainv1_crypt, TIKHOPLAV_MESSAGE_MAX - 1, TIKHOPLAV_MESSAGE_MAX - 1 },
    { grainv1_crypt, TIKHOPLAV_MESSAGE_MAX, TIKHOPLAV_MESSAGE_MAX },
    { grainv1_crypt, TIKHOPLAV_MESSAGE_MAX + 1, TIKHOPLAV_REFUSED_MESSAGE_TOO_LONG },
    { grainv1_crypt_with_a_long_key, 1, TIKHOPLAV_REFUSED_KEY_SIZE },
    { grainv1_crypt_with_a_long_nonce, 1, TIKHOPLAV_REFUSED_NONCE_SIZE },
    { grainv1_crypt_without_room, 1, TIKHOPLAV_REFUSED_OUTPUT_TOO_SHORT },
};

static size_t no_capture(uint8_t *at)
{
    (void)at;
    return 0;
}

static size_t no_entries(uint8_t *at)
{
    return section_at(at, 0).end;
}

static size_t most_entries(uint8_t *at)
{
    return frames_at(at, TIKHOPLAV_CAPTURE_ENTRIES_MAX, TIKHOPLAV_LENGTH_CODE_MAX);
}

static size_t too_many_entries(uint8_t *at)
{
    return frames_at(at, TIKHOPLAV_CAPTURE_ENTRIES_MAX + 1, 0);
}

static size_t deepest(uint8_t *at)
{
    return chain_at(at, TIKHOPLAV_CAPTURE_DEPTH_MAX);
}

/* A break at the deepest place. */
static size_t broken_at_the_deepest(uint8_t *at)
{
    size_t size = deepest(at);

    at[size - TIKHOPLAV_CAPTURE_DATA_AT] = 0x20;
    return size;
}

static size_t too_deep(uint8_t *at)
{
    return chain_at(at, TIKHOPLAV_CAPTURE_DEPTH_MAX + 1);
}

static size_t longest(uint8_t *at)
{
    return longest_at(at, 0);
}

static size_t too_long(uint8_t *at)
{
    return longest_at(at, 1);
}

/* A capture, what counting its frames answers, and the place of its last frame. */
typedef struct {
    size_t (*write)(uint8_t *at);
    int64_t frames, last;
} capture_trial;

static const capture_trial capture_trials[] = {
    { no_capture, TIKHOPLAV_REFUSED_BROKEN_CAPTURE, 0 },
    { no_entries, 0, 0 },
    { most_entries, TIKHOPLAV_CAPTURE_ENTRIES_MAX, 2042 + 254 * 17 },
    { too_many_entries, TIKHOPLAV_REFUSED_BROKEN_CAPTURE, 0 },
    { deepest, 1, 10 * TIKHOPLAV_CAPTURE_DEPTH_MAX },
    { broken_at_the_deepest, TIKHOPLAV_REFUSED_BROKEN_CAPTURE, 0 },
    { too_deep, TIKHOPLAV_REFUSED_TOO_DEEP, 0 },
    { longest, FRAMES_OF_THE_LONGEST, TIKHOPLAV_CAPTURE_MAX - 41 },
    { too_long, TIKHOPLAV_REFUSED_BROKEN_CAPTURE, 0 },
};

typedef struct {
    size_t len;
    uint32_t start, width, is_signed;
    double real;
    int64_t expected;
} signal_trial;

/* The message is zeros. */
static const signal_trial signal_trials[] = {
    { 0, 0, 1, 0, 1.0, TIKHOPLAV_REFUSED_SIGNAL_PLACE },
    { 8, 0, 33, 0, 1.0, TIKHOPLAV_REFUSED_SIGNAL_PLACE },
    { 8, UINT32_MAX, 32, 1, 1.0, TIKHOPLAV_REFUSED_SIGNAL_PLACE },
    { 8, 0, 32, 1, DBL_MAX * 2, TIKHOPLAV_REFUSED_SIGNAL_NUMBERS },
    { 8, 0, 32, 1, -1.0, TIKHOPLAV_REFUSED_SIGNAL_NUMBERS },
    { 1, 0, 1, 0, 1.0, TIKHOPLAV_SIGNAL_WITHIN },
    { 1, 0, 8, 1, 1.0, TIKHOPLAV_SIGNAL_WITHIN },
    { 8, 7, 32, 0, 1.0, TIKHOPLAV_SIGNAL_WITHIN },
    { 8, 32, 32, 1, DBL_MAX, TIKHOPLAV_SIGNAL_WITHIN },
    { TIKHOPLAV_MESSAGE_MAX, 8 * TIKHOPLAV_MESSAGE_MAX - 32, 32, 1, 0.1, TIKHOPLAV_SIGNAL_WITHIN },
};

/* Those of a message of ones. */
static const signal_trial signal_trials_of_ones[] = {
    { 8, 0, 32, 0, 1.0, TIKHOPLAV_SIGNAL_ABOVE },
    { 8, 3, 32, 1, 1.0, TIKHOPLAV_SIGNAL_WITHIN },
    { 8, 7, 8, 1, DBL_MAX, TIKHOPLAV_SIGNAL_WITHIN },
    { 8, 0, 32, 0, DBL_MAX, TIKHOPLAV_SIGNAL_NOT_FINITE },
    { 8, 0, 2, 0, 5e-324, TIKHOPLAV_SIGNAL_ABOVE },
};

/* The bytes from the lowest one that is not as it was filled up to the top. */
static size_t used(void (*run)(void))
{
    ucontext_t caller, callee;
    size_t left = 0;

    memset(stack, PATTERN, sizeof stack);
    getcontext(&callee);
    callee.uc_stack.ss_sp = stack;
    callee.uc_stack.ss_size = sizeof stack;
    callee.uc_link = &caller;
    makecontext(&callee, run, 0);
    swapcontext(&caller, &callee);
    while (left < sizeof stack && stack[left] == PATTERN)
        left++;
    return sizeof stack - left;
}

/* What a call takes beside what is taken without one. It has to answer this. */
static size_t taken(void (*run)(void), int64_t expected, const char *table, size_t number)
{
    size_t without = used(no_call), with = used(run);

    if (answer != expected) {
        fprintf(stderr, "tests/stack.c: call %zu of %s answers %lld\n", number, table, (long long)answer);
        exit(1);
    }
    return with - without;
}

static size_t larger(size_t a, size_t b)
{
    return a > b ? a : b;
}

static size_t most_of_trials(void)
{
    size_t i, most = 0;

    for (i = 0; i < sizeof trials / sizeof *trials; i++)
        most = larger(most, taken(trials[i].run, trials[i].expected, "trials", i));
    return most;
}

/* The start-up's clocks are added to what is expected of a call that is accepted. */
static size_t most_of_streams(const stream_trial *table, size_t count, int64_t start_up)
{
    size_t i, most = 0;
    int64_t expected;

    for (i = 0; i < count; i++) {
        len = table[i].len;
        expected = table[i].expected;
        most = larger(most, taken(table[i].run, expected < 0 ? expected : expected + start_up, "a stream", i));
    }
    return most;
}

static size_t most_of_grain128a(void)
{
    size_t i, most = 0;

    for (i = 0; i < sizeof grain128a_trials / sizeof *grain128a_trials; i++) {
        tag_bits = grain128a_trials[i].tag_bits;
        len = grain128a_trials[i].len;
        most = larger(most, taken(grain128a_trials[i].run, grain128a_trials[i].expected, "Grain-128a", i));
    }
    return most;
}

static size_t most_of_grainv1(void)
{
    size_t i, most = 0;

    for (i = 0; i < sizeof grainv1_trials / sizeof *grainv1_trials; i++) {
        len = grainv1_trials[i].len;
        most = larger(most, taken(grainv1_trials[i].run, grainv1_trials[i].expected, "Grain v1", i));
    }
    return most;
}

/* All three calls: the latter two on the last frame, and on a number past it. */
static size_t most_of_captures(void)
{
    size_t i, most = 0;
    const capture_trial *t;
    int64_t past;

    for (i = 0; i < sizeof capture_trials / sizeof *capture_trials; i++) {
        t = &capture_trials[i];
        len = t->write(capture);
        most = larger(most, taken(capture_frames, t->frames, "captures", i));
        frame_number = UINT64_MAX;
        past = t->frames < 0 ? t->frames : TIKHOPLAV_REFUSED_PAST_LAST_FRAME;
        most = larger(most, taken(capture_frame, past, "captures", i));
        most = larger(most, taken(capture_frame_size, past, "captures", i));
        if (t->frames > 0) {
            frame_number = (uint64_t)t->frames - 1;
            most = larger(most, taken(capture_frame, t->last, "captures", i));
            most = larger(most, taken(capture_frame_size, (int64_t)len - t->last, "captures", i));
        }
    }
    return most;
}

static size_t most_of_signals(const signal_trial *table, size_t count, uint8_t byte)
{
    size_t i, most = 0;

    memset(message, byte, sizeof message);
    for (i = 0; i < count; i++) {
        len = table[i].len;
        start = table[i].start;
        width = table[i].width;
        is_signed = table[i].is_signed;
        real = table[i].real;
        most = larger(most, taken(signal_of_a_message, table[i].expected, "signals", i));
    }
    return most;
}

int main(void)
{
    const size_t once = sizeof stream_trials / sizeof *stream_trials;
    const size_t each = sizeof stream_trials_of_each_edition / sizeof *stream_trials_of_each_edition;
    size_t others = most_of_trials(), streams = most_of_streams(stream_trials, once, 0);
    size_t grain128a = most_of_grain128a(), grainv1 = most_of_grainv1(), captures = most_of_captures();
    size_t signals = most_of_signals(signal_trials, sizeof signal_trials / sizeof *signal_trials, 0), most;

    for (edition = TIKHOPLAV_EDITION_1; edition <= TIKHOPLAV_EDITION_2; edition++)
        streams = larger(streams, most_of_streams(stream_trials_of_each_edition, each,
                                                  edition == TIKHOPLAV_EDITION_1 ? 384 : 512));
    signals = larger(signals, most_of_signals(signal_trials_of_ones,
                                              sizeof signal_trials_of_ones / sizeof *signal_trials_of_ones, 0xff));
    most = larger(larger(larger(others, captures), larger(streams, signals)), larger(grain128a, grainv1));
    printf("at most %zu bytes; in the calls on captures, %zu; in that on signals, %zu; in those on streams, %zu; in "
           "those of Grain-128a, %zu; in that of Grain v1, %zu\n",
           most, captures, signals, streams, grain128a, grainv1);
    if (most > ENOUGH) {
        fprintf(stderr, "tests/stack.c: the header says %d\n", ENOUGH);
        return 1;
    }
    return 0;
}
