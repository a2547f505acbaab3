/*
 * Tikhoplav: Grain-128AEAD, both editions. Sealing and opening of whole byte strings; the two parts of a sealed one;
 * sealed CAN FD frames, captures of frames, signals in opened messages, and payloads that arrive in pieces, each with a
 * section of its own below. Grain-128a, with and without authentication, and Grain v1, which is for reading old tags
 * only, have the last two sections, which say all that is different there.
 *
 * Sealing enciphers a message under a key and a nonce, and appends a tag over the message and its associated data
 * (AD). Opening recomputes the tag, and hands out the message only if the tag is right. The AD is authenticated and
 * not enciphered; it is no part of the sealed payload, and the opener must have it from elsewhere.
 *
 *     sealed payload = ciphertext (as long as the message), then the tag (8 bytes)
 *
 * The two editions
 *
 *   Edition 1 is Grain-128AEAD, edition 2 is Grain-128AEADv2. A call whose name ends with _edition names the edition;
 *   the call whose name lacks that ending means edition 1. (A stream keeps to the edition that it began under.) The two
 *   editions don't open one another: opening under the wrong one is like opening under a wrong key, and answers
 *   TIKHOPLAV_REFUSED_TAG_DIFFERS (a tag of 64 bits can't exclude that it fits by chance). Nothing in a payload or a
 *   frame tells its edition: both sides have to agree on it beforehand.
 *
 *   Which one a partner's box is likely to speak: edition 2, if it says Grain-128AEADv2, or was written after about
 *   2021; that is what the designers sent to the last round of NIST's lightweight cryptography project, and what their
 *   reference code is for. Edition 1, if it says Grain-128AEAD without v2, or its firmware is older. Everything that a
 *   version of this library before 3.2.0 sealed is edition 1.
 *
 *   They differ in two things, the order of bits and start-up. All else is one and the same: the registers and how they
 *   are loaded, running, the tag, the coded length of the AD, sizes, limits and refusals.
 *
 *                                   edition 1                      edition 2
 *     the bits of every byte        from the top bit down          from the lowest bit up
 *     start-up: clocks that feed    256                            320, and 64 more that also add key bits 64 to 127
 *       the pre-output back                                        to the LFSR and key bits 0 to 63 to the NFSR
 *     start-up: clocks that fill    128, which add key bits 0      128, which add nothing
 *       accumulator and register    to 127 to the LFSR
 *     running starts at clock       384                            512
 *
 *   The order of bits is that of key, nonce, coded length of the AD, AD, message, ciphertext and tag. No published
 *   vector of edition 2 was at hand to confirm its order: it rests on the designers' reference code. (The state of a
 *   stream has an order of its own, which is the same under both editions.)
 *
 * What the archive needs
 *
 *   Link with -ltikhoplav. The code is for x86-64 and the System V calling convention (it uses the red zone and SSE2).
 *   The symbol that it needs from elsewhere is memset. It allocates nothing. It has no global state, so
 *   calls may run at the same time in any number of threads, as long as nobody writes to a buffer that a running call
 *   reads, or touches one that it writes.
 *
 *   A call takes at most 2048 bytes of stack below its caller's frame. This is measured, up to the largest lengths, and
 *   not proved: 1273 bytes for sealing and opening, 1401 for making and reading a frame, 536 for the calls on
 *   captures (at depth 6), 40 for that on signals, 1065 for those on streams, 889 for those of Grain-128a, 168 for that
 *   of Grain v1, with the memset of the GNU C library. Where it stands in a shared library and is bound at its first
 *   use, the dynamic linker takes stack of its own in that call (about 3 KiB more on Linux).
 *
 * What the caller owes
 *
 *   - Each pointer leads to as many bytes as the length after it says: readable, and for `out` and `state` writable.
 *     (`value_bits`, of the call on signals, leads to one number.)
 *   - `out` overlaps none of the call's inputs, and `state` none of the call's other buffers. (The inputs are only
 *     read, and may overlap one another.)
 *   - A nonce is never used for two sealings under one key. If it is, secrecy is lost, and no call can notice it.
 *     Making a frame is a sealing, and so is a sealing stream.
 *   - A key is used with one cipher, Grain-128AEAD, Grain-128a or Grain v1.
 *   - The key is random and secret. Of the keys that can be guessed the calls notice one, 16 zero bytes (the blank
 *     key), and refuse it. (That of Grain v1, whose keys have another size, notices none.)
 *
 *   A slice of length 0 may have any pointer, NULL included: nothing is read or written through it. So an empty AD,
 *   message or piece is NULL, 0; and the output of opening or reading an empty message may be NULL, 0.
 *
 * What a call answers
 *
 *   Sealing and opening, making and reading a frame, the calls of Grain-128a and that of Grain v1: success is the count
 *   of bytes written, 0 or more. They stand at the front of `out`; every byte of `out` behind them is untouched. A
 *   refusal is one of the negative numbers below, and then every byte of `out` is as it was before the call. In
 *   particular a wrong tag hands out no bit of the message: nothing is written until the tag is known to be right.
 *
 *   The calls on streams: success is the clocks so far, 400 or more. A refusal is one of the negative numbers too, and
 *   then every byte of `state` and of `out` is as it was before the call.
 *
 *   tikhoplav_ciphertext_size: a length, 0 or more. It refuses nothing and writes nothing.
 *
 *   tikhoplav_coded_length and tikhoplav_length_code: a length and a length code, 0 or more, or one refusal. They write
 *   nothing.
 *
 *   The calls on captures: a count of frames, a place in the capture or a length, 0 or more, or a refusal. They write
 *   nothing.
 *
 *   The call on signals: a number from 1 to 4, which says how the value lies to its limits, or a refusal, and then
 *   *value_bits is as it was before the call.
 *
 * The length of the AD, and payloads of earlier versions
 *
 *   The tag is over the length of the AD too. It stands before the AD, coded in the shortest form that X.690 has for it
 *   (DER): up to 127, one byte with that value; from 128 to 255, byte 0x81 and one byte; from 256 on, byte 0x82 and two
 *   bytes, high byte first.
 *
 *   Versions before 2.0.0 coded 128 to 255 as byte 0x82 and two bytes. Payloads that they sealed with an AD of 128 to
 *   255 bytes no longer open: the answer is TIKHOPLAV_REFUSED_TAG_DIFFERS. Nor do those versions open what this one
 *   seals with such an AD.
 *
 *   Versions before 2.1.0 have lower limits. What this one seals above them they refuse, with
 *   TIKHOPLAV_REFUSED_AD_TOO_LONG or TIKHOPLAV_REFUSED_MESSAGE_TOO_LONG.
 *
 *   Versions before 3.0.0 take the blank key. What they sealed under it this version refuses, with
 *   TIKHOPLAV_REFUSED_BLANK_KEY: open it with the version that sealed it, and seal it again under a random key.
 *
 *   Versions before 3.2.0 have edition 1 alone. What this one seals under edition 2 they refuse, with
 *   TIKHOPLAV_REFUSED_TAG_DIFFERS.
 *
 *   Apart from these four, each version opens what another seals.
 *
 *   Versions before 3.3.0 have no frames. What stands in a frame between its first byte and its filler is a sealed
 *   payload like any other: they open it with the AD of the frame, under an edition that they have.
 *
 *   Versions before 3.4.0 have no streams. What a sealing stream gives, ciphertext and tag, is a sealed payload like
 *   any other: they open it, under an edition that they have.
 *
 *   Versions before 3.5.0 have no Grain-128a. What this one seals with it they don't open.
 *
 *   Versions before 3.6.0 have no Grain v1.
 *
 *   Versions before 3.7.0 have no captures. The frames in one are frames like any other: those versions read them, from
 *   3.3.0 on.
 *
 *   Versions before 3.8.0 have no signals.
 *
 * What is not promised
 *
 *   How long a call takes. It grows with the lengths, and opening goes over the ciphertext twice; the tag is made by
 *   look-ups in a small table, at places that depend on the message. Nor does a call wipe the stack that it has used,
 *   nor a stream its state.
 *
 * Example: a whole program (a real key is random and secret)
 *
 *     #include <stdio.h>
 *     #include <tikhoplav.h>
 *
 *     int main(void)
 *     {
 *         static const uint8_t key[TIKHOPLAV_KEY_SIZE] = "no real key", nonce[TIKHOPLAV_NONCE_SIZE] = "never twice";
 *         static const uint8_t ad[] = { 0x07, 0xe8 }, message[] = "2400 rpm";
 *         uint8_t sealed[sizeof message + TIKHOPLAV_TAG_SIZE], opened[sizeof message];
 *         int64_t n = tikhoplav_seal(key, sizeof key, nonce, sizeof nonce, ad, sizeof ad,
 *                                    message, sizeof message, sealed, sizeof sealed);
 *         if (n >= 0)
 *             n = tikhoplav_open(key, sizeof key, nonce, sizeof nonce, ad, sizeof ad,
 *                                sealed, (size_t)n, opened, sizeof opened);
 *         return n < 0 ? (int)-n : puts((const char *)opened) == EOF;
 *     }
 */
#ifndef TIKHOPLAV_H
#define TIKHOPLAV_H

#include <stddef.h>
#include <stdint.h>

#ifdef __cplusplus
extern "C" {
#endif

#define TIKHOPLAV_VERSION "3.8.0"

/* The editions: Grain-128AEAD and Grain-128AEADv2. */
#define TIKHOPLAV_EDITION_1 1
#define TIKHOPLAV_EDITION_2 2

/* Sizes in bytes. A key and a nonce have exactly these; a sealed payload ends with exactly such a tag. */
#define TIKHOPLAV_KEY_SIZE 16
#define TIKHOPLAV_NONCE_SIZE 12
#define TIKHOPLAV_TAG_SIZE 8

/* The longest associated data, message and sealed payload, in bytes. Each may also be shorter: AD and message down to
   0 bytes, a sealed payload down to its tag. */
#define TIKHOPLAV_AD_MAX 65535
#define TIKHOPLAV_MESSAGE_MAX 61440
#define TIKHOPLAV_SEALED_MAX (TIKHOPLAV_MESSAGE_MAX + TIKHOPLAV_TAG_SIZE)

/*
 * Refusals of sealing and opening. The checks run in this order, which is not that of the numbers, and the first that
 * applies is the answer: a call with a short key and a long nonce answers -1, one with a blank key and too long an AD
 * answers -15, and an output that is too short answers -6 even where the tag is wrong too. An unknown edition answers
 * -23 whatever else is wrong. Making and reading a frame have some of these too, and five of their own; the calls on
 * captures have none of these, and three of their own; the call on signals has none of these, and two of its own; the
 * calls on streams have some, and two of their own; the calls of Grain-128a have some, with the sizes of its own tags,
 * and two of their own; that of Grain v1 has four of these, with the sizes of its own key and nonce. The sections on
 * frames, on captures, on signals, on streams, on Grain-128a and on Grain v1 have theirs, in the order of their checks.
 */

/* The calls that name an edition only: it is neither TIKHOPLAV_EDITION_1 nor TIKHOPLAV_EDITION_2. */
#define TIKHOPLAV_REFUSED_UNKNOWN_EDITION (-23)

/* key_len is not TIKHOPLAV_KEY_SIZE; with Grain v1, not TIKHOPLAV_GRAINV1_KEY_SIZE. */
#define TIKHOPLAV_REFUSED_KEY_SIZE (-1)

/* nonce_len is not TIKHOPLAV_NONCE_SIZE; with Grain v1, not TIKHOPLAV_GRAINV1_NONCE_SIZE. */
#define TIKHOPLAV_REFUSED_NONCE_SIZE (-2)

/* The key is blank: all of its 16 bytes are zero, as in a buffer that no key was ever copied to. What to do: for
   sealing and making draw a random key, for opening, reading and checking take the key that was used to seal. (Zeros of
   another length are TIKHOPLAV_REFUSED_KEY_SIZE.) */
#define TIKHOPLAV_REFUSED_BLANK_KEY (-15)

/* ad_len is over TIKHOPLAV_AD_MAX. */
#define TIKHOPLAV_REFUSED_AD_TOO_LONG (-3)

/* Sealing: message_len is over TIKHOPLAV_MESSAGE_MAX. Opening: sealed_len is over TIKHOPLAV_SEALED_MAX. A piece of
   message or ciphertext: what the stream has taken of it and piece_len add up to more than TIKHOPLAV_MESSAGE_MAX. */
#define TIKHOPLAV_REFUSED_MESSAGE_TOO_LONG (-4)

/* Opening: sealed_len is under TIKHOPLAV_TAG_SIZE. Finishing a checking stream: tag_len is not TIKHOPLAV_TAG_SIZE,
   under it or over. */
#define TIKHOPLAV_REFUSED_SEALED_TOO_SHORT (-5)

/* Sealing: out_len is under message_len + TIKHOPLAV_TAG_SIZE. Opening: out_len is under sealed_len -
   TIKHOPLAV_TAG_SIZE. Making a frame: out_len is under the length of the whole data field. Reading: out_len is under
   the message length that the data field has. A piece of the message: out_len is under piece_len. Finishing a sealing
   stream: out_len is under TIKHOPLAV_TAG_SIZE. */
#define TIKHOPLAV_REFUSED_OUTPUT_TOO_SHORT (-6)

/* Opening, reading and finishing a checking stream only: the tag is not the one that key, nonce, AD and ciphertext give
   under the edition. Any of the four, or the tag, differs from what was sealed, or it was sealed under the other
   edition, or a version before 2.0.0 sealed it with an AD of 128 to 255 bytes; which cannot be told. */
#define TIKHOPLAV_REFUSED_TAG_DIFFERS (-7)

/*
 * Seals message[0 .. message_len - 1].
 *
 * Writes the ciphertext to out[0 .. message_len - 1], the tag to the TIKHOPLAV_TAG_SIZE bytes after it, and answers
 * message_len + TIKHOPLAV_TAG_SIZE. Whenever the sizes are legal, the key is not blank and out_len is at least that, it
 * succeeds.
 *
 * Otherwise it answers the first of these that applies, and writes nothing:
 * KEY_SIZE, NONCE_SIZE, BLANK_KEY, AD_TOO_LONG, MESSAGE_TOO_LONG, OUTPUT_TOO_SHORT.
 */
int64_t tikhoplav_seal(const uint8_t *key, size_t key_len, const uint8_t *nonce, size_t nonce_len,
                       const uint8_t *ad, size_t ad_len, const uint8_t *message, size_t message_len,
                       uint8_t *out, size_t out_len);

/*
 * Opens sealed[0 .. sealed_len - 1]: a ciphertext, whose last TIKHOPLAV_TAG_SIZE bytes are its tag.
 *
 * If the tag is right, writes the message to out[0 .. sealed_len - TIKHOPLAV_TAG_SIZE - 1] and answers sealed_len -
 * TIKHOPLAV_TAG_SIZE, which is 0 for an empty message.
 *
 * Otherwise it answers the first of these that applies, and writes nothing:
 * KEY_SIZE, NONCE_SIZE, BLANK_KEY, AD_TOO_LONG, MESSAGE_TOO_LONG, SEALED_TOO_SHORT, OUTPUT_TOO_SHORT, TAG_DIFFERS.
 */
int64_t tikhoplav_open(const uint8_t *key, size_t key_len, const uint8_t *nonce, size_t nonce_len,
                       const uint8_t *ad, size_t ad_len, const uint8_t *sealed, size_t sealed_len,
                       uint8_t *out, size_t out_len);

/*
 * Seals message[0 .. message_len - 1] under an edition, TIKHOPLAV_EDITION_1 or TIKHOPLAV_EDITION_2. With
 * TIKHOPLAV_EDITION_1 it is tikhoplav_seal.
 *
 * Writes the ciphertext to out[0 .. message_len - 1], the tag to the TIKHOPLAV_TAG_SIZE bytes after it, and answers
 * message_len + TIKHOPLAV_TAG_SIZE. Whenever the edition is one of the two, the sizes are legal, the key is not blank
 * and out_len is at least that, it succeeds.
 *
 * Otherwise it answers the first of these that applies, and writes nothing:
 * UNKNOWN_EDITION, KEY_SIZE, NONCE_SIZE, BLANK_KEY, AD_TOO_LONG, MESSAGE_TOO_LONG, OUTPUT_TOO_SHORT.
 */
int64_t tikhoplav_seal_edition(uint32_t edition, const uint8_t *key, size_t key_len,
                               const uint8_t *nonce, size_t nonce_len, const uint8_t *ad, size_t ad_len,
                               const uint8_t *message, size_t message_len, uint8_t *out, size_t out_len);

/*
 * Opens sealed[0 .. sealed_len - 1] under an edition, TIKHOPLAV_EDITION_1 or TIKHOPLAV_EDITION_2: a ciphertext, whose
 * last TIKHOPLAV_TAG_SIZE bytes are its tag. With TIKHOPLAV_EDITION_1 it is tikhoplav_open.
 *
 * If the tag is right under that edition, writes the message to out[0 .. sealed_len - TIKHOPLAV_TAG_SIZE - 1] and
 * answers sealed_len - TIKHOPLAV_TAG_SIZE, which is 0 for an empty message.
 *
 * Otherwise it answers the first of these that applies, and writes nothing:
 * UNKNOWN_EDITION, KEY_SIZE, NONCE_SIZE, BLANK_KEY, AD_TOO_LONG, MESSAGE_TOO_LONG, SEALED_TOO_SHORT, OUTPUT_TOO_SHORT,
 * TAG_DIFFERS.
 */
int64_t tikhoplav_open_edition(uint32_t edition, const uint8_t *key, size_t key_len,
                               const uint8_t *nonce, size_t nonce_len, const uint8_t *ad, size_t ad_len,
                               const uint8_t *sealed, size_t sealed_len, uint8_t *out, size_t out_len);

/*
 * The two parts of sealed[0 .. sealed_len - 1], of any length, whole or cut short: answers the length n of the
 * ciphertext part. The tag part begins behind it and runs to the end.
 *
 *     ciphertext part = the n bytes at sealed
 *     tag part        = the sealed_len - n bytes at sealed + n
 *
 * If sealed_len is at least TIKHOPLAV_TAG_SIZE, the tag part is the last TIKHOPLAV_TAG_SIZE bytes, so n is sealed_len -
 * TIKHOPLAV_TAG_SIZE. Otherwise the input is too short to have a tag: the ciphertext part is the whole input, the tag
 * part is empty, and n is sealed_len. No other input has n == sealed_len.
 *
 * No tag is checked and nothing is deciphered. tikhoplav_open refuses an input too short to have a tag, with
 * SEALED_TOO_SHORT unless an earlier check applies.
 */
int64_t tikhoplav_ciphertext_size(const uint8_t *sealed, size_t sealed_len);

/*
 * Sealed CAN FD frames
 *
 *   The length codes of CAN FD (DLC), and the bytes of the data field that each means (ISO 11898-1):
 *
 *     code     0   1   2   3   4   5   6   7   8   9  10  11  12  13  14  15
 *     bytes    0   1   2   3   4   5   6   7   8  12  16  20  24  32  48  64
 *
 * The data field of a sealed frame
 *
 *     from place   bytes       what
 *     0            1           M, the length of the message: 0 to 55
 *     1            M           the ciphertext
 *     M + 1        8           the tag
 *     M + 9        the rest    filler: zeros, up to the smallest of the lengths above that holds M + 9
 *
 *     M                         0 to 3   4 to 7   8 to 11   12 to 15   16 to 23   24 to 39   40 to 55
 *     code of the data field         9       10        11         12         13         14         15
 *     bytes of the data field       12       16        20         24         32         48         64
 *
 *   Ciphertext and tag are what sealing gives for the message and an AD of 5 bytes: the identifier in four bytes, high
 *   byte first, then the length code of the data field in one. So the AD of a message of 9 bytes under identifier 0x7e8
 *   is 00 00 07 e8 0b.
 *
 *   The tag is over neither M nor the filler. Reading refuses filler that is not all zeros, and an M for which the code
 *   is not the smallest. Any other M that is not the true one marks other bytes as ciphertext and as tag, and the tag
 *   decides.
 *
 * What making and reading refuse
 *
 *   The checks run in this order, and the first that applies is the answer.
 *
 *     making                      reading
 *     UNKNOWN_EDITION        -23  UNKNOWN_EDITION        -23  only in the calls that name an edition
 *     KEY_SIZE                -1  KEY_SIZE                -1
 *     NONCE_SIZE              -2  NONCE_SIZE              -2
 *     BLANK_KEY              -15  BLANK_KEY              -15
 *     IDENTIFIER_TOO_LARGE    -8  IDENTIFIER_TOO_LARGE    -8
 *     FRAME_MESSAGE_TOO_LONG  -9
 *                                 NOT_CODED_LENGTH       -10
 *                                 WRONG_MESSAGE_LENGTH   -11
 *                                 FILLER_NOT_ZERO        -12
 *     OUTPUT_TOO_SHORT        -6  OUTPUT_TOO_SHORT        -6
 *                                 TAG_DIFFERS             -7
 *
 * What the caller owes for frames
 *
 *   - All that is owed for sealing and opening. A nonce is never used for two frames under one key, nor for a frame and
 *     another sealing, whatever the identifiers and editions are and however many senders share the key.
 *   - The nonce is no part of the frame, and neither is the edition. How sender and reader agree on them is theirs.
 *   - Nothing in a frame tells whether it is new. A reader that takes a nonce again takes an old frame again.
 *
 * Sending and receiving
 *
 *   What making answers is the count of bytes of the data field. The frame goes out with the identifier that making was
 *   given, the code tikhoplav_length_code(count), and these bytes. An output of TIKHOPLAV_FRAME_MAX bytes is always
 *   long enough.
 *
 *   Reading takes identifier, code and data field as they came in. If a driver tells the length in place of the code,
 *   the code is tikhoplav_length_code(length); if it tells the code alone, the length is tikhoplav_coded_length(code).
 *   An output of TIKHOPLAV_FRAME_MESSAGE_MAX bytes is always long enough.
 *
 *   An identifier is taken as a number: a base one (11 bits) and an extended one (29 bits) of the same number have the
 *   same AD. A data field of a code below 9 can't be a sealed one: without a message it has 9 bytes already.
 *
 * A whole program that makes and reads a frame (a real key is random and secret)
 *
 *     #include <stdio.h>
 *     #include <tikhoplav.h>
 *
 *     int main(void)
 *     {
 *         static const uint8_t key[TIKHOPLAV_KEY_SIZE] = "no real key", nonce[TIKHOPLAV_NONCE_SIZE] = "never twice";
 *         static const uint8_t message[] = "2400 rpm";
 *         const uint32_t identifier = 0x7e8;
 *         uint8_t data[TIKHOPLAV_FRAME_MAX], out[TIKHOPLAV_FRAME_MESSAGE_MAX];
 *         uint32_t code;
 *         int64_t n = tikhoplav_frame_make(key, sizeof key, nonce, sizeof nonce, identifier,
 *                                          message, sizeof message, data, sizeof data);
 *         if (n < 0)
 *             return (int)-n;
 *         code = (uint32_t)tikhoplav_length_code((size_t)n);
 *         // Identifier, code and n bytes of data go over the bus.
 *         n = tikhoplav_frame_read(key, sizeof key, nonce, sizeof nonce, identifier, code,
 *                                  data, (size_t)n, out, sizeof out);
 *         return n < 0 ? (int)-n : puts((const char *)out) == EOF;
 *     }
 */

/* The largest identifier, the longest message of a frame, the largest length code and the longest data field; the
   lengths in bytes. */
#define TIKHOPLAV_IDENTIFIER_MAX 0x1fffffff
#define TIKHOPLAV_FRAME_MESSAGE_MAX 55
#define TIKHOPLAV_LENGTH_CODE_MAX 15
#define TIKHOPLAV_FRAME_MAX 64

/* identifier is over TIKHOPLAV_IDENTIFIER_MAX: it has more than 29 bits. */
#define TIKHOPLAV_REFUSED_IDENTIFIER_TOO_LARGE (-8)

/* Making only: message_len is over TIKHOPLAV_FRAME_MESSAGE_MAX. */
#define TIKHOPLAV_REFUSED_FRAME_MESSAGE_TOO_LONG (-9)

/* Reading: code is over TIKHOPLAV_LENGTH_CODE_MAX, or data_len is not the length that it means. The calls on length
   codes: code is over TIKHOPLAV_LENGTH_CODE_MAX, or length is over TIKHOPLAV_FRAME_MAX. */
#define TIKHOPLAV_REFUSED_NOT_CODED_LENGTH (-10)

/* Reading only: data_len is 0, so that there is no M; or M is over TIKHOPLAV_FRAME_MESSAGE_MAX; or code is not the
   smallest whose length holds M + 9. */
#define TIKHOPLAV_REFUSED_WRONG_MESSAGE_LENGTH (-11)

/* Reading only: a byte of the filler is not zero. */
#define TIKHOPLAV_REFUSED_FILLER_NOT_ZERO (-12)

/*
 * Makes the data field of a frame with this identifier, for message[0 .. message_len - 1].
 *
 * Writes the whole data field, filler and all, to the front of `out`, and answers its length: 12, 16, 20, 24, 32, 48 or
 * 64, the smallest that holds message_len + 9. Whenever the sizes are legal, the key is not blank, the identifier is at
 * most TIKHOPLAV_IDENTIFIER_MAX and out_len is at least that length, it succeeds.
 *
 * Otherwise it answers the first of these that applies, and writes nothing:
 * KEY_SIZE, NONCE_SIZE, BLANK_KEY, IDENTIFIER_TOO_LARGE, FRAME_MESSAGE_TOO_LONG, OUTPUT_TOO_SHORT.
 */
int64_t tikhoplav_frame_make(const uint8_t *key, size_t key_len, const uint8_t *nonce, size_t nonce_len,
                             uint32_t identifier, const uint8_t *message, size_t message_len,
                             uint8_t *out, size_t out_len);

/*
 * Reads data[0 .. data_len - 1], the data field of a frame with this identifier and this length code.
 *
 * If it is such a field and the tag is right, writes the message to out[0 .. M - 1] and answers M, which is 0 for an
 * empty message. M is data[0].
 *
 * Otherwise it answers the first of these that applies, and writes nothing:
 * KEY_SIZE, NONCE_SIZE, BLANK_KEY, IDENTIFIER_TOO_LARGE, NOT_CODED_LENGTH, WRONG_MESSAGE_LENGTH, FILLER_NOT_ZERO,
 * OUTPUT_TOO_SHORT, TAG_DIFFERS.
 */
int64_t tikhoplav_frame_read(const uint8_t *key, size_t key_len, const uint8_t *nonce, size_t nonce_len,
                             uint32_t identifier, uint32_t code, const uint8_t *data, size_t data_len,
                             uint8_t *out, size_t out_len);

/*
 * Makes the data field of a frame with this identifier, for message[0 .. message_len - 1], under an edition,
 * TIKHOPLAV_EDITION_1 or TIKHOPLAV_EDITION_2. With TIKHOPLAV_EDITION_1 it is tikhoplav_frame_make.
 *
 * Writes the whole data field, filler and all, to the front of `out`, and answers its length: 12, 16, 20, 24, 32, 48 or
 * 64, the smallest that holds message_len + 9. Whenever the edition is one of the two, the sizes are legal, the key is
 * not blank, the identifier is at most TIKHOPLAV_IDENTIFIER_MAX and out_len is at least that length, it succeeds.
 *
 * Otherwise it answers the first of these that applies, and writes nothing:
 * UNKNOWN_EDITION, KEY_SIZE, NONCE_SIZE, BLANK_KEY, IDENTIFIER_TOO_LARGE, FRAME_MESSAGE_TOO_LONG, OUTPUT_TOO_SHORT.
 */
int64_t tikhoplav_frame_make_edition(uint32_t edition, const uint8_t *key, size_t key_len,
                                     const uint8_t *nonce, size_t nonce_len, uint32_t identifier,
                                     const uint8_t *message, size_t message_len, uint8_t *out, size_t out_len);

/*
 * Reads data[0 .. data_len - 1], the data field of a frame with this identifier and this length code, under an edition,
 * TIKHOPLAV_EDITION_1 or TIKHOPLAV_EDITION_2. With TIKHOPLAV_EDITION_1 it is tikhoplav_frame_read.
 *
 * If it is such a field and the tag is right under that edition, writes the message to out[0 .. M - 1] and answers M,
 * which is 0 for an empty message. M is data[0].
 *
 * Otherwise it answers the first of these that applies, and writes nothing:
 * UNKNOWN_EDITION, KEY_SIZE, NONCE_SIZE, BLANK_KEY, IDENTIFIER_TOO_LARGE, NOT_CODED_LENGTH, WRONG_MESSAGE_LENGTH,
 * FILLER_NOT_ZERO, OUTPUT_TOO_SHORT, TAG_DIFFERS.
 */
int64_t tikhoplav_frame_read_edition(uint32_t edition, const uint8_t *key, size_t key_len,
                                     const uint8_t *nonce, size_t nonce_len, uint32_t identifier, uint32_t code,
                                     const uint8_t *data, size_t data_len, uint8_t *out, size_t out_len);

/*
 * The bytes that a length code means, 0 to TIKHOPLAV_FRAME_MAX.
 *
 * Answers NOT_CODED_LENGTH if code is over TIKHOPLAV_LENGTH_CODE_MAX.
 */
int64_t tikhoplav_coded_length(uint32_t code);

/*
 * The smallest length code that holds so many bytes, 0 to TIKHOPLAV_LENGTH_CODE_MAX. What it means may be more than
 * length; it is length exactly where length stands in the table above.
 *
 * Answers NOT_CODED_LENGTH if length is over TIKHOPLAV_FRAME_MAX, which no code holds.
 */
int64_t tikhoplav_length_code(size_t length);

/*
 * Captures
 *
 *   A capture is a record of a bus: frames, each with its nonce, in groups, and groups lie in groups. The calls tell
 *   how many frames a capture has, and where the body of each one is. They take no key, and the frames may be sealed
 *   or not.
 *
 * The layout of a capture
 *
 *   A capture has at most TIKHOPLAV_CAPTURE_MAX bytes, 65536, and is one section, the outermost. Numbers have their
 *   high byte first.
 *
 *     a section
 *     from place   bytes       what
 *     0            2           n, the count of entries: 0 to TIKHOPLAV_CAPTURE_ENTRIES_MAX, 255
 *     2            8 n         the entries
 *     2 + 8 n      the rest    the bodies, in the order of the entries
 *
 *     an entry
 *     from place   bytes       what
 *     0            1           the kind: 0 for a frame, 1 for a group
 *     1            3           the length of the body
 *     4            4           the offset of the body from the start of the section
 *
 *     the body of a frame
 *     from place   bytes       what
 *     0            4           the identifier: 0 to TIKHOPLAV_IDENTIFIER_MAX
 *     4            1           the length code: 0 to TIKHOPLAV_LENGTH_CODE_MAX
 *     5            12          the nonce
 *     17           the rest    the data, of exactly the length that the code means
 *
 *   The first body stands right behind the entries, each next one where the one before it ends, and the last one ends
 *   the section. A section without entries ends behind its count: it is the two bytes 00 00.
 *
 *   The body of a group is a section, with offsets from its own start. The outermost section is depth 1, that of a
 *   group in it depth 2, and so on; the deepest may be depth TIKHOPLAV_CAPTURE_DEPTH_MAX, 6.
 *
 *   So this is a capture of one frame, under identifier 0x123, with a nonce of zeros and no data. Its body is the 17
 *   bytes from place 10 on.
 *
 *     00 01   00 00 00 11 00 00 00 0a   00 00 01 23 00 00 00 00 00 00 00 00 00 00 00 00 00
 *
 * How a capture is walked
 *
 *   Of a section first all entries are judged, then the bodies, in the order of the entries. A group's turn is its
 *   whole section, with all that lies in it, before the next body. Frames are numbered from 0 in this order, each
 *   once, whatever groups they lie in.
 *
 * What the calls on captures refuse
 *
 *   Each call judges the whole capture, whatever frame is asked for. A capture that is broken anywhere, or too deep,
 *   hands out nothing.
 *
 *     BROKEN_CAPTURE   -16   of the two, the one that the walk comes to first
 *     TOO_DEEP         -18
 *     PAST_LAST_FRAME  -17   only after the walk has found nothing to refuse
 *
 *   BROKEN_CAPTURE is capture_len over TIKHOPLAV_CAPTURE_MAX, which comes before all else, or any break of the layout:
 *   a section too short for its count or its entries, a count over TIKHOPLAV_CAPTURE_ENTRIES_MAX, a kind other than 0
 *   and 1, an offset other than where the body has to begin, a last body that does not end the section; in the body of
 *   a frame, too few bytes, an identifier over TIKHOPLAV_IDENTIFIER_MAX, a code over TIKHOPLAV_LENGTH_CODE_MAX, data
 *   that is shorter or longer than the code means. An empty capture has no count, and is broken.
 *
 *   TOO_DEEP is a group that would be depth 7. It is found when its body's turn comes, and nothing of that body is
 *   looked at. So a break in the entries of the section that it lies in, or in a body before it, is BROKEN_CAPTURE; a
 *   break in it, or in a body behind it, is never come to.
 *
 * What the caller owes for captures
 *
 *   - capture leads to capture_len readable bytes, which nobody writes to during a call. Nothing is kept between two
 *     calls: a place holds for the bytes that the call was given. Whoever's capture can be written to by others copies
 *     it first.
 *   - A capture is not authenticated: whoever can write to it can leave frames out, repeat them and move them. The tag
 *     of a sealed frame speaks for that frame alone, for its identifier, code, nonce and ciphertext. It is over neither
 *     M nor the filler: what reading does about these is said above, with the data field of a sealed frame.
 *
 * What the calls on captures take
 *
 *   Each call walks the capture anew. Its time grows in proportion to capture_len; this is measured, up to the longest
 *   capture, and not proved. A capture has at most 2617 frames, so that place and length of all of them take some 5200
 *   walks. The stack that is said above is that of a capture with sections at every depth, and of one that is too deep.
 *
 * A whole program that opens all frames of a capture (a real key is random and secret)
 *
 *     #include <stdio.h>
 *     #include <tikhoplav.h>
 *
 *     static const uint8_t key[TIKHOPLAV_KEY_SIZE] = "no real key";
 *
 *     static int64_t print_frame(const uint8_t *body, size_t body_len)
 *     {
 *         uint8_t message[TIKHOPLAV_FRAME_MESSAGE_MAX];
 *         uint32_t identifier = (uint32_t)body[0] << 24 | (uint32_t)body[1] << 16 | (uint32_t)body[2] << 8 | body[3];
 *         int64_t n = tikhoplav_frame_read(key, sizeof key,
 *                                          body + TIKHOPLAV_CAPTURE_NONCE_AT, TIKHOPLAV_NONCE_SIZE,
 *                                          identifier, body[TIKHOPLAV_CAPTURE_CODE_AT],
 *                                          body + TIKHOPLAV_CAPTURE_DATA_AT, body_len - TIKHOPLAV_CAPTURE_DATA_AT,
 *                                          message, sizeof message);
 *         if (n >= 0)
 *             printf("%.*s\n", (int)n, (const char *)message);
 *         return n; // a refusal says that this frame is not genuine, or that nobody sealed it
 *     }
 *
 *     static int64_t print_all(const uint8_t *capture, size_t capture_len)
 *     {
 *         int64_t i, count = tikhoplav_capture_frames(capture, capture_len), n = count;
 *         for (i = 0; i < count && n >= 0; i++)
 *             n = print_frame(capture + tikhoplav_capture_frame(capture, capture_len, (uint64_t)i),
 *                             (size_t)tikhoplav_capture_frame_size(capture, capture_len, (uint64_t)i));
 *         return n;
 *     }
 *
 *     int main(void)
 *     {
 *         // One entry, for a frame of 37 bytes from place 10 on: identifier 0x7e8, code 11, nonce, data of 20 bytes.
 *         static uint8_t capture[47] = { 0, 1, 0, 0, 0, 37, 0, 0, 0, 10, 0, 0, 0x07, 0xe8, 11, 'o', 'n', 'c', 'e' };
 *         const uint8_t *nonce = capture + 10 + TIKHOPLAV_CAPTURE_NONCE_AT;
 *         int64_t n = tikhoplav_frame_make(key, sizeof key, nonce, TIKHOPLAV_NONCE_SIZE, 0x7e8,
 *                                          (const uint8_t *)"2400 rpm", 8, capture + 27, 20);
 *         if (n >= 0)
 *             n = print_all(capture, sizeof capture);
 *         return n < 0 ? (int)-n : 0;
 *     }
 */

/* The longest capture in bytes, the depth of its deepest section, and the most entries of a section. */
#define TIKHOPLAV_CAPTURE_MAX 65536
#define TIKHOPLAV_CAPTURE_DEPTH_MAX 6
#define TIKHOPLAV_CAPTURE_ENTRIES_MAX 255

/* Where length code, nonce and data begin in the body of a frame. The identifier begins at 0. */
#define TIKHOPLAV_CAPTURE_CODE_AT 4
#define TIKHOPLAV_CAPTURE_NONCE_AT 5
#define TIKHOPLAV_CAPTURE_DATA_AT 17

/* capture_len is over TIKHOPLAV_CAPTURE_MAX, or the layout is broken. */
#define TIKHOPLAV_REFUSED_BROKEN_CAPTURE (-16)

/* The capture has no frame of this number: it is the count of frames, or more. */
#define TIKHOPLAV_REFUSED_PAST_LAST_FRAME (-17)

/* A group would be deeper than TIKHOPLAV_CAPTURE_DEPTH_MAX. */
#define TIKHOPLAV_REFUSED_TOO_DEEP (-18)

/*
 * Counts the frames of capture[0 .. capture_len - 1], in all of its groups.
 *
 * If the capture is in order, answers their count, which may be 0. Otherwise it answers BROKEN_CAPTURE or TOO_DEEP,
 * whichever the walk comes to first.
 */
int64_t tikhoplav_capture_frames(const uint8_t *capture, size_t capture_len);

/*
 * Finds a frame of capture[0 .. capture_len - 1] by its number. The first one has number 0.
 *
 * If the capture is in order and has the frame, answers where the frame's body begins: p, 10 or more. The body is the
 * bytes at capture + p, as many as tikhoplav_capture_frame_size answers. Otherwise it answers BROKEN_CAPTURE or
 * TOO_DEEP, whichever the walk comes to first, and where it comes to neither, PAST_LAST_FRAME.
 */
int64_t tikhoplav_capture_frame(const uint8_t *capture, size_t capture_len, uint64_t number);

/*
 * The length of that body: TIKHOPLAV_CAPTURE_DATA_AT and the length of the data, 17 to 81.
 *
 * It refuses what tikhoplav_capture_frame refuses, with the same answer.
 */
int64_t tikhoplav_capture_frame_size(const uint8_t *capture, size_t capture_len, uint64_t number);

/*
 * Signals
 *
 *   A signal is a physical value that stands in a message, such as a speed or a temperature: a few bits of the message
 *   are a number, raw, and a scale and an offset make the value of it. The call gives the value of one signal, and
 *   tells how it lies to two limits. It takes no key: the message is one that opening or reading handed out.
 *
 * Where a signal lies, and what it is worth
 *
 *     start       its first bit. Bit 0 is the top bit of the first byte, bit 7 the lowest, bit 8 the top bit of the
 *                 second byte, and so on
 *     width       how many bits it has, 1 to TIKHOPLAV_SIGNAL_WIDTH_MAX, 32. The first one is the highest, the last one
 *                 counts for 1
 *     is_signed   0: raw is 0 to 2^width - 1. Anything else: raw is -2^(width - 1) to 2^(width - 1) - 1, by two's
 *                 complement
 *     scale       value = raw * scale + offset
 *     offset
 *     low         the limits of the value
 *     high
 *
 *   The bits may begin and end anywhere in a byte. All that is around them is passed over.
 *
 *   Numbers and value are doubles as IEEE 754 has them (binary64). raw becomes a double exactly. The product is rounded
 *   once, and then the sum is rounded once, each to the nearest double, and of two that are equally near to the one
 *   whose last bit is 0. There is no fused multiply-add: 3 * 0.1 - 0.3 is 2^-54, and not 2^-55. So the value is settled
 *   to its last bit.
 *
 *   So the byte ff, as a signal of width 8 with a sign, is raw -1; with scale 0.5 and offset 10 its value is 9.5.
 *
 *   CAN databases (DBC) have such signals as big-endian or Motorola ones, and count the bits of a byte from the lowest
 *   one up: start bit b there is start 8 * (b / 8) + 7 - b % 8 here. Their little-endian (Intel) signals are signals
 *   here only where they lie in one byte: start bit b and width w there are start 8 * (b / 8) + 8 - b % 8 - w and width
 *   w here.
 *
 * What the call answers
 *
 *     TIKHOPLAV_SIGNAL_BELOW        1   value < low
 *     TIKHOPLAV_SIGNAL_WITHIN       2   low <= value <= high
 *     TIKHOPLAV_SIGNAL_ABOVE        3   value > high
 *     TIKHOPLAV_SIGNAL_NOT_FINITE   4   the product or the sum is beyond the largest double, so that the value is plus
 *                                       or minus infinity, whatever the limits are
 *
 *   After each of these *value_bits has the bits of the value. memcpy makes a double of them:
 *
 *     double value;
 *     memcpy(&value, value_bits, sizeof value);
 *
 *   The value is never a NaN. It may be minus zero, which is equal to zero, as a value and as a limit.
 *
 * What the call on signals refuses
 *
 *   The checks run in this order, and the first that applies is the answer. *value_bits is then as it was before the
 *   call.
 *
 *     SIGNAL_PLACE     -21   width is 0 or over TIKHOPLAV_SIGNAL_WIDTH_MAX, or the signal doesn't lie in the message:
 *                            start + width, a sum that doesn't wrap, is over 8 * message_len
 *     SIGNAL_NUMBERS   -22   scale, offset, low or high is infinite or a NaN, or low > high
 *
 *   A message may have any length. In an empty one there is no signal.
 *
 * What the caller owes for signals
 *
 *   - message leads to message_len readable bytes, and value_bits to a uint64_t, aligned as one, that can be written to
 *     and is no part of the message.
 *   - The message was opened: sealing's tag, or the frame's, was found right. Of a message that nobody authenticated
 *     the call gives values just as readily, and they say nothing about the car.
 *   - Which bits are which signal, with which scale, offset and limits, is the caller's knowledge. It is no part of the
 *     message, and no tag is over it: with another definition the same message has other values.
 *   - The call computes with SSE2, in the floating-point environment that the caller is in. It has to be the one in
 *     which a program starts: round to nearest, neither flush-to-zero nor denormals-are-zero, all exceptions masked. In
 *     MXCSR that is 0x1f80, its six flags (0x3f) aside. fesetround, _MM_SET_FLUSH_ZERO_MODE and the like lead out of
 *     it, and so does the start-up code of a program that is linked with -ffast-math. In any other environment nothing
 *     is said about the value. The call may set flags of MXCSR, and leaves the rest of it alone.
 *
 * A whole program that reads a frame and gives the signal in it (a real key is random and secret)
 *
 *     #include <stdio.h>
 *     #include <string.h>
 *     #include <tikhoplav.h>
 *
 *     static const uint8_t key[TIKHOPLAV_KEY_SIZE] = "no real key", nonce[TIKHOPLAV_NONCE_SIZE] = "never twice";
 *
 *     int main(void)
 *     {
 *         static const uint8_t quarters[] = { 0x25, 0x80 }; // 9600 quarters of a revolution per minute
 *         uint8_t data[TIKHOPLAV_FRAME_MAX], message[TIKHOPLAV_FRAME_MESSAGE_MAX];
 *         uint64_t value_bits;
 *         double value;
 *         int64_t n = tikhoplav_frame_make(key, sizeof key, nonce, sizeof nonce, 0x7e8,
 *                                          quarters, sizeof quarters, data, sizeof data);
 *         if (n >= 0)
 *             n = tikhoplav_frame_read(key, sizeof key, nonce, sizeof nonce, 0x7e8,
 *                                      (uint32_t)tikhoplav_length_code((size_t)n), data, (size_t)n,
 *                                      message, sizeof message);
 *         if (n >= 0) // the first 16 bits, without a sign, times 0.25, plus 0; from 0 to 8000
 *             n = tikhoplav_signal(message, (size_t)n, 0, 16, 0, 0.25, 0.0, 0.0, 8000.0, &value_bits);
 *         if (n < 0)
 *             return (int)-n;
 *         memcpy(&value, &value_bits, sizeof value);
 *         printf("%g rpm%s\n", value, n == TIKHOPLAV_SIGNAL_WITHIN ? "" : ", which is not credible");
 *         return 0;
 *     }
 */

/* The most bits of a signal. */
#define TIKHOPLAV_SIGNAL_WIDTH_MAX 32

/* How the value of a signal lies to its limits. */
#define TIKHOPLAV_SIGNAL_BELOW 1
#define TIKHOPLAV_SIGNAL_WITHIN 2
#define TIKHOPLAV_SIGNAL_ABOVE 3
#define TIKHOPLAV_SIGNAL_NOT_FINITE 4

/* width is not 1 to TIKHOPLAV_SIGNAL_WIDTH_MAX, or the signal ends behind the message. */
#define TIKHOPLAV_REFUSED_SIGNAL_PLACE (-21)

/* One of scale, offset, low and high is not finite, or low is above high. */
#define TIKHOPLAV_REFUSED_SIGNAL_NUMBERS (-22)

/*
 * Gives the signal of message[0 .. message_len - 1] that has width bits from bit start on, as a value: raw times scale,
 * rounded, plus offset, rounded.
 *
 * Writes the bits of the value to *value_bits, and answers TIKHOPLAV_SIGNAL_BELOW, TIKHOPLAV_SIGNAL_WITHIN,
 * TIKHOPLAV_SIGNAL_ABOVE or TIKHOPLAV_SIGNAL_NOT_FINITE. Whenever the signal lies in the message, the four numbers are
 * finite and low is not above high, it succeeds.
 *
 * Otherwise it answers the first of these that applies, and writes nothing:
 * SIGNAL_PLACE, SIGNAL_NUMBERS.
 */
int64_t tikhoplav_signal(const uint8_t *message, size_t message_len, uint32_t start, uint32_t width, uint32_t is_signed,
                         double scale, double offset, double low, double high, uint64_t *value_bits);

/*
 * Payloads that arrive in pieces
 *
 *   For payloads that don't fit into memory at once there are two streams, which take AD and message, or AD and
 *   ciphertext, in pieces of any lengths. What lies between two calls is a state of 64 bytes, which are the caller's.
 *
 *   A sealing stream gives what sealing gives: the ciphertext piece by piece, and at the end the tag. Ciphertext and
 *   tag, one after the other, are the sealed payload.
 *
 *   A checking stream tells what opening would say, and gives nothing: it takes the ciphertext piece by piece, and
 *   accepts the tag exactly when opening the whole payload, with room for its message, succeeds. No byte of the message
 *   is handed out, or stored in the state. Whoever wants the message opens the payload afterwards. What is opened must
 *   then be the very ciphertext that was checked: of a ciphertext that was changed in between, or read anew from where
 *   others can write to it, the check has said nothing. (Opening checks the tag itself.)
 *
 * The sequence of calls
 *
 *     sealing                             checking                             how often
 *     tikhoplav_sealing_begin             tikhoplav_checking_begin             once; or the form that names an edition
 *     tikhoplav_sealing_ad                tikhoplav_checking_ad                until the AD is complete
 *     tikhoplav_sealing_message           tikhoplav_checking_ciphertext        until there is no more
 *     tikhoplav_sealing_finish            tikhoplav_checking_finish            once
 *
 *   The AD's length is told at begin: the tag is over it, before the AD. The AD is complete when as many bytes were
 *   taken; if its length is 0, that is so from the start. The length of the message is not told beforehand.
 *
 *   However AD and message are cut into pieces, ciphertext, tag and verdict are those of the call on whole strings.
 *   Pieces may be empty: such a piece is taken wherever another may be, an empty one of the AD also where the AD is
 *   complete, and changes nothing. A refused call changes nothing either, and the stream goes on from where it was.
 *   So after TAG_DIFFERS a checking stream is still open, and finishing may be tried with another tag.
 *
 *   A begin may be called at any time, on any 64 bytes. It starts anew, and what they held is lost.
 *
 * The state
 *
 *     from place   bytes   what
 *     0            16      the LFSR
 *     16           16      the NFSR
 *     32           8       the accumulator
 *     40           8       the authenticator register
 *     48           1       the kind: 1 sealing, 2 checking
 *     49           1       the phase: 0 open, 1 finished
 *     50           2       the length of the AD, as it was told at begin
 *     52           2       how many bytes of the AD were taken
 *     54           2       how many bytes of the message, or of the ciphertext, were taken
 *     56           1       the edition: 1 or 2
 *     57           7       zeros
 *
 *   Numbers of two bytes have the high byte first. The four registers have place 0 first, in the top bit of the first
 *   byte, under both editions: the order of bits in which the editions differ is not that of the state. Between two
 *   calls the registers are those of the machine after all bits of the authenticated string that were taken, after
 *   finish the final 1 among them; the accumulator then is the tag, in the state's order of bits.
 *
 *   The state is plain bytes, without pointers and of any alignment. It may be stored, copied, moved and compared, and
 *   a copy goes on from where it was made. It is as secret as the key: whoever has it can decipher all of the payload,
 *   and make a tag for another. A finished one is no less secret. The caller wipes it.
 *
 *   A state that can't occur is refused: with another length, kind, phase or edition; with more of the AD taken than
 *   its length, or more of the message than TIKHOPLAV_MESSAGE_MAX; with some of the message taken, or finished, before
 *   the AD is complete; with a byte behind place 56 that is not zero. The registers may hold anything. Damage to them,
 *   or damage elsewhere that leaves a state that can occur, is not noticed: ciphertext, tag, verdict and clocks need
 *   then no longer be those of the call on whole strings.
 *
 * What the calls on streams answer
 *
 *   A call that is accepted answers how many clocks the machine has made so far: those of start-up, 384 under edition 1
 *   and 512 under edition 2, and two for each bit of the authenticated string that was taken. The bits of the coded AD
 *   length (8, 16 or 24 of them) count at begin, those of a piece with the piece, and the final 1 at finish. The most
 *   that there can be are 2032034 under edition 1, and 2032162 under edition 2.
 *
 * What the calls on streams refuse
 *
 *   The checks run in this order, and the first that applies is the answer.
 *
 *     begin                   ad                  message              ciphertext           finish
 *     UNKNOWN_EDITION   -23
 *     KEY_SIZE           -1
 *     NONCE_SIZE         -2
 *     BLANK_KEY         -15
 *     AD_TOO_LONG        -3
 *     UNSOUND_STATE     -14   UNSOUND_STATE -14   UNSOUND_STATE   -14  UNSOUND_STATE   -14  UNSOUND_STATE    -14
 *                             OUT_OF_TURN   -13   OUT_OF_TURN     -13  OUT_OF_TURN     -13  OUT_OF_TURN      -13
 *                                                 MESSAGE_TOO_LONG -4  MESSAGE_TOO_LONG -4
 *                                                                                           SEALED_TOO_SHORT  -5  (c)
 *                                                 OUTPUT_TOO_SHORT -6                       OUTPUT_TOO_SHORT  -6  (s)
 *                                                                                           TAG_DIFFERS       -7  (c)
 *
 *   UNKNOWN_EDITION is only in the begins that name an edition. Of the finishes, (s) is in the sealing one alone, and
 *   (c) in the checking one alone. A begin looks at the length of the state only, and not at what it holds.
 *
 * What the caller owes for streams
 *
 *   - All that is owed for sealing and opening.
 *   - A state is used by one call at a time. Streams with states of their own may run in as many threads.
 *   - A sealing stream whose state was copied goes on in one of the copies only. If it goes on in two with different
 *     messages, that is one nonce for two sealings. (The same holds for a stored state that is restored after the
 *     stream has gone on from it, for a copy that is finished to have a tag in between, and for a begin with the nonce
 *     of a stream that was given up.) A checking stream may go on in any number of copies.
 *   - The checking side has key, nonce, edition, AD and the AD's length from elsewhere: the payload has none of them.
 *   - Nothing that a checking stream has taken is known to be genuine before finishing has accepted the tag.
 *
 * A whole program that seals and checks in pieces (a real key is random and secret)
 *
 *     #include <stdio.h>
 *     #include <tikhoplav.h>
 *
 *     int main(void)
 *     {
 *         static const uint8_t key[TIKHOPLAV_KEY_SIZE] = "no real key", nonce[TIKHOPLAV_NONCE_SIZE] = "never twice";
 *         static const uint8_t ad[] = { 0x07, 0xe8 }, message[] = "2400 rpm";
 *         uint8_t sealed[sizeof message + TIKHOPLAV_TAG_SIZE], opened[sizeof message], state[TIKHOPLAV_STATE_SIZE];
 *         uint8_t *tag = sealed + sizeof message;
 *         size_t i;
 *         int64_t n = tikhoplav_sealing_begin(state, sizeof state, key, sizeof key, nonce, sizeof nonce, sizeof ad);
 *         if (n >= 0)
 *             n = tikhoplav_sealing_ad(state, sizeof state, ad, sizeof ad);
 *         for (i = 0; n >= 0 && i < sizeof message; i++)
 *             n = tikhoplav_sealing_message(state, sizeof state, message + i, 1, sealed + i, 1);
 *         if (n >= 0)
 *             n = tikhoplav_sealing_finish(state, sizeof state, tag, TIKHOPLAV_TAG_SIZE);
 *
 *         // The other side has the payload, and checks it.
 *         if (n >= 0)
 *             n = tikhoplav_checking_begin(state, sizeof state, key, sizeof key, nonce, sizeof nonce, sizeof ad);
 *         if (n >= 0)
 *             n = tikhoplav_checking_ad(state, sizeof state, ad, sizeof ad);
 *         for (i = 0; n >= 0 && i < sizeof message; i++)
 *             n = tikhoplav_checking_ciphertext(state, sizeof state, sealed + i, 1);
 *         if (n >= 0)
 *             n = tikhoplav_checking_finish(state, sizeof state, tag, TIKHOPLAV_TAG_SIZE);
 *
 *         if (n >= 0)
 *             n = tikhoplav_open(key, sizeof key, nonce, sizeof nonce, ad, sizeof ad,
 *                                sealed, sizeof sealed, opened, sizeof opened);
 *         return n < 0 ? (int)-n : puts((const char *)opened) == EOF;
 *     }
 */

/* The size of a stream's state in bytes. */
#define TIKHOPLAV_STATE_SIZE 64

/* All calls but the begins: the stream is of the other kind, or it is finished. A piece of AD: it goes past the length
   that was told at begin. A piece of message or ciphertext, and finishing: the AD is not complete. */
#define TIKHOPLAV_REFUSED_OUT_OF_TURN (-13)

/* state_len is not TIKHOPLAV_STATE_SIZE. All calls but the begins: or the state is one that can't occur, as in a buffer
   that no begin was ever called on. */
#define TIKHOPLAV_REFUSED_UNSOUND_STATE (-14)

/*
 * Begins a sealing stream with an AD of ad_len bytes, which come later.
 *
 * Writes all of state[0 .. TIKHOPLAV_STATE_SIZE - 1], whatever it held, and answers the clocks so far: 384 and two for
 * each bit of the coded AD length, so 400, 416 or 432. Whenever the sizes are legal and the key is not blank, it
 * succeeds.
 *
 * Otherwise it answers the first of these that applies, and writes nothing:
 * KEY_SIZE, NONCE_SIZE, BLANK_KEY, AD_TOO_LONG, UNSOUND_STATE (if state_len is not TIKHOPLAV_STATE_SIZE).
 */
int64_t tikhoplav_sealing_begin(uint8_t *state, size_t state_len, const uint8_t *key, size_t key_len,
                                const uint8_t *nonce, size_t nonce_len, size_t ad_len);

/*
 * Begins a sealing stream under an edition, TIKHOPLAV_EDITION_1 or TIKHOPLAV_EDITION_2, with an AD of ad_len bytes,
 * which come later. With TIKHOPLAV_EDITION_1 it is tikhoplav_sealing_begin. The edition stands in the state, and the
 * calls that follow go by it.
 *
 * Writes all of state[0 .. TIKHOPLAV_STATE_SIZE - 1], whatever it held, and answers the clocks so far: 384 under
 * edition 1 or 512 under edition 2, and two for each bit of the coded AD length. Whenever the edition is one of the
 * two, the sizes are legal and the key is not blank, it succeeds.
 *
 * Otherwise it answers the first of these that applies, and writes nothing:
 * UNKNOWN_EDITION, KEY_SIZE, NONCE_SIZE, BLANK_KEY, AD_TOO_LONG, UNSOUND_STATE (if state_len is not
 * TIKHOPLAV_STATE_SIZE).
 */
int64_t tikhoplav_sealing_begin_edition(uint32_t edition, uint8_t *state, size_t state_len,
                                        const uint8_t *key, size_t key_len,
                                        const uint8_t *nonce, size_t nonce_len, size_t ad_len);

/*
 * Takes piece[0 .. piece_len - 1] as the next bytes of the AD of a sealing stream.
 *
 * Writes the state with the piece taken, and answers the clocks so far: 16 * piece_len more than before. Whenever the
 * state is that of an open sealing stream and the piece doesn't go past the length that was told at begin, it succeeds.
 *
 * Otherwise it answers the first of these that applies, and writes nothing:
 * UNSOUND_STATE, OUT_OF_TURN.
 */
int64_t tikhoplav_sealing_ad(uint8_t *state, size_t state_len, const uint8_t *piece, size_t piece_len);

/*
 * Takes piece[0 .. piece_len - 1] as the next bytes of the message of a sealing stream, whose AD is complete.
 *
 * Writes the ciphertext of the piece to out[0 .. piece_len - 1] and nothing behind it, writes the state with the piece
 * taken, and answers the clocks so far: 16 * piece_len more than before. Whenever the state is that of an open sealing
 * stream with its whole AD, the message stays within TIKHOPLAV_MESSAGE_MAX and out_len is at least piece_len, it
 * succeeds.
 *
 * Otherwise it answers the first of these that applies, and writes nothing:
 * UNSOUND_STATE, OUT_OF_TURN, MESSAGE_TOO_LONG, OUTPUT_TOO_SHORT.
 */
int64_t tikhoplav_sealing_message(uint8_t *state, size_t state_len, const uint8_t *piece, size_t piece_len,
                                  uint8_t *out, size_t out_len);

/*
 * Ends a sealing stream, whose AD is complete. The message is what was taken of it, which may be nothing.
 *
 * Writes the tag to out[0 .. TIKHOPLAV_TAG_SIZE - 1] and nothing behind it, writes the state as finished, and answers
 * the clocks of the whole job: 2 more than before. Whenever the state is that of an open sealing stream with its whole
 * AD and out_len is at least TIKHOPLAV_TAG_SIZE, it succeeds. From then on all calls on this state but a begin answer
 * OUT_OF_TURN.
 *
 * Otherwise it answers the first of these that applies, and writes nothing:
 * UNSOUND_STATE, OUT_OF_TURN, OUTPUT_TOO_SHORT.
 */
int64_t tikhoplav_sealing_finish(uint8_t *state, size_t state_len, uint8_t *out, size_t out_len);

/*
 * Begins a checking stream with an AD of ad_len bytes, which come later.
 *
 * Writes all of state[0 .. TIKHOPLAV_STATE_SIZE - 1], whatever it held, and answers the clocks so far: 384 and two for
 * each bit of the coded AD length, so 400, 416 or 432. Whenever the sizes are legal and the key is not blank, it
 * succeeds.
 *
 * Otherwise it answers the first of these that applies, and writes nothing:
 * KEY_SIZE, NONCE_SIZE, BLANK_KEY, AD_TOO_LONG, UNSOUND_STATE (if state_len is not TIKHOPLAV_STATE_SIZE).
 */
int64_t tikhoplav_checking_begin(uint8_t *state, size_t state_len, const uint8_t *key, size_t key_len,
                                 const uint8_t *nonce, size_t nonce_len, size_t ad_len);

/*
 * Begins a checking stream under an edition, TIKHOPLAV_EDITION_1 or TIKHOPLAV_EDITION_2, with an AD of ad_len bytes,
 * which come later. With TIKHOPLAV_EDITION_1 it is tikhoplav_checking_begin. The edition stands in the state, and the
 * calls that follow go by it.
 *
 * Writes all of state[0 .. TIKHOPLAV_STATE_SIZE - 1], whatever it held, and answers the clocks so far: 384 under
 * edition 1 or 512 under edition 2, and two for each bit of the coded AD length. Whenever the edition is one of the
 * two, the sizes are legal and the key is not blank, it succeeds.
 *
 * Otherwise it answers the first of these that applies, and writes nothing:
 * UNKNOWN_EDITION, KEY_SIZE, NONCE_SIZE, BLANK_KEY, AD_TOO_LONG, UNSOUND_STATE (if state_len is not
 * TIKHOPLAV_STATE_SIZE).
 */
int64_t tikhoplav_checking_begin_edition(uint32_t edition, uint8_t *state, size_t state_len,
                                         const uint8_t *key, size_t key_len,
                                         const uint8_t *nonce, size_t nonce_len, size_t ad_len);

/*
 * Takes piece[0 .. piece_len - 1] as the next bytes of the AD of a checking stream.
 *
 * Writes the state with the piece taken, and answers the clocks so far: 16 * piece_len more than before. Whenever the
 * state is that of an open checking stream and the piece doesn't go past the length that was told at begin, it
 * succeeds.
 *
 * Otherwise it answers the first of these that applies, and writes nothing:
 * UNSOUND_STATE, OUT_OF_TURN.
 */
int64_t tikhoplav_checking_ad(uint8_t *state, size_t state_len, const uint8_t *piece, size_t piece_len);

/*
 * Takes piece[0 .. piece_len - 1] as the next bytes of the ciphertext of a checking stream, whose AD is complete. The
 * tag is no part of the ciphertext: it goes to tikhoplav_checking_finish.
 *
 * Writes the state with the piece taken, and answers the clocks so far: 16 * piece_len more than before. Whenever the
 * state is that of an open checking stream with its whole AD and the ciphertext stays within TIKHOPLAV_MESSAGE_MAX, it
 * succeeds.
 *
 * Otherwise it answers the first of these that applies, and writes nothing:
 * UNSOUND_STATE, OUT_OF_TURN, MESSAGE_TOO_LONG.
 */
int64_t tikhoplav_checking_ciphertext(uint8_t *state, size_t state_len, const uint8_t *piece, size_t piece_len);

/*
 * Ends a checking stream, whose AD is complete, if tag[0 .. tag_len - 1] is its tag. The ciphertext is what was taken
 * of it, which may be nothing.
 *
 * If the tag is right, writes the state as finished, and answers the clocks of the whole job: 2 more than before. From
 * then on all calls on this state but a begin answer OUT_OF_TURN.
 *
 * Otherwise it answers the first of these that applies, and writes nothing:
 * UNSOUND_STATE, OUT_OF_TURN, SEALED_TOO_SHORT (if tag_len is not TIKHOPLAV_TAG_SIZE), TAG_DIFFERS.
 */
int64_t tikhoplav_checking_finish(uint8_t *state, size_t state_len, const uint8_t *tag, size_t tag_len);

/*
 * Grain-128a
 *
 *   The cipher of the paper "Grain-128a: A New Version of Grain-128 with Optional Authentication" (2011), in both of
 *   its modes. Keys have TIKHOPLAV_KEY_SIZE bytes and nonces (the paper says IV) TIKHOPLAV_NONCE_SIZE, as above. There
 *   is no AD, and there are no editions. The bits of every byte go from the top bit down.
 *
 *     mode                     bit 0 of the nonce   call                        takes                writes
 *     with authentication      1                    tikhoplav_grain128a_seal    message              ciphertext and tag
 *                                                   tikhoplav_grain128a_open    ciphertext and tag   message
 *     without authentication   0                    tikhoplav_grain128a_crypt   message              ciphertext
 *                                                                               ciphertext           message
 *
 *   Bit 0 of the nonce is the top bit of its first byte: `nonce[0] |= 0x80` makes it 1, and `nonce[0] &= 0x7f` makes it
 *   0. The paper has each mode for these nonces alone, and a call refuses the nonces of the other mode. The 95 bits
 *   that remain are the caller's.
 *
 *   The two ciphers don't open one another: opening a payload of the other is like opening under a wrong key. Frames,
 *   streams and tikhoplav_ciphertext_size are Grain-128AEAD's alone.
 *
 * With authentication
 *
 *     sealed payload = ciphertext (as long as the message), then the tag (TIKHOPLAV_GRAIN128A_TAG_SIZE(tag_bits) bytes)
 *
 *   A tag has tag_bits bits, 1 to 32, and stands in as many whole bytes as hold them:
 *
 *     tag_bits            1 to 8   9 to 16   17 to 24   25 to 32
 *     bytes of the tag         1         2          3          4
 *
 *   Its first bit is the top bit of its first byte. The bits that remain of the last byte, below the tag's last bit,
 *   are zero; opening refuses a payload in which one of them is set, as it refuses a wrong tag. A tag of fewer bits is
 *   the last bits of the one of 32, and the ciphertext is the same whatever tag_bits is. So the empty message under the
 *   key 01 23 45 67 89 ab cd ef 12 34 56 78 9a bc de f0 and the nonce 81 23 45 67 89 ab cd ef 12 34 56 78 has the tag
 *   d2 d1 bd a8 of 32 bits, and the tag da 80 of 12.
 *
 *   Nothing in a payload tells how many bits its tag has: both sides have to agree on it beforehand. Under another
 *   number of bits a payload is refused, except by chance. How likely chance is goes by the tag: whoever makes up a
 *   payload finds a tag of n bits in one of 2 to the power of n tries, so one of 8 bits in 256, and one of 1 bit in 2.
 *   Take 32 bits where nothing forbids it.
 *
 * Without authentication
 *
 *   tikhoplav_grain128a_crypt adds the keystream to a message. The same call, with the same key and nonce, on what it
 *   wrote gives the message back, so it both enciphers and deciphers. Nothing is checked: a bit that is changed in the
 *   ciphertext is the same bit changed in the message, and a wrong key or nonce gives other bytes and no refusal.
 *
 * What the calls of Grain-128a refuse
 *
 *   The checks run in this order, and the first that applies is the answer.
 *
 *     sealing                opening                crypt
 *     KEY_SIZE          -1   KEY_SIZE          -1   KEY_SIZE          -1
 *     NONCE_SIZE        -2   NONCE_SIZE        -2   NONCE_SIZE        -2
 *     BLANK_KEY        -15   BLANK_KEY        -15   BLANK_KEY        -15
 *     NONCE_MODE       -19   NONCE_MODE       -19   NONCE_MODE       -19
 *     TAG_LENGTH       -20   TAG_LENGTH       -20
 *     MESSAGE_TOO_LONG  -4   MESSAGE_TOO_LONG  -4   MESSAGE_TOO_LONG  -4
 *                            SEALED_TOO_SHORT  -5
 *     OUTPUT_TOO_SHORT  -6   OUTPUT_TOO_SHORT  -6   OUTPUT_TOO_SHORT  -6
 *                            TAG_DIFFERS       -7
 *
 *   With T for TIKHOPLAV_GRAIN128A_TAG_SIZE(tag_bits): MESSAGE_TOO_LONG is a message_len over TIKHOPLAV_MESSAGE_MAX, or
 *   a sealed_len over TIKHOPLAV_MESSAGE_MAX + T. SEALED_TOO_SHORT is a sealed_len under T. OUTPUT_TOO_SHORT is an
 *   out_len under message_len + T (sealing), sealed_len - T (opening) or message_len (crypt). TAG_DIFFERS is a tag that
 *   is not the one that key, nonce and ciphertext give, or a set bit past its length.
 *
 * What the caller owes for Grain-128a
 *
 *   - All that is owed for sealing and opening.
 *   - A nonce is never used for two messages under one key. To use it again with crypt for the message that it was used
 *     for, or to open, is no second use. (A nonce of one mode is never one of the other.)
 *   - A key of Grain-128a is not used with Grain-128AEAD, in either edition, nor the other way round: the two ciphers
 *     load their registers alike, and what one gives away can be what the other has to hide.
 *   - Whoever may have payloads opened as often as they like finds a short tag by trying. No call counts refusals.
 *
 * A whole program that seals and opens with Grain-128a (a real key is random and secret)
 *
 *     #include <stdio.h>
 *     #include <tikhoplav.h>
 *
 *     int main(void)
 *     {
 *         static const uint8_t key[TIKHOPLAV_KEY_SIZE] = "no real key", message[] = "2400 rpm";
 *         enum { TAG_BITS = 32, TAG_SIZE = TIKHOPLAV_GRAIN128A_TAG_SIZE(TAG_BITS) };
 *         uint8_t nonce[TIKHOPLAV_NONCE_SIZE] = "never twice";
 *         uint8_t sealed[sizeof message + TAG_SIZE], opened[sizeof message], in_secret[sizeof message];
 *         int64_t n;
 *         nonce[0] |= 0x80; // with authentication
 *         n = tikhoplav_grain128a_seal(key, sizeof key, nonce, sizeof nonce, TAG_BITS,
 *                                      message, sizeof message, sealed, sizeof sealed);
 *         if (n >= 0)
 *             n = tikhoplav_grain128a_open(key, sizeof key, nonce, sizeof nonce, TAG_BITS,
 *                                          sealed, (size_t)n, opened, sizeof opened);
 *
 *         nonce[0] &= 0x7f; // without authentication
 *         if (n >= 0)
 *             n = tikhoplav_grain128a_crypt(key, sizeof key, nonce, sizeof nonce,
 *                                           opened, sizeof opened, in_secret, sizeof in_secret);
 *         if (n >= 0)
 *             n = tikhoplav_grain128a_crypt(key, sizeof key, nonce, sizeof nonce,
 *                                           in_secret, sizeof in_secret, opened, sizeof opened);
 *         return n < 0 ? (int)-n : puts((const char *)opened) == EOF;
 *     }
 */

/* The most bits of a tag of Grain-128a, and the bytes that a tag of 1 to as many bits takes. */
#define TIKHOPLAV_GRAIN128A_TAG_BITS_MAX 32
#define TIKHOPLAV_GRAIN128A_TAG_SIZE(tag_bits) (((tag_bits) + 7) / 8)

/* Bit 0 of the nonce, the top bit of its first byte, is that of the other mode: sealing and opening have nonces where
   it is 1, crypt has those where it is 0. */
#define TIKHOPLAV_REFUSED_NONCE_MODE (-19)

/* Sealing and opening: tag_bits is 0, or over TIKHOPLAV_GRAIN128A_TAG_BITS_MAX. */
#define TIKHOPLAV_REFUSED_TAG_LENGTH (-20)

/*
 * Seals message[0 .. message_len - 1] with Grain-128a, with a tag of tag_bits bits. Bit 0 of the nonce is 1.
 *
 * Writes the ciphertext to out[0 .. message_len - 1], the tag to the TIKHOPLAV_GRAIN128A_TAG_SIZE(tag_bits) bytes after
 * it, and answers message_len + TIKHOPLAV_GRAIN128A_TAG_SIZE(tag_bits). Whenever the sizes are legal, the key is not
 * blank, bit 0 of the nonce is 1, tag_bits is 1 to TIKHOPLAV_GRAIN128A_TAG_BITS_MAX and out_len is at least that, it
 * succeeds.
 *
 * Otherwise it answers the first of these that applies, and writes nothing:
 * KEY_SIZE, NONCE_SIZE, BLANK_KEY, NONCE_MODE, TAG_LENGTH, MESSAGE_TOO_LONG, OUTPUT_TOO_SHORT.
 */
int64_t tikhoplav_grain128a_seal(const uint8_t *key, size_t key_len, const uint8_t *nonce, size_t nonce_len,
                                 uint32_t tag_bits, const uint8_t *message, size_t message_len,
                                 uint8_t *out, size_t out_len);

/*
 * Opens sealed[0 .. sealed_len - 1], which was sealed with Grain-128a and a tag of tag_bits bits: a ciphertext, whose
 * last TIKHOPLAV_GRAIN128A_TAG_SIZE(tag_bits) bytes are its tag. Bit 0 of the nonce is 1.
 *
 * If the tag is right, and the bits past its length are zero, writes the message to the front of `out` and answers its
 * length, sealed_len - TIKHOPLAV_GRAIN128A_TAG_SIZE(tag_bits), which is 0 for an empty message.
 *
 * Otherwise it answers the first of these that applies, and writes nothing:
 * KEY_SIZE, NONCE_SIZE, BLANK_KEY, NONCE_MODE, TAG_LENGTH, MESSAGE_TOO_LONG, SEALED_TOO_SHORT, OUTPUT_TOO_SHORT,
 * TAG_DIFFERS.
 */
int64_t tikhoplav_grain128a_open(const uint8_t *key, size_t key_len, const uint8_t *nonce, size_t nonce_len,
                                 uint32_t tag_bits, const uint8_t *sealed, size_t sealed_len,
                                 uint8_t *out, size_t out_len);

/*
 * Enciphers message[0 .. message_len - 1] with Grain-128a without authentication, or deciphers it, which is the same.
 * Bit 0 of the nonce is 0.
 *
 * Writes message_len bytes to the front of `out`, the message with the keystream added, and answers message_len, which
 * is 0 for an empty message. Whenever the sizes are legal, the key is not blank, bit 0 of the nonce is 0 and out_len is
 * at least message_len, it succeeds.
 *
 * Otherwise it answers the first of these that applies, and writes nothing:
 * KEY_SIZE, NONCE_SIZE, BLANK_KEY, NONCE_MODE, MESSAGE_TOO_LONG, OUTPUT_TOO_SHORT.
 */
int64_t tikhoplav_grain128a_crypt(const uint8_t *key, size_t key_len, const uint8_t *nonce, size_t nonce_len,
                                  const uint8_t *message, size_t message_len, uint8_t *out, size_t out_len);

/*
 * Grain v1
 *
 *   The cipher of old tags, by the designers' eSTREAM specification. It is here for reading such tags, and never for a
 *   new design: its keys have 80 bits, which is too few today, and it has no tag of its own, so that it tells nothing
 *   about damage. What is new takes Grain-128AEAD.
 *
 *     key                   TIKHOPLAV_GRAINV1_KEY_SIZE bytes, 10
 *     nonce                 TIKHOPLAV_GRAINV1_NONCE_SIZE bytes, 8 (the designers say IV)
 *     message               0 to TIKHOPLAV_MESSAGE_MAX bytes
 *     what is written       as many bytes as the message has
 *
 *   There is no AD, and there are no editions; frames and streams are Grain-128AEAD's alone. The one call,
 *   tikhoplav_grainv1_crypt, adds the keystream to a message. The same call, with the same key and nonce, on what it
 *   wrote gives the message back, so it both enciphers and deciphers. Nothing is checked: a bit that is changed in the
 *   ciphertext is the same bit changed in the message, and a wrong key or nonce gives other bytes and no refusal.
 *
 *   `out` overlaps none of the inputs, so nothing is enciphered in place. The call takes at most 2048 bytes of stack,
 *   as all calls do.
 *
 * The order of bits with Grain v1
 *
 *   The bits of every byte go from the top bit down, in key, nonce, message and output, as with Grain-128a. The
 *   designers' vectors have them from the lowest bit up. Whoever has bytes in that order turns round the bits of every
 *   byte of key, nonce and message before the call, and those of the output after it. So the designers' vector
 *
 *     key 01 23 45 67 89 ab cd ef 12 34   nonce 01 23 45 67 89 ab cd ef   keystream 7f 36 2b d3 f7 ab ae 20 36 64
 *
 *   is this to the call, and the keystream is what it writes for a message of 10 zero bytes:
 *
 *     key 80 c4 a2 e6 91 d5 b3 f7 48 2c   nonce 80 c4 a2 e6 91 d5 b3 f7   keystream fe 6c d4 cb ef d5 75 04 6c 26
 *
 * What the call of Grain v1 refuses
 *
 *   The checks run in this order, and the first that applies is the answer.
 *
 *     KEY_SIZE          -1   key_len is not TIKHOPLAV_GRAINV1_KEY_SIZE
 *     NONCE_SIZE        -2   nonce_len is not TIKHOPLAV_GRAINV1_NONCE_SIZE
 *     MESSAGE_TOO_LONG  -4   message_len is over TIKHOPLAV_MESSAGE_MAX
 *     OUTPUT_TOO_SHORT  -6   out_len is under message_len
 *
 *   A key of zeros is let through: the first of the designers' vectors is under it.
 *
 * What the caller owes for Grain v1
 *
 *   - All that is owed for sealing and opening.
 *   - A nonce is never used for two messages under one key. To use it again for the message that it was used for is no
 *     second use.
 *   - A key of Grain v1 is no part of a key of another cipher.
 *
 * A whole program that enciphers and deciphers with Grain v1 (a real key is random and secret)
 *
 *     #include <stdio.h>
 *     #include <tikhoplav.h>
 *
 *     int main(void)
 *     {
 *         static const uint8_t key[TIKHOPLAV_GRAINV1_KEY_SIZE] = "no key", message[] = "2400 rpm";
 *         static const uint8_t nonce[TIKHOPLAV_GRAINV1_NONCE_SIZE] = "once";
 *         uint8_t in_secret[sizeof message], deciphered[sizeof message];
 *         int64_t n = tikhoplav_grainv1_crypt(key, sizeof key, nonce, sizeof nonce,
 *                                             message, sizeof message, in_secret, sizeof in_secret);
 *         if (n >= 0)
 *             n = tikhoplav_grainv1_crypt(key, sizeof key, nonce, sizeof nonce,
 *                                         in_secret, sizeof in_secret, deciphered, sizeof deciphered);
 *         return n < 0 ? (int)-n : puts((const char *)deciphered) == EOF;
 *     }
 */

/* Sizes in bytes. A key and a nonce of Grain v1 have exactly these. */
#define TIKHOPLAV_GRAINV1_KEY_SIZE 10
#define TIKHOPLAV_GRAINV1_NONCE_SIZE 8

/*
 * Enciphers message[0 .. message_len - 1] with Grain v1, or deciphers it, which is the same. For reading old tags only.
 *
 * Writes message_len bytes to the front of `out`, the message with the keystream added, and answers message_len, which
 * is 0 for an empty message. Whenever the sizes are legal and out_len is at least message_len, it succeeds.
 *
 * Otherwise it answers the first of these that applies, and writes nothing:
 * KEY_SIZE, NONCE_SIZE, MESSAGE_TOO_LONG, OUTPUT_TOO_SHORT.
 */
int64_t tikhoplav_grainv1_crypt(const uint8_t *key, size_t key_len, const uint8_t *nonce, size_t nonce_len,
                                const uint8_t *message, size_t message_len, uint8_t *out, size_t out_len);

#ifdef __cplusplus
}
#endif

#endif
