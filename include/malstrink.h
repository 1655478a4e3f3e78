/* Malstrink for C and C++: OSDP frames, the bodies of replies, the secure handshake at both ends,
   sealing and opening.

   Link libmalstrink.a, which include/archive proves and makes, for x86-64 and for aarch64
   (docs/RULES.md has what each call does). The archive needs memcpy and memset and nothing else; it
   keeps to the System V ABI of x86-64, or to the AAPCS64, and is ELF. How the compiler passes structs
   is tested and not proved. Sizes are of 64 bits there, and the proofs are for 64-bit sizes: on a
   32-bit machine nothing here is proved, and nothing is made for one. Wants C99 or C++11, and gcc or
   clang.

   WHAT A CALLER OWES.
   - A slice is a pointer and a length, of bytes that are there; a pointer of length 0 is not looked
     at. An array, and a session on a pointer, is there in full.
   - What a call writes shares no byte with anything else that it is lent. That is out, work and
     what a form on a pointer answers in (client_cryptogram, server_cryptogram, rmac_i, mac, keys),
     each marked restrict below; and the session of malstrink_seal_in and malstrink_unseal_in, which
     data and frame may not touch either. A seal whose data stands in its own out answers 0 and seals
     other bytes. The proofs take it as given and the calls cannot see it. Compiled with
     -DMALSTRINK_CHECK, every call through this header for which this is asked looks first, and where
     two overlap says on stderr which, and aborts. What is only read may overlap: two slices, and in
     every other form a slice or an array and the session, which is stored when all has been read.
   - A session is one that these calls made and left. Other bytes are taken as they stand (an end or
     a state that is none of the numbers below is refused by 16): what a handshake assures is then
     not assured.
   - A bool is 0 or 1, as C makes them; do not copy other bytes into one.

   No call keeps a pointer, allocates, or fails in another way than by its answer. A lent buffer is
   written only where the answer says so: after a refusal it is as it was, with two exceptions that
   leave no half-opened data behind: a deciphering refused by 14 zeroes the data's length in out,
   and an unsealing of type 17 or 18 refused by 14 or 15 zeroes the encrypted data's length at the
   front of work. The bytes after that stay. */
#ifndef MALSTRINK_H
#define MALSTRINK_H

#if !defined(__ELF__) || !defined(__LP64__) || \
    !(defined(__x86_64__) || (defined(__aarch64__) && defined(__BYTE_ORDER__) && __BYTE_ORDER__ == __ORDER_LITTLE_ENDIAN__))
#error "libmalstrink.a is for x86-64 and aarch64, 64-bit, low byte first, ELF: there is none for this machine, and no proof"
#endif

#include <stdbool.h>
#include <stddef.h>
#include <stdint.h>
#ifdef MALSTRINK_CHECK
#include <stdio.h>
#include <stdlib.h>
#endif

#define MALSTRINK_VERSION "0.1.0"
#define MALSTRINK_VERSION_MAJOR 0
#define MALSTRINK_VERSION_MINOR 1
#define MALSTRINK_VERSION_PATCH 0

#ifdef __cplusplus
#define MALSTRINK_RESTRICT __restrict__
#define MALSTRINK_RESTRICT_16(name) uint8_t *__restrict__ name
extern "C" {
#else
#define MALSTRINK_RESTRICT restrict
#define MALSTRINK_RESTRICT_16(name) uint8_t name[restrict 16]
#endif

/* ---- numbers */
/* the refusals (docs/RULES.md, 1.2), each with what the answer's a and b carry, in this order; what
   is not named is 0. That byte is the one refused, that data the block's; got is what the frame has,
   want what was worked out; have and need are counts of bytes; a CRC is a number of 16 bits */
enum {
    MALSTRINK_REFUSAL_NONE = 0,
    MALSTRINK_REFUSAL_TRUNCATED = 1, /* have, need */
    MALSTRINK_REFUSAL_BAD_SOM = 2, /* that byte */
    MALSTRINK_REFUSAL_BAD_CONTROL_BYTE = 3, /* the control byte */
    MALSTRINK_REFUSAL_BAD_LENGTH = 4, /* LEN, LEN */
    MALSTRINK_REFUSAL_BAD_SECURITY_BLOCK_LENGTH = 5, /* the block's type byte */
    MALSTRINK_REFUSAL_BAD_SECURITY_BLOCK = 6, /* the type byte */
    MALSTRINK_REFUSAL_BAD_CRC = 7, /* got, want */
    MALSTRINK_REFUSAL_BAD_CHECKSUM = 8, /* got, want */
    MALSTRINK_REFUSAL_BAD_ADDRESS = 9, /* that byte */
    MALSTRINK_REFUSAL_BAD_SQN = 10, /* that byte */
    MALSTRINK_REFUSAL_BAD_MAC = 11, /* nothing */
    MALSTRINK_REFUSAL_BUFFER_OVERFLOW = 12, /* the total, 65,535 */
    MALSTRINK_REFUSAL_NOT_SECURE = 13, /* nothing */
    MALSTRINK_REFUSAL_BAD_PADDING = 14, /* nothing */
    MALSTRINK_REFUSAL_BAD_CRYPTOGRAM = 15, /* nothing */
    MALSTRINK_REFUSAL_WRONG_STATE = 16, /* nothing */
    MALSTRINK_REFUSAL_BLOCK_TOO_LONG = 17, /* the length of that data */
    MALSTRINK_REFUSAL_NO_ROOM = 18, /* need, have */
    MALSTRINK_REFUSAL_BAD_BODY = 19, /* the code */
};
/* a session's end and state */
enum { MALSTRINK_END_CONTROLLER = 0, MALSTRINK_END_READER = 1 };
enum {
    MALSTRINK_STATE_DISCONNECTED = 0,
    MALSTRINK_STATE_CHALLENGED = 1,
    MALSTRINK_STATE_CRYPTOGRAMMED = 2,
    MALSTRINK_STATE_SECURE = 3
};
/* block types (docs/RULES.md, 2.4): 11, 13, 15, 17 from the controller, 12, 14, 16, 18 from the
   reader; 11 to 14 the handshake's, 15 and 16 sealed, 17 and 18 sealed and encrypted; 0 no block */
enum {
    MALSTRINK_BLOCK_NONE = 0,
    MALSTRINK_BLOCK_11 = 0x11,
    MALSTRINK_BLOCK_12 = 0x12,
    MALSTRINK_BLOCK_13 = 0x13,
    MALSTRINK_BLOCK_14 = 0x14,
    MALSTRINK_BLOCK_15 = 0x15,
    MALSTRINK_BLOCK_16 = 0x16,
    MALSTRINK_BLOCK_17 = 0x17,
    MALSTRINK_BLOCK_18 = 0x18
};

/* refusal 0: a is what was asked for. Otherwise the refusal's number and the values that it
   carries, in order. */
typedef struct { uint8_t refusal; size_t a, b; } MalstrinkAnswer;

/* An array crosses inside a struct. */
typedef struct { uint8_t bytes[16]; } MalstrinkBytes16;
typedef struct { uint8_t bytes[8]; } MalstrinkBytes8;
typedef struct { uint8_t bytes[4]; } MalstrinkBytes4;

/* ---- sums */
uint8_t malstrink_checksum8(const uint8_t *bytes, size_t n);
uint16_t malstrink_crc16(const uint8_t *bytes, size_t n);

/* ---- the small kinds of a frame; the answer's a is the byte */
typedef struct { MalstrinkAnswer answer; uint8_t sqn; bool crc, block; } MalstrinkControl;
MalstrinkAnswer malstrink_address_pd(uint8_t addr);
MalstrinkAnswer malstrink_address_reply(uint8_t addr);
MalstrinkAnswer malstrink_sqn_new(uint8_t n);
MalstrinkAnswer malstrink_sqn_next(uint8_t n);
MalstrinkControl malstrink_control_decode(uint8_t byte);
MalstrinkAnswer malstrink_control_encode(uint8_t sqn, bool crc, bool block);
MalstrinkAnswer malstrink_scs_type(uint8_t byte);

/* ---- reading; all 0 beside a refusal. Places are counted from the frame's first byte; no block
   has type 0, no MAC place 0 */
typedef struct { MalstrinkAnswer answer; uint8_t ty, data_len; } MalstrinkBlock;
typedef struct { MalstrinkAnswer answer; uint8_t addr; size_t len; uint8_t sqn; bool crc, block; } MalstrinkHead;
typedef struct {
    MalstrinkAnswer answer;
    uint8_t addr, sqn;
    bool crc, block;
    uint8_t block_type;
    size_t block_start, block_len;
    uint8_t code;
    size_t data_start, data_len, mac_start;
    bool trailer_is_crc;
    uint16_t trailer;
    size_t len;
} MalstrinkParsed;
/* the block at the start of a frame's part from byte 5 on */
MalstrinkBlock malstrink_block(const uint8_t *bytes, size_t n);
/* How long the arriving frame is, told by its first five bytes: no other is looked at, and fewer are
   refused by 1. len is LEN as it stands there, any number from 0 to 65,535: test it against your
   room, and before you take 5 off it, since it may be less. What is refused by 2 or 3 the parse
   refuses in the same way, whatever follows: do not wait for more */
MalstrinkHead malstrink_head(const uint8_t *bytes, size_t n);
/* Wait for the LEN bytes that malstrink_head tells, and parse once: fewer are refused by 1 (have,
   LEN), and bytes behind them, or behind the head where LEN is below 5, change no answer. Never read
   on because the parse refuses by 1: it refuses so a whole frame too, one whose block runs past its
   end. include/driver.c has the loop */
MalstrinkParsed malstrink_parse(const uint8_t *bytes, size_t n);

/* ---- bodies of replies (docs/RULES.md, 13): a payload read whole, or refused by 19. code is the
   frame's, as malstrink_parse tells it. payload is what unsealing shows, or where the frame has no
   MAC (mac_start is 0) the frame's data. The call cannot see which it is handed, and reads the data
   of a sealed frame all the same, enciphered or not: where mac_start is not 0, unseal first. A reply
   without a MAC may be anybody's. (The body of a frame, malstrink_build_body's, is another thing.) */
enum {
    MALSTRINK_BODY_ACK = 0x40, /* no bytes */
    MALSTRINK_BODY_NAK = 0x41, /* rest: what follows the error byte, as it stands */
    MALSTRINK_BODY_PDID = 0x45, /* no rest */
    MALSTRINK_BODY_PDCAP = 0x46, /* rest: the triples, of three bytes each, one or more */
    MALSTRINK_BODY_LSTATR = 0x48, /* no rest */
    MALSTRINK_BODY_RAW = 0x50, /* rest: the bits, in exactly the bytes that they need */
    MALSTRINK_BODY_KEYPAD = 0x53 /* rest: the digits, count of them */
};
/* What a kind does not have is 0; all 0 beside a refusal. The rest is what follows the numbers, from
   payload[rest_start] on, rest_len bytes, which is to the payload's end. number is the bits of a RAW
   of 1 to 64 as they stand, the first one highest; what is spare in the last byte is no part of it. */
typedef struct {
    MalstrinkAnswer answer;
    uint8_t code;
    uint8_t error; /* NAK */
    uint8_t vendor[3], model, version; /* PDID, with the four that follow */
    uint32_t serial;
    uint8_t firmware_major, firmware_minor, firmware_build;
    uint8_t tamper, power; /* LSTATR */
    uint8_t reader; /* RAW and KEYPAD */
    uint8_t format; /* RAW */
    uint16_t bits; /* RAW */
    uint8_t count; /* KEYPAD */
    size_t rest_start, rest_len;
    bool has_number; /* RAW of 1 to 64 bits */
    uint64_t number;
} MalstrinkBody;
MalstrinkBody malstrink_read_body(uint8_t code, const uint8_t *payload, size_t n);
/* triple i of a PDCAP, counted from 0; rest_len / 3 of them are there. The payload is read anew: where
   it is refused, is of another code or has no such triple, all is 0 */
typedef struct { bool there; uint8_t function, compliance, number; } MalstrinkTriple;
MalstrinkTriple malstrink_triple(uint8_t code, const uint8_t *payload, size_t n, size_t i);

/* ---- building; block is the control byte's flag, block_type 0 where there is no block. a: how
   many bytes were written. out overlaps neither block nor data */
typedef struct { uint8_t addr, sqn; bool crc, block; uint8_t block_type, code; } MalstrinkPacket;
typedef struct { bool given; uint8_t b0, b1, b2, b3; } MalstrinkMac;
MalstrinkAnswer malstrink_build(MalstrinkPacket p, const uint8_t *block, size_t block_n, const uint8_t *data, size_t data_n,
                                MalstrinkMac mac, uint8_t *MALSTRINK_RESTRICT out, size_t out_n);
/* what a MAC is worked out over: from 53 to the end of data; not the body of a reply, above */
MalstrinkAnswer malstrink_build_body(MalstrinkPacket p, const uint8_t *block, size_t block_n, const uint8_t *data, size_t data_n,
                                     uint8_t *MALSTRINK_RESTRICT out, size_t out_n);

/* ---- keys */
typedef struct { uint8_t s_enc[16], s_mac1[16], s_mac2[16]; } MalstrinkKeys;
MalstrinkBytes16 malstrink_aes_encrypt(MalstrinkBytes16 key, MalstrinkBytes16 block);
MalstrinkBytes16 malstrink_aes_decrypt(MalstrinkBytes16 key, MalstrinkBytes16 block);
MalstrinkKeys malstrink_derive(MalstrinkBytes16 scbk, MalstrinkBytes8 rnd_a);
MalstrinkBytes16 malstrink_client_cryptogram(MalstrinkBytes16 s_enc, MalstrinkBytes8 rnd_a, MalstrinkBytes8 rnd_b);
MalstrinkBytes16 malstrink_server_cryptogram(MalstrinkBytes16 s_enc, MalstrinkBytes8 rnd_a, MalstrinkBytes8 rnd_b);
MalstrinkBytes16 malstrink_initial_rmac(MalstrinkBytes16 s_mac1, MalstrinkBytes16 s_mac2, MalstrinkBytes16 server);
MalstrinkBytes16 malstrink_diversify_scbk_legacy(MalstrinkBytes16 mk, MalstrinkBytes8 cuid);

/* ---- padding, MAC and CBC; calls: how often the cipher was called, key expansion not counted.
   data and out do not overlap */
typedef struct { MalstrinkAnswer answer; size_t calls; } MalstrinkCiphered;
typedef struct { uint8_t full[16]; size_t calls; } MalstrinkChain;
MalstrinkAnswer malstrink_pad_mac(const uint8_t *MALSTRINK_RESTRICT data, size_t data_n, uint8_t *MALSTRINK_RESTRICT out, size_t out_n);
MalstrinkAnswer malstrink_pad_data(const uint8_t *MALSTRINK_RESTRICT data, size_t data_n, uint8_t *MALSTRINK_RESTRICT out, size_t out_n);
MalstrinkAnswer malstrink_unpad_data(const uint8_t *bytes, size_t n);
MalstrinkBytes16 malstrink_complement_icv(MalstrinkBytes16 mac);
MalstrinkChain malstrink_cbc_mac(const uint8_t *input, size_t n, MalstrinkBytes16 icv, MalstrinkBytes16 s_mac1, MalstrinkBytes16 s_mac2);
MalstrinkCiphered malstrink_encrypt_data(MalstrinkBytes16 s_enc, MalstrinkBytes16 iv, const uint8_t *MALSTRINK_RESTRICT data, size_t data_n,
                                         uint8_t *MALSTRINK_RESTRICT out, size_t out_n);
MalstrinkCiphered malstrink_decrypt_data(MalstrinkBytes16 s_enc, MalstrinkBytes16 iv, const uint8_t *MALSTRINK_RESTRICT data, size_t data_n,
                                         uint8_t *MALSTRINK_RESTRICT out, size_t out_n);

/* ---- sessions, by value: the answer brings the session after the call, and the old one, with its
   keys, stays where the caller had it. The forms further down, on a pointer, leave one session and
   no copy: take those where you can. A session with an end or a state that is none of the numbers
   above is refused by 16 and comes back unchanged. Beside a refusal, block and keys are zeros. */
typedef struct {
    uint8_t end, state;
    uint8_t scbk[16], rnd_a[8], rnd_b[8], cuid[8];
    MalstrinkKeys keys;
    uint8_t chain[16];
} MalstrinkSession;
typedef struct { MalstrinkAnswer answer; MalstrinkSession session; } MalstrinkStepped;
typedef struct { MalstrinkAnswer answer; uint8_t block[16]; MalstrinkSession session; } MalstrinkSteppedBlock;
typedef struct { MalstrinkAnswer answer; uint8_t block[16]; } MalstrinkBlockAnswer;
typedef struct { MalstrinkAnswer answer; MalstrinkKeys keys; } MalstrinkKeysAnswer;
MalstrinkSession malstrink_session_new(MalstrinkBytes16 scbk);
MalstrinkSession malstrink_session_new_reader(MalstrinkBytes16 scbk, MalstrinkBytes8 cuid);
/* a session that is zero in all but end, whatever the numbers in end and state. To write
   s = malstrink_session_wipe(s) need not clear s: a compiler drops stores that nothing reads.
   malstrink_session_wipe_in clears it */
MalstrinkSession malstrink_session_wipe(MalstrinkSession s);
/* the controller's end */
MalstrinkStepped malstrink_session_challenge(MalstrinkSession s, MalstrinkBytes8 rnd_a);
MalstrinkStepped malstrink_session_receive_ccrypt(MalstrinkSession s, MalstrinkBytes8 cuid, MalstrinkBytes8 rnd_b,
                                                  MalstrinkBytes16 client_cryptogram);
MalstrinkBlockAnswer malstrink_session_server_cryptogram(MalstrinkSession s);
MalstrinkBlockAnswer malstrink_session_initial_rmac(MalstrinkSession s);
MalstrinkStepped malstrink_session_confirm_rmac_i(MalstrinkSession s, MalstrinkBytes16 rmac_i);
/* the reader's end */
MalstrinkSteppedBlock malstrink_session_receive_challenge(MalstrinkSession s, MalstrinkBytes8 rnd_a, MalstrinkBytes8 rnd_b);
MalstrinkSteppedBlock malstrink_session_receive_scrypt(MalstrinkSession s, MalstrinkBytes16 server_cryptogram);
/* either end, once it is Secure; data and out do not overlap */
MalstrinkSteppedBlock malstrink_session_mac(MalstrinkSession s, const uint8_t *bytes, size_t n);
MalstrinkStepped malstrink_session_verify(MalstrinkSession s, const uint8_t *bytes, size_t n, MalstrinkBytes4 wire_mac);
MalstrinkKeysAnswer malstrink_session_keys(MalstrinkSession s);
MalstrinkBlockAnswer malstrink_session_last_other_mac(MalstrinkSession s);
MalstrinkCiphered malstrink_session_seal_data(MalstrinkSession s, const uint8_t *MALSTRINK_RESTRICT data, size_t data_n,
                                              uint8_t *MALSTRINK_RESTRICT out, size_t out_n);
MalstrinkCiphered malstrink_session_open_data(MalstrinkSession s, const uint8_t *MALSTRINK_RESTRICT data, size_t data_n,
                                              uint8_t *MALSTRINK_RESTRICT out, size_t out_n);

/* ---- sealed frames, by value */
typedef struct { uint8_t addr, sqn; bool from_reader, encrypt; uint8_t code; } MalstrinkToSeal;
/* the answer's a: how long the frame in out is */
typedef struct { MalstrinkAnswer answer; size_t calls; MalstrinkSession session; } MalstrinkSealed;
/* where the payload stands: in the work buffer, or (plain) in the frame itself; all 0 beside a
   refusal */
typedef struct { MalstrinkAnswer answer; bool in_work; size_t start, len, calls; MalstrinkSession session; } MalstrinkUnsealed;
/* data and out do not overlap */
MalstrinkSealed malstrink_seal(MalstrinkSession s, MalstrinkToSeal p, const uint8_t *MALSTRINK_RESTRICT data, size_t data_n,
                               uint8_t *MALSTRINK_RESTRICT out, size_t out_n);
/* frame and work do not overlap */
MalstrinkUnsealed malstrink_unseal(MalstrinkSession s, const uint8_t *MALSTRINK_RESTRICT frame, size_t frame_n,
                                   uint8_t *MALSTRINK_RESTRICT work, size_t work_n);
/* refused by 1 (the slice's length, the end needed) where a place runs outside its slice */
MalstrinkAnswer malstrink_payload_test(const uint8_t *frame, size_t frame_n, const uint8_t *work, size_t work_n, bool in_work, size_t start,
                                       size_t len);

/* ======== What follows is C over the proved calls: not proved, and tested by include/test ======== */

/* ---- MALSTRINK_CHECK: do slices overlap that must not? */
#ifdef MALSTRINK_CHECK
static inline void malstrink_no_overlap(const char *call, const char *one, const void *p, size_t n, const char *other, const void *q, size_t m)
{
    const uintptr_t a = (uintptr_t)p, b = (uintptr_t)q;
    if (n != 0 && m != 0 && (a <= b ? b - a < n : a - b < m)) {
        fprintf(stderr, "malstrink: %s: %s and %s overlap\n", call, one, other);
        abort();
    }
}

static inline MalstrinkAnswer malstrink_checked_build(MalstrinkPacket p, const uint8_t *block, size_t block_n, const uint8_t *data, size_t data_n,
                                                      MalstrinkMac mac, uint8_t *out, size_t out_n)
{
    malstrink_no_overlap("malstrink_build", "block", block, block_n, "out", out, out_n);
    malstrink_no_overlap("malstrink_build", "data", data, data_n, "out", out, out_n);
    return malstrink_build(p, block, block_n, data, data_n, mac, out, out_n);
}
static inline MalstrinkAnswer malstrink_checked_build_body(MalstrinkPacket p, const uint8_t *block, size_t block_n, const uint8_t *data,
                                                           size_t data_n, uint8_t *out, size_t out_n)
{
    malstrink_no_overlap("malstrink_build_body", "block", block, block_n, "out", out, out_n);
    malstrink_no_overlap("malstrink_build_body", "data", data, data_n, "out", out, out_n);
    return malstrink_build_body(p, block, block_n, data, data_n, out, out_n);
}
static inline MalstrinkAnswer malstrink_checked_pad_mac(const uint8_t *data, size_t data_n, uint8_t *out, size_t out_n)
{
    malstrink_no_overlap("malstrink_pad_mac", "data", data, data_n, "out", out, out_n);
    return malstrink_pad_mac(data, data_n, out, out_n);
}
static inline MalstrinkAnswer malstrink_checked_pad_data(const uint8_t *data, size_t data_n, uint8_t *out, size_t out_n)
{
    malstrink_no_overlap("malstrink_pad_data", "data", data, data_n, "out", out, out_n);
    return malstrink_pad_data(data, data_n, out, out_n);
}
static inline MalstrinkCiphered malstrink_checked_encrypt_data(MalstrinkBytes16 s_enc, MalstrinkBytes16 iv, const uint8_t *data, size_t data_n,
                                                               uint8_t *out, size_t out_n)
{
    malstrink_no_overlap("malstrink_encrypt_data", "data", data, data_n, "out", out, out_n);
    return malstrink_encrypt_data(s_enc, iv, data, data_n, out, out_n);
}
static inline MalstrinkCiphered malstrink_checked_decrypt_data(MalstrinkBytes16 s_enc, MalstrinkBytes16 iv, const uint8_t *data, size_t data_n,
                                                               uint8_t *out, size_t out_n)
{
    malstrink_no_overlap("malstrink_decrypt_data", "data", data, data_n, "out", out, out_n);
    return malstrink_decrypt_data(s_enc, iv, data, data_n, out, out_n);
}
static inline MalstrinkCiphered malstrink_checked_session_seal_data(MalstrinkSession s, const uint8_t *data, size_t data_n, uint8_t *out,
                                                                    size_t out_n)
{
    malstrink_no_overlap("malstrink_session_seal_data", "data", data, data_n, "out", out, out_n);
    return malstrink_session_seal_data(s, data, data_n, out, out_n);
}
static inline MalstrinkCiphered malstrink_checked_session_open_data(MalstrinkSession s, const uint8_t *data, size_t data_n, uint8_t *out,
                                                                    size_t out_n)
{
    malstrink_no_overlap("malstrink_session_open_data", "data", data, data_n, "out", out, out_n);
    return malstrink_session_open_data(s, data, data_n, out, out_n);
}
static inline MalstrinkSealed malstrink_checked_seal(MalstrinkSession s, MalstrinkToSeal p, const uint8_t *data, size_t data_n, uint8_t *out,
                                                     size_t out_n)
{
    malstrink_no_overlap("malstrink_seal", "data", data, data_n, "out", out, out_n);
    return malstrink_seal(s, p, data, data_n, out, out_n);
}
static inline MalstrinkUnsealed malstrink_checked_unseal(MalstrinkSession s, const uint8_t *frame, size_t frame_n, uint8_t *work, size_t work_n)
{
    malstrink_no_overlap("malstrink_unseal", "frame", frame, frame_n, "work", work, work_n);
    return malstrink_unseal(s, frame, frame_n, work, work_n);
}
#define malstrink_build malstrink_checked_build
#define malstrink_build_body malstrink_checked_build_body
#define malstrink_pad_mac malstrink_checked_pad_mac
#define malstrink_pad_data malstrink_checked_pad_data
#define malstrink_encrypt_data malstrink_checked_encrypt_data
#define malstrink_decrypt_data malstrink_checked_decrypt_data
#define malstrink_session_seal_data malstrink_checked_session_seal_data
#define malstrink_session_open_data malstrink_checked_session_open_data
#define malstrink_seal malstrink_checked_seal
#define malstrink_unseal malstrink_checked_unseal
/* what the forms on a pointer look at */
#define MALSTRINK_APART(call, one, p, n, other, q, m) malstrink_no_overlap(call, one, p, n, other, q, m)
#else
#define MALSTRINK_APART(call, one, p, n, other, q, m) ((void)0)
#endif
#define MALSTRINK_OUTSIDE(call, s, one, p, n) MALSTRINK_APART(call, "the session", s, sizeof *(s), one, p, n)

/* ---- clearing */
/* zeroes n bytes, by stores that a compiler keeps; also for a key of your own, when it has served */
static inline void malstrink_clear(void *p, size_t n)
{
    volatile uint8_t *at = (volatile uint8_t *)p;
    while (n--) *at++ = 0;
}

/* How much stack a form below takes, and zeroes: more than the deepest call needs, as include/stack
   measures it. docs/PERFORMANCE.md, Stack, has the table, call by call. */
#define MALSTRINK_STACK 4096

/* A session crosses by value, so a call leaves copies of it on the stack. Each form below makes its
   call in a function of its own, which is not inlined, and zeroes the stack that this one had. */
#define MALSTRINK_ALONE static __attribute__((noinline, unused))
/* -fstack-protector (which distributions build packages with) would put a guard above the array and
   leave that many bytes at the top uncleared; nothing here can run over the array. gcc before 11
   does not know the attribute: give it -fno-stack-protector */
#ifdef __has_attribute
#if __has_attribute(no_stack_protector)
#define MALSTRINK_NO_GUARD __attribute__((no_stack_protector))
#endif
#endif
#ifndef MALSTRINK_NO_GUARD
#define MALSTRINK_NO_GUARD
#endif
MALSTRINK_ALONE MALSTRINK_NO_GUARD void malstrink_clear_stack(void)
{
    uint64_t deep[MALSTRINK_STACK / 8];
    volatile uint64_t *at = deep;
    size_t i;
    for (i = 0; i < MALSTRINK_STACK / 8; i++) at[i] = 0;
}
/* the empty asm keeps the compiler from jumping to malstrink_clear_stack when the caller's own
   frame is gone */
#define MALSTRINK_CLEARED() do { malstrink_clear_stack(); __asm__ __volatile__("" ::: "memory"); } while (0)

static inline MalstrinkBytes16 malstrink_bytes16(const uint8_t bytes[16])
{
    MalstrinkBytes16 b;
    size_t i;
    for (i = 0; i < 16; i++) b.bytes[i] = bytes[i];
    return b;
}
static inline MalstrinkBytes8 malstrink_bytes8(const uint8_t bytes[8])
{
    MalstrinkBytes8 b;
    size_t i;
    for (i = 0; i < 8; i++) b.bytes[i] = bytes[i];
    return b;
}
/* a block that was answered goes out, unless it was refused */
static inline MalstrinkAnswer malstrink_given16(MalstrinkAnswer a, const uint8_t block[16], uint8_t out[16])
{
    size_t i;
    if (a.refusal == 0) for (i = 0; i < 16; i++) out[i] = block[i];
    return a;
}

/* ---- sessions, by pointer: the proved call of the same name without _in, on the session where it
   stands. The session after the call is stored back, also beside a refusal, and the stack that the
   call had is zeroed, MALSTRINK_STACK bytes of it: the header's own copies of the session and what
   the archive's code laid down there, its key schedules among it. What is not cleared: the
   processor's registers and wherever a system has saved them (a signal, a switch of tasks), your
   own arrays that a key came from (malstrink_clear), and s itself until malstrink_session_wipe_in.
   Link statically, or with -Wl,-z,now, which pkg-config's words have: where memcpy and memset are
   looked up only when they are first called, the dynamic linker saves registers further down than
   is zeroed, as docs/PERFORMANCE.md, Stack, has it measured.
   An array that is answered in (client_cryptogram, ..) overlaps neither the session nor an array or
   a slice that is read, and is written only where the answer's refusal is 0. */

MALSTRINK_ALONE void malstrink_alone_new(MalstrinkSession *s, const uint8_t scbk[16])
{
    *s = malstrink_session_new(malstrink_bytes16(scbk));
}
static inline void malstrink_session_new_in(MalstrinkSession *s, const uint8_t scbk[16])
{
    malstrink_alone_new(s, scbk);
    MALSTRINK_CLEARED();
}

MALSTRINK_ALONE void malstrink_alone_new_reader(MalstrinkSession *s, const uint8_t scbk[16], const uint8_t cuid[8])
{
    *s = malstrink_session_new_reader(malstrink_bytes16(scbk), malstrink_bytes8(cuid));
}
static inline void malstrink_session_new_reader_in(MalstrinkSession *s, const uint8_t scbk[16], const uint8_t cuid[8])
{
    malstrink_alone_new_reader(s, scbk, cuid);
    MALSTRINK_CLEARED();
}

/* zeroes all of *s but end, as malstrink_session_wipe does, by stores that a compiler keeps */
static inline void malstrink_session_wipe_in(MalstrinkSession *s)
{
    const uint8_t end = s->end;
    malstrink_clear(s, sizeof *s);
    *(volatile uint8_t *)&s->end = end;
}

/* the controller's end */
MALSTRINK_ALONE MalstrinkAnswer malstrink_alone_challenge(MalstrinkSession *s, const uint8_t rnd_a[8])
{
    MalstrinkStepped r = malstrink_session_challenge(*s, malstrink_bytes8(rnd_a));
    *s = r.session;
    return r.answer;
}
static inline MalstrinkAnswer malstrink_session_challenge_in(MalstrinkSession *s, const uint8_t rnd_a[8])
{
    MalstrinkAnswer a = malstrink_alone_challenge(s, rnd_a);
    MALSTRINK_CLEARED();
    return a;
}

MALSTRINK_ALONE MalstrinkAnswer malstrink_alone_receive_ccrypt(MalstrinkSession *s, const uint8_t cuid[8], const uint8_t rnd_b[8],
                                                               const uint8_t client_cryptogram[16])
{
    MalstrinkStepped r =
        malstrink_session_receive_ccrypt(*s, malstrink_bytes8(cuid), malstrink_bytes8(rnd_b), malstrink_bytes16(client_cryptogram));
    *s = r.session;
    return r.answer;
}
static inline MalstrinkAnswer malstrink_session_receive_ccrypt_in(MalstrinkSession *s, const uint8_t cuid[8], const uint8_t rnd_b[8],
                                                                  const uint8_t client_cryptogram[16])
{
    MalstrinkAnswer a = malstrink_alone_receive_ccrypt(s, cuid, rnd_b, client_cryptogram);
    MALSTRINK_CLEARED();
    return a;
}

MALSTRINK_ALONE MalstrinkAnswer malstrink_alone_server_cryptogram(const MalstrinkSession *s, uint8_t server_cryptogram[16])
{
    MalstrinkBlockAnswer r = malstrink_session_server_cryptogram(*s);
    return malstrink_given16(r.answer, r.block, server_cryptogram);
}
static inline MalstrinkAnswer malstrink_session_server_cryptogram_in(const MalstrinkSession *s, MALSTRINK_RESTRICT_16(server_cryptogram))
{
    MalstrinkAnswer a;
    MALSTRINK_OUTSIDE("malstrink_session_server_cryptogram_in", s, "server_cryptogram", server_cryptogram, 16);
    a = malstrink_alone_server_cryptogram(s, server_cryptogram);
    MALSTRINK_CLEARED();
    return a;
}

MALSTRINK_ALONE MalstrinkAnswer malstrink_alone_initial_rmac(const MalstrinkSession *s, uint8_t rmac_i[16])
{
    MalstrinkBlockAnswer r = malstrink_session_initial_rmac(*s);
    return malstrink_given16(r.answer, r.block, rmac_i);
}
static inline MalstrinkAnswer malstrink_session_initial_rmac_in(const MalstrinkSession *s, MALSTRINK_RESTRICT_16(rmac_i))
{
    MalstrinkAnswer a;
    MALSTRINK_OUTSIDE("malstrink_session_initial_rmac_in", s, "rmac_i", rmac_i, 16);
    a = malstrink_alone_initial_rmac(s, rmac_i);
    MALSTRINK_CLEARED();
    return a;
}

MALSTRINK_ALONE MalstrinkAnswer malstrink_alone_confirm_rmac_i(MalstrinkSession *s, const uint8_t rmac_i[16])
{
    MalstrinkStepped r = malstrink_session_confirm_rmac_i(*s, malstrink_bytes16(rmac_i));
    *s = r.session;
    return r.answer;
}
static inline MalstrinkAnswer malstrink_session_confirm_rmac_i_in(MalstrinkSession *s, const uint8_t rmac_i[16])
{
    MalstrinkAnswer a = malstrink_alone_confirm_rmac_i(s, rmac_i);
    MALSTRINK_CLEARED();
    return a;
}

/* the reader's end */
MALSTRINK_ALONE MalstrinkAnswer malstrink_alone_receive_challenge(MalstrinkSession *s, const uint8_t rnd_a[8], const uint8_t rnd_b[8],
                                                                  uint8_t client_cryptogram[16])
{
    MalstrinkSteppedBlock r = malstrink_session_receive_challenge(*s, malstrink_bytes8(rnd_a), malstrink_bytes8(rnd_b));
    *s = r.session;
    return malstrink_given16(r.answer, r.block, client_cryptogram);
}
static inline MalstrinkAnswer malstrink_session_receive_challenge_in(MalstrinkSession *s, const uint8_t rnd_a[8], const uint8_t rnd_b[8],
                                                                     MALSTRINK_RESTRICT_16(client_cryptogram))
{
    MalstrinkAnswer a;
    MALSTRINK_OUTSIDE("malstrink_session_receive_challenge_in", s, "client_cryptogram", client_cryptogram, 16);
    MALSTRINK_APART("malstrink_session_receive_challenge_in", "rnd_a", rnd_a, 8, "client_cryptogram", client_cryptogram, 16);
    MALSTRINK_APART("malstrink_session_receive_challenge_in", "rnd_b", rnd_b, 8, "client_cryptogram", client_cryptogram, 16);
    a = malstrink_alone_receive_challenge(s, rnd_a, rnd_b, client_cryptogram);
    MALSTRINK_CLEARED();
    return a;
}

MALSTRINK_ALONE MalstrinkAnswer malstrink_alone_receive_scrypt(MalstrinkSession *s, const uint8_t server_cryptogram[16], uint8_t rmac_i[16])
{
    MalstrinkSteppedBlock r = malstrink_session_receive_scrypt(*s, malstrink_bytes16(server_cryptogram));
    *s = r.session;
    return malstrink_given16(r.answer, r.block, rmac_i);
}
static inline MalstrinkAnswer malstrink_session_receive_scrypt_in(MalstrinkSession *s, const uint8_t server_cryptogram[16],
                                                                  MALSTRINK_RESTRICT_16(rmac_i))
{
    MalstrinkAnswer a;
    MALSTRINK_OUTSIDE("malstrink_session_receive_scrypt_in", s, "rmac_i", rmac_i, 16);
    MALSTRINK_APART("malstrink_session_receive_scrypt_in", "server_cryptogram", server_cryptogram, 16, "rmac_i", rmac_i, 16);
    a = malstrink_alone_receive_scrypt(s, server_cryptogram, rmac_i);
    MALSTRINK_CLEARED();
    return a;
}

/* either end, once it is Secure */
MALSTRINK_ALONE MalstrinkAnswer malstrink_alone_mac(MalstrinkSession *s, const uint8_t *bytes, size_t n, uint8_t mac[16])
{
    MalstrinkSteppedBlock r = malstrink_session_mac(*s, bytes, n);
    *s = r.session;
    return malstrink_given16(r.answer, r.block, mac);
}
static inline MalstrinkAnswer malstrink_session_mac_in(MalstrinkSession *s, const uint8_t *bytes, size_t n, MALSTRINK_RESTRICT_16(mac))
{
    MalstrinkAnswer a;
    MALSTRINK_OUTSIDE("malstrink_session_mac_in", s, "mac", mac, 16);
    MALSTRINK_APART("malstrink_session_mac_in", "bytes", bytes, n, "mac", mac, 16);
    a = malstrink_alone_mac(s, bytes, n, mac);
    MALSTRINK_CLEARED();
    return a;
}

MALSTRINK_ALONE MalstrinkAnswer malstrink_alone_verify(MalstrinkSession *s, const uint8_t *bytes, size_t n, const uint8_t wire_mac[4])
{
    MalstrinkBytes4 mac = { { wire_mac[0], wire_mac[1], wire_mac[2], wire_mac[3] } };
    MalstrinkStepped r = malstrink_session_verify(*s, bytes, n, mac);
    *s = r.session;
    return r.answer;
}
static inline MalstrinkAnswer malstrink_session_verify_in(MalstrinkSession *s, const uint8_t *bytes, size_t n, const uint8_t wire_mac[4])
{
    MalstrinkAnswer a = malstrink_alone_verify(s, bytes, n, wire_mac);
    MALSTRINK_CLEARED();
    return a;
}

MALSTRINK_ALONE MalstrinkAnswer malstrink_alone_keys(const MalstrinkSession *s, MalstrinkKeys *keys)
{
    MalstrinkKeysAnswer r = malstrink_session_keys(*s);
    if (r.answer.refusal == 0) *keys = r.keys;
    return r.answer;
}
static inline MalstrinkAnswer malstrink_session_keys_in(const MalstrinkSession *s, MalstrinkKeys *MALSTRINK_RESTRICT keys)
{
    MalstrinkAnswer a;
    MALSTRINK_OUTSIDE("malstrink_session_keys_in", s, "keys", keys, sizeof *keys);
    a = malstrink_alone_keys(s, keys);
    MALSTRINK_CLEARED();
    return a;
}

MALSTRINK_ALONE MalstrinkAnswer malstrink_alone_last_other_mac(const MalstrinkSession *s, uint8_t mac[16])
{
    MalstrinkBlockAnswer r = malstrink_session_last_other_mac(*s);
    return malstrink_given16(r.answer, r.block, mac);
}
static inline MalstrinkAnswer malstrink_session_last_other_mac_in(const MalstrinkSession *s, MALSTRINK_RESTRICT_16(mac))
{
    MalstrinkAnswer a;
    MALSTRINK_OUTSIDE("malstrink_session_last_other_mac_in", s, "mac", mac, 16);
    a = malstrink_alone_last_other_mac(s, mac);
    MALSTRINK_CLEARED();
    return a;
}

/* out overlaps neither data nor the session */
MALSTRINK_ALONE MalstrinkCiphered malstrink_alone_seal_data(const MalstrinkSession *s, const uint8_t *data, size_t data_n, uint8_t *out,
                                                            size_t out_n)
{
    return malstrink_session_seal_data(*s, data, data_n, out, out_n);
}
static inline MalstrinkCiphered malstrink_session_seal_data_in(const MalstrinkSession *s, const uint8_t *data, size_t data_n,
                                                               uint8_t *MALSTRINK_RESTRICT out, size_t out_n)
{
    MalstrinkCiphered r;
    MALSTRINK_OUTSIDE("malstrink_session_seal_data_in", s, "out", out, out_n);
    MALSTRINK_APART("malstrink_session_seal_data_in", "data", data, data_n, "out", out, out_n);
    r = malstrink_alone_seal_data(s, data, data_n, out, out_n);
    MALSTRINK_CLEARED();
    return r;
}

MALSTRINK_ALONE MalstrinkCiphered malstrink_alone_open_data(const MalstrinkSession *s, const uint8_t *data, size_t data_n, uint8_t *out,
                                                            size_t out_n)
{
    return malstrink_session_open_data(*s, data, data_n, out, out_n);
}
static inline MalstrinkCiphered malstrink_session_open_data_in(const MalstrinkSession *s, const uint8_t *data, size_t data_n,
                                                               uint8_t *MALSTRINK_RESTRICT out, size_t out_n)
{
    MalstrinkCiphered r;
    MALSTRINK_OUTSIDE("malstrink_session_open_data_in", s, "out", out, out_n);
    MALSTRINK_APART("malstrink_session_open_data_in", "data", data, data_n, "out", out, out_n);
    r = malstrink_alone_open_data(s, data, data_n, out, out_n);
    MALSTRINK_CLEARED();
    return r;
}

/* ---- sealed frames, by pointer. The answer's a: how long the frame in out is. data, out and the
   session do not overlap */
MALSTRINK_ALONE MalstrinkCiphered malstrink_alone_seal(MalstrinkSession *s, MalstrinkToSeal p, const uint8_t *data, size_t data_n, uint8_t *out,
                                                       size_t out_n)
{
    MalstrinkCiphered c;
    MalstrinkSealed r = malstrink_seal(*s, p, data, data_n, out, out_n);
    *s = r.session;
    c.answer = r.answer;
    c.calls = r.calls;
    return c;
}
static inline MalstrinkCiphered malstrink_seal_in(MalstrinkSession *MALSTRINK_RESTRICT s, MalstrinkToSeal p, const uint8_t *MALSTRINK_RESTRICT data,
                                                  size_t data_n, uint8_t *MALSTRINK_RESTRICT out, size_t out_n)
{
    MalstrinkCiphered c;
    MALSTRINK_OUTSIDE("malstrink_seal_in", s, "data", data, data_n);
    MALSTRINK_OUTSIDE("malstrink_seal_in", s, "out", out, out_n);
    MALSTRINK_APART("malstrink_seal_in", "data", data, data_n, "out", out, out_n);
    c = malstrink_alone_seal(s, p, data, data_n, out, out_n);
    MALSTRINK_CLEARED();
    return c;
}

/* payload: len bytes, in work or (plain) in frame itself, so good while both are; NULL and len 0
   beside a refusal. frame, work and the session do not overlap */
typedef struct { MalstrinkAnswer answer; const uint8_t *payload; size_t len, calls; } MalstrinkOpened;
MALSTRINK_ALONE MalstrinkOpened malstrink_alone_unseal(MalstrinkSession *s, const uint8_t *frame, size_t frame_n, uint8_t *work, size_t work_n)
{
    MalstrinkOpened o;
    MalstrinkUnsealed r = malstrink_unseal(*s, frame, frame_n, work, work_n);
    *s = r.session;
    o.answer = r.answer;
    o.payload = r.answer.refusal != 0 ? NULL : r.in_work ? work + r.start : frame + r.start;
    o.len = r.len;
    o.calls = r.calls;
    return o;
}
static inline MalstrinkOpened malstrink_unseal_in(MalstrinkSession *MALSTRINK_RESTRICT s, const uint8_t *MALSTRINK_RESTRICT frame, size_t frame_n,
                                                  uint8_t *MALSTRINK_RESTRICT work, size_t work_n)
{
    MalstrinkOpened o;
    MALSTRINK_OUTSIDE("malstrink_unseal_in", s, "frame", frame, frame_n);
    MALSTRINK_OUTSIDE("malstrink_unseal_in", s, "work", work, work_n);
    MALSTRINK_APART("malstrink_unseal_in", "frame", frame, frame_n, "work", work, work_n);
    o = malstrink_alone_unseal(s, frame, frame_n, work, work_n);
    MALSTRINK_CLEARED();
    return o;
}

#ifdef __cplusplus
}
#endif
#endif
