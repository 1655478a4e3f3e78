/* The proved side of the comparison: reads batches of requests, calls the archive, writes the answers.
   A batch is its length (u32) and requests; a request is an op (u8), the length of its input (u32) and the input.
   Answers are laid out as oracle/beside/src/wire.rs says. All numbers have their low byte first. */
#include "../include/malstrink.h"
#include <stdio.h>
#include <stdlib.h>
#include <string.h>

static uint8_t *answers;
static size_t used, held;

static void put(const void *p, size_t n) {
    if (held < used + n) {
        held = 2 * (used + n);
        answers = realloc(answers, held);
        if (!answers) exit(3);
    }
    memcpy(answers + used, p, n);
    used += n;
}
static void put8(uint8_t x) { put(&x, 1); }
static void put16(uint16_t x) { put8((uint8_t)x); put8((uint8_t)(x >> 8)); }
static void put64(uint64_t x) { for (int i = 0; i < 8; i++) put8((uint8_t)(x >> (8 * i))); }
static void put_answer(MalstrinkAnswer a) { put8(a.refusal); put64(a.a); put64(a.b); }
/* A length that is known only once what it counts has been put; its four bytes were put before. */
static void set32(size_t at, size_t n) { for (int i = 0; i < 4; i++) answers[at + i] = (uint8_t)(n >> (8 * i)); }
static uint32_t get32(const uint8_t *p) { return p[0] | p[1] << 8 | p[2] << 16 | (uint32_t)p[3] << 24; }
static uint64_t get64(const uint8_t *p) { return get32(p) | (uint64_t)get32(p + 4) << 32; }

/* A lent buffer: it is filled before the call, and GUARD bytes more follow it, which no call may touch. All of it is put after the call. */
enum { GUARD = 16 };
static uint8_t *lend(size_t room) {
    uint8_t *out = malloc(room + GUARD);
    if (!out) exit(3);
    for (size_t i = 0; i < room + GUARD; i++) out[i] = (uint8_t)(0xA5 ^ (i * 7));
    return out;
}
static void put_lent(uint8_t *out, size_t room) { put(out, room + GUARD); free(out); }

static void parse(const uint8_t *in, size_t n) {
    MalstrinkParsed p = malstrink_parse(in, n);
    put_answer(p.answer);
    put8(p.addr); put8(p.sqn); put8(p.crc); put8(p.block); put8(p.block_type);
    put64(p.block_start); put64(p.block_len); put8(p.code);
    put64(p.data_start); put64(p.data_len); put64(p.mac_start);
    put8(p.trailer_is_crc); put16(p.trailer); put64(p.len);
}

static void build(const uint8_t *in, bool body) {
    MalstrinkPacket p = { in[0], in[1], in[2], in[3], in[4], in[5] };
    MalstrinkMac mac = { in[6], in[7], in[8], in[9], in[10] };
    size_t bn = get32(in + 11), dn = get32(in + 15), room = get32(in + 19);
    const uint8_t *block = in + 23, *data = block + bn;
    uint8_t *out = lend(room);
    put_answer(body ? malstrink_build_body(p, block, bn, data, dn, out, room) : malstrink_build(p, block, bn, data, dn, mac, out, room));
    put_lent(out, room);
}

static MalstrinkBytes16 get16(const uint8_t *p) { MalstrinkBytes16 b; memcpy(b.bytes, p, 16); return b; }
static MalstrinkBytes8 get8(const uint8_t *p) { MalstrinkBytes8 b; memcpy(b.bytes, p, 8); return b; }
static void put16b(MalstrinkBytes16 b) { put(b.bytes, 16); }

/* 48 bytes in three blocks: what the call does with them is its op's. */
static void keys(uint8_t op, const uint8_t *in) {
    MalstrinkBytes16 k = get16(in), x = get16(in + 16), y = get16(in + 32);
    switch (op) {
    case 14: put16b(malstrink_aes_encrypt(k, x)); break;
    case 15: put16b(malstrink_aes_decrypt(k, x)); break;
    case 16: { MalstrinkKeys d = malstrink_derive(k, get8(in + 16)); put(d.s_enc, 16); put(d.s_mac1, 16); put(d.s_mac2, 16); break; }
    case 17: put16b(malstrink_client_cryptogram(k, get8(in + 16), get8(in + 24))); break;
    case 18: put16b(malstrink_server_cryptogram(k, get8(in + 16), get8(in + 24))); break;
    case 19: put16b(malstrink_initial_rmac(k, x, y)); break;
    case 20: put16b(malstrink_diversify_scbk_legacy(k, get8(in + 16))); break;
    default: put16b(malstrink_complement_icv(k));
    }
}

/* Room, key and start value, then the data. */
static void cipher(uint8_t op, const uint8_t *in, size_t n) {
    size_t room = get32(in), dn = n - 36;
    MalstrinkBytes16 k = get16(in + 4), v = get16(in + 20);
    uint8_t *out = lend(room);
    if (op == 22) put_answer(malstrink_pad_mac(in + 36, dn, out, room));
    else if (op == 23) put_answer(malstrink_pad_data(in + 36, dn, out, room));
    else {
        MalstrinkCiphered c = op == 26 ? malstrink_encrypt_data(k, v, in + 36, dn, out, room) : malstrink_decrypt_data(k, v, in + 36, dn, out, room);
        put_answer(c.answer);
        put64(c.calls);
    }
    put_lent(out, room);
}

/* A session is bytes all through, in the order of its fields. */
_Static_assert(sizeof(MalstrinkSession) == 106, "a session as it travels");
static MalstrinkSession get_session(const uint8_t *p) { MalstrinkSession s; memcpy(&s, p, sizeof s); return s; }
static void put_session(MalstrinkSession s) { put(&s, sizeof s); }
static void put_stepped(MalstrinkStepped s) { put_answer(s.answer); put_session(s.session); }
static void put_stepped_block(MalstrinkSteppedBlock s) { put_answer(s.answer); put(s.block, 16); put_session(s.session); }
static void put_block(MalstrinkBlockAnswer b) { put_answer(b.answer); put(b.block, 16); }
/* A slice without bytes may have any pointer. */
static const uint8_t *slice(const uint8_t *p, size_t n) { return n ? p : NULL; }

/* The session's calls that lend no buffer: the session, then what the call is handed. */
static void session(uint8_t op, const uint8_t *in, size_t n) {
    MalstrinkSession s = get_session(in);
    const uint8_t *x = in + sizeof s;
    size_t m = n - sizeof s;
    switch (op) {
    case 30: put_session(malstrink_session_wipe(s)); break;
    case 31: put_stepped(malstrink_session_challenge(s, get8(x))); break;
    case 32: put_stepped(malstrink_session_receive_ccrypt(s, get8(x), get8(x + 8), get16(x + 16))); break;
    case 33: put_block(malstrink_session_server_cryptogram(s)); break;
    case 34: put_block(malstrink_session_initial_rmac(s)); break;
    case 35: put_stepped(malstrink_session_confirm_rmac_i(s, get16(x))); break;
    case 36: put_stepped_block(malstrink_session_receive_challenge(s, get8(x), get8(x + 8))); break;
    case 37: put_stepped_block(malstrink_session_receive_scrypt(s, get16(x))); break;
    case 38: put_stepped_block(malstrink_session_mac(s, slice(x, m), m)); break;
    case 39: { MalstrinkBytes4 mac; memcpy(mac.bytes, x, 4); put_stepped(malstrink_session_verify(s, slice(x + 4, m - 4), m - 4, mac)); break; }
    case 40: { MalstrinkKeysAnswer k = malstrink_session_keys(s); put_answer(k.answer); put(&k.keys, sizeof k.keys); break; }
    default: put_block(malstrink_session_last_other_mac(s));
    }
}

/* Those that lend one: the session, the buffer's room, what is to be sealed where that is asked, then the bytes. */
static void channel(uint8_t op, const uint8_t *in, size_t n) {
    MalstrinkSession s = get_session(in);
    const uint8_t *x = in + sizeof s + 4, *bytes = op == 44 ? x + 5 : x;
    size_t room = get32(in + sizeof s), m = n - (size_t)(bytes - in);
    uint8_t *out = lend(room);
    if (op == 44) {
        MalstrinkToSeal p = { x[0], x[1], x[2], x[3], x[4] };
        MalstrinkSealed r = malstrink_seal(s, p, slice(bytes, m), m, out, room);
        put_answer(r.answer); put64(r.calls); put_session(r.session);
    } else if (op == 45) {
        MalstrinkUnsealed r = malstrink_unseal(s, slice(bytes, m), m, out, room);
        put_answer(r.answer); put8(r.in_work); put64(r.start); put64(r.len); put64(r.calls); put_session(r.session);
    } else {
        MalstrinkCiphered r = op == 42 ? malstrink_session_seal_data(s, slice(bytes, m), m, out, room)
                                       : malstrink_session_open_data(s, slice(bytes, m), m, out, room);
        put_answer(r.answer); put64(r.calls);
    }
    put_lent(out, room);
}

/* Which slice, start, length, the length of the frame; then the frame and the work buffer. */
static void place(const uint8_t *in, size_t n) {
    size_t start = get64(in + 1), len = get64(in + 9), frame = get32(in + 17), work = n - 21 - frame;
    put_answer(malstrink_payload_test(slice(in + 21, frame), frame, slice(in + 21 + frame, work), work, in[0], start, len));
}

static void call(uint8_t op, const uint8_t *in, size_t n) {
    switch (op) {
    case 0: put8(malstrink_checksum8(in, n)); break;
    case 1: put16(malstrink_crc16(in, n)); break;
    case 2: put_answer(malstrink_address_pd(in[0])); break;
    case 3: put_answer(malstrink_address_reply(in[0])); break;
    case 4: put_answer(malstrink_sqn_new(in[0])); break;
    case 5: put_answer(malstrink_sqn_next(in[0])); break;
    case 6: { MalstrinkControl c = malstrink_control_decode(in[0]); put_answer(c.answer); put8(c.sqn); put8(c.crc); put8(c.block); break; }
    case 7: put_answer(malstrink_control_encode(in[0], in[1], in[2])); break;
    case 8: put_answer(malstrink_scs_type(in[0])); break;
    case 9: { MalstrinkBlock b = malstrink_block(in, n); put_answer(b.answer); put8(b.ty); put8(b.data_len); break; }
    case 10: { MalstrinkHead h = malstrink_head(in, n); put_answer(h.answer); put8(h.addr); put64(h.len); put8(h.sqn); put8(h.crc); put8(h.block); break; }
    case 11: parse(in, n); break;
    case 12: build(in, false); break;
    case 13: build(in, true); break;
    case 14: case 15: case 16: case 17: case 18: case 19: case 20: case 21: keys(op, in); break;
    case 22: case 23: case 26: case 27: cipher(op, in, n); break;
    case 24: put_answer(malstrink_unpad_data(in, n)); break;
    case 25: { MalstrinkChain m = malstrink_cbc_mac(in + 48, n - 48, get16(in), get16(in + 16), get16(in + 32)); put(m.full, 16); put64(m.calls); break; }
    case 28: put_session(malstrink_session_new(get16(in))); break;
    case 29: put_session(malstrink_session_new_reader(get16(in), get8(in + 16))); break;
    case 42: case 43: case 44: case 45: channel(op, in, n); break;
    case 46: place(in, n); break;
    default: if (op < 30 || op > 41) exit(4); session(op, in, n);
    }
}

int main(void) {
    uint8_t head[4], *batch = NULL;
    size_t room = 0;
    while (fread(head, 1, 4, stdin) == 4) {
        size_t n = get32(head), at = 0;
        if (room < n) { room = n; batch = realloc(batch, room); if (!batch) return 3; }
        if (fread(batch, 1, n, stdin) != n) return 2;
        used = 0;
        put("\0\0\0\0", 4);
        while (at + 5 <= n) {
            size_t len = get32(batch + at + 1), before = used;
            put("\0\0\0\0", 4);
            call(batch[at], batch + at + 5, len);
            set32(before, used - before - 4);
            at += 5 + len;
        }
        set32(0, used - 4);
        if (fwrite(answers, 1, used, stdout) != used || fflush(stdout)) return 2;
    }
    return 0;
}
