/* How much stack each call takes, its answer and the session that it is handed included: one line a
   call, its name and the bytes. Where a call has several ways (encrypted or not, refused or not),
   each is taken, and the deepest counts. The script `stack` makes a table of it. */
#include "painted.h"

static uint8_t data[256], out[512], plain_c[512], sealed_c[512], plain_r[512], sealed_r[512], bad[512];
static size_t plain_c_n, sealed_c_n, plain_r_n, sealed_r_n;
static const MalstrinkBytes8 eight = { { 1, 2, 3, 4, 5, 6, 7, 8 } };
static const MalstrinkBytes4 four = { { 1, 2, 3, 4 } };
static const MalstrinkMac mac_given = { true, 1, 2, 3, 4 };
static const size_t lengths[] = { 0, 9, 208 };
enum { LENGTHS = sizeof lengths / sizeof *lengths };

/* where answers go, so that no call is left out */
static union {
    MalstrinkAnswer answer; MalstrinkControl control; MalstrinkBlock block; MalstrinkHead head; MalstrinkParsed parsed; MalstrinkKeys keys;
    MalstrinkBytes16 bytes16; MalstrinkChain chain; MalstrinkCiphered ciphered; MalstrinkSession session; MalstrinkStepped stepped;
    MalstrinkSteppedBlock stepped_block; MalstrinkBlockAnswer block_answer; MalstrinkKeysAnswer keys_answer; MalstrinkSealed sealed;
    MalstrinkUnsealed unsealed; MalstrinkOpened opened; MalstrinkBody body; MalstrinkTriple triple; uint8_t u8; uint16_t u16;
} to;
static size_t at_length;
static const MalstrinkSession *const all[] = { &fresh_c, &fresh_r, &challenged_c, &challenged_r, &cryptogrammed, &secure_c, &secure_r };
static const MalstrinkSession *one = &fresh_c;
static MalstrinkSession held;
static MalstrinkToSeal asked;
static const uint8_t *seen, *ciphered = data;
static size_t seen_n;
static uint8_t good[208], good_session[208];
/* a body of each kind, and one that is refused */
static const struct { uint8_t code; size_t n; uint8_t payload[12]; } bodies[] = {
    { MALSTRINK_BODY_ACK, 0, { 0 } }, { MALSTRINK_BODY_NAK, 3, { 1, 2, 3 } }, { MALSTRINK_BODY_PDID, 12, { 1, 2, 3 } },
    { MALSTRINK_BODY_PDCAP, 6, { 1, 2, 3 } }, { MALSTRINK_BODY_LSTATR, 2, { 1, 1 } }, { MALSTRINK_BODY_RAW, 12, { 0, 1, 64, 0, 1 } },
    { MALSTRINK_BODY_KEYPAD, 4, { 0, 2, 1, 2 } }, { 0x60, 4, { 0 } }
};
enum { BODIES = sizeof bodies / sizeof *bodies };
static size_t at_body;

#define CALL(name, field, call) static void NOINLINE call_##name(void) { to.field = call; }
#define STEP(name, call) static void NOINLINE call_##name(void) { call; }
CALL(checksum8, u8, malstrink_checksum8(data, lengths[at_length]))
CALL(crc16, u16, malstrink_crc16(data, lengths[at_length]))
CALL(address_pd, answer, malstrink_address_pd(5))
CALL(address_reply, answer, malstrink_address_reply(5))
CALL(sqn_new, answer, malstrink_sqn_new(3))
CALL(sqn_next, answer, malstrink_sqn_next(3))
CALL(control_decode, control, malstrink_control_decode(0x0D))
CALL(control_encode, answer, malstrink_control_encode(1, true, true))
CALL(scs_type, answer, malstrink_scs_type(0x17))
CALL(block, block, malstrink_block(seen, seen_n))
CALL(head, head, malstrink_head(seen, seen_n))
CALL(parse, parsed, malstrink_parse(seen, seen_n))
CALL(read_body, body, malstrink_read_body(bodies[at_body].code, bodies[at_body].payload, bodies[at_body].n))
CALL(triple, triple, malstrink_triple(bodies[at_body].code, bodies[at_body].payload, bodies[at_body].n, at_length))
static MalstrinkPacket packet = { 5, 1, true, true, MALSTRINK_BLOCK_15, 0x60 };
CALL(build, answer, malstrink_build(packet, data, 3, data, lengths[at_length], mac_given, out, sizeof out))
CALL(build_body, answer, malstrink_build_body(packet, data, 3, data, lengths[at_length], out, sizeof out))
CALL(aes_encrypt, bytes16, malstrink_aes_encrypt(client, server))
CALL(aes_decrypt, bytes16, malstrink_aes_decrypt(client, server))
CALL(derive, keys, malstrink_derive(client, eight))
CALL(client_cryptogram, bytes16, malstrink_client_cryptogram(client, eight, eight))
CALL(server_cryptogram, bytes16, malstrink_server_cryptogram(client, eight, eight))
CALL(initial_rmac, bytes16, malstrink_initial_rmac(client, server, first))
CALL(diversify_scbk_legacy, bytes16, malstrink_diversify_scbk_legacy(client, eight))
CALL(pad_mac, answer, malstrink_pad_mac(data, lengths[at_length], out, sizeof out))
CALL(pad_data, answer, malstrink_pad_data(data, lengths[at_length], out, sizeof out))
CALL(unpad_data, answer, malstrink_unpad_data(data, lengths[at_length]))
CALL(complement_icv, bytes16, malstrink_complement_icv(client))
CALL(cbc_mac, chain, malstrink_cbc_mac(data, lengths[at_length], client, server, first))
CALL(encrypt_data, ciphered, malstrink_encrypt_data(client, server, data, lengths[at_length], out, sizeof out))
CALL(decrypt_data, ciphered, malstrink_decrypt_data(client, server, ciphered, lengths[at_length], out, sizeof out))
CALL(session_new, session, malstrink_session_new(client))
CALL(session_new_reader, session, malstrink_session_new_reader(client, eight))
CALL(session_wipe, session, malstrink_session_wipe(*one))
CALL(session_challenge, stepped, malstrink_session_challenge(*one, eight))
CALL(session_receive_ccrypt, stepped, malstrink_session_receive_ccrypt(*one, malstrink_bytes8(test_cuid), malstrink_bytes8(test_rnd_b), client))
CALL(session_server_cryptogram, block_answer, malstrink_session_server_cryptogram(*one))
CALL(session_initial_rmac, block_answer, malstrink_session_initial_rmac(*one))
CALL(session_confirm_rmac_i, stepped, malstrink_session_confirm_rmac_i(*one, first))
CALL(session_receive_challenge, stepped_block, malstrink_session_receive_challenge(*one, eight, eight))
CALL(session_receive_scrypt, stepped_block, malstrink_session_receive_scrypt(*one, server))
CALL(session_mac, stepped_block, malstrink_session_mac(*one, data, lengths[at_length]))
CALL(session_verify, stepped, malstrink_session_verify(*one, data, lengths[at_length], four))
CALL(session_keys, keys_answer, malstrink_session_keys(*one))
CALL(session_last_other_mac, block_answer, malstrink_session_last_other_mac(*one))
CALL(session_seal_data, ciphered, malstrink_session_seal_data(*one, data, lengths[at_length], out, sizeof out))
CALL(session_open_data, ciphered, malstrink_session_open_data(*one, ciphered, lengths[at_length], out, sizeof out))
CALL(seal, sealed, malstrink_seal(*one, asked, data, lengths[at_length], out, sizeof out))
CALL(unseal, unsealed, malstrink_unseal(*one, seen, seen_n, out, sizeof out))
CALL(payload_test, answer, malstrink_payload_test(seen, seen_n, out, sizeof out, true, 5, 5))
/* the functions that the forms on a pointer make their call in, and what clears the stack behind
   them */
STEP(session_new_in, malstrink_alone_new(&held, test_scbk))
STEP(session_new_reader_in, malstrink_alone_new_reader(&held, test_scbk, test_cuid))
CALL(session_challenge_in, answer, malstrink_alone_challenge(&held, test_rnd_a))
CALL(session_receive_ccrypt_in, answer, malstrink_alone_receive_ccrypt(&held, test_cuid, test_rnd_b, client.bytes))
CALL(session_server_cryptogram_in, answer, malstrink_alone_server_cryptogram(&held, out))
CALL(session_initial_rmac_in, answer, malstrink_alone_initial_rmac(&held, out))
CALL(session_confirm_rmac_i_in, answer, malstrink_alone_confirm_rmac_i(&held, first.bytes))
CALL(session_receive_challenge_in, answer, malstrink_alone_receive_challenge(&held, test_rnd_a, test_rnd_b, out))
CALL(session_receive_scrypt_in, answer, malstrink_alone_receive_scrypt(&held, server.bytes, out))
CALL(session_mac_in, answer, malstrink_alone_mac(&held, data, lengths[at_length], out))
CALL(session_verify_in, answer, malstrink_alone_verify(&held, data, lengths[at_length], four.bytes))
CALL(session_keys_in, answer, malstrink_alone_keys(&held, (MalstrinkKeys *)out))
CALL(session_last_other_mac_in, answer, malstrink_alone_last_other_mac(&held, out))
CALL(session_seal_data_in, ciphered, malstrink_alone_seal_data(&held, data, lengths[at_length], out, sizeof out))
CALL(session_open_data_in, ciphered, malstrink_alone_open_data(&held, ciphered, lengths[at_length], out, sizeof out))
CALL(seal_in, ciphered, malstrink_alone_seal(&held, asked, data, lengths[at_length], out, sizeof out))
CALL(unseal_in, opened, malstrink_alone_unseal(&held, seen, seen_n, out, sizeof out))
STEP(clear_stack, malstrink_clear_stack())
static void NOINLINE call_nothing(void) {}

/* how many bytes the work took, seen by what is no longer painted */
static size_t taken(void (*work)(void))
{
    size_t most = 0;
    for (unsigned colour = 0x5A; colour <= 0xA5; colour += 0x4B) {
        size_t at = 0;
        run_painted(work, (uint8_t)colour);
        while (at < ROOM && stack_of_its_own.bytes[at] == paint) at++;
        if (at == 0) abort();
        if (most < ROOM - at) most = ROOM - at;
    }
    return most;
}

static size_t nothing;
static size_t most(size_t a, size_t b) { return a < b ? b : a; }
static size_t once(void (*call)(void)) { held = *one; return taken(call) - nothing; }

/* at every length, from every session, for each of the packets to seal and of the frames seen */
static size_t deepest(void (*call)(void))
{
    const uint8_t *const frames[] = { plain_c, sealed_c, plain_r, sealed_r, bad, data };
    const size_t sizes[] = { plain_c_n, sealed_c_n, plain_r_n, sealed_r_n, sealed_c_n, 3 };
    size_t found = 0;
    for (size_t s = 0; s < sizeof all / sizeof *all; s++) {
        one = all[s];
        for (at_length = 0; at_length < LENGTHS; at_length++)
            for (unsigned k = 0; k < 6; k++) {
                asked.addr = 5;
                asked.sqn = k < 4 ? 1 : 7;
                asked.code = 0x60;
                asked.encrypt = k & 1;
                asked.from_reader = k >> 1 & 1;
                packet.block = k & 1;
                packet.block_type = k & 1 ? MALSTRINK_BLOCK_15 : MALSTRINK_BLOCK_NONE;
                packet.crc = k >> 1 & 1;
                /* well padded for the one, for the other, and for neither */
                ciphered = k % 3 == 0 ? good : k % 3 == 1 ? good_session : data;
                seen = frames[k];
                seen_n = sizes[k];
                at_body = (at_length * 6 + k) % BODIES;
                found = most(found, once(call));
            }
    }
    return found;
}

static size_t frame_of(bool from_reader, bool encrypt, uint8_t *to_frame, size_t room)
{
    const MalstrinkToSeal p = { (uint8_t)(from_reader ? 0x85 : 5), 1, from_reader, encrypt, 0x60 };
    MalstrinkSealed s = malstrink_seal(from_reader ? secure_r : secure_c, p, data, 200, to_frame, room);
    if (s.answer.refusal != 0) abort();
    return s.answer.a;
}

#define ROW(name) { #name, call_##name }
static const struct { const char *name; void (*call)(void); } rows[] = {
    ROW(checksum8), ROW(crc16), ROW(address_pd), ROW(address_reply), ROW(sqn_new), ROW(sqn_next), ROW(control_decode), ROW(control_encode),
    ROW(scs_type), ROW(block), ROW(head), ROW(parse), ROW(read_body), ROW(triple), ROW(build), ROW(build_body), ROW(aes_encrypt),
    ROW(aes_decrypt), ROW(derive),
    ROW(client_cryptogram), ROW(server_cryptogram), ROW(initial_rmac), ROW(diversify_scbk_legacy), ROW(pad_mac), ROW(pad_data), ROW(unpad_data),
    ROW(complement_icv), ROW(cbc_mac), ROW(encrypt_data), ROW(decrypt_data), ROW(session_new), ROW(session_new_reader), ROW(session_wipe),
    ROW(session_challenge), ROW(session_receive_ccrypt), ROW(session_server_cryptogram), ROW(session_initial_rmac), ROW(session_confirm_rmac_i),
    ROW(session_receive_challenge), ROW(session_receive_scrypt), ROW(session_mac), ROW(session_verify), ROW(session_keys),
    ROW(session_last_other_mac), ROW(session_seal_data), ROW(session_open_data), ROW(seal), ROW(unseal), ROW(payload_test),
    ROW(session_new_in), ROW(session_new_reader_in), ROW(session_challenge_in), ROW(session_receive_ccrypt_in), ROW(session_server_cryptogram_in),
    ROW(session_initial_rmac_in), ROW(session_confirm_rmac_i_in), ROW(session_receive_challenge_in), ROW(session_receive_scrypt_in),
    ROW(session_mac_in), ROW(session_verify_in), ROW(session_keys_in), ROW(session_last_other_mac_in), ROW(session_seal_data_in),
    ROW(session_open_data_in), ROW(seal_in), ROW(unseal_in)
};

int main(void)
{
    shake_hands();
    for (size_t i = 0; i < sizeof data; i++) data[i] = (uint8_t)(i * 7);
    plain_c_n = frame_of(false, false, plain_c, sizeof plain_c);
    sealed_c_n = frame_of(false, true, sealed_c, sizeof sealed_c);
    plain_r_n = frame_of(true, false, plain_r, sizeof plain_r);
    sealed_r_n = frame_of(true, true, sealed_r, sizeof sealed_r);
    memcpy(bad, sealed_c, sealed_c_n);
    bad[40] ^= 1;
    if (malstrink_encrypt_data(client, server, data, 200, good, sizeof good).answer.a != 208) abort();
    if (malstrink_session_seal_data(secure_c, data, 200, good_session, sizeof good_session).answer.a != 208) abort();
    if (malstrink_decrypt_data(client, server, good, 208, out, sizeof out).answer.refusal != 0) abort();
    if (malstrink_session_open_data(secure_r, good_session, 208, out, sizeof out).answer.refusal != 0) abort();
    if (malstrink_unseal(secure_r, sealed_c, sealed_c_n, out, sizeof out).answer.refusal != 0) abort();
    if (malstrink_unseal(secure_c, plain_r, plain_r_n, out, sizeof out).answer.refusal != 0) abort();
    nothing = taken(call_nothing);
    const size_t cleared = once(call_clear_stack);
    for (size_t i = 0; i < sizeof rows / sizeof *rows; i++) {
        const size_t bytes = deepest(rows[i].call);
        printf("malstrink_%s %zu\n", rows[i].name, bytes);
        if (i >= 49 && bytes > cleared) {
            fprintf(stderr, "stack: %s takes %zu bytes, and malstrink_clear_stack clears %zu\n", rows[i].name, bytes, cleared);
            return 1;
        }
    }
    printf("malstrink_clear_stack %zu\n", cleared);
    return 0;
}
