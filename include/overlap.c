/* Compiled with MALSTRINK_CHECK: every call that is handed slices or arrays which may not overlap
   and do must say which and abort. What it says goes to stderr, in the order of the cases here, and
   the script `test` compares it. What may overlap comes first, and says nothing. `overlap abort`
   makes one call that is caught and lets it abort. */
#ifndef _XOPEN_SOURCE
#define _XOPEN_SOURCE 700
#endif
#include "malstrink.h"
#include <setjmp.h>
#include <signal.h>
#include <stdio.h>
#include <stdlib.h>
#include <string.h>

static sigjmp_buf back;
static void aborted(int signal) { siglongjmp(back, signal); }

static uint8_t room[1024];
/* read through volatile, so that the compiler cannot see the overlap and warn of it */
static uint8_t *volatile at = room;
static const MalstrinkBytes16 key = { { 1 } };
static const MalstrinkPacket packet = { 5, 1, true, false, MALSTRINK_BLOCK_NONE, 0x60 };
static const MalstrinkMac mac = { false, 0, 0, 0, 0 };
static const MalstrinkToSeal sealing = { 5, 1, false, true, 0x60 };

static void overlap(int which)
{
    uint8_t *const in = at, *const out = at + 15, *const far = at + 300, *const inside = at + 500;
    MalstrinkSession *const s = (MalstrinkSession *)(at + 400);
    switch (which) {
    case 0: malstrink_build(packet, in, 16, far, 16, mac, out, 64); break;
    case 1: malstrink_build(packet, far, 16, in, 16, mac, out, 64); break;
    case 2: malstrink_build_body(packet, in, 16, far, 16, out, 64); break;
    case 3: malstrink_build_body(packet, far, 16, in, 16, out, 64); break;
    case 4: malstrink_pad_mac(in, 16, out, 64); break;
    case 5: malstrink_pad_data(in, 16, out, 64); break;
    case 6: malstrink_encrypt_data(key, key, in, 16, out, 64); break;
    case 7: malstrink_decrypt_data(key, key, in, 16, out, 64); break;
    case 8: malstrink_session_seal_data(*s, in, 16, out, 64); break;
    case 9: malstrink_session_open_data(*s, in, 16, out, 64); break;
    case 10: malstrink_seal(*s, sealing, in, 16, in, 64); break;
    case 11: malstrink_seal(*s, sealing, out + 63, 1, out, 64); break;
    case 12: malstrink_unseal(*s, in, 16, out, 64); break;
    case 13: malstrink_session_seal_data_in(s, in, 16, out, 64); break;
    case 14: malstrink_session_open_data_in(s, in, 16, inside, 64); break;
    case 15: malstrink_seal_in(s, sealing, in, 16, out, 64); break;
    case 16: malstrink_seal_in(s, sealing, inside, 4, out, 64); break;
    case 17: malstrink_unseal_in(s, in, 16, out, 64); break;
    case 18: malstrink_unseal_in(s, in, 16, inside, 4); break;
    case 19: malstrink_session_receive_challenge_in(s, far, far, inside); break;
    case 20: malstrink_session_receive_scrypt_in(s, far, inside); break;
    case 21: malstrink_session_server_cryptogram_in(s, inside); break;
    case 22: malstrink_session_initial_rmac_in(s, inside); break;
    case 23: malstrink_session_mac_in(s, far, 16, inside); break;
    case 24: malstrink_session_last_other_mac_in(s, inside); break;
    case 25: malstrink_session_keys_in(s, &s->keys); break;
    case 26: malstrink_session_receive_challenge_in(s, out, far, in); break;
    case 27: malstrink_session_receive_challenge_in(s, far, out, in); break;
    case 28: malstrink_session_receive_scrypt_in(s, in, out); break;
    case 29: malstrink_session_mac_in(s, in, 16, out); break;
    case 30: malstrink_session_mac_in(s, out, 1, in); break;
    case 31: malstrink_session_seal_data_in(s, in, 16, inside, 64); break;
    case 32: malstrink_session_open_data_in(s, in, 16, out, 64); break;
    case 33: malstrink_seal_in(s, sealing, in, 16, inside, 4); break;
    case 34: malstrink_unseal_in(s, inside, 4, out, 64); break;
    default: puts("overlap: 35 caught"); exit(0);
    }
}

/* what is only read may overlap, and may lie in the session where a call is not malstrink_seal_in
   or malstrink_unseal_in; side by side is not overlapping, and no bytes overlap nothing */
static void allowed(void)
{
    MalstrinkSession *const s = (MalstrinkSession *)(at + 400);
    uint8_t *const inside = at + 500, *const out = at + 600;
    malstrink_pad_mac(at, 16, at + 16, 64);
    malstrink_pad_mac(at + 64, 16, at, 64);
    malstrink_pad_mac(at + 8, 0, at, 64);
    malstrink_pad_mac(at, 16, at + 8, 0);
    malstrink_build(packet, at, 16, at, 16, mac, at + 16, 64);
    malstrink_session_new_reader_in(s, s->scbk, s->cuid);
    malstrink_session_new_in(s, s->scbk);
    malstrink_session_challenge_in(s, s->rnd_a);
    malstrink_session_receive_ccrypt_in(s, s->cuid, s->rnd_b, s->chain);
    malstrink_session_confirm_rmac_i_in(s, s->chain);
    malstrink_session_receive_challenge_in(s, s->rnd_a, s->rnd_a, out);
    malstrink_session_receive_challenge_in(s, at, at + 24, at + 8);
    malstrink_session_receive_scrypt_in(s, s->chain, out);
    malstrink_session_receive_scrypt_in(s, at, at + 16);
    malstrink_session_mac_in(s, s->scbk, 16, out);
    malstrink_session_mac_in(s, at, 16, at + 16);
    malstrink_session_mac_in(s, out + 1, 0, out);
    malstrink_session_verify_in(s, s->scbk, 16, s->chain);
    malstrink_session_seal_data_in(s, inside, 4, out, 64);
    malstrink_session_open_data_in(s, inside, 4, out, 64);
    malstrink_seal_in(s, sealing, at + 384, 16, (uint8_t *)(s + 1), 64);
    malstrink_unseal_in(s, at + 384, 16, (uint8_t *)(s + 1), 64);
}

int main(int count, char **words)
{
    if (count == 2 && strcmp(words[1], "abort") == 0) overlap(10);
    allowed();
    for (volatile int which = 0;; which++) {
        signal(SIGABRT, aborted);
        if (sigsetjmp(back, 1) == 0) {
            overlap(which);
            printf("overlap: case %d was not caught\n", which);
            return 1;
        }
    }
}
