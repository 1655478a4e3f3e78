/* Runs a function on a stack of its own, painted before, so that what it left there can be looked
   at. For stack.c and forms.c. */
#ifndef _XOPEN_SOURCE
#define _XOPEN_SOURCE 700
#endif
#include "malstrink.h"
#include <stdio.h>
#include <stdlib.h>
#include <string.h>
#include <ucontext.h>

#define NOINLINE __attribute__((noinline))
enum { ROOM = 1 << 14 };
static union { uint8_t bytes[ROOM]; uint64_t words[ROOM / 8]; } stack_of_its_own;
static uint8_t paint;
static ucontext_t outside, inside;

/* painted by stores of its own: forms.c looks at the first memset of a program */
static void run_painted(void (*work)(void), uint8_t colour)
{
    volatile uint64_t *const words = stack_of_its_own.words;
    paint = colour;
    for (size_t i = 0; i < ROOM / 8; i++) words[i] = colour * UINT64_C(0x0101010101010101);
    if (getcontext(&inside) != 0) abort();
    inside.uc_stack.ss_sp = stack_of_its_own.bytes;
    inside.uc_stack.ss_size = ROOM;
    inside.uc_link = &outside;
    makecontext(&inside, work, 0);
    if (swapcontext(&outside, &inside) != 0) abort();
}

static const uint8_t test_scbk[16] = { 0x6E, 0xC4, 0x1B, 0x93, 0xF7, 0x28, 0x5D, 0xA0, 0x81, 0x3C, 0xE9, 0x56, 0x0F, 0xBA, 0x74, 0xD2 };
static const uint8_t test_cuid[8] = { 0x11, 0x12, 0x13, 0x14, 0x15, 0x16, 0x17, 0x18 };
static const uint8_t test_rnd_a[8] = { 0xA0, 0xA1, 0xA2, 0xA3, 0xA4, 0xA5, 0xA6, 0xA7 };
static const uint8_t test_rnd_b[8] = { 0xB0, 0xB1, 0xB2, 0xB3, 0xB4, 0xB5, 0xB6, 0xB7 };

/* the sessions of a handshake, by value, after each step, and what crosses */
static MalstrinkSession fresh_c, fresh_r, challenged_c, challenged_r, cryptogrammed, secure_c, secure_r;
static MalstrinkBytes16 client, server, first;

static void shake_hands(void)
{
    const MalstrinkBytes16 scbk = malstrink_bytes16(test_scbk);
    const MalstrinkBytes8 cuid = malstrink_bytes8(test_cuid), a = malstrink_bytes8(test_rnd_a), b = malstrink_bytes8(test_rnd_b);
    MalstrinkSteppedBlock r;
    MalstrinkStepped c;
    MalstrinkBlockAnswer s;
    fresh_c = malstrink_session_new(scbk);
    fresh_r = malstrink_session_new_reader(scbk, cuid);
    c = malstrink_session_challenge(fresh_c, a);
    challenged_c = c.session;
    r = malstrink_session_receive_challenge(fresh_r, a, b);
    challenged_r = r.session;
    client = malstrink_bytes16(r.block);
    c = malstrink_session_receive_ccrypt(challenged_c, cuid, b, client);
    cryptogrammed = c.session;
    s = malstrink_session_server_cryptogram(cryptogrammed);
    server = malstrink_bytes16(s.block);
    r = malstrink_session_receive_scrypt(challenged_r, server);
    secure_r = r.session;
    first = malstrink_bytes16(r.block);
    c = malstrink_session_confirm_rmac_i(cryptogrammed, first);
    secure_c = c.session;
    if (c.answer.refusal != 0 || secure_c.state != MALSTRINK_STATE_SECURE || secure_r.state != MALSTRINK_STATE_SECURE) abort();
}
