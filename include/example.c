/* A handshake between a controller and a reader, then three commands and their replies, sealed and
   opened, the replies' bodies read, and at the end both sessions wiped. Build, once include/archive
   has made the archive:
       export PKG_CONFIG_PATH=target/archive/$(uname -m)
       cc include/example.c $(pkg-config --cflags --libs malstrink)
   While you work on a program, compile it with -DMALSTRINK_CHECK as well: buffers that overlap are
   then caught. */
#include "malstrink.h"
#include <inttypes.h>
#include <stdio.h>
#include <stdlib.h>
#include <string.h>

static void ask(MalstrinkAnswer a, const char *call)
{
    if (a.refusal != MALSTRINK_REFUSAL_NONE) {
        printf("%s refused by %u\n", call, a.refusal);
        exit(1);
    }
}

/* What a reply says. Its code stands in the frame; unsealing has found it right, with the rest. The
   payload is the opened one: what the frame itself holds is encrypted. */
static void show(const uint8_t *frame, size_t frame_n, MalstrinkOpened opened)
{
    uint8_t code = malstrink_parse(frame, frame_n).code;
    MalstrinkBody body = malstrink_read_body(code, opened.payload, opened.len);
    ask(body.answer, "read_body");
    if (body.has_number) printf("badge %" PRIu64 " at reader %u\n", body.number, body.reader);
    else printf("code %X\n", body.code);
}

/* One end seals data, the other opens it. Three buffers, and no two share a byte: what is sealed,
   the frame on the line, and the room in which the other end opens it. Both sessions move on: a
   frame is opened once, and the next one is sealed from where this one left. */
static void carry(MalstrinkSession *from, MalstrinkSession *to, MalstrinkToSeal p, const uint8_t *data, size_t n)
{
    uint8_t frame[128], work[128];
    MalstrinkCiphered sealed = malstrink_seal_in(from, p, data, n, frame, sizeof frame);
    ask(sealed.answer, "seal");
    MalstrinkOpened opened = malstrink_unseal_in(to, frame, sealed.answer.a, work, sizeof work);
    ask(opened.answer, "unseal");
    if (opened.len != n || memcmp(opened.payload, data, n) != 0 || memcmp(from->chain, to->chain, 16) != 0) {
        puts("the payload or the chain differs");
        exit(1);
    }
    printf("sqn %u, frame of %zu bytes, %zu cipher calls, opened: ", p.sqn, sealed.answer.a, sealed.calls);
    if (p.from_reader) show(frame, sealed.answer.a, opened);
    else printf("%.*s\n", (int)opened.len, (const char *)opened.payload);
    malstrink_clear(work, sizeof work);
}

/* Both ends from nothing to Secure. */
static void shake_hands(MalstrinkSession *controller, MalstrinkSession *reader)
{
    /* A key made up for this example. It is not OSDP's published default (30 31 .. 3F), which
       everybody has: give each reader a key of its own. The random numbers are fixed here; both
       must be fresh for each handshake. */
    static const uint8_t made_up[16] = { 0x6E, 0xC4, 0x1B, 0x93, 0xF7, 0x28, 0x5D, 0xA0, 0x81, 0x3C, 0xE9, 0x56, 0x0F, 0xBA, 0x74, 0xD2 };
    static const uint8_t cuid[8] = { 1, 2, 3, 4, 5, 6, 7, 8 };
    static const uint8_t rnd_a[8] = { 0xA0, 0xA1, 0xA2, 0xA3, 0xA4, 0xA5, 0xA6, 0xA7 };
    static const uint8_t rnd_b[8] = { 0xB0, 0xB1, 0xB2, 0xB3, 0xB4, 0xB5, 0xB6, 0xB7 };
    uint8_t scbk[16], client[16], server[16], first[16];

    memcpy(scbk, made_up, 16);
    malstrink_session_new_in(controller, scbk);
    malstrink_session_new_reader_in(reader, scbk, cuid);
    malstrink_clear(scbk, sizeof scbk);

    ask(malstrink_session_challenge_in(controller, rnd_a), "challenge");
    ask(malstrink_session_receive_challenge_in(reader, rnd_a, rnd_b, client), "receive_challenge");
    ask(malstrink_session_receive_ccrypt_in(controller, cuid, rnd_b, client), "receive_ccrypt");
    ask(malstrink_session_server_cryptogram_in(controller, server), "server_cryptogram");
    ask(malstrink_session_receive_scrypt_in(reader, server, first), "receive_scrypt");
    ask(malstrink_session_confirm_rmac_i_in(controller, first), "confirm_rmac_i");
}

int main(void)
{
    MalstrinkSession controller, reader;
    shake_hands(&controller, &reader);

    /* A connection begins with 0; the handshake's two commands went out with 1 and 2. Each new
       command takes the next number, which after 3 is 1, and a reply has its command's. */
    static const char *const said[3] = { "open cabinet 12", "lamp on shelf 3", "close cabinet 12" };
    /* a badge of 26 bits, read at reader 0 in format 1; an acknowledgement, which has no bytes; the
       badge again */
    static const uint8_t badge[8] = { 0, 1, 26, 0, 0x8F, 0xA3, 0x40, 0x40 };
    static const uint8_t codes[3] = { MALSTRINK_BODY_RAW, MALSTRINK_BODY_ACK, MALSTRINK_BODY_RAW };
    uint8_t sqn = 2;
    for (int i = 0; i < 3; i++) {
        MalstrinkAnswer next = malstrink_sqn_next(sqn);
        ask(next, "sqn_next");
        sqn = (uint8_t)next.a;
        /* address, sequence number, from the reader?, encrypted?, code */
        const MalstrinkToSeal command = { 5, sqn, false, true, 0x80 };
        const MalstrinkToSeal reply = { 0x85, sqn, true, true, codes[i] };
        carry(&controller, &reader, command, (const uint8_t *)said[i], strlen(said[i]));
        carry(&reader, &controller, reply, badge, codes[i] == MALSTRINK_BODY_ACK ? 0 : sizeof badge);
    }

    malstrink_session_wipe_in(&controller);
    malstrink_session_wipe_in(&reader);
    return 0;
}
