/* The header's own C, tested: each form on a pointer answers what the call by value answers, stores
   the session back and leaves nothing on the stack; the wipe clears; the constants and the records'
   sizes are what they were. Prints one line, or the first thing that is wrong. `forms first` looks
   at the stack alone, from the first call of a program on: where the linker has left memcpy and
   memset to be found when they are first called, that is done there. */
#include "painted.h"
#include <sys/wait.h>
#include <unistd.h>

static int looked;
static void must(bool holds, const char *what)
{
    looked++;
    if (!holds) { printf("forms: %s\n", what); exit(1); }
}
#define SAME(a, b) (memcmp(&(a), &(b), sizeof(a)) == 0)
static bool same_answer(MalstrinkAnswer a, MalstrinkAnswer b) { return a.refusal == b.refusal && a.a == b.a && a.b == b.b; }
static bool same16(const uint8_t *a, const uint8_t *b) { return memcmp(a, b, 16) == 0; }

static MalstrinkSession s;
static MalstrinkKeys keys;
static uint8_t data[64], frame[256], frame2[256], work[256], work2[256], block[16];
static size_t frame_n;

/* ---- a form and its call by value, from any session */
/* a block is written where it was answered, and else stays */
static void same_block(MalstrinkAnswer a, MalstrinkAnswer b, const uint8_t *want, const char *what)
{
    static const uint8_t before[16] = { 7, 7, 7, 7, 7, 7, 7, 7, 7, 7, 7, 7, 7, 7, 7, 7 };
    must(same_answer(a, b) && same16(block, a.refusal == 0 ? want : before), what);
    memset(block, 7, 16);
}

static void steps_agree(const MalstrinkSession *from)
{
    const MalstrinkBytes8 cuid = malstrink_bytes8(test_cuid), a = malstrink_bytes8(test_rnd_a), b = malstrink_bytes8(test_rnd_b);
    const MalstrinkBytes4 wire = { { 1, 2, 3, 4 } };
    memset(block, 7, 16);
    s = *from;
    MalstrinkStepped c = malstrink_session_challenge(*from, a);
    must(same_answer(malstrink_session_challenge_in(&s, test_rnd_a), c.answer) && SAME(s, c.session), "challenge_in");
    s = *from;
    c = malstrink_session_receive_ccrypt(*from, cuid, b, client);
    must(same_answer(malstrink_session_receive_ccrypt_in(&s, test_cuid, test_rnd_b, client.bytes), c.answer) && SAME(s, c.session), "receive_ccrypt_in");
    s = *from;
    c = malstrink_session_receive_ccrypt(*from, cuid, b, server);
    must(same_answer(malstrink_session_receive_ccrypt_in(&s, test_cuid, test_rnd_b, server.bytes), c.answer) && SAME(s, c.session), "receive_ccrypt_in, bad");
    s = *from;
    c = malstrink_session_confirm_rmac_i(*from, first);
    must(same_answer(malstrink_session_confirm_rmac_i_in(&s, first.bytes), c.answer) && SAME(s, c.session), "confirm_rmac_i_in");
    s = *from;
    c = malstrink_session_verify(*from, data, 20, wire);
    must(same_answer(malstrink_session_verify_in(&s, data, 20, wire.bytes), c.answer) && SAME(s, c.session), "verify_in");
    s = *from;
    MalstrinkSteppedBlock r = malstrink_session_receive_challenge(*from, a, b);
    same_block(malstrink_session_receive_challenge_in(&s, test_rnd_a, test_rnd_b, block), r.answer, r.block, "receive_challenge_in");
    must(SAME(s, r.session), "receive_challenge_in, the session");
    s = *from;
    r = malstrink_session_receive_scrypt(*from, server);
    same_block(malstrink_session_receive_scrypt_in(&s, server.bytes, block), r.answer, r.block, "receive_scrypt_in");
    must(SAME(s, r.session), "receive_scrypt_in, the session");
    s = *from;
    r = malstrink_session_mac(*from, data, 20);
    same_block(malstrink_session_mac_in(&s, data, 20, block), r.answer, r.block, "mac_in");
    must(SAME(s, r.session), "mac_in, the session");
}

static void looks_agree(const MalstrinkSession *from)
{
    s = *from;
    MalstrinkBlockAnswer b = malstrink_session_server_cryptogram(*from);
    same_block(malstrink_session_server_cryptogram_in(&s, block), b.answer, b.block, "server_cryptogram_in");
    b = malstrink_session_initial_rmac(*from);
    same_block(malstrink_session_initial_rmac_in(&s, block), b.answer, b.block, "initial_rmac_in");
    b = malstrink_session_last_other_mac(*from);
    same_block(malstrink_session_last_other_mac_in(&s, block), b.answer, b.block, "last_other_mac_in");
    MalstrinkKeysAnswer k = malstrink_session_keys(*from);
    memset(&keys, 0, sizeof keys);
    must(same_answer(malstrink_session_keys_in(&s, &keys), k.answer) && SAME(keys, k.keys), "keys_in");
    memset(frame, 0, sizeof frame);
    memset(frame2, 0, sizeof frame2);
    MalstrinkCiphered e = malstrink_session_seal_data(*from, data, 20, frame, sizeof frame);
    MalstrinkCiphered f = malstrink_session_seal_data_in(&s, data, 20, frame2, sizeof frame2);
    must(same_answer(e.answer, f.answer) && e.calls == f.calls && SAME(frame, frame2), "seal_data_in");
    e = malstrink_session_open_data(*from, frame, 32, work, sizeof work);
    f = malstrink_session_open_data_in(&s, frame, 32, work2, sizeof work2);
    must(same_answer(e.answer, f.answer) && e.calls == f.calls && SAME(work, work2), "open_data_in");
    must(SAME(s, *from), "a call that only looks changed the session");
}

static void frames_agree(const MalstrinkSession *from, const MalstrinkSession *other)
{
    for (unsigned k = 0; k < 8; k++) {
        const MalstrinkToSeal p = { 5, (uint8_t)(k < 4 ? 1 : 4), (k & 1) != 0, (k >> 1 & 1) != 0, 0x60 };
        s = *from;
        memset(frame, 0, sizeof frame);
        memset(frame2, 0, sizeof frame2);
        MalstrinkSealed v = malstrink_seal(*from, p, data, 20, frame, sizeof frame);
        MalstrinkCiphered w = malstrink_seal_in(&s, p, data, 20, frame2, sizeof frame2);
        must(same_answer(v.answer, w.answer) && v.calls == w.calls && SAME(frame, frame2) && SAME(s, v.session), "seal_in");
        frame_n = v.answer.refusal == 0 ? v.answer.a : 10;
        for (unsigned bad = 0; bad < 2; bad++) {
            frame[frame_n - 1] ^= (uint8_t)bad;
            s = *other;
            MalstrinkUnsealed u = malstrink_unseal(*other, frame, frame_n, work, sizeof work);
            MalstrinkOpened o = malstrink_unseal_in(&s, frame, frame_n, work2, sizeof work2);
            must(same_answer(u.answer, o.answer) && u.calls == o.calls && u.len == o.len && SAME(s, u.session), "unseal_in");
            must(o.payload == (u.answer.refusal != 0 ? NULL : u.in_work ? work2 + u.start : frame + u.start), "unseal_in, the payload");
            must(SAME(work, work2) && (u.answer.refusal != 0 || memcmp(o.payload, data, 20) == 0), "unseal_in, work");
        }
    }
}

static void wipes(const MalstrinkSession *from)
{
    s = *from;
    malstrink_session_wipe_in(&s);
    const MalstrinkSession wiped = malstrink_session_wipe(*from);
    must(SAME(s, wiped), "wipe_in");
    for (size_t i = 1; i < sizeof s; i++) must(((const uint8_t *)&s)[i] == 0, "wipe_in left a byte");
}

/* ---- what stays on the stack */
/* eight bytes together of a secret of this handshake */
static bool secret_at(const uint8_t *p)
{
    const MalstrinkSession *const of[] = { &secure_c, &secure_r, &challenged_r, &s };
    const uint8_t *secrets[20];
    size_t n = 0;
    for (size_t i = 0; i < 4; i++) {
        secrets[n++] = of[i]->scbk;
        secrets[n++] = of[i]->keys.s_enc;
        secrets[n++] = of[i]->keys.s_mac1;
        secrets[n++] = of[i]->keys.s_mac2;
        secrets[n++] = of[i]->chain;
    }
    for (size_t i = 0; i < n; i++)
        for (size_t at = 0; at <= 8; at++)
            if (memcmp(secrets[i] + at, p, 8) == 0) return true;
    return false;
}
static bool secret_left(void)
{
    const uint8_t *const bytes = stack_of_its_own.bytes;
    size_t told = 0;
    for (size_t at = 0; at < ROOM; at++) {
        /* eight bytes that are neither all painted nor all zero */
        told = at > 0 && bytes[at] == bytes[at - 1] && (bytes[at] == paint || bytes[at] == 0) ? told + 1 : 0;
        if (at >= 7 && told < 7 && secret_at(bytes + at - 7)) return true;
    }
    return false;
}
/* Everything from the deepest byte that is not painted on must be zero, as far as
   malstrink_clear_stack reaches; a few bytes may stand there that it needs for itself. */
static bool all_cleared(void)
{
    size_t at = 0, own = 0;
    while (stack_of_its_own.bytes[at] == paint) at++;
    for (size_t i = at; i < at + MALSTRINK_STACK && i < ROOM; i++) own += stack_of_its_own.bytes[i] != 0;
    return ROOM - at >= MALSTRINK_STACK && own <= 64;
}

static const MalstrinkToSeal sealing = { 5, 1, false, true, 0x60 };
/* a frame to call from, so that what ends the run does not write over what is looked at */
#define FROM_BELOW(name, call) \
    static void NOINLINE below_##name(void) { volatile uint8_t pad[1024]; pad[0] = 0; call; pad[1] = pad[0]; }
FROM_BELOW(new, malstrink_session_new_in(&s, test_scbk))
FROM_BELOW(new_reader, malstrink_session_new_reader_in(&s, test_scbk, test_cuid))
FROM_BELOW(challenge, malstrink_session_challenge_in(&s, test_rnd_a))
FROM_BELOW(receive_ccrypt, malstrink_session_receive_ccrypt_in(&s, test_cuid, test_rnd_b, client.bytes))
FROM_BELOW(server_cryptogram, malstrink_session_server_cryptogram_in(&s, block))
FROM_BELOW(initial_rmac, malstrink_session_initial_rmac_in(&s, block))
FROM_BELOW(confirm_rmac_i, malstrink_session_confirm_rmac_i_in(&s, first.bytes))
FROM_BELOW(receive_challenge, malstrink_session_receive_challenge_in(&s, test_rnd_a, test_rnd_b, block))
FROM_BELOW(receive_scrypt, malstrink_session_receive_scrypt_in(&s, server.bytes, block))
FROM_BELOW(mac, malstrink_session_mac_in(&s, data, 20, block))
FROM_BELOW(verify, malstrink_session_verify_in(&s, data, 20, data))
FROM_BELOW(keys, malstrink_session_keys_in(&s, &keys))
FROM_BELOW(last_other_mac, malstrink_session_last_other_mac_in(&s, block))
FROM_BELOW(seal_data, malstrink_session_seal_data_in(&s, data, 20, frame, sizeof frame))
FROM_BELOW(open_data, malstrink_session_open_data_in(&s, data, 32, work, sizeof work))
FROM_BELOW(seal, malstrink_seal_in(&s, sealing, data, 20, frame, sizeof frame))
FROM_BELOW(unseal, malstrink_unseal_in(&s, frame, frame_n, work, sizeof work))

static void leaves_nothing(void (*call)(void), const MalstrinkSession *from, const char *what)
{
    for (unsigned colour = 0x5A; colour <= 0xA5; colour += 0x4B) {
        s = *from;
        run_painted(call, (uint8_t)colour);
        must(!secret_left(), what);
        must(all_cleared(), what);
    }
}

/* A session on the stack, with its key, at the end of its life. The one that is not wiped shows
   that the test sees a key. */
static volatile uint8_t read_state;
static void NOINLINE unwiped(void)
{
    MalstrinkSession mine;
    volatile uint8_t pad[1024];
    pad[0] = 0;
    malstrink_session_new_in(&mine, test_scbk);
    malstrink_session_challenge_in(&mine, test_rnd_a);
    read_state = mine.state;
    pad[1] = pad[0];
}
static void NOINLINE wiped(void)
{
    MalstrinkSession mine;
    volatile uint8_t pad[1024];
    pad[0] = 0;
    malstrink_session_new_in(&mine, test_scbk);
    malstrink_session_challenge_in(&mine, test_rnd_a);
    read_state = mine.state;
    malstrink_session_wipe_in(&mine);
    pad[1] = pad[0];
}
/* ends with a form, so that the compiler would like to give its own large frame back before the
   stack is cleared */
static void NOINLINE ends_with_a_form(void)
{
    volatile uint8_t pad[4096];
    pad[0] = 0;
    read_state = pad[0];
    malstrink_session_new_in(&s, test_scbk);
}
/* one level deeper, so that what ends the run does not write over the session */
static void NOINLINE below_unwiped(void) { volatile uint8_t pad[1024]; pad[0] = 0; unwiped(); pad[1] = pad[0]; }
static void NOINLINE below_wiped(void) { volatile uint8_t pad[1024]; pad[0] = 0; wiped(); pad[1] = pad[0]; }
static void NOINLINE below_the_end(void) { volatile uint8_t pad[1024]; pad[0] = 0; ends_with_a_form(); pad[1] = pad[0]; }

static void stays_on_the_stack(void)
{
    run_painted(below_unwiped, 0x5A);
    must(secret_left(), "a session that is not wiped was not seen on the stack");
    run_painted(below_wiped, 0x5A);
    must(!secret_left(), "a session that was wiped is on the stack");
    s = secure_c;
    run_painted(below_the_end, 0x5A);
    must(!secret_left(), "new_in at a function's end leaves something on the stack");
    leaves_nothing(below_new, &fresh_c, "new_in leaves something on the stack");
    leaves_nothing(below_new_reader, &fresh_r, "new_reader_in leaves something on the stack");
    leaves_nothing(below_challenge, &fresh_c, "challenge_in leaves something on the stack");
    leaves_nothing(below_receive_ccrypt, &challenged_c, "receive_ccrypt_in leaves something on the stack");
    leaves_nothing(below_receive_ccrypt, &secure_c, "receive_ccrypt_in, refused, leaves something on the stack");
    leaves_nothing(below_server_cryptogram, &cryptogrammed, "server_cryptogram_in leaves something on the stack");
    leaves_nothing(below_initial_rmac, &cryptogrammed, "initial_rmac_in leaves something on the stack");
    leaves_nothing(below_confirm_rmac_i, &cryptogrammed, "confirm_rmac_i_in leaves something on the stack");
    leaves_nothing(below_receive_challenge, &fresh_r, "receive_challenge_in leaves something on the stack");
    leaves_nothing(below_receive_scrypt, &challenged_r, "receive_scrypt_in leaves something on the stack");
    leaves_nothing(below_mac, &secure_c, "mac_in leaves something on the stack");
    leaves_nothing(below_verify, &secure_c, "verify_in leaves something on the stack");
    leaves_nothing(below_keys, &secure_c, "keys_in leaves something on the stack");
    leaves_nothing(below_last_other_mac, &secure_c, "last_other_mac_in leaves something on the stack");
    leaves_nothing(below_seal_data, &secure_c, "seal_data_in leaves something on the stack");
    leaves_nothing(below_open_data, &secure_c, "open_data_in leaves something on the stack");
    leaves_nothing(below_seal, &secure_c, "seal_in leaves something on the stack");
    frame_n = malstrink_seal(secure_c, sealing, data, 20, frame, sizeof frame).answer.a;
    leaves_nothing(below_unseal, &secure_r, "unseal_in leaves something on the stack");
    frame[20] ^= 1;
    leaves_nothing(below_unseal, &secure_r, "unseal_in, refused, leaves something on the stack");
}

/* ---- what stays on the stack of a program's first calls */
/* A handshake and a frame each way, form by form, each on a painted stack that is kept. What the
   secrets are is known when all is over; until then nothing here may call memcpy or memset. */
static MalstrinkSession first_c, first_r;
static MalstrinkBytes16 first_client, first_server, first_rmac_i;
static const MalstrinkToSeal replying = { 0x85, 1, true, true, 0x60 };
static size_t reply_n;
FROM_BELOW(first_new, malstrink_session_new_in(&first_c, test_scbk))
FROM_BELOW(first_new_reader, malstrink_session_new_reader_in(&first_r, test_scbk, test_cuid))
FROM_BELOW(first_challenge, malstrink_session_challenge_in(&first_c, test_rnd_a))
FROM_BELOW(first_receive_challenge, malstrink_session_receive_challenge_in(&first_r, test_rnd_a, test_rnd_b, first_client.bytes))
FROM_BELOW(first_receive_ccrypt, malstrink_session_receive_ccrypt_in(&first_c, test_cuid, test_rnd_b, first_client.bytes))
FROM_BELOW(first_server_cryptogram, malstrink_session_server_cryptogram_in(&first_c, first_server.bytes))
FROM_BELOW(first_receive_scrypt, malstrink_session_receive_scrypt_in(&first_r, first_server.bytes, first_rmac_i.bytes))
FROM_BELOW(first_confirm_rmac_i, malstrink_session_confirm_rmac_i_in(&first_c, first_rmac_i.bytes))
FROM_BELOW(first_seal, frame_n = malstrink_seal_in(&first_c, sealing, data, 20, frame, sizeof frame).answer.a)
FROM_BELOW(first_unseal, malstrink_unseal_in(&first_r, frame, frame_n, work, sizeof work))
FROM_BELOW(first_seal_reply, reply_n = malstrink_seal_in(&first_r, replying, data, 20, frame2, sizeof frame2).answer.a)
FROM_BELOW(first_unseal_reply, malstrink_unseal_in(&first_c, frame2, reply_n, work2, sizeof work2))
typedef struct { const char *name; void (*call)(void); } First;
enum { FIRST = 12 };
static const First sealing_first[FIRST] = {
    { "new_in", below_first_new }, { "new_reader_in", below_first_new_reader }, { "challenge_in", below_first_challenge },
    { "receive_challenge_in", below_first_receive_challenge }, { "receive_ccrypt_in", below_first_receive_ccrypt },
    { "server_cryptogram_in", below_first_server_cryptogram }, { "receive_scrypt_in", below_first_receive_scrypt },
    { "confirm_rmac_i_in", below_first_confirm_rmac_i }, { "seal_in", below_first_seal }, { "unseal_in", below_first_unseal },
    { "seal_in", below_first_seal_reply }, { "unseal_in", below_first_unseal_reply }
};
static const First opening_first[FIRST] = {
    { "new_in", below_first_new }, { "new_reader_in", below_first_new_reader }, { "challenge_in", below_first_challenge },
    { "receive_challenge_in", below_first_receive_challenge }, { "receive_ccrypt_in", below_first_receive_ccrypt },
    { "server_cryptogram_in", below_first_server_cryptogram }, { "receive_scrypt_in", below_first_receive_scrypt },
    { "confirm_rmac_i_in", below_first_confirm_rmac_i }, { "unseal_in", below_first_unseal }, { "seal_in", below_first_seal },
    { "seal_in", below_first_seal_reply }, { "unseal_in", below_first_unseal_reply }
};
static uint64_t kept[FIRST][ROOM / 8];

static bool first_calls(const First *calls)
{
    volatile uint64_t *const words = stack_of_its_own.words;
    bool clean = true;
    for (size_t k = 0; k < FIRST; k++) {
        run_painted(calls[k].call, 0x5A);
        for (size_t i = 0; i < ROOM / 8; i++) ((volatile uint64_t *)kept[k])[i] = words[i];
    }
    must(first_c.state == MALSTRINK_STATE_SECURE && first_r.state == MALSTRINK_STATE_SECURE && SAME(first_c.chain, first_r.chain), "a first handshake");
    must(memcmp(work, data, 20) == 0 && memcmp(work2, data, 20) == 0, "first frames");
    shake_hands();
    s = first_c;
    for (size_t k = 0; k < FIRST; k++) {
        for (size_t i = 0; i < ROOM / 8; i++) words[i] = kept[k][i];
        if (!secret_left() && all_cleared()) continue;
        printf("forms: %s leaves something on the stack when it is the first to call memcpy or memset\n", calls[k].name);
        clean = false;
    }
    return clean;
}

/* in a process of its own with sealing first, and then in this one, where nothing was called yet,
   with opening first what that one sealed */
static int first_use(void)
{
    int way[2], ended = 1;
    pid_t other;
    if (pipe(way) != 0) abort();
    other = fork();
    if (other == 0) {
        const bool clean = first_calls(sealing_first);
        fflush(stdout);
        _exit(write(way[1], &frame_n, sizeof frame_n) == sizeof frame_n && write(way[1], frame, sizeof frame) == sizeof frame && clean ? 0 : 1);
    }
    if (other < 0 || waitpid(other, &ended, 0) != other) abort();
    close(way[1]);
    if (read(way[0], &frame_n, sizeof frame_n) != sizeof frame_n || read(way[0], frame, sizeof frame) != sizeof frame) abort();
    if (!first_calls(opening_first) || ended != 0) return 1;
    printf("forms: %d first calls held\n", 2 * FIRST);
    return 0;
}

/* ---- the constants: what the calls answer by them, and the numbers of docs/RULES.md */
static void constants(void)
{
    static const int blocks[] = { MALSTRINK_BLOCK_11, MALSTRINK_BLOCK_12, MALSTRINK_BLOCK_13, MALSTRINK_BLOCK_14,
                                  MALSTRINK_BLOCK_15, MALSTRINK_BLOCK_16, MALSTRINK_BLOCK_17, MALSTRINK_BLOCK_18 };
    char version[32];
    must(MALSTRINK_END_CONTROLLER == 0 && MALSTRINK_END_READER == 1, "the ends");
    must(fresh_c.end == MALSTRINK_END_CONTROLLER && fresh_r.end == MALSTRINK_END_READER, "the ends of new sessions");
    must(MALSTRINK_STATE_DISCONNECTED == 0 && MALSTRINK_STATE_CHALLENGED == 1, "the states");
    must(MALSTRINK_STATE_CRYPTOGRAMMED == 2 && MALSTRINK_STATE_SECURE == 3, "the states");
    must(fresh_c.state == MALSTRINK_STATE_DISCONNECTED && fresh_r.state == MALSTRINK_STATE_DISCONNECTED, "the state of new sessions");
    must(challenged_c.state == MALSTRINK_STATE_CHALLENGED && challenged_r.state == MALSTRINK_STATE_CHALLENGED, "the state Challenged");
    must(cryptogrammed.state == MALSTRINK_STATE_CRYPTOGRAMMED, "the state Cryptogrammed");
    must(secure_c.state == MALSTRINK_STATE_SECURE && secure_r.state == MALSTRINK_STATE_SECURE, "the state Secure");
    must(MALSTRINK_BLOCK_NONE == 0, "no block");
    for (int i = 0; i < 8; i++) {
        const MalstrinkAnswer a = malstrink_scs_type((uint8_t)blocks[i]);
        must(blocks[i] == 0x11 + i && a.refusal == MALSTRINK_REFUSAL_NONE && a.a == (size_t)blocks[i], "the block types");
    }
    must(malstrink_scs_type(0x10).refusal == MALSTRINK_REFUSAL_BAD_SECURITY_BLOCK, "a block type below");
    must(malstrink_scs_type(0x19).refusal == MALSTRINK_REFUSAL_BAD_SECURITY_BLOCK, "a block type above");
    for (unsigned k = 0; k < 4; k++) {
        const MalstrinkToSeal p = { 5, 1, (k & 1) != 0, (k >> 1 & 1) != 0, 0x60 };
        const MalstrinkSealed sealed = malstrink_seal((k & 1) != 0 ? secure_r : secure_c, p, data, 20, frame, sizeof frame);
        must(malstrink_parse(frame, sealed.answer.a).block_type == MALSTRINK_BLOCK_15 + k, "the block type of a sealed frame");
    }
    snprintf(version, sizeof version, "%d.%d.%d", MALSTRINK_VERSION_MAJOR, MALSTRINK_VERSION_MINOR, MALSTRINK_VERSION_PATCH);
    must(strcmp(version, MALSTRINK_VERSION) == 0, "the version's three numbers are not the version");
}

int main(int count, char **words)
{
    for (size_t i = 0; i < sizeof data; i++) data[i] = (uint8_t)(3 * i + 1);
    if (count == 2 && strcmp(words[1], "first") == 0) return first_use();
    shake_hands();
    constants();
    /* the records are as they were: what was compiled before still fits */
    must(sizeof(MalstrinkAnswer) == 24 && sizeof(MalstrinkSession) == 106 && sizeof(MalstrinkStepped) == 136, "sizes");
    must(sizeof(MalstrinkSteppedBlock) == 152 && sizeof(MalstrinkSealed) == 144 && sizeof(MalstrinkUnsealed) == 168, "sizes");
    must(sizeof(MalstrinkParsed) == 96 && sizeof(MalstrinkPacket) == 6 && sizeof(MalstrinkToSeal) == 5 && sizeof(MalstrinkMac) == 5, "sizes");
    must(sizeof(MalstrinkBody) == 80 && sizeof(MalstrinkTriple) == 4, "sizes");

    s = secure_c;
    malstrink_session_new_in(&s, test_scbk);
    must(SAME(s, fresh_c), "new_in");
    s = secure_c;
    malstrink_session_new_reader_in(&s, test_scbk, test_cuid);
    must(SAME(s, fresh_r), "new_reader_in");
    MalstrinkSession odd_end = secure_c, odd_state = secure_r;
    odd_end.end = 9;
    odd_state.state = 200;
    const MalstrinkSession *const all[] = { &fresh_c, &fresh_r, &challenged_c, &challenged_r, &cryptogrammed, &secure_c, &secure_r, &odd_end, &odd_state };
    for (size_t i = 0; i < sizeof all / sizeof *all; i++) {
        steps_agree(all[i]);
        looks_agree(all[i]);
        frames_agree(all[i], all[i] == &secure_c ? &secure_r : &secure_c);
        wipes(all[i]);
    }
    stays_on_the_stack();
    printf("forms: %d held\n", looked);
    return 0;
}
